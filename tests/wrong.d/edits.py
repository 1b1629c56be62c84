"""The edits that make wrong programs: a file, a text that stands in it once, and another in its place. A text may go on over lines.
A condition that reads otherwise gives the places after it other names. A line `names:` says an old name and the new one, and the proof of
the function takes the new one along: so that what refuses is a fact, and no name that is gone."""

import re
import sys

WORDS = re.compile(r"^(file|old|new|row|names): ?(.*(?:\n(?!(?:file|old|new|row|names):|#).*)*)", re.M)


def words_of(edit):
    return WORDS.findall(edit.read_text(encoding="utf-8").rstrip("\n"))


def pairs_of(edit, crate):
    """The replacements of an edit: file, text, text in its place."""
    file, old = None, None
    for word, text in words_of(edit):
        if word == "file":
            file = text
        elif word == "old":
            old = text
            times = (crate / file).read_text(encoding="utf-8").count(old)
            if times != 1:
                sys.exit(f"{crate.name}/{edit.stem}: {old!r} stands {times} times in {file}")
        elif word == "new":
            yield file, old, text


def put_in(edit, crate):
    """Puts an edit into a copy of its crate."""
    for file, old, new in pairs_of(edit, crate):
        path = crate / file
        path.write_text(path.read_text(encoding="utf-8").replace(old, new), encoding="utf-8")


def carry_names(edit, folders):
    """Puts the names that an edit makes into its function's proof, where they end a name of a place."""
    for word, text in words_of(edit):
        if word == "names":
            old, new = text.split()
            name = re.compile(rf"(?<![\w-])([\w-]+-){re.escape(old)}(?![\w-])")
            carried = 0
            for path in [path for folder in folders for path in folder.glob("*.antt")]:
                proof, times = name.subn(rf"\g<1>{new}", path.read_text(encoding="utf-8"))
                path.write_text(proof, encoding="utf-8")
                carried += times
            if not carried:
                sys.exit(f"{edit.stem}: no name of the proof ends with {old!r}")
