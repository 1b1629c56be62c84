#!/usr/bin/env python3
"""Brings the repository's own definitions and lemmas to snake case, once, after port.py.

usage: tools/snake_case.py [FOLDER]     the top of the checkout, by default the working folder

A name counts where specs/ or proofs/ declare it with a small letter first: `wordWidth` and `word-width` become `word_width`.
It changes in every .antt file and in the clauses and `ghost use` items of .rt files. Functions, strings, types and modules stay.
Names that would fall together are in OTHER, and the script stops where some are not. What changed is printed, a line a name.
"""
import os
import re
import sys

NAME = r"[^\s(){}.;,@\"«»:\[\]]+"
TOKEN = re.compile(NAME)
# A word that is no field: what stands behind a dot cannot be mistaken for a definition.
BARE = re.compile(r"(?<![^\s(){};,@\"«»\[\]])" + NAME)
DECLARED = re.compile(r"(?m)^([ ]*)((?:(?:pub|abbrev|unfoldable|private) )*)(" + NAME + r")((?: " + NAME + r")*) : (?!tie\.)")
GOAL = re.compile(r"(?m)^(" + NAME + r") :\s+tie\.(?:Need-|invariant-|decreases-)")
CONSTRUCTOR = re.compile(r"(?m)^  (" + NAME + r") : ")
COMMENT = re.compile(r"--.*$", re.M)
CLAUSE = re.compile(r"\b(?:requires|ensures|ghost)\*?(?: \w+)?(?:: )?\s*\{")
USE = re.compile(r"\buse ([^\s;{]+)\.\{([^}]*)\}")
GHOST_USE = re.compile(r"ghost use [^;]*;")

# Names that would fall together, and what they are called instead.
OTHER = {
    "bit-or": "bit_or_lem",  # the library has bit_or
}


def snake(name):
    words = re.sub(r"(?<=[a-z0-9₀-₉′'])([A-Z])(?=[a-z0-9]|$)", lambda m: "_" + m[1].lower(), name)
    return words.replace("-", "_")


def texts(top, ends):
    for folder, dirs, files in os.walk(os.path.join(top, "crates")):
        dirs[:] = sorted(d for d in dirs if d not in ("out", "must-fail"))
        for f in sorted(files):
            if f.endswith(ends):
                yield os.path.join(folder, f)


def read(path):
    with open(path, encoding="utf-8") as f:
        return f.read()


def own_names(top):
    names = set()
    for path in texts(top, ".antt"):
        text = read(path)
        goals = set(GOAL.findall(text))
        for m in DECLARED.finditer(text):
            for n in [m[3]] + m[4].split():
                if re.match(r"[a-z]", n) and n not in goals:
                    names.add(n)
    return names


def own_crates(top):
    return set(os.listdir(os.path.join(top, "crates")))


def foreign(text, crates):
    """The names that a file has from elsewhere: they keep their spelling there."""
    names = set()
    for path, items in USE.findall(text):
        steps = path.split(".")
        if steps[0] != "Rattle" or steps[1] not in crates:
            names.update(TOKEN.findall(items))
    return names


def in_code(text, what):
    """Every part of a .antt file but its comments."""
    out, at = [], 0
    for m in COMMENT.finditer(text):
        out += [what(text[at : m.start()]), m[0]]
        at = m.end()
    return "".join(out + [what(text[at:])])


def closed(text, at):
    depth = 0
    for i in range(at, len(text)):
        depth += {"{": 1, "}": -1}.get(text[i], 0)
        if depth == 0:
            return i + 1
    return len(text)


def spans(text):
    """The clauses and ghost items of a .rt file."""
    found = [m.span() for m in GHOST_USE.finditer(text)]
    for m in CLAUSE.finditer(text):
        if text[text.rfind("\n", 0, m.start()) + 1 : m.start()].lstrip().startswith("//"):
            continue
        found.append((m.start(), closed(text, m.end() - 1)))
    return sorted(found)


def in_clauses(text, what):
    out, at = [], 0
    for start, end in spans(text):
        if start < at:
            continue
        out += [text[at:start], what(text[start:end])]
        at = end
    return "".join(out + [text[at:]])


def names_for(own):
    """A lemma that would have its function's name gets _lem: of two that fall together, the one with dashes, or else the one that port.py turned."""
    turned = {n: OTHER.get(n, snake(n)) for n in own}
    by_new = {}
    for n in sorted(turned):
        by_new.setdefault(turned[n], []).append(n)
    for new, olds in by_new.items():
        camels = [n for n in olds if re.search(r"[a-z0-9][A-Z]", n) and "-" not in n]
        for n in olds:
            if len(olds) > 1 and n != (camels or [new])[0] and n not in OTHER:
                turned[n] = new + "_lem"
    return {n: new for n, new in turned.items() if new != n}


def main():
    top = sys.argv[1] if len(sys.argv) > 1 else "."
    turned = names_for(own_names(top))
    clash, crates = [], own_crates(top)
    for path in texts(top, (".antt", ".rt")):
        text = read(path)
        parts = []
        if path.endswith(".antt"):
            in_code(text, lambda t: parts.append(t) or t)
        else:
            in_clauses(text, lambda t: parts.append(t) or t)
        tokens = {t for part in parts for t in BARE.findall(part)}
        new, theirs = {}, foreign(text, crates)
        for t in sorted(tokens):
            y = t if t in theirs else turned.get(t, t)
            if y in new:
                clash.append(f"{path}: {new[y]} and {t} would both be {y}")
            new.setdefault(y, t)
        if path.endswith(".rt"):
            rust = in_clauses(text, lambda t: " ")
            rust = re.sub(r"//.*", "", rust)
            for t in sorted(tokens & set(turned)):
                if re.search(rf"(?<![\w.]){turned[t]}\s*:(?!:)", rust):
                    clash.append(f"{path}: {t} would be {turned[t]}, a parameter")
    if clash:
        print("\n".join(sorted(set(clash))))
        raise SystemExit(1)
    for path in texts(top, (".antt", ".rt")):
        text = read(path)
        theirs = foreign(text, crates)
        respell = lambda t: TOKEN.sub(lambda m: m[0] if m[0] in theirs else turned.get(m[0], m[0]), t)
        new = in_code(text, respell) if path.endswith(".antt") else in_clauses(text, respell)
        if new != text:
            with open(path, "w", encoding="utf-8") as f:
                f.write(new)
    for n in sorted(turned):
        print(n, turned[n], sep="\t")


main()
