"""The lesson's warnings, by the module in bindings/python: each block `warned` of docs/LESSON.md has the cuts of the session before it that
come with a warning, and no others."""
import sys

from lesson import blocks, record, records, show, words_of


def warned(text):
    """The lines of a session whose cuts come with a warning."""
    table, found = None, ""
    for line, given in records(text):
        if isinstance(given, record.Cube):
            table = show.Table.with_primordial_cube_radius(given.dimension, given.radius)
        elif table.cut(*words_of(given)).warning:
            found += f"{line}\n"
    return found


def main():
    session, count = "", 0
    for kind, text in blocks("session", "warned"):
        if kind == "session":
            session = text
        elif warned(session) != text:
            sys.exit(f"docs/LESSON.md: it has these with a warning:\n{text}\nand there are\n{warned(session)}")
        else:
            count += 1
    if count == 0:
        sys.exit("docs/LESSON.md: no cut comes with a warning")


main()
