"""The lesson's area sheets, by the module in bindings/python: each block `measured` of docs/LESSON.md, lines of pieces, gives the block `sheet`
after it, of the table that the session before it left."""
import sys

from lesson import blocks, show, table_after
from spoonvelvet import Refused


def sheet(table, line):
    """The areas, their count and the sum of their sizes, or why there are none."""
    word, *numbers = line.split()
    if word != "areas":
        sys.exit(f"docs/LESSON.md: {line}")
    try:
        areas, sizes = table.areas(show.ElementId(int(n)) for n in numbers)
    except Refused as refused:
        return f"refused {refused.number}\n"
    return " ".join(map(str, [*areas, len(areas), sizes])) + "\n"


def main():
    last, met = {}, 0
    for kind, text in blocks("session", "measured", "sheet"):
        last[kind] = text
        if kind == "sheet":
            table = table_after(last["session"])
            given = "".join(sheet(table, line) for line in last["measured"].splitlines())
            if given != text:
                sys.exit(f"docs/LESSON.md: it has\n{text}\nand they are\n{given}")
            met += 1
    if met == 0:
        sys.exit("docs/LESSON.md: no area sheet")


main()
