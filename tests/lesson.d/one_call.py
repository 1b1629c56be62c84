"""The lesson's lists of cuts and its touches, by the module in bindings/python. Each block `listed` of docs/LESSON.md, a cube and cuts of
which all are made in one call, gives the block `answers` after it, and what it leaves is what its cuts leave one by one. Each block
`dragged` gives the block `touches` after it, of the table that the session before it left, and adds nothing to it."""
import sys

from lesson import blocks, cube, records, show, table_after, words_of
from spoonvelvet import ListedCut, Stopped


def shown(answer):
    if isinstance(answer, show.Flush):
        return "flush"
    places = (answer.inside, answer.outside, answer.intersection)
    return " ".join(["cut", *("-" if element is None else str(element.number) for element in places)])


def listed(text):
    """The answers of a list, where it stopped, and the counts of the table left."""
    first, *cuts = [given for _, given in records(text)]
    table = cube(first)
    try:
        lines = [shown(answer) for answer in table.cut_all(ListedCut(*words_of(cut)) for cut in cuts)]
    except Stopped as stopped:
        lines = [*map(shown, stopped.answers), f"refused {stopped.number} at position {stopped.position}"]
        cuts = cuts[: stopped.position]
    singly = cube(first)
    for cut in cuts:
        singly.cut(*words_of(cut))
    if table != singly:
        sys.exit(f"docs/LESSON.md: the cuts leave another table in one call than one by one:\n{text}")
    return "".join(line + "\n" for line in [*lines, " ".join(map(str, table.counts()))])


def dragged(session, text):
    """Each touch with its answer and how many corners were tested."""
    table = table_after(session)
    before, lines = table.copy(), []
    for _, given in records(text.replace("touch", "cut both"), table.dimensions()):
        divider, _, _, root = words_of(given)
        touched = table.touch(divider, root)
        lines.append(f"{touched.answer.name.lower().replace('_', ' ')}, {touched.tested} tested\n")
    if table != before:
        sys.exit("docs/LESSON.md: a touch adds something")
    return "".join(lines)


def main():
    last, counts = {}, {"answers": 0, "touches": 0}
    for kind, text in blocks("session", "listed", "answers", "dragged", "touches"):
        last[kind] = text
        if kind in counts:
            given = listed(last["listed"]) if kind == "answers" else dragged(last["session"], last["dragged"])
            if given != text:
                sys.exit(f"docs/LESSON.md: it has\n{text}\nand they are\n{given}")
            counts[kind] += 1
    if 0 in counts.values():
        sys.exit(f"docs/LESSON.md: {counts}")


main()
