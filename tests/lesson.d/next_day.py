"""next_day.py [PROGRAM]: the lesson's cuts that go on from a saved table. Each block `opened` of docs/LESSON.md prints the block `prints`
after it, from the table that the session before it left, saved and opened; and the night adds nothing. PROGRAM is `session` of
bindings/rust: it prints the same lines, and its files have the same bytes."""
import pathlib
import subprocess
import sys
import tempfile

from lesson import blocks, show
from lesson import records as records_of

Table = show.Table


def records(text, opened=None):
    return [given for _, given in records_of(text, opened and Table.open(opened).dimensions())]


def run(text, opened=None):
    """The lines of a session, and the file of the table that it leaves."""
    session = show.Session()
    session.table = opened and Table.open(opened)
    lines = "".join(session.turn(given)[0] + "\n" for given in records(text, opened))
    return lines, session.table.save()


def run_program(program, text, opened=None):
    with tempfile.TemporaryDirectory() as room:
        files = [pathlib.Path(room) / name for name in ("opened", "session", "saved")]
        files[0].write_bytes(opened or b"")
        files[1].write_bytes(b"".join(given.bytes() for given in records(text, opened)))
        words = [program, *map(str, files if opened else files[1:])]
        return subprocess.run(words, capture_output=True, text=True, check=True).stdout, files[2].read_bytes()


def wrong(evening, cuts, prints, program):
    """What is wrong with a night, or nothing."""
    lines, file = run(evening)
    next_lines, next_file = run(cuts, file)
    if next_lines != prints:
        return f"it has\n{prints}\nand prints\n{next_lines}"
    if run("", file) != ("", file):
        return "opened and saved, it is another file"
    if run(evening + cuts) != (lines + next_lines, next_file):
        return "without the night it is another table"
    if program and [run_program(program, evening), run_program(program, cuts, file)] != [(lines, file), (next_lines, next_file)]:
        return f"{program} prints other lines, or saves another file"
    return None


def main():
    program, count, last = (sys.argv + [None])[1], 0, {}
    for kind, text in blocks("session", "opened", "prints"):
        last[kind] = text
        if kind == "prints":
            why = wrong(last["session"], last["opened"], text, program)
            if why:
                sys.exit(f"docs/LESSON.md: {why}")
            count += 1
    if count == 0:
        sys.exit("docs/LESSON.md: no session goes on from a saved table")


main()
