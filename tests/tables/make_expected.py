#!/usr/bin/env python3
"""The inputs and the expected output of the program crates/tables_hard.

cases.py and bases.py are the only source of the inputs. From them this script writes
    crates/tables_hard/src/table.rt    the cases, what each puts into memory, and their names
    crates/tables_hard/stdout          what the program must print, a line for each case
The replies are worked out by model.py, which has document 01's soundness line by line. A damaged memory has to break
just the lines that its case names, and every line has to be broken alone by some case.

    make_expected.py            write both files
    make_expected.py --check    write them to a temporary folder, and fail where the committed ones differ
"""

import filecmp
import pathlib
import sys
import tempfile
import textwrap

sys.dont_write_bytecode = True

import bases
import cases
import model

CRATE = pathlib.Path(__file__).resolve().parents[2] / "crates" / "tables_hard"
FILES = ("src/table.rt", "stdout")

# ---- what memory holds before a case


def put_run(memory, run):
    piece, position, value, times, stride, growth = run
    size = 64 if piece in (model.POINTS, model.PLANES) else 16
    for i in range(times):
        memory[piece][position + i * stride] = (value + i * growth) % (1 << size)


def memory_of(case):
    base = bases.BASES[case.base]
    memory = model.clear_memory()
    if base.cube:
        model.put_cube(memory, model.ROOM, base.cube, model.floats.ONE)
    for run in base.runs + case.runs:
        put_run(memory, run)
    return memory


# ---- what the program must print


def sound_line(case):
    broken = model.broken_lines(memory_of(case), case.lengths)
    assert broken == case.breaks, f"{case.line}: {case.what}: breaks {sorted(broken)}"
    return f"sound {case.line}: {case.what} {model.is_sound_reply(memory_of(case), case.lengths)}"


def sum_of(words, halves):
    """The sum that the program prints of a slice; a float counts as two words, the lower half first."""
    total = 0
    for word in words:
        for half in range(halves):
            total = (total * 65599 + (word >> 32 * half) % (1 << 32)) % (1 << 32)
    return f"{total:08x}"


def cube_line(case):
    memory = memory_of(case)
    reply = model.put_cube(memory, case.lengths, case.dimension, case.radius)
    sums = [sum_of(words, halves) for words, halves in zip(memory, (1, 2, 2, 1))]
    return f"cube {case.line}: {case.what} {reply} {model.is_sound_reply(memory, case.lengths)} {' '.join(sums)}"


def expected_output():
    alone = {case.line for case in cases.SOUND_CASES if len(case.breaks) == 1}
    assert alone == model.LINES, f"never broken alone: {sorted(model.LINES - alone)}"
    lines = [sound_line(case) for case in cases.SOUND_CASES] + [cube_line(case) for case in cases.CUBE_CASES]
    return "".join(line + "\n" for line in lines)


# ---- the table of the program


# The texts are laid out as `rt fmt` does it.

SLICES = ("Counts", "Points", "Planes", "Elements")


def struct(kind, **fields):
    parts = [f"{name}: {value}" for name, value in fields.items()]
    if sum(map(len, parts)) + 2 * (len(parts) - 1) <= 18:
        return f"{kind} {{ {', '.join(parts)} }}"
    inside = ",\n".join(parts)
    return f"{kind} {{\n{textwrap.indent(inside, '    ')},\n}}"


def slice_of(items):
    inside = ", ".join(items)
    if len(items) == 1 or len(inside) <= 60 and "\n" not in inside:
        return f"&[{inside}]"
    inside = ",\n".join(items)
    return f"&[\n{textwrap.indent(inside, '    ')},\n]"


def run_text(run):
    piece, position, value, times, stride, growth = run
    if times == 1:
        return f"Word({SLICES[piece]}, {position}, {value:#x})"
    steps = {"times": times, "stride": stride, "growth": growth}
    return struct("Series", slice=SLICES[piece], position=position, value=hex(value), **steps)


def runs_text(runs):
    return slice_of([run_text(run) for run in runs])


def base_words(name):
    """A name of Rust's starts with no digit."""
    return sorted(name.split(), key=str.isdigit)


def base_variant(name):
    return "".join(word[0].upper() + word[1:] for word in base_words(name))


def base_constant_name(name):
    return "_".join(base_words(name)).upper()


def lengths_text(lengths):
    return "ROOM" if lengths == model.ROOM else struct("Lengths", **dict(zip(model.SLICES, lengths)))


def sound_text(case):
    name = f'"{case.line}: {case.what}"'
    base, runs = f"Base::{base_variant(case.base)}", runs_text(case.runs)
    return struct("SoundCase", name=name, base=base, runs=runs, lengths=lengths_text(case.lengths))


def cube_text(case):
    name = f'"{case.line}: {case.what}"'
    base, lengths = f"Base::{base_variant(case.base)}", lengths_text(case.lengths)
    return struct("CubeCase", name=name, base=base, lengths=lengths, dimension=case.dimension, radius=hex(case.radius))


def base_constant(name):
    base = bases.BASES[name]
    return f"\nconst {base_constant_name(name)}: Held = {struct('Held', cube=base.cube, runs=runs_text(base.runs))};\n"


def base_type():
    variants = "".join(f"    {base_variant(name)},\n" for name in bases.BASES)
    arms = "".join(f"            Base::{base_variant(name)} => &{base_constant_name(name)},\n" for name in bases.BASES)
    return (
        "\n// The tables that cases start from.\n#[derive(Clone, Copy)]\n"
        f"pub enum Base {{\n{variants}}}\n\nimpl Base {{\n"
        f"    pub fn held(self) -> &'static Held {{\n        match self {{\n{arms}        }}\n    }}\n}}\n"
    )


def case_constant(name, holds, kind, texts):
    inside = textwrap.indent(",\n".join(texts), "    ")
    return f"\n// {holds}\npub const {name}: [{kind}; {len(texts)}] = [\n{inside},\n];\n"


# A constant of all cases is larger than a proof takes, so each part begins with the first case of a line.
PARTS = {
    "dimension": ("NUMBERS", "The dimension, the room, coordinates and hyperplanes."),
    "corners in order": ("CORNERS", "Vertex elements."),
    "rank": ("BOUNDARIES", "Rank and boundary."),
    "hyperplane named": ("HYPERPLANES", "Hyperplane and mark."),
    "equal elements": ("UNUSED", "Equal elements, and what is past use."),
    "several": ("SEVERAL", "Several lines."),
    "none": ("SOUND", "Sound tables."),
    "lengths": ("LENGTHS", "Every length about the right one."),
}


def parts_of(sound_cases):
    parts = {}
    for case in sound_cases:
        part = PARTS.get(case.line, part) if parts else PARTS[case.line]
        parts.setdefault(part, []).append(case)
    assert sum(parts.values(), []) == sound_cases
    return parts.items()


def table_file():
    assert not any(case.runs for case in cases.CUBE_CASES)
    return (
        "// The cases and what they put into memory. Written by tests/tables/make_expected.py: change them there.\n"
        "use crate::cases::{CubeCase, SoundCase};\n"
        "use crate::memory::Run::{Series, Word};\n"
        f"use crate::memory::Slice::{{{', '.join(sorted(SLICES))}}};\n"
        "use crate::memory::{Held, Lengths, ROOM};\n"
        + base_type()
        + "".join(map(base_constant, bases.BASES))
        + "".join(
            case_constant(name, holds, "SoundCase", [*map(sound_text, part)])
            for (name, holds), part in parts_of(cases.SOUND_CASES)
        )
        + case_constant("CUBES", "What a cube is put over.", "CubeCase", [*map(cube_text, cases.CUBE_CASES)])
    )


# ---- the two files


def write_files(folder):
    for name, text in zip(FILES, (table_file(), expected_output())):
        path = folder / name
        path.parent.mkdir(parents=True, exist_ok=True)
        path.write_text(text, encoding="ascii")


def differing_files():
    with tempfile.TemporaryDirectory() as fresh:
        write_files(pathlib.Path(fresh))
        return filecmp.cmpfiles(fresh, CRATE, FILES, shallow=False)[1:]


def main():
    if sys.argv[1:] == ["--check"]:
        wrong = [name for names in differing_files() for name in names]
        for name in wrong:
            print(f"differs from what make_expected.py writes: crates/tables_hard/{name}")
        sys.exit(1 if wrong else 0)
    write_files(CRATE)


if __name__ == "__main__":
    main()
