"""What the scripts beside this one share: the blocks of docs/LESSON.md, and the programs `show` and `record` as modules."""
import importlib.machinery
import importlib.util
import pathlib
import re
import sys

ROOT = pathlib.Path(__file__).resolve().parent.parent.parent
sys.dont_write_bytecode = True


def load(name):
    loader = importlib.machinery.SourceFileLoader(name, str(ROOT / name))
    module = importlib.util.module_from_spec(importlib.util.spec_from_loader(name, loader))
    loader.exec_module(module)
    return module


show = load("show")
record = show.record


def records(text, dimension=None):
    """The records of a block, each as its line and what it says."""
    return [(line, given) for _, line, given in record.records(((f"docs/LESSON.md:{line}", line) for line in text.split("\n")), dimension)]


def words_of(cut):
    """A cut's divider, the two fates of its sides, and its root."""
    fates = [show.PolytopeFate.KEEP if cut.kept in (side, "both") else show.PolytopeFate.REMOVE for side in ("inside", "outside")]
    return show.Hyperplane(cut.normal, cut.distance), *fates, show.ElementId(cut.root)


def cube(given):
    return show.Table.with_primordial_cube_radius(given.dimension, given.radius)


def table_after(session):
    """The table that a session leaves."""
    table = None
    for _, given in records(session):
        if isinstance(given, record.Cube):
            table = cube(given)
        else:
            table.cut(*words_of(given))
    return table


def blocks(*kinds):
    """The blocks of these kinds in their order, each with its kind."""
    return re.findall(rf"^```({'|'.join(kinds)})\n(.*?)^```$", (ROOT / "docs/LESSON.md").read_text(), re.M | re.S)
