"""The desk's engine, as it is proved, behind Python.

A Table is the room of one table. A cut does not make pieces: it adds entries to the table, and a piece that the plane misses is
its old entry. Element, vertex and hyperplane numbers count three lists, so they are three types. Any number and float may be
given; a refused call raises Refused and leaves the table as it came. The answer of a cut warns of a plane that passes close by a
corner. Table.cut_all makes a list of cuts in one call, and Table.touch tells whether a plane touches a piece, without a cut.
Table.areas gives the areas of flat pieces in exact numbers, and Table.stl a piece of three dimensions as a file for a printer.
Table.save gives a table as its one file, and Table.open opens it.

>>> from spoonvelvet import ElementId, Hyperplane, Table
>>> table = Table.with_primordial_cube_radius(2, 1.0)
>>> table.slice(Hyperplane((1.0, 0.0), 0.0), ElementId(8))
NonFlush(inside=ElementId(16), outside=ElementId(17), intersection=ElementId(15), warning=False)
>>> table.counts()
Counts(elements=18, vertices=6, hyperplanes=5)
"""

from .table import Table
from .values import (
    REFUSALS,
    AreaSheet,
    Counts,
    ElementCutOutput,
    ElementId,
    Flush,
    Hyperplane,
    HyperplaneId,
    ListedCut,
    NonFlush,
    PolytopeFate,
    Refused,
    Stopped,
    Touch,
    Touched,
    VertexId,
)

__all__ = [
    "REFUSALS",
    "AreaSheet",
    "Counts",
    "ElementCutOutput",
    "ElementId",
    "Flush",
    "Hyperplane",
    "HyperplaneId",
    "ListedCut",
    "NonFlush",
    "PolytopeFate",
    "Refused",
    "Stopped",
    "Table",
    "Touch",
    "Touched",
    "VertexId",
]
