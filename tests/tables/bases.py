"""What the memories of crates/tables_hard are made of: runs of words, and the tables that cases start from."""

from collections import namedtuple

from model import AXES, COUNT, COUNTS, ELEMENT_WIDTH, ELEMENTS, FIRST, NO_PLANE, PLANE, PLANE_WIDTH, PLANES, POINTS
from model import RANK, ROOM, floats

pattern = floats.pattern

# ---- runs: slice, position, value, times, and by how much position and value grow each time

DIMENSION, ELEMENTS_IN_USE, VERTICES_IN_USE, PLANES_IN_USE = range(4)
DISTANCE = AXES


def put(piece, position, value):
    return (piece, position, value, 1, 0, 0)


def series(piece, position, value, times, stride, growth):
    return (piece, position, value, times, stride, growth)


def count(place, value):
    return put(COUNTS, place, value)


def coordinate(vertex, axis, name):
    return put(POINTS, vertex * AXES + axis, pattern(name))


def component(plane, axis, name):
    return put(PLANES, plane * PLANE_WIDTH + axis, pattern(name))


def word(element, place, value):
    return put(ELEMENTS, element * ELEMENT_WIDTH + place, value)


def below(element, *numbers):
    """New boundary numbers from the first place on."""
    return [word(element, FIRST + i, number) for i, number in enumerate(numbers)]


def row(element, words):
    """The words of a row that has been zero; those that count up by one share a run."""
    runs = []
    for place, value in enumerate(words):
        last = runs[-1] if runs else None
        if last and (last[1] + last[3], last[2] + last[3]) == (element * ELEMENT_WIDTH + place, value):
            runs[-1] = series(ELEMENTS, last[1], last[2], last[3] + 1, 1, 1)
        elif value:
            runs.append(series(ELEMENTS, element * ELEMENT_WIDTH + place, value, 1, 1, 1))
    return runs


# ---- elements of a table, in the order of their numbers

CORNER = "corner"


def polytope(rank, boundary, plane=NO_PLANE, mark=0):
    return [rank, mark, plane, len(boundary), *boundary]


def edge(a, b, plane=NO_PLANE, mark=0):
    return polytope(1, [a, b], plane, mark)


def added(element, words):
    """One element more, which is number `element`."""
    return row(element, words) + [count(ELEMENTS_IN_USE, element + 1)]


def unit_planes(how_many):
    """All the same: x = 0."""
    return [series(PLANES, 0, pattern("ONE"), how_many, PLANE_WIDTH, 0)] if how_many else []


def table(dimension, planes, elements=()):
    """A table whose vertices all lie at the origin."""
    runs, corners = [], 0
    for e, words in enumerate(elements):
        runs += row(e, [0, 0, NO_PLANE, 1, corners] if words is CORNER else words)
        corners += words is CORNER
    counts = [count(place, n) for place, n in enumerate((dimension, len(elements), corners, planes)) if n]
    return counts + unit_planes(planes) + runs


# ---- bases

Base = namedtuple("Base", "cube runs")

TRIANGLES = [(0, 1), (1, 2), (0, 2), (3, 4), (4, 5), (3, 5)]
ALL_PAIRS = [(0, 1), (0, 2), (0, 3), (1, 2), (1, 3), (2, 3)]
FOUR_RINGS = [(4, 5, 7), (4, 6, 8), (5, 6, 9), (7, 8, 9)]
BOW_TIE = [(0, 1), (1, 2), (0, 2), (2, 3), (3, 4), (2, 4)]
RING = [(i, i + 1) for i in range(31)] + [(0, 31)]


def edges(pairs, plane=NO_PLANE):
    return [edge(a, b, plane) for a, b in pairs]


# 256 vertices, 256 edges and 64 hyperplanes in one dimension: edge 256 + i joins corners i and i + 1, the last one 0 and 2
FULL = (
    [count(DIMENSION, 1), count(ELEMENTS_IN_USE, 512), count(VERTICES_IN_USE, 256), count(PLANES_IN_USE, 64)]
    + unit_planes(64)
    + [series(ELEMENTS, PLANE, NO_PLANE, 512, ELEMENT_WIDTH, 0)]
    + [series(ELEMENTS, COUNT, 1, 256, ELEMENT_WIDTH, 0), series(ELEMENTS, FIRST, 0, 256, ELEMENT_WIDTH, 1)]
    + [series(ELEMENTS, 256 * ELEMENT_WIDTH + RANK, 1, 256, ELEMENT_WIDTH, 0)]
    + [series(ELEMENTS, 256 * ELEMENT_WIDTH + COUNT, 2, 256, ELEMENT_WIDTH, 0)]
    + [series(ELEMENTS, 256 * ELEMENT_WIDTH + FIRST, 0, 255, ELEMENT_WIDTH, 1)]
    + [series(ELEMENTS, 256 * ELEMENT_WIDTH + FIRST + 1, 1, 255, ELEMENT_WIDTH, 1)]
    + below(511, 0, 2)
)

# no two words of a slice are alike, and none is zero or a NaN
PATTERN = [
    series(COUNTS, 0, 7, 5, 1, 1),
    series(POINTS, 0, 0x4045000000000000, ROOM[POINTS] + 1, 1, 1),
    series(PLANES, 0, 0xC055000000000000, ROOM[PLANES] + 1, 1, 3),
    series(ELEMENTS, 0, 40001, ROOM[ELEMENTS] + 1, 1, 2),
]

ALL_NAN = [
    series(COUNTS, 0, 0xFFFF, 5, 1, 0),
    series(POINTS, 0, pattern("NAN"), ROOM[POINTS] + 1, 1, 0),
    series(PLANES, 0, pattern("NAN"), ROOM[PLANES] + 1, 1, 0),
    series(ELEMENTS, 0, 0xFFFF, ROOM[ELEMENTS] + 1, 1, 0),
]

BASES = {
    "clear": Base(0, []),
    "pattern": Base(0, PATTERN),
    "all NaN": Base(0, ALL_NAN),
    "full": Base(0, FULL),
    "cube 1": Base(1, []),
    "cube 2": Base(2, []),
    "cube 3": Base(3, []),
    "cube 4": Base(4, []),
    "no elements 1": Base(0, table(1, 0)),
    "no elements 2": Base(0, table(2, 4)),
    "no elements 3": Base(0, table(3, 6)),
    "no elements 4": Base(0, table(4, 8)),
    "ten hyperplanes": Base(0, table(4, 10)),
    "64 hyperplanes": Base(0, table(4, 64)),
    "one corner": Base(0, table(1, 0, [CORNER])),
    "late corner": Base(0, table(1, 0, [CORNER, CORNER, edge(0, 1), CORNER])),
    "triangle 1": Base(0, table(1, 0, [CORNER] * 3 + edges([(0, 1), (0, 2), (1, 2)]))),
    "digon": Base(0, table(2, 4, [CORNER] * 2 + [edge(0, 1, plane) for plane in range(3)])),
    "triangles": Base(0, table(2, 4, [CORNER] * 6 + edges(TRIANGLES, 0))),
    "triangles 3": Base(0, table(3, 6, [CORNER] * 6 + edges(TRIANGLES))),
    "bow tie": Base(0, table(2, 4, [CORNER] * 5 + edges(BOW_TIE, 0))),
    "ring": Base(0, table(2, 4, [CORNER] * 32 + edges(RING, 0) + [polytope(2, range(32, 64))])),
    "tetrahedron": Base(
        0,
        table(2, 4, [CORNER] * 4 + edges(ALL_PAIRS, 1) + [polytope(2, ring) for ring in FOUR_RINGS]),
    ),
}
