"""The cases of crates/tables_hard: what memory holds, what is lent of it, and the lines that it breaks."""

from collections import namedtuple

from bases import DIMENSION, DISTANCE, ELEMENTS_IN_USE, PLANES_IN_USE, VERTICES_IN_USE, added, below, component
from bases import coordinate, count, edge, pattern, polytope, row, unit_planes, word
from model import COUNT, ELEMENT_WIDTH, FIRST, MARK, NO_PLANE, PLANE, RANK, ROOM, SLICES

# ---- memories and their soundness

SoundCase = namedtuple("SoundCase", "line what base runs lengths breaks")
SOUND_CASES = []


def flat(runs):
    return [run for part in runs for run in (part if isinstance(part, list) else [part])]


def breaks(line, what, base, *runs):
    """A memory that breaks one line."""
    SOUND_CASES.append(SoundCase(line, what, base, flat(runs), ROOM, {line}))


def breaks_all(lines, what, base, *runs):
    """A memory that breaks these lines and no other."""
    SOUND_CASES.append(SoundCase("several", what, base, flat(runs), ROOM, set(lines)))


def sound(what, base, *runs):
    SOUND_CASES.append(SoundCase("none", what, base, flat(runs), ROOM, set()))


# ---- the first line: dimension, room, coordinates, hyperplanes

breaks("dimension", "0", "no elements 1", count(DIMENSION, 0))
breaks("dimension", "0, all zero bits", "clear")
breaks("dimension", "5", "ten hyperplanes", count(DIMENSION, 5))
breaks("dimension", "32", "64 hyperplanes", count(DIMENSION, 32))

breaks(
    "vertex room",
    "257, each with its corner",
    "full",
    [count(VERTICES_IN_USE, 257), word(511, RANK, 0), word(511, COUNT, 1), *below(511, 256, 0)],
)
breaks("element room", "513", "full", count(ELEMENTS_IN_USE, 513))
breaks("element room", "65535", "full", count(ELEMENTS_IN_USE, 65535))
breaks("hyperplane room", "65", "full", count(PLANES_IN_USE, 65))
breaks("hyperplane room", "65535", "full", count(PLANES_IN_USE, 65535))
breaks("boundary room", "33", "ring", word(64, COUNT, 33))
breaks("boundary room", "65535", "ring", word(64, COUNT, 65535))

for name in ("FAR_UP", "NEG_FAR_UP", "MAX", "INF", "NEG_INF", "NAN"):
    breaks("coordinates", f"first {name}", "cube 2", coordinate(0, 0, name))
    breaks("coordinates", f"last {name}", "cube 2", coordinate(3, 1, name))
breaks("coordinates", "fourth axis", "cube 4", coordinate(15, 3, "FAR_UP"))
breaks("coordinates", "last of the room", "full", coordinate(255, 0, "NEG_FAR_UP"))

# hyperplane 3 of the square is x = 1, hyperplane 0 is -y = 1
for axis, name in ((0, "ONE_UP"), (0, "SHORT_DOWN"), (0, "HALF"), (0, "ZERO"), (0, "NAN"), (0, "INF"), (1, "NEG_INF")):
    breaks("unit normal", f"axis {axis} {name}", "cube 2", component(3, axis, name))
breaks("unit normal", "squares just above", "cube 2", component(3, 1, "EDGE_OVER"))
breaks("unit normal", "two ones", "cube 2", component(3, 1, "ONE"))
breaks("unit normal", "component below -1", "cube 2", component(0, 1, "NEG_ONE_UP"))
breaks("unit normal", "fourth axis", "cube 4", component(7, 3, "HALF"))
breaks("unit normal", "last of the room", "full", component(63, 0, "SHORT_DOWN"))

for name in ("PLANE_UP", "NEG_PLANE_UP", "MAX", "INF", "NEG_INF", "NAN"):
    breaks("distance", f"first {name}", "cube 2", component(0, DISTANCE, name))
breaks("distance", "last of the room", "full", component(63, DISTANCE, "PLANE_UP"))

for d in (2, 3, 4):
    last = 2 * d - 1
    breaks("P hyperplanes", f"{last}", f"no elements {d}", component(last, 0, "ZERO"), count(PLANES_IN_USE, last))
breaks("P hyperplanes", "none", "clear", count(DIMENSION, 2))

# ---- the second: vertex elements; those of the square are 0, 1, 3, 4

breaks("corners in order", "two swapped", "cube 2", word(0, FIRST, 1), word(1, FIRST, 0))
breaks("corners in order", "last skips one", "cube 2", word(4, FIRST, 4))
breaks("corners in order", "last names 65535", "cube 2", word(4, FIRST, 65535))
breaks("corners in order", "a vertex without a corner", "cube 2", count(VERTICES_IN_USE, 5))
breaks(
    "corners in order",
    "a corner without a vertex",
    "cube 2",
    coordinate(3, 0, "ZERO"),
    coordinate(3, 1, "ZERO"),
    count(VERTICES_IN_USE, 3),
)
breaks("corners in order", "vertices and no elements", "no elements 1", count(VERTICES_IN_USE, 1))
breaks("corners in order", "the first names 1", "one corner", word(0, FIRST, 1))
breaks("corners in order", "the late one names 3", "late corner", word(3, FIRST, 3))

breaks("corner row", "mark 1", "cube 2", word(0, MARK, 1))
breaks("corner row", "mark 2", "cube 2", word(4, MARK, 2))
breaks("corner row", "hyperplane 0", "cube 2", word(0, PLANE, 0))
breaks("corner row", "hyperplane 65534", "cube 2", word(0, PLANE, 65534))
breaks(
    "corner row",
    "hyperplane in one dimension",
    "cube 1",
    [component(0, 0, "ONE"), count(PLANES_IN_USE, 1), word(0, PLANE, 0)],
)
for n in (0, 2, 33, 65535):
    breaks("corner row", f"count {n}", "cube 2", word(0, COUNT, n))

# ---- the third: rank and boundary; the square has edges 2, 5, 6, 7 and face 8, the cube has body 26

breaks("rank", "2 in one dimension", "triangle 1", added(6, polytope(2, [3, 4, 5])))
breaks("rank", "3 in two", "tetrahedron", added(14, polytope(3, [10, 11, 12, 13])))
CELLS = (26, 53, 62, 71, 74, 77, 78, 79)
BODIES = [added(81 + i, polytope(4, CELLS[i : i + 4] + CELLS[7:])) for i in range(3)]
BODIES += [added(84 + i, polytope(4, CELLS[i : i + 6])) for i in range(2)]
breaks("rank", "5 in four", "cube 4", *BODIES, added(86, polytope(5, range(80, 86))))

breaks("boundary rises", "face, two swapped", "cube 2", below(8, 5, 2))
breaks("boundary rises", "edge, two swapped", "cube 1", below(2, 1, 0))
breaks("boundary rises", "body, first twice", "cube 3", below(26, 8, 8))
breaks("boundary rises", "body, last two swapped", "cube 3", word(26, FIRST + 4, 25), word(26, FIRST + 5, 24))
breaks("boundary rises", "edge, one end twice", "cube 1", added(3, edge(1, 1)))

breaks("boundary earlier", "a later corner", "late corner", below(2, 0, 3))
for e in (3, 511, 512, 65535):
    breaks("boundary earlier", f"{e}, not in use", "cube 1", below(2, 0, e))

breaks("boundary rank", "an edge of a body", "cube 3", below(26, 2))
breaks("boundary rank", "an edge of an edge", "cube 1", added(3, edge(0, 2)))
breaks("boundary rank", "a face of corners", "cube 2", added(9, polytope(2, [0, 1, 3])))
breaks("boundary rank", "a body of corners", "cube 3", added(27, polytope(3, [0, 1, 3, 4])))
breaks("boundary rank", "an edge with a face", "cube 2", added(9, edge(0, 8, 0)))

breaks("boundary count", "a body of three faces", "cube 3", word(26, COUNT, 3), below(26, 8, 17, 20, 0, 0, 0))
breaks("boundary count", "a body of four cells", "cube 4", word(80, COUNT, 4), below(80, *CELLS[:4], 0, 0, 0, 0))
breaks("boundary count", "a face of two edges", "digon", added(5, polytope(2, [2, 3])))
breaks("boundary count", "a face of none", "cube 2", added(9, polytope(2, [])))
breaks("boundary count", "a body of none", "cube 3", added(27, polytope(3, [])))

breaks("two ends", "three", "cube 2", added(9, polytope(1, [0, 1, 3], 0)))
breaks("two ends", "three in one dimension", "late corner", added(4, polytope(1, [0, 1, 3])))
breaks("two ends", "32", "ring", added(65, polytope(1, range(32), 0)))

breaks("face closed", "three sides, loose at higher ends", "cube 2", added(9, polytope(2, [2, 5, 6])))
breaks("face closed", "three sides, loose at lower ends", "cube 2", added(9, polytope(2, [5, 6, 7])))
breaks("face closed", "three sides of a facet", "cube 3", added(27, polytope(2, [2, 5, 6], 0)))
breaks("face closed", "each on three", "tetrahedron", added(14, polytope(2, range(4, 10))))
breaks("face closed", "one on four", "bow tie", added(11, polytope(2, range(5, 11))))
breaks("face closed", "three edges of one pair", "digon", added(5, polytope(2, [2, 3, 4])))
breaks("face closed", "a triangle and an edge", "triangles", added(12, polytope(2, [6, 7, 8, 9])))
breaks("face closed", "three loose edges", "ring", added(65, polytope(2, [32, 34, 36])))
breaks("face closed", "two triangles as one face", "triangles", added(12, polytope(2, range(6, 12))))
breaks("face closed", "two triangles as one facet", "triangles 3", added(12, polytope(2, range(6, 12), 0)))
breaks("face closed", "two digons as one face", "digon", count(VERTICES_IN_USE, 4), [
    *added(5, [0, 0, NO_PLANE, 1, 2]), *added(6, [0, 0, NO_PLANE, 1, 3]),
    *added(7, edge(5, 6, 0)), *added(8, edge(5, 6, 1)), *added(9, polytope(2, [2, 3, 7, 8])),
])  # fmt: skip
DIGON_TOO = [added(12, edge(3, 4, 1)), added(13, polytope(2, [6, 7, 8, 9, 12]))]
breaks("face closed", "a triangle and a digon as one face", "triangles", *DIGON_TOO)

# ---- the fourth: hyperplane and mark

for h in (4, 63, 64, 65534, NO_PLANE):
    breaks("hyperplane named", f"edge of the square, {h}", "cube 2", word(2, PLANE, h))
breaks("hyperplane named", "face of the cube, 6", "cube 3", word(8, PLANE, 6))
breaks("hyperplane named", "face of the cube, none", "cube 3", word(25, PLANE, NO_PLANE))
breaks("hyperplane named", "cell, none", "cube 4", word(79, PLANE, NO_PLANE))

for h in (0, 4, 65534):
    breaks("hyperplane not named", f"face of the square, {h}", "cube 2", word(8, PLANE, h))
breaks("hyperplane not named", "edge of the cube", "cube 3", word(2, PLANE, 0))
breaks("hyperplane not named", "body", "cube 3", word(26, PLANE, 0))
breaks("hyperplane not named", "edge in one dimension", "full", word(300, PLANE, 0))
breaks("hyperplane not named", "face in four", "cube 4", word(8, PLANE, 0))

for mark in (2, 3, 256, 65535):
    breaks("mark", f"{mark}", "cube 2", word(2, MARK, mark))
breaks("mark only on a facet", "face of the square", "cube 2", word(8, MARK, 1))
breaks("mark only on a facet", "edge of the cube", "cube 3", word(2, MARK, 1))
breaks("mark only on a facet", "body", "cube 4", word(80, MARK, 1))
breaks("mark only on a facet", "edge in one dimension", "cube 1", word(2, MARK, 1))

# ---- the fifth: equal elements, unused room

breaks("equal elements", "two edges", "cube 2", added(9, edge(0, 1, 0, 1)))
breaks("equal elements", "two faces", "cube 2", added(9, polytope(2, [2, 5, 6, 7])))
breaks("equal elements", "two bodies", "cube 3", added(27, polytope(3, [8, 17, 20, 23, 24, 25])))
breaks("equal elements", "first and last edge of the room", "full", below(511, 0, 1))
breaks("equal elements", "last two of the room", "full", below(511, 254, 255))

for name in ("TINY", "NEG_ZERO", "NAN", "ONE"):
    breaks("axes past the dimension", f"point, {name}", "cube 1", coordinate(0, 1, name))
    breaks("axes past the dimension", f"last axis, {name}", "cube 3", coordinate(7, 3, name))
    breaks("axes past the dimension", f"normal, {name}", "cube 2", component(0, 2, name))
    breaks("points past use", f"first, {name}", "cube 2", coordinate(4, 0, name))
    breaks("points past use", f"last, {name}", "cube 2", coordinate(255, 3, name))
    breaks("hyperplanes past use", f"first, {name}", "cube 2", component(4, 0, name))
    breaks("hyperplanes past use", f"last, {name}", "cube 2", component(63, DISTANCE, name))
breaks("axes past the dimension", "last normal", "cube 3", component(5, 3, "NEG_ZERO"))

breaks("words past a boundary", "corner, next", "cube 2", word(0, FIRST + 1, 1))
breaks("words past a boundary", "corner, last", "cube 2", word(4, ELEMENT_WIDTH - 1, 1))
breaks("words past a boundary", "edge, next", "cube 2", word(2, FIRST + 2, 3))
breaks("words past a boundary", "face, last", "cube 2", word(8, ELEMENT_WIDTH - 1, 65535))
breaks("words past a boundary", "last of the room", "full", word(511, ELEMENT_WIDTH - 1, 1))

breaks("elements past use", "rank", "cube 2", word(9, RANK, 1))
breaks("elements past use", "hyperplane", "cube 2", word(9, PLANE, NO_PLANE))
breaks("elements past use", "a whole edge", "cube 2", row(9, edge(0, 4, 0)))
breaks("elements past use", "last word", "cube 2", word(511, ELEMENT_WIDTH - 1, 1))

# ---- several lines

breaks_all(["boundary earlier", "boundary rank"], "an edge of itself", "cube 1", below(2, 0, 2))
breaks_all(["boundary count", "two ends"], "an edge with one end", "cube 1", word(2, COUNT, 1), below(2, 0, 0))
breaks_all(["boundary count", "two ends"], "an edge with none", "cube 1", word(2, COUNT, 0), below(2, 0, 0))
breaks_all(["boundary room", "boundary rises", "two ends"], "last row, count 33", "full", word(511, COUNT, 33))
breaks_all(["boundary room", "boundary rises", "two ends"], "last row, count 65535", "full", word(511, COUNT, 65535))
breaks_all(["corners in order", "equal elements"], "a corner twice", "cube 2", word(4, FIRST, 2))
breaks_all(["mark", "mark only on a facet"], "mark 2 on the square", "cube 2", word(8, MARK, 2))
breaks_all(["dimension", "P hyperplanes"], "dimension 65535", "full", count(DIMENSION, 65535))
breaks_all(["rank", "boundary count"], "rank 65535", "tetrahedron", added(14, polytope(65535, [])))

# ---- sound tables

for d in (1, 2, 3, 4):
    sound(f"cube of {d}", f"cube {d}")
    sound(f"no elements in {d}", f"no elements {d}")
sound("64 hyperplanes, no elements", "64 hyperplanes")
sound("one vertex", "one corner")
sound("full", "full")
sound("a corner after an edge", "late corner")
sound("three edges in one dimension", "triangle 1")
sound("a ring of 32 edges, vertices coincident", "ring")
sound("four triangles in two dimensions", "tetrahedron")
sound("edges unlike in the hyperplane alone", "digon")
sound("edges unlike in the mark alone", "digon", added(5, edge(0, 1, 0, 1)))
sound("edges to a corner after an edge", "late corner", added(4, edge(0, 3)), added(5, edge(1, 3)))
sound("a body of four faces, not closed", "cube 3", added(27, polytope(3, [8, 17, 20, 23])))
sound("five bodies in four dimensions", "cube 4", *BODIES)
sound("a facet on another hyperplane too", "cube 3", added(27, polytope(2, [2, 5, 6, 7], 5)))
sound("every facet on hyperplane 0", "cube 2", [word(e, PLANE, 0) for e in (2, 5, 6, 7)])
sound("no marks", "cube 2", [word(e, MARK, 0) for e in (2, 5, 6, 7)])
sound("hyperplanes in one dimension", "cube 1", unit_planes(3), count(PLANES_IN_USE, 3))
sound("all vertices at one point", "cube 2", [coordinate(v, axis, "THIRD") for v in range(4) for axis in range(2)])
for name in ("FAR", "NEG_FAR", "ZERO", "NEG_ZERO", "TINY", "NEG_TINY", "SUBNORMAL"):
    sound(f"coordinate {name}", "cube 2", coordinate(3, 1, name))
for name in ("PLANE", "NEG_PLANE", "NEG_ZERO", "TINY"):
    sound(f"distance {name}", "cube 2", component(3, DISTANCE, name))
for axis, name in ((0, "NEG_ONE"), (0, "SHORT"), (1, "EDGE"), (1, "EDGE_TIE"), (1, "NEG_ZERO"), (1, "NEG_TINY")):
    sound(f"normal, axis {axis} {name}", "cube 2", component(3, axis, name))

# ---- every length about the right one


def lengths_about():
    for piece, right in enumerate(ROOM):
        for length in (0, right - 1, right, right + 1):
            yield f"{SLICES[piece]} of {length}", ROOM[:piece] + (length,) + ROOM[piece + 1 :]


for name, lengths in lengths_about():
    SOUND_CASES.append(SoundCase("lengths", name, "cube 2", [], lengths, set() if lengths == ROOM else {"lengths"}))
SOUND_CASES.append(SoundCase("lengths", "all of 0", "cube 2", [], (0, 0, 0, 0), {"lengths"}))

# ---- cubes

CubeCase = namedtuple("CubeCase", "line what base runs lengths dimension radius")
CUBE_CASES = []


def put_cube(what, dimension, radius, over="pattern", lengths=ROOM):
    rest = f"dimension {dimension}, radius {radius}"
    CUBE_CASES.append(CubeCase(what, rest, over, [], lengths, dimension, pattern(radius)))


for d in (1, 2, 3, 4):
    for radius in ("ONE", "ONE_UP", "FOURTEEN_TENTHS", "FAR_DOWN", "FAR"):
        put_cube("over a pattern", d, radius)
    put_cube("over zero bits", d, "THREE", over="clear")
    put_cube("over a greater cube", d, "THREE", over="cube 4")
    put_cube("over a full table", d, "THREE", over="full")
    put_cube("over NaNs", d, "THREE", over="all NaN")

for d in (0, 5, 255, 256, 257, 65537, 2**32 + 2, 2**64 - 1):
    put_cube("refused", d, "ONE")
for radius in ("ONE_DOWN", "FAR_UP", "ZERO", "NEG_ZERO", "TINY", "NEG_ONE", "NEG_FAR", "MAX", "INF", "NEG_INF", "NAN"):
    put_cube("refused", 2, radius)
put_cube("refused, a sound table stays", 0, "ONE", over="cube 3")
put_cube("refused, a sound table stays", 3, "NAN", over="full")
for name, lengths in lengths_about():
    put_cube(f"lengths, {name}", 2, "ONE", lengths=lengths)

SHORT_COUNTS = (3,) + ROOM[1:]
put_cube("order, 1 before 2 and 3", 0, "NAN", lengths=SHORT_COUNTS)
put_cube("order, 1 before 2", 5, "ZERO")
put_cube("order, 1 before 3", 5, "ONE", lengths=SHORT_COUNTS)
put_cube("order, 2 before 3", 4, "INF", lengths=(0, 0, 0, 0))
put_cube("order, 3 last", 4, "ONE", lengths=(0, 0, 0, 0))
