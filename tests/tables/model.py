"""The lent memory, "A table is sound when" and the primordial cube, written from document 01.

A memory is four lists of whole numbers: counts, points, planes and elements. A float stands in it by its bit pattern,
and tests/floats/make_expected.py works out what the rules do with floats, by exact fractions.
"""

import importlib.util
import pathlib

FLOATS_SCRIPT = pathlib.Path(__file__).resolve().parents[1] / "floats" / "make_expected.py"
FLOATS_SPEC = importlib.util.spec_from_file_location("floats", FLOATS_SCRIPT)
floats = importlib.util.module_from_spec(FLOATS_SPEC)
FLOATS_SPEC.loader.exec_module(floats)

# ---- the room

COUNTS, POINTS, PLANES, ELEMENTS = range(4)
SLICES = ("counts", "points", "planes", "elements")
VERTEX_ROOM, ELEMENT_ROOM, PLANE_ROOM, BOUNDARY_ROOM = 256, 512, 64, 32
AXES, PLANE_WIDTH, ELEMENT_WIDTH = 4, 5, 36
ROOM = (4, VERTEX_ROOM * AXES, PLANE_ROOM * PLANE_WIDTH, ELEMENT_ROOM * ELEMENT_WIDTH)
NO_PLANE = 0xFFFF

# the places of an element's row
RANK, MARK, PLANE, COUNT, FIRST = range(5)

FARTHEST = floats.pattern("FAR")


def clear_memory():
    """Zero bits, and in each slice one word more than its room."""
    return [[0] * (room + 1) for room in ROOM]


def rows(words, width, count):
    """The rows in use; a count above the room gives those that are there."""
    return [words[at : at + width] for at in range(0, len(words), width)][:count]


# ---- a row


def is_corner(row):
    return row[RANK] == 0


def boundary(row):
    """Of a corner, its vertex number. A count above the room gives the words that are there."""
    return row[FIRST:][: 1 if is_corner(row) else row[COUNT]]


def fields(row):
    return row[:COUNT] + boundary(row)


def is_facet(row, d):
    return row[RANK] + 1 == d


# ---- "A table is sound when": each function gives the names of the lines that are broken


def is_closed(elements, edges):
    """The edges make one ring: each vertex met lies on exactly two, and they hang together. It is asked of edges only."""
    if any(e >= len(elements) or elements[e][RANK] != 1 for e in edges):
        return True
    ends = [boundary(elements[e]) for e in edges]
    met = {v for pair in ends for v in pair}
    if not all(sum(v in pair for pair in ends) == 2 for v in met):
        return False
    reached = set(ends[0]) if ends else set()
    for _ in ends:
        for pair in ends:
            if reached & set(pair):
                reached |= set(pair)
    return reached == met


def broken_by_corner(row):
    if row[:FIRST] != [0, 0, NO_PLANE, 1]:
        yield "corner row"


def broken_by_boundary(elements, e):
    row = elements[e]
    rank, below = row[RANK], boundary(row)
    if row[COUNT] > BOUNDARY_ROOM:
        yield "boundary room"
    if any(a >= b for a, b in zip(below, below[1:])):
        yield "boundary rises"
    if any(b >= e for b in below):
        yield "boundary earlier"
    if any(b < len(elements) and elements[b][RANK] + 1 != rank for b in below):
        yield "boundary rank"
    if row[COUNT] <= rank:
        yield "boundary count"
    if rank == 1 and row[COUNT] != 2:
        yield "two ends"
    if rank == 2 and not is_closed(elements, below):
        yield "face closed"


def broken_by_polytope(elements, e, d, planes_in_use):
    row = elements[e]
    if row[RANK] > d:
        yield "rank"
    yield from broken_by_boundary(elements, e)
    if is_facet(row, d) and row[PLANE] >= planes_in_use:
        yield "hyperplane named"
    if not is_facet(row, d) and row[PLANE] != NO_PLANE:
        yield "hyperplane not named"
    if row[MARK] > 1:
        yield "mark"
    if row[MARK] != 0 and not is_facet(row, d):
        yield "mark only on a facet"


def broken_by_counts(d, n, v, h):
    if not 1 <= d <= AXES:
        yield "dimension"
    if v > VERTEX_ROOM:
        yield "vertex room"
    if n > ELEMENT_ROOM:
        yield "element room"
    if h > PLANE_ROOM:
        yield "hyperplane room"
    if h < (0 if d == 1 else 2 * d):
        yield "P hyperplanes"


def broken_by_floats(points, planes, d):
    if not all(floats.is_within(FARTHEST, x) for point in points for x in point[:d]):
        yield "coordinates"
    if not all(floats.is_unit(d, plane[:AXES][:d]) for plane in planes):
        yield "unit normal"
    if not all(floats.is_within(floats.FARTHEST_PLANE, plane[AXES]) for plane in planes):
        yield "distance"
    if any(x != 0 for row in points + planes for x in row[:AXES][d:]):
        yield "axes past the dimension"


def broken_by_elements(elements, d, v, h):
    corners = [row[FIRST] for row in elements if is_corner(row)]
    if corners != list(range(v)):
        yield "corners in order"
    for e, row in enumerate(elements):
        yield from broken_by_corner(row) if is_corner(row) else broken_by_polytope(elements, e, d, h)
        if any(row[FIRST + len(boundary(row)) :]):
            yield "words past a boundary"
    if len({tuple(fields(row)) for row in elements}) < len(elements):
        yield "equal elements"


def broken_by_rows_past_use(points, planes, elements, n, v, h):
    if any(points[v * AXES :]):
        yield "points past use"
    if any(planes[h * PLANE_WIDTH :]):
        yield "hyperplanes past use"
    if any(elements[n * ELEMENT_WIDTH :]):
        yield "elements past use"


def broken_lines(memory, lengths):
    """The lines that a memory lent at these lengths breaks, each once."""
    if tuple(lengths) != ROOM:
        return {"lengths"}
    counts, points, planes, elements = (words[:room] for words, room in zip(memory, ROOM))
    d, n, v, h = counts
    point_rows, plane_rows = rows(points, AXES, v), rows(planes, PLANE_WIDTH, h)
    element_rows = rows(elements, ELEMENT_WIDTH, n)
    return {
        *broken_by_counts(d, n, v, h),
        *broken_by_floats(point_rows, plane_rows, d),
        *broken_by_elements(element_rows, d, v, h),
        *broken_by_rows_past_use(points, planes, elements, n, v, h),
    }


# every line, so that no line is left without a damaged memory
LINES = {
    "lengths",
    "dimension", "vertex room", "element room", "hyperplane room", "boundary room",
    "coordinates", "unit normal", "distance", "P hyperplanes",
    "corners in order", "corner row",
    "rank", "boundary rises", "boundary earlier", "boundary rank", "boundary count", "two ends", "face closed",
    "hyperplane named", "hyperplane not named", "mark", "mark only on a facet",
    "equal elements",
    "axes past the dimension", "words past a boundary", "points past use", "hyperplanes past use", "elements past use",
}  # fmt: skip


def is_sound_reply(memory, lengths):
    return 3 if broken_lines(memory, lengths) else 0


# ---- the primordial cube


def digits_of(number, d):
    return [number // 3**axis % 3 for axis in range(d)]


def faces_of(number, d):
    """Each 2 replaced by 1 and by 0."""
    spanned = [axis for axis, digit in enumerate(digits_of(number, d)) if digit == 2]
    return sorted(number - by * 3**axis for axis in spanned for by in (1, 2))


def signed_radius(digit, radius):
    return radius if digit == 1 else floats.neg(radius)


def outward_plane(digits, radius):
    """The one axis that is not spanned gives the normal."""
    one = {0: floats.neg(floats.ONE), 1: floats.ONE, 2: 0}
    return [one[digit] for digit in digits] + [0] * (AXES - len(digits)) + [radius]


def cube(d, radius):
    """The four slices of the cube, each as long as its room."""
    points, planes, elements = [], [], []
    for number in range(3**d):
        digits = digits_of(number, d)
        rank = digits.count(2)
        if rank == 0:
            row = [0, 0, NO_PLANE, 1, len(points) // AXES]
            points += [signed_radius(digit, radius) for digit in digits] + [0] * (AXES - d)
        elif rank + 1 == d:
            row = [rank, 1, len(planes) // PLANE_WIDTH, 2 * rank, *faces_of(number, d)]
            planes += outward_plane(digits, radius)
        else:
            row = [rank, 0, NO_PLANE, 2 * rank, *faces_of(number, d)]
        elements += row + [0] * (ELEMENT_WIDTH - len(row))
    counts = [d, 3**d, len(points) // AXES, len(planes) // PLANE_WIDTH]
    return [words + [0] * (room - len(words)) for words, room in zip((counts, points, planes, elements), ROOM)]


def put_cube(memory, lengths, d, radius):
    """The reply. Refusals come in the order 1, 2, 3, and nothing is written then."""
    if not 1 <= d <= AXES:
        return 1
    if not (floats.at_most(floats.ONE, radius) and floats.at_most(radius, FARTHEST)):
        return 2
    if tuple(lengths) != ROOM:
        return 3
    for words, fresh in zip(memory, cube(d, radius)):
        words[: len(fresh)] = fresh
    return 0
