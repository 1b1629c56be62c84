"""The room of one table, the calls that add entries to it, the questions about it, and its rows as they lie there."""

import operator
from ctypes import c_double, c_int64, c_uint8, c_uint16, c_uint64
from typing import Any, Callable, Iterable, List, Optional, SupportsFloat, SupportsIndex, Tuple, TypeVar, Union

from . import raw
from .values import (
    AreaSheet,
    AXES,
    Counts,
    ElementCutOutput,
    ElementId,
    Flush,
    Hyperplane,
    HyperplaneId,
    ListedCut,
    NonFlush,
    PolytopeFate,
    Refused,
    Stopped,
    Touch,
    Touched,
    VertexId,
    as_float,
)

_T = TypeVar("_T")


def _fit(number: SupportsIndex, bits: int = 32) -> int:
    """A number past its width becomes the greatest there, which is never in use: so it is not wrapped, and is refused in order."""
    n = operator.index(number)
    return n if 0 <= n < 1 << bits else (1 << bits) - 1


def _expect(kind: type, given: object) -> None:
    if not isinstance(given, kind):
        raise TypeError(f"{given!r} is no {kind.__name__}")


def _root(root: ElementId, bits: int = 32) -> int:
    _expect(ElementId, root)
    return _fit(root.number, bits)


def _pairs(*lent: Any) -> List[Any]:
    """Each slice, and how many entries it has."""
    return [word for part in lent for word in (part, len(part))]


def _row_of_list(cut: ListedCut) -> Tuple[Tuple[float, ...], int, int]:
    """Its divider, what it keeps, and its root, as they are lent."""
    _expect(ListedCut, cut)
    _expect(Hyperplane, cut.divider)
    _expect(PolytopeFate, cut.inside)
    _expect(PolytopeFate, cut.outside)
    return (*cut.divider.normal, cut.divider.distance), cut.inside.value | cut.outside.value << 1, _root(cut.root, 16)


def _answer(word: int) -> ElementCutOutput:
    """What the reply of a cut says, where it is done."""
    warning = word & raw.WARNING != 0
    if word >> 8 & 1:
        return Flush(warning)

    def place(shift: int) -> Optional[ElementId]:
        number = word >> shift & 0xFFFF
        return None if number == raw.NONE else ElementId(number)

    return NonFlush(inside=place(16), outside=place(32), intersection=place(48), warning=warning)


def _done(word: int) -> int:
    """What is above the reply's number, where that is 0."""
    if word & 0xFF:
        raise Refused(word & 0xFF)
    return word >> 8


class Table:
    """Dimension and counts, points, hyperplanes, elements. Only the engine writes them, so a table stays sound.

    Two tables are equal when every word and float of theirs has the same bits.
    """

    _counts: Any
    _points: Any
    _planes: Any
    _elements: Any

    def __init__(self) -> None:
        raise TypeError("a table comes from Table.with_primordial_cube_radius or Table.open")

    @classmethod
    def with_primordial_cube_radius(cls, ndim: int, radius: SupportsFloat) -> "Table":
        """The primordial cube, of 1 to 4 dimensions and radius 1 to 65,536. It is the last element. Refuses with 1 or 2.

        >>> Table.with_primordial_cube_radius(3, 1.0).last_element()
        ElementId(26)
        >>> Table.with_primordial_cube_radius(258, 1.0)
        Traceback (most recent call last):
        spoonvelvet.values.Refused: refused 1: the dimension is not 1 to 4
        """
        table = cls._blank()
        _done(raw.cube(*table._lent(), _fit(ndim), as_float(radius)))
        return table

    @classmethod
    def open(cls, file: Union[bytes, bytearray, memoryview]) -> "Table":
        """The table of a file, as save gives it. Refuses with 13 bytes that are not laid out as a file, and with 3 a table that is not
        sound or has no room.

        >>> file = Table.with_primordial_cube_radius(2, 1.0).save()
        >>> Table.open(file).save() == file
        True
        >>> Table.open(file[1:])
        Traceback (most recent call last):
        spoonvelvet.values.Refused: refused 13: the bytes are not laid out as a file
        """
        data = memoryview(file).tobytes()
        table = cls._blank()
        _done(raw.open(*table._lent(), (c_uint8 * len(data)).from_buffer_copy(data), len(data)))
        return table

    @classmethod
    def _blank(cls) -> "Table":
        table = cls.__new__(cls)
        table._counts = (c_uint16 * raw.COUNTS)()
        table._points = (c_double * raw.POINTS)()
        table._planes = (c_double * raw.PLANES)()
        table._elements = (c_uint16 * raw.ELEMENTS)()
        return table

    def save(self) -> bytes:
        """The one file of the table, whose bytes are in docs/FILE.md: two tables are equal exactly when their files are. Refuses with 3.

        >>> Table.with_primordial_cube_radius(1, 1.0).save()[:10]
        b'HD\\x01\\x00\\x03\\x00\\x02\\x00\\x00\\x00'
        """
        room = (c_uint8 * raw.LONGEST_FILE)()
        return bytes(room[: _done(raw.save(*self._lent(), room, len(room)))])

    def copy(self) -> "Table":
        """Another table with the same entries; a cut of the one leaves the other as it is."""
        table = self.__class__.__new__(self.__class__)
        copies = [type(lent).from_buffer_copy(lent) for lent in self._slices()]
        table._counts, table._points, table._planes, table._elements = copies
        return table

    __copy__ = copy

    def __deepcopy__(self, memo: Any) -> "Table":
        return self.copy()

    def __eq__(self, other: object) -> bool:
        if not isinstance(other, Table):
            return NotImplemented
        return all(bytes(a) == bytes(b) for a, b in zip(self._slices(), other._slices()))

    def __repr__(self) -> str:
        return f"<Table of {self.dimensions()} dimensions, {self.counts()}>"

    # The calls that add entries

    def cut(self, divider: Hyperplane, inside: PolytopeFate, outside: PolytopeFate, root: ElementId) -> ElementCutOutput:
        """The cut of root by divider; the entries that it needs and that are not there are added.

        Refuses with 3, 4, 5, 7, 8, 9, 10 or 11. With both sides removed the intersection is there all the same:

        >>> square = Table.with_primordial_cube_radius(2, 1.0)
        >>> square.cut(Hyperplane((1, 0), 0), PolytopeFate.REMOVE, PolytopeFate.REMOVE, ElementId(8))
        NonFlush(inside=None, outside=None, intersection=ElementId(11), warning=False)

        The answer warns of a corner that is close to the plane. Here the outside has four edges, but for a plane a hair from the corner
        (1, -0.125), which takes one:

        >>> piece = square.carve(Hyperplane((0.6, 0.8), 0.5), ElementId(8)).inside
        >>> for distance in (0.874999, 0.8749):
        ...     table = square.copy()
        ...     answer = table.slice(Hyperplane((0.8, -0.6), distance), piece)
        ...     print(answer.warning, len(table.boundary_of(answer.outside)))
        True 3
        False 4
        """
        _expect(Hyperplane, divider)
        _expect(PolytopeFate, inside)
        _expect(PolytopeFate, outside)
        reply = raw.cut(*self._lent(), *divider.normal, divider.distance, inside.value, outside.value, _root(root))
        _done(reply)
        return _answer(reply)

    def carve(self, divider: Hyperplane, root: ElementId) -> ElementCutOutput:
        """A cut that keeps what lies inside."""
        return self.cut(divider, PolytopeFate.KEEP, PolytopeFate.REMOVE, root)

    def slice(self, divider: Hyperplane, root: ElementId) -> ElementCutOutput:
        """A cut that keeps what lies on either side. A piece that the plane misses is its old entry:

        >>> square = Table.with_primordial_cube_radius(2, 1.0)
        >>> square.slice(Hyperplane((0.6, 0.8), 1.4), ElementId(8))
        NonFlush(inside=ElementId(8), outside=None, intersection=None, warning=False)
        """
        return self.cut(divider, PolytopeFate.KEEP, PolytopeFate.KEEP, root)

    def cut_all(self, cuts: Iterable[ListedCut]) -> List[ElementCutOutput]:
        """A list of at most 64 cuts in one call, each of what the one before it left. The answers and the table are those of the same cuts
        made singly, in that order. The first cut that is refused ends the list and raises Stopped, with its position and the answers
        before it: those cuts stay. Refuses with 3, and with 26 a longer list, before any cut.

        >>> square = Table.with_primordial_cube_radius(2, 1.0)
        >>> x, y = Hyperplane((1, 0), 0), Hyperplane((0, 1), 0)
        >>> for answer in square.cut_all(ListedCut.slice(*cut) for cut in ((x, ElementId(8)), (y, ElementId(16)), (y, ElementId(17)))):
        ...     print(answer)
        NonFlush(inside=ElementId(16), outside=ElementId(17), intersection=ElementId(15), warning=False)
        NonFlush(inside=ElementId(25), outside=ElementId(26), intersection=ElementId(24), warning=False)
        NonFlush(inside=ElementId(31), outside=ElementId(32), intersection=ElementId(30), warning=False)
        """
        rows = [_row_of_list(cut) for cut in cuts]
        dividers = (c_double * (raw.PLANE_WIDTH * len(rows)))(*(x for row, _, _ in rows for x in row))
        kept = (c_uint8 * len(rows))(*(kept for _, kept, _ in rows))
        roots = (c_uint16 * len(rows))(*(root for _, _, root in rows))
        room = (c_uint64 * len(rows))()
        reply = raw.cut_all(*self._lent(), *_pairs(dividers, kept, roots, room))
        number, written = reply & 0xFF, reply >> 8
        answers = [_answer(word) for word in room[:written]]
        if number:
            raise Stopped(number, None if number in (3, 12, 26) else written, answers)
        return answers

    # The questions

    def is_sound(self) -> bool:
        """Whether the table is sound. Calls keep it so."""
        return bool(raw.is_sound(*self._lent()) == 0)

    def touch(self, divider: Hyperplane, root: ElementId) -> Touched:
        """Where the corners of root lie to divider, without a cut: for a plane that is dragged. Nothing is added. Refuses with 3, 4 or 5.

        >>> square = Table.with_primordial_cube_radius(2, 1.0)
        >>> square.touch(Hyperplane((1, 0), 0), ElementId(8))
        Touched(answer=<Touch.BOTH: 3>, tested=2)
        >>> square.touch(Hyperplane((1, 0), 1), ElementId(8))
        Touched(answer=<Touch.INSIDE_OR_ON: 1>, tested=4)
        """
        _expect(Hyperplane, divider)
        reply = raw.touch(*self._lent(), *divider.normal, divider.distance, _root(root))
        _done(reply)
        return Touched(Touch(reply >> 8 & 3), reply >> 16)

    def subelements_of(self, root: ElementId) -> List[ElementId]:
        """The root and all below it, vertex elements too, rising. Refuses with 3 or 4."""
        return self._list(ElementId, raw.subelements_of, _root(root))

    def subelements_with_rank(self, root: ElementId, rank: int) -> List[ElementId]:
        """Those of a rank, if any. Refuses with 3 or 4.

        >>> square = Table.with_primordial_cube_radius(2, 1.0)
        >>> square.subelements_with_rank(ElementId(8), 1)
        [ElementId(2), ElementId(5), ElementId(6), ElementId(7)]
        >>> square.subelements_with_rank(ElementId(8), 300)
        []
        """
        return self._list(ElementId, raw.subelements_with_rank, _root(root), _fit(rank))

    def vertex_set(self, root: ElementId) -> List[VertexId]:
        """The vertices of an element, rising. Refuses with 3 or 4."""
        return self._list(VertexId, raw.vertex_set, _root(root))

    def greatest_common_subelements(self, roots: Iterable[ElementId]) -> List[ElementId]:
        """Those of the highest rank above 0 that all roots have. Refuses with 3, 4 or 6: roots have one rank, and there is one."""
        numbers = [_root(root, 16) for root in roots]
        return self._list(ElementId, raw.greatest_common_subelements, (c_uint16 * len(numbers))(*numbers), len(numbers))

    def edges_in_order(self, root: ElementId) -> List[Tuple[VertexId, VertexId]]:
        """The edges of a face in order, as pairs of vertices, round to the start. Refuses with 3, 4, 6 or 7.

        >>> square = Table.with_primordial_cube_radius(2, 1.0)
        >>> [(a.number, b.number) for a, b in square.edges_in_order(ElementId(8))]
        [(0, 1), (1, 3), (3, 2), (2, 0)]
        """
        ends = self._list(VertexId, raw.edges_in_order, _root(root))
        return list(zip(ends[::2], ends[1::2]))

    def has_primordial_facet(self, root: ElementId) -> bool:
        """Whether an element of full rank has a primordial facet. Refuses with 3, 4 or 6."""
        return bool(_done(raw.has_primordial_facet(*self._lent(), _root(root))))

    def areas(self, pieces: Iterable[ElementId]) -> AreaSheet:
        """The areas of up to 16 flat pieces, in exact numbers. Refuses with 3; 26, more pieces; 4; 6, a table that has not two dimensions or
        a piece that has not rank 2; 25, a coordinate that is no multiple of 1/1,024.

        >>> square = Table.with_primordial_cube_radius(2, 1.0)
        >>> halves = square.slice(Hyperplane((1, 0), 0.5), ElementId(8))
        >>> sheet = square.areas([halves.inside, halves.outside])
        >>> [twice / sheet.IN_ONE for twice in sheet.twice_areas], sheet.sum_of_sizes / sheet.IN_ONE
        ([-3.0, 1.0], 4.0)
        """
        numbers = [_root(piece, 16) for piece in pieces]
        room = (c_int64 * raw.LONGEST_SHEET)()
        _done(raw.areas(*self._lent(), *_pairs((c_uint16 * len(numbers))(*numbers), room)))
        return AreaSheet(tuple(room[: len(numbers)]), room[len(numbers) + 1])

    def stl(self, root: ElementId) -> bytes:
        """A piece of three dimensions as binary STL, for a printer: each face as a fan of triangles from the first corner of its walk, with
        coordinates narrowed to 32 bits. The winding is the walk's, which need not be outward, and no normal is given, so a reader
        has to turn the faces. Refuses with 3, 4, 6 or, where the piece still has a facet of the cube, 16.

        >>> cube = Table.with_primordial_cube_radius(3, 1.0)
        >>> cube.stl(cube.last_element())
        Traceback (most recent call last):
        spoonvelvet.values.Refused: refused 16: the piece has a primordial facet
        """
        room = (c_uint8 * raw.LONGEST_PRINT)()
        return bytes(room[: _done(raw.stl(*self._lent(), _root(root), *_pairs(room)))])

    # The rows, as they lie in the table

    def dimensions(self) -> int:
        """How many dimensions the space has."""
        return self._counts[0]

    def counts(self) -> Counts:
        """How many elements, vertices and hyperplanes are in use."""
        return Counts(*self._counts[1:])

    def room_left(self) -> Counts:
        """How many more of each there is room for."""
        rooms = (raw.ELEMENT_ROOM, raw.VERTEX_ROOM, raw.HYPERPLANE_ROOM)
        return Counts(*(room - count for room, count in zip(rooms, self.counts())))

    def last_element(self) -> ElementId:
        """The last element in use. Of a fresh cube that is the cube itself, the root of its first cut."""
        return ElementId(self.counts().elements - 1)

    def rank_of(self, element: ElementId) -> int:
        """0 for a vertex element, 1 for an edge, 2 for a face. Refuses with 4, as all that read an element's row do."""
        return self._row(element)[0]

    def boundary_of(self, element: ElementId) -> Tuple[ElementId, ...]:
        """The elements of its boundary, rising. A vertex element has none.

        >>> Table.with_primordial_cube_radius(2, 1.0).boundary_of(ElementId(7))
        (ElementId(1), ElementId(4))
        """
        rank, _, _, count, *numbers = self._row(element)
        return tuple(ElementId(n) for n in numbers[:count]) if rank > 0 else ()

    def vertex_of(self, element: ElementId) -> Optional[VertexId]:
        """The vertex that a vertex element names; None for any other element.

        >>> Table.with_primordial_cube_radius(2, 1.0).vertex_of(ElementId(4))
        VertexId(3)
        """
        row = self._row(element)
        return VertexId(row[4]) if row[0] == 0 else None

    def hyperplane_of(self, element: ElementId) -> Optional[HyperplaneId]:
        """The hyperplane that a facet names; None for any other element."""
        number = self._row(element)[2]
        return None if number == raw.NONE else HyperplaneId(number)

    def is_primordial(self, element: ElementId) -> bool:
        """Whether it has the primordial mark: the cube's own facets do, and the entries that a cut adds for a side of one."""
        return self._row(element)[1] == 1

    def coordinates_of(self, vertex: VertexId) -> Tuple[float, ...]:
        """One for each dimension. An IndexError for a vertex number that is not in use.

        >>> Table.with_primordial_cube_radius(2, 1.0).coordinates_of(VertexId(3))
        (1.0, 1.0)
        """
        _expect(VertexId, vertex)
        start = _in_use(vertex.number, self.counts().vertices) * AXES
        return tuple(self._points[start : start + self.dimensions()])

    def hyperplane_at(self, hyperplane: HyperplaneId) -> Hyperplane:
        """The hyperplane of that number. An IndexError for one that is not in use."""
        _expect(HyperplaneId, hyperplane)
        start = _in_use(hyperplane.number, self.counts().hyperplanes) * raw.PLANE_WIDTH
        *normal, distance = self._planes[start : start + raw.PLANE_WIDTH]
        return Hyperplane(normal, distance)

    def _row(self, element: ElementId) -> List[int]:
        _expect(ElementId, element)
        if not 0 <= element.number < self.counts().elements:
            raise Refused(4)
        start = element.number * raw.ELEMENT_WIDTH
        return self._elements[start : start + raw.ELEMENT_WIDTH]

    def _list(self, kind: Callable[[int], _T], question: Any, *words: Any) -> List[_T]:
        """No list is longer than the table has elements, so there is always room."""
        room = (c_uint16 * raw.LONGEST_LIST)()
        size = _done(question(*self._lent(), *words, room, len(room)))
        return [kind(n) for n in room[:size]]

    def _slices(self) -> Tuple[Any, Any, Any, Any]:
        return self._counts, self._points, self._planes, self._elements

    def _lent(self) -> List[Any]:
        return _pairs(*self._slices())


def _in_use(number: int, count: int) -> int:
    if not 0 <= number < count:
        raise IndexError(f"{number} is not in use: there are {count}")
    return number
