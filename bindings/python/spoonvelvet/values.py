"""What is handed to a table and what it gives: the three kinds of numbers, hyperplanes, answers, refusals."""

import enum
import operator
import sys
from ctypes import c_double
from dataclasses import dataclass
from typing import List, Mapping, NamedTuple, Optional, Sequence, SupportsFloat, Tuple

AXES = 4

REFUSALS: Mapping[int, str] = {
    1: "the dimension is not 1 to 4",
    2: "the radius is not a number from 1 to 65,536",
    3: "the table is not sound, or its room has another size",
    4: "an element number is not in use",
    5: "the normal is not unit, or the distance is not a number or finite beyond 262,144",
    6: "an element of another rank or kind is asked for",
    7: "an edge would not have two ends, or the edges of a face do not go round once",
    8: "there is no room for another vertex",
    9: "there is no room for another element",
    10: "there is no room for another hyperplane",
    11: "a boundary would have more than 32 elements",
    12: "the room for the list or the file is too short",
    13: "the bytes are not laid out as a file",
    16: "the piece has a primordial facet",
    25: "a coordinate of a piece is no multiple of 1/1,024",
    26: "the list has more than its limit, or its parts do not belong together",
}
"""What each refusal says, by its number."""


class Refused(Exception):
    """A call was refused, and left the table as it came. Its number is 1 to 13, 16, 25 or 26, as documents 01 and 02 have them.

    >>> print(Refused(4))
    refused 4: an element number is not in use
    """

    def __init__(self, number: int) -> None:
        super().__init__(number)
        self.number = number

    @property
    def words(self) -> str:
        """What the refusal says."""
        return REFUSALS[self.number]

    def __str__(self) -> str:
        return f"refused {self.number}: {self.words}"


@dataclass(frozen=True, order=True, repr=False)
class _Number:
    number: int

    def __post_init__(self) -> None:
        object.__setattr__(self, "number", int(operator.index(self.number)))

    def __repr__(self) -> str:
        return f"{type(self).__name__}({self.number})"


class ElementId(_Number):
    """An element's number in its list.

    >>> ElementId(0) == VertexId(0)
    False
    """


class VertexId(_Number):
    """A vertex's number: another list, so never an element's number."""


class HyperplaneId(_Number):
    """A hyperplane's number: the third list."""


def as_float(x: SupportsFloat) -> float:
    """An integer too great for a float is as far out of every range as the greatest float, which is finite as it is."""
    try:
        return c_double(x).value  # type: ignore[arg-type]
    except OverflowError:
        return sys.float_info.max if x > 0 else -sys.float_info.max  # type: ignore[operator]


@dataclass(frozen=True, init=False)
class Hyperplane:
    """A unit normal and a distance. Components that are not given are +0.0, for past the dimension nothing else is taken.

    >>> Hyperplane((0.6, 0.8), 1.4)
    Hyperplane(normal=(0.6, 0.8, 0.0, 0.0), distance=1.4)
    """

    normal: Tuple[float, float, float, float]
    distance: float

    def __init__(self, normal: Sequence[SupportsFloat], distance: SupportsFloat) -> None:
        given = tuple(as_float(x) for x in normal)
        if len(given) > AXES:
            raise Refused(5)
        object.__setattr__(self, "normal", given + (0.0,) * (AXES - len(given)))
        object.__setattr__(self, "distance", as_float(distance))

    def flipped(self) -> "Hyperplane":
        """The same plane with its sides exchanged. Zeros stay +0.0, as they have to past the dimension.

        >>> Hyperplane((1,), 0.5).flipped()
        Hyperplane(normal=(-1.0, 0.0, 0.0, 0.0), distance=-0.5)
        """
        return Hyperplane([0.0 - x for x in self.normal], 0.0 - self.distance)


class PolytopeFate(enum.Enum):
    """What becomes of what lies on one side of the divider."""

    REMOVE = 0
    KEEP = 1


class ElementCutOutput:
    """What a cut of an element gives: Flush or NonFlush, each with a warning.

    A corner within 2^-16 of the plane, and not on it, is a close call: an edge may vanish there, or be left too short to be seen. The
    warning says that some corner of the root was one, and the cut is made all the same. Then move the plane, through the corner or
    farther from it, and cut a copy of the table from before, for no entry is ever taken out. At an infinite distance no corner is
    tested, so there is no warning.
    """

    warning: bool


@dataclass(frozen=True)
class Flush(ElementCutOutput):
    """The element lies in the plane. This answer carries its warning alone."""

    warning: bool = False


@dataclass(frozen=True)
class NonFlush(ElementCutOutput):
    """Three places, each an element or none. A side that is removed is none; the intersection is there either way."""

    inside: Optional[ElementId]
    outside: Optional[ElementId]
    intersection: Optional[ElementId]
    warning: bool = False


@dataclass(frozen=True)
class ListedCut:
    """One cut of a list, for Table.cut_all. The root may be an element that a cut before it in the list adds."""

    divider: Hyperplane
    inside: PolytopeFate
    outside: PolytopeFate
    root: ElementId

    @classmethod
    def carve(cls, divider: Hyperplane, root: ElementId) -> "ListedCut":
        """A cut that keeps what lies inside."""
        return cls(divider, PolytopeFate.KEEP, PolytopeFate.REMOVE, root)

    @classmethod
    def slice(cls, divider: Hyperplane, root: ElementId) -> "ListedCut":
        """A cut that keeps what lies on either side."""
        return cls(divider, PolytopeFate.KEEP, PolytopeFate.KEEP, root)


class Stopped(Refused):
    """A list of cuts was not made to its end. The cuts before the refused one stay in the table.

    Its position is that of the refused cut, from 0 up, or None where the list was refused before any cut; its answers are those of the
    cuts before it.

    >>> print(Stopped(4, 1, [Flush()]))
    refused 4 at position 1: an element number is not in use
    """

    def __init__(self, number: int, position: Optional[int], answers: List[ElementCutOutput]) -> None:
        super().__init__(number)
        self.args = (number, position, answers)
        self.position = position
        self.answers = answers

    def __str__(self) -> str:
        return super().__str__() if self.position is None else f"refused {self.number} at position {self.position}: {self.words}"


class Touch(enum.Enum):
    """Where the corners of an element lie to a plane."""

    ALL_ON = 0
    INSIDE_OR_ON = 1
    OUTSIDE_OR_ON = 2
    BOTH = 3


class Touched(NamedTuple):
    """What a touch answers: where the corners lie, and how many of them were tested, in rising vertex order.

    They are tested up to and with the first at which both an inside and an outside corner have been met, or all. An infinite distance
    tests none.
    """

    answer: Touch
    tested: int


class AreaSheet(NamedTuple):
    """The areas of some flat pieces, each twice and in units of 1/1,048,576: so they are whole numbers.

    An area is positive where the walk of its piece turns from axis 0 towards axis 1, else negative; a size has no sign.
    """

    twice_areas: Tuple[int, ...]
    sum_of_sizes: int

    IN_ONE = 2 * 1_048_576
    """A piece of area 1 has so many."""


class Counts(NamedTuple):
    """One number for each of the three lists."""

    elements: int
    vertices: int
    hyperplanes: int
