"""The exported functions, one for one. bindings/c/desk.h says what the bits of their replies are.

The library is libdesk.so in the folder SPOONVELVET_LIB, or else beside this file, or else where bindings/native leaves it.
"""

import os
from ctypes import POINTER, PyDLL, c_double, c_int64, c_size_t, c_uint8, c_uint16, c_uint32, c_uint64
from pathlib import Path
from typing import Any

from .values import AXES

COUNTS = 4
VERTEX_ROOM, ELEMENT_ROOM, HYPERPLANE_ROOM = 256, 512, 64
POINTS = VERTEX_ROOM * AXES
PLANE_WIDTH = AXES + 1
PLANES = HYPERPLANE_ROOM * PLANE_WIDTH
BOUNDARY_ROOM = 32
ELEMENT_WIDTH = 4 + BOUNDARY_ROOM
ELEMENTS = ELEMENT_ROOM * ELEMENT_WIDTH

NONE = 0xFFFF
"""What stands for "none" in the reply of a cut, and for "no hyperplane" in a row."""

WARNING = 0x200
"""What is set in the reply of a cut that comes with a warning: bit 9."""

LONGEST_LIST = ELEMENT_ROOM
"""A list has at most a number for each element."""

MOST_CUTS = 64
"""A list of cuts has no more of them."""

MOST_PIECES = 16
"""An area sheet has no more pieces."""

LONGEST_SHEET = MOST_PIECES + 2
"""And so many numbers, with the count of pieces and the sum of their sizes."""

LONGEST_FILE = 10 + VERTEX_ROOM * (2 + 8 * AXES) + HYPERPLANE_ROOM * (10 + 8 * AXES) + ELEMENT_ROOM * (8 + 2 * BOUNDARY_ROOM)
"""A file has at most a header and so many vertices, hyperplanes and elements as there is room for."""

LONGEST_PRINT = 84 + 50 * BOUNDARY_ROOM * (BOUNDARY_ROOM - 2)
"""A print file has at most a header, and of each face of a boundary two triangles fewer than a boundary has edges."""

_WORDS = [POINTER(c_uint16), c_size_t]
_FLOATS = [POINTER(c_double), c_size_t]
_BYTES = [POINTER(c_uint8), c_size_t]
_ANSWERS = [POINTER(c_uint64), c_size_t]
_AREAS = [POINTER(c_int64), c_size_t]
_TABLE = _WORDS + _FLOATS + _FLOATS + _WORDS


def _load() -> PyDLL:
    """A PyDLL holds the interpreter's lock, so that no other thread sees a table in the middle of a call."""
    here = Path(__file__).resolve()
    chosen = os.environ.get("SPOONVELVET_LIB")
    folders = [Path(chosen)] if chosen else [here.parent, here.parents[3] / "target/native"]
    for folder in folders:
        if (folder / "libdesk.so").exists():
            return PyDLL(str(folder / "libdesk.so"))
    raise ImportError("there is no libdesk.so: bindings/native makes it, and SPOONVELVET_LIB may name its folder")


def _function(name: str, reply: Any, *arguments: Any) -> Any:
    function = getattr(_LIBRARY, name)
    function.restype = reply
    function.argtypes = [*_TABLE, *arguments]
    return function


_LIBRARY = _load()

is_sound = _function("desk_is_sound", c_uint32)
cube = _function("desk_cube", c_uint32, c_uint32, c_double)
cut = _function("desk_cut", c_uint64, *[c_double] * 5, c_uint32, c_uint32, c_uint32)
cut_all = _function("desk_cut_all", c_uint32, *_FLOATS, *_BYTES, *_WORDS, *_ANSWERS)
touch = _function("desk_touch", c_uint32, *[c_double] * 5, c_uint32)
subelements_of = _function("desk_subelements_of", c_uint32, c_uint32, *_WORDS)
subelements_with_rank = _function("desk_subelements_with_rank", c_uint32, c_uint32, c_uint32, *_WORDS)
vertex_set = _function("desk_vertex_set", c_uint32, c_uint32, *_WORDS)
greatest_common_subelements = _function("desk_greatest_common_subelements", c_uint32, *_WORDS, *_WORDS)
edges_in_order = _function("desk_edges_in_order", c_uint32, c_uint32, *_WORDS)
has_primordial_facet = _function("desk_has_primordial_facet", c_uint32, c_uint32)
areas = _function("desk_areas", c_uint32, *_WORDS, *_AREAS)
stl = _function("desk_stl", c_uint64, c_uint32, *_BYTES)
save = _function("desk_save", c_uint64, *_BYTES)
open = _function("desk_open", c_uint32, *_BYTES)
