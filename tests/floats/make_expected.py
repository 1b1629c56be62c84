#!/usr/bin/env python3
"""The inputs and the expected output of the program crates/floats_hard.

This file is the only source of the inputs. From them it writes
    crates/floats_hard/src/table.rt    the inputs as bit patterns
    crates/floats_hard/stdout          what the program must print, a line for each case
The results are worked out here by exact fractions and one rounding to binary64 written from IEEE 754,
following document 01, "Floats". No float of Python's takes part.

    make_expected.py            write both files
    make_expected.py --check    write them to a temporary folder, and fail where the committed ones differ
"""

import filecmp
import pathlib
import sys
import tempfile
import textwrap
from fractions import Fraction

CRATE = pathlib.Path(__file__).resolve().parents[2] / "crates" / "floats_hard"
FILES = ("src/table.rt", "stdout")

# ---- binary64, by bit patterns

SIGN = 1 << 63
INFINITY = 0x7FF << 52
NAN = 0x7FF8 << 48
AXES = 4


def is_nan(x):
    return x % SIGN > INFINITY


def is_infinite(x):
    return x % SIGN == INFINITY


def is_zero(x):
    return x % SIGN == 0


def is_negative(x):
    return x >= SIGN


def signed(negative, pattern):
    return pattern + SIGN if negative else pattern


def exact(x):
    """The number that a finite pattern stands for."""
    exponent, digits = divmod(x % SIGN, 1 << 52)
    if exponent == 0:
        size = Fraction(digits, 1 << 1074)
    else:
        size = Fraction(digits + (1 << 52)) * Fraction(2) ** (exponent - 1075)
    return -size if is_negative(x) else size


def floor_log2(size):
    """The e with 2^e <= size < 2^(e + 1)."""
    e = size.numerator.bit_length() - size.denominator.bit_length()
    return e if Fraction(2) ** e <= size else e - 1


def rounded(negative, size):
    """The float nearest to a size that is not negative: of two that are as near, the even one."""
    if size == 0:
        return signed(negative, 0)
    e = max(floor_log2(size), -1022)
    spacing = Fraction(2) ** (e - 52)
    steps, rest = divmod(size, spacing)
    if 2 * rest > spacing or (2 * rest == spacing and steps % 2 == 1):
        steps += 1
    # Patterns count floats upwards from zero, so steps that carry reach the next exponent, and the last one infinity.
    return signed(negative, min((e + 1022) * (1 << 52) + steps, INFINITY))


def narrowed(x):
    """The 32 bits of the nearest float of that width, for a pattern that is no NaN's."""
    sign = (x >> 63) << 31
    if is_infinite(x):
        return sign + (0xFF << 23)
    size = abs(exact(x))
    if size == 0:
        return sign
    e = max(floor_log2(size), -126)
    spacing = Fraction(2) ** (e - 23)
    steps, rest = divmod(size, spacing)
    if 2 * rest > spacing or (2 * rest == spacing and steps % 2 == 1):
        steps += 1
    return sign + min((e + 126) * (1 << 23) + steps, 0xFF << 23)


def neg(x):
    return NAN if is_nan(x) else x ^ SIGN


def add(x, y):
    if is_nan(x) or is_nan(y):
        return NAN
    if is_infinite(x) and is_infinite(y):
        return x if x == y else NAN
    if is_infinite(x) or is_infinite(y):
        return x if is_infinite(x) else y
    total = exact(x) + exact(y)
    if total == 0:
        return signed(is_negative(x) and is_negative(y), 0)
    return rounded(total < 0, abs(total))


def sub(x, y):
    return add(x, neg(y))


def mul(x, y):
    if is_nan(x) or is_nan(y):
        return NAN
    negative = is_negative(x) != is_negative(y)
    if is_infinite(x) or is_infinite(y):
        return NAN if is_zero(x) or is_zero(y) else signed(negative, INFINITY)
    return rounded(negative, abs(exact(x) * exact(y)))


def div(x, y):
    if is_nan(x) or is_nan(y):
        return NAN
    negative = is_negative(x) != is_negative(y)
    if is_infinite(x):
        return NAN if is_infinite(y) else signed(negative, INFINITY)
    if is_infinite(y):
        return signed(negative, 0)
    if is_zero(y):
        return NAN if is_zero(x) else signed(negative, INFINITY)
    return rounded(negative, abs(exact(x) / exact(y)))


def place(x):
    """Where a float that is a number stands; every finite one lies inside the infinities."""
    if is_infinite(x):
        return -(Fraction(2) ** 1024) if is_negative(x) else Fraction(2) ** 1024
    return exact(x)


def less(x, y):
    return not is_nan(x) and not is_nan(y) and place(x) < place(y)


def at_most(x, y):
    return not is_nan(x) and not is_nan(y) and place(x) <= place(y)


# ---- document 01, "Floats"

ONE = rounded(False, Fraction(1))
TOLERANCE = rounded(False, Fraction(1, 2**20))
CLOSE_BOUND = rounded(False, Fraction(16, 2**20))
UNIT_LOW = rounded(False, 1 - Fraction(1, 2**20))
UNIT_HIGH = rounded(False, 1 + Fraction(1, 2**20))
FARTHEST_PLANE = rounded(False, Fraction(262144))


def is_within(bound, x):
    return at_most(neg(bound), x) and at_most(x, bound)


def dot(d, a, b):
    """The sum starts at +0, as the rules' specs/Floats.antt settles it."""
    total = 0
    for x, y in zip(a[:d], b[:d]):
        total = add(total, mul(x, y))
    return total


def signed_distance(d, normal, distance, p):
    return sub(dot(d, normal, p), distance)


def side_of(s):
    if is_within(TOLERANCE, s):
        return "on"
    return "inside" if less(s, neg(TOLERANCE)) else "outside"


def close_call(s):
    return is_within(CLOSE_BOUND, s) and not is_within(TOLERANCE, s)


def is_unit(d, normal):
    squares = dot(d, normal, normal)
    return (
        all(is_within(ONE, x) for x in normal[:d])
        and all(x == 0 for x in normal[d:])
        and at_most(UNIT_LOW, squares)
        and at_most(squares, UNIT_HIGH)
    )


def distance_kind(x):
    if is_infinite(x):
        return "minus_infinity" if is_negative(x) else "plus_infinity"
    return "finite" if is_within(FARTHEST_PLANE, x) else "unfit"


def crossing(sa, sb):
    """No crossing, or its t."""
    if {side_of(sa), side_of(sb)} != {"inside", "outside"}:
        return None
    return div(sa, sub(sa, sb))


def clamp(a, b, x):
    if less(a, x) and less(b, x):
        return b if less(a, b) else a
    if is_nan(x) or (less(x, a) and less(x, b)):
        return b if less(b, a) else a
    return x


def crossing_point(d, a, b, t):
    point = [clamp(x, y, add(x, mul(sub(y, x), t))) for x, y in zip(a[:d], b[:d])]
    return point + [0] * (AXES - len(point))


def same_bits(a, b):
    """As data there is one NaN."""
    return a == b or (is_nan(a) and is_nan(b))


def coordinates_match(earlier, later):
    return same_bits(earlier, later) or is_within(TOLERANCE, sub(earlier, later))


def points_match(d, earlier, later):
    return all(coordinates_match(x, y) for x, y in zip(earlier[:d], later[:d]))


def hyperplanes_match(d, earlier, later):
    return points_match(d, earlier[:AXES], later[:AXES]) and coordinates_match(earlier[AXES], later[AXES])


def lowest(numbers, matches):
    return next((k for k in numbers if matches(k)), None)


# ---- the numbers that the inputs are made of

# NEG_x is x with the other sign; x_UP and x_DOWN are the next floats away from zero and towards it.
NAMED = {
    "ZERO": 0x0000000000000000,
    "TINY": 0x0000000000000001,  # the smallest above zero
    "SUBNORMAL": 0x000FFFFFFFFFFFFF,  # the largest subnormal
    "NORMAL": 0x0010000000000000,  # the smallest normal
    "ROOT": 0x1E60000000000000,  # 2^-537: its square is TINY
    "ROOT_HALF": 0x1E50000000000000,  # 2^-538: times ROOT it lies halfway from zero to TINY
    "T": 0x3EB0000000000000,  # the tolerance
    "CLOSE": 0x3EF0000000000000,  # 16 T
    "EDGE": 0x3F50000000000000,  # 2^-10: its square is T
    "EDGE_TIE": 0x3F50000000040000,  # 1 and its square add up to a tie, which goes down to 1 + T
    "EDGE_OVER": 0x3F50000000080000,  # 1 and its square add up to the next float above 1 + T
    "TENTH": 0x3FB999999999999A,
    "THIRD": 0x3FD5555555555555,
    "HALF": 0x3FE0000000000000,
    "SIX_TENTHS": 0x3FE3333333333333,
    "EIGHT_TENTHS": 0x3FE999999999999A,
    "SHORT": 0x3FEFFFFEFFFFFC00,  # its square rounds to 1 - T
    "UNDER": 0x3FEFFFFE00000000,  # 1 - T
    "ONE": 0x3FF0000000000000,
    "OVER": 0x3FF0000100000000,  # 1 + T
    "FOURTEEN_TENTHS": 0x3FF6666666666666,
    "TWO": 0x4000000000000000,
    "THREE": 0x4008000000000000,
    "FAR": 0x40F0000000000000,  # 65,536
    "FAR_T": 0x40F0000000010000,  # 65,536 + T
    "PLANE": 0x4110000000000000,  # 262,144
    "PLANE_T": 0x4110000000004000,  # 262,144 + T
    "BIG": 0x4341C37937E08000,  # 10^16, where floats are 2 apart
    "STEP": 0x7C90000000000000,  # half a step of MAX: the sum overflows
    "MAX": 0x7FEFFFFFFFFFFFFF,  # the largest finite
    "NARROW_HALF": 0x3690000000000000,  # half of the smallest of 32 bits: a tie, which goes to zero
    "NARROW_TINY": 0x36A0000000000000,  # the smallest of 32 bits
    "NARROW_TIE_LOW": 0x36A8000000000000,  # one and a half of it: a tie, which goes to two
    "NARROW_TIE_EVEN": 0x36B4000000000000,  # two and a half: a tie, which goes to two
    "NARROW_SUBNORMAL": 0x380FFFFFC0000000,  # the largest subnormal of 32 bits
    "NARROW_TIE_NORMAL": 0x380FFFFFE0000000,  # halfway to the smallest normal, which is even
    "NARROW_NORMAL": 0x3810000000000000,  # the smallest normal of 32 bits
    "NARROW_ONE_TIE": 0x3FF0000010000000,  # 1 + 2^-24: a tie, which goes down to 1
    "NARROW_ODD_TIE": 0x3FF0000030000000,  # 1 + 3 * 2^-24: a tie, which goes up
    "NARROW_CARRY": 0x3FFFFFFFF0000000,  # 2 - 2^-24: a tie, whose carry reaches 2
    "NARROW_FAR_TIE": 0x40EFFFFFF0000000,  # 65,536 - 2^-9: a tie, whose carry reaches 65,536
    "NARROW_LARGEST": 0x47EFFFFFE0000000,  # the largest of 32 bits
    "NARROW_OVER": 0x47EFFFFFF0000000,  # halfway past it: an infinity
    "NARROW_PAST": 0x47F0000000000000,  # 2^128
    "INF": 0x7FF0000000000000,
    "NAN": 0x7FF8000000000000,
}


def pattern(name):
    if name in NAMED:
        return NAMED[name]
    if name.startswith("NEG_"):
        return pattern(name[4:]) + SIGN
    if name.endswith("_UP"):
        return pattern(name[:-3]) + 1
    if name.endswith("_DOWN"):
        return pattern(name[:-5]) - 1
    return int(name)


def cases(text, lines=1):
    """Each case of a table, as the words of its lines."""
    rows = [line.split() for line in text.strip().splitlines()]
    assert len(rows) % lines == 0
    return [rows[at : at + lines] for at in range(0, len(rows), lines)]


# ---- the inputs

# x
ONES = cases("""
ZERO
NEG_ZERO
TINY
NEG_TINY
SUBNORMAL
NEG_SUBNORMAL
NORMAL
T_DOWN
T
T_UP
NEG_T_DOWN
NEG_T
NEG_T_UP
CLOSE_DOWN
CLOSE
CLOSE_UP
NEG_CLOSE_DOWN
NEG_CLOSE
NEG_CLOSE_UP
UNDER
ONE_DOWN
ONE
ONE_UP
OVER
NEG_ONE
FAR_DOWN
FAR
FAR_UP
NEG_FAR
PLANE_DOWN
PLANE
PLANE_UP
NEG_PLANE_DOWN
NEG_PLANE
NEG_PLANE_UP
MAX
NEG_MAX
INF
NEG_INF
NAN
""")

# two floats, as a bound and x, as two signed distances, and as an earlier and a later coordinate
PAIRS = cases("""
ZERO ZERO
ZERO NEG_ZERO
NEG_ZERO ZERO
NEG_ZERO NEG_ZERO
ZERO TINY
TINY ZERO
TINY NEG_TINY
TINY TINY_UP
SUBNORMAL NORMAL
NEG_ONE ZERO
T T
T T_UP
T T_DOWN
T NEG_T
T NEG_T_DOWN
T NEG_T_UP
NEG_T NEG_T
ONE ONE
ONE ONE_UP
ONE NEG_ONE_UP
ONE_DOWN ONE
FAR FAR
FAR FAR_UP
FAR NEG_FAR_UP
FAR FAR_T
FAR FAR_T_UP
FAR_T FAR
FAR_T_UP FAR
PLANE PLANE_UP
PLANE NEG_PLANE_UP
PLANE PLANE_T
PLANE PLANE_T_UP
PLANE_T_DOWN PLANE
ONE OVER
ONE OVER_UP
ONE OVER_DOWN
OVER ONE
OVER_UP ONE
ONE UNDER
ONE UNDER_DOWN
UNDER ONE
UNDER_DOWN ONE
UNDER_UP ONE
ZERO T
ZERO T_UP
ZERO NEG_T_UP
T_UP ZERO
T_UP TINY
T NEG_TINY
T NEG_SUBNORMAL
BIG BIG
BIG BIG_UP
MAX MAX
MAX MAX_DOWN
MAX NEG_MAX
NEG_MAX MAX
MAX INF
INF MAX
INF INF
INF NEG_INF
NEG_INF INF
NEG_INF NEG_INF
INF NAN
NAN INF
NAN NAN
NAN ZERO
ZERO NAN
NEG_ONE ONE
ONE NEG_ONE
NEG_ONE TWO
TWO NEG_ONE
NEG_ONE TENTH
TENTH NEG_THIRD
NEG_THREE SIX_TENTHS
NEG_T_UP T_UP
NEG_T T_UP
NEG_T_UP T
T_UP NEG_T_UP
NEG_T_UP NAN
CLOSE NEG_ONE
ONE NEG_CLOSE
NEG_CLOSE_UP CLOSE_UP
NAN NEG_ONE
NEG_ONE INF
INF NEG_ONE
NEG_INF ONE
NEG_MAX T_UP
NEG_T_UP MAX
MAX NEG_T_UP
""")

# the ends a and b, and x
CLAMPS = cases("""
ZERO ONE HALF
ZERO ONE ZERO
ZERO ONE ONE
ZERO ONE TWO
ZERO ONE NEG_ONE
ONE ZERO TWO
ONE ZERO NEG_ONE
ZERO ONE NAN
ONE ZERO NAN
ZERO ONE ONE_UP
ZERO ONE NEG_TINY
ZERO ONE NEG_ZERO
ZERO ONE INF
ZERO ONE NEG_INF
ONE ONE ONE
ONE ONE ONE_UP
ONE ONE ONE_DOWN
ONE ONE NAN
ZERO NEG_ZERO NAN
NEG_ZERO ZERO NAN
ZERO NEG_ZERO TINY
NEG_ZERO ZERO TINY
ZERO NEG_ZERO NEG_TINY
NEG_ZERO ZERO NEG_TINY
ZERO NEG_ZERO NEG_ZERO
TINY SUBNORMAL NORMAL
SUBNORMAL TINY ZERO
NEG_FAR FAR NEG_FAR_UP
FAR FAR FAR_UP
NEG_MAX MAX INF
NEG_MAX MAX NEG_INF
INF NEG_INF ZERO
NEG_INF INF NAN
INF INF MAX
NEG_INF NEG_INF NEG_MAX
NAN ONE TWO
NAN ONE NEG_ONE
NAN ONE NAN
ONE NAN TWO
ONE NAN NAN
""")

# the dimension and t; the points a and b, as two factors, as an earlier and a later point, and as the ends of an edge
ENDS = cases("""
0 THIRD
ONE TWO THREE HALF
TENTH THIRD NEG_ONE FAR
1 THIRD
ONE TWO THREE HALF
TENTH THIRD NEG_ONE FAR
2 THIRD
ONE TWO THREE HALF
TENTH THIRD NEG_ONE FAR
3 THIRD
ONE TWO THREE HALF
TENTH THIRD NEG_ONE FAR
4 THIRD
ONE TWO THREE HALF
TENTH THIRD NEG_ONE FAR
5 THIRD
ONE TWO THREE HALF
TENTH THIRD NEG_ONE FAR
6 THIRD
ONE TWO THREE HALF
TENTH THIRD NEG_ONE FAR
4 TENTH
BIG ONE NEG_BIG ONE
ONE ONE ONE ONE
4 TENTH
ONE BIG ONE NEG_BIG
ONE ONE ONE ONE
4 TENTH
BIG NEG_BIG ONE ONE
ONE ONE ONE ONE
4 TENTH
ONE ONE BIG NEG_BIG
ONE ONE ONE ONE
2 HALF
NEG_ONE ONE_UP ZERO ZERO
ONE_UP_UP ONE_UP ZERO ZERO
1 ONE
ROOT ZERO ZERO ZERO
ROOT ZERO ZERO ZERO
1 ONE
ROOT ZERO ZERO ZERO
ROOT_HALF ZERO ZERO ZERO
1 ONE
ROOT ZERO ZERO ZERO
ROOT_HALF_UP ZERO ZERO ZERO
2 ONE
ROOT NEG_ROOT_HALF ZERO ZERO
ROOT ROOT_HALF ZERO ZERO
4 ONE
ROOT_HALF ROOT_HALF ROOT_HALF ROOT_HALF
ROOT ROOT ROOT ROOT
1 ONE
NEG_ZERO ZERO ZERO ZERO
ONE ZERO ZERO ZERO
2 ONE
MAX MAX ZERO ZERO
TWO NEG_TWO ZERO ZERO
2 ONE
MAX MAX ZERO ZERO
ONE ONE ZERO ZERO
2 ONE
MAX STEP ZERO ZERO
ONE ONE ZERO ZERO
2 ONE
MAX STEP_DOWN ZERO ZERO
ONE ONE ZERO ZERO
2 HALF
INF ONE ZERO ZERO
ZERO ONE ZERO ZERO
2 HALF
INF NEG_INF ZERO ZERO
INF NEG_INF ZERO ZERO
2 HALF
NAN ONE ZERO ZERO
NAN ONE ZERO ZERO
2 HALF
NAN ONE ZERO ZERO
ONE NAN ZERO ZERO
4 HALF
ZERO NEG_ZERO ZERO NEG_ZERO
NEG_ZERO ZERO ZERO NEG_ZERO
4 NEG_ONE
ONE OVER UNDER ZERO
ONE ONE ONE T
4 TWO
ONE OVER UNDER ZERO
ONE ONE ONE T_UP
3 TWO
ONE OVER UNDER ZERO
ONE ONE ONE T_UP
4 TINY
ONE_UP ONE ONE ONE
THREE ONE ONE ONE
2 NAN
ZERO ONE ZERO ZERO
ONE ZERO ZERO ZERO
2 INF
ZERO ONE ZERO ZERO
ONE ZERO ZERO ZERO
2 NEG_INF
ZERO ONE ZERO ZERO
ONE ZERO ZERO ZERO
2 NEG_ONE
ZERO ONE ZERO ZERO
ONE ZERO ZERO ZERO
2 TWO
ZERO ONE ZERO ZERO
ONE ZERO ZERO ZERO
2 ZERO
TENTH THREE ZERO ZERO
THREE TENTH ZERO ZERO
2 NEG_ZERO
TENTH NEG_ZERO ZERO ZERO
THREE ONE ZERO ZERO
2 ONE
TENTH THIRD ZERO ZERO
THREE NEG_TENTH ZERO ZERO
2 ONE_UP
TENTH THIRD ZERO ZERO
THREE NEG_TENTH ZERO ZERO
2 ONE_DOWN
TENTH THIRD ZERO ZERO
THREE NEG_TENTH ZERO ZERO
2 ONE
BIG ONE ZERO ZERO
ONE BIG ZERO ZERO
2 THIRD
THREE NEG_FAR ZERO ZERO
THREE NEG_FAR ZERO ZERO
2 INF
THREE NEG_FAR ZERO ZERO
THREE NEG_FAR ZERO ZERO
3 HALF
NEG_MAX MAX SUBNORMAL ZERO
MAX NEG_MAX NORMAL ZERO
3 ZERO
NEG_MAX MAX TINY ZERO
MAX NEG_MAX NEG_TINY ZERO
""", 3)

# the dimension and the distance; the normal; the ends of an edge
EDGES = cases("""
0 HALF
SIX_TENTHS EIGHT_TENTHS THIRD TENTH
ONE TWO THREE FAR
NEG_ONE NEG_TWO TENTH NEG_FAR
1 HALF
SIX_TENTHS EIGHT_TENTHS THIRD TENTH
ONE TWO THREE FAR
NEG_ONE NEG_TWO TENTH NEG_FAR
2 HALF
SIX_TENTHS EIGHT_TENTHS THIRD TENTH
ONE TWO THREE FAR
NEG_ONE NEG_TWO TENTH NEG_FAR
3 HALF
SIX_TENTHS EIGHT_TENTHS THIRD TENTH
ONE TWO THREE FAR
NEG_ONE NEG_TWO TENTH NEG_FAR
4 HALF
SIX_TENTHS EIGHT_TENTHS THIRD TENTH
ONE TWO THREE FAR
NEG_ONE NEG_TWO TENTH NEG_FAR
5 HALF
SIX_TENTHS EIGHT_TENTHS THIRD TENTH
ONE TWO THREE FAR
NEG_ONE NEG_TWO TENTH NEG_FAR
6 HALF
SIX_TENTHS EIGHT_TENTHS THIRD TENTH
ONE TWO THREE FAR
NEG_ONE NEG_TWO TENTH NEG_FAR
1 ZERO
ONE ZERO ZERO ZERO
T ZERO ZERO ZERO
NEG_T_UP ZERO ZERO ZERO
1 ZERO
ONE ZERO ZERO ZERO
T_UP ZERO ZERO ZERO
NEG_T_UP ZERO ZERO ZERO
1 ZERO
ONE ZERO ZERO ZERO
NEG_T_UP ZERO ZERO ZERO
T_UP ZERO ZERO ZERO
1 ZERO
NEG_ONE ZERO ZERO ZERO
T_UP ZERO ZERO ZERO
NEG_T_UP ZERO ZERO ZERO
1 ONE
ONE ZERO ZERO ZERO
OVER ZERO ZERO ZERO
UNDER_DOWN ZERO ZERO ZERO
1 ONE
ONE ZERO ZERO ZERO
OVER_UP ZERO ZERO ZERO
UNDER_DOWN ZERO ZERO ZERO
1 NEG_ZERO
ONE ZERO ZERO ZERO
NEG_ZERO ZERO ZERO ZERO
ZERO ZERO ZERO ZERO
1 ZERO
NEG_ONE ZERO ZERO ZERO
ZERO ZERO ZERO ZERO
TINY ZERO ZERO ZERO
2 FOURTEEN_TENTHS
SIX_TENTHS EIGHT_TENTHS ZERO ZERO
ONE ONE ZERO ZERO
NEG_ONE NEG_ONE ZERO ZERO
2 ZERO
SIX_TENTHS EIGHT_TENTHS ZERO ZERO
FAR NEG_FAR ZERO ZERO
NEG_FAR FAR ZERO ZERO
3 ONE
ONE ONE ONE ZERO
BIG ONE NEG_BIG ZERO
BIG NEG_BIG ONE ZERO
4 HALF
HALF HALF HALF HALF
BIG THREE NEG_BIG NEG_THREE
BIG NEG_BIG THREE THREE
2 PLANE
ONE ZERO ZERO ZERO
PLANE_T_UP ZERO ZERO ZERO
FAR NEG_FAR ZERO ZERO
1 NEG_MAX
ONE ZERO ZERO ZERO
MAX ZERO ZERO ZERO
NEG_MAX ZERO ZERO ZERO
2 INF
ONE ZERO ZERO ZERO
FAR FAR ZERO ZERO
INF FAR ZERO ZERO
2 NEG_INF
ONE ZERO ZERO ZERO
FAR FAR ZERO ZERO
NEG_INF FAR ZERO ZERO
1 NAN
ONE ZERO ZERO ZERO
FAR ZERO ZERO ZERO
NEG_FAR ZERO ZERO ZERO
2 ONE
ONE ZERO ZERO ZERO
NAN ZERO ZERO ZERO
ZERO INF ZERO ZERO
2 ONE
ONE TINY ZERO ZERO
NAN ZERO ZERO ZERO
NEG_ONE MAX ZERO ZERO
2 ONE
ROOT ROOT_HALF ZERO ZERO
ROOT ROOT ZERO ZERO
MAX MAX ZERO ZERO
""", 4)

# the dimension; the normal
NORMALS = cases("""
0
ZERO ZERO ZERO ZERO
0
ONE ZERO ZERO ZERO
1
ONE ZERO ZERO ZERO
1
NEG_ONE ZERO ZERO ZERO
1
ONE_DOWN ZERO ZERO ZERO
1
ONE_UP ZERO ZERO ZERO
1
NEG_ONE_UP ZERO ZERO ZERO
1
SHORT ZERO ZERO ZERO
1
NEG_SHORT_DOWN ZERO ZERO ZERO
1
SHORT_UP ZERO ZERO ZERO
1
SIX_TENTHS EIGHT_TENTHS ZERO ZERO
2
SIX_TENTHS EIGHT_TENTHS ZERO ZERO
3
SIX_TENTHS NEG_EIGHT_TENTHS ZERO ZERO
2
ONE EDGE ZERO ZERO
2
EDGE ONE ZERO ZERO
2
ONE EDGE_TIE ZERO ZERO
2
ONE EDGE_TIE_UP ZERO ZERO
2
ONE EDGE_OVER ZERO ZERO
2
ONE ONE ZERO ZERO
2
ONE TINY ZERO ZERO
2
ONE ZERO NEG_ZERO ZERO
3
ONE ZERO NEG_ZERO ZERO
2
ONE ZERO ZERO TINY
3
ONE ZERO ZERO NAN
4
ONE ZERO ZERO NAN
4
NEG_INF ZERO ZERO ZERO
3
HALF HALF HALF HALF
4
HALF NEG_HALF HALF NEG_HALF
5
HALF HALF HALF HALF
6
HALF HALF HALF HALF
""", 2)

# the dimension and the two distances; the earlier and the later normal
PLANE_PAIRS = cases("""
0 ONE ONE
ONE ZERO ZERO ZERO
NEG_ONE TWO NAN INF
0 ONE TWO
ONE ZERO ZERO ZERO
ONE ZERO ZERO ZERO
1 ONE OVER
ONE ZERO ZERO ZERO
ONE TWO ZERO ZERO
1 ONE OVER_UP
ONE ZERO ZERO ZERO
ONE ZERO ZERO ZERO
2 ONE ONE
ONE ZERO ZERO ZERO
ONE T ZERO ZERO
2 ONE ONE
ONE ZERO ZERO ZERO
ONE T_UP ZERO ZERO
2 ZERO NEG_ZERO
ONE ZERO ZERO ZERO
ONE NEG_ZERO ZERO ZERO
3 PLANE PLANE_T
SIX_TENTHS EIGHT_TENTHS ZERO ONE
SIX_TENTHS EIGHT_TENTHS NEG_T NEG_ONE
3 PLANE_T_UP PLANE
SIX_TENTHS EIGHT_TENTHS ZERO ZERO
SIX_TENTHS EIGHT_TENTHS ZERO ZERO
4 INF INF
HALF HALF HALF HALF
HALF HALF HALF HALF
4 INF NEG_INF
HALF HALF HALF HALF
HALF HALF HALF HALF
4 NAN NAN
HALF HALF HALF NAN
HALF HALF HALF NAN
4 NAN ONE
HALF HALF HALF HALF
HALF HALF HALF HALF
4 ONE ONE
HALF HALF HALF HALF
HALF HALF HALF NEG_HALF
5 ONE ONE
HALF HALF HALF HALF
HALF HALF HALF NEG_HALF
6 TINY NEG_TINY
HALF HALF HALF HALF
HALF HALF HALF HALF_UP
""", 3)

# the vertices to search
POINTS = cases("""
ZERO ZERO ZERO ZERO
ONE ZERO ZERO ZERO
ONE ONE ZERO ZERO
T ZERO ZERO ZERO
ONE ONE ONE ONE
ONE ONE ONE OVER
NAN INF NEG_INF NEG_ZERO
FAR NEG_FAR FAR_UP TINY
ONE ONE ONE_UP NEG_ONE
MAX NEG_MAX SUBNORMAL TWO
""")

# the dimension and how many vertices; the point to find
VERTEX_SEARCHES = cases("""
0 0
ZERO ZERO ZERO ZERO
0 10
NAN NAN NAN NAN
1 10
ONE TWO THREE NAN
1 3
NAN ZERO ZERO ZERO
1 10
NAN ZERO ZERO ZERO
2 10
ONE ONE NAN NAN
3 10
ONE ONE ONE ZERO
4 0
ZERO ZERO ZERO ZERO
4 1
ONE ZERO ZERO ZERO
4 2
ONE ZERO ZERO ZERO
4 10
T ZERO ZERO ZERO
4 10
T_UP ZERO ZERO ZERO
4 10
NEG_T_UP ZERO ZERO ZERO
4 10
NEG_ZERO NEG_ZERO TINY NEG_TINY
4 10
ONE ONE ONE OVER
4 10
ONE ONE ONE OVER_UP
4 10
ONE ONE ONE NEG_ONE
4 10
NAN INF NEG_INF ZERO
4 10
NAN INF INF NEG_ZERO
4 10
FAR NEG_FAR FAR TINY
4 10
FAR NEG_FAR_T_UP FAR TINY
4 9
MAX NEG_MAX ZERO TWO
4 10
MAX NEG_MAX ZERO TWO
4 10
MAX_DOWN NEG_MAX ZERO TWO
5 10
ONE ONE ONE NEG_ONE
6 10
ONE ONE ONE TWO
""", 2)

# the hyperplanes to search: normal and distance
PLANES = cases("""
NEG_ONE ZERO ZERO ZERO ONE
ONE ZERO ZERO ZERO ONE
ONE ZERO ZERO ZERO ZERO
ONE ZERO ZERO ZERO T
SIX_TENTHS EIGHT_TENTHS ZERO ZERO FOURTEEN_TENTHS
SIX_TENTHS EIGHT_TENTHS ZERO T_UP FOURTEEN_TENTHS
HALF HALF HALF HALF NEG_PLANE
NAN NEG_ZERO INF NEG_INF NAN
""")

# the dimension, the first hyperplane, how many, and the distance to find; the normal to find
PLANE_SEARCHES = cases("""
0 0 0 ONE
ONE ZERO ZERO ZERO
0 0 8 ONE
NAN NAN NAN NAN
0 1 8 ONE
ONE ZERO ZERO ZERO
1 0 8 ONE
ONE TWO TWO TWO
1 2 8 ONE
ONE ZERO ZERO ZERO
1 0 8 T
ONE ZERO ZERO ZERO
1 3 8 T
ONE ZERO ZERO ZERO
1 3 8 ZERO
ONE ZERO ZERO ZERO
1 4 8 ZERO
ONE ZERO ZERO ZERO
1 0 8 T_UP
ONE ZERO ZERO ZERO
1 0 2 ZERO
ONE ZERO ZERO ZERO
1 0 3 NEG_ZERO
ONE NEG_ZERO ZERO ZERO
2 0 8 FOURTEEN_TENTHS
SIX_TENTHS EIGHT_TENTHS TWO TWO
3 5 8 FOURTEEN_TENTHS
SIX_TENTHS EIGHT_TENTHS ZERO ZERO
4 4 8 FOURTEEN_TENTHS
SIX_TENTHS EIGHT_TENTHS ZERO T
4 4 8 FOURTEEN_TENTHS
SIX_TENTHS EIGHT_TENTHS ZERO T_UP_UP
4 5 8 FOURTEEN_TENTHS
SIX_TENTHS EIGHT_TENTHS ZERO ZERO
4 0 8 NEG_PLANE_UP
HALF HALF HALF HALF
4 0 8 NEG_PLANE_T_UP
HALF HALF HALF HALF
4 0 8 NAN
NAN ZERO INF NEG_INF
4 0 8 NAN
NAN ZERO INF INF
4 8 8 NAN
NAN ZERO INF NEG_INF
4 9 8 NAN
NAN ZERO INF NEG_INF
4 9 0 ONE
ONE ZERO ZERO ZERO
5 0 8 NEG_PLANE
HALF HALF HALF HALF
6 0 8 NEG_PLANE
HALF HALF HALF NEG_HALF
""", 2)

# x, which is no NaN
NARROWINGS = cases("""
ZERO
NEG_ZERO
TINY
NEG_TINY
SUBNORMAL
NORMAL
NARROW_HALF_DOWN
NARROW_HALF
NARROW_HALF_UP
NEG_NARROW_HALF
NARROW_TINY_DOWN
NARROW_TINY
NARROW_TINY_UP
NEG_NARROW_TINY
NARROW_TIE_LOW_DOWN
NARROW_TIE_LOW
NARROW_TIE_LOW_UP
NEG_NARROW_TIE_LOW
NARROW_TIE_EVEN_DOWN
NARROW_TIE_EVEN
NARROW_TIE_EVEN_UP
NEG_NARROW_TIE_EVEN
NARROW_SUBNORMAL_DOWN
NARROW_SUBNORMAL
NARROW_SUBNORMAL_UP
NEG_NARROW_SUBNORMAL
NARROW_TIE_NORMAL_DOWN
NARROW_TIE_NORMAL
NARROW_TIE_NORMAL_UP
NEG_NARROW_TIE_NORMAL
NARROW_NORMAL_DOWN
NARROW_NORMAL
NARROW_NORMAL_UP
NEG_NARROW_NORMAL
NARROW_ONE_TIE_DOWN
NARROW_ONE_TIE
NARROW_ONE_TIE_UP
NEG_NARROW_ONE_TIE
NARROW_ODD_TIE_DOWN
NARROW_ODD_TIE
NARROW_ODD_TIE_UP
NEG_NARROW_ODD_TIE
NARROW_CARRY_DOWN
NARROW_CARRY
NARROW_CARRY_UP
NEG_NARROW_CARRY
NARROW_FAR_TIE_DOWN
NARROW_FAR_TIE
NARROW_FAR_TIE_UP
NEG_NARROW_FAR_TIE
NARROW_LARGEST_DOWN
NARROW_LARGEST
NARROW_LARGEST_UP
NEG_NARROW_LARGEST
NARROW_OVER_DOWN
NARROW_OVER
NARROW_OVER_UP
NEG_NARROW_OVER
NARROW_PAST_DOWN
NARROW_PAST
NARROW_PAST_UP
NEG_NARROW_PAST
TENTH
NEG_TENTH
THIRD
T
ONE_DOWN
ONE
ONE_UP
FAR_DOWN
FAR
NEG_FAR
BIG
MAX
NEG_MAX
INF
NEG_INF
""")

# ---- the table of the program

# each constant: its name, what it holds, the type of a case, the fields of its lines, and its cases. A type that ends
# in `]` is an array of the words; a field alone in its line is the array of the line's words.
TABLES = (
    ("ONES", "x.", "u64", (), ONES),
    ("PAIRS", "Two floats.", "[u64; 2]", (), PAIRS),
    ("CLAMPS", "The ends a and b, and x.", "[u64; 3]", (), CLAMPS),
    ("ENDS", "Two points.", "TwoPoints", (("dimension", "t"), "a", "b"), ENDS),
    ("EDGES", "A hyperplane, and two points.", "Edge", (("dimension", "distance"), "normal", "a", "b"), EDGES),
    ("NORMALS", "A normal.", "Normal", (("dimension",), "normal"), NORMALS),
    (
        "PLANE_PAIRS",
        "Two hyperplanes.",
        "TwoPlanes",
        (("dimension", "earlier_distance", "later_distance"), "earlier", "later"),
        PLANE_PAIRS,
    ),
    ("POINTS", "The vertices to search.", "u64", (), POINTS),
    ("VERTEX_SEARCHES", "The point to find.", "PointSearch", (("dimension", "count"), "wanted"), VERTEX_SEARCHES),
    ("PLANES", "The hyperplanes to search: normal and distance.", "u64", (), PLANES),
    (
        "PLANE_SEARCHES",
        "The hyperplane to find.",
        "PlaneSearch",
        (("dimension", "first", "count", "distance"), "wanted"),
        PLANE_SEARCHES,
    ),
    ("NARROWINGS", "x, which is no NaN.", "u64", (), NARROWINGS),
)


def words_of(rows):
    return [word for case in rows for line in case for word in line]


def constant_of(name):
    return f"\nconst {name}: u64 = 0x{pattern(name):016x};\n"


def laid_out(words):
    """As `rt fmt` does it: each word on a line of its own, or lines that are filled where all of them are short."""
    width = 95 if max(map(len, words)) <= 10 else 1
    return textwrap.indent(textwrap.fill(", ".join(words) + ",", width, break_long_words=False), "    ") + "\n"


def array_of(words):
    """As `rt fmt` does it: in one line where that is short enough."""
    inside = ", ".join(words)
    return f"[{inside}]" if len(inside) <= 60 else "[\n" + textwrap.indent(",\n".join(words), "    ") + ",\n]"


def fields_of(names, line):
    return [f"{names}: {array_of(line)}"] if isinstance(names, str) else map("{}: {}".format, names, line)


def case_of(kind, fields, case):
    """A case of several words, in lines of its own."""
    if not fields:
        return array_of(words_of([case]))
    inside = ",\n".join(field for names, line in zip(fields, case) for field in fields_of(names, line))
    return f"{kind} {{\n{textwrap.indent(inside, '    ')},\n}}"


def table_of(name, holds, kind, fields, rows):
    if kind == "u64":
        items = words_of(rows)
        inside = laid_out(items)
    else:
        items = [case_of(kind, fields, case) for case in rows]
        inside = textwrap.indent(",\n".join(items), "    ") + ",\n"
    return f"\n// {holds}\npub const {name}: [{kind}; {len(items)}] = [\n{inside}];\n"


def table_file():
    words = {word for *_, rows in TABLES for word in words_of(rows)}
    names = sorted((word for word in words if not word.isdigit()), key=lambda w: (pattern(w) % SIGN, pattern(w)))
    kinds = sorted(kind for _, _, kind, fields, _ in TABLES if fields)
    return (
        "// The inputs, by bit patterns. Written by tests/floats/make_expected.py: change them there.\n"
        "// NEG_x is x with the other sign; x_UP and x_DOWN are the next floats away from zero and towards it.\n"
        f"use crate::cases::{{{', '.join(kinds)}}};\n"
        + "".join(constant_of(name) for name in names)
        + "".join(table_of(*table) for table in TABLES)
    )


# ---- what the program must print


def patterns(line):
    return [pattern(word) for word in line]


def shown(x):
    return "nan" if is_nan(x) else f"{x:016x}"


def shown_test(answer):
    return "1" if answer else "0"


def shown_edge(sa, sb):
    t = crossing(sa, sb)
    return f"{'none' if t is None else f'at {shown(t)}'} {shown_test(close_call(sa) or close_call(sb))}"


def shown_number(k):
    return "none" if k is None else f"at {k}"


def one_line(line):
    (x,) = patterns(line)
    return f"one {side_of(x)} {shown_test(close_call(x))} {distance_kind(x)} {shown_test(same_bits(0, x))}"


def narrowing_line(line):
    (x,) = patterns(line)
    return f"narrow {narrowed(x):08x}"


def pair_line(line):
    a, b = patterns(line)
    tests = [shown_test(test(a, b)) for test in (is_within, same_bits, coordinates_match)]
    return f"pair {' '.join(tests)} {shown_edge(a, b)}"


def clamp_line(line):
    return f"clamp {shown(clamp(*patterns(line)))}"


def ends_line(heading, a, b):
    d, t = patterns(heading)
    a, b = patterns(a), patterns(b)
    point = " ".join(shown(x) for x in crossing_point(d, a, b, t))
    return f"ends {shown(dot(d, a, b))} {shown_test(points_match(d, a, b))} {point}"


def edge_line(heading, normal, a, b):
    d, distance = patterns(heading)
    sa, sb = (signed_distance(d, patterns(normal), distance, patterns(end)) for end in (a, b))
    return f"edge {shown(sa)} {shown(sb)} {shown_edge(sa, sb)}"


def normal_line(heading, normal):
    (d,) = patterns(heading)
    return f"normal {shown_test(is_unit(d, patterns(normal)))}"


def plane_pair_line(heading, a, b):
    d, earlier, later = patterns(heading)
    return f"planes {shown_test(hyperplanes_match(d, patterns(a) + [earlier], patterns(b) + [later]))}"


def row_line(row):
    return f"row {' '.join(shown(x) for x in patterns(row))}"


def vertex_line(heading, wanted):
    d, count = patterns(heading)
    points = [patterns(line) for (line,) in POINTS]
    return f"vertex {shown_number(lowest(range(count), lambda v: points_match(d, points[v], patterns(wanted))))}"


def hyperplane_line(heading, normal):
    d, first, count, distance = patterns(heading)
    planes = [patterns(line) for (line,) in PLANES]
    wanted = patterns(normal) + [distance]
    return f"hyperplane {shown_number(lowest(range(first, count), lambda k: hyperplanes_match(d, planes[k], wanted)))}"


def expected_output():
    parts = (
        (one_line, ONES),
        (pair_line, PAIRS),
        (clamp_line, CLAMPS),
        (ends_line, ENDS),
        (edge_line, EDGES),
        (normal_line, NORMALS),
        (plane_pair_line, PLANE_PAIRS),
        (row_line, PLANES),
        (vertex_line, VERTEX_SEARCHES),
        (hyperplane_line, PLANE_SEARCHES),
        (narrowing_line, NARROWINGS),
    )
    return "".join(line_of(*case) + "\n" for line_of, rows in parts for case in rows)


# ---- the two files


def write_files(folder):
    for name, text in zip(FILES, (table_file(), expected_output())):
        path = folder / name
        path.parent.mkdir(parents=True, exist_ok=True)
        path.write_text(text, encoding="ascii")


def differing_files():
    with tempfile.TemporaryDirectory() as fresh:
        write_files(pathlib.Path(fresh))
        return filecmp.cmpfiles(fresh, CRATE, FILES, shallow=False)[1:]


def main():
    if sys.argv[1:] == ["--check"]:
        wrong = [name for names in differing_files() for name in names]
        for name in wrong:
            print(f"differs from what make_expected.py writes: crates/floats_hard/{name}")
        sys.exit(1 if wrong else 0)
    write_files(CRATE)


if __name__ == "__main__":
    main()
