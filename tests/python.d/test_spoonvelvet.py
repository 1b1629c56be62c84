"""Through the Python module: the marked examples of document 01, warnings, lists of cuts, touches, area sheets, print files, refusals,
the three kinds of numbers, rows, files."""

import copy
import doctest
import itertools
import math
import struct
import sys
import unittest
from ctypes import c_double, c_uint8, c_uint16, c_uint64
from fractions import Fraction

import spoonvelvet
from spoonvelvet import (
    REFUSALS,
    AreaSheet,
    Counts,
    ElementCutOutput,
    ElementId,
    Flush,
    Hyperplane,
    HyperplaneId,
    ListedCut,
    NonFlush,
    PolytopeFate,
    Refused,
    Stopped,
    Table,
    Touch,
    Touched,
    VertexId,
    raw,
    table,
    values,
)

KEEP, REMOVE = PolytopeFate.KEEP, PolytopeFate.REMOVE
SQUARE = ElementId(8)


def square():
    return Table.with_primordial_cube_radius(2, 1.0)


def at_x(distance):
    return Hyperplane((1.0,), distance)


def parts(*numbers):
    return NonFlush(*(None if n is None else ElementId(n) for n in numbers))


def ids(*numbers):
    return [ElementId(n) for n in numbers]


class Case(unittest.TestCase):
    def refused(self, number, call, *given):
        with self.assertRaises(Refused) as caught:
            call(*given)
        self.assertEqual(caught.exception.number, number)

    def cut(self, wanted, counts, table, divider, inside, outside, root):
        self.assertEqual(table.cut(divider, inside, outside, ElementId(root)), wanted)
        self.assertEqual(table.counts(), counts)


class Marked(Case):
    def test_m1(self):
        self.cut(parts(16, 17, 15), (18, 6, 5), square(), at_x(0.0), KEEP, KEEP, 8)

    def test_m2_the_face_is_there_though_both_sides_are_removed(self):
        self.cut(parts(None, None, 11), (12, 6, 5), square(), at_x(0.0), REMOVE, REMOVE, 8)

    def test_m3(self):
        self.cut(parts(8, None, 7), (9, 4, 5), square(), at_x(1.0), KEEP, REMOVE, 8)

    def test_m4(self):
        self.cut(parts(8, None, None), (9, 4, 4), square(), at_x(math.inf), REMOVE, REMOVE, 8)
        self.cut(parts(None, 8, None), (9, 4, 4), square(), at_x(-math.inf), REMOVE, REMOVE, 8)

    def test_m5(self):
        self.cut(parts(0, None, None), (9, 4, 5), square(), at_x(0.0), REMOVE, KEEP, 0)

    def test_m6(self):
        self.cut(Flush(), (9, 4, 5), square(), at_x(1.0), KEEP, KEEP, 7)

    def test_m7(self):
        self.cut(parts(8, None, None), (9, 4, 5), square(), Hyperplane((0.6, 0.8), 1.4), KEEP, KEEP, 8)

    def test_m8(self):
        self.cut(parts(4, 5, 3), (6, 3, 1), Table.with_primordial_cube_radius(1, 1.0), at_x(0.0), KEEP, KEEP, 2)

    def test_m9(self):
        self.assertEqual(square().greatest_common_subelements(ids(2, 6)), [])
        self.assertEqual(square().greatest_common_subelements(ids(8)), ids(8))
        self.assertEqual(square().greatest_common_subelements(ids(0)), [])
        self.refused(6, square().greatest_common_subelements, [])

    def test_m10(self):
        walk = [(VertexId(a), VertexId(b)) for a, b in [(0, 1), (1, 3), (3, 2), (2, 0)]]
        self.assertEqual(square().edges_in_order(SQUARE), walk)


class Warnings(Case):
    """Document 02, order 2: a corner within 16 T of the plane and not on it, T being 2^-20."""

    T = 2.0**-20
    CLOSE = 2.0**-16

    def past_a_corner(self, distance):
        return Hyperplane((0.6, 0.8), 1.4 - distance)

    def test_t_and_16_t_and_the_floats_next_to_them_on_both_sides(self):
        t = square()
        edge = t.slice(at_x(0.0), SQUARE).intersection
        next_float = 1.0 + sys.float_info.epsilon
        for side, places in ((1.0, (edge, None, None)), (-1.0, (None, edge, None))):
            self.assertEqual(t.slice(at_x(side * self.T), edge), Flush(warning=False))
            self.assertEqual(t.slice(at_x(side * self.T * next_float), edge), NonFlush(*places, warning=True))
            self.assertEqual(t.slice(at_x(side * self.CLOSE), edge), NonFlush(*places, warning=True))
            self.assertEqual(t.slice(at_x(side * self.CLOSE * next_float), edge), NonFlush(*places, warning=False))

    def test_one_corner_is_enough_and_it_has_to_be_the_root_s(self):
        for distance in (8 * self.T, -8 * self.T):
            warned = [n for n in range(9) if square().slice(self.past_a_corner(distance), ElementId(n)).warning]
            self.assertEqual(warned, [4, 5, 7, 8])
        self.assertIs(square().slice(self.past_a_corner(0.0), SQUARE).warning, False)
        self.assertIs(square().slice(self.past_a_corner(32 * self.T), SQUARE).warning, False)

    def test_whichever_sides_are_kept(self):
        for inside, outside in itertools.product((KEEP, REMOVE), repeat=2):
            self.assertIs(square().cut(self.past_a_corner(8 * self.T), inside, outside, SQUARE).warning, True)

    def test_a_flush_answer_may_come_with_one(self):
        cube = Table.with_primordial_cube_radius(3, 1.0)
        tilted = Hyperplane((1.0, self.T, self.T), 1.0 - self.T)
        self.assertEqual(cube.slice(tilted, ElementId(25)), Flush(warning=True))
        self.assertNotEqual(Flush(warning=True), Flush())

    def test_none_at_an_infinite_distance(self):
        for distance in (math.inf, -math.inf):
            self.assertIs(square().slice(at_x(distance), SQUARE).warning, False)


class Calls(Case):
    def test_the_same_cut_again_adds_nothing(self):
        t = square()
        first = t.slice(at_x(0.0), SQUARE)
        before = t.copy()
        self.assertEqual(t.slice(at_x(0.0), SQUARE), first)
        self.assertEqual(t, before)
        self.assertTrue(t.is_sound())

    def test_carve_keeps_inside_and_slice_both(self):
        self.assertEqual(square().carve(at_x(0.0), SQUARE), parts(14, None, 13))
        self.assertEqual(square().slice(at_x(0.0), SQUARE), parts(16, 17, 15))

    def test_questions(self):
        t = square()
        self.assertEqual(t.subelements_of(ElementId(7)), ids(1, 4, 7))
        self.assertEqual(t.subelements_with_rank(SQUARE, 1), ids(2, 5, 6, 7))
        self.assertEqual(t.vertex_set(ElementId(7)), [VertexId(1), VertexId(3)])
        self.assertIs(t.has_primordial_facet(SQUARE), True)
        self.assertIs(Table.with_primordial_cube_radius(1, 1.0).has_primordial_facet(ElementId(2)), False)

    def test_an_answer_is_one_of_two_kinds(self):
        for answer in (Flush(), parts(1, 2, 3)):
            self.assertIsInstance(answer, ElementCutOutput)
        self.assertNotEqual(Flush(), parts(None, None, None))

    def test_a_copy_is_another_table(self):
        t = square()
        for other in (t.copy(), copy.copy(t), copy.deepcopy(t)):
            other.slice(at_x(0.0), SQUARE)
            self.assertNotEqual(other, t)
        self.assertEqual(t, square())

    def test_four_dimensions(self):
        t = Table.with_primordial_cube_radius(4, 2)
        self.assertEqual(t.last_element(), ElementId(80))
        answer = t.slice(Hyperplane((0.5, 0.5, 0.5, 0.5), 0), ElementId(80))
        self.assertEqual(len(t.vertex_set(answer.intersection)), 6)
        self.assertTrue(t.is_sound())

    def test_there_is_no_table_but_from_a_cube_or_a_file(self):
        self.assertRaises(TypeError, Table)

    def test_a_table_changes_and_so_has_no_hash(self):
        self.assertRaises(TypeError, hash, square())


class Lists(Case):
    """Document 02, order 5: a list of cuts in one call."""

    def alike(self, table, cuts):
        """The answers of a list, which are those of its cuts made singly, as the table is."""
        other = table.copy()
        answers = table.cut_all(cuts)
        self.assertEqual(answers, [other.cut(cut.divider, cut.inside, cut.outside, cut.root) for cut in cuts])
        self.assertEqual(table, other)
        return answers

    def stopped(self, number, position, call, *given):
        with self.assertRaises(Stopped) as caught:
            call(*given)
        self.assertEqual((caught.exception.number, caught.exception.position), (number, position))
        return caught.exception.answers

    def test_a_list_is_its_cuts_in_turn(self):
        for sides in itertools.product((KEEP, REMOVE), repeat=2):
            planes = ((0.0, 8), (0.5, 8), (1.0, 7), (math.inf, 8), (0.0, 0), (0.0, 8))
            answers = self.alike(square(), [ListedCut(at_x(distance), *sides, ElementId(root)) for distance, root in planes])
            self.assertEqual(answers[0], answers[-1])
        self.assertEqual(square().cut_all([]), [])

    def test_a_root_may_be_what_a_cut_before_it_adds(self):
        y = Hyperplane((0.0, 1.0), 0.0)
        answers = self.alike(square(), [ListedCut.slice(at_x(0.0), SQUARE), ListedCut.carve(y, ElementId(16)), ListedCut.slice(y, ElementId(17))])
        self.assertEqual(answers[0], parts(16, 17, 15))
        self.assertIsNone(answers[1].outside)

    def test_a_warning_comes_with_its_answer(self):
        close = Hyperplane((0.6, 0.8), 1.4 - 2.0**-17)
        answers = self.alike(square(), [ListedCut.slice(at_x(0.0), SQUARE), ListedCut.slice(close, SQUARE)])
        self.assertEqual([answer.warning for answer in answers], [False, True])

    def test_what_is_before_the_refused_cut_stays(self):
        good = [ListedCut.slice(at_x(x), SQUARE) for x in (0.0, 0.25, 0.5)]
        wrong = {4: ListedCut.slice(at_x(0.0), ElementId(65_544)), 5: ListedCut.slice(at_x(math.nan), SQUARE)}
        for number, position in itertools.product(wrong, range(4)):
            t, other = square(), square()
            answers = self.stopped(number, position, t.cut_all, good[:position] + [wrong[number]] + good[position:])
            self.assertEqual(answers, other.cut_all(good[:position]))
            self.assertEqual(t, other)

    def test_26_has_no_position_and_comes_before_any_cut(self):
        t = square()
        self.assertEqual(len(self.alike(square(), [ListedCut.slice(at_x(0.0), SQUARE)] * raw.MOST_CUTS)), 64)
        self.assertEqual(self.stopped(26, None, t.cut_all, [ListedCut.slice(at_x(0.0), SQUARE)] * 65), [])
        self.assertEqual(t, square())
        t._counts[0] = 5
        self.stopped(3, None, t.cut_all, [ListedCut.slice(at_x(0.0), SQUARE)] * 65)

    def test_3_then_26_then_12(self):
        def reply(t, kept, roots, room):
            dividers = (c_double * (raw.PLANE_WIDTH * kept))(*[1.0, 0.0, 0.0, 0.0, 0.0] * kept)
            answers = (c_uint64 * room)(*[7] * room)
            lent = table._pairs(dividers, (c_uint8 * kept)(*[3] * kept), (c_uint16 * roots)(*[8] * roots), answers)
            number = raw.cut_all(*t._lent(), *lent)
            self.assertEqual(answers[:], [7] * room)
            return number

        t = square()
        lists = (65, 65, 64), (65, 65, 65), (2, 1, 0), (64, 64, 63), (2, 2, 1)
        self.assertEqual([reply(t, *lengths) for lengths in lists], [26, 26, 26, 12, 12])
        self.assertEqual(t, square())
        t._counts[0] = 5
        self.assertEqual([reply(t, *lengths) for lengths in lists], [3] * 5)

    def test_it_is_a_refusal_with_words(self):
        self.refused(4, square().cut_all, [ListedCut.slice(at_x(0.0), ElementId(9))])
        self.assertEqual(str(Stopped(26, None, [])), "refused 26: the list has more than its limit, or its parts do not belong together")
        self.assertEqual(str(copy.copy(Stopped(4, 2, []))), "refused 4 at position 2: an element number is not in use")


class Touches(Case):
    """Document 02, order 6: where the corners of an element lie to a plane."""

    def test_the_four_answers(self):
        answers = {(0.0, 8): (Touch.BOTH, 2), (1.0, 8): (Touch.INSIDE_OR_ON, 4), (-1.0, 8): (Touch.OUTSIDE_OR_ON, 4), (1.0, 7): (Touch.ALL_ON, 2)}
        answers.update({(0.0, 0): (Touch.INSIDE_OR_ON, 1), (math.inf, 8): (Touch.INSIDE_OR_ON, 0), (-math.inf, 8): (Touch.OUTSIDE_OR_ON, 0)})
        t = square()
        for (distance, root), (answer, tested) in answers.items():
            self.assertEqual(t.touch(at_x(distance), ElementId(root)), Touched(answer, tested))
        self.assertEqual(t, square())

    def test_corners_in_rising_vertex_order(self):
        self.assertEqual(square().touch(Hyperplane((0.0, 1.0), 0.0), SQUARE), (Touch.BOTH, 3))
        self.assertEqual(square().touch(Hyperplane((0.6, 0.8), 1.0), SQUARE), (Touch.BOTH, 4))

    def test_refusals(self):
        self.refused(4, square().touch, at_x(math.nan), ElementId(65_544))
        self.refused(5, square().touch, at_x(math.nan), SQUARE)
        self.refused(5, square().touch, Hyperplane((0.5,), math.inf), SQUARE)
        t = square()
        t._counts[0] = 5
        self.refused(3, t.touch, at_x(math.nan), ElementId(9))


class Areas(Case):
    """Document 02, order 13."""

    def test_a_square_and_its_parts(self):
        t = square()
        halves = t.slice(at_x(0.25), SQUARE)
        self.assertEqual(t.areas([SQUARE, halves.inside, halves.outside]), AreaSheet((8 << 20, -5 << 20, 3 << 20), 16 << 20))
        self.assertEqual(t.areas([]), AreaSheet((), 0))
        self.assertEqual(t.areas(iter([SQUARE] * 16)).sum_of_sizes, 64 * AreaSheet.IN_ONE)

    def test_it_is_the_sum_over_the_walk(self):
        t = Table.with_primordial_cube_radius(2, 65_536.0)
        pieces = [SQUARE]
        for normal, distance in (((1, 0), 0.5), ((0, 1), -3 / 1024), ((1, 0), -65_535.75)):
            answer = t.slice(Hyperplane(normal, distance), pieces[-1])
            pieces += [piece for piece in (answer.inside, answer.outside) if piece is not None]
        for piece in pieces:
            steps = [[[Fraction(x) for x in t.coordinates_of(v)] for v in step] for step in t.edges_in_order(piece)]
            twice = sum(a[0] * b[1] - b[0] * a[1] for a, b in steps)
            self.assertEqual(t.areas([piece]).twice_areas, (twice * 1_048_576,))

    def test_refusals(self):
        t = square()
        third = t.slice(at_x(1 / 3), SQUARE).inside
        self.refused(26, t.areas, ids(9) * 17)
        self.refused(4, t.areas, [third, ElementId(7), ElementId(65_544)])
        self.refused(6, t.areas, [third, ElementId(7)])
        self.refused(25, t.areas, [SQUARE, third])
        self.refused(6, Table.with_primordial_cube_radius(3, 1.0).areas, [])


class PrintFiles(Case):
    """Document 02, order 11."""

    def tetrahedron(self):
        t = Table.with_primordial_cube_radius(3, 4.0)
        piece = t.last_element()
        for signs in ((1, 1, 1), (1, -1, -1), (-1, 1, -1), (-1, -1, 1)):
            piece = t.carve(Hyperplane([sign / math.sqrt(3) for sign in signs], 1.0), piece).inside
        return t, piece

    def test_byte_by_byte(self):
        t, piece = self.tetrahedron()
        triangles = []
        for face in t.boundary_of(piece):
            (first, _), *others, _ = t.edges_in_order(face)
            triangles += [[first, *edge] for edge in others]
        wanted = bytes(80) + struct.pack("<I", len(triangles))
        for corners in triangles:
            wanted += struct.pack("<12fH", 0, 0, 0, *(x for v in corners for x in t.coordinates_of(v)), 0)
        self.assertEqual(t.stl(piece), wanted)
        self.assertEqual(len(wanted), 84 + 4 * 50)

    def test_refusals(self):
        t, piece = self.tetrahedron()
        self.refused(4, t.stl, ElementId(65_536 + piece.number))
        self.refused(6, t.stl, ElementId(25))
        self.refused(16, t.stl, ElementId(26))
        self.refused(6, square().stl, SQUARE)
        self.assertEqual(raw.LONGEST_PRINT, 48_084)


class Refusals(Case):
    def test_a_refused_call_leaves_the_table(self):
        t = square()
        self.refused(4, t.slice, at_x(0.0), ElementId(9))
        self.refused(5, t.slice, at_x(math.nan), SQUARE)
        self.refused(5, t.slice, Hyperplane((1.0, 1.0), 0.0), SQUARE)
        self.refused(4, t.vertex_set, ElementId(600))
        self.refused(6, t.edges_in_order, ElementId(7))
        self.refused(6, t.has_primordial_facet, ElementId(7))
        self.assertEqual(t, square())

    def test_a_full_list_leaves_the_table(self):
        t = square()
        planes = (at_x(0.5 - n / 256) for n in itertools.count())
        for divider in itertools.islice(planes, t.room_left().hyperplanes):
            t.carve(divider, SQUARE)
        before = t.copy()
        self.assertEqual(t.room_left().hyperplanes, 0)
        self.refused(10, t.carve, next(planes), SQUARE)
        self.assertEqual(t, before)

    def test_a_cube(self):
        for ndim in (0, 5, 256, 257, 258, -1, -254, 2**64 + 2):
            self.refused(1, Table.with_primordial_cube_radius, ndim, 1.0)
        for radius in (0.5, -1.0, 65_537.0, math.nan, math.inf, 10**400, -(10**400)):
            self.refused(2, Table.with_primordial_cube_radius, 2, radius)
        self.refused(1, Table.with_primordial_cube_radius, 258, math.nan)

    def test_numbers_that_do_not_fit_are_not_wrapped(self):
        t = square()
        for n in (264, 65_536, 65_544, -1, -65_528, 2**32 + 8, 2**64 + 8):
            for call in (t.subelements_of, t.vertex_set, t.edges_in_order, t.has_primordial_facet):
                self.refused(4, call, ElementId(n))
            self.refused(4, t.subelements_with_rank, ElementId(n), 1)
            self.refused(4, t.slice, at_x(0.0), ElementId(n))
            self.refused(4, t.greatest_common_subelements, ids(8, n))
            self.refused(4, t.rank_of, ElementId(n))
        for rank in (3, 255, 256, 257, 300, -1, -255, 2**32 + 1):
            self.assertEqual(t.subelements_with_rank(SQUARE, rank), [])
        self.assertEqual(t, square())

    def test_4_comes_before_5_and_3_before_4(self):
        self.refused(4, square().slice, at_x(math.nan), ElementId(65_544))
        t = square()
        t._counts[0] = 5
        self.refused(3, t.slice, at_x(math.nan), ElementId(65_544))

    def test_floats_that_do_not_fit(self):
        for distance in (10**400, -(10**400), 262_145.0, -262_145):
            self.refused(5, square().slice, at_x(distance), SQUARE)
        self.refused(5, square().slice, Hyperplane((10**400, 0), 0), SQUARE)
        self.assertLess(at_x(-(10**400)).distance, -262_144)
        self.assertEqual(square().slice(at_x(Fraction(1, 2)), SQUARE), parts(16, 17, 15))

    def test_past_the_dimension_only_plus_zero_is_taken(self):
        self.assertEqual([math.copysign(1.0, x) for x in at_x(0.0).normal], [1.0] * 4)
        self.refused(5, square().slice, Hyperplane((1.0, 0.0, -0.0), 0.0), SQUARE)
        self.refused(5, square().slice, Hyperplane((1.0, 0.0, 0.0, -0.0), 0.0), SQUARE)
        self.assertEqual(square().slice(Hyperplane((1.0, -0.0, 0.0, 0.0), 0.0), SQUARE), parts(16, 17, 15))
        self.refused(5, Hyperplane, (1.0, 0.0, 0.0, 0.0, 0.0), 0.0)
        self.refused(5, square().slice, Hyperplane((), 0.0), SQUARE)

    def test_a_damaged_table(self):
        for damage in (
            lambda t: t._counts.__setitem__(1, 600),
            lambda t: t._counts.__setitem__(2, 3),
            lambda t: t._points.__setitem__(0, math.nan),
            lambda t: t._points.__setitem__(1023, -0.0),
            lambda t: t._planes.__setitem__(0, 0.5),
            lambda t: t._elements.__setitem__(8 * raw.ELEMENT_WIDTH + 4, 5),
        ):
            t = square()
            damage(t)
            before = t.copy()
            self.assertFalse(t.is_sound())
            self.refused(3, t.slice, at_x(0.0), SQUARE)
            for call in (t.subelements_of, t.vertex_set, t.edges_in_order, t.has_primordial_facet, t.stl):
                self.refused(3, call, SQUARE)
            self.refused(3, t.areas, ids(8))
            self.refused(3, t.subelements_with_rank, SQUARE, 1)
            self.refused(3, t.greatest_common_subelements, ids(8))
            self.refused(3, t.save)
            self.assertEqual(t, before)

    def test_each_number_has_words(self):
        self.assertEqual(list(REFUSALS), [*range(1, 14), 16, 25, 26])
        self.assertEqual(str(Refused(10)), "refused 10: there is no room for another hyperplane")
        self.assertEqual(copy.copy(Refused(4)).number, 4)


class Numbers(Case):
    KINDS = (ElementId, VertexId, HyperplaneId)

    def test_three_lists_have_three_kinds(self):
        for a, b in itertools.permutations(self.KINDS, 2):
            self.assertNotEqual(a(3), b(3))
            self.assertEqual(len({a(3), b(3), a(3)}), 2)
            with self.assertRaises(TypeError):
                a(1) < b(2)
        for kind in self.KINDS:
            self.assertEqual(kind(3), kind(3))
            self.assertLess(kind(3), kind(4))
            self.assertNotEqual(kind(3), 3)
            self.assertEqual(repr(kind(3)), f"{kind.__name__}(3)")
            for other in (1.5, "1", None):
                self.assertRaises(TypeError, kind, other)

    def test_another_kind_is_not_taken(self):
        t = square()
        for other in (8, VertexId(1), HyperplaneId(1), None):
            for call in (t.subelements_of, t.vertex_set, t.edges_in_order, t.has_primordial_facet, t.stl, t.rank_of, t.boundary_of):
                self.assertRaises(TypeError, call, other)
            self.assertRaises(TypeError, t.areas, [other])
            self.assertRaises(TypeError, t.slice, at_x(0.0), other)
            self.assertRaises(TypeError, t.touch, at_x(0.0), other)
            self.assertRaises(TypeError, t.cut_all, [ListedCut.slice(at_x(0.0), other)])
            self.assertRaises(TypeError, t.greatest_common_subelements, [other])
        for other in (0, ElementId(0), HyperplaneId(0)):
            self.assertRaises(TypeError, t.coordinates_of, other)
        for other in (0, ElementId(0), VertexId(0)):
            self.assertRaises(TypeError, t.hyperplane_at, other)
        self.assertRaises(TypeError, t.cut, at_x(0.0), True, False, SQUARE)
        for other in ((at_x(0.0), SQUARE), ListedCut(at_x(0.0), True, False, SQUARE), ListedCut.slice((1.0, 0.0), SQUARE)):
            self.assertRaises(TypeError, t.cut_all, [other])
        self.assertRaises(TypeError, t.touch, ((1.0, 0.0), 0.0), SQUARE)
        self.assertRaises(TypeError, t.slice, ((1.0, 0.0), 0.0), SQUARE)
        self.assertRaises(TypeError, Hyperplane, ("1",), 0.0)
        self.assertRaises(TypeError, t.subelements_with_rank, SQUARE, 1.0)


class Rows(Case):
    def test_elements(self):
        t = square()
        self.assertEqual([t.rank_of(e) for e in ids(*range(9))], [0, 0, 1, 0, 0, 1, 1, 1, 2])
        self.assertEqual([t.vertex_of(e) for e in ids(0, 1, 2, 3, 4)], [VertexId(0), VertexId(1), None, VertexId(2), VertexId(3)])
        self.assertEqual(t.boundary_of(SQUARE), tuple(ids(2, 5, 6, 7)))
        self.assertEqual(t.boundary_of(ElementId(4)), ())
        self.assertEqual([t.hyperplane_of(e) for e in ids(2, 7, 8, 0)], [HyperplaneId(0), HyperplaneId(3), None, None])
        self.assertEqual([t.is_primordial(e) for e in ids(7, 8, 0)], [True, False, False])
        t.slice(at_x(0.0), SQUARE)
        self.assertEqual(t.hyperplane_of(ElementId(15)), HyperplaneId(4))
        self.assertFalse(t.is_primordial(ElementId(15)))

    def test_vertices_and_hyperplanes(self):
        t = square()
        self.assertEqual([t.coordinates_of(VertexId(n)) for n in range(4)], [(-1.0, -1.0), (1.0, -1.0), (-1.0, 1.0), (1.0, 1.0)])
        self.assertEqual(t.hyperplane_at(HyperplaneId(3)), Hyperplane((1.0, 0.0), 1.0))
        for number in (4, -1, 65_536):
            self.assertRaises(IndexError, t.coordinates_of, VertexId(number))
            self.assertRaises(IndexError, t.hyperplane_at, HyperplaneId(number))
        t.slice(at_x(0.25), SQUARE)
        self.assertEqual([t.coordinates_of(VertexId(n)) for n in (4, 5)], [(0.25, -1.0), (0.25, 1.0)])

    def test_counts_and_room(self):
        t = square()
        self.assertEqual(t.dimensions(), 2)
        self.assertEqual(t.counts(), Counts(elements=9, vertices=4, hyperplanes=4))
        self.assertEqual(t.room_left(), Counts(elements=503, vertices=252, hyperplanes=60))
        self.assertEqual(t.last_element(), SQUARE)


class Files(Case):
    LINE = bytes.fromhex(
        "4844 0100 0300 0200 0000  5658 000000000000f0bf  5658 000000000000f03f"
        "454c 00 00 ffff 0100 0000  454c 00 00 ffff 0100 0100  454c 01 00 ffff 0200 0000 0100"
    )

    def test_the_line_byte_by_byte(self):
        line = Table.with_primordial_cube_radius(1, 1.0)
        self.assertEqual(line.save(), self.LINE)
        self.assertEqual(Table.open(self.LINE), line)

    def test_what_was_saved_opens_as_the_same_table(self):
        for ndim in (1, 2, 3, 4):
            t = Table.with_primordial_cube_radius(ndim, 1.0)
            for _ in range(2):
                opened = Table.open(t.save())
                self.assertEqual(opened, t)
                self.assertEqual(opened.slice(at_x(0.25), opened.last_element()), t.slice(at_x(0.25), t.last_element()))
                self.assertEqual(opened, t)

    def test_minus_zero_is_another_table(self):
        files = []
        for distance in (0.0, -0.0):
            t = square()
            t.slice(at_x(distance), SQUARE)
            self.assertEqual(Table.open(t.save()), t)
            files.append(t.save())
        self.assertNotEqual(*files)

    def test_other_bytes_are_13_and_an_unsound_table_3(self):
        for n in range(len(self.LINE)):
            self.refused(13, Table.open, self.LINE[:n])
        self.refused(13, Table.open, self.LINE + b"\0")
        self.refused(3, Table.open, b"HD\x05" + bytes(7))
        self.refused(3, Table.open, self.LINE[:-2] + b"\2\0")
        self.refused(13, Table.open, self.LINE[:-2] + b"\2")
        self.assertEqual(Table.open(b"HD\x01" + bytes(7)).counts(), (0, 0, 0))

    def test_a_file_is_bytes_of_any_kind(self):
        for kind in (bytes, bytearray, memoryview):
            self.assertEqual(Table.open(kind(self.LINE)).save(), self.LINE)
        for other in (5, "HD", None, list(self.LINE)):
            self.assertRaises(TypeError, Table.open, other)

    def test_the_longest_file(self):
        self.assertEqual(raw.LONGEST_FILE, 48_266)
        self.assertEqual(raw.ELEMENT_WIDTH, 36)


def load_tests(loader, tests, pattern):
    for module in (spoonvelvet, values, table):
        tests.addTests(doctest.DocTestSuite(module))
    return tests


if __name__ == "__main__":
    unittest.main()
