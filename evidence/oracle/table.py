"""A table that the generator cuts along with its session: so it knows which elements are in use and where corners lie."""

import math

T = 2.0**-20
VERTICES, ELEMENTS, HYPERPLANES, BOUNDARY = 256, 512, 64, 32


class Refused(Exception):
    pass


def has_match(earlier, later):
    return all(-T <= a - b <= T for a, b in zip(earlier, later))


def side(s):
    return 0 if -T <= s <= T else -1 if s < -T else 1


def clamped(a, b, x):
    if x > a and x > b:
        return max(a, b)
    return min(a, b) if (x < a and x < b) or x != x else x


class Table:
    """An element is rank, boundary, hyperplane or None, primordial mark; a corner's boundary is its vertex number."""

    def __init__(self, dimension, radius):
        self.dimension = dimension
        self.points, self.elements, self.planes, self.index = [], [], [], {}
        self.primordials = 2 * dimension if dimension > 1 else 0
        for number in range(3**dimension):
            self.append_cube_element(number, [number // 3**axis % 3 for axis in range(dimension)], radius)

    def append_cube_element(self, number, digits, radius):
        rank = digits.count(2)
        if rank == 0:
            self.points.append(tuple((-radius, radius)[digit] for digit in digits))
            self.append((0, (len(self.points) - 1,), None, False))
            return
        boundary = sorted(number - 3**axis * less for axis, digit in enumerate(digits) if digit == 2 for less in (1, 2))
        plane = None
        if rank == self.dimension - 1:
            normal = tuple((-1.0, 1.0, 0.0)[digit] for digit in digits)
            self.planes.append((normal, radius))
            plane = len(self.planes) - 1
        self.append((rank, tuple(boundary), plane, plane is not None))

    def append(self, element):
        self.elements.append(element)
        self.index[element] = len(self.elements) - 1
        return len(self.elements) - 1

    def rank(self, e):
        return self.elements[e][0]

    def point(self, corner):
        return self.points[self.elements[corner][1][0]]

    def vertex_set(self, root):
        rank, boundary, _, _ = self.elements[root]
        if rank == 0:
            return [boundary[0]]
        return sorted({v for e in boundary for v in self.vertex_set(e)})

    # ---- what is matched or appended

    def add_plane(self, normal, distance):
        for number in range(self.primordials, len(self.planes)):
            earlier, at = self.planes[number]
            if has_match((*earlier, at), (*normal, distance)):
                return number
        if len(self.planes) >= HYPERPLANES:
            raise Refused
        self.planes.append((tuple(normal), distance))
        return len(self.planes) - 1

    def add_vertex(self, point):
        for number, earlier in enumerate(self.points):
            if has_match(earlier, point):
                return self.index[(0, (number,), None, False)]
        if len(self.points) >= VERTICES or len(self.elements) >= ELEMENTS:
            raise Refused
        self.points.append(point)
        return self.append((0, (len(self.points) - 1,), None, False))

    def add_polytope(self, rank, boundary, plane, mark):
        if len(boundary) <= rank:
            return None
        if len(boundary) > BOUNDARY or (rank == 1 and len(boundary) != 2) or (rank == 2 and not self.is_ring(boundary)):
            raise Refused
        element = (rank, tuple(sorted(boundary)), plane, mark)
        if element in self.index:
            return self.index[element]
        if len(self.elements) >= ELEMENTS:
            raise Refused
        return self.append(element)

    def is_ring(self, edges):
        at = {}
        for edge in edges:
            for corner in self.elements[edge][1]:
                at.setdefault(corner, []).append(edge)
        if any(len(two) != 2 for two in at.values()):
            return False
        edge, corner = min(edges), self.elements[min(edges)][1][0]
        for steps in range(1, len(edges) + 1):
            a, b = self.elements[edge][1]
            corner = b if corner == a else a
            first, second = at[corner]
            edge = second if edge == first else first
            if edge == min(edges):
                return steps == len(edges)
        return False

    # ---- the cut

    def cut(self, kept, root, normal, distance):
        """`flush`, or inside, outside and intersection, each an element or None. A refusal leaves the table as it was."""
        squares = normal[0] * normal[0]
        for component in normal[1:]:
            squares = squares + component * component
        fits = all(-1 <= x <= 1 for x in normal) and 1 - T <= squares <= 1 + T
        if root >= len(self.elements) or not fits or not (math.isinf(distance) or abs(distance) <= 262144):
            raise Refused
        if math.isinf(distance):
            return (root, None, None) if distance > 0 else (None, root, None)
        counts = len(self.elements), len(self.points), len(self.planes)
        try:
            number = self.add_plane(normal, distance)
            return self.cut_element(root, (normal, distance, number, kept))
        except Refused:
            for element in self.elements[counts[0] :]:
                del self.index[element]
            del self.elements[counts[0] :], self.points[counts[1] :], self.planes[counts[2] :]
            raise

    def signed_distance(self, cutting, corner):
        normal, distance, _, _ = cutting
        point = self.point(corner)
        s = normal[0] * point[0]
        for axis in range(1, self.dimension):
            s = s + normal[axis] * point[axis]
        return s - distance

    def cut_corner(self, e, cutting):
        where = side(self.signed_distance(cutting, e))
        return "flush" if where == 0 else (e, None, None) if where < 0 else (None, e, None)

    def cut_element(self, e, cutting):
        rank, boundary, plane, mark = self.elements[e]
        if rank == 0:
            return self.cut_corner(e, cutting)
        flush, gathered = [], (set(), set(), set())
        for b in boundary:
            answer = self.cut_element(b, cutting)
            if answer == "flush":
                flush.append(b)
            else:
                for members, element in zip(gathered, answer):
                    members |= {element} - {None}
        if rank == 1 and not flush and gathered[0] and gathered[1]:
            flush.append(self.crossing(boundary, cutting))
        if len(flush) > 1:
            return "flush"
        _, _, number, kept = cutting
        if flush:
            middle = flush[0]
        else:
            middle = self.add_polytope(rank - 1, gathered[2], number if rank == self.dimension else None, False)
        ends = {middle} - {None}
        inside = self.add_polytope(rank, gathered[0] | ends, plane, mark) if kept & 1 else None
        outside = self.add_polytope(rank, gathered[1] | ends, plane, mark) if kept & 2 else None
        return inside, outside, middle

    def crossing(self, ends, cutting):
        sa, sb = (self.signed_distance(cutting, end) for end in ends)
        t = sa / (sa - sb)
        a, b = (self.point(end) for end in ends)
        return self.add_vertex(tuple(clamped(p, q, p + (q - p) * t) for p, q in zip(a, b)))
