#!/usr/bin/env python3
"""gen.py SEED [KIND]: writes a random session, of a kind that the seed chooses unless it is named.

Kinds: axis diag rand repeat sides grid close root bad mixed big, and by name only thin wild room.
"""

import math
import random
import sys

import sess
from table import Refused, T, Table

KINDS = "axis diag rand repeat sides grid close root bad mixed big".split()
JUST_OFF = math.nextafter(T, 1)


def unit(v):
    size = math.sqrt(sum(x * x for x in v))
    return tuple(x / size for x in v)


def axis(rng, dimension):
    normal = [0.0] * dimension
    normal[rng.randrange(dimension)] = rng.choice([1.0, -1.0])
    return tuple(normal)


def diagonal(rng, dimension):
    while True:
        v = [rng.choice([-1, 0, 1]) for _ in range(dimension)]
        if any(v):
            return unit(v)


def small(rng, dimension):
    while True:
        v = [rng.randint(-4, 4) for _ in range(dimension)]
        if any(v):
            return unit(v)


def any_way(rng, dimension):
    return unit([rng.gauss(0, 1) or 1.0 for _ in range(dimension)])


NORMALS = {"a": axis, "d": diagonal, "r": any_way, "s": small}


def along(normal, point):
    return sum(a * b for a, b in zip(normal, point))


class Maker:
    """A session that is being made, and the table that it leaves. Each random choice comes in its order, so that a seed is
    always the same session."""

    def __init__(self, rng, dimension, radius):
        self.rng, self.dimension, self.radius = rng, dimension, radius
        self.bytes = sess.cube(dimension, radius)
        self.table = Table(dimension, radius)
        self.pieces = [len(self.table.elements) - 1]
        self.past = []

    def cut(self, kept, root, normal, distance):
        """What the cut gives; None where it is refused."""
        self.bytes += sess.cut(kept, root, normal, distance)
        self.past.append((kept, root, normal, distance))
        try:
            answer = self.table.cut(kept, root, normal, distance)
        except Refused:
            return None
        if answer != "flush":
            for piece in answer[:2]:
                if piece is not None and self.table.rank(piece) == self.dimension and piece not in self.pieces:
                    self.pieces.append(piece)
        return answer

    def piece(self):
        return self.rng.choice(self.pieces[-8:])

    def element(self):
        return self.rng.randrange(len(self.table.elements))

    def normal(self, kinds):
        return NORMALS[self.rng.choice(kinds)](self.rng, self.dimension)

    def corner(self, root):
        return self.table.points[self.rng.choice(self.table.vertex_set(root))]

    def offset(self, normal, root=None):
        """A distance at which the plane meets the piece."""
        root = self.piece() if root is None else root
        distances = [along(normal, self.table.points[v]) for v in self.table.vertex_set(root)]
        low, high = min(distances), max(distances)
        choice = self.rng.random()
        if choice < 0.25:
            return self.rng.choice(distances)
        if choice < 0.5:
            return low + (high - low) * self.rng.choice([0.25, 0.5, 0.75])
        if choice < 0.6:
            return self.rng.choice([0.0, self.radius / 2, -self.radius / 2, self.radius / 3])
        return self.rng.uniform(low, high) if high > low else low

    def step(self, kinds, kept=None, root=None):
        root = self.piece() if root is None else root
        normal = self.normal(kinds)
        kept = self.rng.choice([3, 3, 1, 2]) if kept is None else kept
        return self.cut(kept, root, normal, self.offset(normal, root))

    def steps(self, count, kinds):
        for _ in range(count):
            self.step(kinds)

    # ---- kinds of sessions

    def repeat(self, count):
        rng = self.rng
        for _ in range(count):
            if not self.past or rng.random() >= 0.6:
                self.step("adsr")
                continue
            kept, root, normal, distance = rng.choice(self.past)
            if rng.random() < 0.3:
                kept = rng.randrange(4)
            if rng.random() < 0.3:
                normal, distance = tuple(-x for x in normal), -distance
            if rng.random() < 0.4:
                root = self.piece()
            self.cut(kept, root, normal, distance)

    def sides(self, count):
        for _ in range(count):
            self.step("adsr", kept=self.rng.choice([0, 1, 2]))

    def grid(self, planes):
        """Each axis by so many planes, over every piece."""
        pieces = self.pieces[:1]
        for across in range(self.dimension):
            for i in range(planes):
                distance = -self.radius + 2 * self.radius * (i + 1) / (planes + 1)
                normal = tuple(1.0 if other == across else 0.0 for other in range(self.dimension))
                parts = []
                for piece in pieces:
                    answer = self.cut(3, piece, normal, distance)
                    if answer is None:
                        return
                    if answer != "flush":
                        parts += [part for part in answer[:2] if part is not None]
                pieces = parts

    def close(self, count):
        """Planes about the tolerance's ends from a corner, and dividers nearly again."""
        rng = self.rng
        offs = [0, T, -T, JUST_OFF, -JUST_OFF, T / 2, 2 * T, -2 * T]
        offs += [2.0**-30, 2.0**-31, 2.0**-10, 2.0**-9, -(2.0**-9), 16 * T, 1e-5, -1e-7]
        for _ in range(count):
            piece = self.piece()
            normal = self.normal("adsr")
            distance = along(normal, self.corner(piece))
            off = rng.choice(offs)
            if self.past and rng.random() < 0.3:
                _, _, normal, distance = rng.choice(self.past)
                if rng.random() < 0.5:
                    normal = unit([x + rng.choice([0, 1e-7, -1e-7, 1e-6, 2e-6]) for x in normal])
            self.cut(rng.choice([3, 3, 1, 2, 0]), piece, normal, distance + off)

    def thin(self):
        """Many planes within a few T of one corner or crossing: corners that match, refusals with 7."""
        rng, near = self.rng, None
        for _ in range(rng.randint(4, 14)):
            piece = self.piece()
            if near is None or rng.random() < 0.15:
                near = self.corner(piece)
            normal = self.normal("dsr")
            distance = along(normal, near)
            kept = rng.choice([3, 3, 1, 2])
            off = T * rng.choice([-3, -2, -1.5, -1.1, -1, -0.5, 0, 0.5, 1, 1.1, 1.5, 2, 3]) * rng.choice([1, 1, 1, 1.3])
            self.cut(kept, piece, normal, distance + off)

    def wild(self):
        """Any planes, and earlier ones again and nearly again."""
        rng = self.rng
        for _ in range(rng.randint(4, 20)):
            if self.past and rng.random() < 0.5:
                _, _, normal, distance = rng.choice(self.past)
                normal = unit([x + rng.choice([0, 0, T, -T, T / 3]) for x in normal])
                distance += rng.choice([0, 0, T, -T, 1.7 * T, 0.4 * T])
            else:
                normal = self.normal("adsr")
                distance = self.offset(normal)
            self.cut(rng.randrange(4), rng.choice([self.piece(), self.element()]), normal, distance)

    def mixed(self):
        rng = self.rng
        for _ in range(rng.randint(1, 14)):
            kept = rng.choice([3, 3, 3, 1, 2, 0])
            self.step("adsr", kept=kept, root=rng.choice([self.piece(), self.piece(), self.element()]))

    def many_sides(self):
        """A boundary that grows past its room: 11."""
        rng, piece = self.rng, self.pieces[0]
        count = rng.randint(29, 44)
        kept = rng.choice([1, 1, 3])
        for i in range(count):
            angle = 2 * math.pi * i / count + 0.1
            normal = unit((math.cos(angle), math.sin(angle)) + (0.0,) * (self.dimension - 2))
            answer = self.cut(kept, piece, normal, 0.9)
            if answer and answer != "flush" and answer[0] is not None:
                piece = answer[0]

    def many_entries(self, wanted):
        """Vertices (8), elements (9) or hyperplanes (10) until there is no room."""
        rng = self.rng
        for _ in range(rng.choice([40, 62, 70])):
            normal = self.normal("r")
            distance = rng.uniform(-self.radius, self.radius) / 2
            if wanted == 10:
                kept = rng.randrange(4)
                root = rng.choice([0, 1, len(self.table.elements) - 1]) if rng.random() < 0.1 else 0
                self.cut(kept, root, normal, distance)
            elif wanted == 8:
                edges = [e for e in range(3**self.dimension) if self.table.rank(e) == 1]
                for edge in rng.sample(edges, len(edges)):
                    self.cut(0 if rng.random() < 0.97 else 3, edge, normal, distance)
            else:
                self.cut(3, self.piece(), normal, distance)

    def bad(self, count):
        """Records that are refused, and at the end perhaps bytes that are no record."""
        for _ in range(count):
            self.maybe_refused()
        self.maybe_bad()

    def maybe_refused(self):
        rng = self.rng
        choice = rng.randrange(9)
        normal = self.normal("adsr")
        distance = self.offset(normal)
        root = self.piece()
        if choice == 0:
            root = rng.choice([len(self.table.elements), 65535, 512])
        if choice == 1:
            normal = tuple(x * rng.choice([2, 0.5, 1 + 2.0**-19, 1 - 2.0**-22]) for x in normal)
        if choice == 2:
            distance = rng.choice([math.nan, math.inf, -math.inf, 262144.0, 262145.0, -1e300])
        if choice == 3:
            normal = (math.nan,) + normal[1:]
        if choice == 4:
            dimension = rng.choice([0, 5, 255, self.dimension])
            self.bytes += sess.cube(dimension, rng.choice([0.5, math.nan, 65537.0, -1.0, math.inf, 0.0]))
        else:
            self.cut(rng.randrange(4), root, normal, distance)

    def maybe_bad(self):
        rng, ones = self.rng, (1.0,) * self.dimension
        choice = rng.randrange(8)
        if choice == 0:
            self.bytes += bytes([rng.randrange(256) for _ in range(rng.randint(1, 4))])
        if choice == 1:
            self.bytes = self.bytes[: -rng.randint(1, 12)]
        if choice == 2:
            self.bytes += sess.cut(4, 0, ones, 0.0)
        if choice == 3:
            self.bytes = sess.cut(3, 0, ones, 0.0)
        if choice == 4:
            self.bytes += sess.cube(rng.randint(1, 4), 2.0)


def room(rng, radius):
    """A session that fills one of the rooms."""
    wanted = rng.choice([8, 8, 10, 11, 11, 9])
    if wanted == 11:
        maker = Maker(rng, rng.choice([2, 2, 3]), 1.0)
        maker.many_sides()
    else:
        maker = Maker(rng, rng.choice([3, 4] if wanted == 8 else [1, 2, 3, 3, 4, 4]), radius)
        maker.many_entries(wanted)
    return maker.bytes


def session(seed, kind=None):
    """The kind, and the bytes."""
    rng = random.Random(seed)
    kind = kind or rng.choice(KINDS)
    dimension = rng.choice([1, 2, 2, 3, 3, 3, 4])
    radius = rng.choice([1.0, 1.0, 1.0, 2.0, 3.0, 10.0, 1.5, 100.0, 65536.0, rng.uniform(1, 50)])
    maker = Maker(rng, dimension, radius)
    count = rng.randint(1, 8)
    if kind == "room":
        return kind, room(rng, radius)
    if kind == "axis":
        maker.steps(count, "a")
    elif kind == "diag":
        maker.steps(count, "ds")
    elif kind == "rand":
        maker.steps(count, "r")
    elif kind == "grid":
        maker.grid(rng.randint(1, {1: 6, 2: 3, 3: 2, 4: 1}[dimension]))
    elif kind == "root":
        for _ in range(count):
            maker.step("adsr", kept=rng.randrange(4), root=maker.element())
    elif kind == "big":
        for _ in range(rng.randint(10, 60)):
            maker.step(rng.choice(["a", "ad", "adsr", "r"]))
    elif kind in ("repeat", "sides", "close", "bad"):
        getattr(maker, kind)(count)
    else:
        getattr(maker, kind)()
    return kind, maker.bytes


if __name__ == "__main__":
    if len(sys.argv) not in (2, 3):
        sys.exit(__doc__)
    sys.stdout.buffer.write(session(int(sys.argv[1]), *sys.argv[2:])[1])
