"""The bytes of a session's records."""

import struct


def cube(dimension, radius):
    return struct.pack("<2sBd", b"CU", dimension, radius)


def cut(kept, root, normal, distance, mark=b"CT"):
    return struct.pack(f"<2sBH{len(normal) + 1}d", mark, kept, root, *normal, distance)
