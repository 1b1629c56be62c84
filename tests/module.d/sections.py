"""sections.py desk.wasm desk.h: the module imports nothing, and exports the functions of the header, its memory and __heap_base."""
import re
import sys

IMPORTS, EXPORTS = 2, 7


def number(data, at):
    """An unsigned LEB128, and where it ends."""
    value = shift = 0
    while True:
        value |= (data[at] & 0x7F) << shift
        shift, at = shift + 7, at + 1
        if data[at - 1] < 0x80:
            return value, at


def sections(data):
    assert data[:8] == b"\0asm\1\0\0\0"
    at = 8
    while at < len(data):
        size, start = number(data, at + 1)
        yield data[at], data[start : start + size]
        at = start + size


def exported(data):
    count, at = number(data, 0)
    for _ in range(count):
        length, at = number(data, at)
        yield data[at : at + length].decode()
        _, at = number(data, at + length + 1)


module, header = sys.argv[1:]
found = dict(sections(open(module, "rb").read()))
declared = set(re.findall(r"^uint\d+_t (desk_\w+)\(", open(header).read(), re.M))
if IMPORTS in found:
    sys.exit("the module imports something")
if set(exported(found[EXPORTS])) != declared | {"memory", "__heap_base"}:
    sys.exit(f"the module exports {sorted(exported(found[EXPORTS]))}")
