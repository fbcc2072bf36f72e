#!/usr/bin/env python3
"""Hides the names of static libraries: a shared object that one is linked into then exports none of them, so that two
objects in one process, each with a version of its own, don't call each other's functions. Each global name that a library
defines gets the visibility that a compiler gives by `-fvisibility=hidden`, and no other byte is changed.

    c/hide.py LIBRARY..
"""
import struct
import sys

SYMBOLS, LOCAL, HIDDEN = 2, 0, 2  # of a section's type, a symbol's binding, and its visibility


def hide(it, at):
    """In the object of 64 bits, lowest byte first, that begins at byte `at`."""
    start, = struct.unpack_from("<Q", it, at + 0x28)
    size, count = struct.unpack_from("<HH", it, at + 0x3A)
    for k in range(count):
        section = at + start + k * size
        if struct.unpack_from("<I", it, section + 4) == (SYMBOLS,):
            table, length = struct.unpack_from("<QQ", it, section + 0x18)
            for symbol in range(at + table, at + table + length, 24):
                info, other, place = struct.unpack_from("<BBH", it, symbol + 4)
                if info >> 4 != LOCAL and place != 0:
                    it[symbol + 5] = other & ~3 | HIDDEN


def main(libraries):
    if not libraries:
        print(__doc__, file=sys.stderr)
        return 2
    for path in libraries:
        with open(path, "r+b") as library:
            it, at = bytearray(library.read()), 8
            assert it[:at] == b"!<arch>\n", path
            while at < len(it):
                size = int(it[at + 48:at + 58])
                if it[at + 60:at + 66] == b"\x7fELF\x02\x01":
                    hide(it, at + 60)
                at += 60 + size + size % 2
            library.seek(0)
            library.write(it)
    return 0


if __name__ == "__main__":
    sys.exit(main(sys.argv[1:]))
