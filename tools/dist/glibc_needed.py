#!/usr/bin/env python3
"""glibc_needed.py PROGRAM: what an x86-64 program needs of the C library: the version, as 2.34, by the symbols that
it is linked with. Status 3 where it is no such program, or needs another library."""
import struct
import sys

HEADER, SECTION, NEED, NEEDED = "<16sHHIQQQIHHHHHH", "<IIQQQQIIQQ", "<HHIII", "<IHHII"
DYNAMIC, VERSIONS = 6, 0x6FFFFFFE


def text_at(data, place):
    return data[place:data.index(b"\0", place)].decode()


def sections(data):
    """Returns the kind, offset, size and linked section of each section."""
    fields = struct.unpack_from(HEADER, data)
    if fields[0][:6] != b"\x7fELF\x02\x01" or fields[2] != 62:
        raise ValueError("it isn't for x86-64")
    start, size, count = fields[6], fields[11], fields[12]
    found = [struct.unpack_from(SECTION, data, start + size * nth) for nth in range(count)]
    return [(it[1], it[4], it[5], it[6]) for it in found]


def libraries(data):
    """Returns the names of the libraries that the program is linked with."""
    all_of_them = sections(data)
    names = []
    for kind, offset, size, link in all_of_them:
        for at in range(offset, offset + size, 16) if kind == DYNAMIC else ():
            tag, value = struct.unpack_from("<qQ", data, at)
            if tag == 1:
                names.append(text_at(data, all_of_them[link][1] + value))
    return names


def versions(data):
    """Returns each version of a library's symbols that the program is linked with, as GLIBC_2.34."""
    all_of_them = sections(data)
    found = set()
    for kind, offset, size, link in all_of_them:
        at = offset if kind == VERSIONS and size else None
        while at is not None:
            _, count, _, first, following = struct.unpack_from(NEED, data, at)
            one = at + first
            for _ in range(count):
                _, _, _, name, step = struct.unpack_from(NEEDED, data, one)
                found.add(text_at(data, all_of_them[link][1] + name))
                one += step
            at = at + following if following else None
    return found


def glibc(data):
    """Returns the version of the C library that the program needs."""
    others = set(libraries(data)) - {"libc.so.6", "ld-linux-x86-64.so.2"}
    if others:
        raise ValueError(f"it needs {' '.join(sorted(others))}")
    found = [it.removeprefix("GLIBC_") for it in versions(data) if it.startswith("GLIBC_2")]
    if not found:
        raise ValueError("it isn't linked with the C library")
    return max(found, key=lambda it: [int(part) for part in it.split(".")])


def main():
    if len(sys.argv) != 2:
        print("usage: glibc_needed.py PROGRAM", file=sys.stderr)
        return 2
    try:
        with open(sys.argv[1], "rb") as it:
            print(glibc(it.read()))
    except (OSError, ValueError, struct.error) as fault:
        print(f"glibc_needed.py: {sys.argv[1]}: {fault}", file=sys.stderr)
        return 3
    return 0


if __name__ == "__main__":
    sys.exit(main())
