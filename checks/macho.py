#!/usr/bin/env python3
"""macho.py FILE..: reads programs for macOS as its loader would, without running them: their kind and processor, that
each part lies in the file, that they begin in their code, need libSystem alone, and are signed ad hoc: the signature
has the sum of each page. Says a line of each; status 1 where one isn't so."""
import hashlib
import os
import struct
import sys

MAGIC, EXECUTE, MACOS = 0xFEEDFACF, 2, 1
PROCESSORS = {0x0100000C: "arm64", 0x01000007: "x86_64"}
SEGMENT, DYLIB, MAIN, BUILD, SIGNATURE = 0x19, 0xC, 0x80000028, 0x32, 0x1D
BLOBS, DIRECTORY, AD_HOC, SHA256 = 0xFADE0CC0, 0xFADE0C02, 2, 2
SYSTEM = "/usr/lib/libSystem.B.dylib"


def need(holds, what):
    if not holds:
        raise ValueError(what)


def commands(data):
    """Returns the processor and the load commands, each with its kind and its bytes."""
    magic, processor, _, kind, count, size, _, _ = struct.unpack_from("<8I", data)
    need(magic == MAGIC and kind == EXECUTE, "it is no program of 64 bits for macOS")
    need(processor in PROCESSORS, f"its processor is {processor:#x}")
    found, at = [], 32
    for _ in range(count):
        kind, length = struct.unpack_from("<2I", data, at)
        need(length >= 8 and at + length <= 32 + size, "a load command is cut short")
        found.append((kind, data[at:at + length]))
        at += length
    return PROCESSORS[processor], found


def segments(data, found):
    """Returns where each part lies in the file, by its name, each held to the file and to be apart from the last."""
    made, end = {}, 0
    for kind, it in found:
        if kind == SEGMENT:
            name, address, size, offset, length = struct.unpack_from("<16s4Q", it, 8)
            need(offset + length <= len(data) and length <= size, "a part lies outside the file")
            need(not address or address >= end, "two parts lie on each other")
            made[name.rstrip(b"\0").decode()], end = (offset, length), address + size
    return made


def signed(data, found):
    """Holds the signature to the file, and returns how many pages it has the sums of."""
    offset, length = next((struct.unpack_from("<2I", it, 8) for kind, it in found if kind == SIGNATURE), (0, 0))
    need(offset and offset + length == len(data), "it isn't signed at its end")
    magic, _, count = struct.unpack_from(">3I", data, offset)
    need(magic == BLOBS, "its signature is of another kind")
    places = [struct.unpack_from(">2I", data, offset + 12 + 8 * nth) for nth in range(count)]
    at = offset + next((place for kind, place in places if kind == 0), 0)
    head = struct.unpack_from(">9I4BI", data, at)
    flags, sums, slots, covered, size, kind, page = *head[3:5], *head[7:11], head[12]
    need(head[0] == DIRECTORY and flags & AD_HOC, "it isn't signed ad hoc")
    need(covered == offset and size == 32 and kind == SHA256, "its sums are of another kind, or not of all")
    for nth in range(slots):
        begin, at_sum = nth << page, at + sums + 32 * nth
        made = hashlib.sha256(data[begin:min(begin + (1 << page), offset)]).digest()
        need(made == data[at_sum:at_sum + 32], f"page {nth} has another sum")
    need(slots == (offset + (1 << page) - 1) >> page, "not all pages have sums")
    return slots


def told(data):
    """Returns what there is to say of a program."""
    processor, found = commands(data)
    parts = segments(data, found)
    needed = [it[24:].split(b"\0")[0].decode() for kind, it in found if kind == DYLIB]
    need(needed == [SYSTEM], f"it needs {' '.join(needed)}")
    entry = next((struct.unpack_from("<Q", it, 8)[0] for kind, it in found if kind == MAIN), 0)
    offset, length = parts["__TEXT"]
    need(offset < entry < offset + length, "it doesn't begin in its code")
    system, least = next((struct.unpack_from("<2I", it, 8) for kind, it in found if kind == BUILD), (0, 0))
    need(system == MACOS, "it is for another system")
    return f"for macOS {least >> 16}.{least >> 8 & 255} on {processor}, {signed(data, found)} pages signed ad hoc"


def main():
    status = 0
    for file in sys.argv[1:]:
        try:
            with open(file, "rb") as it:
                print(f"{os.path.basename(file)}: {told(it.read())}")
        except (OSError, ValueError, KeyError, struct.error) as fault:
            print(f"checks/macho: {file}: {fault}", file=sys.stderr)
            status = 1
    return status


if __name__ == "__main__":
    sys.exit(main())
