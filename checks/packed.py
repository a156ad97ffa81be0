#!/usr/bin/env python3
"""packed.py [PROGRAM [NUMBER [SEED]]]: packs so many pictures at random, 1,000 where none is said, in base64 and in
zlib's format behind it, at each level and by each strategy, most of them then broken or cut; and compares what
vp_unpack says with Python's base64, binascii and zlib. PROGRAM is vp_unpack as the gate builds it."""
import base64
import binascii
import random
import re
import subprocess
import sys
import zlib
from pathlib import Path
from typing import List, Optional, Tuple

TOP = Path(__file__).resolve().parent.parent
BUILT = TOP / "crates/tests/vp_unpack/out/vp_unpack"
SIGNS = b"ABCDEFGHIJKLMNOPQRSTUVWXYZabcdefghijklmnopqrstuvwxyz0123456789+/"
# how many bytes a picture has, and its text
Row = Tuple[int, bytes]


def checked(kind: bytes, signs: bytes) -> bytes:
    """Returns the text of these signs."""
    return b":%s:%s:%04X" % (kind, signs, binascii.crc_hqx(signs, 0))


def squeezed(chance: random.Random, data: bytes) -> bytes:
    """Returns bytes in zlib's format."""
    packer = zlib.compressobj(chance.choice((0, 1, 6, 9)), zlib.DEFLATED, 15, 8, chance.choice((0, 0, 2, 3, 4)))
    return packer.compress(data) + packer.flush()


def picture(chance: random.Random) -> bytes:
    """Returns a picture's bytes."""
    size = chance.randrange(400)
    kind = chance.randrange(4)
    if kind == 0:
        return chance.randbytes(size)
    if kind == 1:
        return bytes(chance.choice((0, 255)) for _ in range(size))
    if kind == 2:
        return (chance.randbytes(chance.randrange(1, 40)) * 400)[:size]
    return bytes(size)


def row(chance: random.Random) -> Row:
    """Returns a text, whole or broken in one of many ways, and how many bytes are asked of it."""
    data = picture(chance)
    kind = chance.choice((b"B64", b"Z64"))
    broken = chance.randrange(8)
    packed = data if kind == b"B64" else squeezed(chance, data)
    if broken == 0 and packed:
        place = chance.randrange(len(packed))
        packed = packed[:place] + chance.randbytes(1) + packed[place + 1:]
    signs = base64.b64encode(packed)
    if chance.random() < 0.3:
        signs = b"\r\n".join(signs[at:at + 60] for at in range(0, len(signs), 60))
    if broken == 1 and signs:
        place = chance.randrange(len(signs))
        signs = signs[:place] + bytes([chance.choice(SIGNS + b"=-\r\n")]) + signs[place + 1:]
    if broken == 2:
        signs = signs[:chance.randrange(len(signs) + 1)]
    if broken == 3:
        signs += chance.choice((b"=", b"A", b"AAAA", b"\r\n", b"===="))
    text = checked(kind, signs)
    if broken == 4:
        text = text[:chance.randrange(len(text) + 1)]
    if broken == 5:
        place = chance.randrange(len(text))
        text = text[:place] + chance.randbytes(1) + text[place + 1:]
    return max(0, len(data) + chance.choice((0, 0, 0, -5, -1, 1, 20))), text


def unzipped(size: int, packed: bytes) -> Optional[bytes]:
    """Returns the first bytes that zlib's format packs; nothing where a rule is broken before, or it is cut."""
    unpacker = zlib.decompressobj()
    found = b""
    try:
        for at in range(len(packed)):
            found += unpacker.decompress(packed[at:at + 1])
    except zlib.error:
        return found[:size] if len(found) >= size else None
    return found[:size] if len(found) >= size or unpacker.eof else None


def wanted(size: int, text: bytes) -> bytes:
    """Returns what is to be said of a text; of what zlib's format packs that it is broken or cut, without the rule."""
    if text[:5] not in (b":B64:", b":Z64:"):
        return b"Head"
    signs, colon, digits = text[5:].partition(b":")
    if not colon:
        return b"End"
    if not re.match(rb"[0-9A-Fa-f]{4}", digits) or int(digits[:4], 16) != binascii.crc_hqx(signs, 0):
        return b"Check"
    signs = signs.replace(b"\r", b"").replace(b"\n", b"")
    bare = signs.rstrip(b"=")
    if bare.strip(SIGNS) != b"" or any(sign not in SIGNS for sign in bare):
        return b"Sign"
    if len(signs) % 4 or len(signs) - len(bare) > 2:
        return b"Padding"
    packed = base64.b64decode(signs, validate=True)
    found = packed[:size] if text[1:2] == b"B" else unzipped(size, packed)
    return b"Zlib" if found is None else b"+" + found.ljust(size, b"\0")


def told(program: Path, rows: List[Row]) -> List[bytes]:
    """Returns what the program says of texts."""
    given = b"".join(size.to_bytes(3, "big") + len(text).to_bytes(3, "big") + text for size, text in rows)
    left = subprocess.run([str(program)], input=given, stdout=subprocess.PIPE, check=True, timeout=600).stdout
    said = []
    for size, _ in rows:
        end = size + 1 if left[:1] == b"+" else left.index(b"\n")
        one, left = left[:end], left[end:] if left[:1] == b"+" else left[end + 1:]
        said.append(b"Zlib" if one == b"Short" or one.startswith(b"Broken(") else one)
    return said


def main() -> int:
    """Compares."""
    program = Path(sys.argv[1]) if len(sys.argv) > 1 else BUILT
    number = int(sys.argv[2]) if len(sys.argv) > 2 else 1000
    chance = random.Random(int(sys.argv[3]) if len(sys.argv) > 3 else 1)
    rows = [row(chance) for _ in range(number)]
    wrong = 0
    for (size, text), said in zip(rows, told(program, rows)):
        if said != wanted(size, text):
            wrong += 1
            print(f"packed.py: of {size} {text!r}\nsaid {said!r}\nwant {wanted(size, text)!r}", file=sys.stderr)
    print(f"packed.py: {number} texts, {wrong} of them otherwise")
    return 1 if wrong else 0


if __name__ == "__main__":
    sys.exit(main())
