#!/usr/bin/env python3
"""Writes receipts that all differ, for bench/program.sh: receipts.py text|symbols|journal NUMBER, or pages in a
direction of 0 to 3: receipts.py rasters|pages NUMBER DIRECTION. And for bench/hostile.sh a page on which a few bytes
that have much done stand again and again, and which prints nothing: receipts.py KIND NUMBER, a KIND of AGAIN, of
about so many bytes. The same words give the same bytes."""
import random
import sys

CUT = b"\x1dV\x01"
CHOICE = random.Random(1)


def line(width=42):
    """A line of a receipt: a number, a thing and a price."""
    thing = CHOICE.choice(("Espresso doppio", "milk apart", "flat white", "croissant", "water, still", "rye bread"))
    left = f"{CHOICE.randrange(1, 20)} x {thing}"
    price = f"{CHOICE.randrange(10, 100000) / 100:.2f}"
    return (left + price.rjust(width - len(left)) + "\n").encode()


def styled():
    """A line in another style: emphasis, double size or white on black, and back."""
    begin, end = CHOICE.choice(((b"\x1bE\x01", b"\x1bE\x00"), (b"\x1d!\x11", b"\x1d!\x00"), (b"\x1dB\x01", b"\x1dB\x00")))
    return begin + line(21) + end


def bars():
    """A bar code with its text below: EAN-13, Code 39 or Code 128."""
    digits = "".join(CHOICE.choices("0123456789", k=12))
    letters = "".join(CHOICE.choices("ABCDEFGHIJKLMNOPQRSTUVWXYZ0123456789", k=8))
    return b"\x1dH\x02" + CHOICE.choice((
        b"\x1dk\x02" + digits.encode() + b"\0",
        b"\x1dk\x04" + letters.encode() + b"\0",
        b"\x1dkI" + bytes([len(letters) + 2]) + b"{B" + letters.encode(),
    ))


def stored(data):
    """Data of a QR symbol, kept for it to be drawn."""
    return b"\x1d(k" + (len(data) + 3).to_bytes(2, "little") + b"1P0" + data


DRAWN = b"\x1d(k\x03\x001Q0"


def square():
    """A QR symbol of up to 250 bytes, so of versions 1 to 10."""
    data = "".join(CHOICE.choices("abcdefghijklmnopqrstuvwxyz0123456789:/.", k=CHOICE.randrange(1, 251))).encode()
    return stored(data) + DRAWN


def logo():
    """A raster of 576 dots by 96."""
    return b"\x1dv0\x00\x48\x00\x60\x00" + CHOICE.randbytes(72 * 96)


def text():
    return b"".join(line() for _ in range(30)) + CUT


def symbols():
    return bars() + square()


def journal():
    return logo() + b"".join(line() for _ in range(7)) + b"".join(styled() for _ in range(3)) + symbols() + CUT


def paged(direction, data):
    """A page of 576 dots by 1,664 in a print direction."""
    return b"\x1bL\x1bT" + direction.encode() + data + b"\x0c"


def rasters(direction):
    """A page that one raster fills."""
    row, rows = (72, 1664) if direction in "02" else (208, 576)
    raster = b"\x1dv0\x00" + row.to_bytes(2, "little") + rows.to_bytes(2, "little") + CHOICE.randbytes(row * rows)
    return paged(direction, raster)


def pages(direction):
    """A page full of text."""
    columns, lines = (48, 69) if direction in "02" else (138, 24)
    return paged(direction, b"\x1b3\x18" + b"".join(line(columns) for _ in range(lines)))


LARGEST, TO_TOP, CANCEL, UNDERLINED = b"\x1d!\x77", b"\x1d$\0\0", b"\x18", b"\x1b-\2"


def widest(direction, spacing=255, style=b"\x1dB\1"):
    """An area as large as a page that stands on no whole byte, and characters of which one makes a whole line of it
    black: eight by eight times as large, spaced by so many times eight dots, and in a style: white on black."""
    area = b"\x1bW\1\0\1\0\x3f\x02\x7f\x06"
    return area + b"\x1bT" + bytes([direction]) + LARGEST + b"\x1b " + bytes([spacing]) + style


LARGE_CODE = b"\x1d(k\3\x001C\x10" + stored(271 * b"a")
TALL_BARS = b"\x1dh\xff\x1dw\5\x1dH\3"
# What stands once, and what stands again and again.
AGAIN = {
    "wipes": (b"", b"\x18"),
    "wiped-areas": (b"", b"\x1bW\0\0\0\0\x3f\x02\x80\x06\x18\x1bW\0\0\0\0\x3e\x02\x80\x06\x18"),
    "wiped-characters": (b"", b"A\x18"),
    "pages-begun": (b"", b"\x1bS\x1bL"),
    "largest-characters": (LARGEST, 6 * b"A" + TO_TOP),
    "largest-upward": (b"\x1bT\x01" + LARGEST, b"A" + TO_TOP),
    "codes": (stored(bytes(range(5, 255))), DRAWN + TO_TOP),
    "widest-right": (widest(0), 3 * b"A" + CANCEL),
    "widest-up": (widest(1), 3 * b"A" + CANCEL),
    "widest-left": (widest(2), 3 * b"A" + CANCEL),
    "widest-down": (widest(3), 3 * b"A" + CANCEL),
    # some dots of a line stay white at its end
    "nearly-widest-right": (widest(0, 50), 3 * b"A" + CANCEL),
    "nearly-widest-up": (widest(1, 162), 3 * b"A" + CANCEL),
    "nearly-widest-left": (widest(2, 50), 3 * b"A" + CANCEL),
    "nearly-widest-down": (widest(3, 162), 3 * b"A" + CANCEL),
    # an underline ends before the line does
    "underlined-up": (widest(1, 162, UNDERLINED), 3 * b"A" + CANCEL),
    "underlined-down": (widest(3, 162, UNDERLINED), 3 * b"A" + CANCEL),
    "widest-alone": (widest(1), b"A"),
    "widest-of-font-b": (widest(1) + b"\x1bM\1", 4 * b"A" + CANCEL),
    "large-codes-up": (widest(1) + LARGE_CODE, DRAWN + CANCEL),
    "large-codes-down": (widest(3) + LARGE_CODE, DRAWN + CANCEL),
    "tall-bars-down": (widest(3) + TALL_BARS, 2 * (b"\x1dkE\x10" + b"ABCDEFGHIJKLMNOP") + CANCEL),
}


def again(kind, number):
    """A page that is left without being printed."""
    once, unit = AGAIN[kind]
    return b"\x1bL" + once + unit * (number // len(unit)) + b"\x1bS"


def main(kind, number, *direction):
    if kind in AGAIN:
        sys.stdout.buffer.write(again(kind, int(number)))
        return
    kinds = {"text": text, "symbols": symbols, "journal": journal, "rasters": rasters, "pages": pages}
    for _ in range(int(number)):
        sys.stdout.buffer.write(kinds[kind](*direction))


if __name__ == "__main__":
    main(*sys.argv[1:])
