#!/usr/bin/env python3
"""Writes the same data twice, for bench/peers.sh: a text a line for outside programs, and a receipt of a symbol of each
text, or what vp_draw_symbols is asked for: peers.py KIND NUMBER TEXTS RECEIPT, a KIND of KINDS. The same words give the
same bytes."""
import random
import sys

CHOICE = random.Random(1)
SMALL = "abcdefghijklmnopqrstuvwxyz0123456789:/."


def letters(least, most):
    return "".join(CHOICE.choices(SMALL, k=CHOICE.randrange(least, most))).encode()


def digits(number):
    return "".join(CHOICE.choices("0123456789", k=number)).encode()


def qr(data):
    """A QR symbol of level M, in modules of a dot."""
    return b"\x1d(k" + (len(data) + 3).to_bytes(2, "little") + b"1P0" + data + b"\x1d(k\x03\x001Q0"


def code128(data):
    return b"\x1dkI" + bytes([len(data) + 2]) + b"{B" + data


def ean13(data):
    return b"\x1dk\x02" + data + b"\0"


def counted(kind):
    """A bar code of the whole language by its number."""
    return lambda data: b"\x1dk" + bytes([kind, len(data)]) + data


def capitals():
    return "".join(CHOICE.choices(SMALL[:26].upper() + "0123456789", k=CHOICE.randrange(6, 20))).encode()


def words():
    return "".join(CHOICE.choices(SMALL[:26] + SMALL[:26].upper() + "0123456789     ,.", k=60)).encode()


def pdf417(kind):
    """What vp_draw_symbols is asked for: the recommended level, and columns and rows left open."""
    return lambda data: kind + b"-\0\0" + len(data).to_bytes(2, "big") + data


# What comes first: modules of two dots, a hundred rows or one.
HIGH, LOW = b"\x1dw\x02\x1dh\x64", b"\x1dw\x02\x1dh\x01"
# Its data, what comes first, and its symbol.
KINDS = {
    "qr": (lambda: letters(1, 210), b"\x1d(k\x03\x001E1\x1d(k\x03\x001C\x01", qr),
    "code128": (lambda: letters(6, 20), HIGH, code128),
    "code128-row": (lambda: letters(6, 20), LOW, code128),
    "ean13": (lambda: digits(12), HIGH, ean13),
    "ean13-row": (lambda: digits(12), LOW, ean13),
    "upca": (lambda: digits(11), HIGH, counted(65)),
    # (zint takes none whose long form has a shorter one)
    "upce": (lambda: digits(4) + b"57", HIGH, counted(66)),
    "ean8": (lambda: digits(7), HIGH, counted(68)),
    "interleaved": (lambda: digits(14), HIGH, counted(70)),
    "codabar": (lambda: b"A" + digits(10) + b"B", HIGH, counted(71)),
    "code93": (capitals, HIGH, counted(72)),
    "pdf417": (words, b"", pdf417(b"F")),
    "pdf417-alone": (words, b"", pdf417(b"E")),
}


def main(kind, number, texts, receipt):
    data, first, symbol = KINDS[kind]
    found = [data() for _ in range(int(number))]
    with open(texts, "wb") as it:
        it.write(b"".join(text + b"\n" for text in found))
    with open(receipt, "wb") as it:
        it.write(first + b"".join(map(symbol, found)))


if __name__ == "__main__":
    main(*sys.argv[1:])
