#!/usr/bin/env python3
"""Writes labels that all differ, for bench/program.sh: labels.py shipping|digits|runs NUMBER. The same words give the
same bytes."""
import random
import string
import sys

CHOICE = random.Random(1)
# bytes in a row of a picture as wide as the label, and its rows
ROW_BYTES, ROWS = 104, 1218


def letters(least, most):
    return "".join(CHOICE.choices(string.ascii_uppercase + string.digits, k=CHOICE.randrange(least, most + 1)))


def number(digits):
    return "".join(CHOICE.choices(string.digits, k=digits))


def graphic(count, row, codes):
    """A picture of so many bytes, by codes."""
    return f"^GFA,{len(codes)},{count},{row},{codes}^FS"


def shipping():
    """20 texts, 6 boxes of which one reverses, 3 bar codes, a QR symbol and a logo of 200 by 200."""
    fields = [f"^FO30,30{graphic(5000, 25, CHOICE.randbytes(5000).hex().upper())}"]
    for i in range(1, 17):
        fields.append(f"^FO260,{2 + 38 * i}^A0N,30,24^FD{letters(6, 12)} {letters(4, 7)}^FS")
    for i in range(1, 5):
        fields.append(f"^FO{40 * i},700^A0R,30,24^FDTurned {letters(6, 12)}^FS")
    fields.append("^FO10,10^GB812,1198,4^FS^FO10,660^GB812,4,4^FS^FO240,10^GB4,650,4^FS^FO20,20^FR^GB200,40,40^FS")
    fields.append(f"^BY3,3,100^FO260,700^BCN,100,Y,N^FD>:SHIP{number(6)}^FS")
    fields.append(f"^BY2,3,80^FO260,860^B3N,N,80,Y,N^FD{letters(7, 7)}^FS")
    fields.append(f"^FO260,1000^BEN,80,Y,N^FD{number(12)}^FS")
    fields.append(f"^FO600,980^BQN,2,6^FDMA,https://example.org/parcel/{letters(6, 16)}^FS")
    return "".join(fields)


def digits():
    """A picture as large as the label in plain hex digits."""
    return graphic(ROW_BYTES * ROWS, ROW_BYTES, CHOICE.randbytes(ROW_BYTES * ROWS).hex().upper())


def row_of_runs():
    """A row of digits that stand once, or up to five times by a letter before them."""
    codes, left = [], 2 * ROW_BYTES
    while left > 0:
        run = CHOICE.choice((1, 1, 1, 2, 3, 4, 5))
        if run <= left:
            # G repeats once, H twice and so on
            codes.append(("" if run == 1 else "FGHIJK"[run]) + CHOICE.choice("0123456789ABCDEF"))
            left -= run
    return "".join(codes)


def runs():
    """A picture as large as the label in short mixed runs."""
    return graphic(ROW_BYTES * ROWS, ROW_BYTES, "".join(row_of_runs() for _ in range(ROWS)))


def main(kind, number):
    for _ in range(int(number)):
        sys.stdout.write("^XA" + {"shipping": shipping, "digits": digits, "runs": runs}[kind]() + "^XZ\n")


if __name__ == "__main__":
    main(*sys.argv[1:])
