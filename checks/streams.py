#!/usr/bin/env python3
"""streams.py FOLDER COUNT [SEED]: writes so many random receipts (receipt-N.bin) and labels (label-N.zpl) into a
folder: whole ones of some commands each, and as many that are cut, joined or changed somewhere. The same words give
the same bytes."""
import os
import random
import sys

sys.dont_write_bytecode = True
sys.path.insert(0, os.path.join(os.path.dirname(os.path.realpath(__file__)), "..", "bench"))
import labels  # noqa: E402
import receipts  # noqa: E402

SETTINGS = [
    b"\x1b@", b"\x1ba\x01", b"\x1bM\x01", b"\x1d!\x11", b"\x1d!\x77", b"\x1b-\x01", b"\x1b{\x01",
    b"\x1bV\x01", b"\x1b3\x10", b"\x1dL\x40\x00", b"\t",
]
PAGE = [
    b"\x1bL", b"\x1bW\x00\x00\x00\x00\x40\x01\x40\x01", b"\x1bT\x01", b"\x1bT\x02", b"\x1bT\x03",
    b"\x1d$\x40\x00", b"\x0c", b"\x1b\x0c", b"\x18",
]
LABEL = [
    "^FR", "^FWR", "^POI", "^PMY", "^LRY", "^PQ2", "^CF0,40", "^BY3", "^FO50,60^FB200,3,0,C^FD",
    "^FT30,200^A0B,30^FD", "^GB100,50,5^FS", "^GE90,60,4^FS", "^FS",
]


def receipt(rng):
    """A receipt of some commands."""
    makers = [receipts.line, receipts.styled, receipts.bars, receipts.square]
    makers += [lambda: rng.choice(SETTINGS), lambda: rng.choice(PAGE), lambda: receipts.CUT]
    pieces = [rng.choice(makers)() for _ in range(rng.randrange(1, 12))]
    if rng.random() < 0.2:
        pieces.insert(rng.randrange(len(pieces)), receipts.logo()[: rng.randrange(8, 4000)])
    return b"".join([*pieces, rng.choice((b"\n", b"", receipts.CUT))])


def label(rng):
    """A label of some fields, most of them small."""
    whole = labels.shipping().split("^FS")
    fields = [f"{it}^FS" for it in rng.sample(whole, rng.randrange(0, 8))]
    fields += [rng.choice(LABEL) for _ in range(rng.randrange(0, 6))]
    rng.shuffle(fields)
    size = f"^PW{rng.randrange(8, 832)}^LL{rng.randrange(1, 600)}"
    return f"^XA{size}{''.join(fields)}{rng.choice(('^XZ', '^XZ', ''))}".encode()


def changed(rng, data):
    """The bytes with some of them lost, doubled or others."""
    data = bytearray(data)
    for _ in range(rng.randrange(1, 4)):
        at = rng.randrange(len(data) + 1)
        to = min(len(data), at + rng.randrange(1, 20))
        data[at:to] = rng.choice((b"", rng.randbytes(to - at), data[at:to] * 2))
    return bytes(data)


def main():
    if len(sys.argv) not in (3, 4):
        print("usage: streams.py FOLDER COUNT [SEED]", file=sys.stderr)
        return 2
    rng = random.Random(f"streams {(sys.argv[3:] or ['1'])[0]}")
    receipts.CHOICE.seed(rng.random())
    labels.CHOICE.seed(rng.random())
    for nth in range(int(sys.argv[2])):
        for name, make in (("receipt-{}.bin", receipt), ("label-{}.zpl", label)):
            data = make(rng)
            with open(f"{sys.argv[1]}/{name.format(nth)}", "wb") as it:
                it.write(data if rng.random() < 0.5 else changed(rng, data))
    return 0


if __name__ == "__main__":
    sys.exit(main())
