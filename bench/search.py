#!/usr/bin/env python3
"""Looks for streams that hold the program up: search.py [--minutes M] [--bytes N] [--lanes L] [--seed S] [--vp VP]
[receipt|label]. It makes streams of all commands of both languages, changes those that took longest for a byte, and
says the ten worst of each language, each beside 1,024 boxes over a whole label, in as many copies as have its rows of
paper: a printer feeds a narrow row no faster than a wide one. Where one takes longer than it may (LIMITS), that is
said, and the status is 1.

A stream has a name, as label:7.1.52 or receipt:widest-up.3: the number, or the kind of streams of bench/hostile.sh,
that it grew from, and the numbers of the changes that were made to it. The name alone makes it again, whatever the
machine: search.py --make NAME [--bytes N]. bench/found.txt keeps the names of the worst that were found, which a
search begins with beside all kinds; --keep writes them anew."""
import argparse
import concurrent.futures
import os
import random
import re
import resource
import subprocess
import sys
import tempfile
import time

from receipts import AGAIN

ROOT = os.path.dirname(os.path.dirname(os.path.realpath(__file__)))
FOUND = f"{ROOT}/bench/found.txt"
# How many streams are kept to be changed, how many of them may have grown from one number, how many bytes of the
# stream a row of paper weighs, and how many seconds a stream is given, and the program takes to start.
KEPT, ALIKE, ROW, LONGEST, START = 10, 2, 1.5, 60, 0.002
# How many times the boxes' time a stream of 300,000 bytes may take.
LIMITS = {"label": 10, "receipt": 15}
BOXES = b"^XA^PW1248^LL8000" + b"^FR^GB1248,8000,8000^FS" * 1024 + b"^XZ"


def byte(rng):
    return rng.choice((0, 1, 2, 3, 8, 0x10, 0x30, 0x31, 0x77, 0xFE, 0xFF, rng.randrange(256)))


def word(rng):
    return rng.choice((0, 1, 8, 255, 256, 383, 575, 576, 1663, 1664, 0xFFFF, rng.randrange(65536))).to_bytes(2, "little")


def flag(rng):
    return rng.choice((0, 1, 2, 3, 0x30, 0x31, 0x32, 0x33))


def text(rng):
    return bytes(rng.choice(b"AMW 0\x80\xff") for _ in range(rng.choice((1, 2, 3, 6, 40))))


def tabs(rng):
    return b"\x1bD" + bytes(sorted(rng.sample(range(1, 256), rng.randrange(33)))) + b"\0"


def columns(rng):
    mode, count = rng.choice((0, 1, 32, 33)), rng.choice((1, 8, 64, 576, 1664))
    dots = rng.choice((b"\0", b"\xff", b"\xaa")) * (count * (1 if mode < 2 else 3))
    return b"\x1b*" + bytes([mode]) + count.to_bytes(2, "little") + dots


def raster(rng):
    row, rows = rng.choice((1, 9, 72, 73, 208, 209)), rng.choice((1, 2, 8, 24, 65))
    dots = rng.choice((b"\0", b"\xff", b"\xaa", b"\x01")) * (row * rows)
    return b"\x1dv0" + bytes([rng.randrange(4)]) + row.to_bytes(2, "little") + rows.to_bytes(2, "little") + dots


def bars(rng):
    kind = rng.choice((2, 4, 0x43, 0x45, 0x49))
    long = rng.choice((1, 8, 16, 100, 240))
    data = {2: b"7" * 12, 0x43: b"7" * 12, 4: b"A" * long, 0x45: b"M" * long, 0x49: b"{B" + b"a" * long}[kind]
    return b"\x1dk" + bytes([kind]) + (data + b"\0" if kind < 0x41 else bytes([len(data)]) + data)


def stored(rng):
    data = rng.choice((b"7", b"A", b"a")) * rng.choice((1, 17, 100, 250, 271, 652))
    return b"\x1d(k" + (len(data) + 3).to_bytes(2, "little") + b"1P0" + data


def symbol(rng):
    function = rng.choice((bytes([0x43, rng.choice((1, 3, 8, 16))]), bytes([0x45, 0x30 + rng.randrange(4)]), b"Q0", b"Q0"))
    return b"\x1d(k\3\x001" + function


def area(rng):
    return b"\x1bW" + b"".join(word(rng) for _ in range(4))


def wide_area(rng):
    """Nearly all of the page, at a place of any kind."""
    x, y = rng.randrange(9), rng.randrange(9)
    return b"\x1bW" + b"".join(it.to_bytes(2, "little") for it in (x, y, 576 - x, 1664 - y))


def one_byte(*fronts, of=byte):
    return lambda rng: rng.choice(fronts) + bytes([of(rng)])


def fixed(*commands):
    return lambda rng: rng.choice(commands)


# The commands of receipts, by the kind of what they do.
RECEIPT = (
    text,
    text,
    fixed(b"\n", b"\t", b"\r", b"\x0c", b"\x18", b"\x18", b"\1", b"\x1b2", b"\x1b@", b"\x1bL", b"\x1bS", b"\x1b\x0c"),
    one_byte(b"\x1bJ", b"\x1bd", b"\x1b3", b"\x1b ", b"\x1b!", b"\x1d!", b"\x1dh", b"\x1dw"),
    one_byte(b"\x1b-", b"\x1bE", b"\x1bG", b"\x1bM", b"\x1ba", b"\x1bT", b"\x1dB", b"\x1dH", b"\x1df", of=flag),
    lambda rng: rng.choice((b"\x1b$", b"\x1b\\", b"\x1dL", b"\x1dW", b"\x1d$", b"\x1d\\")) + word(rng),
    fixed(b"\x1b!\x30", b"\x1d!\x77", b"\x1d!\x07", b"\x1d!\x70", b"\x1b \xff", b"\x1d$\0\0"),
    tabs,
    columns,
    raster,
    bars,
    stored,
    symbol,
    symbol,
    area,
    wide_area,
    fixed(b"\x1bi", b"\x1bm", b"\x1dV\0", b"\x1dV\1", b"\x1dVA\x08", b"\x1dVB\xff"),
    fixed(b"\x1bt\0", b"\x1bp\0\1\1", b"\x1c.", b"\x1cp\1\0", b"\x10\4\1", b"\x1d(L\2\0ab", b"\x1d8L\2\0\0\0ab"),
)


def number(rng, most):
    low = rng.choice((0, 1, 2, 3, 8, 30, 31, 32, 33, 100, 255, 1248, 1500, 8000, 9999, 32000, rng.randrange(32001)))
    return str(min(low, most))


def turning(rng):
    return rng.choice("NRIB")


def content(rng):
    """The data of a text or a symbol."""
    unit = rng.choice(("A", "a", "7", " ", "M ", "A\\&", "\\&", 200 * "A" + " ", ">", "77A"))
    return unit * (rng.choice((1, 10, 40, 127, 254, 2000, 20000, 87000)) // len(unit) + 1)


def symbol_data(rng):
    return rng.choice((">:", "", ">;", "LA,", "MA,", "HM,N")) + rng.choice("aA7") * rng.choice((1, 12, 100, 230, 250, 650))


def graphic(rng):
    row = rng.choice((1, 4, 156, 157, 1024))
    rows = rng.choice((1, 32, 1000, 8000, 1_000_000))
    unit = rng.choice(("F", "F,", "F,:", ",", ":", "!", "z", "gF0", "FF00", "zF", "F0:", "J5K0"))
    codes = unit * rng.choice((1, 10, 80, 1000, 20000))
    total = min(row * rows, 99_999_999)
    return f"^GFA,{total},{total},{row},{codes}"


def setting(rng):
    return rng.choice((
        lambda: f"^LH{number(rng, 32000)},{number(rng, 32000)}",
        lambda: f"^PO{rng.choice('NI')}^PM{rng.choice('NY')}",
        lambda: f"^LR{rng.choice('NY')}",
        lambda: f"^CF0,{number(rng, 1500)},{number(rng, 1500)}",
        lambda: f"^FW{turning(rng)}",
        lambda: f"^BY{rng.choice((1, 2, 3, 10))},{rng.choice(('2.0', '2.5', '3.0'))},{number(rng, 8000)}",
        lambda: f"^PW{number(rng, 1248)}^LL{number(rng, 8000)}",
        lambda: f"^PQ{rng.choice((1, 2, 5, 20))}",
        lambda: "^FXremark^CI28~HS\r\n",
    ))().encode()


def field(rng):
    """A field whole: its place, how it is drawn, what it shows."""
    place = rng.choice(("", f"^FO{number(rng, 32000)},{number(rng, 32000)}", f"^FT{number(rng, 1248)},{number(rng, 8000)}"))
    font = f"^A0{turning(rng)},{number(rng, 1500)},{number(rng, 1500)}"
    block = f"^FB{number(rng, 32000)},{number(rng, 9999)},{rng.choice(('', '-'))}{number(rng, 9999)},{rng.choice('LCRJ')}"
    drawn = rng.choice((
        lambda: f"{font}^FD{content(rng)}",
        lambda: f"{font}{block}^FD{content(rng)}",
        lambda: f"{font}{block}^FD{content(rng)}",
        lambda: f"^GB{number(rng, 32000)},{number(rng, 32000)},{number(rng, 32000)},{rng.choice('BW')}",
        lambda: graphic(rng),
        lambda: f"^BC{turning(rng)},{number(rng, 8000)},{rng.choice('YN')},{rng.choice('YN')}^FD{symbol_data(rng)}",
        lambda: f"^B3{turning(rng)},N,{number(rng, 8000)},{rng.choice('YN')},N^FD{symbol_data(rng)}",
        lambda: f"^BE{turning(rng)},{number(rng, 8000)},{rng.choice('YN')},N^FD{'7' * 12}",
        lambda: f"^BQN,2,{rng.choice((1, 3, 10))}^FD{symbol_data(rng)}",
        lambda: f"^FH^FD_41{content(rng)}",
    ))()
    return f"{place}{rng.choice(('', '', '^FR'))}{drawn}^FS".encode()


# Fields that hold the program up, each 1,024 times (bench/hostile.sh), with what stands before them.
LABELS = {
    "texts": ("", "^A0R,1500,30^FD" + 254 * "A"),
    "over-each-other": ("", "^FB1,9999,-9999^A0N,1500,1^FD" + 254 * "A"),
    "paragraphs": ("", "^A0B,31,1500^FB8000,9999,0,L^FD" + 100 * "\\&"),
    "lines": ("", "^A0B,31,1500^FB8000,9999,0,L^FD" + 33 * "AAAAA\\&"),
    "wrapped": ("", "^A0B,24,1500^FB8000,9999,0,L^FD" + 255 * "A"),
    "near": ("", "^A0B,1500,1500^FB8000,9999,-1495,L^FD" + 255 * "A"),
    "near-in-turn": ("", "^A0B,1500,1500^FB8000,9999,-1495,L^FD" + 25 * "AAAAA@@@@@" + 5 * "A"),
    "near-in-threes": ("", "^A0B,1500,1500^FB8000,9999,-1495,L^FD" + 17 * "AAAAA@@@@@MMMMM"),
    "near-unlike": ("", "^A0B,1500,1500^FB8000,9999,-1495,L^FD" + "".join(5 * chr(it) for it in range(33, 85))),
    "narrow-copies": ("^PW32^PQ39", "^A0B,1500,1500^FB8000,9999,-1495,L^FD" + "".join(5 * chr(it) for it in range(33, 85))),
    "wide": ("", "^A0N,1500,1248^FB1248,9999,-1499^FD" + 250 * "A"),
    "turned-bars": ("", "^BY1^BCR,1248,N^FD>:" + 238 * "7"),
    "high-bars": ("", "^BCN,8000,N^FD>:" + 234 * "A"),
    "symbols": ("", "^BQN,2,10^FDLA," + 250 * "a"),
    "pictures": ("^POI", "^GFA,8192000,8192000,1024," + 80 * "F,:"),
}


def other_number(rng, found, most):
    """A number near another, or twice or half of it."""
    near = rng.randrange(1, 40)
    return min(max(0, rng.choice((found + 1, found - 1, found + near, found - near, 2 * found, found // 2))), most)


def other_length(rng, data):
    """Data that are longer or shorter."""
    return rng.choice((data + data, data[: len(data) // 2], data[:-1], data[rng.randrange(len(data) + 1) :]))


def nudged(rng, language, piece):
    """A piece of which one number, or the length of the data, is another."""
    if language == "receipt":
        if len(piece) < 3:
            return piece
        at = rng.randrange(2, len(piece))
        return piece[:at] + bytes([other_number(rng, piece[at], 255)]) + piece[at + 1 :]
    head, mark, data = piece.partition(b"^FD")
    numbers = [*re.finditer(rb"\d+", head)]
    if mark and (not numbers or rng.random() < 0.3):
        return head + mark + other_length(rng, data.removesuffix(b"^FS")) + b"^FS"
    if not numbers:
        return piece
    it = rng.choice(numbers)
    return piece[: it.start()] + b"%d" % other_number(rng, int(it[0]), 99_999_999) + piece[it.end() :]


class Stream:
    """What stands once, and what stands again and again."""

    def __init__(self, language, begin):
        self.language = language
        if language == "receipt" and begin in AGAIN:
            self.once, self.again = [b"\x1bL", AGAIN[begin][0]], [AGAIN[begin][1]]
        elif language == "label" and begin in LABELS:
            once, again = LABELS[begin]
            self.once, self.again = [once.encode()], [f"{again}^FS".encode()]
        else:
            self.grow(random.Random(f"{language} {begin}"))

    def grow(self, rng):
        language = self.language
        self.once = [self.piece(rng, True) for _ in range(rng.randrange(4))]
        if language == "receipt" and rng.random() < 0.5:
            self.once[:0] = [b"\x1bL", wide_area(rng), b"\x1bT" + bytes([rng.randrange(4)])]
        self.again = [self.piece(rng, False) for _ in range(rng.randrange(1, 4))]

    def piece(self, rng, is_once):
        if self.language == "receipt":
            return rng.choice(RECEIPT)(rng)
        return setting(rng) if is_once or rng.random() < 0.2 else field(rng)

    def change(self, seed):
        rng = random.Random(seed)
        for _ in range(rng.choice((1, 1, 2))):
            is_once = rng.random() < 0.4
            pieces = self.once if is_once else self.again
            kind = rng.choice(("add", "add", "drop", "other", "other", "twice", "turn", *(4 * ["nudge"])))
            if kind == "add" or not pieces:
                pieces.insert(rng.randrange(len(pieces) + 1), self.piece(rng, is_once))
            elif kind == "drop":
                pieces.pop(rng.randrange(len(pieces)))
            elif kind == "other":
                pieces[rng.randrange(len(pieces))] = self.piece(rng, is_once)
            elif kind == "twice":
                pieces.append(rng.choice(pieces))
            elif kind == "nudge":
                at = rng.randrange(len(pieces))
                pieces[at] = nudged(rng, self.language, pieces[at])
            else:
                rng.shuffle(pieces)

    def bytes(self, most):
        """Returns the stream: as often as it fits into so many bytes, but once at least."""
        once, again = b"".join(self.once), b"".join(self.again)
        if self.language == "receipt":
            return once + again * max(1, (most - len(once)) // max(1, len(again)))
        fields = max(1, again.count(b"^FS"))
        times = max(1, min((most - len(once) - 26) // max(1, len(again)), 1024 // fields))
        return b"^XA^PW1248^LL8000" + once + again * times + b"^XZ"


def made(name):
    """Returns the stream of a name."""
    language, _, rest = name.partition(":")
    begin, *changes = rest.split(".")
    stream = Stream(language, begin)
    for it in changes:
        stream.change(it)
    return stream


def measured(vp, name, most):
    """Returns the microseconds of a processor that a stream takes for a byte, its seconds, and how many bytes it has
    and rows it prints."""
    stream = made(name)
    data = stream.bytes(most)
    took, rows = ran(vp, stream.language, data)
    return took * 1e6 / (max(1000, len(data)) + rows * ROW), took, len(data), rows


def rows_of(paper):
    """Returns how many rows of dots stand in a file of PBM images."""
    rows = 0
    paper.seek(0)
    while paper.readline() == b"P4\n":
        wide, high = map(int, paper.readline().split())
        rows += high
        paper.seek((wide + 7) // 8 * high, os.SEEK_CUR)
    return rows


def ran(vp, language, data):
    """Returns the seconds of a processor that a stream takes, and how many rows it prints."""
    with tempfile.TemporaryFile(dir="/dev/shm") as given, tempfile.TemporaryFile(dir="/dev/shm") as paper:
        given.write(data)
        given.seek(0)
        words = [vp, language, "--font-a", f"{ROOT}/examples/font-a.pbm"]
        run = subprocess.Popen(words, stdin=given, stdout=paper, stderr=subprocess.DEVNULL)
        resource.prlimit(run.pid, resource.RLIMIT_CPU, (LONGEST, LONGEST))
        resource.prlimit(run.pid, resource.RLIMIT_FSIZE, (1 << 28, 1 << 28))
        _, run.returncode, used = os.wait4(run.pid, 0)
        rows = rows_of(paper)
    return max(0.0, used.ru_utime - START), rows


def known():
    if not os.path.exists(FOUND):
        return []
    with open(FOUND, encoding="utf-8") as it:
        return [line.split()[-1] for line in it if line.strip() and not line.startswith("#")]


def changed(rng, language, best):
    """Returns the name of a stream to try: one of the worst so far with a change more, or now and then a new one."""
    if not best or rng.random() < 0.1:
        return f"{language}:{rng.randrange(1_000_000)}"
    return f"{rng.choice(best)[1]}.{rng.randrange(1_000_000)}"


def kept(streams):
    """Returns the worst of these streams, the worst first."""
    left = []
    for cost, name in sorted(streams, reverse=True):
        if sum(it.split(".")[0] == name.split(".")[0] for _, it in left) < ALIKE:
            left.append((cost, name))
    return left[:KEPT]


def searched(given, language):
    """Returns the worst streams of a language that were found, the worst first, each with what it takes and its
    size."""
    rng, end = random.Random(f"{language} {given.seed}"), time.monotonic() + given.minutes * 60
    best, tried = [], 0
    kinds = AGAIN if language == "receipt" else LABELS
    begin = [*(f"{language}:{it}" for it in kinds), *(it for it in known() if it.startswith(language))]
    with concurrent.futures.ThreadPoolExecutor(given.lanes) as pool:
        under_way = {}
        while under_way or time.monotonic() < end:
            while len(under_way) < given.lanes and time.monotonic() < end:
                name = begin.pop() if begin else changed(rng, language, best)
                under_way[pool.submit(measured, given.vp, name, given.bytes // 5)] = name
            done, _ = concurrent.futures.wait(under_way, return_when=concurrent.futures.FIRST_COMPLETED)
            for it in done:
                best = kept([*best, (it.result()[0], under_way.pop(it))])
                tried += 1
    print(f"{language}: {tried} streams were tried", flush=True)
    return sorted(((*measured(given.vp, name, given.bytes), name) for _, name in best), reverse=True)


def main():
    words = argparse.ArgumentParser(description=__doc__, formatter_class=argparse.RawDescriptionHelpFormatter)
    words.add_argument("language", nargs="?", choices=("receipt", "label"))
    words.add_argument("--minutes", type=float, default=15, help="for each language")
    words.add_argument("--bytes", type=int, default=300_000, help="of a stream that is told; a fifth while they are looked for")
    words.add_argument("--lanes", type=int, default=2)
    words.add_argument("--seed", type=int, default=1)
    words.add_argument("--vp", help="the program; else the one that ./vp runs")
    words.add_argument("--keep", action="store_true", help="writes the names of the worst into bench/found.txt")
    words.add_argument("--make", metavar="NAME", help="writes the stream of this name")
    given = words.parse_args()
    if given.make:
        sys.stdout.buffer.write(made(given.make).bytes(given.bytes))
        return 0
    told = [f"{ROOT}/tools/dist/program"]
    given.vp = given.vp or subprocess.run(told, stdout=subprocess.PIPE, check=True).stdout.decode().strip()
    worst = [it for language in ("receipt", "label") if given.language in (None, language) for it in searched(given, language)]
    (boxes, high), status = min(ran(given.vp, "label", BOXES) for _ in range(3)), 0
    for cost, seconds, size, rows, name in worst:
        times = seconds / boxes / max(1, rows / high)
        print(f"{cost:8.2f} us a byte, {times:5.1f} times the boxes, {size:7} bytes, {rows:9} rows of paper: {name}")
        if times > LIMITS[name.partition(":")[0]]:
            print("    above the limit")
            status = 1
    if given.keep:
        others = [it for it in known() if given.language not in (None, it.partition(":")[0])]
        with open(FOUND, "w", encoding="utf-8") as it:
            it.write("# The worst streams that bench/search.py found, which it begins with.\n")
            it.writelines(f"{name}\n" for name in [*others, *(name for *_, name in worst)])
    return status


if __name__ == "__main__":
    sys.exit(main())
