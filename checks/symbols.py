#!/usr/bin/env python3
"""symbols.py [PROGRAM [NUMBER [SEED]]]: draws so many random payloads, 60 where none is said, as Data Matrix
symbols of all sizes and leads, and as many as PDF417 symbols of all levels and shapes, as Aztec symbols of all
layers and, in dots, as MaxiCode symbols of all modes, and has ZXingReader, and of Data Matrix dmtxread too, read
them back. Each rune has the modules that zint draws, and so have as many MaxiCode symbols of one code set. As many
are drawn of each linear code of the whole languages: ZXingReader and zbarimg read those that they know, and
each has the modules that zint draws. PROGRAM is vp_draw_symbols as the gate builds it."""
import os
import random
import shutil
import subprocess
import sys
import tempfile
from typing import Dict, List, Optional, Tuple

TOP = os.path.dirname(os.path.dirname(os.path.abspath(__file__)))
BUILT = f"{TOP}/crates/tests/vp_draw_symbols/out/vp_draw_symbols"
# rows, columns and data codewords of each size
SIZES = [(10, 10, 3), (12, 12, 5), (14, 14, 8), (16, 16, 12), (18, 18, 18), (20, 20, 22), (22, 22, 30), (24, 24, 36),
         (26, 26, 44), (32, 32, 62), (36, 36, 86), (40, 40, 114), (44, 44, 144), (48, 48, 174), (52, 52, 204),
         (64, 64, 280), (72, 72, 368), (80, 80, 456), (88, 88, 576), (96, 96, 696), (104, 104, 816),
         (120, 120, 1050), (132, 132, 1304), (144, 144, 1558),
         (8, 18, 5), (8, 32, 10), (12, 26, 16), (12, 36, 22), (16, 36, 32), (16, 48, 49)]
HEADS = {b"5": b"[)>\x1e05\x1d", b"6": b"[)>\x1e06\x1d"}
COMMANDS = {"ZXingReader": ["ZXingReader", "-format", "DataMatrix", "-ispure", "-bytes"],
            "dmtxread": ["dmtxread", "-N1", "-m", "5000"],
            "ZXingReader of PDF417": ["ZXingReader", "-format", "PDF417", "-ispure", "-bytes"],
            "ZXingReader of Aztec": ["ZXingReader", "-format", "Aztec", "-ispure", "-bytes"],
            "ZXingReader of MaxiCode": ["ZXingReader", "-format", "MaxiCode", "-ispure", "-bytes"]}
# what each of them reads, by the letter of vp_draw_symbols
READS = {"ZXingReader": b"D", "dmtxread": b"D", "ZXingReader of PDF417": b"FC", "ZXingReader of Aztec": b"A",
         "ZXingReader of MaxiCode": b"m"}
# kinds of text, each of which another encodation takes in the fewest codewords, and how many of its characters a
# codeword has at most
CAPITALS = b"ABCDEFGHIJKLMNOPQRSTUVWXYZ"
LETTERS = {"mixed": (b"AB0123456789", 1.0), "capitals": (CAPITALS + b" ", 1.5),
           "small": (CAPITALS.lower() + b" 09", 1.5), "x12": (CAPITALS + b"0123456789*>\r ", 1.5),
           "edifact": (bytes(range(32, 95)), 1.33), "high": (CAPITALS + b"\xc1\xe9\x80\xff", 1.0)}
KINDS = ["digits", "text", "bytes", "parts", *LETTERS]
# characters of PDF417: of each compaction, and of each sub-mode of text
STACKED = {"digits": b"0123456789", "capitals": CAPITALS + b" ", "words": CAPITALS[:2] + CAPITALS.lower() + b"  ,.",
           "mixed": b"0123456789&#+%=^,:-.$/* \r\t", "marks": b";<>@[\\]_`~!\r\t,:\n-.$/\"|*()?{}' aB1",
           "text": bytes(range(32, 127)) + b"\t\n\r", "bytes": bytes(range(256)), "high": CAPITALS + b"\xe9\xff"}
# and of Aztec: of each mode
MODES = {"digits": b"0123456789,. ", "capitals": CAPITALS + b" ", "words": STACKED["words"],
         "mixed": bytes(range(1, 14)) + bytes(range(27, 32)) + b"@\\^_`|~\x7f Aa0", "text": STACKED["text"],
         "marks": b"\r\n.,:; !?[]{}()<>=+-*/$%&#'\" aB1", "bytes": bytes(range(256)),
         "high": CAPITALS + b"\0\x1a\xe9\xff"}
# and of MaxiCode: of each code set
CODE_SETS = {"digits": b"0123456789", "capitals": CAPITALS + b" 0123456789,.-/:", "words": STACKED["words"],
             "text": bytes(range(32, 127)), "c": bytes(range(0xc0, 0xe0)) + b"\x80\x89\xaa\xbe \x1d",
             "d": bytes(range(0xe0, 256)) + b"\x8a\x94\xa1\xbf \x1e", "e": bytes(range(32)) + b"\x95\x9f\xa0\xb6 ",
             "bytes": bytes(range(256))}
# what stands before a text, of a year
HEADER = b"[)>\x1e01\x1d"
# the linear codes by the letters of vp_draw_symbols: zint's arguments, the dots of a wide element, and the words by
# which ZXingReader and zbarimg know them
DIGITS = "0123456789"
LINEAR: Dict[str, Tuple[List[str], int, str, str]] = {
    "I": (["-b", "3"], 3, "ITF", "i25"), "i": (["-b", "3", "--vers=1"], 3, "ITF", "i25"),
    "B": (["-b", "18"], 2, "Codabar", "codabar"), "9": (["-b", "25"], 1, "Code93", "code93"),
    "1": (["-b", "1", "--vers=1"], 2, "", ""), "2": (["-b", "1"], 2, "", ""),
    "M": (["-b", "47"], 2, "", ""), "m": (["-b", "47", "--vers=1"], 2, "", ""),
    "n": (["-b", "47", "--vers=2"], 2, "", ""), "o": (["-b", "47", "--vers=4"], 2, "", ""),
    "8": (["-b", "13"], 1, "EAN-8", "ean8"), "A": (["-b", "34"], 1, "UPC-A", ""),
    "E": (["-b", "37"], 1, "UPC-E", "upce"), "+": (["-b", "13"], 1, "EAN-13", "ean13")}
ZBAR = ["zbarimg", "-q", "--raw", "-Sdisable", "-Si25.min-length=2", "-Si25.max-length=0", "-Scodabar.min-length=1",
        "-Sean2.enable", "-Sean5.enable"]
# what an add-on stands behind
BOOK = b"400638133393"
# the letter of a kind and what stands before the data or the level, rows, columns, data
Case = Tuple[bytes, int, int, bytes]


def payload(kind: str, size: int) -> bytes:
    """Returns random bytes of a kind that a size has room for."""
    if kind == "digits":
        return bytes(random.choices(b"0123456789", k=random.randint(1, 2 * (size - 1))))
    if kind == "text":
        return bytes(random.choices(range(32, 127), k=random.randint(1, size - 1)))
    if kind == "mixed":
        return bytes(random.choices(LETTERS[kind][0], k=random.randint(1, size - 1)))
    if kind in LETTERS:
        letters, dense = LETTERS[kind]
        return bytes(random.choices(letters, k=random.randint(1, max(1, int(dense * (size - 5))))))
    if kind == "parts":
        runs = [random.choices(LETTERS[random.choice(list(LETTERS))][0], k=random.randint(1, 9)) for _ in range(size)]
        return bytes(byte for run in runs for byte in run)[:random.randint(1, size - 4)]
    return bytes(random.choices(range(256), k=random.randint(1, max(1, size - 4))))


def cases(number: int) -> List[Case]:
    """Returns what is asked for: each size by turns, asked for by its rows and columns or by its shape."""
    some = []
    for at in range(number):
        rows, columns, size = SIZES[at % len(SIZES)]
        kind = random.choice(KINDS) if size > 5 else random.choice(["digits", "mixed"])
        lead = b"P" if kind in ("bytes", "parts", "high") else random.choice([b"P", b"P", b"P", b"G", b"5", b"6"])
        if random.randrange(4) == 0:
            rows, columns = int(rows != columns), 0
        some.append((b"D" + lead, rows, columns, payload(kind, size)))
    return some


def stacked(number: int) -> List[Case]:
    """Returns what is asked for of PDF417: each level by turns, and columns and rows of which some are left open."""
    some = []
    for at in range(number):
        level = at % 10
        check = 2 ** (level + 1) if level < 9 else 64
        # a character takes at most one codeword and a half, and two where segments are short
        length = random.randint(1, min(random.choice([20, 100, 900]), 924 - check) // 2)
        need = 2 * length + 2 + check
        columns = random.choice([it for it in range(1, 31)
                                 if -(-need // it) <= 90 and it * max(3, -(-need // it)) <= 928])
        rows = max(3, -(-need // columns))
        if random.randrange(3) == 0:
            rows = 0
        elif random.randrange(3) == 0:
            columns = 0
        if random.randrange(3) == 0:
            rows, columns = 0, 0
        data = b""
        while len(data) < length:
            run = random.choice([length, random.randint(1, 30)])
            data += bytes(random.choices(STACKED[random.choice(list(STACKED))], k=run))
        data = data[:length]
        some.append((random.choice(b"FFC").to_bytes(1, "big") + (b"%d" % level if level < 9 else b"-"),
                     rows, columns, data))
    return some


def layered(number: int) -> List[Case]:
    """Returns what is asked for of Aztec: each number of layers by turns, compact and full, or the fewest, and a
    percentage of check codewords, or the default."""
    some = []
    for at in range(number):
        layers = at % 37
        form = min(layers, 1) + (layers > 4)
        layers -= 4 * (layers > 4)
        percent = random.choice([0, 0, 5, 10, 36, 50])
        bits = layers * (88 + 24 * (form - 1) + 16 * layers) if form else random.choice([400, 4000, 9000])
        # a character takes nine bits or so at most
        length = random.randint(1, max(1, int(bits * (1 - (percent or 23) / 100 - 0.25)) // 11))
        data = b""
        while len(data) < length:
            run = random.choice([length, random.randint(1, 30), random.randint(1, 5)])
            data += bytes(random.choices(MODES[random.choice(list(MODES))], k=run))
        some.append((b"A" + bytes([percent]), form, layers, data[:length]))
    return some


def carried(mode: int) -> bytes:
    """Returns what stands in front of a text of MaxiCode in a mode: a random carrier's message, in 2 and 3."""
    digits = bytes(random.choices(DIGITS.encode(), k=6 + 9 * (mode == 2)))
    return {2: digits, 3: digits + bytes(random.choices(CODE_SETS["capitals"], k=6))}.get(mode, b"")


def joined() -> Tuple[int, int]:
    """Returns which of how many symbols one is, of none more often."""
    of = random.choice([0, 0, 0, random.randint(2, 8)])
    return (random.randint(1, of), of) if of else (0, 0)


def hexagonal(number: int) -> List[Case]:
    """Returns what is asked for of MaxiCode in dots: each mode by turns, with texts of one code set or of several."""
    some = []
    for at in range(number):
        mode = 2 + at % 5
        # a character of capitals takes one codeword, and of others three at most, where a latch is behind it
        length = random.randint(1, 75) if at % 3 == 0 else random.randint(1, 25)
        data = b""
        while len(data) < length:
            run = random.choice([length, random.randint(1, 12), random.randint(1, 4)])
            letters = CODE_SETS["capitals" if at % 3 == 0 else random.choice(list(CODE_SETS))]
            data += bytes(random.choices(letters, k=run))
        data = data[:length]
        if mode < 4 and random.randrange(2):
            data = HEADER + b"%02d" % random.randrange(100) + data[:max(1, length - 20)]
        some.append((b"m%d" % mode, *joined(), carried(mode) + data))
    return some


def check_digit(digits: str) -> str:
    """Returns the check digit by the weights 3 and 1 from the right."""
    return str(-sum(int(it) * (3, 1)[at % 2] for at, it in enumerate(reversed(digits))) % 10)


def short(system: str) -> Tuple[str, str]:
    """Returns the digits of a UPC-A that has a short form, and the six of it."""
    some = "".join(random.choices(DIGITS, k=5))
    last = random.randrange(10)
    if last < 3:
        return f"{system}{some[:2]}{last}0000{some[2:]}", f"{some}{last}"
    if last == 3:
        some = some[:2] + random.choice("3456789") + some[3:]
        return f"{system}{some[:3]}00000{some[3:]}", f"{some}3"
    if last == 4:
        some = some[:3] + random.choice("123456789") + some[4:]
        return f"{system}{some[:4]}00000{some[4]}", f"{some}4"
    some = some[:4] + random.choice("123456789")
    return f"{system}{some}0000{last}", f"{some}{last}"


def linear(letter: str) -> Tuple[str, str, str]:
    """Returns random data of a linear code, what they are for zint, and what a reader reads."""
    def some(letters: str, least: int, most: int) -> str:
        return "".join(random.choices(letters, k=random.randint(least, most)))
    if letter in "Ii":
        data = some(DIGITS, 6, 40)
        whole = data + check_digit(data) if letter == "i" else data
        return data, data, "0" * (len(whole) % 2) + whole
    if letter == "B":
        data = random.choice("ABCD") + some(DIGITS + "-$:/.+", 4, 30) + random.choice("ABCD")
        return data, data, data
    if letter == "9":
        data = some("".join(map(chr, range(33, 127))), 1, 30)
        return data, data, data
    if letter == "E":
        long, six = short("0")
        data = random.choice([six, "0" + six, f"0{six}0", long, long + "0"])
        return data, "0" + six, "0" + six + check_digit(long)
    if letter == "+":
        data = some(DIGITS, 2, 2) if random.randrange(2) else some(DIGITS, 5, 5)
        return data, data, data
    if letter in "8A":
        data = some(DIGITS, *((7, 7) if letter == "8" else (11, 11)))
        return data, data, data + check_digit(data)
    data = some(DIGITS + "-" if letter in "12" else DIGITS, 1, 40)
    return data, data, data


def modules_of_zint(words: List[str], data: str) -> str:
    """Returns the modules that zint draws, without the spaces behind them."""
    ran = subprocess.run(["zint", *words, "-d", data, "--dump"], stdout=subprocess.PIPE, stderr=subprocess.DEVNULL,
                         check=False)
    lines = [line for line in ran.stdout.decode().split("\n") if line and not line.startswith("Warning")]
    return bin(int("1" + lines[0].replace(" ", ""), 16))[3:].rstrip("0") if lines else ""


def read_linear(letter: str, tool: str, room: str, row: str, book: str) -> Optional[str]:
    """Returns what a tool reads of a linear symbol, None where it doesn't know the kind."""
    word = LINEAR[letter][2 if tool == "ZXingReader" else 3]
    if not word:
        return None
    quiet = "0" * 10
    rows = [quiet + (f"{book}{'0' * 9}{row}" if letter == "+" else row) + quiet] * 20
    write(f"{room}/symbol.pbm", rows, 3)
    with open(f"{room}/symbol.png", "wb") as image:
        subprocess.run(["pnmtopng", "-quiet", f"{room}/symbol.pbm"], stdout=image, check=True)
    words = ["ZXingReader", "-format", word, "-bytes"] if tool == "ZXingReader" else ZBAR + [f"-S{word}.enable"]
    text = read(words + [f"{room}/symbol.png"]).decode("latin-1").split("\n")
    if letter == "+":
        return text[0].split(" ")[-1]
    return text[0]


def linear_offences(program: str, room: str, number: int, tools: List[str]) -> List[str]:
    """Returns the linear symbols that have other modules than zint's, or are read otherwise."""
    cases_of = [(letter, linear(letter)) for letter in LINEAR for _ in range(number)]
    some = [(b"L" + letter.encode(), 1, LINEAR[letter][1], data.encode()) for letter, (data, _, _) in cases_of]
    *symbols, book = drawn(program, some + [(b"Le", 1, 1, BOOK)])
    wrong = []
    for (letter, (data, for_zint, text)), (row,) in zip(cases_of, symbols):
        if "zint" in tools and modules_of_zint(LINEAR[letter][0], for_zint) != row.rstrip("0"):
            wrong.append(f"zint: {letter} {data}: {row}")
        for tool in tools:
            if tool == "zint":
                continue
            said_text = read_linear(letter, tool, room, row, book[0])
            bare = text[1:-1] if letter == "B" and tool == "ZXingReader" else text
            if said_text is not None and said_text != bare:
                wrong.append(f"{tool}: {letter} {data}: {said_text!r}")
    return wrong


def drawn(program: str, some: List[Case]) -> List[List[str]]:
    """Returns the rows of each symbol, `1` for a dark module."""
    asked = b"".join(lead + bytes([rows, columns]) + len(data).to_bytes(2, "big") + data
                     for lead, rows, columns, data in some)
    ran = subprocess.run([program], input=asked, stdout=subprocess.PIPE, check=True)
    lines = ran.stdout.decode("ascii").split("\n")[:-1]
    symbols: List[List[str]] = []
    while lines:
        if lines[0] != "P1":
            raise ValueError(f"{lines[0]}: symbol {len(symbols)}, {some[len(symbols)]}")
        width, high = (int(it) for it in lines[1].split())
        symbols.append(lines[2:2 + high])
        if any(len(row) != width for row in symbols[-1]):
            raise ValueError(f"symbol {len(symbols) - 1} has a row of another width than {width}")
        del lines[:2 + high]
    return symbols


def write(name: str, rows: List[str], scale: int) -> None:
    """Writes an image of a symbol with a white edge."""
    edge = 4
    width = scale * (len(rows[0]) + 2 * edge)
    stride = (width + 7) // 8
    with open(name, "wb") as image:
        image.write(b"P4\n%d %d\n" % (width, scale * (len(rows) + 2 * edge)))
        for row in ["0" * len(rows[0])] * edge + rows + ["0" * len(rows[0])] * edge:
            dots = "".join(it * scale for it in "0" * edge + row + "0" * edge)
            image.write(int(dots.ljust(8 * stride, "0"), 2).to_bytes(stride, "big") * scale)


def read(command: List[str]) -> bytes:
    return subprocess.run(command, stdout=subprocess.PIPE, stderr=subprocess.DEVNULL, check=False).stdout


def said(tool: str, room: str, rows: List[str]) -> bytes:
    """Returns what a reader reads. A symbol that it doesn't find is shown to it in other sizes."""
    name, png = f"{room}/symbol.pbm", f"{room}/symbol.png"
    text = b""
    for scale in (4, 6, 9, 3, 5):
        write(name, rows, scale)
        with open(png, "wb") as image:
            subprocess.run(["pnmtopng", "-quiet", name], stdout=image, check=True)
        text = read(COMMANDS[tool] + [png])
        if not text and tool.endswith(("PDF417", "Aztec")):
            text = read([word for word in COMMANDS[tool] if word != "-ispure"] + [png])
        if text:
            break
    return text


def wanted(lead: bytes, data: bytes) -> bytes:
    """Returns what a symbol says: a macro stands for its head and its end. Of a carrier's message the reader tells
    the parts before the text, behind its header."""
    if lead in (b"m2", b"m3"):
        front = 15 if lead == b"m2" else 12
        service, country, postal, text = data[:3], data[3:6], data[6:front], data[front:]
        header = text[:9] if text.startswith(HEADER) else b""
        return header + b"\x1d".join([postal, country, service, text[len(header):]])
    head = HEADS.get(lead[1:]) if lead[:1] == b"D" else None
    return data if head is None else head + data + b"\x1e\x04"


def is_read(text: bytes, data: bytes) -> bool:
    """Returns whether data were read. The reader leaves out a GS at the front, and takes ten ones that fill up the
    last codeword for a run of 31 bytes, which it reads behind the data."""
    return any(text[:len(it)] == it and len(text) - len(it) in (0, 31) for it in (data, data[data[:1] == b"\x1d":]))


def runes_offences(program: str) -> List[str]:
    """Returns the runes that have other modules than zint's."""
    symbols = drawn(program, [(b"R" + bytes([number]), 0, 0, b"") for number in range(256)])
    wrong = []
    for number, rows in enumerate(symbols):
        ran = subprocess.run(["zint", "-b", "AZRUNE", "-d", str(number), "--dump"], stdout=subprocess.PIPE,
                             check=True)
        lines = [bin(int("1" + line.replace(" ", ""), 16))[3:14] for line in ran.stdout.decode().split("\n") if line]
        if lines != rows:
            wrong.append(f"zint: rune {number}")
    return wrong


def hexagons_offences(program: str, number: int) -> List[str]:
    """Returns the MaxiCode symbols of capitals and digits that have other modules than zint's."""
    some: List[Case] = []
    for at in range(number):
        mode = 2 + at % 5
        text = bytes(random.choices(CODE_SETS[random.choice(["capitals", "digits"])], k=random.randint(1, 75)))
        some.append((b"M%d" % mode, *joined(), carried(mode) + text))
    wrong = []
    for (lead, position, of, data), rows in zip(some, drawn(program, some)):
        front = {b"M2": 15, b"M3": 12}.get(lead, 0)
        words = ["zint", "-b", "57", f"--mode={lead[1:].decode()}", "-d", data[front:].decode(), "--dump"]
        words += ["--primary=" + (data[6:front] + data[3:6] + data[:3]).decode()] if front else []
        words += [f"--structapp={position},{of}"] if of else []
        ran = subprocess.run(words, stdout=subprocess.PIPE, stderr=subprocess.DEVNULL, check=False)
        lines = [line for line in ran.stdout.decode().split("\n") if line and not line.startswith("Warning")]
        if [bin(int("1" + line.replace(" ", ""), 16))[3:33] for line in lines] != rows:
            wrong.append(f"zint: {lead!r} {position} of {of}, {data!r}")
    return wrong


def offences(room: str, some: List[Case], symbols: List[List[str]], tools: List[str]) -> List[str]:
    """Returns what a reader reads otherwise."""
    wrong = []
    for at, ((lead, _, _, data), rows) in enumerate(zip(some, symbols)):
        for tool in tools:
            if lead[:1] not in READS[tool]:
                continue
            # libdmtx gives the check codewords of 144 by 144 modules another order than the standard
            if tool == "dmtxread" and len(rows) == 144:
                continue
            text = said(tool, room, rows)
            if lead[:1] == b"A" and is_read(text, data):
                continue
            # the reader takes CR of code set A for LF
            if lead[:1] == b"m" and text.replace(b"\r", b"\n") == wanted(lead, data).replace(b"\r", b"\n"):
                continue
            if text != wanted(lead, data) and not (lead == b"DG" and text.lstrip(b"\x1d") == data):
                wrong.append(f"{tool}: symbol {at} of {len(rows)} rows, {some[at]}: {text!r}")
    return wrong


def main() -> int:
    program = sys.argv[1] if sys.argv[1:] else BUILT
    number = int(sys.argv[2]) if sys.argv[2:] else 60
    random.seed(int(sys.argv[3]) if sys.argv[3:] else 16022)
    tools = [tool for tool in COMMANDS if shutil.which(COMMANDS[tool][0]) and shutil.which("pnmtopng")]
    of_bars = [tool for tool in ("ZXingReader", "zbarimg", "zint") if shutil.which(tool) and shutil.which("pnmtopng")]
    for tool in COMMANDS.keys() - set(tools) | {"zbarimg", "zint"} - set(of_bars):
        print(f"symbols: left out: no {tool}")
        if os.environ.get("VP_TOOLS_INSTALLED") == "1":
            return 1
        if "VP_LEFT_OUT" in os.environ:
            with open(os.environ["VP_LEFT_OUT"], "a", encoding="utf-8") as left:
                left.write(f"symbols {tool}\n")
    some = cases(number) + stacked(number) + layered(number) + hexagonal(number)
    symbols = drawn(program, some)
    if len(symbols) != len(some):
        print(f"checks/symbols: {len(symbols)} symbols of {len(some)}")
        return 1
    with tempfile.TemporaryDirectory() as room:
        wrong = offences(room, some, symbols, tools) + linear_offences(program, room, number, of_bars)
    if "zint" in of_bars:
        wrong += runes_offences(program) + hexagons_offences(program, number)
    for it in wrong:
        print(f"checks/symbols: {it}")
    if not wrong:
        print(f"{number} Data Matrix, {number} PDF417, {number} Aztec and {number} MaxiCode symbols, and {number} of "
              f"each linear code, are read back by {', '.join(tools + of_bars[1:]) or 'no reader: none is there'}: ok")
    return 1 if wrong else 0


if __name__ == "__main__":
    sys.exit(main())
