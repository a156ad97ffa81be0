#!/usr/bin/env python3
"""fonts.py [PROGRAM [NUMBER [SEED]]]: changes fonts in BDF at random, so many times, 1,000 where none is said, cuts one
of recipes/face at every byte, and compares what vp_read_fonts reads, or the line that it refuses and why, with a reader
of its own. PROGRAM is vp_read_fonts as the gate builds it."""
import random
import re
import subprocess
import sys
from pathlib import Path
from typing import Dict, List, Optional, Tuple

TOP = Path(__file__).resolve().parent.parent
BUILT = TOP / "crates/tests/vp_read_fonts/out/vp_read_fonts"
NUMBER = re.compile(rb"-?[0-9]+\Z")
SAMPLE = (TOP / "crates/tests/vp_read_fonts/stdin").read_bytes()
# values that lie at the borders of ranges, and words that are moved elsewhere
VALUES = [b"-1", b"-0", b"0", b"1", b"-", b"", b"7x", b"1024", b"1025", b"-1024", b"-1025", b"2048", b"2049", b"65535",
          b"65536", b"1114111", b"1114112", b"99999999999999999999", b"-2", b"64", b"66", b"67", b"+3"]
LINES = [b"ENDCHAR", b"ENDFONT", b"BITMAP", b"STARTCHAR x", b"COMMENT ENDFONT", b"ENCODING -1", b"ENCODING 70", b"",
         b" ", b"\tFF", b"DWIDTH 3 0", b"BBX 9 1 0 0", b"BBX 0 0 0 0", b"CHARS 2", b"CHARS 0", b"FONT_DESCENT -3",
         b"FFFF", b"STARTFONT 2.2", b"SWIDTH -1 0", b"DEFAULT_CHAR 70", b"FONTBOUNDINGBOX 5 6 7 8", b"VVECTOR 1 2"]


class Refused(Exception):
    """A line that is refused, and why."""


class Reader:
    """The lines of a file, one by one."""

    def __init__(self, text: bytes) -> None:
        self.lines = text.split(b"\n")
        if self.lines[-1] == b"":
            self.lines.pop()
        self.at = 0

    def next(self) -> bytes:
        """Returns the next line."""
        self.at += 1
        if self.at > len(self.lines):
            raise Refused(f"line {self.at}: no ENDFONT")
        return self.lines[self.at - 1]

    def words(self) -> List[bytes]:
        """Returns the words of the next line, one empty word where there is none."""
        return [word for word in re.split(rb"[ \t\r]+", self.next()) if word] or [b""]

    def refuse(self, why: str) -> Refused:
        """Returns the refusal of the line that was read last."""
        return Refused(f"line {self.at}: {why}")

    def number(self, words: List[bytes], place: int, low: int, high: int, why: str) -> int:
        """Returns a word as a number in a range; a whole number isn't written with a minus."""
        if place >= len(words) or not NUMBER.match(words[place]):
            raise self.refuse("bad number")
        value = int(words[place])
        if not low <= value <= high or (low == 0 and words[place].startswith(b"-")):
            raise self.refuse(why)
        return value

    def box(self, words: List[bytes]) -> Tuple[int, int, int, int]:
        """Returns the width, height and place of a box."""
        w = self.number(words, 1, 0, 1024, "bad box")
        h = self.number(words, 2, 0, 1024, "bad box")
        x = self.number(words, 3, -1024, 1024, "bad box")
        return w, h, x, self.number(words, 4, -1024, 1024, "bad box")


def head(reader: Reader) -> Tuple[str, int]:
    """Reads up to CHARS: what the program tells of it, and how many letters come."""
    if reader.lines[:1] and reader.words()[0] != b"STARTFONT":
        raise reader.refuse("not STARTFONT")
    known: Dict[bytes, int] = {}
    box: Optional[Tuple[int, int, int, int]] = None
    while True:
        words = reader.words()
        if words[0] in (b"FONT_ASCENT", b"FONT_DESCENT"):
            known[words[0]] = reader.number(words, 1, -2048, 2048, "bad number")
        elif words[0] == b"DEFAULT_CHAR":
            known[words[0]] = reader.number(words, 1, 0, 0x10ffff, "bad number")
        elif words[0] == b"FONTBOUNDINGBOX":
            box = reader.box(words)
        elif words[0] == b"STARTCHAR":
            raise reader.refuse("too many letters")
        elif words[0] == b"ENDFONT":
            raise reader.refuse("no letter")
        elif words[0] == b"CHARS":
            count = reader.number(words, 1, 0, 65535, "bad number of letters")
            if box is None and not (b"FONT_ASCENT" in known and b"FONT_DESCENT" in known):
                raise reader.refuse("no heights")
            _, h, _, y = box or (0, 0, 0, 0)
            told = f"font {known.get(b'FONT_ASCENT', h + y)} {known.get(b'FONT_DESCENT', -y)}"
            return told + (f" ({known[b'DEFAULT_CHAR']})" if b"DEFAULT_CHAR" in known else ""), count


def code(reader: Reader, words: List[bytes], last: int) -> int:
    """Returns the code of a letter, -1 for none."""
    value = reader.number(words, 1, -10 ** 30, 10 ** 30, "")
    if value == -1:
        return -1
    if words[1].startswith(b"-") or value > 0x10ffff or value <= last:
        raise reader.refuse("bad code")
    return value


def letter(reader: Reader, last: int) -> Tuple[int, str]:
    """Reads a letter behind STARTCHAR: its code, -1 for none, and what the program tells of it."""
    got: Dict[bytes, int] = {}
    box: Optional[Tuple[int, int, int, int]] = None
    while True:
        words = reader.words()
        if words[0] == b"ENCODING":
            got[b"ENCODING"] = code(reader, words, last)
        elif words[0] == b"SWIDTH":
            got[b"SWIDTH"] = reader.number(words, 1, 0, 65535, "bad number")
        elif words[0] == b"DWIDTH":
            got[b"DWIDTH"] = reader.number(words, 1, 0, 2048, "bad advance")
        elif words[0] == b"BBX":
            box = reader.box(words)
        elif words[0] in (b"STARTCHAR", b"ENDCHAR", b"ENDFONT"):
            raise reader.refuse("no ENCODING, DWIDTH, BBX or BITMAP")
        elif words[0] == b"BITMAP":
            break
    if box is None or b"ENCODING" not in got or b"DWIDTH" not in got:
        raise reader.refuse("no ENCODING, DWIDTH, BBX or BITMAP")
    w, h, x, y = box
    digits = (w + 7) // 8 * 2
    dots = ""
    for _ in range(h):
        row = reader.next()[:digits]
        if len(row) < digits or re.search(rb"[^0-9A-Fa-f]", row):
            raise reader.refuse("bad row")
        dots += format(int(row or b"0", 16), f"0{4 * digits}b")[:w] if w else ""
    if reader.words()[0] != b"ENDCHAR":
        raise reader.refuse("bad row")
    exact = f" ({got[b'SWIDTH']})" if b"SWIDTH" in got else ""
    return got[b"ENCODING"], f"{got[b'ENCODING']} {got[b'DWIDTH']}{exact} {w} {h} {x} {y} {dots}"


def told(text: bytes) -> List[str]:
    """Returns what the program has to tell of a file."""
    reader = Reader(text)
    try:
        first, left = head(reader)
        lines, last = [first], -1
        while True:
            words = reader.words()
            if words[0] == b"STARTCHAR":
                if left == 0:
                    raise reader.refuse("too many letters")
                left -= 1
                own, line = letter(reader, last)
                last = max(last, own)
                if 0 <= own < 0x3000:
                    lines.append(line)
            elif words[0] == b"ENDFONT":
                if left:
                    raise reader.refuse("too few letters")
                if last < 0:
                    raise reader.refuse("no letter")
                return lines
    except Refused as why:
        return [str(why)]


def changed(text: bytes) -> bytes:
    """Returns a file with a few random changes."""
    lines = text.split(b"\n")
    for _ in range(random.choice([0, 1, 1, 1, 2, 4])):
        at = random.randrange(len(lines))
        kind = random.randrange(7)
        if kind == 0:
            del lines[at]
        elif kind == 1:
            lines.insert(at, random.choice(LINES))
        elif kind == 2:
            lines[at] = random.choice(LINES)
        elif kind == 3:
            words = lines[at].split(b" ")
            words[random.randrange(len(words))] = random.choice(VALUES)
            lines[at] = b" ".join(words)
        elif kind == 4:
            lines[at] = lines[at] + random.choice([b"\r", b" ", b" 1", b"0"])
        elif kind == 5:
            lines[at] = lines[at][:random.randint(0, len(lines[at]))]
        else:
            row = bytearray(lines[at] or b"x")
            row[random.randrange(len(row))] = random.randrange(256)
            lines[at] = bytes(row)
        lines = lines or [b""]
    return b"\n".join(lines)


def main() -> int:
    """Compares, and says how many agree."""
    program = sys.argv[1] if len(sys.argv) > 1 else str(BUILT)
    number = int(sys.argv[2]) if len(sys.argv) > 2 else 1000
    random.seed(int(sys.argv[3]) if len(sys.argv) > 3 else 5005)
    face = subprocess.run([str(TOP / "recipes/face"), "12", "--chars", "Ag\u00d6\u20ac"], stdout=subprocess.PIPE,
                          stderr=subprocess.DEVNULL, check=True).stdout
    small = SAMPLE[3:3 + int.from_bytes(SAMPLE[:3], "big")]
    files = [face, small, face.replace(b"\n", b"\r\n"), b"", b"\n"]
    files += [face[:n] for n in range(len(face))]
    files += [changed(random.choice([face, small])) for _ in range(number)]
    given = b"".join(len(file).to_bytes(3, "big") + file for file in files)
    said = subprocess.run([program], input=given, stdout=subprocess.PIPE, check=True).stdout.decode().splitlines()
    at, read = 0, 0
    for file in files:
        want = told(file)
        if said[at:at + len(want)] != want:
            print(f"fonts.py: of {file!r}\nsaid {said[at:at + len(want)]}\nwant {want}", file=sys.stderr)
            return 1
        at += len(want)
        read += want[0].startswith("font")
    if at != len(said):
        print(f"fonts.py: {len(said) - at} lines too many", file=sys.stderr)
        return 1
    print(f"{len(files)} files agree, {read} of them fonts")
    return 0


if __name__ == "__main__":
    sys.exit(main())
