"""Writes a narrow bold face of our own drawing, at any size anew: face HIGH [--wide WIDE] > face.bdf

HIGH is how many dots an em has from line to line, WIDE how many across, from 8 to 400; both are the same without
--wide. It is a font as BDF of all that the face has, or of some characters, or an image of a text. What the face lacks
is listed on standard error. docs/faces.md says how the letters are made.

    face 24 > 24.bdf
    face 36 --wide 18 --table cp1253 > narrow.bdf
    face 24 --text 'My text' | paper text.png

Status 0; 2 for wrong words, 3 where the face has none of the characters.
"""
import argparse
import sys
import unicodedata
from typing import Iterable, List

from .bdf import font
from .glyphs import every, has
from .text import pbm
from ..faults import Fault, shown
from ..tables import characters

LEAST, MOST = 8, 400


def bounded(text: str, least: int) -> int:
    try:
        value = int(text)
    except ValueError:
        value = least - 1
    if not least <= value <= MOST:
        raise argparse.ArgumentTypeError(f'{shown(text)} is no number from {least} to {MOST}')
    return value


def dots(text: str) -> int:
    return bounded(text, LEAST)


def rows(text: str) -> int:
    return bounded(text, 0)


def words_of() -> argparse.ArgumentParser:
    words = argparse.ArgumentParser(description=__doc__, formatter_class=argparse.RawDescriptionHelpFormatter)
    words.add_argument('high', metavar='HIGH', type=dots, help='how many dots an em is high')
    words.add_argument('--wide', metavar='WIDE', type=dots, help='how many dots an em is wide')
    words.add_argument('--between', metavar='ROWS', type=rows, default=0,
                       help='how many white rows are between lines of a text')
    which = words.add_mutually_exclusive_group()
    which.add_argument('--table', metavar='CODEC', help='the characters of a table, by its name in Python')
    which.add_argument('--chars', metavar='TEXT', help='the characters of a text')
    which.add_argument('--text', metavar='TEXT', help='an image of a text, as PBM')
    return words


def held(chars: Iterable[str]) -> List[str]:
    """Those of characters that the face has; of others it tells."""
    found = []
    for char in sorted(set(chars)):
        if has(char):
            found.append(char)
        else:
            print(f'missing U+{ord(char):04X} {unicodedata.name(char, "")}'.rstrip(), file=sys.stderr)
    if not found:
        raise Fault('the face has none of these characters')
    return found


def main() -> int:
    given = words_of().parse_args()
    high = given.high
    wide = given.wide or high
    if given.text is not None:
        held(given.text.replace('\n', ' '))
        sys.stdout.buffer.write(pbm(given.text, wide, high, given.between))
        return 0
    if given.table is not None:
        chars = held(it for it in characters(given.table).values() if unicodedata.category(it) != 'Cc')
    else:
        chars = every() if given.chars is None else held(given.chars)
    sys.stdout.buffer.write(font(chars, wide, high).encode('ascii'))
    return 0
