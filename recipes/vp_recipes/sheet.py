"""Makes a glyph sheet for vp of a font: sheet [FONT] [--font a|b] [--table CODEC] [--face] [--blank] > sheet.pbm

FONT is BDF, PCF, PSF or Unifont's .hex, as it is or packed by gzip, and where FreeType for Python is (Debian's
python3-freetype) TrueType, OpenType or Type 1. Without one the letters are drawn; --face draws a bolder face, of more
tables (docs/faces.md). CODEC is the table that says which character a byte is, by Python's name for it: cp437 (the
default), cp850, cp858, cp1252, latin1, iso8859-15, koi8-r and so on. What the font lacks, and what loses dots, is
listed on standard error. A byte without a character shows its two hex digits in a frame; with --blank its cell is
white. docs/sheets.md says what a sheet is.

Status 0; 2 for wrong words, 3 for a font that is none, or that has no character of the table.
"""
import argparse
import struct
import sys
import unicodedata
import zlib
from typing import Callable, Dict, Iterable, List, Optional, Tuple

from .drawing import glyph
from .face.cells import rows
from .faults import Fault, why
from .faults import shown as shown_name
from .fonts import Glyph, read
from .sheets import CELLS, framed, sheet_of
from .tables import shown, spaces

Size = Tuple[int, int]
# Draws a character in a cell.
Draw = Callable[[str, Size], Optional[List[int]]]


def black(rows: Iterable[int]) -> int:
    return sum(bin(row).count('1') for row in rows)


def cell(glyph: Glyph, height: int, size: Size, moved: Tuple[int, int]) -> List[int]:
    """The rows of a cell with the glyph in its middle, moved by so many dots; what lies outside is cut."""
    width, rows = size[0], [0] * size[1]
    shift = width - (width - glyph.advance) // 2 - moved[0] - glyph.left - glyph.width
    top = (size[1] - height) // 2 + moved[1] + glyph.top
    for y, row in enumerate(glyph.rows, top):
        if 0 <= y < size[1]:
            rows[y] = (row << shift if shift >= 0 else row >> -shift) & (1 << width) - 1
    return rows


def best_move(glyphs: Iterable[Glyph], height: int, size: Size) -> Tuple[int, int]:
    """By how much all glyphs are moved together so that the fewest black dots are cut."""
    moves = sorted(((x, y) for x in range(-3, 4) for y in range(-3, 4)), key=lambda it: abs(it[0]) + abs(it[1]))

    def lost(moved: Tuple[int, int]) -> int:
        return sum(black(it.rows) - black(cell(it, height, size, moved)) for it in glyphs)

    return (0, 0) if not lost((0, 0)) else min(moves, key=lost)


def say(text: str) -> None:
    print(text, file=sys.stderr)


def main() -> int:
    words = argparse.ArgumentParser(description=__doc__, formatter_class=argparse.RawDescriptionHelpFormatter)
    words.add_argument('font_file', metavar='FONT', nargs='?',
                       help='BDF, PCF, PSF or .hex, perhaps packed by gzip; TrueType, OpenType, Type 1')
    words.add_argument('--font', choices=CELLS, default='a', help='cells of 12 by 24 dots (a) or 9 by 17 (b)')
    words.add_argument('--table', default='cp437', metavar='CODEC', help="which character a byte is: a Python codec")
    words.add_argument('--face', action='store_true', help='draw the letters of the bold face; takes no FONT')
    words.add_argument('--blank', action='store_true', help='leave white what has no character')
    given = words.parse_args()
    if given.face and given.font_file:
        words.error('--face takes no FONT')
    size, chars = CELLS[given.font], shown(given.table)
    if given.font_file:
        cells = of_font(given.font_file, chars, size)
    else:
        cells = of_drawing(chars, size, rows if given.face else glyph)
    say(f'font {given.font.upper()}, {given.table}: {len(cells)} of {len(chars)} characters')
    if not cells:
        raise Fault(f'{shown_name(given.font_file or "what is drawn here")} has no character of {given.table}')
    for n in set() if given.blank else set(range(256)).difference(cells, spaces(given.table), (0x20,)):
        cells[n] = framed(n, size)
    sys.stdout.buffer.write(sheet_of(cells, size))
    return 0


def of_drawing(chars: Dict[int, str], size: Size, draw: Draw) -> Dict[int, List[int]]:
    """The cells of the characters that are drawn here."""
    drawn = {n: draw(char, size) for n, char in chars.items()}
    for n, char in chars.items():
        if not drawn[n]:
            say(f'missing {named(n, char)}')
    return {n: rows for n, rows in drawn.items() if rows}


def of_font(name: str, chars: Dict[int, str], size: Size) -> Dict[int, List[int]]:
    """The cells of a font's characters."""
    try:
        font = read(name, chars.values(), size)
    except KeyError as error:
        raise Fault(f'{shown_name(name)}: it has no {error.args[0]}') from None
    except (OSError, EOFError, ValueError, IndexError, LookupError, OverflowError, struct.error, zlib.error) as error:
        raise Fault(f'{shown_name(name)}: {why(error)}') from None
    by_number = not any(isinstance(it, str) for it in font.glyphs)
    glyphs = {n: font.glyphs.get(n if by_number else char) for n, char in chars.items()}
    found = {n: it for n, it in glyphs.items() if it}
    moved = best_move(list(found.values()), font.height, size)
    cells = {n: cell(it, font.height, size, moved) for n, it in found.items()}
    if by_number:
        say('the font does not say its characters: its glyph n is taken for byte n')
    for n, char in chars.items():
        kind = 'missing' if n not in found else 'cut' if black(cells[n]) < black(found[n].rows) else None
        if kind:
            say(f'{kind} {named(n, char)}')
    return cells


def named(n: int, char: str) -> str:
    return f'{n:02X} U+{ord(char):04X} {unicodedata.name(char, "")}'
