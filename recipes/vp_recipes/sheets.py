"""Glyph sheets: the shipped ones, the characters that one lacks, and which bytes of a stream are drawn."""
import functools
import pathlib
import re
import shutil

from typing import Dict, Iterator, List, Optional, Sequence, Set, Tuple

from .faults import Fault
from .labels import labels
from .program import HERE, find_vp, read

Size = Tuple[int, int]
CELLS: Dict[str, Size] = {'a': (12, 24), 'b': (9, 17)}
# The bytes that are a space in some table: a white cell of theirs hides nothing.
BLANKS = 0x20, 0xA0, 0xFF
# Hex digits of 3 by 5 dots, each row a number of three bits; where the two of a byte stand in a cell, how high a row
# of theirs is, and the cell's frame: left, right, top, bottom.
DIGITS = ('75557 26227 71747 71717 55711 74717 74757 71222 75757 75717 25755 65656 34443 65556 74647 74644').split()
FRAMES = {(12, 24): (((2, 6), (6, 6)), 2, (0, 10, 2, 19)), (9, 17): (((3, 3), (3, 9)), 1, (1, 7, 1, 15))}
# What stands between the parts of a sheet's head.
GAP = rb'(?:\s|#[^\n]*\n)+'


def shipped(language: str) -> List[str]:
    """The words that name the shipped sheets, none where they aren't found."""
    program = shutil.which(find_vp()[0])
    folders = [it / end for it in HERE.parents for end in ('examples', 'share/vp')]
    folders += [pathlib.Path(program).resolve().parent.parent / 'share/vp'] if program else []
    for folder in folders:
        files = {letter: folder / f'font-{letter}.pbm' for letter in CELLS}
        if all(it.is_file() for it in files.values()):
            letters = 'ab' if language == 'receipt' else 'a'
            return [word for it in letters for word in (f'--font-{it}', str(files[it]))]
    return []


def chosen(language: str, font_a: Optional[str] = None, font_b: Optional[str] = None) -> List[str]:
    """The words that name the sheets that a user gave, the shipped ones where none were given."""
    files = {'--font-a': font_a, '--font-b': font_b if language == 'receipt' else None}
    return [it for word, name in files.items() if name for it in (word, name)] or shipped(language)


def framed(byte: int, size: Size) -> List[int]:
    """The rows of a cell that has no character: the byte's two hex digits in a frame."""
    width, height = size
    places, tall, (left, right, top, bottom) = FRAMES[size]
    rows = [0] * height
    for y in range(top, bottom + 1):
        edge = list(range(left, right + 1)) if y in (top, bottom) else [left, right]
        rows[y] = sum(1 << width - 1 - x for x in edge)
    for digit, (x, y) in zip(f'{byte:02X}', places):
        for n in range(5 * tall):
            rows[y + n] |= int(DIGITS[int(digit, 16)][n // tall]) << width - 3 - x
    return rows


@functools.lru_cache(8)
def lacks_of(data: bytes, name: str, size: Size) -> Set[int]:
    """The bytes that a sheet has no character for: its cell is white, or shows the byte in a frame."""
    width, height = size
    head = re.match(rb'P4%s(\d+)%s(\d+)\s' % (GAP, GAP), data)
    if not head:
        raise Fault(f'{name}: not a glyph sheet')
    start, stride = head.end(), 2 * width
    if (int(head[1]), int(head[2])) != (16 * width, 16 * height) or len(data) < start + 16 * height * stride:
        raise Fault(f'{name}: not a glyph sheet of cells of {width} by {height}')
    rows = [int.from_bytes(data[start + stride * y:][:stride], 'big') for y in range(16 * height)]
    lacks = set()
    for byte in range(256):
        shift = width * (15 - byte % 16)
        cell = [row >> shift & (1 << width) - 1 for row in rows[byte // 16 * height:][:height]]
        if not any(cell) and byte not in BLANKS or cell == framed(byte, size):
            lacks.add(byte)
    return lacks


def lacking(name: str, size: Size) -> Set[int]:
    """The bytes that the sheet of a file has no character for."""
    return lacks_of(read(name), name, size)


def sheet_of(cells: Dict[int, List[int]], size: Size) -> bytes:
    """A sheet of the cells of bytes, each its rows; the others are white."""
    width, height = size
    out = b'P4\n%d %d\n' % (16 * width, 16 * height)
    for line in range(16):
        for y in range(height):
            row = 0
            for column in range(16):
                row = row << width | cells.get(16 * line + column, [0] * height)[y]
            out += row.to_bytes(2 * width, 'big')
    return out


def sheet_words(words: Sequence[str]) -> Dict[str, str]:
    """The sheets that words name: a dictionary from the letter of the font to the file."""
    found = {}
    for n, word in enumerate(words):
        for letter in CELLS:
            if word == f'--font-{letter}' and n + 1 < len(words):
                found[letter] = words[n + 1]
            elif word.startswith(f'--font-{letter}='):
                found[letter] = word.partition('=')[2]
    return found


def drawn(items: Sequence[Tuple[Optional[int], str]], language: str) -> Iterator[Tuple[int, int, str]]:
    """Each byte that is drawn as a character: the number of its item, the byte, the letter of its font."""
    if language == 'label':
        for _, closed in labels(items):
            for field in closed:
                if field['content'] == '^FD' and not field['symbol']:
                    yield from ((n, byte, 'a') for n, byte in field['bytes'])
        return
    font = 'a'
    for n, (_, text) in enumerate(items):
        kind, *rest = text.split(' ')
        if kind == 'char':
            yield n, int(rest[0], 16), font
        elif kind == 'esc' and rest[0] == '40':
            font = 'a'
        elif kind == 'esc' and (rest[0] == '21' or rest[0] == '4d' and rest[1] in ('00', '01', '30', '31')):
            font = 'ab'[int(rest[1], 16) & 1]


def without_cell(items: Sequence[Tuple[Optional[int], str]], language: str, sheet: Sequence[str]
                 ) -> Dict[Tuple[str, int], List[int]]:
    """The bytes that are drawn and have no character: {(font, byte): [how often, the number of the first's item]}."""
    given = sheet_words(sheet)
    found: Dict[Tuple[str, int], List[int]] = {}
    lacks = {letter: lacking(name, CELLS[letter]) for letter, name in given.items()}
    lacks.setdefault('a', set(range(256)).difference(BLANKS))
    lacks.setdefault('b', lacks['a'])
    for n, byte, font in drawn(items, language):
        if byte in lacks[font]:
            found.setdefault((font, byte), [0, n])[0] += 1
    return found
