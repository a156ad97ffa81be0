"""Draws characters in cells of any size: of strokes, letters with their marks, lines and blocks that join."""
import math
import re
import unicodedata
from typing import Callable, Dict, List, Optional, Tuple

from .sheets import framed, sheet_of
from .strokes import ABOVE, ALIKE, ALONE, BELOW, MADE, OTHERS, PLAIN
from .tables import shown, spaces

# Of a cell's size: where the grid begins, how far its columns and rows lie apart, how wide the pen is.
GRIDS = {(12, 24): (2.0, 4.0, 2.0, 2.0, 1.8), (9, 17): (1.5, 2.5, 1.5, 1.5, 1.1)}
# Of a cell's size: how thick the lines of boxes are, and where single and double ones lie from its left, from its top.
BOXES = {(12, 24): (2, {-1: 3, 0: 5, 1: 7}, {-1: 9, 0: 11, 1: 13}),
         (9, 17): (1, {-1: 3, 0: 4, 1: 5}, {-1: 7, 0: 8, 1: 9})}
# A capital with a mark is drawn from this row on, so that the mark has room.
LOWERED = 1.6
TALL = set('bdfhklt')


Point = Tuple[float, float]
Lines = List[List[Point]]
Size = Tuple[int, int]


def points(text: str) -> Lines:
    """The strokes of a text: lists of points."""
    found = re.compile(r'(-?[\d.]+),(-?[\d.]+)|(-?\d)(\d(?:\.\d+)?)')
    return [[(float(m[1] or m[3]), float(m[2] or m[4])) for m in map(found.fullmatch, stroke.split()) if m]
            for stroke in text.split('; ')]


def moved(strokes: Lines, across: float, down: float, right: float, below: float) -> Lines:
    return [[(x * across + right, y * down + below) for x, y in stroke] for stroke in strokes]


def strokes(char: str) -> Optional[Lines]:
    """The strokes of a character, or None."""
    if char in PLAIN or char in OTHERS:
        return points(PLAIN.get(char) or OTHERS[char])
    if char in MADE:
        return [it for part, *place in MADE[char] for it in moved(strokes(part) or [], *place)]
    if char in ALONE:
        mark = ALONE[char]
        return points(BELOW[mark]) if mark in BELOW else moved(points(ABOVE[mark]), 1, 1, 0, 1.4)
    if char in ALIKE:
        return strokes(ALIKE[char])
    parts = unicodedata.normalize('NFD', char)
    if len(parts) != 2:
        return None
    base, mark = parts[0], parts[1]
    letter = strokes({'i': 'ı', 'і': 'ı'}.get(base, base) if mark in ABOVE else base)
    if letter is None or mark not in ABOVE and mark not in BELOW:
        return None
    if mark in BELOW:
        return letter + points(BELOW[mark])
    if mark == '\u030c' and base in 'dtlL':
        return moved(letter, .8, 1, 0, 0) + [[(4, -.4), (3.8, 1)]]
    if base in TALL or base.isupper():
        scale = (6 - LOWERED) / 6
        letter = [[(x, LOWERED + y * scale if y < 6 else y) for x, y in stroke] for stroke in letter]
        return letter + moved(points(ABOVE[mark]), 1, 1, 0, LOWERED - 1.4)
    return letter + moved(points(ABOVE[mark]), 1, 1, 0, .8)


def distance(px: float, py: float, a: Point, b: Point) -> float:
    dx, dy = b[0] - a[0], b[1] - a[1]
    length = dx * dx + dy * dy
    t = 0 if length == 0 else max(0, min(1, ((px - a[0]) * dx + (py - a[1]) * dy) / length))
    return math.hypot(px - a[0] - t * dx, py - a[1] - t * dy)


def inked(lines: Lines, size: Size) -> List[int]:
    """The rows of a cell with strokes: a dot is black where it lies within half a pen's width of one."""
    left, top, across, down, pen = GRIDS[size]
    segments: List[Tuple[Point, Point]] = []
    for line in lines:
        places = [(left + across * x, top + down * y) for x, y in line]
        segments += list(zip(places, places[1:] or places))
    width, height = size
    is_black = [[any(distance(x + .5, y + .5, a, b) <= pen / 2 for a, b in segments) for x in range(width)]
                for y in range(height)]
    return [sum(black << width - 1 - x for x, black in enumerate(row)) for row in is_black]


def arms(char: str) -> Optional[Dict[str, int]]:
    """Of a line of boxes how many lines go left, right, up and down: none, one or two."""
    name = unicodedata.name(char, '')
    if not name.startswith('BOX DRAWINGS '):
        return None
    found = dict.fromkeys(('LEFT', 'RIGHT', 'UP', 'DOWN'), 0)
    whole = 2 if 'DOUBLE' in name and 'SINGLE' not in name else 1
    for part in name[len('BOX DRAWINGS '):].split(' AND '):
        count = 2 if 'DOUBLE' in part else 1 if 'SINGLE' in part else whole
        for word, ends in [('LEFT', ['LEFT']), ('RIGHT', ['RIGHT']), ('UP', ['UP']), ('DOWN', ['DOWN']),
                           ('VERTICAL', ['UP', 'DOWN']), ('HORIZONTAL', ['LEFT', 'RIGHT'])]:
            if word in part.split():
                found.update(dict.fromkeys(ends, count))
    return found


def ends(count: int, sides: Tuple[int, int], has_opposite: bool) -> List[Tuple[int, int]]:
    """The lines of an arm: on which side of the middle each lies, and how far it goes, -1 to its near, 1 to the far
    line of the ones across. `sides` are the counts across it, on its first and its second side."""
    if count == 1:
        return [(0, 0 if has_opposite or 2 not in sides else -1 if sides == (2, 2) else 1)]
    found = []
    for side, (near, other) in zip((-1, 1), (sides, sides[::-1])):
        found.append((side, -1 if near == 2 else 0 if near or has_opposite or other != 2 else 1))
    return found if count else []


def box(char: str, size: Size) -> Optional[List[int]]:
    """The rows of a line of boxes, which joins that of the next cell."""
    found = arms(char)
    if not found:
        return None
    thick, columns, lines = BOXES[size]
    width, height = size
    black = [[False] * width for _ in range(height)]

    def fill(left: int, top: int, right: int, bottom: int) -> None:
        for y in range(top, bottom):
            for x in range(left, right):
                black[y][x] = True

    for name, opposite in ('LEFT', 'RIGHT'), ('RIGHT', 'LEFT'):
        for side, end in ends(found[name], (found['UP'], found['DOWN']), found[opposite] > 0):
            top = lines[side]
            if name == 'LEFT':
                fill(0, top, columns[end] + thick, top + thick)
            else:
                fill(columns[-end], top, width, top + thick)
    for name, opposite in ('UP', 'DOWN'), ('DOWN', 'UP'):
        for side, end in ends(found[name], (found['LEFT'], found['RIGHT']), found[opposite] > 0):
            left = columns[side]
            if name == 'UP':
                fill(left, 0, left + thick, lines[end] + thick)
            else:
                fill(left, lines[-end], left + thick, height)
    return [sum(it << width - 1 - x for x, it in enumerate(row)) for row in black]


def block(char: str, size: Size) -> Optional[List[int]]:
    """The rows of a block or a shade."""
    width, height = size
    ways: Dict[str, Callable[[int, int], bool]] = {
        '█': lambda x, y: True, '▀': lambda x, y: y < height // 2, '▄': lambda x, y: y >= height // 2,
        '▌': lambda x, y: x < width // 2, '▐': lambda x, y: x >= width // 2,
        '░': lambda x, y: (x + 2 * (y % 2)) % 4 == 0, '▒': lambda x, y: (x + y) % 2 == 0,
        '▓': lambda x, y: (x + 2 * (y % 2)) % 4 != 0,
        '■': lambda x, y: width // 6 <= x < width - width // 6 and height // 3 <= y < height - height // 4,
    }
    is_black = ways.get(char)
    if not is_black:
        return None
    return [sum(is_black(x, y) << width - 1 - x for x in range(width)) for y in range(height)]


def glyph(char: str, size: Size) -> Optional[List[int]]:
    """The rows of a character's cell, the leftmost dot highest; None where it isn't drawn."""
    rows = box(char, size) or block(char, size)
    if rows:
        return rows
    lines = strokes(char)
    return inked(lines, size) if lines else None


def sheet(table: str, size: Size) -> bytes:
    """A sheet of a table's characters. Its other bytes show their digits, but for spaces."""
    drawn = {byte: glyph(char, size) for byte, char in shown(table).items()}
    cells = {byte: rows for byte, rows in drawn.items() if rows}
    for byte in set(range(256)).difference(spaces(table), cells):
        cells[byte] = framed(byte, size)
    return sheet_of(cells, size)
