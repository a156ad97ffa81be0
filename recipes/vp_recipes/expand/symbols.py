"""Symbols as pictures: their modules drawn as wide and as high as a command says, with their text in a sheet's
cells."""
import functools
import math
from typing import Dict, NamedTuple, Optional, Tuple

from . import zint
from .cells import Cells
from .pictures import Picture


class Symbol(NamedTuple):
    """A symbol: how it is called, zint's number of its kind, its data, words for zint, its form, its text or None,
    and of stacked rows how high each is in turn, in modules, where that is the kind's own. Forms:
      fixed   bars that are whole modules          two     bars of two widths
      stacked rows of bars, all as high            matrix  squares
      postal  bars of several heights              maxi    hexagons, in one size"""
    name: str
    kind: int
    data: bytes
    words: Tuple[str, ...] = ()
    form: str = 'fixed'
    text: Optional[bytes] = None
    rows: Optional[Tuple[int, ...]] = None


class Drawing(NamedTuple):
    """How a symbol is drawn: the narrow module and the wide one, the height of bars or of a row, whether its text
    stands above, and below, and in which cells of a sheet."""
    narrow: int
    wide: int
    height: int
    above: bool
    below: bool
    cells: Cells


# At 8 dots a millimetre: how far MaxiCode's hexagons lie apart, and the radii of the rings in its middle.
ACROSS, DOWN, RINGS = 7.04, 6.1, (4.08, 9.44, 14.88, 20.24, 25.6, 30.96)
# What is drawn at most, in dots.
MOST = 16 << 20


def wide_of_label(narrow: int, ratio: int) -> int:
    return max(narrow + 1, narrow * ratio // 10)


def bars(row: str, narrow: int, wide: int, form: str) -> str:
    """A row of modules as dots."""
    if form == 'two':
        out, n = [], 0
        while n < len(row):
            end = n
            while end < len(row) and row[end] == row[n]:
                end += 1
            out.append(row[n] * (narrow if end - n == 1 else wide))
            n = end
        return ''.join(out)
    return row.translate({0x30: '0' * narrow, 0x31: '1' * narrow})


@functools.lru_cache(256)
def picture(symbol: Symbol, drawing: Drawing, turn: str = 'N') -> Picture:
    """The symbol's picture with its text; raises zint.Refused, or FileNotFoundError where there is no zint."""
    if turn != 'N':
        return picture(symbol, drawing).turned(turn)
    rows = zint.modules(symbol.kind, symbol.data, tuple(symbol.words))
    narrow, height = drawing.narrow, drawing.height
    size = len(rows[0]) * narrow * max(1, height if symbol.form in ('fixed', 'two')
                                       else len(rows) * max(height, narrow))
    if size > MOST:
        raise zint.Refused(f'more than {MOST:,} dots')
    if symbol.form == 'maxi':
        return maxicode(rows)
    if symbol.form == 'matrix':
        return Picture.of_texts(rows).magnified(narrow, narrow)
    if symbol.form == 'stacked':
        heights = [symbol.rows[n % len(symbol.rows)] * narrow if symbol.rows else height for n in range(len(rows))]
        texts = [text for row, count in zip(rows, heights)
                 for text in [bars(row, narrow, drawing.wide, 'fixed')] * count]
        return lettered(Picture.of_texts(texts), symbol.text, drawing)
    if symbol.form == 'postal':
        parts = [height * 3 // 5, height - height * 3 // 5]
        if len(rows) == 3:
            parts = [height * 3 // 8, height - 2 * (height * 3 // 8), height * 3 // 8]
        texts = [text for row, count in zip(rows, parts) for text in [bars(row, narrow, narrow, 'fixed')] * count]
        return lettered(Picture.of_texts(texts), symbol.text, drawing)
    text = bars(rows[-1], narrow, drawing.wide, symbol.form)
    return lettered(Picture.of_texts([text] * max(1, height)), symbol.text, drawing)


def lettered(found: Picture, text: Optional[bytes], drawing: Drawing) -> Picture:
    """Bars with their text above or below, each in the middle of the wider of them."""
    if not text or not (drawing.above or drawing.below):
        return found
    line = drawing.cells.line(text)
    width = max(found.width, line.width)
    top, rows = 0, Picture(width, [])
    for part in [line] * drawing.above + [found] + [line] * drawing.below:
        rows = rows.joined(part, (width - part.width) // 2, top)
        top += part.height
    return rows


def maxicode(rows: Tuple[str, ...]) -> Picture:
    """MaxiCode's hexagons about its rings, at 8 dots a millimetre."""
    width, height = math.ceil(30.5 * ACROSS), math.ceil(32 * DOWN + ACROSS * 1.16)
    middle = ACROSS * 14.5, ACROSS * .58 + 16 * DOWN
    black = [0] * height
    for n, row in enumerate(rows):
        for k, module in enumerate(row):
            if module == '1':
                for y, dots in hexagon(n, k, width, height).items():
                    black[y] |= dots
    for y, (inside, ring) in rings(width, height, middle).items():
        black[y] = black[y] & ~inside | ring
    return Picture(width, black)


@functools.lru_cache(None)
def rings(width: int, height: int, middle: Tuple[float, float]) -> Dict[int, Tuple[int, int]]:
    """Of each row which dots lie within the rings in the middle, and which of these are black."""
    found: Dict[int, Tuple[int, int]] = {}
    for y in range(height):
        inside = ring = 0
        for x in range(width):
            away = math.hypot(x + .5 - middle[0], y + .5 - middle[1])
            if away <= RINGS[5]:
                inside |= 1 << width - 1 - x
                ring |= (sum(away > it for it in RINGS[:5]) % 2) << width - 1 - x
        found[y] = inside, ring
    return found


@functools.lru_cache(None)
def hexagon(n: int, k: int, width: int, height: int) -> Dict[int, int]:
    """The dots of each row of the k-th hexagon of the n-th row: it stands on its point, a little smaller than its
    place."""
    x, y, half = ACROSS * (k + .5 + .5 * (n % 2)), ACROSS * .58 + n * DOWN, ACROSS / 2 - .45
    found: Dict[int, int] = {}
    for py in range(max(0, int(y - 5)), min(height, int(y + 6))):
        for px in range(max(0, int(x - 5)), min(width, int(x + 6))):
            dx, dy = abs(px + .5 - x), abs(py + .5 - y)
            if dx <= half and dx * .5 + dy * .866 <= half:
                found[py] = found.get(py, 0) | 1 << width - 1 - px
    return found


@functools.lru_cache(256)
def frame(symbol: Symbol, drawing: Drawing, turn: str = 'N') -> Picture:
    """Where there is no symbol: a frame of about its size with its name in it."""
    if turn != 'N':
        return frame(symbol, drawing).turned(turn)
    narrow, count = drawing.narrow, len(symbol.data)
    if symbol.form == 'maxi':
        width, height = 215, 204
    elif symbol.form == 'matrix':
        side = narrow * (10 + 2 * math.ceil(math.sqrt(4 * count)))
        width, height = side, side
    elif symbol.form == 'stacked':
        width, height = narrow * 137, max(1, drawing.height) * max(3, math.ceil(count / 4))
    else:
        width, height = narrow * (11 * count + 35), max(1, drawing.height)
    name = drawing.cells.line(symbol.name.encode('ascii'))
    if name.width + 8 > width:
        name = Picture(name.width, [])
    width, height = min(width, 8192), min(max(height, 8), 8000)
    full, edge = (1 << width) - 1, 1 << width - 1 | 1 << width - 2 | 3
    found = Picture(width, [full if y < 2 or y >= height - 2 else edge for y in range(height)])
    if name.rows and name.height + 8 <= height:
        found = found.joined(name, (width - name.width) // 2, (height - name.height) // 2)
    return found
