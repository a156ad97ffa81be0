"""The face of receipts: its characters in cells of one width, of the same skeletons with a thinner pen."""
import functools
from typing import Dict, List, NamedTuple, Optional, Tuple

from ..drawing import block, box
from .fitting import Fitted, Size, fitted, near, shifted, size_of, unfitted
from .glyphs import parts_of, with_marks
from .letters import Letter, Letters
from .outlines import ends
from .raster import NONE, Dots, drawn
from .skeletons import IN_LARGE, IN_SMALL, LINES

Cell = Tuple[int, int]


class Setting(NamedTuple):
    """How letters stand in a cell: how many dots an em has, the baseline's row, the pen's dots up and down and across,
    and the letters' forms."""

    em: int
    baseline: int
    stem: int
    bar: int
    letters: Letters


SETTINGS: Dict[Cell, Setting] = {(12, 24): Setting(21, 19, 2, 2, Letters({**LINES, **IN_LARGE}, IN_LARGE)),
                                 (9, 17): Setting(15, 14, 2, 1, Letters({**LINES, **IN_SMALL}, IN_SMALL))}
# Signs up to this advance aren't made wider, letters from this one on may be a dot wider than others.
NARROW, WIDE = 320, 640
WIDTHS = (1.4, 1.3, 1.2, 1.15, 1.1, 1.05, *(n / 100 for n in range(100, 40, -5)))
# By how many dots a letter that isn't fitted is wider than a cell that it can't be fitted into.
FAR = 1
# By how many dots an em is less high where a mark would leave the cell.
LOWERED = (0, 1, 2)
# What goes on in the next cell, and is cut at the edge of its own.
JOINED = '⌠⌡'


def marked(found: Letter, strokes: Fitted, size: Size, narrower: float) -> Fitted:
    """A letter's fitted strokes with its marks; one that stands before it has a dot of white behind it."""
    if not (found.marks and found.marks[0].is_before):
        return with_marks(found, strokes, size, narrower)
    mark = fitted(found.marks[0].strokes, size)
    return strokes + shifted(mark, near(ends(strokes)[0]) - 1 - near(ends(mark)[1]))


def narrowed(found: Letter, setting: Setting, wide: int, lowered: int) -> Fitted:
    """The strokes of a letter as wide as a cell lets it be, a dot of white beside it, with the widest pen."""
    room = wide - (1 if found.advance >= WIDE else 2)
    for thinner in range(setting.stem):
        size = size_of(setting.em, setting.em - lowered, setting.stem - thinner, setting.bar)
        least, most = ends(unfitted(found.strokes(), size))
        wider: List[Tuple[int, Fitted]] = []
        for narrower in (1,) if found.advance <= NARROW else WIDTHS:
            if (most - least) * narrower > wide + FAR and narrower > WIDTHS[-1]:
                continue
            strokes = marked(found, parts_of(found, size, narrower), size, narrower)
            left, right = map(near, ends(strokes))
            if right - left <= room:
                return strokes
            wider.append((right - left, strokes))
        for room_now in range(room + 1, wide):
            for across, strokes in wider:
                if across <= room_now:
                    return strokes
    return strokes


@functools.lru_cache(2048)
def letter(char: str, cell: Cell) -> Optional[Dots]:
    """The dots of a letter in a cell, from the cell's corner, or None."""
    setting = SETTINGS[cell]
    found = setting.letters.standing(char)
    if found is None or not found.parts:
        return found and NONE
    for lowered in LOWERED:
        strokes = narrowed(found, setting, cell[0], lowered)
        left, right = map(near, ends(strokes))
        dots = drawn(shifted(strokes, (cell[0] - left - right) // 2))
        dots = dots._replace(top=setting.baseline - dots.top)
        if dots.top >= 0 or char in JOINED:
            break
    return dots


def rows(char: str, cell: Cell) -> Optional[List[int]]:
    """The rows of a character's cell, the leftmost dot highest, or None. What joins the next cell is drawing's."""
    joined = box(char, cell) or block(char, cell)
    if joined:
        return joined
    dots = letter(char, cell)
    if dots is None:
        return None
    wide, high = cell
    out = [0] * high
    shift = wide - dots.left - dots.width
    for y, row in enumerate(dots.rows, dots.top):
        if 0 <= y < high:
            out[y] = (row << shift if shift >= 0 else row >> -shift) & (1 << wide) - 1
    return out
