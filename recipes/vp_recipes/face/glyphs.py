"""Glyphs: the advance and the dots of a character at a size."""
from typing import List, NamedTuple, Optional

from . import boxes
from .fitting import BELOW, CAP, EM, Fitted, Size, X, across, fitted, holds, near, shifted, size_of, unfitted
from .letters import PRINTED, Letter
from .outlines import ends
from .raster import NONE, Dots, drawn

# A letter with more white beside it than this keeps a dot of it at any size; by how much it gets narrower for that.
SPARED, NARROWER = 50, (1, .95, .9, .85, .8)
# How far a mark lies above the one that it stands on.
STEP = 160


class Glyph(NamedTuple):
    """A character's advance in units and in dots, and its dots."""

    advance: float
    ahead: int
    dots: Dots


def with_marks(found: Letter, strokes: Fitted, size: Size, narrower: float = 1) -> Fitted:
    """A letter's fitted strokes, and its marks on whole dots over their middles."""
    to_x = across(holds(found.parts[0]), size, narrower)
    for mark in found.marks:
        own = fitted(mark.strokes, size)
        xs = [point.x for it, _ in own for point in it.points]
        middle = (min(xs) + max(xs)) / 2 if len(own) > 1 or own[0][0].closed else 0
        up = near(CAP * size.y) - near(X * size.y) if mark.is_high else 0
        strokes = strokes + shifted(own, near(to_x(mark.middle) - middle), up + mark.under * near(STEP * size.y))
    return strokes


def parts_of(found: Letter, size: Size, narrower: float = 1) -> Fitted:
    return [it for part in found.parts for it in fitted(part, size, narrower)]


def printed(found: Letter, wide: int, high: int) -> Dots:
    """The dots of a letter of the face."""
    size = size_of(wide, high)
    own = found.advance * wide / EM
    ahead = near(own)
    least, most = ends(unfitted(found.strokes(), size))
    for narrower in NARROWER:
        strokes = parts_of(found, size, narrower)
        left, right = map(near, ends(strokes))
        if right - left < ahead or own - (most - least) <= SPARED * size.x:
            break
    drift = (ahead - left - right - (own - least - most)) / 2
    strokes = with_marks(found, strokes, size, narrower)
    return drawn(shifted(strokes, near(drift) if abs(drift) >= 0.75 else 0))


def glyph(char: str, wide: int, high: int) -> Optional[Glyph]:
    """A character in a size of so many dots an em, or None."""
    box = boxes.rows(char, wide, high)
    if box:
        return Glyph(boxes.ADVANCE, box.width, box._replace(top=high - near(BELOW * high / EM)))
    found = PRINTED.standing(char)
    if found is None:
        return None
    ahead = near(found.advance * wide / EM)
    return Glyph(found.advance, ahead, printed(found, wide, high) if found.parts else NONE)


def has(char: str) -> bool:
    return PRINTED.of(char) is not None or boxes.has(char)


def every() -> List[str]:
    """Every character that the face has."""
    codes = [*range(0x20, 0x600), *range(0x1E00, 0x1F00), *range(0x2000, 0x2700)]
    return [chr(it) for it in codes if has(chr(it))]
