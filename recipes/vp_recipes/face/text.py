"""Lines of text as an image: each character stands where the advances before it end."""
from typing import Dict, Iterable, List, NamedTuple, Optional, Tuple

from .fitting import BELOW, EM, near
from .glyphs import Glyph, glyph
from .raster import Dots
from ..faults import Fault

# How wide a character is that the face lacks: so much stays white.
LACKING = 500
# The largest image.
MOST_DOTS = 1 << 29


class Placed(NamedTuple):
    """Dots whose first column and upper row are so far from the corner of the first line."""

    x: int
    y: int
    dots: Dots


def placed(lines: Iterable[str], wide: int, high: int, between: int) -> Tuple[List[Placed], int]:
    """The dots of each character, and how wide the widest line is."""
    known: Dict[str, Optional[Glyph]] = {}
    found, widest = [], 0
    for n, line in enumerate(lines):
        x, baseline = 0, n * (high + between) + high - near(BELOW * high / EM)
        for char in line:
            if char not in known:
                known[char] = glyph(char, wide, high)
            it = known[char]
            if it and it.dots.rows:
                found.append(Placed(x + it.dots.left, baseline - it.dots.top, it.dots))
            x += it.ahead if it else near(LACKING * wide / EM)
        widest = max(widest, x)
    return found, widest


def pbm(text: str, wide: int, high: int, between: int = 0) -> bytes:
    """An image of a text's lines, each as high as an em, with so many rows between, and of what goes beyond, as raw
    PBM."""
    lines = text.split('\n')
    found, widest = placed(lines, wide, high, between)
    left, top = min([0, *(it.x for it in found)]), min([0, *(it.y for it in found)])
    right = max([widest, *(it.x + it.dots.width for it in found)])
    bottom = max([len(lines) * (high + between) - between, *(it.y + len(it.dots.rows) for it in found)])
    across, down = max(1, right - left), bottom - top
    if across * down > MOST_DOTS:
        raise Fault(f'the text has {across:,} by {down:,} dots, more than is drawn', 2)
    rows = [bytearray((across + 7) // 8) for _ in range(down)]
    for x, y, dots in found:
        for n, row in enumerate(dots.rows, y - top):
            put(rows[n], x - left, dots.width, row)
    return b'P4\n%d %d\n' % (across, down) + b''.join(rows)


def put(row: bytearray, x: int, wide: int, dots: int) -> None:
    """Puts so many dots at a place of a row."""
    first, last = x // 8, (x + wide + 7) // 8
    octets = last - first
    dots = int.from_bytes(row[first:last], 'big') | dots << 8 * octets - x % 8 - wide
    row[first:last] = dots.to_bytes(octets, 'big')
