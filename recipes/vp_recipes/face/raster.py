"""Dots of outlines: a dot is black where half of it is covered, in four lines a dot, each exact across."""
import math
from typing import Dict, Iterable, List, NamedTuple, Tuple

from .fitting import Fitted
from .outlines import Shape, outlines

# How many lines a row of dots has; from which sum of their covered parts on a dot is black.
FINE, HALF = 4, 2 - 4e-9
Span = Tuple[float, float]


class Dots(NamedTuple):
    """Black dots: the first column's place, the upper row's height above the baseline, how wide a row is, and the
    rows from the top, each a number whose highest bit is its leftmost dot."""

    left: int
    top: int
    width: int
    rows: List[int]


NONE = Dots(0, 0, 0, [])


def spans(shapes: Iterable[Shape], left: int, top: int, lines: int) -> List[List[Span]]:
    """Of each line from the top where shapes, which are convex, cover it."""
    found: List[List[Span]] = [[] for _ in range(lines)]
    for shape in shapes:
        points = [(x - left, (top - y) * FINE - 0.5) for x, y in shape]
        slopes = [(min(y0, y1), max(y0, y1), x0, y0, (x1 - x0) / (y1 - y0))
                  for (x0, y0), (x1, y1) in zip(points, points[1:] + points[:1]) if y0 != y1]
        if slopes:
            low, above = min(it[0] for it in slopes), max(it[1] for it in slopes)
            for n in range(max(0, math.ceil(low)), min(lines, math.ceil(above))):
                hits = [x + (n - y) * slope for first, last, x, y, slope in slopes if first <= n < last]
                found[n].append((min(hits), max(hits)))
    return found


def covered(line: List[Span], wide: int, partly: Dict[int, float]) -> int:
    """The dots that a line covers whole, as a number; how much it covers of others is added to `partly`."""
    full, end = 0, 0.0
    line.sort()
    for a, b in line:
        if b <= end:
            continue
        a = end if a < end else a
        end, first, last = b, int(a), int(b)
        if first == last:
            partly[first] = partly.get(first, 0.0) + b - a
        else:
            partly[first] = partly.get(first, 0.0) + first + 1 - a
            partly[last] = partly.get(last, 0.0) + b - last
            full |= (1 << wide - first - 1) - (1 << wide - last)
    return full


def row_of(lines: List[List[Span]], wide: int) -> int:
    """The black dots of a row's lines."""
    partly: Dict[int, float] = {}
    full = [covered(line, wide, partly) for line in lines]
    once = twice = 0
    for it in full:
        twice |= once & it
        once |= it
    for x, sum_ in partly.items():
        bit = 1 << wide - x - 1
        if not twice & bit and sum_ + sum(1 for it in full if it & bit) >= HALF:
            twice |= bit
    return twice


def trimmed(left: int, top: int, wide: int, rows: List[int]) -> Dots:
    """Dots without white rows and columns around them."""
    inked = [n for n, row in enumerate(rows) if row]
    if not inked:
        return NONE
    rows = rows[inked[0]:inked[-1] + 1]
    every = 0
    for row in rows:
        every |= row
    first, white = wide - every.bit_length(), (every & -every).bit_length() - 1
    return Dots(left + first, top - inked[0], wide - first - white, [row >> white for row in rows])


def drawn(strokes: Fitted) -> Dots:
    """The dots of strokes, y going up from the baseline."""
    shapes = [it for stroke, pen in strokes for it in outlines(stroke, pen, 8 + int(max(pen)))]
    if not shapes:
        return NONE
    xs, ys = [x for it in shapes for x, _ in it], [y for it in shapes for _, y in it]
    left, top = math.floor(min(xs)), math.ceil(max(ys))
    # (a column more than they reach)
    wide, high = math.ceil(max(xs)) - left + 1, top - math.floor(min(ys)) + 1
    lines = spans(shapes, left, top, high * FINE)
    return trimmed(left, top, wide, [row_of(lines[n * FINE:(n + 1) * FINE], wide) for n in range(high)])
