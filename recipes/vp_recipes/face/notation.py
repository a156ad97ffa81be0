"""The notation of skeletons, and the strokes that it says.

An em has 1,000 units, the baseline is 0 and y goes up: capitals and figures reach 720, small letters 530, tails -190.
A stem is 126 wide and a bar 106 thick, so that a stem with 62 of white beside it goes along x = 125, the bar upon the
baseline along y = 53, the one under 720 along 667; curves lie 10 farther out. A line is a letter, its advance and its
strokes, parted by `;`; a line that begins with blanks goes on with the one before.

    125,0 125,720       a line; an end is cut level, or upright where the stroke goes across
    vX,Y  hX,Y          a quarter of a curve: it begins upright (v) or level (h) and ends level or upright
    sX,Y  zX,Y          an S: it begins and ends upright (s) or level (z)
    cX,Y/X,Y/X,Y        a free curve by two controls
    <X,Y  >X,Y          an end of a slope whose cut has its left or right edge at X
    X,Y*.5              the pen is half as wide here     X,Y| X,Y_ X,Y^   the end is cut upright, level, square
    *.8                 (first) this stroke and those after it are thinner   o   (last) it is closed
    =A                  the strokes of A; then mirror, turnY or flipY (y becomes Y - y), %across,down, @right,up, *pen
"""
from typing import Callable, Dict, List, NamedTuple, Optional, Tuple

Pair = Tuple[float, float]
Place = Callable[[float, float], Pair]
# Of a character its advance, and its strokes as text.
Lines = Dict[str, Tuple[int, str]]
# The directions in which a stroke comes to a point and leaves it.
UP, ACROSS, SLOPE = 'up', 'across', 'slope'
# Of a curve how it begins and how it ends.
CURVES = {'v': (UP, ACROSS), 'h': (ACROSS, UP), 's': (UP, UP), 'z': (ACROSS, ACROSS)}


class Point(NamedTuple):
    """A point of a stroke: where, how the stroke comes to it, how wide the pen is there; `edge` is -1 or 1 where x is
    the left or right edge of a slope's end, `controls` are the two of a free curve."""

    x: float
    y: float
    kind: str
    weight: float
    edge: int
    controls: Tuple[Pair, ...]


class Stroke(NamedTuple):
    """Where a pen of some weight goes; `cuts` say how its first and its last end are cut."""

    points: Tuple[Point, ...]
    closed: bool
    weight: float
    cuts: Tuple[str, str]


Strokes = List[Stroke]


def named(word: str) -> str:
    """The character of a word, which is itself or its number."""
    return chr(int(word[2:], 16)) if word.startswith('U+') else word


def lines_of(*tables: str) -> Lines:
    """The lines of tables."""
    found: Lines = {}
    for line in '\n'.join(tables).replace('\n    ', ' ').split('\n'):
        if line:
            char, advance, text = (line.split(' ', 2) + [''])[:3]
            found[named(char)] = int(advance), text
    return found


def pair(text: str) -> Pair:
    x, y = text.split(',')
    return float(x), float(y)


def point_of(word: str, heavy: str) -> Point:
    """A point of its word, without what stands behind it."""
    kind = word[0] if word[0] in 'vhszc' else 'l'
    word = word[1:] if kind != 'l' else word
    edge = {'<': -1, '>': 1}.get(word[0], 0)
    pairs = [pair(it) for it in word.lstrip('<>').split('/')]
    return Point(*pairs[-1], kind, float(heavy or 1), edge, tuple(pairs[:-1]))


def stroke_of(text: str) -> Stroke:
    """A stroke of its text."""
    points: List[Point] = []
    closed, weight, cuts = False, 1.0, ['', '']
    for word in text.split():
        if word == 'o':
            closed = True
        elif word[0] == '*':
            weight = float(word[1:])
        else:
            word, _, heavy = word.partition('*')
            if word[-1] in '|_^':
                cuts[1 if points else 0] = word[-1]
                word = word[:-1]
            points.append(point_of(word, heavy))
    if closed and points[0][:2] == points[-1][:2]:
        points[0] = points[0]._replace(kind='')
    elif closed:
        points.append(points[0]._replace(kind='l'))
    return Stroke(tuple(points), closed, weight, (cuts[0], cuts[1]))


def changed(stroke: Stroke, place: Place, mirrored: bool = False) -> Stroke:
    """A stroke whose points are elsewhere."""
    points = []
    for it in stroke.points:
        x, y = place(it.x, it.y)
        controls = tuple(place(*control) for control in it.controls)
        points.append(it._replace(x=x, y=y, edge=-it.edge if mirrored else it.edge, controls=controls))
    return stroke._replace(points=tuple(points))


def moved(strokes: Strokes, right: float, up: float = 0) -> Strokes:
    return [changed(it, lambda x, y: (x + right, y + up)) for it in strokes]


def way(a: Point, b: Point, is_first: bool) -> str:
    """The direction at the first or the last end of the part from one point to the next."""
    if b.kind == 'l':
        return UP if a.x == b.x else ACROSS if a.y == b.y else SLOPE
    if b.kind == 'c':
        cx, cy = b.controls[0 if is_first else 1]
        end = a if is_first else b
        return UP if cx == end.x else ACROSS if cy == end.y else SLOPE
    return CURVES[b.kind][0 if is_first else 1]


def ways(stroke: Stroke, n: int) -> Tuple[Optional[str], Optional[str]]:
    """The directions in which a stroke comes to a point and leaves it, None at an open end."""
    points, last = stroke.points, len(stroke.points) - 1
    come = leave = None
    if n:
        come = way(points[n - 1], points[n], False)
    elif stroke.closed:
        come = way(points[-2], points[-1], False)
    if n < last:
        leave = way(points[n], points[n + 1], True)
    elif stroke.closed:
        leave = way(points[0], points[1], True)
    return come, leave
