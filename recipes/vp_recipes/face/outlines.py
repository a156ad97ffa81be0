"""Outlines: the four-cornered pieces that a pen leaves along a stroke. It is wide where the stroke goes up or down,
thick where it goes across, and between the two on a slope; ends are cut level or upright."""
import functools
import math
from typing import Iterator, List, NamedTuple, Tuple

from .fitting import Fitted, Pen
from .notation import Pair, Point, Stroke

# How full a curve is: 0.55 is a circle's quarter, 1 a corner.
FULL = 0.60
# In how many steps a curve is drawn where only its ends are asked for.
COARSE = 8
Shape = List[Pair]


class Sample(NamedTuple):
    """A place on a stroke: where, its direction, of length 1, and how wide the pen is."""

    at: Pair
    way: Pair
    weight: float


Part = List[Sample]


def width(pen: Pen, nx: float, ny: float) -> float:
    return math.hypot(pen[0] * nx, pen[1] * ny)


def settled(stroke: Stroke, pen: Pen) -> Stroke:
    """A stroke whose ends at an edge are moved so that the cut's edge is there."""
    points = list(stroke.points)
    for _ in range(3):
        for n, other in ((0, 1), (len(points) - 1, -2)):
            if points[n].edge:
                source, p, q = stroke.points[n], points[n], points[other]
                qx, qy = q.controls[-1 if n == 0 else 0] if q.controls else (q.x, q.y)
                dx, dy = p.x - qx, p.y - qy
                long = math.hypot(dx, dy) or 1
                half = width(pen, dy / long, dx / long) * p.weight / 2 / max(abs(dy / long), 0.2)
                points[n] = p._replace(x=source.x - source.edge * half)
    return stroke._replace(points=tuple(points))


def controls(a: Point, b: Point) -> Tuple[Pair, Pair]:
    """The two controls of the curve from one point to the next."""
    if b.kind == 'c':
        return b.controls[0], b.controls[1]
    dx, dy = b.x - a.x, b.y - a.y
    first = (a.x, a.y + FULL * dy) if b.kind in 'vs' else (a.x + FULL * dx, a.y)
    last = (b.x, b.y - FULL * dy) if b.kind in 'hs' else (b.x - FULL * dx, b.y)
    return first, last


@functools.lru_cache(None)
def shares(steps: int) -> List[Tuple[float, ...]]:
    """Of each step of a curve: how far it is, and the shares of the four points in its place and of the three ways
    between them in its direction."""
    found: List[Tuple[float, ...]] = []
    for n in range(steps + 1):
        t = n / steps
        u = 1 - t
        found.append((t, u ** 3, 3 * u * u * t, 3 * u * t * t, t ** 3, u * u, 2 * u * t, t * t))
    return found


def curve(a: Point, b: Point, steps: int) -> Part:
    """The samples of the curve from one point to the next."""
    (px, py), (sx, sy), ((qx, qy), (rx, ry)) = a[:2], b[:2], controls(a, b)
    found = []
    for t, one, two, three, four, first, second, third in shares(steps):
        at = one * px + two * qx + three * rx + four * sx, one * py + two * qy + three * ry + four * sy
        wx = first * (qx - px) + second * (rx - qx) + third * (sx - rx)
        wy = first * (qy - py) + second * (ry - qy) + third * (sy - ry)
        if math.hypot(wx, wy) < 1e-6:
            wx, wy = b.x - a.x, b.y - a.y + 1e-9
        long = math.hypot(wx, wy)
        found.append(Sample(at, (wx / long, wy / long), a.weight + (b.weight - a.weight) * t))
    return found


def parts(stroke: Stroke, steps: int) -> Iterator[Part]:
    """The samples of each part of a stroke, from point to point."""
    for a, b in zip(stroke.points, stroke.points[1:]):
        if b.kind != 'l':
            yield curve(a, b, steps)
            continue
        long = math.hypot(b.x - a.x, b.y - a.y)
        if long:
            way = (b.x - a.x) / long, (b.y - a.y) / long
            yield [Sample((a.x, a.y), way, a.weight), Sample((b.x, b.y), way, b.weight)]


def sides(it: Sample, pen: Pen) -> Tuple[Pair, Pair]:
    """The pen's two edges at a place."""
    (x, y), (tx, ty), weight = it
    half = width(pen, ty, tx) * weight / 2
    return (x - ty * half, y + tx * half), (x + ty * half, y - tx * half)


def cut(it: Sample, pen: Pen, kind: str) -> Tuple[Pair, Pair]:
    """The two corners of a stroke's end: cut level, upright or square."""
    (x, y), (tx, ty), _ = it

    def slid(corner: Pair) -> Pair:
        px, py = corner
        slide = 0.0
        if kind == '_' or kind == '' and abs(ty) > 0.34:
            slide = (y - py) / ty if abs(ty) > 0.1 else 0.0
        elif kind in ('|', ''):
            slide = (x - px) / tx if abs(tx) > 0.1 else 0.0
        return px + tx * slide, py + ty * slide
    one, other = sides(it, pen)
    return slid(one), slid(other)


def corner(last: Sample, first: Sample, pen: Pen) -> List[Shape]:
    """What fills the outer side where one part ends and the next begins with a turn."""
    at, one, two = last.at, last.way, first.way
    turn = one[0] * two[1] - one[1] * two[0]
    if abs(turn) <= 0.05:
        return []
    side = 1 if turn > 0 else 0
    p, q = sides(last, pen)[side], sides(first, pen)[side]
    t = ((q[0] - p[0]) * two[1] - (q[1] - p[1]) * two[0]) / turn
    tip = (p[0] + one[0] * t, p[1] + one[1] * t)
    if math.hypot(tip[0] - at[0], tip[1] - at[1]) > 2 * max(pen):
        tip = ((p[0] + q[0]) / 2, (p[1] + q[1]) / 2)
    return [[at, p, tip, q]]


def outlines(stroke: Stroke, pen: Pen, steps: int) -> Iterator[Shape]:
    """The pieces of a stroke."""
    stroke = settled(stroke, pen)
    found = list(parts(stroke, steps))
    for n, part in enumerate(found):
        edges = [sides(it, pen) for it in part]
        if not stroke.closed and n == 0:
            edges[0] = cut(part[0], pen, stroke.cuts[0])
        if not stroke.closed and n == len(found) - 1:
            edges[-1] = cut(part[-1], pen, stroke.cuts[1])
        for (a, b), (c, d) in zip(edges, edges[1:]):
            yield [a, c, d, b]
    for part, after in zip(found, found[1:] + (found[:1] if stroke.closed else [])):
        yield from corner(part[-1], after[0], pen)


def ends(found: Fitted) -> Tuple[float, float]:
    """How far to the left and to the right strokes go."""
    xs = [x for stroke, pen in found for shape in outlines(stroke, pen, COARSE) for x, _ in shape]
    return min(xs), max(xs)
