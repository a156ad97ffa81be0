"""Fits strokes to whole dots: stems, bars and the heights of edges come to lie on them, equal gaps stay equal."""
import math
from typing import Callable, Dict, Iterable, List, NamedTuple, Optional, Set, Tuple

from .notation import ACROSS, SLOPE, UP, Stroke, Strokes, changed, ways

# Of an em: its units, how high capitals and small letters are, how deep tails go, how far the baseline is above the
# lower edge, how wide the full pen is where it goes up or down, and how thick where it goes across.
EM, CAP, X, DEEP, BELOW = 1000, 720, 530, -190, 230
STEM, BAR = 126, 106
# Heights that edges keep, and how far a curve may go beyond them.
LEVELS, BEYOND = (DEEP, 0, X, CAP), 15
# An end that is farther than this from a bar keeps a dot between.
APART = 12
# (where, weight); (where, the other end)
Held = Tuple[float, float]
Scale = Callable[[float], float]
Pen = Tuple[float, float]
Fitted = List[Tuple[Stroke, Pen]]


class Size(NamedTuple):
    """How many dots a unit has across and up, and how many the full pen has."""

    x: float
    y: float
    stem: float
    bar: float


class Holds(NamedTuple):
    """The places that are fitted: stems and bars with their weight, upright edges, level ones with the other end."""

    stems: List[Held]
    uprights: List[float]
    bars: List[Held]
    levels: List[Held]


def near(value: float) -> int:
    return math.floor(value + 0.5)


def holds(strokes: Strokes) -> Holds:
    stems: Set[Held] = set()
    bars: Set[Held] = set()
    uprights: Set[float] = set()
    levels: Set[Held] = set()
    for stroke in strokes:
        for n, point in enumerate(stroke.points):
            come, leave = ways(stroke, n)
            if UP in (come, leave):
                stems.add((point.x, stroke.weight))
            if point.kind == 's':
                bars.add(((point.y + stroke.points[n - 1].y) / 2, stroke.weight))
            if ACROSS in (come, leave):
                bars.add((point.y, stroke.weight))
            if point.edge:
                uprights.add(point.x)
            if not (come and leave):
                if ACROSS in (come, leave):
                    uprights.add(point.x)
                else:
                    levels.add((point.y, stroke.points[n - 1 if n else 1].y))
    return Holds(sorted(stems), sorted(uprights), sorted(bars), sorted(levels))


def size_of(wide: float, high: float, stem: Optional[float] = None, bar: Optional[float] = None) -> Size:
    """A size of `wide` and `high` dots an em; its full pen is the face's own or another."""
    return Size(wide / EM, high / EM, stem or STEM * wide / EM, bar or BAR * high / EM)


def whole(full: float, weight: float = 1.0) -> int:
    """How many dots a pen has: so many of those of the full one."""
    return max(1, near(max(1, near(full)) * weight))


def hidden(at: float, thick: Iterable[Held], unit: float) -> bool:
    return any(abs(at - it) <= unit * weight / 2 + 1 for it, weight in thick)


def along(known: Dict[float, float], scale: float) -> Scale:
    """A function of places between held ones."""
    held = sorted(known.items())

    def place(value: float) -> float:
        if not held:
            return value * scale
        if value <= held[0][0]:
            return held[0][1] + (value - held[0][0]) * scale
        for (a, to_a), (b, to_b) in zip(held, held[1:]):
            if value <= b:
                return to_a + (value - a) * (to_b - to_a) / (b - a)
        return held[-1][1] + (value - held[-1][0]) * scale
    return place


def across(found: Holds, size: Size, narrower: float = 1) -> Scale:
    """Where x goes: each stem on whole dots, equal gaps equal, a gap never closed."""
    scale = size.x * narrower
    held: Dict[float, float] = {}
    before: Optional[Tuple[float, int, float, int]] = None
    for x, weight in found.stems:
        wide = whole(size.stem, weight)
        if before is None:
            left = near(x * scale - wide / 2)
        else:
            x0, left0, weight0, wide0 = before
            least = wide0 + 1 if x - x0 > STEM * (weight + weight0) / 2 * 1.2 else 0
            left = left0 + max(near((x - x0) * scale + (wide0 - wide) / 2), least)
        held[x] = left + wide / 2
        before = x, left, weight, wide
    place = along(held, scale)
    edges = {it: near(place(it)) for it in found.uprights if not hidden(it, found.stems, STEM)}
    return along({**held, **edges}, scale)


def level(value: float, scale: float) -> Optional[int]:
    """Where an edge at a level goes, or one a little beyond it; None where no level is near."""
    for it in LEVELS:
        beyond = value - it if it > 0 else it - value
        if -3 <= beyond <= BEYOND:
            more = near(beyond * scale) if beyond * scale > 0.7 else 0
            return near(it * scale) + (more if it > 0 else -more)
    return None


class Uprights:
    """Where y goes for bars and level edges: edges at the levels on theirs, other bars on whole dots between, a dot of
    white kept at ends."""

    def __init__(self, found: Holds, size: Size) -> None:
        self.bars, self.scale = found.bars, size.y
        self.high = {y: whole(size.bar, weight) for y, weight in found.bars}
        self.held: Dict[float, float] = {}
        self.at_levels()
        free = (it for it in LEVELS if all(abs(it - y) > BAR * weight / 2 + BEYOND for y, weight in self.bars))
        self.sure: Dict[float, float] = {**{it: near(it * self.scale) for it in free}, **self.held}
        self.between()
        self.ends(found.levels)

    def at_levels(self) -> None:
        for y, weight in self.bars:
            low, top = level(y - BAR * weight / 2, self.scale), level(y + BAR * weight / 2, self.scale)
            if low is not None and (y < X / 2 or top is None):
                self.held[y] = low + self.high[y] / 2
            elif top is not None:
                self.held[y] = top - self.high[y] / 2

    def between(self) -> None:
        held, high, place = self.held, self.high, along(self.sure, self.scale)
        for y, weight in self.bars:
            if y not in held:
                at = near(place(y) - high[y] / 2) + high[y] / 2
                apart = {it: (high[y] + high[it]) / 2 + 1 for it, other in self.bars
                         if abs(it - y) > BAR * (weight + other) / 2 * 1.1}
                over = [held[it] - apart[it] for it in apart if it in held and it > y]
                under = [held[it] + apart[it] for it in apart if it in held and it < y]
                held[y] = max([min([at, *over]), *under])

    def ends(self, levels: Iterable[Held]) -> None:
        place = along({**self.sure, **self.held}, self.scale)
        for it, own in levels:
            if not hidden(it, self.bars, BAR):
                at = level(it, self.scale)
                self.held[it] = self.kept_apart(it, own, near(place(it))) if at is None else at

    def kept_apart(self, it: float, own: float, at: int) -> int:
        """Where an end goes that would be here, with a dot of white to each bar."""
        for y, weight in self.bars:
            if y != own and it - y > BAR * weight / 2 + APART:
                at = max(at, math.ceil(self.held[y] + self.high[y] / 2 + 1))
            if y != own and y - it > BAR * weight / 2 + APART:
                at = min(at, math.floor(self.held[y] - self.high[y] / 2 - 1))
        return at

    def place(self) -> Scale:
        free = {it: at for it, at in self.sure.items() if all(abs(it - y) > 30 for y in self.held)}
        return along({**free, **self.held}, self.scale)


def pen_of(stroke: Stroke, size: Size) -> Pen:
    """The pen of a stroke in dots: whole ones, but half as far from its own where the stroke has slopes alone."""
    if any(it not in (SLOPE, None) for n in range(len(stroke.points)) for it in ways(stroke, n)):
        return whole(size.stem, stroke.weight), whole(size.bar, stroke.weight)
    stem, bar = (max(1, (max(1, near(full)) + full) / 2 * stroke.weight) for full in (size.stem, size.bar))
    return stem, bar


def fitted(strokes: Strokes, size: Size, narrower: float = 1) -> Fitted:
    """Strokes in dots, with their pens."""
    found = holds(strokes)
    to_x, to_y = across(found, size, narrower), Uprights(found, size).place()
    return [(changed(it, lambda x, y: (to_x(x), to_y(y))), pen_of(it, size)) for it in strokes]


def unfitted(strokes: Strokes, size: Size) -> Fitted:
    """Strokes in dots, none moved."""
    return [(changed(it, lambda x, y: (x * size.x, y * size.y)), (size.stem * it.weight, size.bar * it.weight))
            for it in strokes]


def shifted(found: Fitted, right: float, up: float = 0) -> Fitted:
    return [(changed(it, lambda x, y: (x + right, y + up)), pen) for it, pen in found]
