"""Lines of boxes, blocks and shades by their Unicode names: they join their neighbours at any size."""
import unicodedata
from typing import Dict, List, NamedTuple, Optional, Tuple

from .fitting import EM, near
from .raster import Dots

# A cell's advance, how thick light and heavy lines are, how far the two of a double line lie apart.
ADVANCE, LIGHT, HEAVY, APART = 560, 70, 140, 150
# Of blocks which part of a cell is black: its top, bottom, left and right.
BLOCKS: Dict[str, Tuple[float, float, float, float]] = {
    '▀': (0, .5, 0, 1), '█': (0, 1, 0, 1), '▐': (0, 1, .5, 1), '▔': (0, .125, 0, 1), '▕': (0, 1, .875, 1),
    **{chr(0x2580 + n): (1 - n / 8, 1, 0, 1) for n in range(1, 8)},
    **{chr(0x2590 - n): (0, 1, 0, n / 8) for n in range(1, 8)}}
# Of shades which dots of two by two are black.
SHADES = {'░': ((0, 0),), '▒': ((0, 0), (1, 1)), '▓': ((0, 0), (1, 1), (0, 1))}
# What an arm is.
NO_LINE, ONE, TWO, THICK = 0, 1, 2, 3
KINDS = {'LIGHT': ONE, 'SINGLE': ONE, 'HEAVY': THICK, 'DOUBLE': TWO}
SIDES = {'HORIZONTAL': 'lr', 'VERTICAL': 'ud', 'LEFT': 'l', 'RIGHT': 'r', 'UP': 'u', 'DOWN': 'd'}
DASHES = {'DOUBLE': 2, 'TRIPLE': 3, 'QUADRUPLE': 4}
# What part of a dashed line is white.
WHITE = .35
# The slopes of diagonals: up to the right, down to the right.
RISING, FALLING = 'UPPER RIGHT', 'UPPER LEFT'


class Form(NamedTuple):
    """A line's arms by side, how many dashes it has, 0 for none, whether it goes round, which diagonals it has."""

    arms: Dict[str, int]
    dashes: int = 0
    is_round: bool = False
    diagonals: Tuple[str, ...] = ()


def form_of(char: str) -> Optional[Form]:
    """The form of a line of boxes, by its name."""
    name = unicodedata.name(char)
    words = name.split()[2:]
    if 'DIAGONAL' in words:
        return Form({}, 0, False, tuple(it for it in (RISING, FALLING) if it in name or 'CROSS' in words))
    if 'DASH' in words:
        return Form(dict.fromkeys(SIDES[words[3]], KINDS[words[0]]), DASHES[words[1]])
    found = arms([it for it in words if it != 'ARC'])
    return Form(found, 0, 'ARC' in words) if found else None


def arms(words: List[str]) -> Optional[Dict[str, int]]:
    """What goes left, right, up and down from the middle, by the words of a name."""
    found: Dict[str, int] = {}
    waiting: List[str] = []
    kind, after = ONE, words[-1] in KINDS
    for word in words:
        if word in KINDS:
            kind = KINDS[word]
            if after:
                found.update(dict.fromkeys(waiting, kind))
            waiting = []
        elif word in SIDES:
            waiting += SIDES[word]
            found.update({} if after else dict.fromkeys(SIDES[word], kind))
        elif word != 'AND':
            return None
    return found if not waiting or not after else None


class Cell:
    """The dots of a cell: rows as numbers, the leftmost dot highest."""

    def __init__(self, wide: int, high: int) -> None:
        self.wide, self.high, self.rows = wide, high, [0] * high

    def fill(self, top: int, bottom: int, left: int, right: int) -> None:
        left, right = max(left, 0), min(right, self.wide)
        if left < right:
            for y in range(max(top, 0), min(bottom, self.high)):
                self.rows[y] |= (1 << self.wide - left) - (1 << self.wide - right)

    def dots(self) -> Dots:
        return Dots(0, self.high, self.wide, self.rows)


class Rule(NamedTuple):
    """Lines of one direction: how thick a light one is, how much more a heavy one, where a single one begins, and how
    far the two of a double line are from there."""

    thin: int
    fat: int
    at: int
    half: int

    def places(self, kind: int) -> List[int]:
        """Where lines of a kind begin, from where a single one does."""
        return [] if kind == NO_LINE else [-self.half, self.half] if kind == TWO else [0]


def rule_of(em: int, long: int) -> Rule:
    """The lines of a cell that is so long across them."""
    thin, gap = max(1, near(LIGHT * em / EM)), max(2, near(APART * em / EM))
    fat = max(thin + 1, near(HEAVY * em / EM)) - thin
    return Rule(thin, fat, (long - thin) // 2, (gap + thin) // 2)


class Lines:
    """Draws a line of boxes into a cell: `level` and `upright` are its lines, `of` has its arms."""

    def __init__(self, cell: Cell, form: Form, wide: int, high: int) -> None:
        self.cell, self.form = cell, form
        self.level, self.upright = rule_of(high, cell.high), rule_of(wide, cell.wide)
        self.of = {side: form.arms.get(side, NO_LINE) for side in 'lrud'}

    def reach(self, side: str, line: int, ways: str, across: Rule) -> int:
        """Where a line begins at the middle: at the line of a crossing pair that it meets first or last."""
        one, other = self.of[ways[0]], self.of[ways[1]]
        crossing = across.places(max(one, other))
        sign = 1 if side in 'rd' else -1
        if len(crossing) < 2:
            return across.at
        first, last = sorted((it + across.at for it in crossing), key=lambda it: it * sign)
        if line:
            return last if (one if line < 0 else other) else first
        if self.of[side] == ONE:
            return last if one and other else first
        return across.at if one and other else first

    def draw(self) -> None:
        if self.form.is_round:
            self.round()
        elif self.form.diagonals:
            self.diagonals()
        else:
            for side in 'lrud':
                for line in (self.level if side in 'lr' else self.upright).places(self.of[side]):
                    self.arm(side, line)
        if self.form.dashes:
            self.dash()

    def arm(self, side: str, line: int) -> None:
        """One line from an edge of the cell to the middle."""
        is_level = side in 'lr'
        own, across = (self.level, self.upright) if is_level else (self.upright, self.level)
        more = own.fat if self.of[side] == THICK else 0
        at = self.reach(side, line, 'ud' if is_level else 'lr', across)
        first = own.at + line - more // 2
        last, long = first + own.thin + more, self.cell.wide if is_level else self.cell.high
        start, end = (0, at + across.thin) if side in 'lu' else (at, long)
        if is_level:
            self.cell.fill(first, last, start, end)
        else:
            self.cell.fill(start, end, first, last)

    def dash(self) -> None:
        """Takes the gaps out of a line."""
        is_level = self.of['l'] != NO_LINE
        long, count = self.cell.wide if is_level else self.cell.high, self.form.dashes
        gap = max(1, near(WHITE * long / count))
        black = 0
        for n in range(count):
            first, last = n * long // count + gap // 2, (n + 1) * long // count - (gap - gap // 2)
            black |= (1 << long - first) - (1 << long - max(last, first + 1))
        for y, row in enumerate(self.cell.rows):
            self.cell.rows[y] = row & black if is_level else row if black >> long - 1 - y & 1 else 0

    def round(self) -> None:
        """A corner that is a quarter of a circle, with what is left of its two arms."""
        level, upright, cell = self.level, self.upright, self.cell
        x, y = upright.at + upright.thin / 2, level.at + level.thin / 2
        far = int(min(cell.wide - x, cell.high - y) * .9)
        right, down = 1 if self.of['r'] else -1, 1 if self.of['d'] else -1
        at_x, at_y = x + right * far, y + down * far
        for row in range(cell.high):
            for column in range(cell.wide):
                dx, dy = column + .5 - at_x, row + .5 - at_y
                is_inside = dx * right < 0 and dy * down < 0
                if is_inside and abs((dx * dx + dy * dy) ** .5 - far) <= max(level.thin, upright.thin) / 2:
                    cell.fill(row, row + 1, column, column + 1)
        first, last = (int(at_x), cell.wide) if right > 0 else (0, int(at_x + 1))
        cell.fill(level.at, level.at + level.thin, first, last)
        first, last = (int(at_y), cell.high) if down > 0 else (0, int(at_y + 1))
        cell.fill(first, last, upright.at, upright.at + upright.thin)

    def diagonals(self) -> None:
        """Slopes from corner to corner."""
        wide, high = self.cell.wide, self.cell.high
        half = self.upright.thin * ((wide / high) ** 2 + 1) ** .5 / 2
        for y in range(high):
            for way in self.form.diagonals:
                at = (y + .5) * wide / high
                middle = at if way == FALLING else wide - at
                self.cell.fill(y, y + 1, near(middle - half), max(near(middle + half), near(middle - half) + 1))


def has(char: str) -> bool:
    return char in BLOCKS or char in SHADES or '\u2500' <= char <= '\u257f' and form_of(char) is not None


def rows(char: str, wide: int, high: int) -> Optional[Dots]:
    """The dots of a line, a block or a shade as high as its cell, its top there, or None."""
    if not has(char):
        return None
    cell = Cell(near(ADVANCE * wide / EM), high)
    across = cell.wide
    if char in BLOCKS:
        top, bottom, left, right = BLOCKS[char]
        cell.fill(near(top * high), near(bottom * high), near(left * across), near(right * across))
    elif char in SHADES:
        for y in range(high):
            bits = ('1' if (x % 2, y % 2) in SHADES[char] else '0' for x in range(across))
            cell.rows[y] = int(''.join(bits) or '0', 2)
    else:
        form = form_of(char)
        if form:
            Lines(cell, form, wide, high).draw()
    return cell.dots()
