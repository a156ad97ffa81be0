"""Two papers side by side: what differs, in words and as a picture.

The strips of a receipt are aligned, so that a line that was put in or left out moves no other.
"""
from __future__ import annotations

import difflib
from itertools import accumulate
from typing import IO, Dict, Iterable, List, NamedTuple, Optional, Sequence, Set, Tuple

from .png import Png

# What a picture shows, by the places of the names.
PALETTE = {'white': (255, 255, 255), 'black': (0, 0, 0), 'outside': (214, 218, 224), 'same': (150, 150, 150),
           'lost': (214, 30, 50), 'new': (0, 90, 220), 'near': (255, 240, 170)}
COLOURS = list(PALETTE)
# Dots between the parts of a picture, and to where around a dot that differs the ground is yellow; rows at most, and
# those above the first difference where they are more.
GAP, HALO, MOST_ROWS, ROWS_BEFORE = 16, 6, 4000, 200
# Where several strips changed, so many rows are compared to find which became which.
MOST_COMPARED = 1000000
# A row is its width and a number with a bit for each dot, the leftmost highest; a strip is an image's rows.
Row = Tuple[int, int]
Strip = Tuple[Row, ...]


class Strips:
    """The images of a paper as strips."""

    def __init__(self, images: Iterable[Tuple[int, Iterable[bytes]]]) -> None:
        self.strips: List[Strip] = []
        self.widths: Set[int] = set()
        for width, rows in images:
            self.widths.add(width)
            self.strips.append(tuple((width, int.from_bytes(row, 'big') >> -width % 8) for row in rows))
        self.rows = [row for strip in self.strips for row in strip]
        self.heights = [len(strip) for strip in self.strips]


class Place(NamedTuple):
    """A dot of the paper that is printed: its row from the paper's begin, and how far it is from the left."""

    row: int
    left: int


def ink(dots: int) -> int:
    return bin(dots).count('1')


def weight(one: Strip, other: Strip) -> float:
    """How much two strips differ: their other dots, and two for each row that only one has."""
    if one and other and one[0][0] != other[0][0]:
        return float('inf')
    both = min(len(one), len(other))
    return (sum(ink(a ^ b) for (_, a), (_, b) in zip(one, other)) + 2 * abs(len(one) - len(other))
            + sum(ink(dots) for _, dots in one[both:] + other[both:]))


def paired(old: Sequence[Strip], new: Sequence[Strip]) -> List[Tuple[Strip, Strip]]:
    """Strips that changed, each beside the one that it became, with () where it has none: what differs least."""
    if sum(map(len, old)) * len(new) + sum(map(len, new)) * len(old) > MOST_COMPARED:
        longer = max(len(old), len(new))
        blank: List[Strip] = [()]
        return list(zip([*old, *blank * (longer - len(old))], [*new, *blank * (longer - len(new))]))
    best: Dict[Tuple[int, int], Tuple[float, int, int]] = {}
    lost, added = [weight(it, ()) for it in old], [weight((), it) for it in new]
    for i in range(len(old), -1, -1):
        for j in range(len(new), -1, -1):
            ways: List[Tuple[float, int, int]] = []
            if i < len(old) and j < len(new):
                ways.append((weight(old[i], new[j]) + best[i + 1, j + 1][0], 1, 1))
            if i < len(old):
                ways.append((lost[i] + best[i + 1, j][0], 1, 0))
            if j < len(new):
                ways.append((added[j] + best[i, j + 1][0], 0, 1))
            best[i, j] = min(ways, key=lambda it: it[0], default=(0, 0, 0))
    pairs: List[Tuple[Strip, Strip]] = []
    i = j = 0
    while i < len(old) or j < len(new):
        _, down, right = best[i, j]
        pairs.append((old[i] if down else (), new[j] if right else ()))
        i, j = i + down, j + right
    return pairs


def aligned(expected: Strips, got: Strips) -> List[Tuple[Strip, Strip]]:
    """The strips of two papers side by side, so that one that was put in or left out moves no other."""
    if expected.rows == got.rows:
        return [(tuple(expected.rows), tuple(got.rows))]
    pairs: List[Tuple[Strip, Strip]] = []
    match = difflib.SequenceMatcher(None, expected.strips, got.strips, len(got.strips) > 2000)
    for kind, a, b, c, d in match.get_opcodes():
        old, new = expected.strips[a:b], got.strips[c:d]
        pairs += zip(old, new) if kind == 'equal' else paired(old, new)
    return pairs


def beside(strip: Strip, y: int, width: int) -> Row:
    """A row of a strip as wide as the picture's part, and which of its places are paper."""
    if y >= len(strip):
        return 0, 0
    own, dots = strip[y]
    return dots << width - own, (1 << own) - 1 << width - own


def rows_of(numbers: Sequence[int]) -> str:
    return f'row {numbers[0]:,}' if numbers[0] == numbers[-1] else f'rows {numbers[0]:,} to {numbers[-1]:,}'


def strips_of(heights: Sequence[int]) -> str:
    rows = f'{sum(heights):,} rows' if sum(heights) > 1 else '1 row'
    return f'1 strip of {rows}' if len(heights) == 1 else f'{len(heights):,} strips of {rows} in all'


def spread(dots: int, width: int) -> int:
    """The places up to HALO to the left or right of a dot."""
    near = 0
    for k in range(-HALO, HALO + 1) if dots else ():
        near |= dots << k if k > 0 else dots >> -k
    return near & (1 << width) - 1


def pixels(width: int, layers: Sequence[int], colours: Sequence[str]) -> bytes:
    """A byte for each place: the colour by the number whose bits the layers are, the lowest first."""
    total = 0
    for n, layer in enumerate(layers):
        digits = f'{layer:0{width}b}'.encode().translate(bytes(48) + b'\0\1' + bytes(206))
        total += int.from_bytes(digits, 'big') << n
    return total.to_bytes(width, 'big').translate(bytes(map(COLOURS.index, colours)).ljust(256, b'\0'))


class Compared:
    """Two papers, aligned: `said` is what differs in words, `first` where the first dot differs that is printed now."""

    def __init__(self, expected: Strips, got: Strips, above: int = 0) -> None:
        """Above what is compared stand so many rows that are the same."""
        self.expected, self.got, self.above = expected, got, above
        self.width = max(expected.widths | got.widths, default=8)
        self.both: List[Tuple[int, int, int, int]] = []
        # of each row of the picture the row of what is printed; strips that are added or lost; rows that changed
        self.places: List[int] = []
        self.added: List[Tuple[int, int]] = []
        self.lost: List[Tuple[int, int]] = []
        self.changed: List[int] = []
        self.dots = 0
        self.align()
        self.differs = [e ^ g for e, _, g, _ in self.both]
        self.spreads = [spread(d, self.width) | on_e ^ on_g for d, (_, on_e, _, on_g) in zip(self.differs, self.both)]
        found = [y for y, it in enumerate(self.spreads) if it]
        self.top = max(0, found[0] - ROWS_BEFORE) if found and len(self.both) > MOST_ROWS else 0
        self.end = min(len(self.both), self.top + MOST_ROWS)
        self.size = 3 * self.width + 2 * GAP, self.end - self.top
        self.said = '; '.join(self.words())

    def align(self) -> None:
        at = self.above
        for old, new in aligned(self.expected, self.got):
            for y in range(max(len(old), len(new))):
                row = *beside(old, y, self.width), *beside(new, y, self.width)
                if old and new and row[0] != row[2]:
                    self.changed.append(at + min(y, len(new)))
                    self.dots += ink(row[0] ^ row[2])
                self.both.append(row)
                self.places.append(at + min(y, len(new)))
            if not old or not new:
                (self.lost if old else self.added).append((at, len(old or new)))
            at += len(new)
        self.both = self.both or [(0, 0, 0, 0)]
        self.places = self.places or [at]

    @property
    def first(self) -> Optional[Place]:
        for dots, (_, _, now, _), row in zip(self.differs, self.both, self.places):
            if dots & now:
                return Place(row, self.width - (dots & now).bit_length())
        return None

    def words(self) -> List[str]:
        """What differs, in words."""
        expected, got, said = self.expected, self.got, []
        if self.changed:
            where = rows_of(self.changed)
            said.append(f'{self.dots:,} dots differ, in {where}' if self.dots > 1 else f'1 dot differs, in {where}')
        for what, strips in ('added', self.added), ('missing', self.lost):
            if strips:
                many = 'is' if len(strips) == 1 else 'are'
                said.append(f'{strips_of([height for _, height in strips])} {many} {what}, at row {strips[0][0]:,}')
        if not said:
            said.append('all dots are the same')
        if len(expected.rows) != len(got.rows):
            counts = (len(it.rows) + self.above for it in (expected, got))
            said.append('{:,} rows are expected and {:,} printed'.format(*counts))
        elif expected.heights != got.heights and not self.added and not self.lost:
            ends = next(it for it in zip(accumulate(expected.heights), accumulate(got.heights)) if it[0] != it[1])
            said.append('an image is to end after {:,} rows and ends after {:,}'.format(*ends))
        if expected.widths != got.widths and expected.rows and got.rows:
            said.append(f'{max(expected.widths)} dots of width are expected and {max(got.widths)} printed')
        if self.end - self.top < len(self.both):
            said.append(f'rows {self.places[self.top]:,} to {self.places[self.end - 1]:,} are shown')
        return said

    def close(self) -> Optional[Place]:
        """Where in the picture the first difference is, if it has one."""
        if not self.expected.rows:
            return None
        y = next((n for n, it in enumerate(self.differs) if it), None)
        if y is None:
            return None
        return Place(y - self.top, 2 * (self.width + GAP) + self.width - self.differs[y].bit_length())

    def picture(self, file: IO[bytes]) -> None:
        """Writes a PNG: what is expected, what is printed, and both over each other."""
        png = Png(file, self.size[0], 8, tuple(PALETTE.values()))
        gap = bytes([COLOURS.index('outside')]) * GAP
        plain = ['outside', 'outside', 'white', 'black']
        what = ['outside'] * 4 + ['white', 'lost', 'new', 'same'] + ['near', 'lost', 'new', 'same'] * 2
        for y in range(self.top, self.end):
            e, on_e, g, on_g = self.both[y]
            near = 0
            for it in self.spreads[max(0, y - HALO):y + HALO + 1]:
                near |= it
            png.row(pixels(self.width, [e, on_e], plain) + gap + pixels(self.width, [g, on_g], plain) + gap
                    + pixels(self.width, [e, g, on_e | on_g, near], what))
        png.finish()
