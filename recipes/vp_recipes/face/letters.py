"""Letters: which strokes and marks a character is made of."""
import unicodedata
from typing import Dict, Iterable, List, NamedTuple, Optional, Tuple

from .notation import Lines, Place, Stroke, Strokes, changed, moved, named, pair, stroke_of
from .skeletons import ALIKE, COMMAS, DOTLESS, LINES, MIDDLES, TALL

# How far a Greek capital goes to the right, for the accent before it.
BEFORE = 110
# A letter less wide than this has smaller marks: so much less wide, of a pen so much thinner.
NARROW, LESS_WIDE, THINNER = 300, .78, .82
# The advance of a mark that stands alone.
ALONE = 380
# Marks of a combining class beyond this stand above.
ABOVE = 220
ACUTE, TREMA, COMMA_BELOW, CEDILLA, HORN, BOTH = '\u0301', '\u0308', '\u0326', '\u0327', '\u031b', '\u0344'
# The accent before a Greek capital, where it has a form of its own.
TICK = '\u030d'


class Mark(NamedTuple):
    """A mark: its strokes, where its middle is, whether it is on a capital's height, how many marks are under it;
    whether it stands before the letter."""

    strokes: Strokes
    middle: float
    is_high: bool
    under: int
    is_before: bool = False


class Letter(NamedTuple):
    """A letter: its advance, the lists of its strokes that are fitted each alone, and its marks."""

    advance: float
    parts: List[Strokes]
    marks: List[Mark]

    def strokes(self) -> Strokes:
        return [it for part in self.parts for it in part]


def is_above(mark: str) -> bool:
    return unicodedata.combining(mark) > ABOVE


def placed(word: str, advance: float) -> Tuple[Place, bool]:
    """Where a word of an included letter moves points, and whether it mirrors them."""
    if word[0] in '%@':
        p, q = pair(word[1:])
        return (lambda x, y: (x * p, y * q)) if word[0] == '%' else (lambda x, y: (x + p, y + q)), False
    mirrored = word == 'mirror' or word.startswith('turn')
    top = None if word == 'mirror' else float(word[4:])
    return lambda x, y: (advance - x if mirrored else x, y if top is None else top - y), mirrored


class Letters:
    """The letters of lines, each read once. `own` are those whose form isn't that of the face."""

    def __init__(self, lines: Lines, own: Iterable[str] = ()) -> None:
        self.lines, self.own = lines, frozenset(own)
        self.read: Dict[str, Optional[Letter]] = {}

    def of(self, char: str) -> Optional[Letter]:
        """What a character is, or None."""
        char = ALIKE.get(char, char)
        if char not in self.read:
            self.read[char] = self.of_line(char) if char in self.lines else self.composed(char)
        return self.read[char]

    def standing(self, char: str) -> Optional[Letter]:
        """What a character is by itself: a mark stands in the middle of an advance of its own."""
        found = self.of(char)
        if not found or found.advance or not found.parts:
            return found
        xs = [point.x for it in found.strokes() for point in it.points]
        middle = (min(xs) + max(xs)) / 2
        return Letter(ALONE, [moved(part, ALONE / 2 - middle) for part in found.parts], [])

    def included(self, text: str) -> Tuple[Strokes, bool]:
        """The strokes of another letter, as `A mirror %.5,.5 @10,0 *.8` has them, and whether they are fitted alone."""
        char, *words = text.split()
        found = self.of(named(char))
        if not found:
            raise ValueError(f'no letter {char}')
        strokes, alone, weight = found.strokes(), False, 1.0
        for word in words:
            if word[0] == '*':
                weight = float(word[1:])
                continue
            place, mirrored = placed(word, found.advance)
            alone = alone or word[0] == '%'
            strokes = [changed(it, place, mirrored) for it in strokes]
        return [it._replace(weight=it.weight * weight) for it in strokes], alone

    def of_line(self, char: str) -> Letter:
        advance, text = self.lines[char]
        own: Strokes = []
        others: List[Strokes] = []
        weight = ''
        for it in filter(None, map(str.strip, text.split(';'))):
            if it[0] == '=':
                strokes, alone = self.included(it[1:])
                if alone:
                    others.append(strokes)
                else:
                    own += strokes
            else:
                weight = it.split()[0] if it[0] == '*' else weight
                own.append(stroke_of(it if it[0] == '*' else f'{weight} {it}'))
        return Letter(advance, [it for it in [own, *others] if it], [])

    def mark(self, char: str) -> Strokes:
        found = self.of(char)
        return found.parts[0] if found else []

    def composed(self, char: str) -> Optional[Letter]:
        """A letter with marks, or None."""
        parts = unicodedata.normalize('NFD', char)
        base, marks = parts[0], list(parts[1:])
        if marks[:1] == [HORN]:
            base, marks = unicodedata.normalize('NFC', base + marks[0]), marks[1:]
        if not marks or any(it not in self.lines for it in marks):
            return None
        found = self.of(DOTLESS.get(base, base) if any(map(is_above, marks)) else base)
        if not found:
            return None
        if marks == [ACUTE] and 'Α' <= base <= 'Ω':
            strokes = [moved(part, BEFORE) for part in found.parts]
            accent = self.mark(TICK if TICK in self.lines else ACUTE)
            return Letter(found.advance + BEFORE, strokes, [Mark(accent, BEFORE / 2, False, 0, True)])
        if marks == [TREMA, ACUTE]:
            marks = [BOTH]
        middle = found.advance / 2 if base in self.own else MIDDLES.get(base, found.advance / 2)
        return Letter(found.advance, found.parts, self.marked(base, marks, middle, found.advance))

    def marked(self, base: str, marks: List[str], middle: float, advance: float) -> List[Mark]:
        """The marks of a letter."""
        out: List[Mark] = []
        for n, mark in enumerate(marks):
            strokes = self.mark(COMMA_BELOW if mark == CEDILLA and base in COMMAS else mark)
            if advance < NARROW:
                strokes = [less_wide(it) for it in strokes]
            under = sum(map(is_above, marks[:n])) if is_above(mark) else 0
            out.append(Mark(strokes, middle, (base.isupper() or base in TALL) and is_above(mark), under))
        return out


def less_wide(stroke: Stroke) -> Stroke:
    return changed(stroke, lambda x, y: (x * LESS_WIDE, y))._replace(weight=stroke.weight * THINNER)


PRINTED = Letters(LINES)
