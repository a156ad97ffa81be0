"""Texts of labels in a printer's sizes: fonts of dots in their own matrix, the others by a table of widths; blocks.

Of a font of outlines the letters' widths are those of the table, in thousandths of its width; a line is then written
in cells of one width, so that the whole line is as wide as a printer's.
"""
import re
from typing import Dict, Iterator, List, NamedTuple, Optional, Tuple

# Of each font of cells of one width its height and width, and the gap between its letters.
DOTS = {'A': (9, 5, 1), 'B': (11, 7, 2), 'C': (18, 10, 2), 'D': (18, 10, 2), 'E': (28, 15, 5), 'F': (26, 13, 3),
        'G': (60, 40, 8), 'H': (21, 13, 6)}
# The other fonts of dots: their heights, and the widths that their letters' are shares of.
SETS = {'P': (20, 18), 'Q': (28, 24), 'R': (35, 31), 'S': (40, 35), 'T': (48, 42), 'U': (59, 53), 'V': (80, 71)}
OUTLINES = '0@'
# The size of an outline where none was ever given.
OUTLINE = 15, 12
# The font in which a text is written anew: no printer has it, so that it is in a printer's sizes already.
OURS = '.'
OTHER = 550
# How far below the baseline a cell goes, in 24 parts of its height.
BELOW = 7


class Widths(Dict[str, int]):
    """How wide a letter is, in thousandths."""

    def __missing__(self, letter: str) -> int:
        return OTHER


WIDTHS = Widths()
for letters, share in (
        ("'", 214), (' ,./\\:;|ijlI', 250), ('!()-[]`ft', 300), ('r{}*', 350), ('"', 427), ('z', 450),
        ('#$0123456789_aceksvxyJ', 500), ('+<=>^~', 526), ('?bdghnopquFLTZ', 550), ('ESVXYP', 600), ('&ABCDHKNRU', 650),
        ('wGOQ', 700), ('M', 750), ('%m', 800), ('W', 850), ('@', 878)):
    WIDTHS.update(dict.fromkeys(letters, share))


class Size(NamedTuple):
    """A text's font: `letter`, how wide and high its cells are or its outline is."""
    letter: str
    height: int
    width: int


# A height and a width as ^A or ^CF gives them, with None for what wasn't given.
Given = Tuple[Optional[int], Optional[int]]


def size(letter: str, given: Given, default: Given) -> Optional[Size]:
    """The size of a font's letters as a printer takes it: as it is given, else as ^CF gave it, else the font's own.
    None for a font that isn't known."""
    height, width = given if given != (None, None) else default
    if letter in DOTS:
        tall, wide, gap = DOTS[letter]
        down, across = times(height, tall), times(width, wide)
        return Size(letter, tall * (down or across or 1), (wide + gap) * (across or down or 1))
    if letter in SETS:
        tall, wide = SETS[letter]
        down, across = times(height, tall), times(width, wide)
        return Size(letter, tall * (down or across or 1), wide * (across or down or 1))
    if letter in OUTLINES:
        high, broad = (height, width) if height or width else OUTLINE
        high = high or broad or 1
        return Size(letter, max(1, min(1500, high)), max(1, min(1500, broad or high)))
    return None


def times(length: Optional[int], own: int) -> Optional[int]:
    """How many times a font's own length a length is, from 1 to 10."""
    return max(1, min(10, (2 * length + own) // (2 * own))) if length else None


def measured(text: str, of: Size) -> float:
    """How wide a text is, in dots."""
    if of.letter in DOTS:
        return len(text) * of.width
    return sum(map(WIDTHS.__getitem__, text)) * of.width / 1000


def cell(text: str, of: Size) -> int:
    """The width of the cells in which a line is as wide as a printer's."""
    if of.letter in DOTS or not text:
        return of.width
    return max(1, round(measured(text, of) / len(text)))


def words_of(text: str) -> List[str]:
    """The paragraphs of a block's text, with a soft hyphen for `\\-`."""
    if '\\' not in text:
        return [text]
    paragraphs: List[List[str]] = [[]]
    for part in re.findall(r'[^\\]+|\\.|\\', text, re.DOTALL):
        if part == '\\&':
            paragraphs.append([])
        else:
            paragraphs[-1].append({'\\-': '\u00ad', '\\\\': '\\'}.get(part, part))
    return [''.join(it) for it in paragraphs]


class Line(NamedTuple):
    """A line of a block: its text, whether it ends a paragraph, whether it begins one."""
    text: str
    last: bool
    first: bool


def pieces(word: str, of: Size, room: float, first: float) -> Iterator[str]:
    """A word that is wider than a line, in parts that fit; the first one has less room."""
    begin, wide, left = 0, 0.0, first
    for n, letter in enumerate(word):
        own = of.width if of.letter in DOTS else WIDTHS[letter] * of.width / 1000
        if n > begin and wide + own > left:
            yield word[begin:n]
            begin, wide, left = n, 0, room
        wide += own
    yield word[begin:]


def lines_of(paragraph: str, of: Size, width: int, indent: int) -> List[str]:
    """The lines of a paragraph, each as long as fits, with the soft hyphens in them."""
    lines: List[str] = []
    line: List[str] = []
    wide, room, has_word = 0.0, width, False

    def end() -> None:
        nonlocal wide, room, has_word
        lines.append(''.join(line))
        line.clear()
        wide, room, has_word = 0, width - indent, False

    for part in re.findall(r'[^ \u00ad]+\u00ad?| ', paragraph):
        own = measured(part.rstrip('\u00ad'), of)
        if part == ' ':
            if line or not lines:
                line.append(part)
                wide += own
            continue
        if has_word and wide + own > room:
            end()
        if wide + own > room:
            *whole, part = pieces(part, of, width - indent, room - wide)
            for it in whole:
                line.append(it)
                end()
            own = measured(part.rstrip('\u00ad'), of)
        line.append(part)
        wide, has_word = wide + own, True
    lines.append(''.join(line))
    return lines


def broken(text: str, of: Size, width: int, indent: int) -> Iterator[Line]:
    """The lines of a block's text."""
    for paragraph in words_of(text):
        lines = lines_of(paragraph, of, width, indent)
        last = len(lines) - 1
        for n, it in enumerate(lines):
            if '\u00ad' in it:
                it = it[:-1].replace('\u00ad', '') + it[-1:].replace('\u00ad', '-' if n < last else '')
            yield Line(it.strip(' ') if n else it.rstrip(' '), n == last, n == 0)


class Run(NamedTuple):
    """A run of cells: where it stands in its box, its text, how wide its cells are."""
    x: int
    y: int
    text: str
    cell: int


class Block(NamedTuple):
    """What ^FB asks for: its width, its most lines, what is added between them, its side, the indent of later lines."""
    width: int
    most: int
    space: int
    side: str
    indent: int


def block(text: str, of: Size, asked: Block) -> Tuple[List[Run], int, int]:
    """The runs of a block in its box, and the box's width and height."""
    step = max(0, of.height + asked.space)
    runs: List[Run] = []
    for n, line in enumerate(broken(text, of, asked.width, asked.indent)):
        y, left = min(n, asked.most - 1) * step, 0 if line.first else asked.indent
        room, wide = asked.width - left, cell(line.text, of)
        if asked.side == 'J' and not line.last and ' ' in line.text:
            runs += spread(line.text, of, left, room, y)
        elif line.text:
            spare = room - wide * len(line.text)
            x = left + {'C': spare // 2, 'R': spare}.get(asked.side, 0)
            runs.append(Run(max(x, 0) if asked.side != 'L' else x, y, line.text, wide))
    return runs, asked.width, (asked.most - 1) * step + of.height


def spread(text: str, of: Size, left: int, room: int, y: int) -> Iterator[Run]:
    """A line's words from one side to the other."""
    parts = text.split()
    sizes = [cell(it, of) * len(it) for it in parts]
    gap, at = (room - sum(sizes)) / max(1, len(parts) - 1), 0
    for k, (part, wide) in enumerate(zip(parts, sizes)):
        yield Run(round(left + at + k * gap), y, part, cell(part, of))
        at += wide
