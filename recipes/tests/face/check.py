#!/usr/bin/env python3
"""What must hold of the face: check.py SIZE.., a size as 24 or, half as wide, 24x12. Every letter of printers' tables
is there, within its box, ASCII's letters differ, and letters have as many holes as they have when large: none closes,
none opens. Of the first size every character is looked at, of the others those that are named here. Then the cells of
receipts."""
import pathlib
import sys
import unicodedata
from typing import Dict, Iterable, Iterator, List, Set, Tuple
sys.path.insert(0, str(pathlib.Path(__file__).resolve().parent.parent.parent))
sys.dont_write_bytecode = True
from vp_recipes.expand.letters import CHOICES, PAGES  # noqa: E402
from vp_recipes.face import boxes, cells  # noqa: E402
from vp_recipes.face.glyphs import every, glyph, has  # noqa: E402
from vp_recipes.face.skeletons import ALIKE  # noqa: E402
from vp_recipes.tables import shown  # noqa: E402

# Tables of more than a byte a character, which have every letter.
WIDE = ('shift-jis', 'euc-jp', 'utf-8', 'utf-16-be', 'utf-16-le')
OF_PRINTERS = sorted({*PAGES.values(), *CHOICES.values()}.difference(WIDE))
OTHERS = [f'iso8859-{n}' for n in range(1, 17) if n != 12] + ['koi8-r', 'koi8-u']
# The letters with no hole, with one, with two. At another width than an em's own some have one too many.
HOLES = {**dict.fromkeys('CEFGHIJKLMNSTUVWXYZcfhklmnrstuvwxyz12357ßΩЖжмшщ', 0),
         **dict.fromkeys('ADOPQRabdegopq0469δσαБЫЮЯяюы#öð@§', 1), **dict.fromkeys('B8&%Φφв', 2)}
NOT_NARROW = 'Q&a%'
# How far a letter may go beyond its advance, of an em.
BEYOND = .12
# What looks the same in cells beside letters that must: the comma and the low quote, the two dashes, two signs and the
# marks of their form.
SAME = [',‚', '—―', '˜\u0303', '`\u0300']


def holes(rows: List[int], wide: int) -> int:
    """How many white places black dots enclose."""
    white = {(x, y) for y in range(-1, len(rows) + 1) for x in range(-1, wide + 1)
             if not (0 <= y < len(rows) and 0 <= x < wide and rows[y] >> wide - 1 - x & 1)}
    count = -1
    while white:
        count += 1
        todo = [white.pop()]
        while todo:
            x, y = todo.pop()
            near = {(x + 1, y), (x - 1, y), (x, y + 1), (x, y - 1)} & white
            white -= near
            todo += near
    return count


def of_tables(names: Iterable[str]) -> Set[str]:
    """The characters of tables, but for those of writings that the face hasn't, and for controls."""
    chars = {it for name in names for it in shown(name).values() if unicodedata.category(it)[0] != 'C'}
    return {it for it in chars if not '\u0590' <= it < '\u0e80' and it < '\uf000'}


def wrong(chars: Iterable[str], wide: int, high: int) -> Iterator[str]:
    """What is wrong in a size."""
    forms: Dict[Tuple[object, ...], str] = {}
    beyond = BEYOND * wide + 1
    for char in chars:
        it = glyph(char, wide, high)
        assert it, char
        dots = it.dots
        if it.ahead != int(it.advance * wide / 1000 + .5):
            yield f'{char}: its advance is {it.ahead}'
        if not dots.rows:
            if not char.isspace():
                yield f'{char} is empty'
            continue
        found = holes(dots.rows, dots.width) if char in HOLES else 0
        if found != HOLES.get(char, 0) and (wide == high or char not in NOT_NARROW):
            yield f'{char} has {found} holes, not {HOLES[char]}'
        if unicodedata.combining(char) and not 0 <= dots.left <= dots.left + dots.width <= it.ahead:
            yield f'U+{ord(char):04X} does not stand in its advance'
        if not -beyond <= dots.left <= dots.left + dots.width <= it.ahead + beyond:
            yield f'{char} is outside its box: {dots.left} to {dots.left + dots.width} of {it.ahead}'
        if not -.3 * high - 1 <= dots.top - len(dots.rows) <= dots.top <= 1.2 * high:
            yield f'{char} is above or below its box'
        if char.isascii():
            form = (it.ahead, dots.left, dots.top, *dots.rows)
            if form in forms:
                yield f'{char} and {forms[form]} look the same'
            forms[form] = char


def parted(wide: int, high: int) -> Iterator[str]:
    """Lines of boxes that do not join those of the next cell."""
    def edges(char: str) -> Dict[str, List[int]]:
        dots = boxes.rows(char, wide, high)
        assert dots
        return {'l': [it >> dots.width - 1 for it in dots.rows], 'r': [it & 1 for it in dots.rows],
                'u': dots.rows[:1], 'd': dots.rows[-1:]}
    whole = {'lr': {boxes.ONE: '─', boxes.TWO: '═', boxes.THICK: '━'},
             'ud': {boxes.ONE: '│', boxes.TWO: '║', boxes.THICK: '┃'}}
    for char in map(chr, range(0x2500, 0x2580)):
        form = boxes.form_of(char)
        if form and not form.dashes and not form.diagonals:
            own = edges(char)
            for side in 'lrud':
                kind = form.arms.get(side, boxes.NO_LINE)
                want = edges(whole['lr' if side in 'lr' else 'ud'][kind])[side] if kind else [0] * len(own[side])
                if own[side] != want:
                    yield f'{char} does not join at {side}'


def wrong_cells(cell: Tuple[int, int]) -> Iterator[str]:
    """What is wrong in cells of receipts."""
    wide, high = cell
    drawn: Dict[str, List[int]] = {}
    for char in of_tables(OF_PRINTERS):
        rows, dots = cells.rows(char, cell), cells.letter(char, cell)
        if not rows or not any(rows):
            yield f'{char} is no cell'
            continue
        drawn[char] = rows
        is_joined = '\u2500' <= char <= '\u259f' or char in cells.JOINED
        if dots and not is_joined and not (0 <= dots.left <= dots.left + dots.width < wide + 1
                                           and 0 <= dots.top <= dots.top + len(dots.rows) <= high):
            yield f'{char} leaves its cell'
    for name in OF_PRINTERS:
        forms: Dict[Tuple[int, ...], str] = {}
        for char in filter(drawn.__contains__, shown(name).values()):
            other = forms.setdefault(tuple(drawn[char]), char)
            is_same = ALIKE.get(char, char) == ALIKE.get(other, other) or any({char, other} <= set(it) for it in SAME)
            if not is_same:
                yield f'{name}: {char} and {other} look the same'


def main() -> int:
    lacks = sorted(it for it in of_tables([*OF_PRINTERS, *OTHERS]) if not has(it))
    faults = [f'there is no {it}' for it in lacks]
    for n, size in enumerate(sys.argv[1:]):
        high, _, wide = size.partition('x')
        chars = every() if n == 0 else [*map(chr, range(32, 127)), *(it for it in HOLES if not it.isascii())]
        for find in (wrong(chars, int(wide or high), int(high)), parted(int(wide or high), int(high))):
            faults += [f'{size}: {it}' for it in find]
    for cell in cells.SETTINGS:
        faults += [f'{cell[0]} by {cell[1]}: {it}' for it in wrong_cells(cell)]
    print('\n'.join(faults) or f'the face at {", ".join(sys.argv[1:])} dots, and its cells: ok')
    return 1 if faults else 0


if __name__ == '__main__':
    sys.exit(main())
