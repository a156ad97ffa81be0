"""A label's fields by its items, and where a field's dots lie."""
import time
from typing import Any, Dict, Iterator, List, Optional, Sequence, Tuple

from .program import run
from .streams import WHOLE, Items
from .values import is_wide, narrowed

# What a field is made of and what was in force, by names; and left, top, right and bottom of dots.
Field = Dict[str, Any]
Box = Tuple[int, int, int, int]
CONTENTS = '^FD', '^GB', '^GF', '^GC', '^GD', '^GE'
SYMBOLS = tuple(f'^B{it}' for it in '0123789ABCEKMOQSUX')
# What is in force before a label says otherwise.
SETTINGS = {'^PW': '^PW832', '^LL': '^LL1218', '^LH': '^LH0,0', '^FW': '^FWN', '^CF': '^CFA,9,5', '^BY': '^BY2,3.0,10'}


def outside(items: Items) -> Iterator[Tuple[int, str]]:
    """The contents of fields that stand in no format: the number of the item, and its command."""
    is_open = False
    for n, (_, text) in enumerate(items):
        if not text.endswith(' skipped') and text[:3] in ('^XA', '^XZ'):
            is_open = text[:3] == '^XA'
        elif not is_open and text[:3] in CONTENTS:
            yield n, text[:3]


def labels(items: Items) -> Iterator[Tuple[Dict[str, str], List[Field]]]:
    """Each label: what is in force at its end, and its fields, each what it is made of and what was in force."""
    said, is_open = dict(SETTINGS), False
    closed: List[Field] = []
    field: Optional[Field] = None
    for n, (_, text) in enumerate(items):
        name = text[:3] if text[:2] != '^A' else '^A'
        is_open = is_open or name == '^XA'
        if not is_open or text.endswith(' skipped'):
            continue
        if field is None:
            field = {'item': n, 'at': '^FO0,0', 'content': '', 'symbol': '', '^A': '', '^FB': '', 'bytes': []}
        if text.startswith('byte '):
            field['bytes'].append((n, int(text[5:], 16)))
        elif name in CONTENTS:
            field.update(content=text, bytes=[])
        elif name in SYMBOLS:
            field['symbol'] = text
        elif name in ('^FO', '^FT'):
            field.update(at=text, item=n)
        elif name in ('^A', '^FB'):
            field[name] = text
        elif name in said:
            said[name] = text
        elif name in ('^FS', '^XZ'):
            closed += [{**field, **said}] if field['content'] else []
            field = None
        if name == '^XZ':
            yield dict(said), closed
            is_open, closed = False, []


def number(text: str, n: int, default: int, least: int, most: int) -> int:
    """A number among a command's parameters, as a label takes it."""
    part = (text[3:].split(',') + ['', ''])[n]
    return min(max(int(part), least), most) if part.isascii() and part.isdigit() else default


def alone(field: Field, width: int, height: int) -> Tuple[bytes, int, int]:
    """A label of this size with the field alone, moved to where no dot of it is cut, and how far it was moved."""
    x, y = (number(field['at'], n, 0, 0, 32000) + number(field['^LH'], n, 0, 0, 32000) for n in (0, 1))
    to_x, to_y = 0, 0
    if field['at'].startswith('^FT'):
        turn = field['symbol'] if field['symbol'][:3] != '^BQ' else '^FWN'
        turn = (turn or field['^A'] if field['content'] == '^FD' else '^FWN')[3:4].upper()
        turn = turn if turn and turn in 'NRIB' else field['^FW'][3:4].upper()
        to_x, to_y = width * (turn in 'IB'), height * (turn not in 'RI')
    codes = bytes(byte for _, byte in field['bytes'])
    if field['content'] == '^FD':
        content = b'^FH_^FD' + b''.join(b'_%02X' % byte for byte in codes)
    else:
        content = field['content'].encode('latin-1') + (b',' + codes if field['content'][:3] == '^GF' else b'')
    words = [f'^XA^PW{width}^LL{height}^LH0,0', field['^FW'], field['^CF'], field['^BY'],
             f'{field["at"][:3]}{to_x},{to_y}', field['^A'], field['^FB'], field['symbol']]
    return ''.join(words).encode('latin-1') + content + b'^FS^XZ', x - to_x, y - to_y


def ink(out: bytes) -> Iterator[Optional[Box]]:
    """Of each image the box of its black dots: left, top, right, bottom, or None where it is white."""
    at = 0
    while at < len(out):
        end = out.index(b'\n', at + 3)
        width, height = map(int, out[at + 3:end].split())
        stride = (width + 7) // 8
        dots, at = out[end + 1:end + 1 + stride * height], end + 1 + stride * height
        top, bottom = (len(dots) - len(dots.lstrip(b'\0'))) // stride, -(-len(dots.rstrip(b'\0')) // stride)
        row = 0
        for y in range(top, bottom):
            row |= int.from_bytes(dots[y * stride:(y + 1) * stride], 'big')
        last = (row & -row).bit_length() - 1
        yield (8 * stride - row.bit_length(), top, 8 * stride - last, bottom) if row else None


class Edges:
    """Where fields lie, printed each alone, in so many `seconds`, by the words behind a label's; what is printed alike
    is printed once (`seen`)."""

    def __init__(self, sheet: Sequence[str], vp: Optional[Sequence[str]] = None,
                 seconds: Optional[float] = None, whole: bool = True) -> None:
        self.words, self.vp = [*([WHOLE] if whole else []), *sheet], vp
        self.end = None if seconds is None else time.monotonic() + seconds
        self.seen: Dict[bytes, Optional[Box]] = {}

    def is_late(self) -> bool:
        return self.end is not None and time.monotonic() > self.end

    def box(self, field: Field, size: Tuple[int, int]) -> Optional[Box]:
        """Where a field's dots lie, from the label's corner; None where it has none."""
        stream, x, y = alone(field, *size)
        if stream not in self.seen:
            out, line, _ = run(['label', *self.words], stream, self.vp)
            self.seen[stream] = next(ink(out), None) if not line else None
        found = self.seen[stream]
        return found and (x + found[0], y + found[1], x + found[2], y + found[3])

    def passed(self, field: Field, wide: int, high: int) -> str:
        """The edges of its label, so wide and high, that a field passes."""
        font = field['^A'] or field['^CF']
        if field['content'] == '^FD' and not field['symbol'] and is_wide(font):
            field = {**field, ('^A' if field['^A'] else '^CF'): narrowed(font)}
        found = self.box(field, (1248, min(high + 1, 8000)))
        if not found:
            return ''
        left, top, right, bottom = found
        off = {'left': left < 0, 'upper': top < 0, 'right': right > wide, 'lower': bottom > high}
        return ' and the '.join(name for name, is_off in off.items() if is_off)


def off_edges(items: Items, edges: Edges) -> Iterator[Tuple[int, str]]:
    """The fields of labels with dots off their label: the number of the item, and a line. A text in wide cells is taken
    as narrow as a printer's letters are about; a field that ends at its place on a printer isn't looked at."""
    for said, closed in labels(items):
        wide, high = number(said['^PW'], 0, 832, 1, 1248), number(said['^LL'], 0, 1218, 1, 8000)
        for field in closed:
            if edges.is_late():
                yield field['item'], 'time is over: edges of this field and those behind it are not looked at'
                return
            if [*field['at'].split(','), '', ''][2] != '1':
                passed = edges.passed(field, wide, high)
                if passed:
                    yield field['item'], f'the field of {field["at"]} passes the label\'s {passed} edge'
