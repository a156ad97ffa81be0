"""A receipt's stream anew, unit by unit: what vp prints is kept, what moves no paper is left out."""
from typing import Callable, Dict, Tuple

from . import asking, symbols, zint
from .letters import COUNTRIES, PAGES
from .options import Options
from .pictures import Picture
from .places import Written
from .receipt_letters import TextWriter
from .receipt_symbols import BARS, DRAWN_BARS, NAMES, Planes, of_bars
from .receipts import Unit, units, word
from .remarks import Remarks
from .till_pictures import Kept, has_other_colour, magnified, of_columns
from ..streams import rows
from ..values import is_start

# The paper's width, where no other is said, and how high a page is.
WIDTH, PAGE = 576, 1664
# How text is encoded by FS ( C's and by ESC 9's numbers.
ENCODINGS, CLONES = {2: 'utf-8', 50: 'utf-8'}, {0: 'gbk', 1: 'utf-8', 3: 'big5'}


def write(data: bytes, options: Options, written: Written, remarks: Remarks) -> None:
    Writer(data, options, written, remarks).all()


class Writer(TextWriter):
    """Writes a receipt anew. Beside what its text has, in force are the `bars`' height, their `module`, where their
    text is `shown` and in which font, where the line stands (`left`, `area`), the `page`'s area and how it lies;
    `kept` are stored pictures, `planes` the data of GS ( k, `table` what becomes of commands."""

    def __init__(self, data: bytes, options: Options, stream: Written, remarks: Remarks) -> None:
        super().__init__(data, options, stream, remarks)
        self.kept, self.has_others = Kept(), False
        self.table: Dict[str, Tuple[str, str, str]] = {
            command: (stops, word, what) for language, command, stops, word, what in rows() if language == 'receipt'}
        self.reset()

    def reset(self) -> None:
        """ESC @."""
        self.reset_letters()
        self.bars, self.module, self.shown, self.shown_font = 162, 3, 0, 'a'
        self.left, self.area, self.is_page = 0, WIDTH, False
        self.page, self.page_lies = (WIDTH, PAGE), 0
        self.planes = Planes()
        self.kept.reset()
        self.lines.reset()

    def all(self) -> None:
        found = list(units(self.data))
        # a stream whose text is ASCII alone has no letter that a table changes
        self.has_others = any(it.kind == 'text' and not self.data[it.start:it.end].isascii() for it in found)
        for unit in found:
            if unit.kind == 'text':
                self.text(unit)
            elif unit.kind == 'control':
                self.control(unit)
            elif unit.kind == 'command':
                self.command(unit)
            elif unit.kind == 'display':
                self.remarks.anew(unit.start, "ESC =: text for the customer's display is left out")
            elif unit.kind == 'unknown':
                whose = "one of Star's" if unit.name in ('esc 1d', 'esc 1e', 'esc 07') else 'no command that is known'
                self.refused(unit, f'{shown(unit.name)} is {whose}: it is read past')
                self.keep(unit)
            else:
                self.lines.end()
                self.stream.keep(unit.start, unit.end)
        self.lines.end()

    def keep(self, unit: Unit) -> None:
        self.lines.keep(unit)

    def anew(self, unit: Unit, data: bytes, text: str) -> None:
        self.remarks.anew(unit.start, text)
        self.lines.anew(data, unit.start, unit.end)

    def refused(self, unit: Unit, text: str) -> None:
        self.remarks.not_written(unit.start, text)

    def control(self, unit: Unit) -> None:
        self.keep(unit)
        if unit.name == '0c':
            self.is_page = False

    # ---- commands

    def command(self, unit: Unit) -> None:
        name = unit.name
        handler = self.HANDLERS.get(name)
        if handler:
            handler(self, unit, unit.arguments)
        elif name in self.table and self.table[name][0] == 'stops':
            _, becomes, what = self.table[name]
            if becomes == 'said':
                self.refused(unit, f'{shown(name)} {what}: it is left out')
        elif name not in self.table and name[:6] in ('esc 28', 'fs 28 '):
            self.refused(unit, f'{shown(name)} is no command that is known: it is left out')
        else:
            self.keep(unit)
            self.said(unit)

    def said(self, unit: Unit) -> None:
        """What vp reads past and a printer would show."""
        _, becomes, what = self.table.get(unit.name, ('', '', ''))
        if becomes == 'said' and not is_start(unit.name, self.data[unit.start:unit.end]):
            self.refused(unit, f'{shown(unit.name)} {what}: it is read past')

    def broken_off(self, unit: Unit, arguments: bytes) -> None:
        self.remarks.anew(unit.start, 'ESC before another command is left out')

    def paper(self, unit: Unit, arguments: bytes) -> None:
        """ESC c: vp doesn't know those that choose the paper."""
        if arguments[0] not in b'01':
            self.keep(unit)

    def start(self, unit: Unit, arguments: bytes) -> None:
        self.reset()
        self.keep(unit)

    def set_page(self, unit: Unit, arguments: bytes) -> None:
        self.is_page = unit.name == 'esc 4c'
        if self.is_page:
            self.page = WIDTH, PAGE
        self.keep(unit)

    def page_area(self, unit: Unit, arguments: bytes) -> None:
        x, y, width, height = (word(arguments, n) for n in (0, 2, 4, 6))
        if x < WIDTH and y < PAGE and width and height:
            self.page = min(width, WIDTH - x), min(height, PAGE - y)
        self.keep(unit)

    def page_direction(self, unit: Unit, arguments: bytes) -> None:
        if arguments[0] % 48 < 4 and arguments[0] < 52:
            self.page_lies = arguments[0] % 48
        self.keep(unit)

    def room(self) -> int:
        """How long a line is."""
        return self.page[self.page_lies & 1] if self.is_page else min(self.area, WIDTH - self.left)

    def number(self, unit: Unit, arguments: bytes) -> None:
        n = arguments[0]
        if unit.name == 'gs 68' and n:
            self.bars = n
        elif unit.name == 'gs 77' and 2 <= n <= 6:
            self.module = n
        elif unit.name == 'gs 48' and n % 48 < 4 and n < 52:
            self.shown = n % 48
        elif unit.name == 'gs 66' and n in (0, 1, 48, 49):
            self.shown_font = 'ab'[n & 1]
        elif unit.name == 'gs 4c' and word(arguments, 0) < WIDTH:
            self.left = word(arguments, 0)
        elif unit.name == 'gs 57' and any(arguments):
            self.area = word(arguments, 0)
        self.keep(unit)

    # ---- letters

    def code_table(self, unit: Unit, arguments: bytes) -> None:
        """ESC t: a table that isn't known leaves the one before."""
        found = PAGES.get(arguments[0])
        self.code = found or self.code
        if not found and self.has_others:
            self.refused(unit, f'{shown(unit.name)} {arguments[0]:02x}: a code table that is not known')
        if not self.has_others or found == self.options.table:
            self.declared = found or self.declared
            self.keep(unit)

    def set_country(self, unit: Unit, arguments: bytes) -> None:
        n = arguments[0]
        if n and n not in COUNTRIES:
            self.refused(unit, f'{shown(unit.name)} {n:02x}: a country that is not known')
        else:
            self.country = n
        if not n:
            self.keep(unit)

    def set_two_byte(self, unit: Unit, arguments: bytes) -> None:
        self.is_two_byte = unit.name == 'fs 26'
        self.keep(unit)

    def set_encoding(self, unit: Unit, arguments: bytes) -> None:
        """FS ( C, which tells UTF-8 from the tables; what else it does isn't written."""
        body = arguments[3:]
        if len(body) == 2 and body[0] == 48:
            self.encoding = ENCODINGS.get(body[1])
        elif body[:1] == b'<':
            self.refused(unit, 'FS ( C chooses fonts by their priority: it is left out')

    def set_clone_encoding(self, unit: Unit, arguments: bytes) -> None:
        """ESC 9."""
        self.encoding = CLONES.get(arguments[0])

    def define(self, unit: Unit, arguments: bytes) -> None:
        """ESC &."""
        height, first, last, at = arguments[0], arguments[1], arguments[2], 3
        font = self.lines.font()
        tall, wide = {'a': (24, 12), 'b': (17, 9)}[font]
        for byte in range(first, last + 1):
            count = arguments[at]
            columns = [arguments[at + 1 + n * height:at + 1 + (n + 1) * height] for n in range(count)]
            at += 1 + count * height
            columns = [it.ljust(3, b'\0')[:3] for it in columns] + [bytes(3)] * max(0, wide - count)
            self.own[font, byte] = [(int.from_bytes(it, 'big') >> 24 - tall).to_bytes(3, 'big') for it in columns]

    def choose_own(self, unit: Unit, arguments: bytes) -> None:
        self.is_own = bool(arguments[0] & 1)
        if not self.own:
            self.keep(unit)

    def forget_own(self, unit: Unit, arguments: bytes) -> None:
        self.own.pop((self.lines.font(), arguments[0]), None)
        self.keep(unit)

    def turn(self, unit: Unit, arguments: bytes) -> None:
        n = arguments[0] % 48 if arguments[0] >= 48 else arguments[0]
        self.turned = n in (1, 2)
        if self.is_page and self.turned:
            self.refused(unit, 'ESC V turns letters on a page: it is read past')
            self.turned = False

    def upside_down(self, unit: Unit, arguments: bytes) -> None:
        if self.is_page and arguments[0] & 1:
            self.refused(unit, 'ESC { prints upside down on a page: it is read past')
            return
        if arguments[0] & 1 and self.lines.is_full():
            self.refused(unit, 'ESC { prints upside down, behind so many others: it is read past')
        elif arguments[0] & 1:
            self.remarks.anew(unit.start, 'lines that are upside down are written as pictures')
        self.lines.upside_down(bool(arguments[0] & 1), self.left, self.area)

    def motion(self, unit: Unit, arguments: bytes) -> None:
        if any(it not in (0, 203) for it in arguments):
            self.refused(unit, f'GS P {arguments[0]} {arguments[1]}: lengths stay in dots of an eighth of a millimetre')
        self.keep(unit)

    def cut(self, unit: Unit, arguments: bytes) -> None:
        if arguments[0] in b'abgh':
            kind = b'A' if arguments[0] in b'ag' else b'B'
            self.anew(unit, b'\x1dV' + kind + arguments[1:2],
                      'GS V: a cut at a set place is written as one behind a feed')
        else:
            self.keep(unit)

    # ---- pictures

    def picture(self, unit: Unit, found: Picture, text: str, mode: int = 0) -> None:
        if not found.rows or not found.width:
            return
        if self.stream.is_full():
            self.refused(unit, 'a picture behind so many others is not written')
            return
        self.anew(unit, magnified(found, mode).as_raster(), text)

    def graphics(self, unit: Unit, arguments: bytes) -> None:
        """GS ( L and GS 8 L."""
        body = arguments[3:] if unit.name == 'gs 28 4c' else arguments[5:]
        found = self.kept.graphics(body)
        if has_other_colour(body):
            self.refused(unit, f'{shown(unit.name)}: a second colour is written in black')
        if isinstance(found, str):
            self.refused(unit, f'{shown(unit.name)}: {found}')
        elif isinstance(found, Picture):
            self.picture(unit, found, f'{shown(unit.name)}: a stored picture is written as a raster')

    def load(self, unit: Unit, arguments: bytes) -> None:
        self.kept.load(arguments)

    def print_loaded(self, unit: Unit, arguments: bytes) -> None:
        if not self.kept.last or arguments[0] % 48 > 3 or arguments[0] > 51:
            self.refused(unit, 'GS / prints a picture that is not stored')
        else:
            self.picture(unit, self.kept.last, 'GS /: a stored picture is written as a raster', arguments[0] & 3)

    def define_kept(self, unit: Unit, arguments: bytes) -> None:
        self.kept.define(arguments)

    def print_kept(self, unit: Unit, arguments: bytes) -> None:
        found = self.kept.numbered.get(arguments[0])
        if not found:
            title = f'FS p {arguments[0]:02x} {arguments[1]:02x}'
            self.refused(unit, f'{title} prints a picture that is not stored in this stream')
            return
        self.picture(unit, found, 'FS p: a stored picture is written as a raster', arguments[1] & 3)

    def columns_picture(self, unit: Unit, arguments: bytes) -> None:
        """GS Q 0: a picture in columns."""
        found = of_columns(arguments[6:], word(arguments, 2), 8 * word(arguments, 4))
        self.picture(unit, found, 'GS Q: a picture in columns is written as a raster', arguments[1] & 3)

    # ---- symbols

    def bar_code(self, unit: Unit, arguments: bytes) -> None:
        kind, data = arguments[0], arguments[2:]
        if kind in DRAWN_BARS:
            self.drawn(unit, f'GS k {kind}: {DRAWN_BARS[kind]}')
        elif kind in BARS:
            self.symbol(unit, f'GS k {kind}', BARS[kind], lambda: (of_bars(kind, data), self.module, self.bars))
        else:
            self.refused(unit, f'GS k {kind}: a bar code that is not known: it is left out')

    def drawn(self, unit: Unit, title: str, stored: bytes = b'', but_for: str = '') -> bool:
        """A symbol that vp draws itself of what is stored, kept where it takes the data and they have room; false where
        it doesn't for a reason that another way is left for."""
        set_now = b'\x1dh\1\x1dw%c\x1dH%c\x1df%c' % (self.module, self.shown, self.shown_font == 'b')
        if self.is_page:
            area = b''.join(it.to_bytes(2, 'little') for it in (0, 0, *self.page))
            set_now += b'\x1bL\x1bW' + area + b'\x1bT%c' % self.page_lies
        else:
            set_now += b'\x1dW' + self.room().to_bytes(2, 'little')
        why = asking.refusal('receipt', set_now + stored + self.data[unit.start:unit.end] + b'\x0c' * self.is_page)
        if why and why == but_for:
            return False
        if why:
            self.refused(unit, f'{title}: {why}: it is not printed')
        else:
            self.keep(unit)
        return True

    def too_wide(self, unit: Unit, title: str, name: str, width: int) -> None:
        self.refused(unit, f'{title}: {name} is {width} dots wide, and the line {self.room()}: it is not printed')

    def plane(self, unit: Unit, arguments: bytes) -> None:
        """GS ( k."""
        body = arguments[3:]
        if len(body) < 2:
            self.keep(unit)
            return
        cn, fn = body[0], body[1]
        prints = self.planes.take(cn, fn, body[2:])
        if cn == 49:
            self.qr(unit, fn, body[2:], prints)
        elif cn not in NAMES:
            self.keep(unit)
        elif prints:
            self.symbol(unit, f'GS ( k {cn}', NAMES[cn], lambda: self.planes.symbol(cn))

    def qr(self, unit: Unit, fn: int, arguments: bytes, prints: bool) -> None:
        """QR, which vp draws itself up to version 10."""
        if fn == 65 and arguments[:1] == b'1':
            self.refused(unit, 'GS ( k 49: model 1 of QR is written as model 2')
            self.lines.anew(b'\x1d(k\4\0001A2\0', unit.start, unit.end)
            return
        if not prints:
            self.keep(unit)
            return
        is_drawn = not self.planes.is_micro() and self.drawn(unit, f'GS ( k 49: {NAMES[49]}', self.planes.of_qr(),
                                                             asking.LONG)
        if not is_drawn:
            self.symbol(unit, 'GS ( k 49', NAMES[49], lambda: self.planes.symbol(49))

    def symbol(self, unit: Unit, title: str, name: str, make: Callable[[], Tuple[symbols.Symbol, int, int]]) -> None:
        """A symbol as a raster; `make` gives it with its module and its height, or raises zint.Refused."""
        try:
            symbol, narrow, height = make()
            if not symbol.data:
                raise zint.Refused('there are no data')
            if symbol.name == 'DataBar' and symbol.form == 'fixed':
                height = max(height, 13 * narrow)
            drawing = symbols.Drawing(narrow, narrow, height, self.shown in (1, 3), self.shown in (2, 3),
                                      self.lines.cells(self.shown_font))
            found = symbols.picture(symbol, drawing)
        except zint.Refused as why:
            self.refused(unit, f'{title}: {name}: {why}')
            return
        except FileNotFoundError:
            self.refused(unit, f'{title}: {name} needs zint: a frame stands in its place')
            self.lines.anew(symbols.frame(symbol, drawing).as_raster(), unit.start, unit.end)
            return
        if found.width > self.room():
            self.too_wide(unit, title, name, found.width)
            return
        self.picture(unit, found, f'{title}: {name} is written as a picture')

    HANDLERS: Dict[str, Callable[['Writer', Unit, bytes], None]] = {
        'esc 1b': broken_off, 'esc 40': start, 'esc 4c': set_page, 'esc 53': set_page, 'esc 57': page_area,
        'esc 54': page_direction, 'gs 68': number, 'gs 77': number, 'gs 48': number, 'gs 66': number, 'gs 4c': number,
        'gs 57': number, 'esc 74': code_table, 'esc 52': set_country, 'esc 63': paper, 'fs 26': set_two_byte,
        'fs 2e': set_two_byte, 'fs 28 43': set_encoding, 'esc 39': set_clone_encoding, 'esc 26': define,
        'esc 25': choose_own, 'esc 3f': forget_own, 'esc 56': turn, 'esc 7b': upside_down, 'gs 50': motion,
        'gs 56': cut,
        'gs 28 4c': graphics, 'gs 38 4c': graphics, 'gs 2a': load, 'gs 2f': print_loaded, 'fs 71': define_kept,
        'fs 70': print_kept, 'gs 51': columns_picture, 'gs 6b': bar_code, 'gs 28 6b': plane,
    }


def shown(name: str) -> str:
    """A command as its manual names it."""
    lead, *rest = name.split(' ')
    return ' '.join([lead.upper(), *[chr(int(it, 16)) if 0x21 <= int(it, 16) < 0x7F else it for it in rest]])
