"""The symbols of receipts: what GS k and GS ( k print, and how that is written which vp doesn't draw."""
from typing import Dict, Tuple

from .identifiers import bracketed, divided, spelled
from .label_symbols import check_of_tens, digits_of
from .symbols import Symbol
from .zint import Refused

NAMES = {48: 'PDF417', 49: 'QR', 50: 'MaxiCode', 51: 'DataBar', 52: 'a composite symbol', 53: 'Aztec',
         54: 'Data Matrix'}
BARS = {74: 'GS1-128', 75: 'DataBar', 76: 'DataBar', 77: 'DataBar', 78: 'DataBar', 79: 'Code 128'}
# Those that vp draws itself.
DRAWN_BARS = {0: 'UPC-A', 1: 'UPC-E', 2: 'EAN-13', 3: 'EAN-8', 4: 'Code 39', 5: '2 of 5', 6: 'Codabar', 65: 'UPC-A',
              66: 'UPC-E', 67: 'EAN-13', 68: 'EAN-8', 69: 'Code 39', 70: '2 of 5', 71: 'Codabar', 72: 'Code 93',
              73: 'Code 128'}
# Of each kind of GS ( k the least and the greatest module.
MODULES = {48: (2, 8), 49: (1, 16), 50: (1, 16), 51: (2, 8), 53: (2, 16), 54: (2, 16)}
# How a symbol comes: with its module, and the height of a row of it.
Sized = Tuple[Symbol, int, int]


def of_bars(kind: int, data: bytes) -> Symbol:
    """The symbol of GS k."""
    name = BARS[kind]
    if name == 'Code 128':
        return Symbol(name, 20, data, text=data)
    return of_elements(name, kind, data)


def of_elements(name: str, kind: int, data: bytes) -> Symbol:
    """GS1-128, and GS1 DataBar by its kind."""
    if kind in (75, 76, 77):
        text = digits_of(data)[-14:][:13].rjust(13, '0')
        return Symbol(name, 30 if kind == 77 else 29, text.encode(),
                      text=b'(01)' + (text + check_of_tens(text)).encode())
    plain = data.replace(b'{1', b'\x1d')
    elements = spelled(plain) or divided(plain.lstrip(b'\x1d'))
    if not elements:
        raise Refused('its identifiers cannot be told apart')
    shown = b''.join(b'(%s)%s' % it for it in elements)
    return Symbol(name, 31 if kind == 78 else 16, bracketed(elements), ('--gs1nocheck',), text=shown)


class Planes:
    """The `settings` and the `data` of each kind of GS ( k, as they were stored last."""

    def __init__(self) -> None:
        self.settings: Dict[Tuple[int, int], bytes] = {}
        self.data: Dict[int, bytes] = {}

    def take(self, cn: int, fn: int, arguments: bytes) -> bool:
        """Takes a function; true where it prints. A module out of range leaves the one before."""
        if fn == 80:
            self.data[cn] = arguments[1:]
        elif fn == 81:
            return True
        elif fn != 67 or self.is_module(cn, arguments):
            self.settings[cn, fn] = arguments
        return False

    def is_module(self, cn: int, arguments: bytes) -> bool:
        least, most = MODULES.get(cn, (1, 16))
        return len(arguments) == 1 and least <= arguments[0] <= most

    def module(self, cn: int) -> int:
        return self.number(cn, 67, 0, 2 if cn == 51 else 3, *MODULES.get(cn, (1, 16)))

    def level(self) -> str:
        """That of QR."""
        return 'LMQH'[self.number(49, 69, 0, 48, 48, 51) - 48]

    def is_micro(self) -> bool:
        return self.settings.get((49, 65), b'2')[:1] == b'3'

    def number(self, cn: int, fn: int, n: int, default: int, least: int, most: int) -> int:
        found = self.settings.get((cn, fn), b'')
        return found[n] if n < len(found) and least <= found[n] <= most else default

    def of_qr(self) -> bytes:
        """What has vp print QR as it is stored now, but for the function that prints."""
        body = b'1P0' + self.data.get(49, b'')
        return b'\x1d(k\3\0001C%c\x1d(k\3\0001E%c\x1d(k%s%s' % (
            self.module(49), 48 + 'LMQH'.index(self.level()), (len(body) & 0xFFFF).to_bytes(2, 'little'), body)

    def symbol(self, cn: int) -> Sized:
        """The symbol, its module, and the height of a row of it; raises Refused."""
        data = self.data.get(cn, b'')
        if not data:
            raise Refused('there are no data')
        return {48: self.pdf_417, 49: self.qr, 50: self.maxicode, 51: self.data_bar, 53: self.aztec,
                54: self.data_matrix}.get(cn, self.none)(data, self.module(cn))

    def none(self, data: bytes, module: int) -> Sized:
        raise Refused('it is not written')

    def pdf_417(self, data: bytes, module: int) -> Sized:
        columns, rows = self.number(48, 65, 0, 0, 1, 30), self.number(48, 66, 0, 0, 3, 90)
        found = self.settings.get((48, 69), b'')
        is_level = len(found) == 2 and found[0] == 48 and 48 <= found[1] <= 56
        words: Tuple[str, ...] = (f'--secure={found[1] - 48}',) if is_level else ()
        words += (f'--cols={columns}',) if columns else ()
        words += (f'--rows={rows}',) if rows and columns else ()
        kind = 56 if self.settings.get((48, 70), b'\0')[:1] in (b'\1', b'1') else 55
        return Symbol('PDF417', kind, data, words, 'stacked'), module, module * self.number(48, 68, 0, 3, 2, 8)

    def qr(self, data: bytes, module: int) -> Sized:
        level = 'LMQH'.index(self.level()) + 1
        if self.is_micro():
            return Symbol('Micro QR', 97, data, (f'--secure={min(level, 3)}',), 'matrix'), module, module
        return Symbol('QR', 58, data, (f'--secure={level}',), 'matrix'), module, module

    def maxicode(self, data: bytes, module: int) -> Sized:
        mode = self.number(50, 65, 0, 50, 50, 54) - 48
        words: Tuple[str, ...] = (f'--mode={mode}',)
        if mode in (2, 3):
            parts = data.split(b'\x1d', 3)
            if len(parts) < 4:
                raise Refused('its data have no post code, country and class')
            words += ('--primary=' + b''.join(parts[:3]).decode('latin-1'),)
            data = parts[3]
        return Symbol('MaxiCode', 57, data, words, 'maxi'), module, module

    def data_bar(self, data: bytes, module: int) -> Sized:
        kind, body = data[0], data[1:]
        if kind == 76:
            elements = spelled(body) or divided(body)
            if not elements:
                raise Refused('its identifiers cannot be told apart')
            return Symbol('DataBar', 81, bracketed(elements), ('--gs1nocheck',), 'stacked', None,
                          (34, 1, 1, 1)), module, 0
        if kind not in (72, 73):
            raise Refused('it is not written')
        text = digits_of(body)[-14:][:13].rjust(13, '0').encode()
        rows = (5, 1, 7) if kind == 72 else (33, 1, 1, 1, 33)
        return Symbol('DataBar', 79 if kind == 72 else 80, text, (), 'stacked', None, rows), module, module

    def aztec(self, data: bytes, module: int) -> Sized:
        mode, layers = self.number(53, 66, 0, 48, 48, 49), self.number(53, 66, 1, 0, 1, 32)
        words: Tuple[str, ...] = ()
        if layers:
            words = (f'--vers={layers if mode == 49 and layers <= 4 else layers + 4}',)
        else:
            share = self.number(53, 69, 0, 23, 5, 95)
            words = (f'--secure={1 if share < 17 else 2 if share < 30 else 3 if share < 43 else 4}',)
        return Symbol('Aztec', 92, data, words, 'matrix'), module, 0

    def data_matrix(self, data: bytes, module: int) -> Sized:
        found = self.settings.get((54, 66), b'0')
        words = () if found[:1] == b'1' else ('--square',)
        return Symbol('Data Matrix', 71, data, words, 'matrix'), module, 0
