"""The symbols of labels that vp doesn't draw: what each command's parameters and data make."""
import re
from typing import Callable, Dict, Optional, Tuple

from .asking import LONG, UNSUPPORTED
from .identifiers import bracketed, divided, spelled
from .labels import Command
from .symbols import Symbol
from .zint import Refused

# Of each command of bars: where its height, its text and its text above stand among the parameters, and whether there
# is text, and above, where they are missing.
BARS: Dict[str, Tuple[int, Optional[int], Optional[int], str, str]] = {
    'B1': (2, 3, 4, 'Y', 'N'), 'B2': (1, 2, 3, 'Y', 'N'), 'B3': (2, 3, 4, 'Y', 'N'), 'B5': (1, 2, 3, 'N', 'N'),
    'B8': (1, 2, 3, 'Y', 'N'), 'B9': (1, 2, 3, 'Y', 'N'), 'BA': (1, 2, 3, 'Y', 'N'), 'BC': (1, 2, 3, 'Y', 'N'),
    'BE': (1, 2, 3, 'Y', 'N'), 'BI': (1, 2, 3, 'Y', 'N'), 'BK': (2, 3, 4, 'Y', 'N'), 'BM': (2, 3, 4, 'Y', 'N'),
    'BP': (2, 3, 4, 'Y', 'N'), 'BS': (1, 2, 3, 'Y', 'Y'), 'BU': (1, 2, 3, 'Y', 'N'), 'BZ': (1, 2, 3, 'N', 'N'),
    'BL': (1, None, 2, 'Y', 'N'), 'BR': (4, None, None, 'N', 'N'),
}
STACKED, SQUARES = {'B7', 'BF', 'B4', 'BB'}, {'B0', 'BO', 'BX', 'BQ', 'BD'}
NAMES = {
    'B0': 'Aztec', 'B1': 'Code 11', 'B2': '2 of 5', 'B3': 'Code 39', 'B4': 'Code 49', 'B5': 'Planet', 'B7': 'PDF417',
    'B8': 'EAN-8', 'B9': 'UPC-E', 'BA': 'Code 93', 'BB': 'Codablock', 'BC': 'Code 128', 'BD': 'MaxiCode',
    'BE': 'EAN-13', 'BF': 'MicroPDF417', 'BI': 'Industrial 2 of 5', 'BJ': 'Standard 2 of 5', 'BK': 'Codabar',
    'BL': 'LOGMARS', 'BM': 'MSI', 'BO': 'Aztec', 'BP': 'Plessey', 'BQ': 'QR', 'BR': 'DataBar', 'BS': 'UPC add-on',
    'BT': 'TLC39', 'BU': 'UPC-A', 'BX': 'Data Matrix', 'BZ': 'POSTNET',
}
# MicroPDF417's modes: how many columns each has.
MICRO = [1] * 6 + [2] * 7 + [3] * 10 + [4] * 11
# Those that vp draws, but for what it refuses.
DRAWN = {'B0', 'B1', 'B2', 'B3', 'B7', 'B8', 'B9', 'BA', 'BC', 'BE', 'BK', 'BM', 'BO', 'BQ', 'BS', 'BU', 'BX'}


def check_of_tens(digits: str) -> str:
    """The digit that makes three times every second one from the right, and the others, a multiple of ten."""
    total = sum(int(it) * (3 if n % 2 == 0 else 1) for n, it in enumerate(reversed(digits)))
    return str(-total % 10)


def digits_of(data: bytes, least: int = 1) -> str:
    text = data.decode('latin-1')
    if len(text) < least or not (text.isascii() and text.isdigit()):
        raise Refused('its data are not digits')
    return text


def compressed(text: str) -> str:
    """UPC-E's six digits of a code of a maker's five digits and an article's five."""
    maker, article = text[:5], text[5:]
    if maker[2] in '012' and maker[3:] == '00' and article[:2] == '00':
        return maker[:2] + article[2:] + maker[2]
    if maker[3:] == '00' and article[:3] == '000':
        return maker[:3] + article[3:] + '3'
    if maker[4] == '0' and article[:4] == '0000':
        return maker[:4] + article[4] + '4'
    if article[:4] == '0000' and article[4] in '56789':
        return maker + article[4]
    raise Refused('its digits are none that UPC-E has')


def upc_e(data: bytes) -> str:
    """What zint takes of UPC-E's data: a zero, and six digits."""
    text = digits_of(data)
    if len(text) in (11, 12):
        text = text[1:11]
    six = compressed(text) if len(text) == 10 else text[1:7] if len(text) in (7, 8) else text
    if len(six) != 6:
        raise Refused('it takes six to twelve digits')
    return '0' + six


def form_of(name: str) -> str:
    """The form of a command's symbol."""
    return ('maxi' if name == 'BD' else 'matrix' if name in SQUARES else 'stacked' if name in STACKED else 'fixed')


def symbol(command: Command, data: bytes) -> Symbol:
    """The symbol of a command and its field's data; raises Refused."""
    make = MAKERS.get(command.name)
    if not make:
        raise Refused('it is not written')
    return make(command, data)


def postal(command: Command, data: bytes) -> Symbol:
    kind = command.letter(4, '0123', '0')
    if kind == '3':
        digits = digits_of(data.replace(b',', b'').replace(b'-', b''))
        if len(digits) not in (20, 25, 29, 31):
            raise Refused('it takes 20, 25, 29 or 31 digits')
        # zint takes the routing code behind a dash
        parted = digits[:20] + ('-' + digits[20:] if digits[20:] else '')
        return Symbol('USPS', 85, parted.encode(), form='postal', text=digits.encode())
    bars = digits_of(data.replace(b'-', b'')).encode()
    return Symbol(*(('Planet', 82) if kind == '1' else ('POSTNET', 40)), bars, form='postal', text=data)


def code_128(command: Command, data: bytes) -> Symbol:
    """Modes U and D: a number of 19 digits with its check, and elements of GS1."""
    if command.letter(5, 'UDAN', 'N') == 'U':
        text = digits_of(data)[:19].rjust(19, '0')
        text += check_of_tens(text)
        return Symbol('Code 128', 16, bracketed([(b'00', text[2:].encode())]) if text[:2] == '00' else
                      bracketed([(text[:2].encode(), text[2:].encode())]), ('--gs1nocheck',), text=text.encode())
    elements = spelled(data.replace(b' ', b'')) or divided(data.replace(b'>8', b'\x1d').lstrip(b'\x1d'))
    if not elements:
        raise Refused('its data have no identifiers')
    shown = b''.join(b'(%s)%s' % it for it in elements)
    return Symbol('Code 128', 16, bracketed(elements), ('--gs1nocheck',), text=shown)


def logmars(command: Command, data: bytes) -> Symbol:
    return Symbol('Code 39', 8, data.strip(b'*'), ('--vers=1',), 'two', data.strip(b'*'))


def pdf_417(command: Command, data: bytes) -> Symbol:
    """PDF417 of as many rows and columns as it takes, or of others than are asked for."""
    level, columns, rows = command.number(2, 0), command.number(3, 0), command.number(4, 0)
    words = [f'--secure={min(level, 8)}']
    words += [f'--cols={columns}'] if 1 <= columns <= 30 else []
    words += [f'--rows={rows}'] if 3 <= rows <= 90 and columns else []
    kind = 56 if command.letter(5, 'YN', 'N') == 'Y' else 55
    lines = re.sub(rb'\\([&\\])', lambda it: b'\r\n' if it[1] == b'&' else b'\\', data)
    return Symbol('PDF417', kind, lines, tuple(words), 'stacked')


def micro_pdf(command: Command, data: bytes) -> Symbol:
    return Symbol('MicroPDF417', 84, data, (f'--cols={MICRO[min(command.number(2, 0), 33)]}',), 'stacked')


def rune(command: Command, data: bytes) -> Symbol:
    """Aztec's rune of a number to 255."""
    if command.number(3, 0) != 300:
        raise Refused(LONG)
    return Symbol('Aztec', 128, data, (), 'matrix')


def maxicode(command: Command, data: bytes) -> Symbol:
    mode = int(command.letter(0, '23456', '2'))
    if mode in (2, 3):
        head, rest = data[:3] + data[3:6], data[6:]
        front = rest.find(b'[)>')
        post = rest[:9] if front < 0 else rest[:front]
        body = rest[len(post):]
        post = post.strip() if mode == 3 else (post.strip() + b'0' * 9)[:9]
        primary = post.decode('latin-1') + head[3:6].decode('latin-1') + head[:3].decode('latin-1')
        return Symbol('MaxiCode', 57, body or b' ', (f'--mode={mode}', f'--primary={primary}'), 'maxi')
    return Symbol('MaxiCode', 57, data, (f'--mode={mode}',), 'maxi')


def data_bar(command: Command, data: bytes) -> Symbol:
    kind = command.number(1, 1, 1, 12)
    main = data.split(b'|')[0]
    if kind in (7, 8, 9, 10):
        return of_shops(kind, main)
    if kind in (11, 12) or b'|' in data:
        raise Refused('composite symbols are not written')
    if kind == 6:
        elements = spelled(main) or divided(main.replace(b'>8', b'\x1d'))
        if not elements:
            raise Refused('its identifiers cannot be told apart')
        return Symbol('DataBar', 31, bracketed(elements), ('--gs1nocheck',))
    digits = digits_of(main)[-14:][:13].rjust(13, '0').encode()
    number, rows = {1: (29, None), 2: (29, None), 3: (79, (5, 1, 7)), 4: (80, (33, 1, 1, 1, 33)), 5: (30, None)}[kind]
    return Symbol('DataBar', number, digits, form='stacked' if rows else 'fixed', rows=rows)


def of_shops(kind: int, data: bytes) -> Symbol:
    """UPC-A, UPC-E, EAN-13 and EAN-8 of ^BR, without text."""
    if kind == 8:
        return Symbol('UPC-E', 37, upc_e(data).encode())
    count, name, number = {7: (11, 'UPC-A', 34), 9: (12, 'EAN-13', 13), 10: (7, 'EAN-8', 13)}[kind]
    return Symbol(name, number, digits_of(data)[:count].rjust(count, '0').encode())


def qr(command: Command, data: bytes) -> Symbol:
    """QR where it is larger than version 10, of a front that is one: its level, and what follows it."""
    front = re.match(rb'([HQML])(?:A,|M,(?:[NA]|B\d{4}))', data)
    if not front:
        raise Refused(UNSUPPORTED)
    return Symbol('QR', 58, data[front.end():], (f'--secure={b"LMQH".index(front[1]) + 1}',), 'matrix')


def with_number(name: str, kind: int, form: str, is_text: bool = True) -> Callable[[Command, bytes], Symbol]:
    return lambda command, data: Symbol(name, kind, data, (), form, data if is_text else None)


MAKERS: Dict[str, Callable[[Command, bytes], Symbol]] = {
    'B0': rune, 'BO': rune, 'BL': logmars, 'B7': pdf_417, 'BC': code_128, 'BD': maxicode, 'BF': micro_pdf, 'BQ': qr,
    'BR': data_bar, 'BZ': postal, 'BI': with_number('Industrial 2 of 5', 7, 'two'),
    'BP': with_number('Plessey', 86, 'two'), 'B4': with_number('Code 49', 24, 'stacked', False),
    'B5': with_number('Planet', 82, 'postal'), 'BB': with_number('Codablock', 74, 'stacked', False),
}
