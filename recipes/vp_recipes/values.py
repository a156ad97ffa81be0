"""What commands say: which values are those that a printer begins with, and which a printer looks at and vp doesn't."""
import re
from typing import Optional, Tuple

# Skipped commands of labels, by the parameters that a printer begins with; and signs, by what they are at the start.
LABEL_DEFAULTS = {'^LT': '0', '^LS': '0', '^JM': 'A', '^MC': 'Y', '^CV': 'N', '^CI': '0', '^MU': 'D', '^FP': 'H,0',
                  '^PA': '0,0,0,0'}
SIGNS = {'CC': '^', 'CD': ',', 'CT': '~'}
# Commands of receipts that are read past, by the bytes behind them that a printer begins with.
RECEIPT_DEFAULTS = {'esc 74': '00', 'esc 3d': '00|.[13579bdf]', 'gs 50': '00 00', 'fs 53': '00 00', 'fs 21': '00',
                    'gs 28 4b': '02 00 (30|31|32) (00|30)',
                    'gs 28 4e': '02 00 30 31|02 00 31 30|03 00 32 31 (00|30)'}
# Switches that are off where the last bit is 0, and settings that are so at 0 and at the figure 0.
BITS, FIGURES = ('esc 25', 'esc 7b', 'gs 62'), ('esc 52', 'esc 56', 'esc 72', 'fs 2d', 'fs 43', 'fs 57')
# A printer's letters of font 0 are about so wide in a cell of a hundred, and narrower than such cells for a height of
# 4.
FONT_0, WIDE = 60, 3


def is_start(command: str, raw: bytes) -> bool:
    """Whether a skipped command with these bytes sets what is so at the start."""
    if command[1:] in SIGNS:
        return raw.translate(None, b'\\r\\n')[3:4].decode('latin-1') in ('', SIGNS[command[1:]])
    if command in LABEL_DEFAULTS:
        said = raw[3:].decode('latin-1').translate({ord(it): None for it in ' \r\n'}).upper().split(',')
        start = LABEL_DEFAULTS[command].split(',')
        return all(it in ('', of) or of == '0' and it.strip('+-0') == '' for it, of in
                   zip(said, start + [''] * len(said)))
    values = raw[len(command.split(' ')):].hex(' ')
    if command in RECEIPT_DEFAULTS:
        return re.fullmatch(RECEIPT_DEFAULTS[command], values) is not None
    if command in BITS:
        return raw[-1] & 1 == 0
    return command in FIGURES and raw[-1] in (0, 0x30)


def font(text: str) -> Tuple[str, int, int]:
    """The font that ^A or ^CF names, its height and its width, 0 where it isn't said."""
    name, sizes = (text[2:3], text[3:].split(',')[1:]) if text[:2] == '^A' else (text[3:4], text[4:].split(',')[1:])
    height, width = (int(it) if it.isascii() and it.isdigit() else 0 for it in [*sizes, '', ''][:2])
    return name.upper(), height, width


def is_wide(text: str) -> bool:
    """Whether a font is asked for whose letters are narrower on a printer than its cells here."""
    name, height, width = font(text)
    return name == '0' and height > 0 and 4 * width > WIDE * height


def narrowed(text: str) -> str:
    """A wide font, as wide as a printer's letters are about."""
    _, height, width = font(text)
    return f'{text[:2] + text[2:].split(",")[0]},{height},{max(1, width * FONT_0 // 100)}'


def unread(text: str) -> Optional[str]:
    """What a printer does by an item of a label, and vp doesn't since it doesn't look at that parameter; or None."""
    name, said = text[:3], [*text[3:].split(','), *[''] * 5]
    if name in ('^FO', '^FT', '^FW') and said[1 if name == '^FW' else 2] == '1':
        return 'has fields end at their place on a printer, and begin there here'
    if name == '^GB' and said[4] in tuple('12345678'):
        return 'has round corners on a printer, and square ones here'
    if name == '^FB' and said[3].upper() == 'J':
        return 'makes lines of one width on a printer, and has them begin at the left here'
    if name == '^FB' and said[4].strip('0'):
        return 'moves lines behind the first to the right on a printer, and not here'
    if name == '^BC' and said[4].upper() == 'Y':
        return 'adds a check digit on a printer, and not here'
    if text[:3] == '^A@':
        return 'takes a font of the printer, and the sheet here'
    if (text[:2] == '^A' or name == '^CF') and is_wide(text):
        return f'has narrower letters on a printer than the cells of {font(text)[2]} dots here'
    return None
