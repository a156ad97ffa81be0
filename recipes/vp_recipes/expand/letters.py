"""Letters: which a stream's bytes are, by the table that it chooses, and which cells of the sheet show them."""
import unicodedata
from typing import Dict, FrozenSet, Optional, Tuple

from ..tables import characters

# The tables of ESC t, by Epson's numbers, as Python names them; those that it hasn't are left out.
PAGES = {
    0: 'cp437', 2: 'cp850', 3: 'cp860', 4: 'cp863', 5: 'cp865', 13: 'cp857', 14: 'cp737', 15: 'iso8859-7',
    16: 'cp1252', 17: 'cp866', 18: 'cp852', 19: 'cp858', 32: 'cp720', 33: 'cp775', 34: 'cp855', 35: 'cp861',
    36: 'cp862', 37: 'cp864', 38: 'cp869', 39: 'iso8859-2', 40: 'iso8859-15', 44: 'cp1125', 45: 'cp1250',
    46: 'cp1251', 47: 'cp1253', 48: 'cp1254', 49: 'cp1255', 50: 'cp1256', 51: 'cp1257', 52: 'cp1258', 53: 'kz1048',
}
# The tables of ^CI, by Zebra's numbers. 0 to 13 are code page 850 with some letters of a country.
CHOICES = {**{n: 'cp850' for n in range(14)}, 15: 'shift-jis', 16: 'euc-jp', 17: 'utf-16-be', 27: 'cp1252', 28: 'utf-8',
           29: 'utf-16-be', 30: 'utf-16-le', 31: 'cp1250', 33: 'cp1251', 34: 'cp1253', 35: 'cp1254', 36: 'cp1255'}
# The signs that a country changes, and what they become: the sets of ISO 646. By ESC R's number, and by ^CI's.
SIGNS = '#$@[\\]^`{|}~'
COUNTRIES = {
    1: '#$à°ç§^`éùè¨', 2: '#$§ÄÖÜ^`äöüß', 3: '£$@[\\]^`{|}~', 4: '#$@ÆØÅ^`æøå~', 5: '#¤ÉÄÖÅÜéäöåü',
    6: '#$@°\\é^ùàòèì', 7: '₧$@¡Ñ¿^`¨ñ}~', 8: '#$@[¥]^`{|}~', 9: '#¤ÉÆØÅÜéæøåü', 10: '#$ÉÆØÅÜéæøåü',
    11: '#$á¡Ñ¿é`íñóú', 12: '#$á¡Ñ¿éüíñóú', 13: '#$@[₩]^`{|}~', 14: '#$ŽŠĐĆČžšđćč', 15: '#¥@[\\]^`{|}~',
    16: '#₫@[\\]^`{|}~', 17: SIGNS, **dict.fromkeys([*range(66, 76), 82], SIGNS),
}
LABEL_COUNTRIES = {2: 3, 4: 9, 5: 5, 6: 2, 7: 1, 8: 1, 9: 6, 10: 7, 12: 8}
# The byte whose cell stands where the sheet has no letter: no table has one there.
NONE = 0x7F
# From here on a character stands for a cell by its number.
ITSELF = 0xF700
SPACES = {'\u00a0': ' ', '\u202f': ' ', '\u2009': ' ', '\u00ad': '-'}
# What stands for a letter that is none with marks, where the nearest is taken.
NEAREST = {'ł': 'l', 'Ł': 'L', 'đ': 'd', 'Đ': 'D', '’': "'", '‘': "'", '“': '"', '”': '"', '–': '-', '—': '-',
           '…': '.', '€': 'E'}
NO_LETTERS: FrozenSet[str] = frozenset()


class Bytes(Dict[str, int]):
    """The byte of each character's cell, found as it is asked for; `lacks` has those without one."""

    def __init__(self, letters: 'Letters') -> None:
        super().__init__()
        self.letters = letters
        self.lacks: Dict[str, None] = {}

    def __missing__(self, char: str) -> int:
        byte = self.letters.cell(char)
        if byte is None:
            self.lacks[char] = None
        self[char] = NONE if byte is None else byte
        return self[char]


class Letters:
    """The cells of a sheet that shows a `table`; `nearest` takes a letter without its marks where it has none. `chars`
    has the character of each byte, `cells` the byte of each character, `bytes` what was asked for, `own` the character
    that stands for each byte itself; in a plain sheet the letters of ASCII are their own cells."""

    def __init__(self, table: str = 'cp858', nearest: bool = False) -> None:
        self.table, self.nearest = table, nearest
        self.chars: Dict[int, str] = characters(table)
        self.cells = {char: byte for byte, char in reversed(list(self.chars.items()))}
        self.bytes = Bytes(self)
        self.own = {byte: self.chars.get(byte) or chr(ITSELF + byte) for byte in range(256)}
        self.is_plain = all(self.cells.get(chr(it)) == it for it in range(0x20, 0x7F))

    def cell(self, char: str) -> Optional[int]:
        """The byte whose cell shows a character, or None."""
        if ITSELF <= ord(char) < ITSELF + 256:
            return ord(char) - ITSELF
        byte = self.cells.get(char, self.cells.get(SPACES.get(char, '')))
        if byte is None and self.nearest:
            plain = unicodedata.normalize('NFKD', char)[:1]
            byte = self.cells.get(NEAREST.get(char, plain))
        return byte

    def written(self, text: str) -> Tuple[bytes, FrozenSet[str]]:
        """The bytes of a text, and the characters that the sheet hasn't."""
        if self.is_plain and text.isascii() and text.isprintable():
            return text.encode('ascii'), NO_LETTERS
        found = bytes(map(self.bytes.__getitem__, text))
        lacks = self.bytes.lacks
        return found, frozenset(it for it in text if it in lacks) if lacks and NONE in found else NO_LETTERS

    def text(self, data: bytes) -> str:
        """What bytes are that are the cells themselves; a byte without a letter stands for its cell."""
        return data.decode('latin-1').translate(self.own)


def named(char: str) -> str:
    """A character as it is told."""
    shown = f' {char}' if char.isprintable() and not char.isspace() else ''
    return f'U+{ord(char):04X}{shown}'


def decoded(data: bytes, table: str, country: Optional[int] = None) -> str:
    """The characters of bytes in a table; a country changes some signs."""
    text = data.decode(table, 'replace')
    if table == 'cp864':
        # below 80 every table has ASCII on paper
        text = text.replace('\u066a', '%')
    if country:
        text = text.translate(dict(zip(map(ord, SIGNS), COUNTRIES[country])))
    return text
