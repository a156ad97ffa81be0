"""Tables of one byte as Python names them: which character each byte is, and which tables are none."""
import codecs
import unicodedata
from typing import Dict, Set

from .faults import Fault


def characters(table: str) -> Dict[int, str]:
    """The character of each byte from 20 on that a table has. It has the digits and letters of ASCII, or is none."""
    found: Dict[int, str] = {}
    try:
        coder = codecs.lookup(table)
        for byte in range(0x20, 0x100):
            try:
                char = coder.decode(bytes([byte]))[0]
            except UnicodeDecodeError:
                continue
            if not isinstance(char, str) or len(char) != 1:
                raise LookupError
            found[byte] = char
        is_one = all(found.get(ord(it)) == it for it in '0189AZaz') and any(byte >= 0x80 for byte in found)
    # what isn't a table of text raises whatever its module does
    except Exception:  # noqa: BLE001
        is_one = False
    if not is_one and table.lower().replace('_', '-') not in ('ascii', 'us-ascii'):
        raise Fault(f'{table}: no table of one byte', 2)
    return found


def is_space(char: str) -> bool:
    return unicodedata.category(char) == 'Zs'


def shown(table: str) -> Dict[int, str]:
    """The bytes of a table that are drawn, and the character of each."""
    return {byte: char for byte, char in characters(table).items() if not is_space(char)
            and unicodedata.category(char) != 'Cc'}


def spaces(table: str) -> Set[int]:
    return {byte for byte, char in characters(table).items() if is_space(char)}
