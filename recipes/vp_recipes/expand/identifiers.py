"""Data of GS1: element strings divided at their application identifiers."""
import re
from typing import List, Optional, Tuple

# How long an identifier is, by its first two digits, and the length of the data of those that need no end.
LENGTHS = {'23': 3, '24': 3, '25': 3, '31': 4, '32': 4, '33': 4, '34': 4, '35': 4, '36': 4, '39': 4, '40': 3, '41': 3,
           '42': 3, '43': 4, '70': 4, '71': 3, '72': 4, '80': 4, '81': 4, '82': 4}
FIXED = {'00': 18, '01': 14, '02': 14, '03': 14, '04': 16, '11': 6, '12': 6, '13': 6, '14': 6, '15': 6, '16': 6,
         '17': 6, '18': 6, '19': 6, '20': 2, '31': 6, '32': 6, '33': 6, '34': 6, '35': 6, '36': 6, '41': 13}

Elements = List[Tuple[bytes, bytes]]


def divided(data: bytes, end: bytes = b'\x1d') -> Optional[Elements]:
    """Elements as (identifier, data), None where they can't be told apart."""
    found = []
    for part in data.split(end):
        while part:
            start = part[:2].decode('latin-1')
            size = LENGTHS.get(start, 2)
            name, rest = part[:size], part[size:]
            if len(name) < size or not name.isdigit() or not rest:
                return None
            length = FIXED.get(start, len(rest))
            found.append((name, rest[:length]))
            part = rest[length:]
    return found or None


def spelled(data: bytes) -> Optional[Elements]:
    """Elements in round brackets as (identifier, data), None where they aren't so."""
    parts = re.findall(rb'\((\d{2,4})\)([^(]*)', data)
    return parts if parts and b''.join(b'(%s)%s' % it for it in parts) == data else None


def bracketed(elements: Elements) -> bytes:
    """As zint takes them."""
    return b''.join(b'[%s]%s' % it for it in elements)
