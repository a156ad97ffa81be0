"""The commands of a receipt's stream, by the grammar of docs/escpos.md and the lengths of those that it leaves out."""
import re
from typing import Dict, Iterator, NamedTuple, Optional, Tuple


class Unit(NamedTuple):
    """Bytes `start` to `end`: a text, a control byte, a text for the customer's display, or a command by its name as
    the listing has it (lead and next byte, of families the third too), whose arguments are the bytes behind that. A
    command that isn't known is of kind 'unknown', and what is cut at the end of kind 'cut'."""
    kind: str
    name: str
    start: int
    end: int
    arguments: bytes


LEADS = {0x1B: 'esc', 0x1D: 'gs', 0x1C: 'fs', 0x10: 'dle'}
TEXT = re.compile(rb'[\x20-\xff]+')
# What ends a text for the display: ESC = with the printer's bit.
LISTENS = re.compile(rb'\x1b=[%s]' % re.escape(bytes(range(1, 256, 2))))
# How many bytes each command takes behind its name: those of the profile, and others.
FIXED = {
    'esc': {0: '2 @ L S i m \x0c', 1: '! - 3 E G J d M T a % ? R t = U r { V', 2: '$ \\', 3: 'p', 8: 'W'},
    'gs': {1: '! B H f h w a r I b', 2: '$ L W P \\'},
    'fs': {0: '. &', 1: '! - C W', 2: 'S p'},
    'dle': {1: '\x05'},
}
BEYOND = {
    'esc': {0: '< v 4 5 o q', 1: 'K e l Q u F z 8 9 A', 2: 'B f', 3: 'C 7'},
    'gs': {0: ': c i < \x05 \x0c', 1: '/ E T j | \x03 \x04', 2: 'A', 3: '^ z'},
    'fs': {0: 'c', 1: 'b', 2: '?', 74: '2'},
}


def sizes(*tables: Dict[str, Dict[int, str]]) -> Dict[Tuple[str, int], int]:
    return {(lead, ord(sign)): count for table in tables for lead, counts in table.items()
            for count, signs in counts.items() for sign in signs.split(' ')}


SIZES = {**sizes(FIXED, BEYOND), ('esc', 0x20): 1}


def word(data: bytes, at: int) -> int:
    return int.from_bytes(data[at:at + 2], 'little')


def rising(data: bytes, at: int) -> Optional[int]:
    """How many bytes the tab stops at a place take: up to one that doesn't rise, or the 32nd."""
    last = 0
    for n in range(32):
        if at + n >= len(data):
            return None
        if data[at + n] <= last:
            return n + 1
        last = data[at + n]
    return 32


# How many bytes an argument stands for, by the first one: commands whose length it says.
BY_FIRST: Dict[Tuple[str, str], Dict[int, int]] = {
    ('esc', 'c'): dict.fromkeys(b'01345', 2),
    ('gs', 'V'): {**dict.fromkeys((0, 1, 48, 49), 1), **dict.fromkeys(b'ABabgh', 2)},
    ('gs', 'g'): dict.fromkeys(b'02', 4),
    ('gs', 'C'): {48: 3, 49: 7, 50: 3},
    ('fs', 'a'): {48: 2, 49: 1, 50: 1},
}
# Those for which another first byte has a length too.
OTHERWISE: Dict[Tuple[str, str], Tuple[Dict[int, int], int]] = {
    ('dle', '\x04'): (dict.fromkeys((7, 8, 18), 2), 1),
    ('dle', '\x14'): ({1: 3, 2: 3, 3: 6, 7: 2, 8: 8}, 3),
}


def measured(lead: str, name: str, data: bytes, at: int) -> Optional[int]:
    """How many bytes a command takes behind its two bytes, that says so itself; None where the stream ends before it
    says, -1 where there is no such command."""
    key, rest = (lead, name), len(data) - at
    if key == ('esc', 'D'):
        return rising(data, at)
    if rest < 1:
        return None if key in MEASURED or key in BY_FIRST or key in OTHERWISE or name == '(' else -1
    first = data[at]
    if key in BY_FIRST and (first in BY_FIRST[key] or key != ('gs', 'C')):
        return BY_FIRST[key].get(first, -1)
    if key in OTHERWISE:
        lengths, other = OTHERWISE[key]
        return lengths.get(first, other)
    if name == '(' and lead != 'dle':
        return 3 + word(data, at + 1) if rest > 2 else None
    return MEASURED[key](data, at, first) if key in MEASURED else -1


def columns(data: bytes, at: int, kind: int) -> Optional[int]:
    """ESC *."""
    if kind not in (0, 1, 32, 33):
        return -1
    return 3 + word(data, at + 1) * (3 if kind > 1 else 1) if at + 2 < len(data) else None


def raster(data: bytes, at: int, first: int) -> Optional[int]:
    """GS v 0 and GS Q 0."""
    if first != 48:
        return -1
    return 6 + word(data, at + 2) * word(data, at + 4) if at + 5 < len(data) else None


def bars(data: bytes, at: int, kind: int) -> Optional[int]:
    """GS k in both its forms."""
    if kind <= 6:
        end = data.find(b'\0', at + 1)
        return end + 1 - at if end >= 0 else None
    if not 65 <= kind <= 79:
        return -1
    return 2 + data[at + 1] if at + 1 < len(data) else None


def long_graphics(data: bytes, at: int, first: int) -> Optional[int]:
    """GS 8."""
    return 5 + int.from_bytes(data[at + 1:at + 5], 'little') if at + 4 < len(data) else None


def loaded(data: bytes, at: int, first: int) -> Optional[int]:
    """GS *."""
    return 2 + 8 * first * data[at + 1] if at + 1 < len(data) else None


def counter(data: bytes, at: int, first: int) -> Optional[int]:
    """GS C ; and five more of these."""
    if first != 0x3B:
        return -1
    place = at
    for _ in range(5):
        place = data.find(b';', place + 1)
        if place < 0:
            return None
    return place + 1 - at


def bitmap(data: bytes, at: int, first: int) -> Optional[int]:
    """GS D: seven bytes, and a BMP file that has its length."""
    if at + 13 > len(data):
        return None
    return 7 + max(14, int.from_bytes(data[at + 9:at + 13], 'little'))


def user_bytes(data: bytes, at: int, first: int) -> Optional[int]:
    """FS g 1 and FS g 2."""
    if first not in b'12':
        return -1
    if at + 8 > len(data):
        return None
    return 8 + (word(data, at + 6) if first == 0x31 else 0)


def user_characters(data: bytes, at: int, height: int) -> Optional[int]:
    """ESC &: the height in bytes, the first and the last character, and of each its width and its columns."""
    if at + 2 >= len(data):
        return None
    place = at + 3
    for _ in range(data[at + 1], data[at + 2] + 1):
        if place >= len(data):
            return None
        place += 1 + height * data[place]
    return place - at


def kept_pictures(data: bytes, at: int, count: int) -> Optional[int]:
    """FS q: how many pictures, and of each its width and height in eights and its bytes."""
    place = at + 1
    for _ in range(count):
        if place + 3 >= len(data):
            return None
        place += 4 + 8 * word(data, place) * word(data, place + 2)
    return place - at


# Other commands that say their length themselves, from a place on whose byte is given.
MEASURED = {
    ('esc', '*'): columns, ('esc', '&'): user_characters, ('gs', 'v'): raster, ('gs', 'Q'): raster, ('gs', 'k'): bars,
    ('gs', '8'): long_graphics, ('gs', '*'): loaded, ('gs', 'C'): counter, ('gs', 'D'): bitmap,
    ('fs', 'q'): kept_pictures,
    ('fs', 'g'): user_bytes,
}


# Those whose first argument says how long they are: one that isn't known ends behind it.
SAID_BY_FIRST = {*BY_FIRST, ('esc', '*'), ('gs', 'v'), ('gs', 'Q'), ('gs', 'k'), ('gs', 'z'), ('fs', 'g')}


def units(data: bytes) -> Iterator[Unit]:
    """The units of a stream in turn. One of no known command is two bytes, and a third one where that should have said
    how long it is, as vp reads them past."""
    at, end = 0, len(data)
    while at < end:
        byte = data[at]
        if byte >= 0x20:
            text = TEXT.match(data, at)
            stop = text.end() if text else end
            yield Unit('text', 'text', at, stop, b'')
            at = stop
            continue
        lead = LEADS.get(byte)
        if not lead:
            yield Unit('control', f'{byte:02x}', at, at + 1, b'')
            at += 1
            continue
        if at + 1 >= end:
            yield Unit('cut', lead, at, end, b'')
            return
        second = data[at + 1]
        if byte == second == 0x1B:
            # a command that was broken off: the second one begins anew
            yield Unit('command', 'esc 1b', at, at + 1, b'')
            at += 1
            continue
        size = SIZES.get((lead, second))
        if size is None:
            size = measured(lead, chr(second), data, at + 2)
        name = f'{lead} {second:02x}'
        if size == -1:
            stop = min(end, at + (3 if (lead, chr(second)) in SAID_BY_FIRST else 2))
            yield Unit('unknown', name, at, stop, b'')
            at = stop
            continue
        if size is None or at + 2 + size > end:
            yield Unit('cut', name, at, end, b'')
            return
        if second == 0x28 or lead == 'gs' and second == 0x38:
            name += f' {data[at + 2]:02x}'
        yield Unit('command', name, at, at + 2 + size, data[at + 2:at + 2 + size])
        at += 2 + size
        if name == 'esc 3d' and data[at - 1] and not data[at - 1] & 1:
            listens = LISTENS.search(data, at)
            stop = listens.start() if listens else end
            yield Unit('display', 'display', at, stop, b'')
            at = stop
