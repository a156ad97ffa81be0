"""What a printer prints and vp doesn't, or not so."""
import re
from typing import Dict, Iterator, List, Optional, Sequence, Tuple

from .bounds import HELD, Bounds
from .expand.labels import commands
from .faults import times, told
from .labels import Edges, off_edges, outside
from .program import direct, find_vp, ran
from .sheets import drawn, sheet_words, without_cell
from .streams import WHOLE, Items, becomes, code_of, first_byte, listing, named, raw, skipped, table
from .values import BITS, FIGURES, is_start, unread

# The bytes that ESC R draws as characters of a country.
COUNTRY = b'#$@[\\]^`{|}~'
# What recipes/expand does of a command, by what the table of commands says.
BY_EXPAND = {'expanded': ', and written anew by recipes/expand', 'said': '',
             'left out': ', and left out by recipes/expand', 'printed': ', and drawn by the whole language'}
# Commands of labels whose parameters it looks at.
LOOKED_AT = '^FO', '^FT', '^GB', '^FB', '^CF', '^A'
LEADS = {'10': 'dle', '1B': 'esc', '1C': 'fs', '1D': 'gs'}
# What begins the data of a picture that is packed.
PACKED = re.compile(rb':[ZB]64:', re.IGNORECASE)


def is_shown(command: str, raw: Optional[bytes], later: Sequence[int]) -> bool:
    """Whether the paper would show what a command sets, where these bytes are drawn behind it."""
    if raw is not None and is_start(command, raw):
        return False
    if command in ('esc 74', 'fs 26', '^CI', '^SE'):
        return any(it > 0x7F for it in later)
    if command == 'esc 52':
        return any(it in COUNTRY for it in later)
    if command in (*BITS, *FIGURES):
        return bool(later)
    return True


def passed(data: bytes, items: Items, language: str) -> Iterator[Tuple[int, str, Optional[bytes]]]:
    """What is read past and the paper of a printer would show: the number of the item, the command, its bytes."""
    known, last = table(), {byte: n for n, byte, _ in drawn(items, language)}
    for n, command in skipped(items, language):
        if known.get((language, command), (True, ''))[0]:
            code, text = raw(data, items, n), items[n][1]
            if code is None and language == 'receipt':
                code = code_of(text)
            if is_shown(command, code, [byte for byte, at in last.items() if at > n]):
                yield n, command, code


def off_reading(items: Items) -> Iterator[Tuple[int, str]]:
    """Parameters that a printer looks at and vp doesn't: the number of the item and a line, each said once."""
    found: Dict[Tuple[str, str], List[int]] = {}
    for n, (_, text) in enumerate(items):
        what = unread(text)
        if what:
            found.setdefault((text, what), [n, 0])[1] += 1
    for (text, what), (n, count) in found.items():
        by_expand = ', unless recipes/expand writes it anew' if text.startswith(LOOKED_AT) else ''
        yield n, f'{text} {what}{by_expand}' + (f': {times(count)}' if count > 1 else '')


def packed(number: str, data: bytes) -> Optional[str]:
    """Why a fault of a picture is one, where some picture of the stream is packed."""
    if number == 'F7' and PACKED.search(data.translate(None, b'\r\n')):
        return 'a picture that begins with :Z64: or :B64: is packed, which recipes/expand reads'
    return None


def fault_line(number: str, text: str, data: bytes) -> str:
    """What a fault means for what stands behind it."""
    why = packed(number, data)
    text += f': {why}' if why else ''
    if number == 'F1':
        lead, byte = text.split(' ')[-2:]
        text += BY_EXPAND.get(by_expand(f'{LEADS.get(lead)} {byte.lower()}'), '')
    if number == 'F2' and text.endswith('unsupported'):
        text += ', and perhaps written anew by recipes/expand'
    return f'{number} {text}: nothing behind it is printed'


def by_expand(command: str) -> str:
    """What recipes/expand does of a command of receipts, or of the first that is known of a family."""
    known = becomes()
    return next((word for (language, it), word in known.items()
                 if language == 'receipt' and (it == command or it.startswith(f'{command} '))), '')


def without_copies(data: bytes, language: str) -> bytes:
    """A stream of labels of which each is printed once, of as many bytes: copies are alike."""
    if language != 'label' or b'PQ' not in data.upper():
        return data
    found = bytearray(data)
    for it in commands(data):
        front, comma, rest = it.rest.partition(b',')
        if it.name == 'PQ' and it.sign == '^' and it.is_plain and len(front) > 1:
            at = it.end - len(it.rest)
            found[at:at + len(front)] = b'1'.ljust(len(front))
    return bytes(found)


def read_past(data: bytes, items: Items, language: str) -> Iterator[Tuple[int, str]]:
    """Commands that a printer's paper would show: the number of the item, and a line."""
    known = table()
    for n, command, _ in passed(data, items, language):
        what = known.get((language, command), (True, ''))[1]
        name = named(command, items[n][1])
        done = BY_EXPAND.get(becomes().get((language, command), ''), '')
        yield n, f'{name} {what}: it is read past{done}' if what else f'{name} is no command that is known'


def not_drawn(items: Items, language: str, sheet: Sequence[str]) -> Iterator[Tuple[int, str]]:
    """Bytes whose cell is white, or shows the byte: the number of the first's item, and a line."""
    given = sheet_words(sheet)
    white: Dict[str, List[int]] = {}
    for (font, byte), (count, n) in without_cell(items, language, sheet).items():
        if font in given or 'a' in given:
            whose = (font if font in given else 'a').upper()
            yield n, f'byte {byte:02X} has no character in the sheet of font {whose}: {times(count)}'
        else:
            white.setdefault(font, [0, n])[0] += count
    for font, (count, n) in white.items():
        yield n, f'no sheet of font {font.upper()} is named: its characters are white, {times(count)}'


def ending(data: bytes, words: Sequence[str], language: str, own: Bounds) -> List[Tuple[Optional[int], str]]:
    """The fault that a stream ends in which words print, or the bound that it reaches, as (place, line)."""
    # paper of any length is of no use here
    made = ran(words, without_copies(data, language), own, False)
    if made.reached:
        return [(made.reached.byte, str(made.reached._replace(byte=None)))]
    fault = re.match(r'vp: (F\d+) after (\d+) bytes: (.*)', told(words, made.status, made.line))
    if not fault:
        return []
    place, text = int(fault[2]), fault[3]
    if fault[1] == 'F1':
        place = max(0, data.rfind(bytes.fromhex(text[-5:]), 0, place))
    return [(place, fault_line(fault[1], text, data))]


def remarks(data: bytes, language: str, sheet: Sequence[str], vp: Optional[Sequence[str]] = None, own: Bounds = HELD,
            whole: bool = True) -> List[Tuple[Optional[int], str]]:
    """What a printer prints and vp doesn't, or not so, by the whole language or by the profile, as (place, line):
    `sheet` are the words that name the sheets."""
    items, _ = listing(data, language, vp, dots=False, whole=whole)
    found = [*read_past(data, items, language), *not_drawn(items, language, sheet)]
    if language == 'label':
        found += [(n, f'the field of {name} stands outside ^XA and ^XZ: it is not printed')
                  for n, name in outside(items)]
        found += off_reading(items)
        found += off_edges(items, Edges(sheet, vp, own.seconds, whole))
    lines = [(first_byte(data, *items[n]), line) for n, line in sorted(found)]
    words = [*(vp or find_vp()), language, *([WHOLE] if whole else []), *sheet]
    lines += ending(data, direct(words), language, own)
    return sorted(lines, key=lambda it: it[0] or 0) if all(place is not None for place, _ in lines) else lines
