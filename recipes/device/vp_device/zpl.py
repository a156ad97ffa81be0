"""What a label printer answers: the strings of ZPL II, by its state."""
from __future__ import annotations

import re
from typing import List, NamedTuple

from .state import State

STX, ETX, LINE = '\x02', '\x03', '\r\n'
# What a field of ^HV gives of its data at most, where it doesn't say how much.
MOST_FIELD = 64


class Work(NamedTuple):
    """What a printer has to do: the length of its labels in dots, formats that wait, labels left of the batch, whether
    a format came in part, and how dark it prints."""

    length: int = 1218
    waiting: int = 0
    left: int = 0
    in_part: bool = False
    darkness: int = 10


def framed(text: str) -> str:
    return f'{STX}{text}{ETX}{LINE}'


def host_status(state: State, work: Work) -> str:
    """~HS: three strings."""
    first = (f'030,{state.paper == "out":d},{state.paused:d},{min(work.length, 9999):04},{min(work.waiting, 999):03},'
             f'{state.buffer_full:d},0,{work.in_part:d},000,0,{state.head_cold:d},{state.head_hot:d}')
    second = f'000,0,{state.cover_open:d},{state.ribbon_out:d},0,2,6,0,{min(work.left, 99999999):08},1,000'
    return framed(first) + framed(second) + framed('0000,0')


def flags(of: List['tuple[bool, int]']) -> str:
    """A flag, and two groups of eight hex digits: of the bits that are set."""
    value = sum(bit for is_set, bit in of if is_set)
    return f'{1 if value else 0} {0:08X} {value:08X}'


def errors(state: State) -> str:
    return flags([(state.paper == 'out', 0x1), (state.ribbon_out, 0x2), (state.cover_open, 0x4),
                  (state.cutter_error, 0x8), (state.head_hot, 0x10), (state.error, 0x40), (state.paused, 0x10000)])


def host_query(what: str, state: State) -> str:
    """~HQ: the state (ES) or the serial number (SN); others have no answer."""
    if what == 'ES':
        lines = ['', '  PRINTER STATUS', f'   ERRORS:         {errors(state)}',
                 f'   WARNINGS:       {flags([(state.paper == "near end", 0x8)])}', '']
        return STX + LINE.join(lines) + ETX + LINE
    if what == 'SN':
        return STX + LINE.join(['', '  SERIAL NUMBER', f'   {state.serial}', '']) + ETX + LINE
    return ''


def settings(state: State, work: Work) -> str:
    """^HH: a line for each setting."""
    values = [(f'{work.darkness:.1f}', 'DARKNESS'), ('TEAR OFF', 'PRINT MODE'), ('GAP/NOTCH', 'MEDIA TYPE'),
              ('DIRECT-THERMAL', 'PRINT METHOD'), (f'{work.length}', 'LABEL LENGTH'), (state.firmware, 'FIRMWARE'),
              (state.model, 'MODEL'), (state.serial, 'SERIAL NUMBER')]
    return STX + ''.join(f'  {value:<20} {name}{LINE}' for value, name in values) + ETX


def diagnostics(state: State, work: Work) -> str:
    """~HD: the head, a line for each value."""
    warmth = 75 if state.head_hot else 5 if state.head_cold else 28
    lines = [f'Head Temp = {warmth}', 'Ambient Temp = 22', 'Head Test = Passed', f'Darkness Adjust = {work.darkness}',
             'Print Speed = 4', 'Slew Speed = 6', 'Backfeed Speed = 2']
    return STX + LINE + ''.join(it + LINE for it in lines) + ETX + LINE


def answer(name: str, data: bytes, state: State, work: Work) -> bytes:
    """The bytes that answer a request; none where it has no answer."""
    plain = {'~HM': '8192,8192,8192', '~HI': f'{state.model},{state.firmware},8,8192KB'}
    if name == '~HS':
        said = host_status(state, work)
    elif name in plain:
        said = framed(plain[name])
    elif name == '~HQ':
        said = host_query(data.decode('latin-1').upper(), state)
    elif name == '^HH':
        said = settings(state, work)
    elif name == '~HD':
        said = diagnostics(state, work)
    elif name == '~HU':
        said = STX + ETX
    elif name == '^HW':
        place = data.decode('latin-1').strip() or 'R:*.*'
        said = f'{STX}{LINE}- DIR {place}{LINE}{LINE}-  8388608 bytes free {place[:2]}{LINE}{ETX}'
    else:
        said = ''
    return said.encode('latin-1', 'replace')


def work(recent: bytes, waiting: int, left: int, darkness: int) -> Work:
    """What a printer has to do, by the last bytes that came."""
    lengths = re.findall(rb'\^LL(\d{1,5})', recent, re.IGNORECASE)
    is_open = recent.upper().rfind(b'^XA') > recent.upper().rfind(b'^XZ')
    return Work(int(lengths[-1]) if lengths else Work().length, waiting, left, is_open, darkness)


def field(recent: bytes, arguments: bytes) -> bytes:
    """^HV: the data of a field of ^FN in the format that came last, between two texts."""
    number, count, before, behind = (*arguments.split(b',')[:4], b'', b'', b'', b'')[:4]
    if not number.strip().isdigit() or count.strip() and not count.strip().isdigit():
        return b''
    start = max(0, recent.upper().rfind(b'^XA'))
    found = re.findall(rb'\^FN0*%d(?!\d)(?:(?!\^FS|\^FD).)*\^FD([^^~]*)' % int(number), recent[start:],
                       re.DOTALL | re.IGNORECASE)
    most = min(256, int(count or MOST_FIELD))
    data: bytes = found[-1] if found else b''
    return before + data.strip(b'\r\n')[:most] + behind.rstrip(b'\r\n')
