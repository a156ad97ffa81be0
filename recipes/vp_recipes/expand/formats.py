"""Formats of labels as lists of commands: stored ones recalled, numbered fields filled, serial numbers counted."""
import functools
import re
from typing import Dict, Iterator, List, Match, Optional, Tuple

from .labels import Command, commands
from .remarks import Remarks
from .store import Store, named
from .work import Work

# How deep formats recall formats, and of how many commands a format may be with what it recalls.
DEPTH, MANY = 4, 8_000
# So many bytes of data a field has at most on a printer.
MOST_DATA = 3_072
HEX = re.compile(rb'[0-9A-Fa-f]{2}')
ENDS = ('FS', 'XZ')
DATA = ('FD', 'FV')

# The data of a numbered field, and the old bytes that they stand in.
Values = Dict[int, Tuple[bytes, int, int]]


def with_digits(data: bytes, sign: bytes) -> bytes:
    """The bytes of ^FD behind ^FH: the indicator and two hex digits are one byte."""
    out, at = bytearray(), 0
    while True:
        n = data.find(sign, at)
        if n < 0:
            return bytes(out + data[at:])
        out += data[at:n]
        if HEX.fullmatch(data, n + 1, n + 3):
            out.append(int(data[n + 1:n + 3], 16))
            at = n + 3
        else:
            out += data[n:n + 1]
            at = n + 1


def indicator(command: Command) -> bytes:
    found = command.parameter(0)
    return found.encode('latin-1') if len(found) == 1 else b'_'


def fields(found: List[Command]) -> Iterator[List[Command]]:
    """A format's commands, field by field: each list ends with what closes the field."""
    field: List[Command] = []
    for command in found:
        field.append(command)
        if command.sign == '^' and command.name in ENDS:
            yield field
            field = []
    if field:
        yield field


def data_of(field: List[Command]) -> Optional[bytes]:
    """The data of a field's last ^FD or ^FV, or None."""
    sign, last = None, None
    for command in field:
        if command.sign == '^' and command.name == 'FH':
            sign = indicator(command)
        elif command.sign == '^' and command.name in DATA:
            last = command
    if last is None:
        return None
    return with_digits(last.data(), sign) if sign and not last.is_exact else last.data()


def number_of(field: List[Command]) -> Optional[int]:
    """The number that a field's last ^FN gives it, or None."""
    for command in reversed(field):
        if command.sign == '^' and command.name == 'FN':
            digits = re.match(r'\d{1,4}', command.parameter(0), re.ASCII)
            return int(digits[0]) if digits else None
    return None


@functools.lru_cache(64)
def inner(thing: bytes) -> Tuple[Command, ...]:
    """The commands of a stored format that stand in place of ^XF. Its last field is closed, as its ^XZ closed it."""
    found = [it for it in commands(thing) if it.sign != '^' or it.name not in ('XA', 'XZ', 'DF')]
    found = found[1:] if found and found[0].name == 'FS' else found
    return (*found, Command('^', 'FS')) if found and found[-1].name != 'FS' else tuple(found)


def divided(field: List[Command]) -> Iterator[List[Command]]:
    """A field, parted behind each ^XF in it: what it recalls is closed, with ^FS behind it or without."""
    part: List[Command] = []
    for command in field:
        part.append(command)
        if command.sign == '^' and command.name == 'XF':
            yield part
            part = []
    if part:
        yield part


class Recall:
    """Formats with the stored ones that they recall, by the store, as far as the work goes."""

    def __init__(self, store: Store, remarks: Remarks, work: Work) -> None:
        self.store, self.remarks, self.work = store, remarks, work

    def whole(self, found: List[Command]) -> List[Command]:
        """A format with the formats that it recalls in place of ^XF, and its numbered fields filled. None of its
        commands are bytes of the stream then."""
        if not any(it.sign == '^' and it.name == 'XF' for it in found):
            return found
        values: Values = {}
        out: List[Command] = []
        self.recalled(found, values, out, 0)
        return [it.copied(it.start, it.end) if it.is_plain else it for it in filled(out, values)]

    def recalled(self, found: List[Command], values: Values, out: List[Command], depth: int) -> None:
        for field in (part for whole in fields(found) for part in divided(whole)):
            number = number_of(field)
            is_placed = any(it.sign == '^' and it.name in ('FO', 'FT', 'XF') for it in field)
            if depth == 0 and number is not None and not is_placed:
                values[number] = (data_of(field) or b'', field[0].start, field[-1].end)
                out += [it for it in field if it.sign != '^' or it.name not in ('FN', 'FH', 'FS', *DATA)]
                continue
            for command in field:
                if command.sign == '^' and command.name == 'XF':
                    self.format(command, values, out, depth)
                else:
                    out.append(command)

    def format(self, command: Command, values: Values, out: List[Command], depth: int) -> None:
        """The stored format in place of ^XF."""
        name = named(command.parameter(0), 'ZPL')
        thing = self.store.find(name) if name else None
        title = f'^XF{command.parameter(0)}'
        if not isinstance(thing, bytes):
            self.remarks.not_written(command.start, f'{title} recalls a format that is not stored')
        elif depth >= DEPTH:
            self.remarks.not_written(command.start, f'{title} recalls formats that recall it')
        elif len(out) > MANY:
            self.remarks.not_written(command.start,
                                     f'{title} recalls a format behind {MANY:,} commands: it is left out')
        elif not self.work.is_taken(len(thing)):
            self.remarks.not_written(command.start, f'{title} recalls a format behind so many others: it is left out')
        else:
            self.remarks.anew(command.start, f'the format {name} is recalled')
            stored = [it.copied(command.start, command.end) for it in inner(thing)]
            self.recalled(stored, values, out, depth + 1)


def filled(found: List[Command], values: Values) -> List[Command]:
    """The fields that have a number with the data of that number; those that have none print nothing."""
    out: List[Command] = []
    for field in fields(found):
        number = number_of(field)
        given = values.get(number) if number is not None else None
        embeds = [it for it in field if it.sign == '^' and it.name == 'FE']
        if given:
            data, start, end = given
            kept = [it if it.is_plain else it.copied(start, end) for it in field if it.name not in ('FN', 'FH', *DATA)]
            out += with_data(kept, Command.with_data(data, start, end))
        elif embeds:
            sign = (embeds[-1].parameter(0) or '#')[:1]
            text = embedded(data_of(field) or b'', sign.encode('latin-1'), values)
            kept = [it.copied(it.start, it.end) for it in field if it.name not in ('FE', 'FH', *DATA)]
            out += with_data(kept, Command.with_data(text, field[0].start, field[-1].end))
        else:
            out += field
    return out


def with_data(field: List[Command], data: Command) -> List[Command]:
    """A field with its data in front of what closes it."""
    is_closed = bool(field) and field[-1].name in ENDS
    return [*field[:-1], data, field[-1]] if is_closed else [*field, data]


def embedded(data: bytes, sign: bytes, values: Values) -> bytes:
    """Data in which #n# stands for those of field n, and #n,from,count# for a part; at most those that a field has."""
    quoted = re.escape(sign)
    out, at = bytearray(), 0
    for match in re.finditer(quoted + rb'(\d{1,4}(?:,\d{1,4}){0,2})' + quoted, data):
        out += data[at:match.start()] + embedded_part(match, values)
        at = match.end()
        if len(out) >= MOST_DATA:
            return bytes(out[:MOST_DATA])
    return bytes(out + data[at:])[:max(MOST_DATA, len(data))]


def embedded_part(match: Match[bytes], values: Values) -> bytes:
    numbers = [int(it) for it in match[1].split(b',')]
    text = values.get(numbers[0], (b'', 0, 0))[0]
    start = numbers[1] if len(numbers) > 1 else 0
    end = start + numbers[2] if len(numbers) > 2 and numbers[2] else None
    return text[start:end]


def serial(command: Command, n: int) -> bytes:
    """^SN's data on the n-th label: its last number counted up."""
    text, step = command.rest.translate(None, b'\r\n').split(command.comma)[0].decode('latin-1'), command.parameter(1)
    sign, digits = -1 if step.startswith('-') else 1, step.lstrip('-+')
    by = sign * (int(digits) if digits.isascii() and digits.isdigit() and len(digits) <= 12 else 1)
    found = list(re.finditer(r'\d+', text, re.ASCII))
    if not found:
        return text.encode('latin-1')
    last = found[-1]
    front, number = last[0][:-12], last[0][-12:]
    value = max(0, int(number) + by * n)
    counted_up = str(value).rjust(len(number), '0') if command.parameter(2).upper() == 'Y' or front else str(value)
    return (text[:last.start()] + front + counted_up + text[last.end():]).encode('latin-1')


SETS = {'D': '0123456789', 'H': '0123456789ABCDEF', 'O': '01234567', 'A': 'ABCDEFGHIJKLMNOPQRSTUVWXYZ',
        'N': '0123456789ABCDEFGHIJKLMNOPQRSTUVWXYZ'}


def masked(data: bytes, command: Command, n: int) -> bytes:
    """^SF's data on the n-th label: the places that the mask names, counted up by its second parameter."""
    mask, step = command.parameter(0), command.parameter(1)
    text, carry = list(data.decode('latin-1')), 0
    steps = step[::-1]
    for k in range(min(len(mask), len(text))):
        letters = SETS.get(mask[-1 - k].upper())
        if not letters:
            continue
        letters = letters.lower() if mask[-1 - k].islower() and mask[-1 - k] in 'ahn' else letters
        at = letters.find(text[-1 - k])
        if at < 0:
            continue
        by = letters.find(steps[k]) if k < len(steps) and steps[k] in letters else (1 if not step and k == 0 else 0)
        total = at + by * n + carry
        carry, text[-1 - k] = total // len(letters), letters[total % len(letters)]
    return ''.join(text).encode('latin-1')


def counted(field: List[Command], n: int) -> List[Command]:
    """A field with its serial number on the n-th label, as ^FD; the same where it has none."""
    serials = [it for it in field if it.sign == '^' and it.name in ('SN', 'SF')]
    if not serials:
        return field
    last, data = serials[-1], data_of(field)
    text = serial(last, n) if last.name == 'SN' else masked(data or b'', last, n)
    kept = [it.copied(it.start, it.end) for it in field if it.name not in ('SN', 'SF', 'FH', *DATA)]
    return with_data(kept, Command.with_data(text, field[0].start, field[-1].end))
