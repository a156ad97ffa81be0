"""The text of a receipt: its letters as cells of the sheet, those that the till defined or turned as columns."""
import re
from typing import Dict, List, NamedTuple, Optional, Pattern, Tuple

from .letters import NONE, PAGES, Letters, decoded, named
from .lines import Lines
from .options import Options
from .places import Written
from .receipts import Unit
from .remarks import Remarks

# What is told of letters.
CELLS = "letters are written as the sheet's cells"
# The table that a printer begins with.
FIRST = 'cp437'
# How many bytes of columns go into one command, at 3 bytes each.
MOST_COLUMNS = 0xFFFF


class Changes(NamedTuple):
    """Of a table the bytes whose cell is another one in the sheet, what each byte becomes, and the characters of those
    that the sheet lacks."""
    others: Optional[Pattern[bytes]]
    cells: bytes
    lacking: Dict[int, str]


class TextWriter:
    """Writes a receipt's text. In force are the table (`code`), the `country`, how text is encoded beside the tables
    (`encoding`), whether two bytes are a character, whether the till's `own` letters are chosen, whether letters are
    `turned`. `declared` is the table that the new stream says, `known` what tables change, `columns` the cells that
    were turned."""

    def __init__(self, data: bytes, options: Options, stream: Written, remarks: Remarks) -> None:
        self.data, self.options, self.stream, self.remarks = data, options, stream, remarks
        self.letters, self.lines = Letters(options.table, options.nearest), Lines(options, stream)
        self.known: Dict[Tuple[str, int], Changes] = {}
        self.columns: Dict[Tuple[str, str], List[bytes]] = {}
        self.sheet_number = next((n for n, it in PAGES.items() if it == options.table), None)
        self.reset_letters()

    def reset_letters(self) -> None:
        """As ESC @ has it."""
        self.code, self.country, self.declared = FIRST, 0, FIRST
        self.encoding: Optional[str] = None
        self.is_two_byte, self.is_own, self.turned = False, False, False
        self.own: Dict[Tuple[str, int], List[bytes]] = {}

    def encoded(self) -> Optional[str]:
        return self.options.encoding or self.encoding

    def text(self, unit: Unit) -> None:
        data = self.data[unit.start:unit.end]
        if self.is_own and self.own or self.turned:
            self.by_letter(unit, data)
        elif self.is_two_byte and not data.isascii():
            self.two_byte(unit, data)
        elif self.encoded():
            self.of_encoding(unit, data)
        elif self.country or not data.isascii():
            self.of_table(unit, data)
        else:
            self.lines.keep(unit)

    def characters(self, data: bytes) -> str:
        """The letters of bytes by what is in force."""
        return decoded(data, self.encoded() or self.code, None if self.encoded() else self.country)

    def declaration(self) -> bytes:
        """ESC t, where the new stream doesn't say yet that its bytes are the sheet's table."""
        if self.declared == self.options.table or self.sheet_number is None:
            return b''
        self.declared = self.options.table
        return b'\x1bt' + bytes([self.sheet_number])

    def of_encoding(self, unit: Unit, data: bytes) -> None:
        """Text in an encoding of any length, run by run of what isn't ASCII."""
        encoding = self.encoded() or FIRST
        name = encoding.lower().replace('_', '-')
        if data.isascii():
            self.lines.keep(unit)
        elif name in ('utf-8', 'utf8') or name.startswith(('iso', 'latin', 'cp', 'koi')):
            at = 0
            for match in re.finditer(rb'[\x80-\xff]+', data):
                self.lines.keep_bytes(unit.start + at, unit.start + match.start())
                self.letters_of(unit.start + match.start(), unit.start + match.end(), decoded(match[0], encoding))
                at = match.end()
            self.lines.keep_bytes(unit.start + at, unit.end)
        else:
            self.letters_of(unit.start, unit.end, decoded(data, encoding))

    def of_table(self, unit: Unit, data: bytes) -> None:
        others, cells, lacking = self.changes()
        at, start = 0, unit.start
        if self.code != self.declared and not data.isascii() and not (others and others.search(data)):
            self.lines.anew(self.declaration() + data, start, unit.end)
            return
        for match in others.finditer(data) if others else ():
            first, end, found = match.start(), match.end(), match[0]
            self.lines.keep_bytes(start + at, start + first)
            for byte in lacking.keys() & set(found) if lacking else ():
                self.remarks.not_written(start + first, f'the sheet has no {named(lacking[byte])}')
            self.remarks.anew(start + first, CELLS)
            self.lines.anew(self.declaration() + found.translate(cells), start + first, start + end)
            at = end
        self.lines.keep_bytes(start + at, unit.end)

    def changes(self) -> Changes:
        key = self.code, self.country
        if key not in self.known:
            bytes_of = bytes(range(0x20, 0x100))
            chars = [decoded(bytes([it]), self.code, self.country) for it in bytes_of]
            cells = bytearray(range(256))
            others, lacking = bytearray(), {}
            for byte, char in zip(bytes_of, chars):
                cell = self.letters.cell(char)
                if cell is None:
                    lacking[byte] = char
                if cell != byte:
                    others.append(byte)
                    cells[byte] = NONE if cell is None else cell
            pattern = re.compile(b'[' + re.escape(bytes(others)) + b']+') if others else None
            self.known[key] = Changes(pattern, bytes(cells), lacking)
        return self.known[key]

    def letters_of(self, start: int, end: int, text: str) -> None:
        data, lacks = self.letters.written(text)
        for char in sorted(lacks):
            self.remarks.not_written(start, f'the sheet has no {named(char)}')
        said = b'' if data.isascii() else self.declaration()
        if data == self.data[start:end] and not said:
            self.lines.keep_bytes(start, end)
            return
        if data != self.data[start:end]:
            self.remarks.anew(start, CELLS)
        self.lines.anew(said + data, start, end)

    def two_byte(self, unit: Unit, data: bytes) -> None:
        at = 0
        for match in re.finditer(rb'(?:[\x80-\xff][\x20-\xff])+', data):
            self.lines.keep_bytes(unit.start + at, unit.start + match.start())
            self.remarks.not_written(unit.start + match.start(), 'characters of two bytes (FS &): the sheet has none')
            self.lines.anew(bytes([NONE]) * len(match[0]), unit.start + match.start(), unit.start + match.end())
            at = match.end()
        self.lines.keep_bytes(unit.start + at, unit.end)

    # ---- letters as columns

    def by_letter(self, unit: Unit, data: bytes) -> None:
        """Letters that the till defined, and letters that are turned, as columns in the line."""
        if self.stream.is_full():
            self.remarks.not_written(unit.start,
                                     'letters that the till defined, or that are turned, behind so many others '
                                     'stay as they are')
            self.lines.keep_bytes(unit.start, unit.end)
            return
        font, begun, found, is_drawn = self.lines.font(), unit.start, bytearray(), False
        across, down = self.lines.size()
        parts = self.letters_in(data) if self.turned else [(1, data[n:n + 1]) for n in range(len(data))]
        at = unit.start
        for count, part in parts:
            columns = self.turned_columns(part, font) if self.turned else self.own.get((font, part[0]))
            if columns is None:
                self.put_columns(found, begun, at)
                self.letters_of(at, at + count, self.characters(part))
                begun = at + count
            else:
                found += b''.join([it * across for it in columns])
                is_drawn = True
            at += count
        if down > 1 and is_drawn:
            self.remarks.not_written(unit.start,
                                     'letters that the till defined, or that are turned, are written once as high')
        self.put_columns(found, begun, at)

    def letters_in(self, data: bytes) -> List[Tuple[int, bytes]]:
        """The letters of a text, each with how many bytes it has."""
        if self.encoded() not in ('utf-8', 'utf8'):
            return [(1, data[n:n + 1]) for n in range(len(data))]
        return [(len(it), it) for it in re.findall(rb'[\x00-\x7f]|[\xc0-\xff][\x80-\xbf]*|[\x80-\xbf]', data)]

    def put_columns(self, found: bytearray, start: int, end: int) -> None:
        """Columns, three bytes each, in place of old bytes; none are left in them."""
        if not found:
            return
        self.remarks.anew(start, 'letters are turned' if self.turned
                          else 'letters that the till defined are written as columns')
        out = bytearray()
        for n in range(0, len(found), 3 * MOST_COLUMNS):
            part = found[n:n + 3 * MOST_COLUMNS]
            out += b'\x1b*\x21' + (len(part) // 3).to_bytes(2, 'little') + part
        self.lines.anew(bytes(out), start, end)
        found.clear()

    def turned_columns(self, letter: bytes, font: str) -> List[bytes]:
        """A cell turned by a quarter, as columns of 24 dots of which the lower ones are its own."""
        text = self.characters(letter)
        key = font, text
        if key not in self.columns:
            data, _ = self.letters.written(text)
            picture = self.lines.cells(font).line(data).turned('R')
            self.columns[key] = [int(it, 2).to_bytes(3, 'big') for it in
                                 (''.join(it).rjust(24, '0')[-24:] for it in zip(*picture.texts()))]
        return self.columns[key]
