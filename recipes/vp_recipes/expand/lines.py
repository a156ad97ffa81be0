"""The lines of a receipt as they are written: what is set in them, and those upside down as pictures."""
from typing import Dict, Iterator, List, Optional, Tuple

from .cells import Cells
from .options import Options
from .pictures import Picture
from .places import Written
from .receipts import Unit, units
from ..program import run
from ..streams import WHOLE

# What sets how the next letters stand, and is said again before a line that vp prints on its own.
STYLES = {'esc 20', 'esc 21', 'esc 2d', 'esc 45', 'esc 47', 'esc 4d', 'esc 61', 'esc 44', 'gs 21', 'gs 42', 'gs 4c',
          'gs 57'}
WIDTH = 576
# So many lines upside down are printed; those beyond stay upright.
MOST = 500


class Lines:
    """The lines of a receipt on their way into a stream: `styles` that are in force, the `spacing` of lines, the font's
    `letter` and how many `times` as wide and high it is, where the `area` lies, and the `line` that is gathered, of old
    bytes from one to another. So many lines upside down were printed (`count`)."""

    def __init__(self, options: Options, stream: Written) -> None:
        self.options, self.stream, self.count = options, stream, 0
        self.sheets: Dict[str, Cells] = {}
        self.reset()

    def reset(self) -> None:
        self.styles: Dict[str, bytes] = {}
        self.spacing, self.is_upside_down = 34, False
        self.line: Optional[Tuple[int, int, bytearray]] = None
        self.left, self.area = 0, WIDTH
        self.letter, self.times = 'a', (1, 1)

    def is_full(self) -> bool:
        return self.count >= MOST

    def font(self) -> str:
        return self.letter

    def size(self) -> Tuple[int, int]:
        return self.times

    def cells(self, letter: str) -> Cells:
        if letter not in self.sheets:
            words = self.options.sheet
            self.sheets[letter] = Cells(words, letter if f'--font-{letter}' in words else 'a')
        return self.sheets[letter]

    # ---- what comes

    def keep(self, unit: Unit) -> None:
        """A unit as it came."""
        if unit.kind == 'command':
            self.styled(unit)
        ends = (unit.kind, unit.name) in (('control', '0a'), ('command', 'esc 4a'), ('command', 'esc 64'))
        if self.is_upside_down and ends:
            self.turned_line(unit)
        elif self.is_upside_down and unit.kind != 'command':
            self.gather(unit.start, unit.end, self.stream.old[unit.start:unit.end])
        elif self.is_upside_down and self.line and unit.name in STYLES | {'esc 24', 'esc 5c', 'esc 2a'}:
            self.gather(unit.start, unit.end, self.stream.old[unit.start:unit.end])
        else:
            self.end()
            self.stream.keep(unit.start, unit.end)

    def keep_bytes(self, start: int, end: int) -> None:
        if start == end:
            return
        if self.is_upside_down:
            self.gather(start, end, self.stream.old[start:end])
        else:
            self.stream.keep(start, end)

    def anew(self, data: bytes, start: int, end: int) -> None:
        if self.is_upside_down and not data.startswith(b'\x1d'):
            self.gather(start, end, data)
        else:
            self.end()
            self.stream.anew(data, start, end)

    def styled(self, unit: Unit) -> None:
        name, arguments = unit.name, unit.arguments
        if name in STYLES and not (self.is_upside_down and self.line):
            self.styles.pop(name, None)
            self.styles[name] = self.stream.old[unit.start:unit.end]
        if name == 'esc 32':
            self.spacing = 34
        elif name == 'esc 33':
            self.spacing = arguments[0]
        elif name == 'esc 21':
            self.letter = 'ab'[arguments[0] & 1]
            self.times = 1 + (arguments[0] >> 5 & 1), 1 + (arguments[0] >> 4 & 1)
        elif name == 'esc 4d' and arguments[0] in (0, 1, 48, 49):
            self.letter = 'ab'[arguments[0] & 1]
        elif name == 'gs 21' and not arguments[0] & 0x88:
            self.times = 1 + (arguments[0] >> 4), 1 + (arguments[0] & 7)

    # ---- lines upside down

    def upside_down(self, is_so: bool, left: int, area: int) -> None:
        if is_so != self.is_upside_down and not (self.line and is_so is False):
            self.end()
        elif self.line:
            self.end()
        self.is_upside_down, self.left, self.area = is_so and self.count < MOST, left, area

    def gather(self, start: int, end: int, data: bytes) -> None:
        first, _, gathered = self.line or (start, end, bytearray())
        gathered += data
        self.line = first, end, gathered

    def end(self) -> None:
        """What stands in a line that nothing ended, as it came."""
        if self.line:
            start, end, data = self.line
            self.line = None
            self.stream.anew(bytes(data), start, end)

    def turned_line(self, unit: Unit) -> None:
        """The line that a unit ends: a picture of it, turned about, and the feed."""
        start, _, gathered = self.line or (unit.start, unit.end, bytearray())
        self.line, data = None, bytes(gathered)
        self.count += 1
        self.is_upside_down = self.count < MOST
        found = self.printed(data) if data else [Picture(0, [])]
        feed = {'0a': self.spacing, 'esc 4a': 0, 'esc 64': 0}[unit.name]
        count = unit.arguments[0] if unit.arguments else 0
        feed = count if unit.name == 'esc 4a' else self.spacing * count if unit.name == 'esc 64' else feed
        out = b''
        for n, it in enumerate(found):
            if it.rows:
                out += it.turned('I').as_raster()
            left = (feed if n + 1 == len(found) else self.spacing) - it.height
            while left > 0:
                out += b'\x1bJ' + bytes([min(left, 255)])
                left -= 255
        self.styles.update(self.later(data))
        self.stream.anew(out, start, unit.end)

    def later(self, data: bytes) -> Iterator[Tuple[str, bytes]]:
        """The styles that a line set, which hold behind it."""
        for it in units(data):
            if it.kind == 'command' and it.name in STYLES:
                yield it.name, data[it.start:it.end]

    def printed(self, data: bytes) -> List[Picture]:
        """The strips that vp prints of a line, each as wide as the line."""
        stream = b''.join(self.styles.values()) + b'\x1b3\0' + data + b'\n'
        out, _, _ = run(['receipt', WHOLE, *self.options.sheet], stream)
        room, at = min(self.area, WIDTH - self.left), 0
        found: List[Picture] = []
        while at < len(out):
            stop = out.index(b'\n', at + 3)
            width, height = map(int, out[at + 3:stop].split())
            stride = (width + 7) // 8
            whole = Picture.of_bytes(out[stop + 1:stop + 1 + stride * height], stride, height)
            at = stop + 1 + stride * height
            mask = (1 << room) - 1
            found.append(Picture(room, [row >> width - self.left - room & mask for row in whole.rows]))
        return found or [Picture(0, [])]
