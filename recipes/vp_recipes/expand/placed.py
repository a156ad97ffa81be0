"""A field of a label: its commands, and where what stands in it lies."""
from typing import Dict, List, NamedTuple, Optional, Tuple

from . import label_symbols
from .cells import Cells
from .formats import data_of
from .labels import Command
from .letters import Letters
from .options import Options
from .pictures import Picture
from .remarks import Remarks
from .store import Store

CONTENTS = {'FD', 'FV', 'GB', 'GF', 'GC', 'GD', 'GE', 'GS', 'XG', 'IM'}
# The commands that make a field; all others are settings.
SETS = {'FO', 'FT', 'A', 'FB', 'TB', 'FP', 'FR', 'FH', 'FN', 'FE', 'FC', 'FS', 'SN', 'SF'}
PARTS = CONTENTS | SETS | set(label_symbols.NAMES)

Point = Tuple[int, int]


class Settings(NamedTuple):
    """What is in force: ^CF's font, height and width (None where it wasn't given), ^FW, ^BY, ^CI, where ^LH lies."""
    font: str = 'A'
    height: Optional[int] = None
    width: Optional[int] = None
    turn: str = 'N'
    module: int = 2
    ratio: int = 30
    bars: int = 10
    choice: Optional[int] = None
    home: Point = (0, 0)


def changed(settings: Settings, command: Command) -> Settings:
    """The settings behind a command."""
    name = command.name
    if name == 'CF':
        letter = (command.parameter(0)[:1] or settings.font).upper()
        height, width = (command.number(n, 0, 0, 1500) or None for n in (1, 2))
        return settings._replace(font=letter, height=height, width=width)
    if name == 'FW':
        return settings._replace(turn=command.letter(0, 'NRIB', 'N'))
    if name == 'BY':
        ratio = command.parameter(1)
        digits = ratio.replace('.', '') if ratio.count('.') == 1 else ratio + '0'
        tenths = min(max(int(digits), 20), 30) if len(digits) == 2 and digits.isascii() and digits.isdigit() else 30
        return settings._replace(module=command.number(0, 2, 1, 10), ratio=tenths, bars=command.number(2, 10, 1, 8000))
    if name == 'CI':
        return settings._replace(choice=command.number(0, 0))
    if name == 'LH':
        return settings._replace(home=(command.number(0, 0, 0, 32000), command.number(1, 0, 0, 32000)))
    return settings


class Kept:
    """What the fields of a stream share: what was asked for and is told, its letters and stored things, the `sheet`
    that texts in pictures are drawn from; `after`, the point behind the last text, and how many `dots` of pictures
    were written."""

    def __init__(self, options: Options, remarks: Remarks) -> None:
        self.options, self.remarks = options, remarks
        self.letters, self.store = Letters(options.table, options.nearest), Store(options.store)
        self.sheet = Cells(options.sheet)
        self.after: Point = (0, 0)
        self.dots = 0


class Placed:
    """The `commands` of one field, closed while these `settings` are in force: the last of each name (`parts`), its
    `content`, `symbol` and place (`at`), the byte that it is told at (`start`), its `data`."""

    def __init__(self, commands: List[Command], settings: Settings, kept: Kept) -> None:
        self.commands, self.settings, self.kept = commands, settings, kept
        self.remarks = kept.remarks
        self.parts: Dict[str, Command] = {}
        self.content: Optional[Command] = None
        self.symbol: Optional[Command] = None
        self.at: Optional[Command] = None
        for command in commands:
            name = command.name
            self.parts[name] = command
            if name in CONTENTS:
                self.content = command
            elif name in label_symbols.NAMES:
                self.symbol = command
            elif name in ('FO', 'FT'):
                self.at = command
        self.start = commands[0].start
        self.data = data_of(commands) or b''

    def moved(self) -> bool:
        """Whether the place isn't a plain one: aligned at the right, or behind the last text."""
        if not self.at:
            return False
        return self.moved_right() or self.is_typeset() and not (self.at.parameter(0) and self.at.parameter(1))

    def moved_right(self) -> bool:
        return bool(self.at) and self.at is not None and self.at.parameter(2) == '1'

    def is_typeset(self) -> bool:
        return self.at is not None and self.at.name == 'FT'

    def place(self) -> Point:
        if not self.at:
            return 0, 0
        after = self.kept.after if self.is_typeset() and not self.moved_right() else (0, 0)
        x, y = (self.at.number(n, after[n] if not self.at.parameter(n) else 0, 0, 32000) for n in (0, 1))
        return x, y

    def corner(self, width: int, height: int, turn: str, below: int = 0) -> Point:
        """The upper left corner of a box that is turned; so many of its rows hang `below` the baseline."""
        x, y = self.place()
        above = height - below
        if not self.is_typeset():
            return (x - (width if turn in 'NI' else height) if self.moved_right() else x), y
        # of ^FT the point is where the text begins on its baseline, or where it ends
        begin, end = (0, width) if self.moved_right() else (width, 0)
        return {'N': (x - end, y - above), 'R': (x - below, y - end), 'I': (x - begin, y - below),
                'B': (x - above, y - begin)}[turn]

    def ended(self, corner: Point, width: int, height: int, turn: str, below: int) -> None:
        """Keeps the point behind a text whose box stands at a corner, on its baseline."""
        (x, y), above = corner, height - below
        point = {'N': (x + width, y + above), 'R': (x + below, y + width), 'I': (x, y + below),
                 'B': (x + above, y)}[turn]
        self.kept.after = max(0, point[0]), max(0, point[1])

    def flags(self) -> bytes:
        return b'^FR' if 'FR' in self.parts else b''

    def pictured(self, picture: Picture, turn: str = 'N', below: int = 0) -> bytes:
        """A picture in the field's place, cut where it lies off the label's left or upper edge."""
        x, y = self.corner(picture.width, picture.height, turn, below)
        return self.laid(picture.turned(turn), x, y)

    def laid(self, picture: Picture, x: int, y: int) -> bytes:
        picture = picture.cut(max(0, -x), max(0, -y))
        if not picture.rows or picture.width <= 0:
            return b''
        self.kept.dots += picture.width * picture.height
        return b'^FO%d,%d' % (max(0, x), max(0, y)) + self.flags() + picture.as_field() + b'^FS'

    def again(self) -> Optional[bytes]:
        """The same commands, where the stream has them otherwise; None where they are as they stand in it."""
        is_moved = self.moved()
        if not is_moved and 'FV' not in self.parts and all(it.is_plain for it in self.commands):
            return None
        if is_moved and self.at:
            return self.again_as({id(self.at): b'^%s%d,%d' % (self.at.name.encode(), *self.place())})
        return self.again_as({})

    def again_as(self, written: Dict[int, bytes]) -> bytes:
        """The same commands, some of them, by their ids, written otherwise."""
        out = []
        for command in self.commands:
            if command.name in ('FD', 'FV'):
                out.append(escaped(self.data) if command is self.content else b'')
            elif command.name not in ('FH', 'FS'):
                out.append(written.get(id(command)) or command.written())
        return b''.join([*out, b'^FS'])


def escaped(data: bytes) -> bytes:
    """Bytes as ^FD, by ^FH where it needs it."""
    if data.isascii() and data.decode('ascii').isprintable() and b'^' not in data and b'~' not in data:
        return b'^FD' + data
    if any(it < 0x20 or it in b'^~' for it in data):
        return b'^FH_^FD' + b''.join(b'_%02X' % it if it < 0x20 or it in b'^~_' else bytes([it]) for it in data)
    return b'^FD' + data
