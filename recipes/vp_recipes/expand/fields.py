"""A field of a label: what stands in it, whether vp prints it as a printer does, and how it is written anew."""
from typing import Optional

from . import shapes, symbols
from .labels import Command
from .pictures import Bad, Picture, read
from .placed import Point
from .store import named
from .symbol_fields import SymbolField
from .text_fields import TextField

# So many dots of pictures are written for one stream.
MOST_DOTS = 1 << 26


class Field(TextField, SymbolField):
    """A field of any content."""

    def written(self) -> Optional[bytes]:
        """The field anew, None where it stays, b'' where it prints nothing."""
        command = self.content
        if not command:
            return None
        name = command.name
        if name in ('FD', 'FV'):
            if 'GS' in self.parts:
                return self.sign(self.parts['GS'])
            return self.of_symbol(self.symbol) if self.symbol else self.of_text()
        if name in ('GB', 'GC', 'GE', 'GD'):
            return self.shape(command)
        if name == 'GF':
            return self.graphic(command)
        if name in ('XG', 'IM'):
            return self.stored(command)
        return self.again()

    # ---- pictures and shapes

    def graphic(self, command: Command) -> Optional[bytes]:
        head = command.rest.split(command.comma, 4)
        kind = command.letter(0, 'ABC', 'A')
        if len(head) < 5:
            return self.again()
        data = head[4]
        is_packed = data.translate(None, b'\r\n \t')[:5].upper() in (b':Z64:', b':B64:')
        if kind == 'A' and not is_packed or kind == 'B' and command.is_plain and not self.moved_right():
            return self.placed_graphic(command)
        return self.unpacked(command, kind, data)

    def placed_graphic(self, command: Command) -> Optional[bytes]:
        """A picture that vp reads itself: where its right edge is at the place, by its width."""
        if not self.moved_right() or not self.at:
            return self.again()
        width = 8 * command.number(3, 0)
        x, y = self.corner(width, command.number(2, 0) // max(1, width // 8), 'N')
        return self.again_as({id(self.at): b'^FO%d,%d' % (max(0, x), max(0, y))})

    def unpacked(self, command: Command, kind: str, data: bytes) -> bytes:
        try:
            if self.is_too_much(8, command.number(2, 0)):
                return b''
            picture, why = read(kind, data, command.number(2, 0), command.number(3, 0))
        except Bad as bad:
            self.remarks.not_written(command.start, f'^GF: {bad}')
            return b''
        if why:
            self.remarks.not_written(command.start, f'^GF: {why}')
        else:
            self.remarks.anew(command.start, '^GF: a packed picture is written in plain codes')
        return self.pictured(picture)

    def is_too_much(self, width: int, height: int) -> bool:
        """Whether a picture of this size is more than is written of one stream."""
        if self.kept.dots + width * height <= MOST_DOTS and width * height <= symbols.MOST:
            return False
        self.kept.dots = MOST_DOTS
        self.remarks.not_written(self.start, f'pictures of more than {symbols.MOST:,} dots, or {MOST_DOTS:,} in all')
        return True

    def stored(self, command: Command) -> bytes:
        name = named(command.parameter(0), 'GRF')
        thing = self.kept.store.find(name) if name else None
        if not isinstance(thing, Picture):
            self.remarks.not_written(command.start, f'^{command.name}{command.parameter(0)} prints a picture '
                                     'that is not stored')
            return b''
        across, down = (command.number(n, 1, 1, 10) if command.name == 'XG' else 1 for n in (1, 2))
        if self.is_too_much(thing.width * across, thing.height * down):
            return b''
        self.remarks.anew(command.start, f'the picture {name} is written out')
        return self.pictured(thing.magnified(across, down))

    def shape(self, command: Command) -> Optional[bytes]:
        """A shape that vp draws itself, but for round corners: where its right edge is at the place, by its width."""
        t = command.number(2, 1, 1, 32000)
        width, height = self.size_of_shape(command, t)
        round_by = command.number(4, 0, 0, 8) if command.name == 'GB' else 0
        if round_by and not self.is_white(command) and not self.is_too_much(width, height):
            self.remarks.anew(command.start, '^GB: a box with round corners is written as a picture')
            return self.pictured(shapes.rounded(width, height, t, round_by))
        if not self.moved_right() or not self.at:
            return self.again()
        x, y = self.corner(width, height, 'N')
        return self.again_as({id(self.at): b'^FO%d,%d' % (max(0, x), max(0, y))})

    def size_of_shape(self, command: Command, t: int) -> Point:
        """How wide and high a shape is whose lines are t dots thick."""
        if command.name == 'GB':
            return max(t, command.number(0, t, 1, 32000)), max(t, command.number(1, t, 1, 32000))
        if command.name == 'GC':
            side = command.number(0, 3, 3, 4095)
            return side, side
        least, most = (max(3, t), 32000) if command.name == 'GD' else (max(3, min(t, 4095)), 4095)
        return command.number(0, least, 3, most), command.number(1, least, 3, most)

    def is_white(self, command: Command) -> bool:
        if command.letter(3, 'BW', 'B') != 'W' or 'FR' in self.parts:
            return False
        self.remarks.not_written(command.start, '^GB: a white box with round corners is not written')
        return True

    def sign(self, command: Command) -> bytes:
        height, width = (command.number(n, own or 24, 1, 1500)
                         for n, own in ((1, self.settings.height), (2, self.settings.width)))
        found = shapes.sign(self.data[:1].decode('latin-1').upper(), width, height)
        if not found:
            self.remarks.not_written(command.start, '^GS: a sign that is not drawn')
            return b''
        self.remarks.anew(command.start, '^GS: a sign is written as a picture')
        return self.pictured(found, command.letter(0, 'NRIB', self.settings.turn))
