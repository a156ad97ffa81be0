"""The symbol of a label's field: vp's, the picture of one that vp doesn't draw, or a frame where there is none."""
from typing import Optional, Tuple

from . import asking, label_symbols, symbols, zint
from .labels import Command
from .pictures import Picture
from .placed import Placed, escaped


class SymbolField(Placed):
    """A field whose content is a symbol's data."""

    def of_symbol(self, command: Command) -> Optional[bytes]:
        """The field anew, None where vp prints it as it is."""
        name = command.name
        if self.is_drawn(command):
            why = self.refused(command)
            if not why:
                return self.drawn(command)
            if name not in label_symbols.MAKERS or why not in (asking.UNSUPPORTED, asking.LONG):
                return self.framed(command, why)
        if not self.data:
            self.remarks.not_written(command.start, f'^{name}: its field has no data')
            return b''
        try:
            symbol = label_symbols.symbol(command, self.data)
            drawing, turn = self.drawing(command)
            found = symbols.picture(symbol, drawing, turn)
        except zint.Refused as refusal:
            return self.framed(command, str(refusal))
        except FileNotFoundError:
            return self.framed(command, f'{label_symbols.NAMES[name]} needs zint: a frame stands in its place')
        self.remarks.anew(command.start, f'^{name}: {symbol.name} is written as a picture')
        return self.symbol_at(found, turn, drawing.cells.size[1] if drawing.below and symbol.text else 0)

    def symbol_at(self, found: Picture, turn: str, below: int = 0) -> bytes:
        """A picture that is turned already, in the field's place; so many rows of text are `below` its bars."""
        width, height = (found.width, found.height) if turn in 'NI' else (found.height, found.width)
        return self.laid(found, *self.corner(width, height, turn, below if self.is_typeset() else 0))

    def framed(self, command: Command, why: str) -> bytes:
        """A frame with the symbol's name in its place, and why."""
        self.remarks.not_written(command.start, f'^{command.name}: {why}')
        drawing, turn = self.drawing(command)
        name, form = label_symbols.NAMES[command.name], label_symbols.form_of(command.name)
        found = symbols.frame(symbols.Symbol(name, 0, self.data, form=form), drawing, turn)
        return self.symbol_at(found, turn)

    # ---- those of vp

    def is_drawn(self, command: Command) -> bool:
        """Whether vp draws such a symbol: of Code 128 without the modes U and D."""
        return command.name in label_symbols.DRAWN and (command.name != 'BC' or command.letter(5, 'UD', '') == '')

    def settings_of_bars(self) -> bytes:
        """^BY as it is in force."""
        it = self.settings
        return b'^BY%d,%d.%d,%d' % (it.module, it.ratio // 10, it.ratio % 10, it.bars)

    def refused(self, command: Command) -> str:
        """Why vp refuses the data of its own symbol, or ''."""
        field = self.settings_of_bars() + self.in_words(command) + escaped(self.data)
        why = asking.refusal('label', b'^XA^PW1^LL1' + field + b'^XZ')
        if why == asking.WHY['symbol: set'] and command.name == 'BQ':
            return 'its data begin without a level and a comma, as QA,'
        return why

    def is_first_model(self, command: Command) -> bool:
        return command.name == 'BQ' and command.number(1, 2, 1, 2) == 1

    def in_words(self, command: Command) -> bytes:
        """The command as vp takes it: of QR the second model, where the first is asked for."""
        if not self.is_first_model(command):
            return command.written()
        first, _, *others = command.parameters()
        return b'^BQ' + ','.join([first, '2', *others]).encode('latin-1')

    def drawn(self, command: Command) -> Optional[bytes]:
        """vp's symbol, None where it stands as it is: with text below its bars its point of ^FT is the bars' lower end,
        and with a place that isn't a plain one it is said. Of QR it is the other model where the first is asked for."""
        drawing, turn = self.drawing(command)
        below = drawing.cells.size[1] if drawing.below and self.is_typeset() else 0
        if not (self.moved() or below or self.is_first_model(command)):
            return self.again()
        written = {id(command): self.in_words(command)}
        if self.is_first_model(command):
            self.remarks.not_written(command.start, '^BQ: model 1 of QR is written as model 2')
        if below:
            self.remarks.anew(command.start,
                              f'^{command.name}: the lower end of its bars stands at ^FT, not of its text')
        # (where the place is at the left the box's size counts for nothing)
        width, height = self.drawn_size(command) if self.moved_right() else (0, 0)
        x, y = self.corner(width, height, turn, below)
        if self.at and self.is_typeset():
            # the point of vp is the lower left corner of the box as it is read
            dx, dy = {'N': (0, height), 'R': (0, 0), 'I': (width, 0), 'B': (height, width)}[turn]
            written[id(self.at)] = b'^FT%d,%d' % (max(0, x + dx), max(0, y + dy))
        elif self.at:
            written[id(self.at)] = b'^FO%d,%d' % (max(0, x), max(0, y))
        return self.again_as(written)

    def drawn_size(self, command: Command) -> Tuple[int, int]:
        """How wide and high the box of vp's own symbol is, before it is turned."""
        data = escaped(self.data)
        upright, about = (f'^{command.name}{",".join([turn, *command.parameters()[1:]])}'.encode('latin-1') + data
                          for turn in 'NI')
        width, height = asking.size(self.settings_of_bars(), upright, about)
        # (QR is a square that isn't turned)
        return (height, height) if command.name == 'BQ' else (width, height)

    # ---- how it is drawn

    def drawing(self, command: Command) -> Tuple[symbols.Drawing, str]:
        """How large the symbol's parts are, and how it is turned."""
        settings, name = self.settings, command.name
        turn = 'N' if name in ('BQ', 'BD') else command.letter(0, 'NRIB', settings.turn)
        narrow, height, above, below = settings.module, settings.bars, False, False
        if name in label_symbols.BARS:
            high, shown, over, is_shown, is_over = label_symbols.BARS[name]
            height = command.number(high, settings.bars, 1, 8000)
            is_shown = command.letter(shown, 'YN', is_shown) if shown else is_shown
            is_over = command.letter(over, 'YN', is_over) if over else is_over
            above, below = is_shown == 'Y' and is_over == 'Y', is_shown == 'Y' and is_over == 'N'
        if name in label_symbols.STACKED:
            rows = 30 if name == 'B7' else 20
            height = command.number(1, max(1, settings.bars // rows), 1, 8000)
        elif name == 'BX':
            narrow = command.number(1, max(1, settings.bars // 20), 1, 4000)
        elif name in ('B0', 'BO'):
            narrow = command.number(1, 2, 1, 10)
        elif name == 'BQ':
            narrow = command.number(2, 2, 1, 10)
        elif name == 'BR':
            narrow, height = command.number(2, 2, 1, 10), command.number(4, 25, 1, 32000)
            kind = command.number(1, 1, 1, 12)
            height = 13 * narrow if kind == 2 else max(height, {1: 33, 5: 10, 6: 34}.get(kind, 1) * narrow)
        wide = symbols.wide_of_label(narrow, settings.ratio)
        return symbols.Drawing(narrow, wide, height, above, below, self.kept.sheet), turn
