"""The text of a label's field: its letters as cells, its size as a printer's, its lines, each a field of its own."""
from typing import List, Optional, Tuple

from . import texts
from .letters import CHOICES, LABEL_COUNTRIES, decoded, named
from .placed import Placed, Point, escaped

CLOCK = 'aAbBdHIjmMpSUwWyY'


class TextField(Placed):
    """A field whose content is a text."""

    def characters(self) -> str:
        """The text."""
        letters, choice = self.kept.letters, self.settings.choice
        if choice is None:
            return letters.text(self.data)
        table = CHOICES.get(choice)
        if not table:
            self.remarks.not_written(self.start, f'^CI{choice}: a table that is not known')
            return letters.text(self.data)
        return decoded(self.data, table, LABEL_COUNTRIES.get(choice))

    def cells(self, text: str) -> bytes:
        data, lacks = self.kept.letters.written(text)
        for char in sorted(lacks):
            self.remarks.not_written(self.start, f'the sheet has no {named(char)}')
        return data

    def size(self) -> Tuple[Optional[texts.Size], Tuple[int, int]]:
        """The text's font in a printer's size and what vp takes, its height and width; the first is None where the font
        isn't known."""
        font, settings = self.parts.get('A'), self.settings
        given = (font.number(1, 0, 0, 1500) or None, font.number(2, 0, 0, 1500) or None) if font else (None, None)
        default = settings.height, settings.width
        letter = font.font.upper() if font else settings.font
        height, width = given if given != (None, None) else default
        if height is None and width is None:
            height, width = 9, 5
        height = height or default[0] or 9
        own = height, width or max(1, height // 2)
        if self.kept.options.keeps_sizes:
            return None, own
        return texts.size(letter, given, default), own

    def of_text(self) -> Optional[bytes]:
        if not self.data:
            return self.again() if 'FV' in self.parts else None
        if 'FC' in self.parts:
            self.clocked()
        text = self.characters()
        found, own = self.size()
        turn = self.parts['A'].letter(0, 'NRIB', self.settings.turn) if 'A' in self.parts else self.settings.turn
        if not found:
            return self.in_own_size(text, own, turn)
        if 'FB' in self.parts or 'TB' in self.parts:
            return self.block(text, found, turn)
        return self.line(text, found, turn, own)

    def in_own_size(self, text: str, own: Tuple[int, int], turn: str) -> Optional[bytes]:
        """A text that keeps its size: only its letters may be other bytes."""
        data = self.cells(text)
        if self.moved_right() or 'TB' in self.parts or 'FP' in self.parts:
            found = texts.Size('A', *own)
            return self.block(text, found, turn) if 'TB' in self.parts else self.line(text, found, turn, (0, 0))
        if data == self.data and not self.moved():
            return self.again()
        self.data = data
        out = b'^F%s%d,%d' % (b'T' if self.is_typeset() else b'O', *self.place()) + self.flags()
        out += b''.join(self.parts[it].written() for it in ('A', 'FB') if it in self.parts)
        self.remarks.anew(self.start, "letters are written as the sheet's cells")
        return out + escaped(data) + b'^FS'

    def below(self, found: texts.Size) -> int:
        """How many rows of a cell hang below the baseline."""
        return found.height * texts.BELOW // 24

    def line(self, text: str, found: texts.Size, turn: str, own: Tuple[int, int]) -> Optional[bytes]:
        gap, way = self.direction()
        wide = texts.cell(text, found) + gap
        count = len(text)
        below, data = self.below(found), self.cells(text)
        if way == 'V':
            step = found.height + gap
            runs = [texts.Run(0, n * step, it, texts.cell(it, found)) for n, it in enumerate(text)]
            width, height = max(it.cell for it in runs), step * count - gap
        else:
            runs, width, height = [texts.Run(0, 0, text, wide)], wide * count, found.height
        corner = self.corner(width, height, turn, below if self.is_typeset() else 0)
        self.ended(corner, width, height, turn, below)
        is_own = way != 'V' and (found.height, wide) == own and data == self.data
        if is_own and not self.is_typeset() and not self.moved():
            return self.again()
        self.remarks.anew(self.start, f"a text is written in a printer's size of font {found.letter}")
        return self.runs(runs, found, turn, corner, (width, height))

    def direction(self) -> Tuple[int, str]:
        """^FP's gap between letters, and their way."""
        command = self.parts.get('FP')
        if not command:
            return 0, 'H'
        way = command.letter(0, 'HVR', 'H')
        if way == 'R':
            self.remarks.not_written(command.start, '^FPR: a text from right to left is written from left to right')
            way = 'H'
        return command.number(1, 0, 0, 9999), way

    def block(self, text: str, found: texts.Size, turn: str) -> bytes:
        command = self.parts.get('FB') or self.parts['TB']
        if command.name == 'TB':
            turn = command.letter(0, 'NRIB', turn)
            width, tall = command.number(1, 0, 0, 32000), command.number(2, 0, 0, 32000)
            most = max(1, tall // max(1, found.height))
            asked = texts.Block(max(width, 1), 9999, 0, 'L', 0)
            runs, width, height = texts.block(text.replace('\\', '\\\\'), found, asked)
            runs, height = [it for it in runs if it.y < most * found.height], max(tall, found.height)
        else:
            width = command.number(0, 0, 0, 32000)
            if not width:
                return b''
            asked = texts.Block(width, command.number(1, 1, 1, 9999), line_space(command.parameter(2)),
                                command.letter(3, 'LCRJ', 'L'), command.number(4, 0, 0, 9999))
            runs, _, height = texts.block(text, found, asked)
        below = self.below(found) if self.is_typeset() else 0
        self.remarks.anew(self.start, f"a block is written in a printer's size of font {found.letter}")
        return self.runs(runs, found, turn, self.corner(width, height, turn, below), (width, height))

    def runs(self, runs: List[texts.Run], found: texts.Size, turn: str, corner: Point, box: Point) -> bytes:
        """Each run of cells as a field of its own."""
        out, (width, height) = [], box
        for run in runs:
            long, tall, text = run.cell * len(run.text), found.height, run.text
            if not text.strip(' '):
                continue
            x, y = {'N': (run.x, run.y), 'R': (height - run.y - tall, run.x),
                    'I': (width - run.x - long, height - run.y - tall), 'B': (run.y, width - run.x - long)}[turn]
            x, y, data = x + corner[0], y + corner[1], self.cells(text)
            if x < 0 or y < 0:
                out.append(self.laid(self.kept.sheet.scaled(data, run.cell, tall).turned(turn), x, y))
                continue
            out.append(b'^FO%d,%d^A%s%s,%d,%d' % (x, y, texts.OURS.encode(), turn.encode(), tall, run.cell)
                       + self.flags() + escaped(data) + b'^FS')
        return b''.join(out)

    def clocked(self) -> None:
        """The signs of ^FC's clock in the data as the time that was given."""
        command, now = self.parts['FC'], self.kept.options.now
        if not now:
            self.remarks.not_written(command.start, "^FC's clock needs a time: --now")
            return
        sign = (command.parameter(0)[:1] or '%').encode('latin-1')
        first, *rest = self.data.split(sign)
        out = [first]
        for part in rest:
            code = part[:1].decode('latin-1')
            out.append(now.strftime('%' + code).encode() + part[1:] if code and code in CLOCK else sign + part)
        self.data = b''.join(out)
        self.remarks.anew(command.start, 'a clock shows the time that was given')


def line_space(text: str) -> int:
    """^FB's dots between lines."""
    sign, digits = -1 if text.startswith('-') else 1, text.lstrip('-')
    return sign * min(int(digits), 9999) if digits.isascii() and digits.isdigit() and len(digits) < 17 else 0
