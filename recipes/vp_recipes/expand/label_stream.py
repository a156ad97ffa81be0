"""A stream of labels anew, format by format: settings stay, fields are written anew that vp would print otherwise."""
from typing import Dict, List, NamedTuple, Optional, Set, Tuple

from .fields import Field
from .formats import Recall, counted, fields
from .label_store import Keeper
from .labels import Command, commands
from .options import Options
from .placed import CONTENTS, PARTS, Kept, Point, Settings, changed
from .places import Written
from .remarks import Remarks
from .units import in_dots
from .work import Work
from ..streams import rows
from ..values import is_start

# What is written into the fields, or kept by the store, and stands in no new stream.
WRITTEN = {'CI', 'CC', 'CD', 'CT', 'MU', 'LS', 'LT', 'FN', 'FV', 'DF', 'XF', 'SN', 'SF', 'FC', 'FE', 'IS', 'IL', 'ID',
           'EG'}
# Contents that depend on more than their field.
OTHERS = {'XG', 'IM', 'GF'}
# How many serial numbers are counted, and how many bytes of fields are known by what they are made of.
COPIES, KNOWN = 1000, 16 << 20


class Made(NamedTuple):
    """A field that was written: the bytes or None where it stays, what is told with how far from its start, the point
    behind its text, how many dots it took."""
    data: Optional[bytes]
    told: Tuple[Tuple[bool, str, int], ...]
    after: Point
    dots: int


class Writer:
    """Writes `data` anew into a `stream`. Up to byte `at` it is written; `settings` are in force; of fields that came
    before it is `known` what they are; in a plain stream no letter is one that a table changes."""

    def __init__(self, data: bytes, options: Options, stream: Written, remarks: Remarks) -> None:
        self.data, self.options, self.stream, self.remarks = data, options, stream, remarks
        self.work = Work(len(data))
        self.kept, self.settings, self.at = Kept(options, remarks), Settings(), 0
        self.keeper = Keeper(self.kept, self.work)
        self.recall = Recall(self.kept.store, remarks, self.work)
        self.said = {command: what for language, command, _, word, what in rows() if language == 'label'
                     and word == 'said'}
        self.is_plain = data.isascii() and b'^FH' not in data.upper()
        self.known: Dict[object, Made] = {}
        self.known_bytes = 0

    def all(self) -> None:
        open_format: Optional[List[Command]] = None
        for command in in_dots(commands(self.data), self.remarks):
            if command.sign == '^' and command.name == 'XA' and open_format is None:
                open_format = [command]
            elif open_format is not None and not (command.sign == '~' and command.name in ('DG', 'DY')):
                open_format.append(command)
                if command.sign == '^' and command.name == 'XZ':
                    self.format(open_format)
                    open_format = None
            elif open_format is None:
                self.outside(command)
            else:
                self.drop(command)
                self.keeper.picture(command)
        # what is open or begun at the end is vp's to say
        self.stream.keep(self.at, len(self.data))

    # ---- pieces

    def keep(self, command: Command) -> None:
        if command.is_plain and command.start >= self.at:
            self.stream.keep(self.at, command.end)
            self.at = command.end
        else:
            self.drop(command)
            self.stream.anew(command.written(), command.start, command.end)

    def drop(self, command: Command) -> None:
        """Nothing in place of a command; what stands before it, and between commands, stays."""
        if command.start >= self.at:
            self.stream.keep(self.at, command.start)
        self.at = max(self.at, command.end)

    # ---- outside of formats

    def outside(self, command: Command) -> None:
        if command.sign == '~' and command.name in ('DG', 'DY'):
            self.drop(command)
            self.keeper.picture(command)
        elif command.name in ('CC', 'CD', 'CT'):
            self.signs(command)
        elif command.name in ('EG', 'ID'):
            self.drop(command)
            self.keeper.forget(command)
        else:
            self.keep(command)
            if command.sign == '^' and command.name in CONTENTS:
                self.remarks.not_written(command.start,
                                         f'a field of ^{command.name} stands outside ^XA and ^XZ: it is not printed')

    def signs(self, command: Command) -> None:
        """Other signs: they stay where they are the usual ones and stand before a sign or a line's end."""
        sign = {'CC': b'^', 'CT': b'~', 'CD': b','}[command.name]
        is_usual = self.data[command.end - 1:command.end] == sign
        if command.is_plain and is_usual and self.data[command.end:command.end + 1] in (b'^', b'~', b'\r', b'\n', b''):
            self.keep(command)
        else:
            self.drop(command)
            if not is_usual:
                self.remarks.anew(command.start,
                                  f'{command.sign}{command.name}: other signs are written as the usual ones')

    # ---- formats

    def format(self, found: List[Command]) -> None:
        names = {it.name for it in found if it.sign == '^'}
        if 'DF' in names:
            for command in found:
                self.drop(command)
            self.keeper.format(found, self.data)
            return
        if 'XF' in names:
            for command in found:
                self.drop(command)
            found = self.recall.whole(found)
        self.stream.whole()
        begin = len(self.stream.new)
        if any(it.sign == '^' and it.name in ('SN', 'SF') for it in found):
            self.counted(found)
        else:
            self.fields(found)
        saves = [it for it in found if it.sign == '^' and it.name == 'IS']
        if saves:
            self.saved(saves[-1], begin, found)

    def counted(self, found: List[Command]) -> None:
        """A format for each serial number, with its quantity."""
        quantity = next((it for it in reversed(found) if it.sign == '^' and it.name == 'PQ'), None)
        count = quantity.number(0, 1, 1) if quantity else 1
        each = max(1, quantity.number(2, 0, 0, 9999)) if quantity else 1
        numbers = -(-count // each)
        first = next(it for it in found if it.sign == '^' and it.name in ('SN', 'SF'))
        size = sum(len(it.rest) + 4 for it in found)
        self.remarks.anew(first.start, f'^{first.name}: a label is written for each number')
        for n in range(min(numbers, COPIES)):
            if self.stream.is_full() or n and not self.work.is_taken(size):
                self.remarks.not_written(first.start,
                                         f'^{first.name}: only the first {n:,} of {numbers:,} numbers are written')
                return
            own = found if n == 0 else [it.copied(it.start, it.end) for it in found]
            out: List[Command] = []
            for field in fields(own):
                for it in counted(field, n):
                    if it.sign == '^' and it.name == 'PQ':
                        it = Command('^', 'PQ', b'%d' % min(each, count - n * each), it.start, it.end)
                    out.append(it)
            self.fields(out)
        if numbers > COPIES:
            self.remarks.not_written(first.start,
                                     f'^{first.name}: only the first {COPIES:,} of {numbers:,} numbers are written')

    def fields(self, found: List[Command]) -> None:
        for field in fields(found):
            body = []
            for it in field:
                if it.sign == '^' and it.name not in PARTS:
                    self.settings = changed(self.settings, it)
                elif it.sign == '^' and it.name != 'XZ':
                    body.append(it)
            self.field(field, body)

    def field(self, field: List[Command], body: List[Command]) -> None:
        made = self.made(body) if body else None
        own: Set[int] = {id(it) for it in body}
        if made is None:
            for it in field:
                if id(it) in own:
                    self.keep(it)
                else:
                    self.setting(it)
            return
        last = None
        for it in field:
            if it.sign == '^' and it.name == 'XZ':
                last = it
            elif id(it) in own:
                if it is body[0]:
                    self.drop(it)
                elif it.start >= self.at:
                    # what stands before it goes with it
                    self.at = it.end
            else:
                self.setting(it)
        self.stream.anew(made, body[0].start, max(body[0].start, body[-1].end))
        if last:
            self.keep(last)

    def made(self, body: List[Command]) -> Optional[bytes]:
        """The bytes of a field, None where it stays. One that came before, with the same in force, is known."""
        start, kept = body[0].start, self.kept
        names, is_plain = {it.name for it in body}, all([it.is_plain for it in body])
        if self.stream.is_full():
            self.remarks.not_written(start, 'so much was written anew before this field that it stays as it came')
            return None
        if names & OTHERS:
            return Field(body, self.settings, kept).written()
        after = kept.after if 'FT' in names else None
        what = self.data[start:body[-1].end] if is_plain else tuple(
            [(it.name, it.font, it.rest, it.is_plain, it.is_exact, it.start - start) for it in body])
        key = self.settings, after, what
        found = self.known.get(key)
        if not found:
            found = self.told(Field(body, self.settings, kept), start)
            size = len(found.data or b'') + sum([len(it.rest) for it in body])
            if self.known_bytes + size > KNOWN:
                self.known.clear()
                self.known_bytes = 0
            self.known[key] = found
            self.known_bytes += size + 500
        else:
            kept.dots += found.dots
        kept.after = found.after
        for is_done, text, at in found.told:
            self.remarks.add(start + at, is_done, text)
        return found.data

    def told(self, field: Field, start: int) -> Made:
        """What a field makes, and what of it is told."""
        own, dots = Remarks(), self.kept.dots
        field.remarks = own
        data = field.written()
        told = tuple((is_done, text, place - start) for (is_done, text), (place, _) in own.found.items())
        return Made(data, told, self.kept.after, self.kept.dots - dots)

    def setting(self, command: Command) -> None:
        name, title = command.name, command.sign + command.name
        if title in self.said:
            self.keep(command)
            if not is_start(title, command.written()):
                self.remarks.not_written(command.start, f'{title} {self.said[title]}: it is read past')
        elif name not in WRITTEN:
            self.keep(command)
        elif name in ('CC', 'CD', 'CT'):
            self.signs(command)
        elif name == 'IL':
            self.loaded(command)
        elif name in ('ID', 'EG'):
            self.drop(command)
            self.keeper.forget(command)
        elif command.is_plain and self.changes_nothing(command):
            self.keep(command)
        else:
            self.drop(command)

    def changes_nothing(self, command: Command) -> bool:
        """Whether a setting that is written into the fields asks for what is so without it."""
        first = command.parameter(0)
        if command.name == 'CI':
            return self.is_plain and self.settings.choice in (0, 13, 27, 28, 31, 33, 34, 35, 36)
        if command.name in ('LS', 'LT'):
            return first.lstrip('-0') == ''
        return command.name == 'MU' and first.upper() in ('', 'D') and len(command.parameters()) < 2

    # ---- labels that are kept as pictures

    def loaded(self, command: Command) -> None:
        self.drop(command)
        found = self.keeper.loaded(command, self.settings.home)
        if found:
            self.stream.anew(found, command.start, command.end)

    def saved(self, command: Command, begin: int, found: List[Command]) -> None:
        """The label of the new stream from a byte on, as vp prints it; it is not printed where the command says so."""
        self.stream.whole()
        is_kept = self.keeper.save(command, bytes(self.stream.new))
        if is_kept and command.letter(1, 'YN', 'Y') == 'N':
            self.stream.cut(begin)
            # what it set stays in force
            own = [it for it in found if it.sign == '^' and it.name not in PARTS and it.name not in WRITTEN]
            self.stream.anew(b''.join(it.written() for it in own), found[0].start, found[-1].end)


def write(data: bytes, options: Options, written: Written, remarks: Remarks) -> None:
    Writer(data, options, written, remarks).all()
