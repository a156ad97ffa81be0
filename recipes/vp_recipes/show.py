"""Prints each stream to PNGs, and says what its paper doesn't show: show [WORDS] FILE..

Of a receipt or a label FILE.bin it writes FILE.png into this folder (--to another), of several labels FILE-1.png,
FILE-2.png and so on. A PNG that was made of something else stays: then FILE.bin.png is written.
It says the language, which it guesses, what was written anew (recipes/expand), the fault, what a printer's paper would
show of what was skipped, and which bytes have no character in the sheets. --as-it-came prints the stream as it came,
by the profile alone.

    show order.bin parcel.zpl
    show --to out --open streams/*
"""
import argparse
import os
import pathlib
import re
import sys
import tempfile
from typing import Any, BinaryIO, Callable, Dict, List, Optional, Sequence, Tuple, cast

from . import bounds
from .expand import Expanded, Options, expanded
from .expand.places import old_place, told
from .faults import Fault, shown, times
from .images import Files, Taken
from .kinds import language_of
from .papers import Paper, paper
from .program import read
from .remarks import packed, passed
from .sheets import chosen, without_cell
from .streams import LANGUAGES, listing, named, table
from .words import add_as_it_came, printing

# So many labels are shown where no word says otherwise.
SHOWN = bounds.FILES._replace(images=100)
# In a stream of ASCII without these no byte is drawn but those that every sheet has.
OTHERS = re.compile(rb'[\x7f-\xff]|\^[\r\n]*[Ff][\r\n]*[Hh]')


class Shown:
    """A stream as it is shown: its `file`, its `data` and its `language`, the words that name its `sheet`, what was
    written `anew` of it or None, what is `given` to be done."""

    def __init__(self, file: str, given: argparse.Namespace) -> None:
        self.file, self.given, self.data = file, given, read(file)
        self.language: str = given.lang or language_of(self.data, file if file != '-' else 'standard input')
        self.sheet = chosen(self.language, given.font_a, given.font_b)
        self.anew: Optional[Expanded] = None
        if not given.as_it_came:
            self.anew = expanded(self.data, self.language,
                                 Options(given.table, given.encoding, sheet=tuple(self.sheet)))
            self.data = self.anew.data

    def say(self, text: str) -> None:
        print(f'{shown(self.file)}: {text}')

    def most(self) -> bounds.Bounds:
        """How much is shown: of a receipt, whose strips are images of one PNG, more of these."""
        own = bounds.of(self.given)
        is_said = own.images != SHOWN.images
        return own if is_said or self.language == 'label' else own._replace(images=bounds.DEFAULT.images)

    def printed(self, names: Sequence[str]) -> Tuple[Paper, List[str]]:
        """What is printed of it, and the names of the PNGs: the first of these that is free."""
        to = self.given.to
        of = os.path.relpath(self.file, to) if self.file != '-' else 'standard input'
        with tempfile.TemporaryFile() as stream, Files(str(to / names[0]), self.language == 'label', of) as files:
            stream.write(self.data)
            stream.seek(0)
            words = printing(self.language, self.given.as_it_came, self.sheet)
            ran = paper(words, cast(BinaryIO, stream), files, 8, own=self.most())
            # (raises what isn't vp's)
            ran.line()
            try:
                return ran, files.settle()
            except Taken:
                return ran, files.settle(str(to / names[-1]))

    def tell(self, ran: Paper) -> None:
        """What was written anew, the fault or the bound, what the paper doesn't show."""
        for it in self.anew.remarks if self.anew else ():
            self.say(f'byte {it.place}: {it.text}')
        pieces = self.anew.pieces if self.anew else None
        if ran.reached:
            byte = ran.reached.byte
            if byte is not None and pieces is not None:
                byte = old_place(pieces, byte)
            self.say(str(ran.reached._replace(byte=byte)))
            return
        line = ran.line()
        if line:
            self.say(line if pieces is None else told(line, pieces))
            why = packed(line.split(' ')[1], self.data) if line.startswith('vp: F') else None
            if why:
                self.say(why)
        if ran.status < 2:
            self.tell_unseen()

    def tell_unseen(self) -> None:
        """What the paper doesn't show: what is skipped, and which bytes have no character."""
        if self.anew and not self.has_unseen():
            return
        items, _ = listing(self.data, self.language, dots=False, whole=not self.given.as_it_came)
        known = table()
        counts: Dict[str, int] = {}
        for _, command, _ in passed(self.data, items, self.language):
            # (of a receipt's and those that are known it is said where the stream is written anew)
            if not self.anew or self.language == 'label' and (self.language, command) not in known:
                counts[command] = counts.get(command, 0) + 1
        for command, count in counts.items():
            what = known.get((self.language, command), (True, 'is no command that is known'))[1]
            self.say(f'skipped {times(count)}: {named(command, command)} {what}')
        tell_lacking(without_cell(items, self.language, self.sheet), bool(self.sheet), self.say)

    def has_unseen(self) -> bool:
        """Whether a stream that was written anew may have what its paper doesn't show."""
        if self.language == 'receipt' or OTHERS.search(self.data) or not self.sheet:
            return True
        found = set(re.findall(rb'[~^][^~^]{2}', self.data.upper()))
        known = table()
        return any(('label', it.decode('latin-1')) not in known and it[1:2] != b'A' for it in found - PRINTED)


# The commands of labels that vp reads itself.
PRINTED = {b'^' + it.encode()
           for it in 'XA XZ FS FD FX FH FO FT FR FB B3 BE BC BQ GB GF PW LL LH LR PO PM PQ CF FW BY'.split()}


def tell_lacking(lacks: Dict[Tuple[str, int], Any], has_sheet: bool, say: Callable[[str], None]) -> None:
    """Says which bytes have no character."""
    if lacks and not has_sheet:
        say('there is no glyph sheet: characters are white')
    elif lacks:
        counts: Dict[int, int] = {}
        for (_, byte), (count, _) in lacks.items():
            counts[byte] = counts.get(byte, 0) + count
        found = ', '.join(f'{byte:02X} {times(count)}' for byte, count in sorted(counts.items()))
        say(f'bytes without a character in the sheet: {found}')


def show(file: str, names: Sequence[str], given: argparse.Namespace) -> Tuple[List[str], int]:
    """Shows a stream by PNGs of the first of these names that is free: their names, and the status."""
    it = Shown(file, given)
    ran, made = it.printed(names)
    said = list(map(shown, made))
    paths = f'{said[0]} to {said[-1]}' if len(made) > 1 else said[0] if made else 'nothing is printed'
    it.say(f'{it.language}{"" if given.lang else " (guessed)"}: {paths}')
    it.tell(ran)
    return made, ran.status


def clashes(names: Sequence[str]) -> List[str]:
    """Those of the names whose PNGs may be called as another's, as order-2's and the second of order."""
    numbered = {it: re.sub(r'-\d+$', '', it) for it in names}
    by_name: Dict[str, int] = {}
    for it in names:
        for name in {it, numbered[it]}:
            by_name[name] = by_name.get(name, 0) + 1
    plain = set(names)
    return [it for it in names if by_name[it] > 1 or numbered[it] in plain and numbered[it] != it]


def stems(files: Sequence[str]) -> List[str]:
    """What the PNGs of each file are called: its name without its end, with it where two would clash."""
    names = [os.path.basename(it) if it != '-' else 'stdin' for it in files]
    short = [os.path.splitext(it)[0] for it in names]
    clashing = set(clashes(short))
    found = [name if stem in clashing else stem for name, stem in zip(names, short)]
    clashing = set(clashes(found))
    if clashing:
        both = [file for file, it in zip(files, found) if it in clashing]
        raise Fault(f'the PNGs of {shown(both[0])} and {shown(both[1])} have one name: show them into two folders', 2)
    return found


def words_of() -> argparse.ArgumentParser:
    words = argparse.ArgumentParser(description=__doc__, formatter_class=argparse.RawDescriptionHelpFormatter)
    words.add_argument('files', metavar='FILE', nargs='*', default=['-'], help='a stream; without one, standard input')
    words.add_argument('--lang', choices=LANGUAGES, help='the language, not guessed')
    words.add_argument('--font-a', metavar='SHEET', help='the sheet of font A, in place of the shipped one')
    words.add_argument('--font-b', metavar='SHEET', help='the sheet of font B')
    words.add_argument('--to', type=pathlib.Path, default=pathlib.Path(), metavar='FOLDER',
                       help='where the PNGs go; it is made where it is not there')
    add_as_it_came(words)
    words.add_argument('--table', default='cp858', metavar='CODEC', help='the table that the sheet shows; cp858')
    words.add_argument('--from', dest='encoding', metavar='CODEC', help="what a receipt's text is in, as utf-8")
    words.add_argument('--open', action='store_true', help='shows them, by xdg-open')
    bounds.add_words(words, SHOWN)
    return words


def open_all(names: Sequence[str]) -> None:
    """Hands PNGs to xdg-open."""
    import shutil
    import subprocess
    if not shutil.which('xdg-open'):
        print('show: xdg-open is not installed', file=sys.stderr)
        return
    for name in names:
        subprocess.run(['xdg-open', os.path.join('.', name) if name.startswith('-') else name], check=False)


def main() -> int:
    given = words_of().parse_args()
    last = 0
    made: List[str] = []
    stem_of = stems(given.files)
    os.makedirs(given.to, exist_ok=True)
    for file, stem in zip(given.files, stem_of):
        try:
            whole_name = os.path.basename(file) if file != '-' else stem
            names, status = show(file, [f'{stem}.png', f'{whole_name}.png'], given)
            made += names
        except Fault as fault:
            print(f'show: {fault}', file=sys.stderr)
            status = fault.status
        except OSError as error:
            print(f'show: {shown(error.filename or file)}: {error.strerror}', file=sys.stderr)
            status = 3
        last = max(last, status)
    if given.open and made:
        open_all(made)
    return last
