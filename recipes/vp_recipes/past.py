"""Prints a stream past what ends it: past [--as-it-came] [--most-rows N ..] [WORD..] < STREAM > IMAGES

Each command of a symbol that is refused (F2, F3, F4) is cut out, at most 100 of these, and by the profile also each
lead and byte that begin no known command (F1); each is said with its place, and the rest is printed. WORD.. run vp;
without them vp receipt --whole with the shipped sheets, or with --as-it-came the same by the profile. Status 1 where
anything was cut out, or another fault is left. --most-rows, --most-bytes, --most-images and --most-seconds say where a
print ends that goes on and on, N or none.
"""
import os
import re
import shutil
import sys
import tempfile
import time
from typing import IO, Iterator, List, Optional, Sequence, Tuple

from . import bounds
from .faults import Fault, text_of, told
from .program import direct, find_vp, read
from .streams import WHOLE, named
from .words import printing

UNKNOWN = re.compile(r'vp: F1 after (\d+) bytes: unknown command (..) (..)')
SYMBOL = re.compile(r'vp: (F[234]) after (\d+) bytes: (.*)')
MOST_SYMBOLS = 100


class Stream:
    """A stream with parts cut out, each known by its place before anything was."""

    def __init__(self, data: bytes) -> None:
        self.data, self.left = data, [(0, len(data))]

    def cut(self, start: int, end: int) -> Optional[int]:
        """Cuts out what stands there now, and says where it stood."""
        place, left, at = None, [], 0
        for first, last in self.left:
            a, b = (min(max(it - at, 0), last - first) for it in (start, end))
            if a < b and place is None:
                place = first + a
            left += [it for it in ((first, first + a), (first + b, last)) if it[0] < it[1]]
            at += last - first
        self.data, self.left = self.data[:start] + self.data[end:], left
        return place


class Looks:
    """Runs of vp on parts of a stream, all of them within one time."""

    def __init__(self, own: bounds.Bounds) -> None:
        self.bounds, self.end = own, None if own.seconds is None else time.monotonic() + own.seconds

    def run(self, words: Sequence[str], file: IO[bytes], is_paper: bool = True) -> bounds.Run:
        """A run of words on a file from where it stands, in the time that is left."""
        os.lseek(file.fileno(), file.tell(), os.SEEK_SET)
        left = None if self.end is None else max(.01, self.end - time.monotonic())
        return bounds.Run(words, file, self.bounds._replace(seconds=left), is_paper)

    def line(self, run: bounds.Run, words: Sequence[str]) -> str:
        """What a run said that has ended. One that reached a bound is a Fault."""
        if run.reached:
            whole = self.bounds.seconds if run.reached.bound == 'seconds' else run.reached.most
            raise Fault(str(run.reached._replace(most=whole or 0, byte=None)), 1)
        return told(words, run.status, text_of(run.said))


def listing(words: Sequence[str]) -> List[str]:
    """The words that list what these print."""
    return [*direct(find_vp()), 'list', '--lang', 'receipt', *([WHOLE] if WHOLE in words else [])]


def unknown(data: bytes, words: Sequence[str], looks: Looks) -> Iterator[int]:
    """The places of the bytes that begin no known command, by reading on behind each. Behind one the reader stands as
    at the start, so two bytes that are known to be none are none there too."""
    words = listing(words)
    with tempfile.TemporaryFile() as file:
        file.write(data)
        at, none = 0, set()
        while True:
            while data[at:at + 2] in none:
                yield at
                at += 2
            file.seek(at)
            with looks.run(words, file, is_paper=False) as run:
                for _ in run:
                    pass
            fault = UNKNOWN.fullmatch(looks.line(run, words))
            if not fault:
                return
            code = bytes.fromhex(fault[2] + fault[3])
            at = data.rfind(code, at, at + int(fault[1]))
            if at < 0:
                raise Fault(f'vp names a command that does not stand there: {fault[0]}')
            yield at
            none.add(code)
            at += 2


def symbol(file: IO[bytes], end: int, words: Sequence[str], looks: Looks) -> Optional[Tuple[int, str]]:
    """The command whose last byte stands before this place in a stream: where it begins, and its name."""
    last: List[str] = []
    file.seek(0)
    with looks.run([*listing(words), '--offsets'], file, is_paper=False) as run:
        for piece in run:
            for line in piece.decode('latin-1').splitlines():
                if int(line.partition(' ')[0]) > end:
                    break
                last = [*last[-1:], line]
    place, _, text = last[-1].partition(' ') if last else ('', '', '')
    if place != str(end) or not text.startswith(('gs 6b', 'gs 28 6b')):
        return None
    name = 'gs 6b' if text.startswith('gs 6b') else 'gs 28 6b'
    start = int(last[0].partition(' ')[0]) if len(last) > 1 else 0
    return start, named(name, text if name == 'gs 28 6b' else text[:len('gs 6b 00')])


def past(words: Sequence[str], data: bytes, looks: Looks) -> int:
    """Prints a stream past what ends it, and says what was cut out."""
    places = list(unknown(data, words, looks))
    for at in places:
        print(f'cut out at byte {at}: {data[at]:02X} {data[at + 1]:02X}', file=sys.stderr)
    stream = Stream(data)
    edges = [0, *(it for at in places for it in (at, at + 2)), len(data)]
    stream.left = [it for it in zip(edges[::2], edges[1::2]) if it[0] < it[1]]
    stream.data = b''.join(memoryview(data)[first:last] for first, last in stream.left)
    for cut in range(MOST_SYMBOLS + 1):
        with tempfile.TemporaryFile() as file, tempfile.TemporaryFile() as printed:
            file.write(stream.data)
            file.seek(0)
            with looks.run(words, file) as run:
                for piece in run:
                    printed.write(piece)
            line = str(run.reached) if run.reached else looks.line(run, words)
            fault = SYMBOL.fullmatch(line) if cut < MOST_SYMBOLS else None
            found = symbol(file, int(fault[2]), words, looks) if fault else None
            if fault and found:
                place = stream.cut(found[0], int(fault[2]))
                print(f'cut out at byte {place}: {found[1]}: {fault[1]} {fault[3]}', file=sys.stderr)
                continue
            printed.seek(0)
            shutil.copyfileobj(printed, sys.stdout.buffer)
            sys.stdout.flush()
        if line:
            print(line, file=sys.stderr)
        return 1 if run.reached else run.status or (1 if places or cut else 0)
    return 1


def main() -> int:
    if sys.argv[1:2] in (['-h'], ['--help']):
        print((__doc__ or '').strip())
        return 0
    as_it_came = sys.argv[1:2] == ['--as-it-came']
    own, words = bounds.taken(sys.argv[1 + as_it_came:])
    return past(direct(words or printing('receipt', as_it_came)), read('-'), Looks(own))
