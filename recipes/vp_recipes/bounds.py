"""How much a print may come to: rows, bytes, images and seconds, one place for all scripts.

Each bound has a name, a default and a word that raises it:

    rows     --most-rows N      2,500,000: 312 metres in 8 dots a millimetre, more than a till prints in a day
    bytes    --most-bytes N     256 MiB: of what is printed, and of a stream that is kept
    images   --most-images N    100,000; 10,000 (FILES) where each has a file of its own
    seconds  --most-seconds N   60 by the clock

`none` in place of N is no bound. A script takes the words so:

    bounds.add_words(parser, default)          # argparse; bounds.of(given) then has them
    own, rest = bounds.taken(words)            # where words are read by hand: those at the front
    [*bounds.words(own), ..]                   # hands them on to another script

and prints so, which gives whole images alone, and ends the command where a bound is reached:

    with bounds.Run(command, stream, own) as run:      # stream: an open file
        for piece in run:
            out.write(piece)
    run.reached        # None, or what is said of it: Reached
    run.status, run.said

`bounds.Run(.., is_paper=False)` is for what prints lines, as `vp list`: bytes and seconds bound it. Who has a process
of his own hands its parts to a Cutter: `cutter.add(part)` gives on what is within bounds, and `cutter.reached` names
the bound. What was printed before is kept, and said is str(Reached), as

    cut off after 49 bytes: it prints more than 2,500,000 rows; --most-rows raises this

with status 1, as of a fault. A script that is ended ends what it runs: `with` does, and `end_all` of every Run there
is.
"""
import argparse
import contextlib
import os
import select
import signal
import subprocess
import tempfile
import threading
import time
from types import TracebackType
from typing import IO, Any, Iterator, List, Optional, Sequence, Set, Tuple, Type

from .faults import Fault, cannot_run
from .vp.bounds import DEFAULT, FILES, HELD, Bounds, Cutter, Reached

__all__ = ['DEFAULT', 'FILES', 'HELD', 'Bounds', 'Cutter', 'Reached', 'Run', 'add_words', 'end_all', 'of', 'taken',
           'words']

# How much is read at once, and how much of what a command says is kept.
PART = 1 << 16


def number(text: str, bound: str) -> Optional[float]:
    """A bound as a user writes it. What is none raises ValueError."""
    if text == 'none':
        return None
    value = float(text) if bound == 'seconds' else int(text) if text.isascii() and text.isdigit() else -1
    if not 0 < value < 1e18:
        raise ValueError(f'--most-{bound} is a number above 0, or none')
    return value


def add_words(parser: argparse.ArgumentParser, default: Bounds = DEFAULT) -> None:
    """Has a script take the words of the bounds; `of` gives what they say."""
    group = parser.add_argument_group('bounds', 'what is printed ends where one of these is reached; N may be none')
    for bound, value in default._asdict().items():
        def taken(text: str, bound: str = bound) -> Optional[float]:
            try:
                return number(text, bound)
            except ValueError:
                raise argparse.ArgumentTypeError('a bound is a number above 0, or none') from None
        plain = 'none' if value is None else f'{value:,}'
        group.add_argument(f'--most-{bound}', type=taken, default=argparse.SUPPRESS, metavar='N',
                           help=f'{bound}, without it {plain}')
    parser.set_defaults(bounds=default)


def of(given: argparse.Namespace, default: Optional[Bounds] = None) -> Bounds:
    """The bounds that a parser with `add_words` was given; what wasn't is the default, or this one's."""
    own: Bounds = default or given.bounds
    return Bounds(*(getattr(given, f'most_{it}', value) for it, value in own._asdict().items()))


def taken(words: Sequence[str], default: Bounds = DEFAULT) -> Tuple[Bounds, List[str]]:
    """The bounds that stand at the front of words, and the words behind them. What is wrong with them is a Fault."""
    own, rest = default, list(words)
    while rest and rest[0].startswith('--most-'):
        name, equals, text = rest.pop(0).partition('=')
        bound = name[len('--most-'):]
        if bound not in Bounds._fields:
            raise Fault(f'unknown option {name}', 2)
        if not equals and not rest:
            raise Fault(f'{name} needs a value', 2)
        try:
            value: Any = number(text if equals else rest.pop(0), bound)
            own = own._replace(**{bound: value})
        except ValueError:
            raise Fault(f'{name} is a number above 0, or none', 2) from None
    return own, rest


def words(own: Bounds, default: Bounds = DEFAULT) -> List[str]:
    """The words that hand bounds on to a script whose defaults are these."""
    return [f'--most-{it}={"none" if value is None else value}' for it, value in own._asdict().items()
            if value != getattr(default, it)]


running: 'Set[Run]' = set()
lock, is_over = threading.Lock(), threading.Event()


class Run:
    """A command that prints a stream within bounds: pieces of what it prints. At its end, or where a bound is reached,
    it has its status, what it said, and which bound; where one is reached the command is ended. `stream` is an open
    file, whose place says how far it was read."""

    def __init__(self, command: Sequence[str], stream: 'IO[Any] | int', own: Bounds = DEFAULT,
                 is_paper: bool = True) -> None:
        self.stream, self.cutter = stream, Cutter(own, is_paper)
        self.end = None if own.seconds is None else time.monotonic() + own.seconds
        self.reached: Optional[Reached] = None
        self.status, self.said = 0, b''
        self.errors = tempfile.TemporaryFile()
        try:
            # (in a session of its own, so that what it starts is ended with it)
            self.process = subprocess.Popen(command, stdin=stream, stdout=subprocess.PIPE, stderr=self.errors,
                                            start_new_session=True)
        except (OSError, ValueError) as error:
            self.errors.close()
            raise cannot_run(command, error) from None
        with lock:
            running.add(self)
            if is_over.is_set():
                self.kill()

    def __enter__(self) -> 'Run':
        return self

    def __iter__(self) -> Iterator[bytes]:
        for part in self.parts():
            piece = self.cutter.add(part)
            if piece:
                yield piece
            if self.cutter.reached:
                self.cut(self.cutter.reached)
                return
        rest = b'' if self.reached else self.cutter.end()
        if rest:
            yield rest

    def parts(self) -> Iterator[bytes]:
        """What the command prints, until it ends or its time is over."""
        assert self.process.stdout
        out = self.process.stdout.fileno()
        ready = select.poll()
        ready.register(out, select.POLLIN | select.POLLHUP)
        while self.left() != 0 and ready.poll(self.left()):
            part = os.read(out, PART)
            if part:
                yield part
                continue
            self.wait()
            return
        self.cut('seconds')

    def wait(self) -> None:
        """Waits for the command's end, while there is time."""
        try:
            self.status = self.process.wait(None if self.end is None else max(.001, self.end - time.monotonic()))
        except subprocess.TimeoutExpired:
            self.cut('seconds')

    def left(self) -> Optional[int]:
        """How many milliseconds are left."""
        return None if self.end is None else max(0, round(1000 * (self.end - time.monotonic())))

    def cut(self, bound: str) -> None:
        """Says which bound was reached, and how far the stream was read."""
        byte = None
        with contextlib.suppress(OSError):
            byte = os.lseek(self.stream if isinstance(self.stream, int) else self.stream.fileno(), 0, os.SEEK_CUR)
        self.reached = Reached(bound, getattr(self.cutter.bounds, bound), byte)

    def kill(self) -> None:
        """Ends the command, and what it started. One that is a script has a second to end what it runs itself, in a
        session which no signal from here reaches."""
        if self.process.returncode is None:
            for number in signal.SIGTERM, signal.SIGKILL:
                with contextlib.suppress(ProcessLookupError, PermissionError, subprocess.TimeoutExpired):
                    os.killpg(self.process.pid, number)
                    self.process.wait(1)

    def __exit__(self, kind: Optional[Type[BaseException]], error: Optional[BaseException],
                 trace: Optional[TracebackType]) -> None:
        self.kill()
        with lock:
            running.discard(self)
        with self.process, self.errors:
            self.process.wait()
            self.errors.seek(0)
            self.said = b'' if self.reached else self.errors.read(PART)


def end_all() -> None:
    """Ends all that runs, and what is begun after, as a script does that is ended while threads of it print."""
    is_over.set()
    with lock:
        for it in running:
            it.kill()
