"""Runs vp on a stream: what it puts out goes on as it comes, and what takes too long is ended."""
import concurrent.futures
import contextlib
import hashlib
import json
import os
import re
import select
import selectors
import signal
import socket
import subprocess
import sys
import tempfile
import threading
import time
from typing import Any, Dict, Generator, Iterable, List, Optional, Set, Tuple, Union

from vp_recipes.expand import Expanded, Options, expanded
from vp_recipes.streams import WHOLE

MOST_STREAM = 4 << 20
SECONDS = 10
AT_ONCE = 4
MOST_SHEETS, MOST_SHEET = 32, 1 << 20
# How many fronts of a stream are printed for one question, and how an image begins.
MOST_FRONTS, HEAD, MOST_HEAD = 64, re.compile(rb'P4\n(\d{1,9}) (\d{1,9})\n'), 23
# In how many bytes of a stream remarks are looked for, and how long they may be.
REMARKED, MOST_REMARKS = 1 << 18, 1 << 20
# How many streams are kept as they were written anew. One with more commands of symbols than this is printed as it
# came.
MOST_WRITTEN = 4
MOST_ANEW, SYMBOLS = 200, re.compile(rb'\^[Bb]|\x1d\(?k')

# A program that runs; what is put out, or how that ended; sheets by the letters of their fonts.
Ran = subprocess.Popen[bytes]
Piece = Union[bytes, Dict[str, Any]]
Fonts = Dict[str, str]


class Gone(Exception):
    """Nobody waits for the answer any more."""


class Program:
    def __init__(self, vp: List[str], room: str) -> None:
        # what runs elsewhere is named by its whole path
        self.vp = [os.path.abspath(vp[0]) if os.sep in vp[0] else vp[0], *vp[1:]]
        self.room = room
        self.sheets: Dict[str, str] = {}
        self.turn, self.lock = threading.Semaphore(AT_ONCE), threading.Lock()
        self.running: Set[Ran] = set()
        self.is_over = False
        # what was written anew last, by what was asked
        self.written: Dict[Tuple[Any, ...], Expanded] = {}

    def end(self) -> None:
        """Ends all that runs, and what would be begun after."""
        self.is_over = True
        for ran in list(self.running):
            # (who waits for it does the rest)
            strike(ran)

    def keep_sheet(self, data: bytes) -> str:
        """Keeps a sheet that the page chose, and gives its name."""
        name = hashlib.sha256(data).hexdigest()[:32]
        with self.lock:
            if name not in self.sheets:
                if len(self.sheets) == MOST_SHEETS or len(data) > MOST_SHEET:
                    raise ValueError('too many sheets, or too large a one')
                path = os.path.join(self.room, name)
                with open(path, 'wb') as file:
                    file.write(data)
                self.sheets[name] = path
        return name

    def run(self, words: List[str], stream: bytes, caller: socket.socket) -> Generator[Piece, None, None]:
        """Runs words on a stream. Gives what is put out piece by piece, and at last how it ended: the line on standard
        error, the status, and whether the time was over."""
        with self.turn, tempfile.TemporaryFile(dir=self.room) as given, \
                tempfile.TemporaryFile(dir=self.room) as errors:
            given.write(stream)
            given.seek(0)
            if self.is_over:
                raise Gone
            try:
                ran = subprocess.Popen(words, stdin=given, stdout=subprocess.PIPE, stderr=errors, cwd=self.room,
                                       start_new_session=True)
            except OSError as error:
                yield {'line': f'cannot run {words[0]}: {error.strerror}', 'status': 2, 'late': False}
                return
            self.running.add(ran)
            try:
                if self.is_over:
                    raise Gone
                late = yield from pieces(ran, caller, time.monotonic() + SECONDS)
            finally:
                kill(ran)
                self.running.discard(ran)
            errors.seek(0)
            lines = errors.read(4096).decode(errors='replace').splitlines()
            yield {'line': lines[0] if lines else '', 'status': ran.returncode, 'late': late and SECONDS}

    def rows(self, words: List[str], fronts: List[bytes], caller: socket.socket) -> List[int]:
        """How many rows of paper words print of each front."""
        def count(front: bytes) -> int:
            rows = Rows()
            with contextlib.closing(self.run(words, front, caller)) as pieces:
                for piece in pieces:
                    if isinstance(piece, bytes):
                        rows.take(piece)
            return rows.whole()

        with concurrent.futures.ThreadPoolExecutor(AT_ONCE) as at_once:
            return list(at_once.map(count, fronts))

    def print_words(self, language: str, width: str, fonts: Fonts, whole: bool) -> List[str]:
        """The words that print by the whole language, or by the profile."""
        words = ([WHOLE] if whole else []) + (['--width', width] if language == 'receipt' else [])
        return [*self.vp, language, *words, *sheet_words(fonts)]

    def list_words(self, language: str, whole: bool) -> List[str]:
        return [*self.vp, 'list', '--lang', language, *([WHOLE] if whole else []), '--offsets']

    def anew(self, language: str, fonts: Fonts, stream: bytes, caller: socket.socket) -> Optional[Expanded]:
        """A stream as recipes/expand writes it; None where it is long, or has very many symbols, and stays. What is
        printed and then remarked upon within a minute, as a clock has it, is written once."""
        if len(stream) > REMARKED or len(SYMBOLS.findall(stream)) > MOST_ANEW:
            return None
        sheets = tuple((name, version(name)) for name in fonts.values())
        asked = language, hashlib.sha256(stream).digest(), sheets, time.time() // 60
        with self.turn:
            if gone(caller):
                raise Gone
            known = self.written.get(asked)
            if known is None:
                found = expanded(stream, language, Options(sheet=tuple(sheet_words(fonts))))
                with self.lock:
                    while len(self.written) >= MOST_WRITTEN:
                        del self.written[next(iter(self.written))]
                    self.written[asked] = found
                return found
            return known

    def remarks(self, language: str, fonts: Fonts, stream: bytes, caller: socket.socket, whole: bool
                ) -> List[List[Any]]:
        """What lint says of a stream: places and texts, of its first part alone where it is long."""
        here = os.path.dirname(os.path.realpath(__file__))
        asked = json.dumps([language, sheet_words(fonts), self.vp, whole])
        words, said = [sys.executable, os.path.join(here, 'remarks.py'), asked], b''
        with contextlib.closing(self.run(words, stream[:REMARKED], caller)) as pieces:
            for piece in pieces:
                said += piece if isinstance(piece, bytes) and len(said) < MOST_REMARKS else b''
        try:
            found: List[List[Any]] = json.loads(said)
        except ValueError:
            return [[None, 'what a printer would print besides could not be told in time']]
        if len(stream) > REMARKED:
            found = [it for it in found if not it[1].startswith('F8')]
            found.insert(0, [None, f'remarks are on the first {REMARKED:,} bytes'])
        return found


class Rows:
    """How many rows of images have come, as vp writes them, in pieces."""

    def __init__(self) -> None:
        self.rows, self.left, self.stride, self.head = 0, 0, 1, b''

    def take(self, piece: bytes) -> None:
        at = 0
        while at < len(piece):
            some = min(self.left, len(piece) - at)
            self.left -= some
            at += some
            if at == len(piece):
                break
            front = self.head + piece[at:at + MOST_HEAD]
            head = HEAD.match(front)
            if not head:
                self.head = front[:MOST_HEAD]
                break
            at += head.end() - len(self.head)
            self.head = b''
            self.rows += int(head[2])
            self.stride = (int(head[1]) + 7) // 8
            self.left = self.stride * int(head[2])

    def whole(self) -> int:
        return self.rows - -(-self.left // self.stride)


def pieces(ran: Ran, caller: socket.socket, until: float) -> Generator[bytes, None, bool]:
    """What a program puts out, while somebody waits for it; and whether the time was over before it ended."""
    assert ran.stdout
    with selectors.DefaultSelector() as ways:
        ways.register(ran.stdout, selectors.EVENT_READ)
        ways.register(caller, selectors.EVENT_READ)
        while True:
            left = until - time.monotonic()
            ready = [key.fileobj for key, _ in ways.select(left)] if left > 0 else []
            if caller in ready:
                if gone(caller):
                    raise Gone
                ways.unregister(caller)
            if ran.stdout in ready:
                some = os.read(ran.stdout.fileno(), 1 << 16)
                if not some:
                    break
                yield some
            elif left <= 0:
                return True
    try:
        ran.wait(max(0.01, until - time.monotonic()))
    except subprocess.TimeoutExpired:
        return True
    return False


def fronts_of(found: Optional[Expanded], stream: bytes, ends: List[int]) -> List[bytes]:
    """The fronts of a stream, of so many bytes each, as they were written anew where the stream was."""
    if found is None:
        return [stream[:end] for end in ends]
    return [found.data[:new_place(found.pieces, end)] for end in ends]


def new_place(pieces: Iterable[Any], old: int) -> int:
    """How many bytes of the new stream stand for so many of the old one."""
    place = 0
    for it in pieces:
        if it.old_end > old:
            return int(it.start + old - it.old_start) if it.same and it.old_start < old else place
        place = it.end
    return place


def version(name: str) -> Tuple[int, int]:
    """What changes with a file; none of one that isn't there."""
    try:
        it = os.stat(name)
    except OSError:
        return 0, 0
    return it.st_mtime_ns, it.st_size


def sheet_words(fonts: Fonts) -> List[str]:
    return [word for letter, name in fonts.items() for word in (f'--font-{letter}', name)]


def gone(caller: socket.socket) -> bool:
    """Whether whoever asked has hung up."""
    ready = select.poll()
    ready.register(caller, select.POLLIN)
    if not ready.poll(0):
        # (a read of a connection that has a timeout would wait)
        return False
    try:
        return caller.recv(1, socket.MSG_PEEK | socket.MSG_DONTWAIT) == b''
    except BlockingIOError:
        return False
    except OSError:
        return True


def strike(ran: Ran) -> None:
    """Kills a program with all that it started."""
    if ran.poll() is None:
        with contextlib.suppress(ProcessLookupError):
            os.killpg(ran.pid, signal.SIGKILL)


def kill(ran: Ran) -> None:
    """Ends a program with all that it started, and what is known of it."""
    strike(ran)
    ran.wait()
    if ran.stdout:
        ran.stdout.close()
