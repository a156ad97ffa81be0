"""A job: a stream as it comes, what it asks in its commands, what it prints, and what becomes of it."""
from __future__ import annotations

import contextlib
import errno
import os
import re
import threading
import time
from typing import Any, Callable, Dict, List, Optional, Sequence, Tuple

from . import batch, tools
from .pool import Cut, Failed, Printing
from .ways import Ways

PIECE = 1 << 14
# How much of what isn't printed is looked at for formats.
MOST_LOOKED_AT = 1 << 16
# Of so many bytes at most a language is guessed, and what shows it at once.
GUESSED = 256
SHOWS = re.compile(rb'[\x10\x1b-\x1d]|[\^~][A-Za-z]|\S[^\n]*\n')
# Commands that print nothing, and end a print by the profile.
LEFT_OUT = 'ESC u', 'ESC v', 'GS g', 'GS j', 'DLE DC4'
Answer = Callable[[Any, bool], None]


def unanswered(*_: Any) -> None:
    """(nobody hears it)"""


class Job:
    """One stream. It is fed by one thread and printed by another."""

    def __init__(self, ways: Ways, answer: Answer) -> None:
        self.ways, self.answer = ways, answer
        self.number = ways.store.take()
        self.part = os.path.join(ways.store.room, f'{self.number}.bin')
        self.file = os.open(self.part, os.O_RDWR | os.O_CREAT | os.O_EXCL, 0o666)
        # how many bytes came, were looked at, were printed; and what the till has had thrown away
        self.size = self.read = self.done = 0
        self.drops = self.drops_done = self.drop_to = 0
        self.head = b''
        self.language: Optional[str] = ways.language or next((it for it in tools.LANGUAGES if it in ways.command), None)
        self.ended: Optional[str] = None
        self.is_given_up = self.is_over = self.is_queued = False
        self.lock = threading.Lock()
        self.printing: Optional[Printing] = None
        self.commands: Any = None
        self.fault = self.cut = ''
        # the images that are on paper, their rows, and what was asked
        self.images = self.images_kept = self.rows = 0
        # those that wait for paper
        self.waiting = 0
        self.asked: List[Tuple[str, str]] = []
        self.begun = time.time()
        self.line = ''
        self.names: List[str] = []

    def add(self, data: bytes) -> None:
        """Takes bytes of the stream. A bound that they pass raises ValueError."""
        most = self.ways.bounds.bytes
        if most is not None and self.size + len(data) > most:
            raise ValueError(f'it sends more than {most:,} bytes; --most-bytes raises this')
        tools.write_all(self.file, data)
        if not self.language:
            self.head = (self.head + data)[:1 << 16]
            if SHOWS.search(self.head) or len(self.head) >= GUESSED:
                self.guess()
        self.size += len(data)

    def guess(self) -> None:
        if not self.language:
            self.language = tools.streams.guess(self.head)

    def part_of(self, start: int, end: int) -> bytes:
        return os.pread(self.file, end - start, start)

    @property
    def has_work(self) -> bool:
        return bool(self.language) and self.read < self.size or self.ended is not None

    def drop(self) -> None:
        """Has all be passed by that came and isn't on paper yet, as a printer does that is told so."""
        with self.ways.device.changes:
            self.drops, self.drop_to = self.drops + 1, self.size
            self.ways.device.changes.notify_all()

    def dropped(self) -> None:
        if self.drops == self.drops_done:
            return
        self.drops_done = self.drops
        self.read = self.done = self.drop_to
        self.commands, self.fault = None, ''
        if self.printing:
            self.printing.keep(self.images - self.images_kept)
            self.images_kept = self.images

    def work(self, pieces: int = 1 << 62) -> None:
        """Prints what came, so many pieces at most, until there is no more of it now."""
        for _ in range(pieces):
            self.dropped()
            if self.is_given_up or not self.language or self.read >= self.size:
                return
            data = self.part_of(self.read, min(self.size, self.read + PIECE))
            if not data:
                raise OSError(errno.EIO, os.strerror(errno.EIO))
            self.piece(data)

    def piece(self, data: bytes) -> None:
        self.read += len(data)
        self.ways.device.count('byte', len(data))
        if self.language == 'label' or not self.ways.package:
            self.feed(self.read)
            return
        if not self.commands:
            self.commands = tools.part(self.ways.package, 'requests').Commands('receipt')
        for request in self.commands.feed(data):
            self.feed(request.start if request.name in LEFT_OUT else request.end)
            self.done = max(self.done, request.end)
            if self.is_given_up or self.drops != self.drops_done:
                return
            if not request.name.startswith('DLE') and self.can_go_on():
                self.answer(request, False)
        self.feed(self.commands.settled)

    def feed(self, end: int) -> None:
        """Prints up to a place of the stream, and waits for paper."""
        start, self.done = self.done, max(self.done, end)
        if start >= end or self.fault or self.cut or self.is_batch or self.is_given_up:
            return
        try:
            if not self.printing:
                words = self.ways.words_of(self.language or 'receipt')
                self.printing = Printing(self.ways.pool, words, self.ways.store.room, self.ways.bounds, self.part_of)
            sizes, fault, reached = self.printing.feed(start, self.part_of(start, end))
        except Cut as cut:
            self.reached(str(cut))
            return
        self.on_paper(sizes)
        self.fault = fault or ''
        if reached:
            self.reached(reached)

    def reached(self, bound: str) -> None:
        """Ends the print at a bound, or where its process ended."""
        most = getattr(self.ways.bounds, bound, None)
        self.cut = (str(tools.bounds.Reached(bound, most, self.done)) if most is not None
                    else f'cut off after {self.done:,} bytes: what printed it ended')

    def on_paper(self, sizes: Sequence[Tuple[int, int]]) -> None:
        """Puts images onto paper, as long as there is some."""
        for nth, (_, height) in enumerate(sizes):
            self.waiting = len(sizes) - nth
            if not self.can_go_on():
                return
            self.images += 1
            self.rows += height
            self.ways.device.count('row', height)
            self.waiting = 0

    def side_of(self, request: Any) -> int:
        """How many dots the symbol is wide and high that a request asks about."""
        return tools.side_of(request, self.ways.words_of('receipt'))

    def can_go_on(self) -> bool:
        """Waits until the printer can print. False where the job was given up, or thrown away."""
        return self.ways.device.wait(lambda: self.is_given_up or self.drops != self.drops_done)

    @property
    def formats(self) -> int:
        """How many labels' formats came and aren't printed."""
        rest = self.part_of(self.done, min(self.size, self.done + MOST_LOOKED_AT))
        return rest.upper().count(b'^XZ') + (self.waiting > 0)

    @property
    def is_batch(self) -> bool:
        """Whether a command of the user's prints all of it at the end, in a process."""
        return self.ways.expands or not self.ways.package

    def finish(self) -> None:
        """Prints the rest, and says what became of it."""
        self.guess()
        self.work()
        if self.commands and not self.is_given_up:
            self.feed(self.size)
            self.dropped()
        if self.is_given_up:
            return
        with self.ways.store.lock:
            self.ways.store.kept(self.number, self.part)
        made = self.batch() if self.is_batch else self.png()
        if not self.is_given_up:
            self.say(f'{self.ended}; {made if made != "printed" else "what came is printed"}' if self.ended else made)

    def png(self) -> str:
        """Makes the PNGs, and says what was printed."""
        name = os.path.join(self.ways.store.room, f'{self.number}.png')
        names: List[str] = []
        if self.printing:
            try:
                if self.cut:
                    names = self.printing.rescue(name, self.images)
                else:
                    fault, names = self.printing.end(name, self.images)
                    self.fault = fault or ''
            except Cut as cut:
                self.reached(str(cut))
            except Failed as failed:
                return f'cannot be kept: {failed}'
        if self.is_given_up:
            return ''
        self.names = self.ways.store.settle(names)
        if self.size == 0:
            return 'nothing came'
        if self.cut or self.fault:
            return self.cut or self.fault
        asked = ', '.join(dict.fromkeys(it for it, _ in self.asked))
        nothing = f'asked ({asked}), and printed nothing' if asked else 'nothing was printed'
        return 'printed' if self.names else nothing

    def batch(self) -> str:
        """Has a command print the whole stream, once there is paper."""
        if not self.size:
            return 'nothing came'
        if not self.can_go_on():
            return 'nothing was printed'
        name, room = f'{self.number}.png', self.ways.store.room
        command = self.ways.words_of(self.language or 'receipt')
        try:
            made = batch.printed(self.ways, str(self.ways.store.folder / self.number), os.path.join(room, name),
                                 command, self.language == 'label')
        except (tools.program.Fault, ValueError) as fault:
            return str(fault)
        self.rows, self.images = made.rows, made.images
        self.ways.device.count('row', made.rows)
        self.names = self.ways.store.settle(made.names)
        return made.line or ('printed' if self.names else 'nothing was printed')

    def say(self, line: str) -> None:
        """Ends the job with a line."""
        with self.lock:
            if self.is_over:
                return
            self.is_over, self.line = True, line
        self.ways.store.say(self.number, line)
        if self.ways.storing:
            self.ways.storing.put(self.number, self.names)
        self.ways.device.count('job')
        self.ways.device.tell(kind='job', **self.json())

    def json(self) -> Dict[str, Any]:
        return {'number': self.number, 'language': self.language, 'bytes': self.size, 'rows': self.rows,
                'line': self.line, 'is_over': self.is_over, 'begun': self.begun, 'images': self.names,
                'asked': self.asked[-50:]}

    def give_up(self, line: str) -> None:
        """Ends the job unprinted: what came is kept."""
        self.is_given_up = True
        if not self.is_over:
            with contextlib.suppress(OSError):
                self.ways.store.kept(self.number, self.part)
            self.say(line)

    def close(self) -> None:
        if self.printing:
            self.printing.close()
        # (what is kept in mind of it holds no stream)
        self.printing = self.commands = None
        self.answer, self.head = unanswered, b''
        os.close(self.file)
        with contextlib.suppress(OSError):
            os.unlink(self.part)
