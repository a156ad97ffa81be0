"""A connection of a till: what it sends is a job, and what it asks is answered."""
from __future__ import annotations

import select
import socket
import threading
import time
from typing import Any, Callable

from . import escpos, tools, zpl
from .device import Device
from .job import Job
from .state import State
from .ways import Ways

PART = 1 << 16
# How many bytes a printer holds that it hasn't printed, and how many of them it has printed before it takes more.
BUFFER = 1 << 16
# A stream whose language doesn't show is guessed after so many seconds.
UNSURE = .2
# How often a silent connection looks how the printer is, in seconds.
LOOK = 1
XON, XOFF = b'\x11', b'\x13'
MOST_ASKED = 1000
# How STX, ETX and line ends are shown.
SIGNS = {2: '<STX>', 3: '<ETX>', 13: None}


class Till:
    """One connection. `wants_work` has its job printed as far as it came."""

    def __init__(self, ways: Ways, connection: socket.socket, wants_work: Callable[['Till'], None], idle: float,
                 says_xoff: bool = False, buffer: int = BUFFER) -> None:
        self.device: Device = ways.device
        self.connection, self.wants_work, self.idle = connection, wants_work, idle
        # (an answer of a byte doesn't wait for the next one)
        connection.setsockopt(socket.IPPROTO_TCP, socket.TCP_NODELAY, 1)
        self.says_xoff, self.buffer = says_xoff, buffer
        self.job = Job(ways, self.answer)
        self.sending = threading.Lock()
        # what GS a asked for, and what was told last
        self.chosen, self.last = 0, b''
        self.is_off = self.is_closed = False
        self.reader: Any = None
        self.recent = b''
        self.darkness = 10

    # Taking.

    def run(self) -> None:
        """Takes the stream until it ends, and has it printed."""
        self.device.listeners.append(self.changed)
        try:
            self.take()
        except (ConnectionError, TimeoutError):
            self.job.ended = 'cut off: the connection was reset'
        except ValueError as bound:
            self.job.ended = f'cut off: {bound}'
        except OSError as error:
            self.job.ended = f'cut off: it cannot be kept: {error.strerror}'
        self.wants_work(self)

    def take(self) -> None:
        ready = select.poll()
        ready.register(self.connection, select.POLLIN | select.POLLHUP)
        last = time.monotonic()
        while not self.job.is_given_up:
            if not self.has_room():
                last = time.monotonic()
                continue
            if self.device.state.stops:
                # (who waits for paper isn't silent)
                last = time.monotonic()
            left = self.idle - (time.monotonic() - last)
            if left <= 0:
                self.job.ended = f'cut off: nothing came for {self.idle:g} s'
                return
            unsure = self.job.head and not self.job.language
            if not ready.poll(1000 * min(left, UNSURE if unsure else LOOK)):
                if unsure:
                    self.job.guess()
                    self.asked(self.job.head)
                    self.wants_work(self)
                continue
            part = self.connection.recv(PART)
            if not part:
                self.job.ended = ''
                return
            last = time.monotonic()
            self.taken(part)

    def is_full(self, state: State) -> bool:
        """Whether no more is to come, which XOFF says, and XON that it may again."""
        waits = self.job.size - self.job.done
        full = waits >= self.buffer or state.buffer_full or state.busy
        if self.says_xoff and full != self.is_off and (full or waits <= self.buffer // 2):
            self.is_off = full
            self.send(XOFF if full else XON)
        # (who goes on all the same is held up by the window)
        return full and not (self.says_xoff and waits < 4 * self.buffer)

    def has_room(self) -> bool:
        """Whether more is taken now. It waits a little where it isn't."""
        with self.device.changes:
            if not self.is_full(self.device.state):
                return True
            self.device.changes.wait(.05)
        if self.connection.getsockopt(socket.SOL_SOCKET, socket.SO_ERROR):
            raise ConnectionResetError
        return False

    def taken(self, part: bytes) -> None:
        known = bool(self.job.language)
        self.job.add(part)
        if self.job.language:
            self.asked(part if known else self.job.head)
            self.wants_work(self)

    def asked(self, part: bytes) -> None:
        """Answers what is answered on arrival."""
        package = self.job.ways.package
        if not package:
            return
        label = self.job.language == 'label'
        if not self.reader:
            requests = tools.part(package, 'requests')
            self.reader = requests.Commands('label') if label else requests.RealTime()
        if label:
            self.recent = (self.recent + part)[-(1 << 16):]
        for request in self.reader.feed(part):
            self.answer(request, True)

    # Answering.

    def answer(self, request: Any, at_once: bool) -> None:
        """Does and answers a request. Those of labels and real-time ones are known on arrival."""
        name, data = request.name, request.arguments
        side = self.job.side_of(request) if name == 'GS ( k' else 0
        with self.device.changes:
            state = self.device.state
            if self.job.language == 'label':
                said = self.label(name, data, state)
            else:
                self.act(name, data)
                said = escpos.answer(name, data, self.device.state, side)
            if name == 'GS a' and data:
                self.chosen = data[0]
                self.last = escpos.told(state, self.chosen)
            self.send(said)
        self.note(name, data, said)

    def note(self, name: str, data: bytes, said: bytes) -> None:
        """Keeps what was asked and answered, and tells it: bytes of receipts in hex, strings of labels as they are."""
        if self.job.language == 'label':
            asked, answer = name + data.decode('latin-1'), said.decode('latin-1').translate(SIGNS)
        else:
            asked, answer = f'{name} {data.hex(" ")}'.strip(), said.hex(' ')
        if len(self.job.asked) < MOST_ASKED:
            self.job.asked.append((asked, answer))
        self.device.tell(kind='asked', number=self.job.number, asked=asked, answer=answer)

    def act(self, name: str, data: bytes) -> None:
        """What a real-time request does beside its answer."""
        recovers = self.device.state.cutter_error
        if name == 'DLE DC4' and data[0] == 8:
            self.job.drop()
        elif name == 'DLE DC4' and data[0] == 2:
            self.device.set('offline')
        elif name == 'DLE ENQ' and data[0] in (1, 2) and recovers:
            if data[0] == 2:
                self.job.drop()
            self.device.set('cutter free')

    def label(self, name: str, data: bytes, state: State) -> bytes:
        if name in ('~PP', '~PS'):
            self.device.set('paused' if name == '~PP' else 'going on')
        elif name in ('~JA', '~JR'):
            self.job.drop()
        elif name == '~SD' and data.isdigit():
            self.darkness = min(30, int(data))
        elif name == '^HV':
            return zpl.field(self.recent, data)
        job = self.job
        return zpl.answer(name, data, state, zpl.work(self.recent, job.formats, job.waiting, self.darkness))

    def changed(self, state: State) -> None:
        """Tells a change that was asked for by GS a."""
        if self.says_xoff:
            self.is_full(state)
        if self.chosen and not self.is_closed:
            now = escpos.told(state, self.chosen)
            if now != self.last:
                self.last = now
                self.send(escpos.by_itself(state))

    def send(self, data: bytes) -> None:
        """Sends an answer whole, in one piece. One who doesn't read gets none."""
        if not data or self.is_closed:
            return
        with self.sending:
            try:
                self.connection.send(data, socket.MSG_DONTWAIT | socket.MSG_NOSIGNAL)
            except OSError:
                pass

    def close(self) -> None:
        self.is_closed = True
        if self.changed in self.device.listeners:
            self.device.listeners.remove(self.changed)
        try:
            self.connection.shutdown(socket.SHUT_WR)
        except OSError:
            pass
        self.connection.close()
        self.job.close()
