"""A printer's port: connections are taken side by side, and what they send is printed by a few at a time."""
from __future__ import annotations

import collections
import contextlib
import os
import queue
import select
import signal
import socket
import sys
import threading
import time
from typing import Any, Deque, Dict, List, Optional

from . import tools
from .job import Job
from .pool import Failed
from .store import tell
from .till import BUFFER, Till
from .ways import Ways

# How many connections are taken at a time; more wait.
MOST_TILLS = 256
# How many jobs that have ended are kept in mind.
MOST_PAST = 500
# How many pieces of a job are printed before another job has its turn.
TURN = 16
SIGNALS = signal.SIGTERM, signal.SIGHUP, signal.SIGINT


class Ended(BaseException):
    """A signal ends it."""


class Signalled:
    """Whether a signal ends it at once, or only has its name kept: a connection that is being taken is taken."""

    at_once, name = True, ''


def on_signal(number: int, _: Any) -> None:
    Signalled.name = signal.Signals(number).name
    if Signalled.at_once:
        raise Ended(Signalled.name)


def listen_to_signals() -> None:
    """Has each signal that ends a program be Ended, so that nothing is left."""
    for it in SIGNALS:
        signal.signal(it, on_signal)


def given() -> Optional[socket.socket]:
    """The socket that systemd or inetd listens on for us, or None."""
    number = 3 if os.environ.get('LISTEN_PID') == str(os.getpid()) else 0
    with contextlib.suppress(OSError):
        it = socket.socket(fileno=number)
        if it.getsockopt(socket.SOL_SOCKET, socket.SO_ACCEPTCONN):
            return it
        it.detach()
    return None


def listening(address: str, port: int, shares: bool = False) -> socket.socket:
    """A socket that listens. Where it shares, other processes may listen there too. What is wrong is a Fault."""
    try:
        found = socket.getaddrinfo(address, port, type=socket.SOCK_STREAM, flags=socket.AI_PASSIVE)[0]
        it = socket.socket(found[0], found[1])
        it.setsockopt(socket.SOL_SOCKET, socket.SO_REUSEADDR, 1)
        if shares:
            it.setsockopt(socket.SOL_SOCKET, socket.SO_REUSEPORT, 1)
        it.bind(found[4])
        it.listen(256)
    except (OSError, OverflowError, UnicodeError) as error:
        said = getattr(error, 'strerror', None) or error
        raise tools.program.Fault(f'cannot listen on {address} port {port}: {said}') from None
    return it


class Server:
    """The tills of one port."""

    def __init__(self, ways: Ways, at_once: int, idle: float, says_xoff: bool = False, buffer: int = BUFFER) -> None:
        self.ways, self.idle, self.says_xoff, self.buffer = ways, idle, says_xoff, buffer
        self.queue: queue.SimpleQueue[Till] = queue.SimpleQueue()
        self.lock = threading.Lock()
        self.tills: Dict[Till, bool] = {}
        # the jobs that have ended, the last ones
        self.past: Deque[Job] = collections.deque(maxlen=MOST_PAST)
        self.free = threading.BoundedSemaphore(MOST_TILLS)
        self.is_over = False
        for _ in range(at_once):
            threading.Thread(target=self.slot, daemon=True).start()

    def wants_work(self, till: Till) -> None:
        with till.job.lock:
            if till.job.is_queued:
                return
            till.job.is_queued = True
        self.queue.put(till)

    def slot(self) -> None:
        """Prints a turn of each job."""
        while True:
            till = self.queue.get()
            job, is_done = till.job, False
            try:
                if job.ended is not None:
                    job.guess()
                job.work(TURN)
                if job.ended is not None and job.read >= job.size:
                    is_done = True
                    job.finish()
            except (OSError, Failed) as error:
                is_done = True
                job.say(f'cannot be kept: {getattr(error, "strerror", None) or error}')
            except Exception as error:
                # (one job's trouble is not that of the others)
                is_done = True
                job.say(f'cannot be printed: {type(error).__name__}: {error}')
            with job.lock:
                job.is_queued = False
            if is_done:
                self.gone(till)
            elif job.has_work:
                self.wants_work(till)

    def gone(self, till: Till) -> None:
        with self.lock:
            if self.tills.pop(till, None):
                self.past.append(till.job)
                till.close()
                self.free.release()

    def take(self, connection: socket.socket) -> None:
        """Takes a connection, which holds a place."""
        try:
            till = Till(self.ways, connection, self.wants_work, self.idle, self.says_xoff, self.buffer)
        except OSError as error:
            # as on a full disk: the next one may find room
            tell(f'a connection is turned away: {error.strerror}')
            connection.close()
            self.free.release()
            return
        with self.lock:
            self.tills[till] = True
        self.ways.device.tell(kind='till', number=till.job.number)
        try:
            threading.Thread(target=till.run, daemon=True).start()
        except RuntimeError as error:
            till.job.say(f'a connection is turned away: {error}')
            self.gone(till)

    def serve(self, port: socket.socket, until_idle: Optional[float]) -> None:
        """Takes connections until a signal comes, or with a socket that was handed over until none came for so long."""
        port.setblocking(False)
        ready = select.poll()
        ready.register(port, select.POLLIN)
        while True:
            self.free.acquire()
            is_there = ready.poll(None if until_idle is None else 1000 * until_idle)
            Signalled.at_once = False
            try:
                connection = port.accept()[0]
                connection.setblocking(True)
                self.take(connection)
            except OSError as error:
                self.free.release()
                if not is_there and not self.tills:
                    return
                if not isinstance(error, BlockingIOError):
                    tell(f'a connection is turned away: {error.strerror}')
                    time.sleep(.1)
            finally:
                Signalled.at_once = True
            if Signalled.name:
                raise Ended(Signalled.name)

    def end(self, port: socket.socket, why: str) -> None:
        """Ends at once: a line for each job that isn't printed, and for each connection that waited."""
        port.setblocking(False)
        waiting: List[socket.socket] = []
        with contextlib.suppress(OSError):
            while True:
                waiting.append(port.accept()[0])
        line = f'cut off: ended by {why} before it was printed'
        with self.lock:
            for till in self.tills:
                till.job.give_up(line)
        if self.ways.storing:
            self.ways.storing.end(why)
        for connection in waiting:
            connection.close()
            with contextlib.suppress(OSError):
                self.ways.store.say(self.ways.store.take(), f'{line}, and nothing of it was taken')


def run(server: Server, port: socket.socket, until_idle: Optional[float]) -> int:
    """Serves until it is ended, and gives its status. No process is left, and nothing that isn't whole."""
    try:
        server.serve(port, until_idle)
    except Ended as ended:
        for it in SIGNALS:
            signal.signal(it, signal.SIG_IGN)
        server.end(port, str(ended))
    finally:
        server.ways.pool.end()
        tools.bounds.end_all()
        server.ways.store.end()
        server.ways.device.end()
    with contextlib.suppress(OSError, ValueError):
        sys.stderr.flush()
    # (threads that wait for tills don't hold it up)
    os._exit(0)
