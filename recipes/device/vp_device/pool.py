"""Processes that print, and the printers in them. A process that takes too long is ended, and another takes its place;
what it had of other jobs is printed again from their streams."""
from __future__ import annotations

import contextlib
import itertools
import os
import pathlib
import signal
import socket
import subprocess
import threading
import time
from multiprocessing.connection import Connection
from typing import Any, Callable, Dict, List, Optional, Tuple

from . import tools
from .orders import Made, Order
from .state import State
from .work import Ending, Printed

HERE = pathlib.Path(__file__).resolve().parent
# How many printers may be open in all processes at once: of more the one that was idle for longest is put away.
MOST_OPEN = 64
# How long, in seconds, what isn't bounded by a print may take.
RESCUE = 30
PIECE = 1 << 16
keys = itertools.count(1)


class Cut(Exception):
    """A print that took too long, or whose process ended."""


class Failed(Exception):
    """What a process says that it couldn't do, as on a full disk."""


class Time:
    """How many seconds are left of those that a print may take; None is no bound."""

    def __init__(self, seconds: Optional[float]) -> None:
        self.left = seconds


class Worker:
    """One process, which is asked for one thing at a time."""

    def __init__(self) -> None:
        self.lock = threading.Lock()
        self.process: Optional[subprocess.Popen[bytes]] = None
        self.peer: Optional[Connection] = None
        self.born = self.waiting = 0
        self.is_ended = False

    def start(self) -> None:
        own, other = socket.socketpair()
        with other:
            self.process = subprocess.Popen(
                [tools.python(), str(HERE / 'work.py'), str(other.fileno())], pass_fds=[other.fileno()],
                stdin=subprocess.DEVNULL, stdout=subprocess.DEVNULL, start_new_session=True)
        self.peer = Connection(own.detach())
        self.born += 1

    def ask(self, time_left: Time, name: str, *of: Any, born: Optional[int] = None) -> Any:
        """What the process answers. One that doesn't in this time is ended: Cut. `born` is the one that is meant."""
        with self.lock:
            begun = time.monotonic()
            if self.is_ended or born is not None and (born != self.born or not self.peer):
                raise Cut('ended')
            if not self.peer:
                self.start()
            peer = self.peer
            assert peer
            try:
                peer.send((time_left.left, name, *of))
                if not peer.poll(time_left.left):
                    raise Cut('seconds')
                is_done, answer = peer.recv()
            except (EOFError, OSError):
                self.kill()
                raise Cut('died') from None
            except Cut:
                self.kill()
                raise
            finally:
                if time_left.left is not None:
                    time_left.left = max(.001, time_left.left - (time.monotonic() - begun))
        if not is_done:
            raise Failed(answer)
        return answer

    def kill(self) -> None:
        process, self.process = self.process, None
        if process:
            with contextlib.suppress(ProcessLookupError, PermissionError):
                os.killpg(process.pid, signal.SIGKILL)
            process.wait()
        if self.peer:
            self.peer.close()
            self.peer = None

    def end(self) -> None:
        """Ends the process at once, whatever it does."""
        self.is_ended = True
        process = self.process
        if process:
            with contextlib.suppress(ProcessLookupError, PermissionError):
                os.killpg(process.pid, signal.SIGKILL)
            with contextlib.suppress(ChildProcessError):
                process.wait()


class Printing:
    """The printer of one job. Where its process is gone it is opened anew, and fed again what it was fed."""

    def __init__(self, pool: Pool, words: List[str], folder: str, bounds: Any,
                 reread: Callable[[int, int], bytes]) -> None:
        self.pool, self.words, self.bounds, self.reread = pool, words, bounds, reread
        self.spool = os.path.join(folder, f'.vp-{os.urandom(6).hex()}')
        self.left = Time(bounds.seconds)
        self.fed: List[Tuple[int, int]] = []
        self.key = self.born = 0
        self.worker: Optional[Worker] = None
        # how much of the images' file stays whatever is printed anew, and the images behind that
        self.kept = 0
        self.sizes: List[Tuple[int, int]] = []
        self.lock = threading.RLock()

    def _ask(self, name: str, *of: Any) -> Any:
        assert self.worker
        return self.worker.ask(self.left, name, self.key, *of, born=self.born)

    def _open(self) -> None:
        self.worker, self.key = self.pool.take(self), next(keys)
        self.worker.ask(self.left, 'open', self.key, self.words, self.spool, self.kept, self.bounds)
        self.born = self.worker.born
        seen = 0
        for start, end in self.fed:
            for at in range(start, end, PIECE):
                seen += len(self._ask('feed', self.reread(at, min(end, at + PIECE)))[0])
        if seen != len(self.sizes):
            raise Cut('died')

    def _opened(self, name: str, *of: Any) -> Any:
        """Asks, with the printer opened where it isn't any more."""
        with self.lock:
            for is_last in False, False, True:
                if not self.worker or self.worker.born != self.born or not self.worker.peer:
                    self._open()
                try:
                    return self._ask(name, *of)
                except Cut as cut:
                    if is_last or str(cut) != 'ended':
                        raise
                    self.worker = None

    def feed(self, start: int, data: bytes) -> Printed:
        """What bytes print, that stand at this place of the stream."""
        found: Printed = self._opened('feed', data)
        self.sizes += found[0]
        if self.fed and self.fed[-1][1] == start:
            self.fed[-1] = self.fed[-1][0], start + len(data)
        else:
            self.fed.append((start, start + len(data)))
        return found

    def keep(self, count: int) -> None:
        """Throws away all behind so many images of those since it was last asked, and begins with a new printer."""
        with self.lock:
            self.kept += sum(len(f'P4\n{width} {height}\n') + (width + 7) // 8 * height
                             for width, height in self.sizes[:count])
            self.sizes, self.fed = [], []
            self.put_away()

    def end(self, name: str, count: int) -> Ending:
        """Makes the PNGs, of so many images."""
        found: Ending = self._opened('end', name, count)
        self.pool.gone(self)
        return found

    def rescue(self, name: str, count: int) -> List[str]:
        """The PNGs of what was printed before the print was cut."""
        worker = self.pool.take(self)
        found: List[str] = worker.ask(Time(RESCUE), 'rescue', self.spool, name, self.words[1] == 'label', count)
        return found

    def put_away(self) -> None:
        """Gives the printer's memory back, if it is idle; it is opened anew where it is needed."""
        if not self.lock.acquire(blocking=False):
            return
        try:
            worker, self.worker = self.worker, None
            if worker:
                with contextlib.suppress(Cut, Failed):
                    worker.ask(Time(RESCUE), 'drop', self.key, born=self.born)
        finally:
            self.lock.release()

    def close(self) -> None:
        self.pool.gone(self)
        self.put_away()
        with contextlib.suppress(OSError):
            os.unlink(self.spool)


class Pool:
    """So many processes, which are started when they are needed."""

    def __init__(self, count: int) -> None:
        self.workers = [Worker() for _ in range(count)]
        self.lock = threading.Lock()
        self.open: Dict[Printing, Worker] = {}

    def take(self, printing: Printing) -> Worker:
        """A process for a printer: one that has few. One of too many printers is put away."""
        idle = None
        with self.lock:
            self.open.pop(printing, None)
            loads = {it: 0 for it in self.workers}
            for worker in self.open.values():
                loads[worker] += 1
            chosen = min(self.workers, key=lambda it: (it.lock.locked(), loads[it]))
            if len(self.open) >= MOST_OPEN:
                idle = next(iter(self.open))
                del self.open[idle]
            self.open[printing] = chosen
        if idle:
            idle.put_away()
        return chosen

    def gone(self, printing: Printing) -> None:
        with self.lock:
            self.open.pop(printing, None)

    def whole(self, order: Order, data: bytes, state: State, bounds: Any) -> Made:
        """What a stream prints, by any process."""
        with self.lock:
            chosen = min(self.workers, key=lambda it: (it.waiting, it.lock.locked()))
            chosen.waiting += 1
        try:
            made: Made = chosen.ask(Time(bounds.seconds), 'whole', order, data, state, bounds)
            return made
        finally:
            with self.lock:
                chosen.waiting -= 1

    def end(self) -> None:
        for it in self.workers:
            it.end()


def workers() -> int:
    """How many processes print where nobody says it."""
    return min(4, len(os.sched_getaffinity(0)))
