"""A process that prints: printers are opened, fed and ended by messages. It is ended where a stream takes too long."""
from __future__ import annotations

import contextlib
import os
import re
import resource
import signal
import sys
import time
from multiprocessing.connection import Connection
from typing import Any, Dict, List, Optional, Tuple

if __name__ == '__main__':
    sys.path.insert(0, os.path.dirname(os.path.dirname(os.path.realpath(__file__))))
from vp_device import tools  # noqa: E402
from vp_device.orders import Made, Order  # noqa: E402

# What a piece of a stream printed: the size of each image, the fault that stopped it, the bound that it reached.
Printed = Tuple[List[Tuple[int, int]], Optional[str], str]


# What a printer ended with: its fault, and the names of the PNGs.
Ending = Tuple[Optional[str], List[str]]


# How an image begins.
HEAD = re.compile(rb'P4\n(\d+) (\d+)\n')


class Open:
    """A printer whose images go to a file."""

    def __init__(self, words: List[str], spool: str, kept: int, bounds: Any) -> None:
        self.handle = tools.handle_of(words)
        self.cutter = tools.bounds.Cutter(bounds)
        self.name, self.file = spool, open(spool, 'ab', buffering=0)
        self.file.truncate(kept)
        self.sizes: List[Tuple[int, int]] = []
        self.is_label = words[1] == 'label'

    def put(self, part: memoryview) -> None:
        piece = self.cutter.add(part)
        tools.write_all(self.file.fileno(), piece)
        self.sizes += sizes(piece)
        if self.cutter.reached:
            raise Reached

    def feed(self, data: bytes) -> Printed:
        with contextlib.suppress(Reached):
            self.handle.feed(data, self.put)
        found, self.sizes = self.sizes, []
        fault = self.handle.fault
        return found, str(fault) if fault else None, self.cutter.reached

    def end(self, name: str, count: int) -> Ending:
        """Makes PNGs of the first images, so many."""
        fault = self.handle.fault or self.handle.finish() if not self.cutter.reached else None
        self.handle.close()
        self.file.close()
        return str(fault) if fault else None, pngs(self.name, name, self.is_label, count)

    def drop(self) -> None:
        self.handle.close()
        self.file.close()


def pngs(spool: str, name: str, is_label: bool, count: int) -> List[str]:
    """Makes PNGs of the first images of a file, so many: their names."""
    with open(spool, 'rb') as file, tools.images.Files(name, is_label, is_new=True) as files:
        tools.images.write(file, files, most=count)
        return [os.path.basename(it) for it in files.settle()]


class Reached(Exception):
    """A bound is reached."""


def sizes(piece: bytes) -> List[Tuple[int, int]]:
    """The sizes of whole images."""
    found, at = [], 0
    while at < len(piece):
        head = HEAD.match(piece, at)
        assert head
        width, height = map(int, head.groups())
        found.append((width, height))
        at = head.end() + (width + 7) // 8 * height
    return found


class Process:
    """What the messages say: each is a method's name and its arguments."""

    def __init__(self) -> None:
        self.printers: Dict[int, Open] = {}

    def open(self, key: int, *of: Any) -> None:
        self.printers[key] = Open(*of)

    def feed(self, key: int, data: bytes) -> Printed:
        return self.printers[key].feed(data)

    def end(self, key: int, name: str, count: int) -> Ending:
        return self.printers.pop(key).end(name, count)

    def rescue(self, *of: Any) -> List[str]:
        return pngs(*of)

    def drop(self, key: int) -> None:
        if key in self.printers:
            self.printers.pop(key).drop()

    def whole(self, order: Order, *of: Any) -> Made:
        from vp_device import whole
        return whole.printed(order, *of)


def main(number: int) -> None:
    for it in signal.SIGINT, signal.SIGTERM, signal.SIGHUP:
        signal.signal(it, signal.SIG_IGN)
    peer, process = Connection(number), Process()
    while True:
        try:
            seconds, name, *of = peer.recv()
        except (EOFError, OSError):
            return
        # (an orphan that hangs is ended by this)
        if seconds is not None:
            used = int(time.process_time() + seconds) + 2
            resource.setrlimit(resource.RLIMIT_CPU, (used, resource.getrlimit(resource.RLIMIT_CPU)[1]))
        try:
            peer.send((True, getattr(process, name)(*of)))
        except Exception as error:
            peer.send((False, getattr(error, 'strerror', None) or str(error) or 'out of memory'))


if __name__ == '__main__':
    main(int(sys.argv[1]))
