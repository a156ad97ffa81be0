"""The folder of a printer: numbers in the order of connections, what came, what was printed, and the log."""
from __future__ import annotations

import contextlib
import os
import pathlib
import re
import shutil
import sys
import tempfile
import threading
from typing import List

from . import tools


class Store:
    """What isn't whole stands in a folder of its own, which goes at the end."""

    def __init__(self, folder: pathlib.Path, is_quiet: bool = False) -> None:
        folder.mkdir(parents=True, exist_ok=True)
        self.folder = folder.resolve()
        self.room = tempfile.mkdtemp(prefix='.vp-', dir=self.folder)
        taken = [int(it[1]) for it in map(re.compile(r'(\d{6,})\.bin').fullmatch, os.listdir(folder)) if it]
        self.last = max(taken, default=0)
        self.lock = threading.Lock()
        self.is_quiet = is_quiet

    def take(self) -> str:
        """The next number, whose file nobody else makes."""
        with self.lock:
            while True:
                self.last += 1
                try:
                    open(self.folder / f'{self.last:06}.bin', 'xb').close()
                    return f'{self.last:06}'
                except FileExistsError:
                    pass

    def say(self, number: str, what: str) -> None:
        """A line of the log, in one write, and of standard error where that isn't somebody else's."""
        line = tools.program.shown(f'{number} {what}')
        with contextlib.suppress(OSError):
            log = os.open(self.folder / 'log', os.O_WRONLY | os.O_CREAT | os.O_APPEND, 0o666)
            try:
                os.write(log, f'{line}\n'.encode('utf-8', 'surrogateescape'))
            finally:
                os.close(log)
        if not self.is_quiet:
            tell(line)

    def kept(self, number: str, part: str) -> None:
        """Gives a stream its name."""
        os.replace(part, self.folder / f'{number}.bin')

    def settle(self, names: List[str]) -> List[str]:
        """Gives PNGs of the room their names. Those that are somebody else's stay."""
        settled = []
        for name in names:
            with contextlib.suppress(FileExistsError):
                os.link(os.path.join(self.room, name), self.folder / name)
                settled.append(name)
            os.unlink(os.path.join(self.room, name))
        return settled

    def end(self) -> None:
        shutil.rmtree(self.room, ignore_errors=True)


def tell(line: str) -> None:
    try:
        print(line, file=sys.stderr, flush=True)
    except OSError:
        # as of inetd, which leaves the socket in its place
        pass
