"""Prints streams of a folder, one after the other, as `many` has them printed."""
import contextlib
import hashlib
import os
import tempfile
from typing import IO, Optional, Sequence

from . import in_process
from .bounds import Bounds, Run
from .faults import NOT_OF_VP, VP_STATUSES, Fault, shown, text_of, why
from .in_process import Done
from .program import read
from .vp.bounds import HELD
from .words import whole

# A stream of more bytes has a process of its own, which doesn't hold it.
MOST = 1 << 24


class Batch:
    """What a run of many makes in a folder: images or their sums, faults, the list of both, and what didn't go well."""

    def __init__(self, command: Sequence[str], streams: str, out: str, own: Bounds, sums: bool, expands: bool) -> None:
        self.command = whole(command) if expands else command
        self.streams, self.out, self.sums, self.expands = streams, out, sums, expands
        self.bounds, self.part = own, os.path.join(out, f'.vp-part.{os.getpid()}')
        self.is_bad = False

    def add(self, file: str, line: str) -> None:
        """Adds a line to a file that others add to at the same time."""
        with open(os.path.join(self.out, file), 'ab', buffering=0) as it:
            it.write(os.fsencode(f'{line}\n'))

    def keep(self, name: str, data: Optional[bytes] = None) -> None:
        """Has bytes, or what was written, take a name, which is listed first."""
        if data is not None:
            with open(self.part, 'wb') as file:
                file.write(data)
        self.add('.vp-many', name)
        os.replace(self.part, os.path.join(self.out, name))

    def ran(self, file: str) -> Done:
        """What is printed of a stream, which is written."""
        if self.expands:
            return self.ran_anew(read(file))
        if os.path.getsize(file) <= MOST:
            with open(file, 'rb') as stream:
                found = in_process.done(self.command, stream.read(), self.bounds)
            if found:
                return self.written(found)
        with open(file, 'rb') as stream:
            return self.by_process(stream)

    def ran_anew(self, data: bytes) -> Done:
        """What is printed of a stream that is written anew first."""
        from .anew import written
        from .expand.places import old_place, told
        found = written(data, self.command)
        made = in_process.done(self.command, found.data, self.bounds) if len(found.data) <= MOST else None
        if made:
            made = self.written(made)
        else:
            with tempfile.TemporaryFile() as stream:
                stream.write(found.data)
                stream.seek(0)
                made = self.by_process(stream)
        reached = made.reached
        if reached and reached.byte is not None:
            reached = reached._replace(byte=old_place(found.pieces, reached.byte))
        return made._replace(line=told(made.line, found.pieces), reached=reached)

    def written(self, made: Done) -> Done:
        with open(self.part, 'wb') as paper:
            paper.write(made.out)
        return made._replace(out=b'')

    def by_process(self, stream: IO[bytes]) -> Done:
        with Run(self.command, stream, self.bounds) as run, open(self.part, 'wb') as paper:
            for piece in run:
                paper.write(piece)
        return Done(b'', text_of(run.said), run.status, run.reached)

    def print(self, name: str) -> None:
        try:
            made = self.ran(os.path.join(self.streams, name))
            line, status = (str(made.reached), 1) if made.reached else (made.line, made.status)
            if status not in (0, 1) or status == 1 and not line:
                shell = status if status >= 0 else 128 - status
                self.is_odd(name, line or f'status {shell}, and nothing was said', status)
                return
            os.makedirs(os.path.dirname(os.path.join(self.out, name)), exist_ok=True)
            if self.sums:
                self.add('sums.txt', f'{self.sum()}  {name}')
            else:
                self.keep(f'{name}.pbm')
            if status:
                self.keep(f'{name}.fault', os.fsencode(f'{line}\n'))
                self.add('faults.txt', f'{name}: {line}')
        except Fault as fault:
            self.is_odd(name, str(fault), fault.status)
        except OSError as error:
            what = 'vp: write failed' if error.filename is None else f'{shown(error.filename)}: {why(error)}'
            self.is_odd(name, what, 3)

    def is_odd(self, name: str, line: str, status: int) -> None:
        """Says of a stream why it isn't printed."""
        self.add('.vp-bad', f'{status if status in VP_STATUSES else NOT_OF_VP} {name}: {line}')
        self.is_bad = True

    def sum(self) -> str:
        made = hashlib.sha256()
        with open(self.part, 'rb') as file:
            for piece in iter(lambda: file.read(1 << 16), b''):
                made.update(piece)
        return made.hexdigest()


def batch(command: Sequence[str], streams: str, out: str, names: Sequence[str], own: Bounds = HELD, sums: bool = False,
          expands: bool = False) -> int:
    """Prints these streams; the status is 1 where one didn't go well."""
    made = Batch(command, streams, out, own, sums, expands)
    try:
        for name in names:
            made.print(name[2:] if name.startswith('./') else name)
    finally:
        with contextlib.suppress(FileNotFoundError):
            os.unlink(made.part)
    return 1 if made.is_bad else 0
