"""What a command prints of a stream: as PNGs, or passed on."""
import io
import os
import sys
from typing import IO, Callable, NamedTuple, Optional, Sequence

from .bounds import DEFAULT, Bounds, Reached, Run
from .faults import NOT_OF_VP, Fault, shown, text_of, told
from .images import Cut, Files, Pieces, write


class Paper(NamedTuple):
    """What a command ended with: whether all of its images were taken, what was odd in them, its status, its words, the
    bound that was reached."""

    command: Sequence[str]
    is_all: bool
    odd: Optional[ValueError]
    status: int
    said: bytes
    reached: Optional[Reached]

    def line(self) -> str:
        """What it said, in one line, or which bound was reached. What isn't vp's is a Fault."""
        if self.reached:
            return str(self.reached)
        if self.odd and (not isinstance(self.odd, Cut) or not self.status):
            raise Fault(f'{shown(self.command[0])} printed no images as vp does: {self.odd}', NOT_OF_VP)
        line = told(self.command, self.status, text_of(self.said)) if self.is_all else ''
        if self.odd:
            raise Fault(f'{line}; {self.odd}', NOT_OF_VP)
        return line


def paper(command: Sequence[str], stream: IO[bytes], files: Files, dpmm: Optional[float] = None,
          most: Optional[int] = None, own: Bounds = DEFAULT) -> Paper:
    """Prints a stream, an open file, to PNGs, at most so many images of it, within bounds."""
    is_all, odd = True, None
    with Run(command, stream, own) as run:
        try:
            is_all = write(io.BufferedReader(Pieces(run)), files, dpmm, most)
        except ValueError as error:
            odd = error
            if isinstance(error, Cut):
                # (it has ended, and its status counts)
                run.wait()
    status = 1 if run.reached else run.status if is_all else 0
    return Paper(command, is_all, odd, status, run.said, run.reached)


def passed_on(command: Sequence[str], stream: IO[bytes], own: Bounds, told_anew: Callable[[str], str] = str,
              place: Callable[[int], int] = int) -> int:
    """Prints a stream to standard output, within bounds, and says what is to be said, as it is told in the bytes that
    came. The status is the command's; where a signal ended it, that ends this too."""
    os.lseek(stream.fileno(), stream.tell(), os.SEEK_SET)
    with Run(command, stream, own) as run:
        for piece in run:
            sys.stdout.buffer.write(piece)
    sys.stdout.flush()
    if run.reached:
        byte = run.reached.byte
        print(run.reached if byte is None else run.reached._replace(byte=place(byte)), file=sys.stderr)
        return 1
    sys.stderr.write(told_anew(run.said.decode('utf-8', 'surrogateescape')))
    if run.status < 0:
        os.kill(os.getpid(), -run.status)
    return run.status
