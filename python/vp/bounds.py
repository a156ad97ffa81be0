"""How much a print may come to: rows, bytes, images and seconds; and paper as it comes, cut where one is reached."""
from __future__ import annotations

import re
from array import array
from typing import NamedTuple, Optional, Union

# How an image that vp prints begins, and how long that is at most.
HEAD, MOST_HEAD = re.compile(rb'P4\n([1-9]\d{0,8}) ([1-9]\d{0,8})\n'), 23


class Bounds(NamedTuple):
    """How much a print may come to, the seconds by the clock; None is no bound."""

    rows: Optional[int] = 2_500_000
    bytes: Optional[int] = 1 << 28
    images: Optional[int] = 100_000
    seconds: Optional[float] = 60


# Of paper that goes on as it comes: 312 metres in 8 dots a millimetre, more than a till prints in a day, and 256 MiB.
DEFAULT = Bounds()
# Where each image has a file of its own, and where the paper is held in memory.
FILES, HELD = DEFAULT._replace(images=10_000), DEFAULT._replace(rows=1_000_000, bytes=1 << 26)
NONE = Bounds(None, None, None, None)
WHAT = {'rows': 'it prints more than {:,} rows', 'bytes': 'it prints more than {:,} bytes',
        'images': 'it prints more than {:,} images', 'seconds': 'it takes more than {:g} s'}


class Reached(NamedTuple):
    """Which bound was reached, what it is, and how many bytes of the stream were read by then, where that is known."""

    bound: str
    most: float
    byte: Optional[int] = None

    def what(self) -> str:
        """What the stream does that it may not."""
        return WHAT[self.bound].format(self.most)

    def __str__(self) -> str:
        after = '' if self.byte is None else f' after {self.byte:,} bytes' if self.byte != 1 else ' after 1 byte'
        return f'cut off{after}: {self.what()}; --most-{self.bound} raises this'


class Cutter:
    """What is printed as it comes, cut where a bound is reached: `reached` then names it. Of paper whole images are
    given on, of other things whole lines."""

    def __init__(self, bounds: Bounds = DEFAULT, is_paper: bool = True) -> None:
        self.bounds, self.is_paper, self.reached = bounds, is_paper, ''
        self.rows = self.bytes = self.images = 0
        # where in all that was given on each image begins; what isn't whole yet
        self.starts = array('Q')
        self.held = bytearray()

    def add(self, part: Union[bytes, bytearray, memoryview]) -> bytes:
        """Takes a part, and gives on what is whole and within bounds."""
        if self.reached:
            return b''
        self.held += part
        end = self._images_end() if self.is_paper else self._lines_end()
        piece = bytes(self.held[:end])
        del self.held[:end]
        self.bytes += end
        return piece

    def end(self) -> bytes:
        """What is left at the end, which is no whole image: of what vp prints nothing, but of a broken stream's."""
        left = b'' if self.reached else bytes(self.held)
        self.held.clear()
        return left

    def _lines_end(self) -> int:
        most = self.bounds.bytes
        if most is not None and self.bytes + len(self.held) > most:
            self.reached = 'bytes'
            return self.held.rfind(b'\n', 0, max(0, most - self.bytes)) + 1
        return self.held.rfind(b'\n') + 1

    def _images_end(self) -> int:
        """Where the last image ends that is whole."""
        at = 0
        while True:
            head = HEAD.match(self.held, at)
            if not head:
                # what isn't vp's is told by who reads it
                self.is_paper = len(self.held) - at <= MOST_HEAD
                return at
            width, height = map(int, head.groups())
            end = head.end() + (width + 7) // 8 * height
            self.reached = self._passed(height, end)
            if self.reached or end > len(self.held):
                return at
            self.starts.append(self.bytes + at)
            self.rows, self.images, at = self.rows + height, self.images + 1, end

    def _passed(self, height: int, end: int) -> str:
        """The bound that an image of this height, which ends here, would pass."""
        for bound, value in ('rows', self.rows + height), ('bytes', self.bytes + end), ('images', self.images + 1):
            most = getattr(self.bounds, bound)
            if most is not None and value > most:
                return bound
        return ''
