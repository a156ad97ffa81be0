"""What went wrong: a stream's fault, and what is raised where nothing can be printed."""
from __future__ import annotations

from typing import TYPE_CHECKING, NamedTuple, Optional

from .bounds import Reached

if TYPE_CHECKING:
    from .paper import Paper


class Fault(NamedTuple):
    """Where a stream is wrong: the number as docs/ has it, what it says, and how many bytes were read by then."""

    number: int
    text: str
    byte: int

    def __str__(self) -> str:
        return f'vp: F{self.number} after {self.byte} bytes: {self.text}'


class VpError(Exception):
    """What is raised by this package is one of these."""


class BadSheet(VpError, ValueError):
    """A file that can't be opened or is no glyph sheet, in vp's own line."""


class BadArgument(VpError, ValueError):
    """A value that nothing can be printed with, as a width that no paper has."""


class Closed(VpError, ValueError):
    """A printer that is fed after it was closed or finished."""


class TooMuchPaper(VpError):
    """A stream that prints more than it may, or takes longer: which bound was reached, and at which byte. `paper` is
    what was printed before, None of a listing."""

    def __init__(self, reached: Reached, paper: Optional[Paper] = None) -> None:
        super().__init__(reached, paper)
        self.reached, self.paper = reached, paper

    def __str__(self) -> str:
        after = '' if self.reached.byte is None else f' after {self.reached.byte:,} bytes'
        return f'vp: cut off{after}: {self.reached.what()}'


class NoMemory(VpError, MemoryError):
    """There is not enough memory for a printer."""


class NoLibrary(VpError, OSError):
    """The library libvp.so isn't found, can't be loaded, or is another version's."""
