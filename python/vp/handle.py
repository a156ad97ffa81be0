"""A printer of the library's: bytes go in, and what they print comes out."""
from __future__ import annotations

import ctypes
import threading
import time
import weakref
from typing import Callable, Optional, Tuple

from .bounds import Reached
from .faults import Closed, Fault, TooMuchPaper
from .library import MORE, ROOM, STOPPED, CFault, CHeld, CPrinter, CProgress, Held, check, library, told

# How much a step may put out, and take, at most; and how much the first one puts out, since a copy of a label may take
# a tenth of a second, and a step doesn't hear of Ctrl-C. One of so many seconds is long.
STEP, PIECE, FIRST, LONG = 1 << 16, 1 << 20, 64, .02


class Handle:
    """One printer, which threads use one after the other."""

    def __init__(self, made: CPrinter) -> None:
        self._made = made
        self._lock = threading.Lock()
        self._free = weakref.finalize(self, library().vp_free, made)
        self._free.atexit = False
        self._output = (ctypes.c_ubyte * STEP)()
        self._taken = 0
        self.fault: Optional[Fault] = None

    @classmethod
    def printing(cls, language: int, sheets: Tuple[bytes, bytes], names: Tuple[str, str]) -> Handle:
        """A printer with sheets, which have these names where one is none; b'' is no sheet."""
        made = CPrinter()
        font_a, font_b = sheets
        check(library().vp_new(language, font_a, len(font_a), font_b, len(font_b), made), names)
        return cls(made)

    @classmethod
    def listing(cls, language: int, offsets: bool) -> Handle:
        """One that prints a line for each command."""
        made = CPrinter()
        check(library().vp_new_listing(language, offsets, made), ('', ''))
        return cls(made)

    def begin_anew(self) -> None:
        """As it was when it was made, whatever it took and put out."""
        with self._lock:
            self._is_open()
            library().vp_reset(self._made)
            self._taken, self.fault = 0, None

    def feed(self, data: bytes, put: Callable[[memoryview], None], seconds: Optional[float] = None) -> None:
        """Takes bytes and hands on what they print, piece by piece; TooMuchPaper where that takes longer."""
        with self._lock:
            self._is_open()
            start = ctypes.cast(ctypes.c_char_p(data), ctypes.c_void_p).value or 0
            at, room, done, output = 0, FIRST, CProgress(state=ROOM), self._output
            view, now = memoryview(output), time.monotonic()
            end = None if seconds is None else now + seconds
            while done.state == ROOM or done.state == MORE and at < len(data):
                library().vp_step(self._made, start + at, min(len(data) - at, PIECE), output, room, done)
                at += done.taken
                self._taken += done.taken
                if done.state == STOPPED:
                    self.fault = told(done.fault, self._taken)
                put(view[:done.put])
                last, now = now, time.monotonic()
                room = min(2 * room, STEP) if now - last < LONG else max(room // 4, FIRST)
                if end is not None and now > end:
                    raise TooMuchPaper(Reached('seconds', seconds or 0))

    @property
    def taken(self) -> int:
        """How many bytes were taken."""
        return self._taken

    def finish(self) -> Optional[Fault]:
        """The fault that the stream ends in, if it ends here."""
        with self._lock:
            self._is_open()
            fault = CFault()
            library().vp_finish(self._made, fault)
            self.fault = told(fault, self._taken)
            return self.fault

    def held(self) -> Held:
        with self._lock:
            self._is_open()
            held = CHeld()
            library().vp_held(self._made, held)
            return Held(held.line_rows, held.page_rows, held.band_rows, held.stored, held.fields)

    def memory(self) -> int:
        with self._lock:
            self._is_open()
            held = ctypes.c_size_t()
            library().vp_memory(self._made, held)
            return held.value

    def close(self) -> None:
        with self._lock:
            self._free()

    def _is_open(self) -> None:
        if not self._free.alive:
            raise Closed('vp: the printer is closed')
