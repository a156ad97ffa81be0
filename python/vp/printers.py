"""Printers of receipts and labels."""
from __future__ import annotations

import threading
from typing import List, Optional, Tuple, Type, Union

from .bounds import HELD, Bounds
from .faults import BadArgument, Fault, TooMuchPaper
from .handle import Handle
from .images import Image
from .library import LABEL, RECEIPT, RECEIPT_58, WHOLE_LABEL, WHOLE_RECEIPT, WHOLE_RECEIPT_58, Held
from .paper import Cutter, Paper, Source
from .sheets import SHIPPED, Sheet, read

Stream = Union[bytes, bytearray, memoryview]
# Papers by their dots, of the profile and of the whole language.
PAPERS = {576: (RECEIPT, WHOLE_RECEIPT), 384: (RECEIPT_58, WHOLE_RECEIPT_58)}
LABELS = LABEL, WHOLE_LABEL
WHOLE = WHOLE_RECEIPT, WHOLE_RECEIPT_58, WHOLE_LABEL


def bytes_of(stream: Stream) -> bytes:
    return stream if isinstance(stream, bytes) else memoryview(stream).tobytes()


def fed(handle: Handle, cutter: Cutter, data: bytes, seconds: Optional[float]) -> None:
    """Feeds a printer, and has what it prints cut. TooMuchPaper says after how many bytes, and has the paper."""
    try:
        try:
            handle.feed(data, cutter.add, seconds)
        except TooMuchPaper as much:
            if much.paper is None:
                cutter.stop(much.reached.bound)
            raise
    except TooMuchPaper as much:
        raise TooMuchPaper(much.reached._replace(byte=handle.taken), much.paper) from None


class _Kept(threading.local):
    """The printer by which a thread printed last, for its next print. It isn't copied with what keeps it."""

    handle: Optional[Handle] = None

    def __reduce__(self) -> Tuple[Type[_Kept], Tuple[()]]:
        return _Kept, ()


class _Printers:
    """Printers of a language with sheets, each as it was when it was switched on."""

    def __init__(self, language: int, sheets: Tuple[Tuple[bytes, str], Tuple[bytes, str]], bounds: Bounds) -> None:
        if any(it is not None and it < 0 for it in bounds):
            raise BadArgument('vp: a bound is 0 or more, or None')
        (font_a, name_a), (font_b, name_b) = sheets
        self._language, self._bounds = language, bounds
        self._sheets, self._names = (font_a, font_b), (name_a, name_b)
        self._kept = _Kept()
        self._kept.handle = self._handle()

    def _handle(self) -> Handle:
        return Handle.printing(self._language, self._sheets, self._names)

    def _begun(self) -> Handle:
        """This thread's printer, begun anew, or one that was just made. Nothing else has it meanwhile."""
        handle, self._kept.handle = self._kept.handle, None
        if handle is None:
            return self._handle()
        handle.begin_anew()
        return handle

    def print(self, stream: Stream) -> Paper:
        """The paper of a whole stream, by a printer that was just switched on, or begun anew."""
        cutter, data = Cutter(self._bounds), bytes_of(stream)
        handle = self._begun()
        try:
            fed(handle, cutter, data, self._bounds.seconds)
            language, whole = 'label' if self._language in LABELS else 'receipt', self._language in WHOLE
            return cutter.paper(handle.finish(), Source(language, data, whole))
        finally:
            self._kept.handle = handle

    def start(self) -> Printer:
        """A printer that was just switched on, to be fed in pieces."""
        return Printer(self._handle(), self._bounds)


class Receipt(_Printers):
    """Printers of receipts, ESC/POS, on paper of 576 or 384 dots.

    A sheet is a file's name or its bytes, and None is no sheet, whose characters are white; where none is given it is
    the shipped two. A stream, or what is fed at once, that prints more rows, bytes or images than it may, or takes more
    seconds by the clock, is TooMuchPaper; None is no bound. `whole` reads all commands of ESC/POS, and past what is
    none: else that is a fault, F1.
    """

    def __init__(self, font_a: Sheet = SHIPPED, font_b: Sheet = SHIPPED, width: int = 576,
                 most_rows: Optional[int] = HELD.rows, most_bytes: Optional[int] = HELD.bytes,
                 most_images: Optional[int] = HELD.images, most_seconds: Optional[float] = HELD.seconds,
                 whole: bool = False) -> None:
        if width not in PAPERS:
            raise BadArgument(f'vp: paper is 576 or 384 dots wide, and not {width}')
        if font_a is not SHIPPED or font_b is not SHIPPED:
            font_a, font_b = (None if it is SHIPPED else it for it in (font_a, font_b))
        super().__init__(PAPERS[width][bool(whole)], (read(font_a, 'font_a'), read(font_b, 'font_b')),
                         Bounds(most_rows, most_bytes, most_images, most_seconds))


class Label(_Printers):
    """Printers of labels, ZPL II. All is as with receipts; every font is of font A's sheet. `whole` reads more
    commands, as of more symbols: else they are skipped."""

    def __init__(self, font_a: Sheet = SHIPPED, most_rows: Optional[int] = HELD.rows,
                 most_bytes: Optional[int] = HELD.bytes, most_images: Optional[int] = HELD.images,
                 most_seconds: Optional[float] = HELD.seconds, whole: bool = False) -> None:
        super().__init__(LABELS[bool(whole)], (read(font_a, 'font_a'), (b'', 'font_b')),
                         Bounds(most_rows, most_bytes, most_images, most_seconds))


class Printer:
    """A printer that is fed as bytes come, and gives each image once it is whole."""

    def __init__(self, handle: Handle, bounds: Bounds) -> None:
        self._handle, self._cutter, self._seconds = handle, Cutter(bounds), bounds.seconds
        self._lock = threading.Lock()

    def feed(self, data: Stream) -> List[Image]:
        """Takes bytes, and gives the images that they complete. Behind a fault nothing is printed any more."""
        part = bytes_of(data)
        with self._lock:
            try:
                fed(self._handle, self._cutter, part, self._seconds)
                return self._cutter.images()
            except BaseException:
                self._handle.close()
                raise

    def finish(self) -> Optional[Fault]:
        """Ends the stream: gives the fault that it ends in, and closes the printer."""
        fault = self._handle.finish()
        self._handle.close()
        return fault

    @property
    def fault(self) -> Optional[Fault]:
        """The fault that stopped the printer, or that its stream ended in."""
        return self._handle.fault

    @property
    def held(self) -> Held:
        """What the printer holds of what isn't printed yet."""
        return self._handle.held()

    @property
    def memory(self) -> int:
        """The bytes of memory that the printer was made with, and still holds."""
        return self._handle.memory()

    @property
    def unfinished(self) -> bytes:
        """What came of an image whose last row isn't printed."""
        with self._lock:
            return self._cutter.unfinished

    def close(self) -> None:
        """Gives the printer's memory back. It prints no more."""
        self._handle.close()

    def __enter__(self) -> Printer:
        return self

    def __exit__(self, *error: object) -> None:
        self.close()
