"""Listings: a line for each command of a stream."""
from __future__ import annotations

import functools
from typing import Iterator, List, NamedTuple, Optional, Sequence, Union, overload

from .bounds import HELD, Cutter, Reached
from .faults import BadArgument, Fault, TooMuchPaper
from .handle import Handle
from .library import LABEL, RECEIPT, WHOLE_LABEL, WHOLE_RECEIPT
from .printers import Stream, bytes_of

# Languages by their names, of the profile and whole.
LANGUAGES = {'receipt': (RECEIPT, WHOLE_RECEIPT), 'label': (LABEL, WHOLE_LABEL)}


class Item(NamedTuple):
    """A line of a listing, and how many bytes are read when it is known, where that was asked for."""

    text: str
    place: Optional[int]

    def __str__(self) -> str:
        return self.text if self.place is None else f'{self.place} {self.text}'


class Listing(Sequence[Item]):
    """The lines of a stream, and the fault that ended it."""

    def __init__(self, data: bytes, offsets: bool, fault: Optional[Fault]) -> None:
        self._data, self._offsets, self.fault = data, offsets, fault

    @functools.cached_property
    def _lines(self) -> List[str]:
        return self.text().split('\n')[:-1]

    def __len__(self) -> int:
        return len(self._lines)

    @overload
    def __getitem__(self, at: int) -> Item: ...

    @overload
    def __getitem__(self, at: slice) -> List[Item]: ...

    def __getitem__(self, at: Union[int, slice]) -> Union[Item, List[Item]]:
        if isinstance(at, slice):
            return [self._item(it) for it in self._lines[at]]
        return self._item(self._lines[at])

    def __iter__(self) -> Iterator[Item]:
        return map(self._item, self._lines)

    def _item(self, line: str) -> Item:
        if not self._offsets:
            return Item(line, None)
        place, _, text = line.partition(' ')
        return Item(text, int(place))

    def text(self) -> str:
        """All lines, as `vp list` prints them; a byte above 7F is the character of its number."""
        return self._data.decode('latin-1')

    def __repr__(self) -> str:
        lines = '1 line' if len(self) == 1 else f'{len(self)} lines'
        return f'<vp.Listing of {lines}{f", {self.fault}" if self.fault else ""}>'


def list_stream(stream: Stream, lang: str, offsets: bool = False, most_bytes: Optional[int] = HELD.bytes,
                whole: bool = False) -> Listing:
    """Lists a stream, 'receipt' or 'label', as `vp list` does; `whole` reads the whole language, as of the printers."""
    if lang not in LANGUAGES:
        raise BadArgument(f'vp: a language is receipt or label, and not {lang}')
    lines, cutter = bytearray(), Cutter(HELD._replace(bytes=most_bytes), is_paper=False)
    handle = Handle.listing(LANGUAGES[lang][bool(whole)], offsets)

    def put(part: memoryview) -> None:
        nonlocal lines
        lines += cutter.add(part)
        if cutter.reached:
            raise TooMuchPaper(Reached('bytes', most_bytes or 0, handle.taken))

    try:
        handle.feed(bytes_of(stream), put, HELD.seconds)
        return Listing(bytes(lines + cutter.end()), offsets, handle.finish())
    finally:
        handle.close()
