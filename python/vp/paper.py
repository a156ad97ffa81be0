"""Paper: images one after the other, as vp prints them."""
from __future__ import annotations

from typing import Iterator, List, NamedTuple, Optional, Sequence, Tuple, Union, overload

from . import bounds
from .bounds import HEAD, NONE, Bounds
from .faults import Fault, TooMuchPaper
from .images import Image


class Source(NamedTuple):
    """What was printed: 'receipt' or 'label', the stream, and whether its whole language was read."""

    language: str
    stream: bytes
    whole: bool


class Paper(Sequence[Image]):
    """The images of a stream, in turn, and the fault that it ends in."""

    def __init__(self, data: bytes, starts: Sequence[int], fault: Optional[Fault] = None,
                 source: Optional[Source] = None) -> None:
        """The paper of bytes that vp printed, and the places where whole images begin in them."""
        self._data = data
        self._starts = starts
        self.fault = fault
        # what it was printed of, where it is known
        self.source = source

    @classmethod
    def read(cls, data: bytes) -> Paper:
        """The paper of bytes that vp printed."""
        cutter = Cutter(NONE)
        cutter.add(data)
        if cutter.unfinished and not HEAD.match(cutter.unfinished):
            raise ValueError('it is not what vp prints')
        return cutter.paper(None)

    def __len__(self) -> int:
        return len(self._starts)

    @overload
    def __getitem__(self, at: int) -> Image: ...

    @overload
    def __getitem__(self, at: slice) -> List[Image]: ...

    def __getitem__(self, at: Union[int, slice]) -> Union[Image, List[Image]]:
        if isinstance(at, slice):
            return [self._image(it) for it in self._starts[at]]
        return self._image(self._starts[at])

    def __iter__(self) -> Iterator[Image]:
        return map(self._image, self._starts)

    def _place(self, start: int) -> Tuple[int, int, int, int]:
        """Of the image that begins here: its width and height, and where its rows begin and end."""
        head = HEAD.match(self._data, start)
        assert head
        width, height = map(int, head.groups())
        return width, height, head.end(), head.end() + (width + 7) // 8 * height

    def _image(self, start: int) -> Image:
        width, height, begin, end = self._place(start)
        return Image(width, height, self._data[begin:end])

    def pbm(self) -> bytes:
        """All that was printed, byte for byte as the program prints it."""
        return self._data

    @property
    def unfinished(self) -> bytes:
        """What came of a last image whose stream ended before its last row."""
        return self._data[self._place(self._starts[-1])[3] if self._starts else 0:]

    def joined(self) -> Image:
        """One image of all, under each other, as `vp join` makes it."""
        images = list(self)
        if not images:
            raise ValueError('nothing is printed')
        if len({it.width for it in images}) > 1:
            raise ValueError('images of several widths are not one image')
        return Image(images[0].width, sum(it.height for it in images), b''.join(it.data for it in images))

    def png(self, dpmm: Optional[float] = None) -> bytes:
        """A PNG of all images, under each other, which with dots a millimetre says its true size."""
        return self.joined().png(dpmm)

    def _repr_png_(self) -> bytes:
        return self.png()

    def __eq__(self, other: object) -> bool:
        if not isinstance(other, Paper):
            return NotImplemented
        return (self._data, self.fault) == (other._data, other.fault)

    def __hash__(self) -> int:
        return hash((self._data, self.fault))

    def __repr__(self) -> str:
        images = '1 image' if len(self) == 1 else f'{len(self)} images'
        return f'<vp.Paper of {images}{f", {self.fault}" if self.fault else ""}>'


class Cutter:
    """Bytes that a printer puts out, as they come, cut into images within bounds."""

    def __init__(self, own: Bounds) -> None:
        self._cutter, self._data = bounds.Cutter(own), bytearray()

    @property
    def unfinished(self) -> bytes:
        """What came of an image that isn't whole."""
        return bytes(self._cutter.held)

    def add(self, part: Union[bytes, memoryview]) -> None:
        self._data += self._cutter.add(part)
        if self._cutter.reached:
            self.stop(self._cutter.reached)

    def stop(self, bound: str) -> None:
        """Raises that a bound is reached; what was printed before goes with it."""
        most = getattr(self._cutter.bounds, bound)
        raise TooMuchPaper(bounds.Reached(bound, most), Paper(bytes(self._data), self._cutter.starts))

    def paper(self, fault: Optional[Fault], source: Optional[Source] = None) -> Paper:
        """The paper of a stream that has ended: all that came."""
        self._data += self._cutter.end()
        return Paper(bytes(self._data), self._cutter.starts, fault, source)

    def images(self) -> List[Image]:
        """Takes out the images that are whole, and begins to count anew."""
        whole = Paper(bytes(self._data), self._cutter.starts)
        held, own = self._cutter.held, self._cutter.bounds
        self._cutter, self._data = bounds.Cutter(own), bytearray()
        self._cutter.held = held
        return list(whole)
