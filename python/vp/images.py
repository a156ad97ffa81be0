"""An image: rows of dots, eight to a byte."""
from __future__ import annotations

import importlib
from typing import Any, Dict, Optional, Sequence

from .png import png

# The eight dots of each byte as greys, a byte each: 0 is black.
GREYS = [bytes(0 if byte >> 7 - nth & 1 else 255 for nth in range(8)) for byte in range(256)]


class Image:
    """An image as it was printed: its width and height in dots, and its rows one after the other, each of whole bytes,
    the leftmost dot highest and ones black. numpy takes it as greys, 0 black and 255 white."""

    __slots__ = ('width', 'height', 'data')

    def __init__(self, width: int, height: int, data: bytes) -> None:
        if width < 1 or height < 1 or len(data) != (width + 7) // 8 * height:
            raise ValueError(f'{len(data)} bytes are no image of {width} by {height} dots')
        self.width = width
        self.height = height
        self.data = data

    @property
    def rows(self) -> Sequence[bytes]:
        """The bytes of each row."""
        size = (self.width + 7) // 8
        return [self.data[at:at + size] for at in range(0, len(self.data), size)]

    def dot(self, x: int, y: int) -> bool:
        """Whether a place is black."""
        if not (0 <= x < self.width and 0 <= y < self.height):
            raise IndexError(f'{x}, {y} is outside of {self.width} by {self.height} dots')
        return bool(self.data[(self.width + 7) // 8 * y + x // 8] >> 7 - x % 8 & 1)

    def pbm(self) -> bytes:
        """The image as vp prints it."""
        return b'P4\n%d %d\n' % (self.width, self.height) + self.data

    def png(self, dpmm: Optional[float] = None) -> bytes:
        """The image as a PNG, which with dots a millimetre says its true size."""
        return png((self.width, self.height), self.rows, dpmm=dpmm)

    def greys(self) -> bytes:
        """A byte for each dot, row by row: 0 is black and 255 white."""
        return b''.join(b''.join(GREYS[byte] for byte in row)[:self.width] for row in self.rows)

    @property
    def __array_interface__(self) -> Dict[str, Any]:
        return {'version': 3, 'shape': (self.height, self.width), 'typestr': '|u1', 'data': self.greys()}

    def to_pillow(self) -> Any:
        """The image as Pillow has it, of mode 1."""
        return importlib.import_module('PIL.Image').frombytes('1', (self.width, self.height), self.data, 'raw', '1;I')

    def _repr_png_(self) -> bytes:
        return self.png()

    def __eq__(self, other: object) -> bool:
        if not isinstance(other, Image):
            return NotImplemented
        return (self.width, self.height, self.data) == (other.width, other.height, other.data)

    def __hash__(self) -> int:
        return hash((self.width, self.height, self.data))

    def __repr__(self) -> str:
        return f'<vp.Image of {self.width} by {self.height} dots>'
