"""Which bytes of a stream drew a row of its paper: found by printing fronts of it.

What a front of a receipt prints stands, so the bytes between two fronts are those of the strips that the longer one has
more. Of a label the fields are printed one more at a time, until the dot is as it is on the whole one.
"""
import bisect
import contextlib
import io
from typing import Callable, Iterator, List, NamedTuple, Optional, Sequence, Tuple

from .images import Cut, images
from .labels import CONTENTS
from .vp.commands import Items
from .vp.comparing import Place

# Fields of a label that are tried, and a stream that is: what has more is looked at no further.
MOST_FIELDS, MOST_BYTES = 64, 1 << 18
# Prints a stream: its images, as vp writes them.
Prints = Callable[[bytes], bytes]


class Field(NamedTuple):
    """Of a label's field where it begins and ends, and the number of its label."""

    start: int
    end: int
    label: int


def heights(paper: bytes) -> List[int]:
    """How high each whole image of a paper is."""
    found: List[int] = []
    with contextlib.suppress(Cut):
        for _, height, rows in images(io.BytesIO(paper)):
            for _ in rows:
                pass
            found.append(height)
    return found


def fields(items: Items) -> Iterator[Field]:
    """The fields of labels, by the items of a listing with places."""
    label, start, is_open, has = 0, 0, False, False
    for place, text in items:
        if place is None:
            return
        name = text[:3]
        if name == '^XA' and not is_open:
            start, is_open, has = place, True, False
        elif is_open and name in ('^FS', '^XZ'):
            if has:
                yield Field(start, place if name == '^FS' else place - len('^XZ'), label)
            start, has = place, False
            if name == '^XZ':
                label, is_open = label + 1, False
        elif name in CONTENTS:
            has = True


def of_receipt(data: bytes, row: int, paper: bytes, prints: Prints) -> Optional[Tuple[int, int]]:
    """The bytes that drew the strip which has a row."""
    ends, end = [0], 0
    for height in heights(paper):
        end += height
        ends.append(end)
    n = min(bisect.bisect_right(ends, row), len(ends) - 1)
    if n == 0:
        return None

    def shortest(rows: int, low: int) -> int:
        """The shortest front that prints so many rows."""
        high = len(data)
        while low < high:
            middle = (low + high) // 2
            if sum(heights(prints(data[:middle]))) >= rows:
                high = middle
            else:
                low = middle + 1
        return low

    start = shortest(ends[n - 1], 0) if ends[n - 1] else 0
    end = shortest(ends[n], start)
    return (start, end) if start < end else None


def dot(paper: bytes, number: int, y: int, left: int) -> Optional[bool]:
    """Whether a dot of an image is black; None where there is none."""
    for n, (width, _, rows) in enumerate(images(io.BytesIO(paper))):
        if n == number:
            row = next((it for at, it in enumerate(rows) if at == y), None)
            return None if row is None or left >= width else bool(row[left // 8] >> 7 - left % 8 & 1)
    return None


def of_label(data: bytes, place: Place, paper: bytes, items: Items, prints: Prints) -> Optional[Tuple[int, int]]:
    """The bytes of the field that drew a dot."""
    number, y = 0, place.row
    found = heights(paper)
    while number < len(found) and y >= found[number]:
        y, number = y - found[number], number + 1
    if number == len(found):
        return None
    all_fields = list(fields(items))
    # (an image of each label, but for copies: these are looked at no further)
    own = [it for it in all_fields if it.label == number][:MOST_FIELDS]
    if len({it.label for it in all_fields}) != len(found):
        return None
    before, drew = False, None
    for field in own:
        is_black = dot(prints(data[:field.end] + b'^XZ'), number, y, place.left)
        if is_black and not before:
            drew = field.start, field.end
        before = bool(is_black)
    return drew


def drew(data: bytes, language: str, place: Place, paper: bytes, items: Items, prints: Prints
         ) -> Optional[Tuple[int, int]]:
    """The bytes of a stream, from and to, that drew a dot of its paper, where that is found."""
    if language == 'receipt':
        return of_receipt(data, place.row, paper, prints)
    return of_label(data, place, paper, items, prints)


def shown_bytes(code: Sequence[int], most: int = 80) -> str:
    """Bytes, to be read; of many the first."""
    text = ''.join(chr(it) if 0x20 <= it < 0x7F and it != 0x5C else f'\\x{it:02X}' for it in code[:most])
    return text if len(code) <= most else f'{text} ..'
