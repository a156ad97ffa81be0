"""Pictures that a till stores in the printer and prints later: GS ( L, GS 8 L, GS *, FS q."""
import functools
from typing import Dict, List, Optional, Tuple, Union

from .pictures import Picture
from .receipts import word

# The functions of GS ( L by what they do.
STORES, DEFINES = {112: 'rows', 113: 'columns'}, {67: 'rows', 68: 'columns', 83: 'rows', 84: 'columns'}
PRINTS, RECALLS, FORGETS = {2, 50}, {69: 'kept', 85: 'loaded'}, {65: 'kept', 66: 'kept', 81: 'loaded', 82: 'loaded'}
ASKS = {0, 1, 3, 48, 49, 51, 52, 64, 80}
# How many pictures are kept, and the number of the first colour.
MOST, FIRST_COLOUR = 1000, 49


def of_columns(data: bytes, width: int, height: int) -> Picture:
    """Of columns of so many bytes, the uppermost dot highest."""
    size = (height + 7) // 8
    if not width or not size:
        return Picture(0, [])
    texts = [f'{int.from_bytes(data[n * size:n * size + size], "big"):0{8 * size}b}'[:height] for n in range(width)]
    return Picture.of_texts([''.join(it) for it in zip(*texts)])


def of_rows(data: bytes, width: int, height: int) -> Picture:
    return Picture.of_bytes(data, (width + 7) // 8, height).cropped(width)


def made(kind: str, data: bytes, width: int, height: int) -> Picture:
    return (of_rows if kind == 'rows' else of_columns)(data, width, height)


def size(kind: str, width: int, height: int) -> int:
    """How many bytes a picture has."""
    return (width + 7) // 8 * height if kind == 'rows' else width * ((height + 7) // 8)


@functools.lru_cache(16)
def magnified(picture: Picture, mode: int) -> Picture:
    """As GS v 0's modes have it: wide, high or both."""
    return picture.magnified(1 + (mode & 1), 1 + (mode >> 1 & 1))


def twice(byte: int) -> int:
    return max(1, min(2, byte))


def joined(pictures: List[Picture]) -> Picture:
    """Pictures over each other, from their upper left corners."""
    if len(pictures) == 1:
        return pictures[0]
    width, rows = max(it.width for it in pictures), [0] * max(it.height for it in pictures)
    for picture in pictures:
        for n, row in enumerate(picture.rows):
            rows[n] |= row << width - picture.width
    return Picture(width, rows)


class Kept:
    """What is stored: the pictures that wait to be printed over each other, those under two letters, those under
    numbers, the one of GS *."""

    def __init__(self) -> None:
        self.waiting: List[Picture] = []
        self.named: Dict[Tuple[str, bytes], Picture] = {}
        self.numbered: Dict[int, Picture] = {}
        self.last: Optional[Picture] = None

    def reset(self) -> None:
        """ESC @: what isn't kept for good goes."""
        self.waiting, self.last = [], None
        for key in [it for it in self.named if it[0] == 'loaded']:
            del self.named[key]

    def graphics(self, body: bytes) -> Union[Picture, bool, str]:
        """A function of GS ( L: a picture where it prints one, True where it does something else, a text where it
        can't."""
        if len(body) < 2:
            return True
        fn, rest = body[1], body[2:]
        if fn in STORES and len(rest) >= 8:
            return self.store(STORES[fn], rest)
        if fn in DEFINES and len(rest) >= 9:
            return self.define_named('kept' if fn < 80 else 'loaded', DEFINES[fn], rest)
        if fn in RECALLS and len(rest) >= 4:
            found = self.named.get((RECALLS[fn], rest[:2]))
            if not found:
                return f'a picture {rest[:2].decode("latin-1")} is not stored'
            return found.magnified(twice(rest[2]), twice(rest[3]))
        if fn in PRINTS:
            waiting, self.waiting = self.waiting, []
            return joined(waiting) if waiting else True
        if fn in FORGETS:
            kind = FORGETS[fn]
            for key in [it for it in self.named if it[0] == kind and (fn in (65, 81) or it[1] == rest[:2])]:
                del self.named[key]
            return True
        return True if fn in ASKS else 'a function that is not known'

    def store(self, kind: str, rest: bytes) -> Union[bool, str]:
        """A picture that waits: a, its magnification, its colour, its size, its data."""
        if rest[0] != 48:
            return 'a picture in shades is not written'
        width, height = word(rest, 4), word(rest, 6)
        need = size(kind, width, height)
        if not need:
            return True
        if len(rest) - 8 < need:
            return f'a picture is cut: {len(rest) - 8:,} of {need:,} bytes'
        self.waiting.append(made(kind, rest[8:8 + need], width, height).magnified(twice(rest[1]), twice(rest[2])))
        return True

    def define_named(self, whose: str, kind: str, rest: bytes) -> Union[bool, str]:
        """A picture under two letters: a, the letters, how many colours, its size, of each colour its data."""
        width, height = word(rest, 4), word(rest, 6)
        need, count = size(kind, width, height), max(1, min(4, rest[3]))
        if not need:
            return 'a picture of no dots is not stored'
        if len(rest) - 8 < count * (1 + need):
            return f'a picture is cut: {len(rest) - 8:,} of {count * (1 + need):,} bytes'
        if len(self.named) < MOST:
            places = [9 + n * (1 + need) for n in range(count)]
            self.named[whose, rest[1:3]] = joined([made(kind, rest[at:at + need], width, height) for at in places])
        return True

    def define(self, data: bytes) -> None:
        """FS q: all pictures by number, in columns."""
        self.numbered, at = {}, 1
        for n in range(data[0]):
            width, height = word(data, at), word(data, at + 2)
            count = 8 * width * height
            self.numbered[n + 1] = of_columns(data[at + 4:at + 4 + count], 8 * width, 8 * height)
            at += 4 + count

    def load(self, data: bytes) -> None:
        """GS *: the one picture, in columns."""
        self.last = of_columns(data[2:], 8 * data[0], 8 * data[1])


def has_other_colour(body: bytes) -> bool:
    """Whether a function of GS ( L stores dots in another colour than the first."""
    if len(body) < 11:
        return False
    fn, rest = body[1], body[2:]
    if fn in STORES:
        return rest[3] != FIRST_COLOUR
    if fn not in DEFINES:
        return False
    need = size(DEFINES[fn], word(rest, 4), word(rest, 6))
    places = [8 + n * (1 + need) for n in range(max(1, min(4, rest[3])))]
    return any(rest[at] != FIRST_COLOUR for at in places if at < len(rest))
