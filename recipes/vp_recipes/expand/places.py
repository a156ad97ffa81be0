"""Where the bytes of a stream that was written anew come from: its pieces, the map's file, and lines of vp told again.

A place in vp's lines is a number of bytes that were taken; in a map, pieces are told by their first byte and the one
behind their last, counted from 0.
"""
import re
from typing import List, NamedTuple, Sequence

from ..faults import Fault, shown


class Piece(NamedTuple):
    """Bytes of the new stream and the old ones that they come from; `same` where they are those again."""
    start: int
    end: int
    old_start: int
    old_end: int
    same: bool


# So many bytes are written anew at most.
MOST = 16 << 20


class Written:
    """A new stream as it is written, `new`, and its `pieces`. Of `old` bytes those from `start` to `end` are kept,
    and not written yet; so many were written `otherwise`."""

    def __init__(self, old: bytes) -> None:
        self.old, self.new, self.start, self.end, self.otherwise = old, bytearray(), 0, 0, 0
        self.pieces: List[Piece] = []

    def is_full(self) -> bool:
        return self.otherwise > MOST

    def keep(self, start: int, end: int) -> None:
        """Old bytes as they came."""
        if start == self.end and self.start < self.end:
            self.end = end
        elif start < end:
            self.whole()
            self.start, self.end = start, end

    def whole(self) -> None:
        """Writes what is kept: the bytes and their pieces stand."""
        if self.start < self.end:
            at = len(self.new)
            self.new += self.old[self.start:self.end]
            self.pieces.append(Piece(at, len(self.new), self.start, self.end, True))
            self.start = self.end

    def anew(self, data: bytes, start: int, end: int) -> None:
        """Other bytes in place of old ones."""
        if data:
            self.whole()
            at = len(self.new)
            self.new += data
            self.otherwise += len(data)
            self.pieces.append(Piece(at, len(self.new), start, end, False))

    def cut(self, begin: int) -> None:
        """Takes back what was written from a byte of the new stream on."""
        del self.new[begin:]
        pieces = [it for it in self.pieces if it.start < begin]
        if pieces and pieces[-1].end > begin:
            last = pieces[-1]
            pieces[-1] = last._replace(end=begin, old_end=last.old_end - (last.end - begin) * last.same)
        self.pieces[:] = pieces


def old_place(pieces: Sequence[Piece], place: int) -> int:
    """How many bytes of the old stream were taken where so many of the new one were."""
    if place <= 0 or not pieces:
        return 0
    first, behind = 0, len(pieces)
    while first < behind:
        middle = (first + behind) // 2
        if pieces[middle].end < place:
            first = middle + 1
        else:
            behind = middle
    if first == len(pieces):
        return pieces[-1].old_end + place - pieces[-1].end
    piece = pieces[first]
    return piece.old_start + place - piece.start if piece.same else piece.old_end


def told(line: str, pieces: Sequence[Piece]) -> str:
    """A line of vp, its fault's or one of a listing with places, in the bytes of the old stream."""
    found = re.match(r'(vp: F\d+ after |)(\d+)( bytes: .*| .*)', line, re.DOTALL)
    return f'{found[1]}{old_place(pieces, int(found[2]))}{found[3]}' if found else line


def as_file(pieces: Sequence[Piece]) -> str:
    """The map: a line for each piece, of the new stream its first byte and the one behind its last, the same of the
    old one, and whether it is the same or was written anew."""
    return ''.join(f'{a} {b} {c} {d} {"same" if same else "anew"}\n' for a, b, c, d, same in pieces)


def of_file(text: str, name: str) -> List[Piece]:
    """The pieces of a map's text; a Fault names the line that is none."""
    pieces: List[Piece] = []
    at = 0
    for n, line in enumerate(text.splitlines(), 1):
        words = line.split(' ')
        if len(words) != 5 or not all(it.isdecimal() for it in words[:4]) or words[4] not in ('same', 'anew'):
            raise Fault(f'{shown(name)}: line {n} is no piece of a map')
        start, end, old_start, old_end = map(int, words[:4])
        piece = Piece(start, end, old_start, old_end, words[4] == 'same')
        if piece.start != at or piece.end <= at or piece.old_end < piece.old_start:
            raise Fault(f"{shown(name)}: line {n} doesn't go on where the piece before it ends")
        pieces.append(piece)
        at = piece.end
    return pieces
