"""What is told of a stream that was written anew: of each byte what stands in its place, and what couldn't be
written."""
from typing import Dict, List, NamedTuple, Tuple

from ..faults import times


class Remark(NamedTuple):
    """A remark about the old byte at a place: `is_done` where it was written anew, else it could not be."""
    place: int
    is_done: bool
    text: str


class Remarks:
    """Remarks as they come: `found` has of each the place of its first byte and how often it was made."""

    def __init__(self) -> None:
        self.found: Dict[Tuple[bool, str], Tuple[int, int]] = {}

    def anew(self, place: int, text: str) -> None:
        self.add(place, True, text)

    def not_written(self, place: int, text: str) -> None:
        self.add(place, False, text)

    def add(self, place: int, is_done: bool, text: str) -> None:
        first, count = self.found.get((is_done, text), (place, 0))
        self.found[is_done, text] = first, count + 1

    def lines(self) -> List[Remark]:
        """Each remark once, at the first of its bytes, with how often it was."""
        lines = [Remark(place, is_done, text if count == 1 else f'{text}: {times(count)}')
                 for (is_done, text), (place, count) in self.found.items()]
        return sorted(lines, key=lambda remark: (remark.place, not remark.is_done))
