"""Writes streams of the whole languages anew in the words that vp prints: what `expanded` gives, and its words."""
from typing import List, NamedTuple

from .options import Options
from .places import Piece, Written
from .remarks import Remark, Remarks

__all__ = ['Expanded', 'Options', 'expanded']


class Expanded(NamedTuple):
    """The new stream, its pieces, and what is told of the old one."""
    data: bytes
    pieces: List[Piece]
    remarks: List[Remark]


def expanded(data: bytes, language: str, options: Options = Options()) -> Expanded:
    """A stream anew, of which each piece says where it comes from."""
    written, remarks = Written(data), Remarks()
    # (what writes the other language isn't loaded)
    if language == 'label':
        from .label_stream import write
    else:
        from .receipt_stream import write
    write(data, options, written, remarks)
    written.whole()
    return Expanded(bytes(written.new), written.pieces, remarks.lines())
