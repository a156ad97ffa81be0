"""Asks vp itself of a symbol that it draws: whether it takes the data, since one that it refuses ends a stream, and how
large the symbol is."""
import functools
from typing import Tuple

from ..labels import ink
from ..program import run
from ..streams import WHOLE

# What is told of vp's words.
UNSUPPORTED, LONG = 'a kind of it that is not drawn', 'its data are too long for it'
WHY = {'symbol: empty': 'there are no data', 'symbol: character': 'its data have a sign that it has not',
       'symbol: length': 'its data are not as long as it takes them', 'symbol: set': 'its data have a set that is none',
       'symbol: unsupported': UNSUPPORTED, 'symbol too long': LONG, 'symbol too wide': 'it is wider than the line'}
# The largest label.
WIDE, HIGH = 1248, 8000


@functools.lru_cache(4096)
def refusal(language: str, stream: bytes) -> str:
    """Why vp refuses the symbol that a stream prints; '' where it takes it."""
    _, line, _ = run([language, WHOLE], stream)
    why = line.partition(' bytes: ')[2] or line
    return WHY.get(why, why)


@functools.lru_cache(1024)
def size(settings: bytes, upright: bytes, about: bytes) -> Tuple[int, int]:
    """How wide and high the box is of a label's field, of its commands as it stands upright and turned about: ^FO has
    the box begin at its place, and ^FT has it end there, at its foot, or at its right where it is turned about."""
    start = b'^XA^PW%d^LL%d' % (WIDE, HIGH) + settings
    fields = (b'^FO0,0', upright), (b'^FT0,%d' % HIGH, upright), (b'^FO0,0', about), (b'^FT%d,0' % WIDE, about)
    out, _, _ = run(['label', WHOLE], b''.join(start + place + field + b'^XZ' for place, field in fields))
    boxes = [it or (0, 0, 0, 0) for it in ink(out)]
    if len(boxes) < 4:
        return 0, 0
    return WIDE - (boxes[3][0] - boxes[2][0]), HIGH - (boxes[1][1] - boxes[0][1])
