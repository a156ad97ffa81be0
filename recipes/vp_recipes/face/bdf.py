"""A font of glyphs as BDF, the bitmap format of X. SWIDTH is the advance in thousandths of the em, which a line's width
is summed of, DWIDTH the one in whole dots."""
from typing import Iterable, Iterator, List, Tuple

from .fitting import BELOW, CAP, EM, X, near
from .glyphs import Glyph, glyph

Named = Tuple[str, Glyph]


def head(glyphs: List[Named], wide: int, high: int) -> Iterator[str]:
    """The lines before the glyphs. Where an em is as wide as it is high its dots are points; else it is of 72 points,
    and the dots of an inch across and up are those of an em."""
    below = near(BELOW * high / EM)
    points, across, up = (high, 72, 72) if wide == high else (72, wide, high)
    inked = [it.dots for _, it in glyphs if it.dots.rows]
    left, right = min(it.left for it in inked), max(it.left + it.width for it in inked)
    low, top = min(it.top - len(it.rows) for it in inked), max(it.top for it in inked)
    yield 'STARTFONT 2.1'
    yield f'FONT -vp-narrow-bold-r-normal--{high}-{10 * points}-{across}-{up}-p-{5 * wide}-iso10646-1'
    yield f'SIZE {points} {across} {up}'
    yield f'FONTBOUNDINGBOX {right - left} {top - low} {left} {low}'
    yield 'STARTPROPERTIES 8'
    yield 'FAMILY_NAME "Narrow"'
    yield 'WEIGHT_NAME "Bold"'
    yield 'CHARSET_REGISTRY "ISO10646"'
    yield 'CHARSET_ENCODING "1"'
    yield f'FONT_ASCENT {high - below}'
    yield f'FONT_DESCENT {below}'
    yield f'CAP_HEIGHT {near(CAP * high / EM)}'
    yield f'X_HEIGHT {near(X * high / EM)}'
    yield 'ENDPROPERTIES'
    yield f'CHARS {len(glyphs)}'


def entry(char: str, it: Glyph) -> Iterator[str]:
    """The lines of a glyph."""
    dots = it.dots
    octets = (dots.width + 7) // 8
    yield f'STARTCHAR U+{ord(char):04X}'
    yield f'ENCODING {ord(char)}'
    yield f'SWIDTH {near(it.advance)} 0'
    yield f'DWIDTH {it.ahead} 0'
    yield f'BBX {dots.width} {len(dots.rows)} {dots.left} {dots.top - len(dots.rows)}'
    yield 'BITMAP'
    yield from (f'{row << 8 * octets - dots.width:0{2 * octets}X}' for row in dots.rows)
    yield 'ENDCHAR'


def font(chars: Iterable[str], wide: int, high: int) -> str:
    """A font of characters that the face has, in a size of so many dots an em."""
    found = ((char, glyph(char, wide, high)) for char in chars)
    glyphs = [(char, it) for char, it in found if it]
    lines = [*head(glyphs, wide, high), *(line for char, it in glyphs for line in entry(char, it)), 'ENDFONT', '']
    return '\n'.join(lines)
