"""Boxes with round corners and signs, as pictures."""
import math
from typing import Optional

from .pictures import Picture

# A sign that is larger is drawn in this size and magnified.
LARGE = 240


def row_of(width: int, left: int, right: int) -> int:
    """A row that is black from one dot up to another."""
    left, right = max(0, left), min(width, right)
    return (1 << right - left) - 1 << width - right if right > left else 0


def amid(width: int, edge: int) -> int:
    """A row that is black but for so many dots at each end."""
    return row_of(width, edge, width - edge)


def ellipse(width: int, height: int, t: int) -> Picture:
    """An ellipse whose line is t dots thick. A dot is black where its centre lies in the ellipse or on an edge."""
    def edge(w: int, h: int, y: int, is_inner: bool) -> int:
        room = (w * h) ** 2 - ((2 * y + 1 - height) * w) ** 2 - is_inner
        return max(0, width - math.isqrt(room) // h) // 2 if w > 0 and h > 0 and room >= 0 else width

    return Picture(width, [amid(width, edge(width, height, y, False))
                           & ~amid(width, edge(width - 2 * t, height - 2 * t, y, True)) for y in range(height)])


def rounded(width: int, height: int, t: int, r: int) -> Picture:
    """A frame whose corners have a radius of r eighths of half its shorter side, which is reckoned in sixteenths of a
    dot. A dot is black where its centre lies in the frame or on an edge."""
    radius = r * min(width, height)

    def edge(near: int, room: int, least: int) -> int:
        room -= max(0, radius - 16 * near - 8) ** 2
        return max(least, (max(0, radius - math.isqrt(room)) + 7) // 16) if room >= 0 and near >= least else width

    nears = [min(y, height - 1 - y) for y in range(height)]
    inner = max(0, max(0, radius - 16 * t) ** 2 - 1)
    return Picture(width, [amid(width, edge(near, radius ** 2, 0)) & ~amid(width, edge(near, inner, t))
                           for near in nears])


def sign(letter: str, width: int, height: int) -> Optional[Picture]:
    """^GS: A a registered mark, B a copyright, C a trade mark, D and E the signs of two test houses as rings."""
    side = min(width, height)
    ring = ellipse(side, side, max(1, side // 12))
    strokes = {
        'A': [(.38, .72, .38, .28), (.38, .28, .6, .28), (.6, .28, .62, .4), (.62, .4, .58, .5), (.58, .5, .38, .5),
              (.48, .5, .64, .72)],
        'B': [(.66, .36, .54, .28), (.54, .28, .4, .34), (.4, .34, .34, .5), (.34, .5, .4, .66), (.4, .66, .54, .72),
              (.54, .72, .66, .64)],
        'C': [(0, .15, .42, .15), (.21, .15, .21, .6), (.52, .6, .52, .15), (.52, .15, .76, .45), (.76, .45, 1, .15),
              (1, .15, 1, .6)],
    }.get(letter)
    if not strokes:
        return None
    if side > LARGE:
        small = sign(letter, LARGE, LARGE)
        places = [n * LARGE // side for n in range(side)]
        texts = [''.join(row[n] for n in places) for row in small.texts()] if small else []
        return Picture.of_texts([texts[n] for n in places])
    pen = max(1.0, side / 14)
    rows = [0] * side if letter == 'C' else list(ring.rows)
    for ax, ay, bx, by in strokes:
        ax, ay, bx, by = ax * side, ay * side, bx * side, by * side
        long = (bx - ax) ** 2 + (by - ay) ** 2
        for y in range(side):
            for x in range(side):
                t = max(0, min(1, ((x + .5 - ax) * (bx - ax) + (y + .5 - ay) * (by - ay)) / long))
                if math.hypot(x + .5 - ax - t * (bx - ax), y + .5 - ay - t * (by - ay)) <= pen / 2 + .2:
                    rows[y] |= 1 << side - 1 - x
    return Picture(side, rows)
