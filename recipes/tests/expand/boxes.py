#!/usr/bin/env python3
"""Where the ink of what expand writes stands: boxes.py VP

Each content in its four turns, at ^FO and at ^FT, from the left and from the right, closed by ^FS and by ^XZ. Its box
is
measured once, upright at ^FO; the others follow from it by the rules of the language: ^FO gives the upper left corner
of
the turned box, or with 1 the upper right one; ^FT gives where the content begins on its baseline, or with 1 ends, and
it
turns about that point. Shapes, pictures and squares stand on their lower edge, bars on the lower end of the bars, texts
on the line on which capitals stand.
"""
import os
import pathlib
import subprocess
import sys
from typing import Iterator, List, NamedTuple, Optional, Tuple
sys.path.insert(0, str(pathlib.Path(__file__).resolve().parent.parent.parent))
sys.dont_write_bytecode = True
from vp_recipes.expand import Options, expanded, zint  # noqa: E402
from vp_recipes.labels import ink  # noqa: E402
from vp_recipes.sheets import shipped  # noqa: E402

X, Y, SIDE = 620, 640, 1240
Box = Tuple[int, int, int, int]
# Of these 24 rows a cell of the sheet has so many below the line of its capitals, and a text of bars so many in all.
CELL, BELOW, TEXT = 24, 7, 24


class Content(NamedTuple):
    """What stands in a field, `@` for its turn, whether it turns, whether bars have a text, whether it is one; how
    many columns at its left may be white; the box of one that has white edges."""
    what: str
    field: bytes
    turns: bool = True
    has_text: bool = False
    is_text: bool = False
    white: int = 0
    box: Optional[Tuple[int, int]] = None


PICTURE = b'~DGR:P.GRF,24,3,' + b'FFFFFF' * 8
Z64 = b'^GFA,24,24,3,:B64:' + b'/' * 32 + b':6C8C'


def contents() -> Iterator[Content]:
    for font in 'ABCDEFGHPQRSTUV0':
        yield Content(f'font {font}', b'^A%s@^FD\xdb\xdb\xdb' % font.encode(), is_text=True)
    yield Content('font 0 in a size', b'^A0@,48,30^FD\xdb\xdb\xdb', is_text=True)
    yield Content('a wide font', b'^AD@,36,40^FD\xdb\xdb', is_text=True)
    for name, field in (
            ('Code 11', b'^B1@,N,40,N'), ('2 of 5', b'^B2@,40,N'), ('Planet', b'^B5@,40,N'), ('EAN-8', b'^B8@,40,N'),
            ('UPC-E', b'^B9@,40,N'),
            ('Code 93', b'^BA@,40,N'), ('Industrial 2 of 5', b'^BI@,40,N'), ('Codabar', b'^BK@,N,40,N'),
            ('LOGMARS', b'^BL@,40'),
            ('MSI', b'^BM@,B,40,N'), ('Plessey', b'^BP@,N,40,N'), ('UPC-A', b'^BU@,40,N'), ('POSTNET', b'^BZ@,40,N'),
            ('GS1-128', b'^BC@,40,N,N,N,U'), ('Code 39', b'^B3@,N,40,N'), ('EAN-13', b'^BE@,40,N'),
            ('Code 128', b'^BC@,40,N')):
        yield Content(name, field + b'^FD01234567890', has_text=name == 'LOGMARS')
    yield Content('DataBar', b'^BR@,1,3^FD0123456789', white=3)
    yield Content('an add-on', b'^BS@,40,N^FD12')
    for name, field in (('2 of 5', b'^B2@,40,Y'), ('Codabar', b'^BK@,N,40,Y'), ('UPC-A', b'^BU@,40,Y'),
                        ('GS1-128', b'^BC@,40,Y,N,N,U'),
                        ('Code 39', b'^B3@,N,40,Y'), ('EAN-13', b'^BE@,40,Y'), ('Code 128', b'^BC@,40,Y')):
        yield Content(f'{name} with its text', field + b'^FD01234567890', has_text=True)
    yield Content('2 of 5 with its text above', b'^B2@,40,Y,Y^FD0123456789', has_text=True)
    for name, field in (('Aztec', b'^B0@,4'), ('Code 49', b'^B4@,8'), ('PDF417', b'^B7@,6'), ('Codablock', b'^BB@,8'),
                        ('MicroPDF417', b'^BF@,6'),
                        ('Data Matrix', b'^BX@,4,200')):
        yield Content(name, field + b'^FDSome data')
    yield Content('PDF417 of three columns', b'^B7@,6,,3^FDSome data')
    yield Content('MaxiCode', b'^BD4^FDSome data', turns=False, box=(215, 204))
    yield Content('QR beyond version 10', b'^BQN,2,2^FDHA,' + b'x' * 200, turns=False)
    yield Content('QR', b'^BQN,2,3^FDMA,Some data', turns=False)
    for name, field in (('^GC', b'^GC60,4'), ('^GE', b'^GE80,50,4'), ('^GD', b'^GD70,50,4'),
                        ('round ^GB', b'^GB90,40,4,B,3'), ('^GB', b'^GB90,40,4'),
                        ('^XG', b'^XGR:P.GRF,2,3'), ('^IM', b'^IMR:P.GRF'), ('packed ^GF', Z64),
                        ('^GF', b'^GFA,24,24,3,' + b'FFFFFF' * 8)):
        yield Content(name, field, turns=False)
    yield Content('a refused symbol', b'^BE@,40,N^FDletters')


def corner(at: str, end: bool, turn: str, box: Tuple[int, int], below: int) -> Tuple[int, int]:
    """The upper left corner of a turned box, by the guide's tables."""
    width, height = box
    above = height - below
    if at == 'FO':
        return (X - (width if turn in 'NI' else height) if end else X), Y
    return {'N': (X - width * end, Y - above), 'R': (X - below, Y - width * end),
            'I': (X - width * (not end), Y - below),
            'B': (X - above, Y - width * (not end))}[turn]


def printed(vp: str, streams: List[bytes]) -> List[Optional[Box]]:
    """The boxes of the ink of labels, each by expand and vp."""
    found = expanded(PICTURE + b''.join(streams), 'label', Options(sheet=tuple(shipped('label'))))
    ran = subprocess.run([vp, 'label', '--whole', *shipped('label')], input=found.data, stdout=subprocess.PIPE,
                         stderr=subprocess.PIPE)
    assert ran.returncode == 0, ran.stderr
    return list(ink(ran.stdout))


def label(at: str, place: Tuple[int, int], end: bool, content: Content, turn: str, is_closed: bool) -> bytes:
    return b'^XA^PW%d^LL%d^BY2^%s%d,%d%s' % (SIDE, SIDE, at.encode(), *place, b',1' if end else b'') \
        + content.field.replace(b'@', turn.encode()) + (b'^FS' if is_closed else b'') + b'^XZ'


def check(vp: str, content: Content) -> int:
    cases = [(at, end, turn, is_closed) for at in ('FO', 'FT') for end in (False, True)
             for turn in ('NRIB' if content.turns else 'N')
             for is_closed in (True, False)]
    first, *boxes = printed(vp, [label('FO', (X, Y), False, content, 'N', True),
                                 *[label(at, (X, Y), end, content, turn, is_closed) for at, end, turn,
                                   is_closed in cases]])
    assert first and first[0] - X in (0, content.white) and len(boxes) == len(cases), f'{content.what}: {first}'
    left, top, right, bottom = (it - start for it, start in zip(first, (X, Y, X, Y)))
    # what a text of bars leaves white at its edges belongs to its box
    width, height = content.box or (right, 40 + TEXT if content.has_text else bottom)
    assert not top or content.has_text or content.box, f'{content.what}: {first}'
    below = height * BELOW // CELL if content.is_text else TEXT if content.has_text and not top else 0
    for (at, end, turn, is_closed), found in zip(cases, boxes):
        x, y = corner(at, end, turn, (width, height), below)
        own = {'N': (left, top, right, bottom), 'R': (height - bottom, left, height - top, right),
               'I': (width - right, height - bottom, width - left, height - top),
               'B': (top, width - right, bottom, width - left)}[turn]
        wanted = own[0] + x, own[1] + y, own[2] + x, own[3] + y
        case = f'^{at}{",1" if end else ""}{"" if is_closed else " without ^FS"}'
        assert found == wanted, (f'{content.what} turned {turn} at {case} '
                                 f'stands in {found}, not in {wanted}')
    return len(cases)


def capitals(vp: str) -> None:
    """At ^FT capitals of each font stand on the point."""
    fonts = 'ABCDEFGHPQRSTUV0'
    for font, found in zip(fonts,
                           printed(vp, [b'^XA^PW%d^LL%d^FT%d,%d^A%sN^FDHE^FS^XZ' % (SIDE, SIDE, X, Y, it.encode())
                                        for it in fonts])):
        assert found and Y - 1 <= found[3] <= Y + 1, f'capitals of font {font} stand at {found}, not on {Y}'


def main() -> None:
    vp = os.environ['VP'] = sys.argv[1]
    if not zint.program():
        print('no zint')
        sys.exit(3)
    found = list(contents())
    count = sum(check(vp, it) for it in found)
    capitals(vp)
    print(f'{len(found)} contents stand where they are meant, in {count} places and turns')


if __name__ == '__main__':
    main()
