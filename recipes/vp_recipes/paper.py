"""Makes a picture of what vp prints: vp receipt order.bin | paper order.png

FILE is a PNG, or by its name order.pdf a PDF in true size; - is standard output, a PNG.

All images of one width stand under each other in one PNG. Where the width changes, as it may between labels, a
further one begins: order-2.png and so on; with --each each image has its own: order.png of one, order-1.png,
order-2.png of several. In a PDF each of these is a page, and paper longer than 5 metres goes on on the next one. It
reads as vp writes and holds one image. A file stands there once all are whole. No image: no file, not even that of an
earlier run. Files that no earlier run made stay: where a numbered one is there, the status is 3. Where a bound is
reached the rest is left out, which is said, and the status is 1.
"""
import argparse
import sys
from typing import IO, List, Optional

from . import bounds
from .faults import Fault, shown
from .images import Files, within, write
from .pdf import write_pdf
from .program import given_input

# Of a PDF, where nothing else is said.
DPMM = 8


def dots(text: str) -> float:
    value = float(text)
    if not 0 < value < 1000:
        raise ValueError
    return value


def made(paper: IO[bytes], name: str, each: bool, dpmm: Optional[float], cut: List[bounds.Reached]) -> None:
    """Makes the picture of this name, unless a bound is reached before the first image."""
    is_pdf = name.lower().endswith('.pdf')
    with Files(name, each and not is_pdf) as files:
        if is_pdf:
            file = files.next()
            count, _ = write_pdf(paper, file, dpmm or DPMM, each)
            file.close()
            if not count:
                files.drop()
        else:
            write(paper, files, dpmm)
        if cut and not files.parts:
            raise Fault(str(cut[0]), 1)
        files.settle()


def main() -> int:
    words = argparse.ArgumentParser(usage='paper [--each] [--dpmm N] FILE.png|FILE.pdf < IMAGES', description=__doc__,
                                    formatter_class=argparse.RawDescriptionHelpFormatter)
    words.add_argument('file', metavar='FILE', help='FILE.png, FILE.pdf, or - for standard output')
    words.add_argument('--each', action='store_true',
                       help='a PNG or a page for each image: of several FILE-1.png, FILE-2.png')
    words.add_argument('--dpmm', type=dots, metavar='N',
                       help='dots a millimetre, so that a PNG is shown in its true size; of a PDF it is 8 without it')
    bounds.add_words(words, bounds.FILES if '--each' in sys.argv else bounds.DEFAULT)
    given = words.parse_args()
    cut: List[bounds.Reached] = []
    try:
        made(within(given_input(), bounds.of(given), cut), given.file, given.each, given.dpmm, cut)
    except ValueError as error:
        sys.stderr.write(f'paper: {error}\n')
        return 1
    except OSError as error:
        sys.stderr.write(f'paper: {shown(error.filename or given.file)}: {error.strerror}\n')
        return 3
    for it in cut:
        sys.stderr.write(f'paper: {it}\n')
    return 1 if cut else 0
