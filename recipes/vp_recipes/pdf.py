"""A PDF of what vp prints, in its true size."""
import zlib
from typing import IO, List, Tuple

from .images import images

# A page is 200 inches high at most, of 72 points: what is longer goes on on the next one.
POINTS, MOST_HIGH = 72 / 25.4, 14400


class Pdf:
    """A PDF that is written row by row, to a file that goes back. Objects: 1 the catalog, 2 the list of pages, and of
    each page itself, its picture, how long that is, and its words."""

    def __init__(self, file: IO[bytes], dpmm: float) -> None:
        self.file, self.dpmm = file, dpmm
        self.places: List[int] = []
        # the pages, and of the one that is open its size, its packer, where its height is to stand, and its bytes
        self.pages: List[int] = []
        self.width = self.height = 0
        self.most = int(MOST_HIGH / POINTS * dpmm)
        file.write(b'%PDF-1.4\n%\xe2\xe3\xcf\xd3\n')
        self.places += [0, 0]

    def begins(self) -> int:
        """Begins an object, and gives its number."""
        self.places.append(self.file.tell())
        self.file.write(b'%d 0 obj\n' % len(self.places))
        return len(self.places)

    def page(self, width: int) -> None:
        """Begins a page of paper of so many dots."""
        self.width, self.height = width, 0
        self.packer, self.size = zlib.compressobj(6), 0
        picture = self.begins()
        self.file.write(b'<< /Type /XObject /Subtype /Image /Width %d /ColorSpace /DeviceGray /BitsPerComponent 1 '
                        b'/Decode [1 0] /Filter /FlateDecode /Length %d 0 R /Height ' % (width, picture + 1))
        self.height_at = self.file.tell()
        self.file.write(b'          >>\nstream\n')

    def row(self, data: bytes) -> None:
        self.height += 1
        self.put(self.packer.compress(data))

    def put(self, packed: bytes) -> None:
        self.size += len(packed)
        self.file.write(packed)

    def close_page(self) -> None:
        """Ends a page: its picture, the length of that, its words, and itself."""
        self.put(self.packer.flush())
        self.file.write(b'\nendstream\nendobj\n')
        end = self.file.tell()
        self.file.seek(self.height_at)
        self.file.write(b'%d' % self.height)
        self.file.seek(end)
        picture = len(self.places)
        self.begins()
        self.file.write(b'%d\nendobj\n' % self.size)
        # (rounded down, so that a page has no dot more)
        wide, high = (int(1e4 * it / self.dpmm * POINTS) / 1e4 for it in (self.width, self.height))
        words = b'%.4f 0 0 %.4f 0 0 cm /P Do' % (wide, high)
        drawn = self.begins()
        self.file.write(b'<< /Length %d >>\nstream\n%s\nendstream\nendobj\n' % (len(words), words))
        self.pages.append(self.begins())
        self.file.write(b'<< /Type /Page /Parent 2 0 R /MediaBox [0 0 %.4f %.4f] /Contents %d 0 R '
                        b'/Resources << /XObject << /P %d 0 R >> >> >>\nendobj\n' % (wide, high, drawn, picture))

    def close(self) -> None:
        """Writes what names the pages, and where each object stands."""
        self.places[0] = self.file.tell()
        self.file.write(b'1 0 obj\n<< /Type /Catalog /Pages 2 0 R >>\nendobj\n')
        self.places[1] = self.file.tell()
        kids = b' '.join(b'%d 0 R' % it for it in self.pages)
        self.file.write(b'2 0 obj\n<< /Type /Pages /Count %d /Kids [%s] >>\nendobj\n' % (len(self.pages), kids))
        start = self.file.tell()
        self.file.write(b'xref\n0 %d\n0000000000 65535 f \n' % (len(self.places) + 1))
        self.file.write(b''.join(b'%010d 00000 n \n' % it for it in self.places))
        count = len(self.places) + 1
        self.file.write(b'trailer\n<< /Size %d /Root 1 0 R >>\nstartxref\n%d\n%%%%EOF\n' % (count, start))


def write_pdf(paper: IO[bytes], file: IO[bytes], dpmm: float, each: bool) -> Tuple[int, int]:
    """Writes a PDF of the images that a file has: all of one width under each other on a page, or with `each` a page
    for each. Gives how many images and pages that is; without an image nothing is written."""
    pdf, count = None, 0
    for width, _, rows in images(paper):
        count += 1
        if not pdf:
            pdf = Pdf(file, dpmm)
            pdf.page(width)
        elif each or pdf.width != width:
            pdf.close_page()
            pdf.page(width)
        for row in rows:
            if pdf.height == pdf.most:
                pdf.close_page()
                pdf.page(width)
            pdf.row(row)
    if pdf:
        pdf.close_page()
        pdf.close()
    return count, len(pdf.pages) if pdf else 0
