"""Pictures of dots: turned, magnified, cut, read of codes and packed data, written as a language takes them."""
import base64
import binascii
import itertools
import re
import zlib
from typing import Dict, List, NamedTuple, Optional, Sequence, Tuple

LETTERS = {**{letter: n for n, letter in enumerate(b'GHIJKLMNOPQRSTUVWXY', 1)},
           **{letter: 20 * n for n, letter in enumerate(b'ghijklmnopqrstuvwxyz', 1)}}
ONES, TWENTIES = 'GHIJKLMNOPQRSTUVWXY', 'ghijklmnopqrstuvwxyz'
# Digits that repeat.
RUN = re.compile(r'(.)\1+')
# What a picture may have at most: the widest row that a label reads, in bytes, and all of its bytes.
WIDEST, MOST = 1024, 4 << 20
# What a PNG may unpack to.
MOST_IMAGE = 16 << 20


class Bad(Exception):
    """Why a picture can't be read."""


class Picture:
    """`rows` of `width` dots, each a number whose highest bit is the leftmost dot; they stay as they are."""
    __slots__ = ('width', 'rows', 'field', 'raster')

    def __init__(self, width: int, rows: List[int]) -> None:
        self.width, self.rows = width, rows
        self.field: Optional[bytes] = None
        self.raster: Optional[bytes] = None

    @property
    def height(self) -> int:
        return len(self.rows)

    @classmethod
    def of_bytes(cls, data: bytes, stride: int, height: int) -> 'Picture':
        data = data.ljust(stride * height, b'\0')
        return cls(8 * stride, [int.from_bytes(data[n:n + stride], 'big') for n in range(0, stride * height, stride)])

    @classmethod
    def of_texts(cls, texts: Sequence[str]) -> 'Picture':
        """Of rows of 0 and 1."""
        numbers = {it: int(it or '0', 2) for it in set(texts)}
        return cls(len(texts[0]) if texts else 0, [numbers[it] for it in texts])

    def texts(self) -> List[str]:
        if not self.width:
            return ['' for _ in self.rows]
        shown = {row: f'{row:0{self.width}b}' for row in set(self.rows)}
        return [shown[row] for row in self.rows]

    def cropped(self, width: int) -> 'Picture':
        """Its first so many columns."""
        return Picture(width, [row >> self.width - width for row in self.rows])

    def turned(self, way: str) -> 'Picture':
        """Turned clockwise: N, R, I or B."""
        if way == 'N' or not self.rows:
            return self
        texts = self.texts()
        if way == 'I':
            return Picture.of_texts([it[::-1] for it in reversed(texts)])
        columns = [''.join(it) for it in zip(*(reversed(texts) if way == 'R' else texts))]
        return Picture.of_texts(columns if way == 'R' else columns[::-1])

    def magnified(self, across: int, down: int) -> 'Picture':
        if across == 1 and down == 1:
            return self
        rows = self.rows
        if across > 1:
            dots = {0x30: '0' * across, 0x31: '1' * across}
            rows = Picture.of_texts([it.translate(dots) for it in self.texts()]).rows
        return Picture(self.width * across, [row for row in rows for _ in range(down)])

    def cut(self, left: int, top: int) -> 'Picture':
        """Without so many columns at its left and rows at its top."""
        if not left and not top:
            return self
        width = max(0, self.width - left)
        return Picture(width, [row & (1 << width) - 1 for row in self.rows[top:]])

    def joined(self, other: 'Picture', x: int, y: int) -> 'Picture':
        """With another picture laid over it; it grows to the right and below."""
        width, height = max(self.width, x + other.width), max(self.height, y + other.height)
        rows = [row << width - self.width for row in self.rows] + [0] * (height - self.height)
        for n, row in enumerate(other.rows, y):
            rows[n] |= row << width - x - other.width
        return Picture(width, rows)

    def stride(self) -> int:
        return (self.width + 7) // 8

    def data(self) -> bytes:
        """Its rows in whole bytes."""
        stride = self.stride()
        return b''.join((row << 8 * stride - self.width).to_bytes(stride, 'big') for row in self.rows)

    def as_field(self) -> bytes:
        """The picture as ^GF, in run-length codes."""
        if self.field is None:
            stride, before, shift = self.stride(), None, 8 * self.stride() - self.width
            codes: List[str] = []
            known: Dict[int, str] = {}
            for row in self.rows:
                if row == before:
                    codes.append(':')
                    continue
                if row not in known:
                    known[row] = coded((row << shift).to_bytes(stride, 'big').hex().upper())
                codes.append(known[row])
                before = row
            found = ''.join(codes)
            self.field = f'^GFA,{len(found)},{stride * self.height},{stride},{found}'.encode('ascii')
        return self.field

    def as_raster(self) -> bytes:
        """The picture as GS v 0, in parts of at most 65,535 rows."""
        if self.raster is None:
            stride, data, out = self.stride(), self.data(), []
            for y in range(0, self.height, 0xFFFF):
                rows = min(0xFFFF, self.height - y)
                out.append(b'\x1dv0\0' + stride.to_bytes(2, 'little') + rows.to_bytes(2, 'little')
                           + data[y * stride:(y + rows) * stride])
            self.raster = b''.join(out)
        return self.raster


def coded(digits: str) -> str:
    """The hex digits of a row, in run-length codes."""
    rest = ''
    for digit, sign in ('0', ','), ('F', '!'):
        if digits.endswith(digit):
            digits, rest = digits.rstrip(digit), sign
            break
    return RUN.sub(lambda run: counted(run[1], run.end() - run.start()), digits) + rest


def counted(digit: str, count: int) -> str:
    text = ''
    while count > 419:
        text, count = text + 'z' + 'Y' + digit, count - 419
    twenties, ones = divmod(count, 20)
    return text + ((TWENTIES[twenties - 1] if twenties else '') + (ONES[ones - 1] if ones else '') + digit
                   if count > 1 else digit)


def of_codes(codes: bytes, stride: int, height: int) -> Tuple[bytes, Optional[str]]:
    """The bytes of a picture in hex digits and run-length codes. What is wrong ends it: the bytes, and why."""
    places, digits, count = 2 * stride, bytearray(), 0
    need = places * height
    plain = re.compile(rb'[0-9A-Fa-f]+')
    why: Optional[str] = None
    at = 0
    while at < len(codes) and len(digits) < need:
        code = codes[at]
        run = plain.match(codes, at) if not count else None
        if run:
            digits += run[0][:need - len(digits)]
            at = run.end()
            continue
        at += 1
        if code in LETTERS:
            count += LETTERS[code]
        elif code in b'0123456789ABCDEFabcdef':
            digits += bytes([code]) * min(count, need - len(digits))
            count = 0
        elif code in b',!' and not count:
            left = places - len(digits) % places
            digits += (b'0' if code == 0x2C else b'F') * left
        elif code == 0x3A and not count and len(digits) % places == 0:
            digits += digits[-places:] if digits else b'0' * places
        else:
            why = 'its codes have a sign that is none'
            break
    if count and not why:
        why = 'its codes end behind a count'
    digits += b'0' * (len(digits) % 2)
    return bytes.fromhex(digits[:need].decode('ascii')), why


def unpacked(text: bytes, most: int) -> Tuple[bytes, Optional[str]]:
    """The bytes of `:Z64:` or `:B64:` data, at most so many: they and what is wrong, or why they can't be had."""
    found = re.fullmatch(rb':(Z64|B64):([A-Za-z0-9+/]*={0,2})(?::([0-9A-Fa-f]{4}))?.*',
                         text.translate(None, b'\r\n \t'),
                         re.IGNORECASE | re.DOTALL)
    if not found:
        raise Bad('its packed data are cut or have a sign that is none')
    kind, packed, said = found.groups()
    why = None
    if said is None:
        why = 'its packed data have no sum'
    elif int(said, 16) != binascii.crc_hqx(packed, 0):
        why = f'its packed data have the sum {binascii.crc_hqx(packed, 0):04X}, and say {said.decode().upper()}'
    letters = packed.rstrip(b'=')
    letters = letters[:-1] if len(letters) % 4 == 1 else letters
    data = base64.b64decode(letters + b'=' * (-len(letters) % 4))
    if kind.upper() == b'Z64':
        return inflated(data, most, why)
    return data[:most], why


def inflated(data: bytes, most: int, why: Optional[str] = None) -> Tuple[bytes, Optional[str]]:
    packer = zlib.decompressobj()
    try:
        out = packer.decompress(data, most + 1)
    except zlib.error:
        raise Bad('its packed data are no zlib data') from None
    if len(out) > most:
        raise Bad(f'its packed data are more than the {most:,} bytes that its head says')
    return out, why if packer.eof else why or 'its packed data are cut'


def read(kind: str, data: bytes, total: int, stride: int) -> Tuple[Picture, Optional[str]]:
    """A picture of a head and its data: `kind` A in codes, B in bytes, C packed. The picture, and what is wrong or
    None."""
    if not stride or not 0 < stride <= WIDEST or not total or total < stride:
        raise Bad('its head has no size')
    if total > MOST:
        raise Bad(f'its head says {total:,} bytes: at most {MOST:,} are read')
    height, packed = total // stride, data.lstrip(b'\r\n \t')[:1] == b':' and kind != 'B'
    if packed and data.lstrip(b'\r\n \t')[1:4].upper() in (b'Z64', b'B64'):
        found, why = unpacked(data.lstrip(b'\r\n \t'), stride * height)
    elif kind == 'A':
        found, why = of_codes(data.translate(None, b'\r\n \t'), stride, height)
    elif kind == 'C':
        found, why = inflated(data, stride * height)
    else:
        found, why = data, None
    if len(found) < stride * height and kind != 'A':
        why = why or f'it is cut: {len(found):,} of {stride * height:,} bytes'
    return Picture.of_bytes(found, stride, height), why


class Head(NamedTuple):
    """A PNG's size in dots, the bits of a value, its kind of colour, the values of a dot, the bytes of a row."""
    width: int
    height: int
    depth: int
    colour: int
    channels: int
    stride: int


def head_of(data: bytes) -> Head:
    """The head of a PNG; raises Bad."""
    if data[:8] != b'\x89PNG\r\n\x1a\n':
        raise Bad('it is no PNG')
    if data[12:16] != b'IHDR' or len(data) < 33:
        raise Bad('it is a PNG without a head')
    width, height = int.from_bytes(data[16:20], 'big'), int.from_bytes(data[20:24], 'big')
    depth, colour, interlaced = data[24], data[25], data[28]
    channels = {0: 1, 2: 3, 3: 1, 4: 2, 6: 4}.get(colour, 0)
    stride = (width * channels * depth + 7) // 8
    is_read = channels and not interlaced and depth in (1, 2, 4, 8)
    if not is_read or not 0 < width <= 8 * WIDEST or not 0 < stride * height <= MOST_IMAGE:
        raise Bad('it is a PNG of a kind or a size that is not read')
    return Head(width, height, depth, colour, channels, stride)


def size_of_image(data: bytes) -> int:
    """How many bytes a PNG unpacks to; raises Bad."""
    head = head_of(data)
    return head.stride * head.height


def of_image(data: bytes) -> Tuple[Picture, Optional[str]]:
    """A picture of a PNG: what is darker than grey, and not clear, is black."""
    width, height, depth, colour, channels, stride = head_of(data)
    at, packed = 8, []
    palette: List[bool] = []
    while at + 12 <= len(data):
        size, kind = int.from_bytes(data[at:at + 4], 'big'), data[at + 4:at + 8]
        body = data[at + 8:at + 8 + size]
        if kind == b'PLTE':
            palette = [sum(body[n:n + 3]) < 384 for n in range(0, len(body) - 2, 3)]
        elif kind == b'IDAT':
            packed.append(body)
        at += 12 + size
    flat, why = inflated(b''.join(packed), (stride + 1) * height)
    before, step = bytes(stride), max(1, channels * depth // 8)
    rows: List[bytes] = []
    for y in range(height):
        line = flat[y * (stride + 1):(y + 1) * (stride + 1)].ljust(stride + 1, b'\0')
        before = bytes(unfiltered(line[0], bytearray(line[1:]), before, step)) if line[0] else line[1:]
        rows.append(before)
    if depth == 1:
        return of_bits(rows, width, [True, False] if colour == 0 else palette), why
    return Picture.of_texts([dots_of(row, width, depth, colour, palette) for row in rows]), why


def of_bits(rows: List[bytes], width: int, is_black: List[bool]) -> Picture:
    """Of rows of one bit a dot, by which of the two is black."""
    clear, black = (is_black + [False, False])[:2]
    full = (1 << width) - 1
    bits = [int.from_bytes(row, 'big') >> 8 * len(row) - width for row in rows]
    return Picture(width, [(row if black else 0) | (full ^ row if clear else 0) for row in bits])


def unfiltered(kind: int, line: bytearray, before: bytes, step: int) -> bytearray:
    """A row of a PNG, whose values are told by those to the left and above."""
    if kind == 1:
        for n in range(step):
            line[n::step] = bytes(it & 255 for it in itertools.accumulate(line[n::step]))
    elif kind == 2:
        return bytearray(a + b & 255 for a, b in zip(line, before))
    elif kind == 3:
        for n, up in enumerate(before):
            line[n] = line[n] + ((line[n - step] if n >= step else 0) + up) // 2 & 255
    elif kind == 4:
        for n, up in enumerate(before):
            left, corner = (line[n - step], before[n - step]) if n >= step else (0, 0)
            by_left, by_up, by_corner = abs(up - corner), abs(left - corner), abs(left + up - 2 * corner)
            guess = left if by_left <= by_up and by_left <= by_corner else up if by_up <= by_corner else corner
            line[n] = line[n] + guess & 255
    return line


def dots_of(row: bytes, width: int, depth: int, colour: int, palette: List[bool]) -> str:
    """A row of a PNG as 0 and 1."""
    values: Sequence[int] = row
    if depth < 8:
        bits = ''.join(f'{it:08b}' for it in row)
        values = [int(bits[n:n + depth], 2) for n in range(0, width * depth, depth)]
        values = [it * 255 // ((1 << depth) - 1) for it in values] if colour == 0 else values
    if colour == 3:
        return ''.join('1' if it < len(palette) and palette[it] else '0' for it in values[:width])
    if colour == 0:
        return ''.join('1' if it < 128 else '0' for it in values[:width])
    step = {2: 3, 4: 2, 6: 4}[colour]
    shades = range(0, width * step, step)
    clear = [colour in (4, 6) and values[n + step - 1] < 128 for n in shades]
    dark = [sum(values[n:n + 3]) < 384 if colour != 4 else values[n] < 128 for n in shades]
    return ''.join('1' if black and not white else '0' for black, white in zip(dark, clear))
