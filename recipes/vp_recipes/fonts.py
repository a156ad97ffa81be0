"""Fonts that a sheet is made of: bitmap fonts, and by FreeType, where it is, those of outlines."""
import codecs
import gzip
import importlib
import io
import struct
from typing import Any, Callable, Dict, Iterable, List, NamedTuple, Optional, Sequence, Tuple, Union

# How TrueType, OpenType, their collections and Type 1 begin; the letters by which a size is chosen.
OUTLINES = b'\0\1\0\0', b'true', b'OTTO', b'ttcf', b'%!PS-AdobeFont', b'%!FontType1', b'\x80\1'
LETTERS = 'ABCDEFGHIJKLMNOPQRSTUVWXYZabcdefghijklmnopqrstuvwxyz0123456789'
Key = Union[str, int]


class Glyph(NamedTuple):
    """A bitmap of `width` dots a row, the leftmost highest, that begins `left` of the pen and `top` below the line's
    top."""

    advance: int
    left: int
    top: int
    width: int
    rows: List[int]


class Font(NamedTuple):
    """Glyphs by character, or by number where the font doesn't say its characters; lines are so many rows high."""

    height: int
    glyphs: Dict[Key, Glyph]


# What is taken for a font: its bytes, unpacked, its glyphs, their sides in dots, and how far a glyph is off its pen.
MOST_BYTES, MOST_GLYPHS, MOST_SIDE, MOST_OFF = 1 << 26, 1 << 17, 256, 1024


def bounded(count: int, width: int, height: int) -> None:
    """Refuses what no font for cells has, before it is worked on."""
    if not 0 <= count <= MOST_GLYPHS or not 0 <= width <= MOST_SIDE or not 0 <= height <= MOST_SIDE:
        raise ValueError(f'{count} glyphs of {width} by {height} dots: not a font for cells')


def key_of(registry: str, encoding: str) -> Callable[[int], Key]:
    """What a number of the font stands for: a function to characters, or to the number itself."""
    if registry.upper() == 'ISO10646':
        return chr
    for name in f'{registry}-{encoding}', encoding:
        try:
            decode = codecs.lookup(name).decode
            if decode(b'A')[0] == 'A':
                return lambda n: decode(bytes([n]), 'replace')[0] if n < 256 else n
        # what isn't a table of text raises whatever its module does
        except Exception:  # noqa: BLE001
            pass
    return lambda n: n


def bdf(data: bytes) -> Font:
    said: Dict[str, str] = {}
    found: List[Tuple[Dict[str, str], List[int]]] = []
    rows: Optional[List[int]] = None
    glyphs: Dict[Key, Glyph] = {}
    for line in data.decode('latin-1').splitlines():
        word, _, rest = line.strip().partition(' ')
        if word == 'BITMAP':
            rows = []
        elif word == 'ENDCHAR':
            found.append((said.copy(), rows or []))
            rows = None
        elif rows is not None:
            rows.append(int(word, 16) >> 4 * len(word) - int(said['BBX'].split()[0]))
        elif word:
            said[word] = rest.strip().strip('"')
    _, box_height, _, box_low = map(int, said['FONTBOUNDINGBOX'].split())
    ascent = int(said.get('FONT_ASCENT', box_height + box_low))
    descent = int(said.get('FONT_DESCENT', -box_low))
    key = key_of(said.get('CHARSET_REGISTRY', ''), said.get('CHARSET_ENCODING', ''))
    for of, dots in found:
        code, (width, height, left, low) = int(of['ENCODING'].split()[0]), map(int, of['BBX'].split())
        bounded(len(found), width, max(height, len(dots)))
        if code >= 0:
            advance = int(of['DWIDTH'].split()[0])
            glyphs[key(code)] = Glyph(advance, left, ascent - low - height, width, dots)
    return Font(ascent + descent, glyphs)


def pcf(data: bytes) -> Font:
    tables = {kind: (form, at) for kind, form, _, at in struct.iter_unpack('<4I', data[8:8 + 16 * data[4]])}

    def numbers(kind: int, letters: str, skip: int = 0) -> Tuple[int, ...]:
        form, at = tables[kind]
        return struct.unpack_from('<>'[form >> 2 & 1] + letters, data, at + 4 + skip)

    ascent, descent = numbers(256 if 256 in tables else 2, 'ii', 8)
    if tables[4][0] & 0x100:
        count, = numbers(4, 'H')
        flat: Sequence[int] = [n - 128 for n in numbers(4, f'{5 * count}B', 2)]
        metrics = [flat[n:n + 5] for n in range(0, 5 * count, 5)]
    else:
        count, = numbers(4, 'I')
        flat = numbers(4, f'{6 * count}h', 4)
        metrics = [flat[n:n + 5] for n in range(0, 6 * count, 6)]
    for left, right, _, up, down in metrics:
        bounded(count, right - left, up + down)
    form, at = tables[8]
    pad, unit = 1 << (form & 3), 1 << (form >> 4 & 3)
    starts, bits = numbers(8, f'{count}I', 4), data[at + 24 + 4 * count:]
    if not form & 8:
        bits = bits.translate(bytes(int(f'{n:08b}'[::-1], 2) for n in range(256)))
    if bool(form & 8) != bool(form & 4):
        bits = b''.join(bits[n:n + unit][::-1] for n in range(0, len(bits), unit))
    made = []
    for start, (left, right, advance, up, down) in zip(starts, metrics):
        width, stride = right - left, -(-(right - left) // (8 * pad)) * pad
        parts = (bits[at:at + stride] for at in range(start, start + stride * (up + down), stride or 1))
        rows = [int.from_bytes(part, 'big') >> 8 * stride - width for part in parts]
        made.append(Glyph(advance, left, ascent - up, width, rows))
    count, = numbers(1, 'I')
    names = tables[1][1] + 12 + 9 * count + -count % 4

    def name(n: int) -> str:
        return data[names + n:data.index(0, names + n)].decode('latin-1')

    said = {name(n): value for n, is_name, value in (numbers(1, 'IBi', 4 + 9 * k) for k in range(count)) if is_name}
    key = key_of(*(name(said[it]) if it in said else '' for it in ('CHARSET_REGISTRY', 'CHARSET_ENCODING')))
    low, high, first, last, _ = numbers(32, '5h')
    if not 0 <= low <= high < 256 or not 0 <= first <= last < 256:
        raise ValueError('codes that are none')
    codes = [256 * page + n for page in range(first, last + 1) for n in range(low, high + 1)]
    places = zip(codes, numbers(32, f'{len(codes)}H', 10))
    return Font(ascent + descent, {key(code): made[place] for code, place in places if place != 0xFFFF})


def psf(data: bytes) -> Font:
    if data[:2] == b'\x36\x04':
        start, count, size, width = 4, 512 if data[2] & 1 else 256, data[3], 8
        height, has_table = size, data[2] & 6
    else:
        start, has_table, count, size, height, width = struct.unpack_from('<6I', data, 8)
    stride = (width + 7) // 8
    glyphs: Dict[Key, Glyph] = {}
    bounded(count, width, height)
    if start + count * size > len(data) or size < stride * height:
        raise ValueError('cut short')
    for n in range(count):
        first = start + n * size
        parts = (data[at:at + stride] for at in range(first, first + height * stride, stride or 1))
        rows = [int.from_bytes(part, 'big') >> 8 * stride - width for part in parts]
        glyphs[n] = Glyph(width, 0, 0, width, rows)
    table = data[start + count * size:]
    if not has_table:
        return Font(height, glyphs)
    if start == 4:
        entries = table.decode('utf-16-le', 'surrogatepass').split('\uffff')
        kept = [entry.split('\ufffe')[0] for entry in entries]
    else:
        kept = [entry.split(b'\xfe')[0].decode('utf-8') for entry in table.split(b'\xff')]
    return Font(height, {it: glyphs[n] for n, entry in enumerate(kept[:count]) for it in entry})


def unifont(data: bytes) -> Font:
    glyphs: Dict[Key, Glyph] = {}
    for line in data.decode('ascii').splitlines():
        code, _, digits = line.partition(':')
        width, each = len(digits) // 4, len(digits) // 16
        rows = [int(digits[n:n + each], 16) for n in range(0, 16 * each, each)]
        glyphs[chr(int(code, 16))] = Glyph(width, 0, 0, width, rows)
    return Font(16, glyphs)


def read(name: str, chars: Iterable[str], size: Tuple[int, int]) -> Font:
    """The font of a file; of an outline font these characters, of a size for cells."""
    with open(name, 'rb') as file:
        data = file.read(MOST_BYTES + 1)
    if data[:2] == b'\x1f\x8b':
        with gzip.open(io.BytesIO(data)) as packed:
            data = packed.read(MOST_BYTES + 1)
    if len(data) > MOST_BYTES:
        raise ValueError('too large for a font')
    font = outlines(data, chars, size) if data.startswith(OUTLINES) else parsed(data)
    for it in font.glyphs.values():
        bounded(len(font.glyphs), it.width, len(it.rows))
    if any(abs(it) > MOST_OFF for glyph in font.glyphs.values() for it in (glyph.advance, glyph.left, glyph.top)):
        raise ValueError('a glyph is too far off its pen')
    if abs(font.height) > MOST_OFF:
        raise ValueError(f'lines of {font.height} rows')
    return font


def parsed(data: bytes) -> Font:
    if data.startswith(b'STARTFONT'):
        return bdf(data)
    if data.startswith(b'\x01fcp'):
        return pcf(data)
    if data.startswith((b'\x36\x04', b'\x72\xb5\x4a\x86')):
        return psf(data)
    if data[4:5] == b':' or data[6:7] == b':':
        return unifont(data)
    raise ValueError('not BDF, PCF, PSF, .hex, TrueType, OpenType or Type 1')


def outlines(data: bytes, chars: Iterable[str], size: Tuple[int, int]) -> Font:
    """An outline font by FreeType, of the largest size whose letters fit into cells, as dots."""
    try:
        library: Any = importlib.import_module('freetype')
    except ImportError:
        what = "a font of outlines needs FreeType, Debian's python3-freetype, and this Python has none"
        raise ValueError(what) from None
    try:
        face = library.Face(io.BytesIO(data))
        pixels = next((it for it in range(2 * size[1], 3, -1) if fits(library, face, it, size)), 0)
        if not pixels:
            raise ValueError('its letters do not fit into cells')
        ascent = sized(face, pixels)[0]
        glyphs: Dict[Key, Glyph] = {}
        for char in chars:
            if face.get_char_index(char):
                glyphs[char] = outlined(library, face, char, ascent)
        return Font(sum(sized(face, pixels)), glyphs)
    except library.FT_Exception as error:
        raise ValueError(f'FreeType says: {error}') from None


def sized(face: Any, pixels: int) -> Tuple[int, int]:
    """Of a face in this size how far lines go above the baseline and below."""
    face.set_pixel_sizes(0, pixels)
    return -(-face.size.ascender // 64), -(face.size.descender // 64)


def fits(library: Any, face: Any, pixels: int, size: Tuple[int, int]) -> bool:
    """Whether the lines of a face are no higher than a cell in this size, and its letters no wider."""
    if sum(sized(face, pixels)) > size[1]:
        return False
    wide = []
    for char in LETTERS:
        if face.get_char_index(char):
            face.load_char(char, library.FT_LOAD_TARGET_MONO)
            wide.append(face.glyph.advance.x // 64)
    return max(wide, default=size[0] + 1) <= size[0]


def outlined(library: Any, face: Any, char: str, ascent: int) -> Glyph:
    """A character of a face as dots."""
    face.load_char(char, library.FT_LOAD_RENDER | library.FT_LOAD_TARGET_MONO)
    slot, bitmap = face.glyph, face.glyph.bitmap
    dots, stride = bytes(bitmap.buffer), abs(bitmap.pitch)
    rows = [int.from_bytes(dots[n * stride:(n + 1) * stride], 'big') >> 8 * stride - bitmap.width
            for n in range(bitmap.rows)]
    return Glyph(slot.advance.x // 64, slot.bitmap_left, ascent - slot.bitmap_top, bitmap.width, rows)
