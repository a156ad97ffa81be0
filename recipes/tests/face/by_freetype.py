#!/usr/bin/env python3
"""Whether FreeType reads a BDF as the face draws it: by_freetype.py FILE WIDE HIGH."""
import pathlib
import sys
sys.path.insert(0, str(pathlib.Path(__file__).resolve().parent.parent.parent))
sys.dont_write_bytecode = True
import freetype  # noqa: E402
from vp_recipes.face.glyphs import glyph  # noqa: E402

name, wide, high = sys.argv[1], int(sys.argv[2]), int(sys.argv[3])
face = freetype.Face(name)
size = face.available_sizes[0]
assert (size.x_ppem, size.y_ppem, size.height) == (64 * wide, 64 * high, high), 'the size'
count = 0
for code, index in face.get_chars():
    if code < 0x20:
        # (FreeType's own, for what the font lacks)
        continue
    it = glyph(chr(code), wide, high)
    face.load_glyph(index, freetype.FT_LOAD_RENDER | freetype.FT_LOAD_TARGET_MONO)
    slot, bitmap = face.glyph, face.glyph.bitmap
    data = bytes(bitmap.buffer)
    rows = [int.from_bytes(data[n * bitmap.pitch:(n + 1) * bitmap.pitch], 'big') >> 8 * bitmap.pitch - bitmap.width
            for n in range(bitmap.rows)]
    assert it and slot.advance.x == 64 * it.ahead, f"U+{code:04X}"
    if it.dots.rows or any(rows):
        assert rows == it.dots.rows, f"U+{code:04X}"
        assert (slot.bitmap_left, slot.bitmap_top) == (it.dots.left, it.dots.top), f"U+{code:04X}"
    count += 1
assert count > 90, count
