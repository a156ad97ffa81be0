#!/bin/sh
# Sheets: of a font that is known dot by dot, and of those that the system has.
. "$(dirname "$0")/common.sh"
testing fonts "$room"
printf 'A\n' >"$room/a.bin"
for end in bdf psf1.psf psf2.psf pcf hex; do
    recipes/sheet --table latin1 "$room/font.$end" >"$room/$end.pbm" 2>"$room/said"
    testing sheet "$room/$end.pbm"
    says '^missing 43 U+0043 LATIN CAPITAL LETTER C$'
    says '^font A, latin1: 3 of 189 characters$'
    "$vp" receipt --font-a "$room/$end.pbm" "$room/a.bin" | tail -c 2448 | head -c 432 |
        od -An -v -tx1 | tr -d ' \n' >"$room/dots"
    grep -q '^0*3fc0*2040' "$room/dots" || fail "vp draws another A than font.$end has"
done
recipes/sheet --blank --table latin1 "$room/font.bdf" 2>/dev/null >"$room/blank.pbm"
testing sheet "$room/blank.pbm" blank
# of a byte without a character the shipped sheets show its two digits: no two cells look alike
for font in a b; do
    python3 - "$font" <<'END' || fail "the shipped sheet of font $font hides a byte"
import sys
sys.path.insert(0, 'recipes')
sys.dont_write_bytecode = True
from vp_recipes.sheets import CELLS, framed, lacking
font = sys.argv[1]
drawn = {*range(0x20, 0x7F), *range(0x80, 0x100)}
assert lacking(f'examples/font-{font}.pbm', CELLS[font]) == set(range(256)) - drawn
assert len({tuple(framed(byte, CELLS[font])) for byte in range(256)}) == 256
END
done
gzip <"$room/font.bdf" >"$room/font.bdf.gz"
recipes/sheet --table latin1 "$room/font.bdf.gz" 2>/dev/null | cmp - "$room/bdf.pbm"
recipes/sheet --font b --table latin1 "$room/font.bdf" >"$room/b.pbm" 2>/dev/null
"$vp" receipt --font-b "$room/b.pbm" "$room/a.bin" >"$room/said"
is 3 'a font that is none' recipes/sheet examples/receipt.bin
is 0 'help' recipes/sheet --help
says '^Makes a glyph sheet for vp of a font'

# a font of outlines by FreeType, where it is; a font without a character of the table is none
python=$(for it in python3 /usr/bin/python3; do ! "$it" -c 'import freetype' 2>/dev/null || { echo "$it" && break; }; done)
outlines=$(find /usr/share/fonts -name DejaVuSansMono.ttf 2>/dev/null | head -n 1)
if [ -n "$python" ] && [ -n "$outlines" ]; then
    for font in a b; do
        "$python" recipes/sheet --font "$font" --table cp858 "$outlines" 2>"$room/said" >"$room/outlines.pbm"
        says ', cp858: 221 of 221 characters$'
        [ "$(grep -c '^cut' "$room/said")" -lt 20 ] || fail 'letters of outlines are cut'
        "$vp" receipt "--font-$font" "$room/outlines.pbm" "$room/a.bin" >"$room/printed"
    done
    cp "$outlines" "$room/outlines.ttf"
    head -c 3000 "$outlines" >"$room/cut.ttf"
    is 3 'a font of outlines that is cut' "$python" recipes/sheet "$room/cut.ttf"
    ! grep -q Traceback "$room/said" || fail 'a traceback of a font that is cut'
    echo 'a sheet of outlines: ok'
else
    left_out python3-freetype
fi
printf '\0\1\0\0x' >"$room/x.ttf"
is 3 'a font of outlines without FreeType, or one that is none' recipes/sheet "$room/x.ttf"
says '^sheet: .*/x.ttf: \(a font of outlines needs FreeType\|FreeType says\)'
sed 's/^ENCODING .*/ENCODING 40000/' "$room/font.bdf" >"$room/far.bdf"
is 3 'a font without a character' recipes/sheet --table latin1 "$room/far.bdf"
says '^sheet: .*/far.bdf has no character of latin1$'

# what is no table and no font is a line, at once
for table in utf-8 zlib rot13 idna base64 utf-7 utf-16 hex bz2 punycode undefined klingon '' "$(printf 'a\nb')"; do
    is 2 "the table $table" recipes/sheet --table "$table" "$room/font.bdf"
    ! grep -q Traceback "$room/said" || fail "a traceback of the table $table"
done
python3 - "$room" <<'END'
import gzip
import pathlib
import random
import struct
import sys
room = pathlib.Path(sys.argv[1])
broken = room / 'broken'
broken.mkdir()
fonts = {it.name: it.read_bytes() for it in sorted(room.glob('font.*')) if it.suffix != '.gz'}
made = {f'{n}-{name}': data[:n] for name, data in fonts.items() for n in (0, 1, 4, 9, 30, len(data) // 2, len(data) - 9)}
bdf = fonts['font.bdf']
for n, (old, new) in enumerate([
        (b'DWIDTH 8', b'DWIDTH 99999999999'), (b'DWIDTH 8', b'DWIDTH -99999999999'), (b'BBX 8 16', b'BBX 99999999999 16'),
        (b'BBX 8 16', b'BBX 8 99999999999'), (b'BBX 8 16 0 -4', b'BBX 8 16 0 -99999999999'), (b'BBX 8 16 0', b'BBX'),
        (b'ASCENT 12', b'ASCENT 99999999999'), (b'ENCODING 65', b'ENCODING 99999999999'), (b'ENCODING 65', b'ENCODING x'),
        (b'BITMAP', b'BITMAP\nxyz'), (b'BITMAP\n', b'BITMAP\n' + b'FF\n' * 100000), (b'FONTBOUNDINGBOX', b'NONE'),
        (b'ISO10646', b'zlib'), (b'"ISO10646"\nCHARSET_ENCODING "1"', b'"idna"\nCHARSET_ENCODING "base64"')]):
    assert old in bdf
    made[f'bdf-{n}'] = bdf.replace(old, new)
for n, sizes in enumerate([(0, 0xFFFFFFFF, 16, 16, 8), (0, 3, 16, 16, 0xFFFFFFFF), (0, 3, 16, 0xFFFFFFFF, 8),
                           (0, 3, 0xFFFFFFFF, 16, 8), (0, 3, 0, 0, 0), (1, 3, 16, 16, 8)]):
    made[f'psf-{n}'] = struct.pack('<8I', 0x864AB572, 0, 32, *sizes) + bytes(48)
packed = gzip.compress(bdf)
made.update(cut=packed[:len(packed) // 2], torn=packed[:40] + b'torn' + packed[44:], bomb=gzip.compress(bytes(1 << 27)))
random.seed(7)
for n in range(60):
    name = random.choice(sorted(fonts))
    data = bytearray(fonts[name])
    for _ in range(random.randrange(1, 6)):
        data[random.randrange(len(data))] = random.choice([0, 0x7F, 0xFF, random.randrange(256)])
    made[f'random-{n}-{name}'] = bytes(data)
for name, data in made.items():
    (broken / name).write_bytes(data)
END
python3 - "$room/broken" <<'END' || fail 'a broken font'
import contextlib
import io
import pathlib
import sys
sys.path.insert(0, 'recipes')
sys.dont_write_bytecode = True
from vp_recipes import program, sheet
class Out:
    buffer = io.BytesIO()
    flush = lambda self: None
kept, refused = sys.stdout, 0
for font in sorted(pathlib.Path(sys.argv[1]).iterdir()):
    sys.argv, sys.stdout = ['sheet', str(font)], Out()
    try:
        with contextlib.redirect_stderr(io.StringIO()):
            sheet.main()
    except program.Fault as fault:
        assert fault.status == 3 and '\n' not in str(fault), (font, fault)
        refused += 1
    finally:
        sys.stdout = kept
assert refused > 40, refused
END
for font in bdf-0 psf-1 bomb cut torn; do
    is 3 "the font $font" recipes/sheet "$room/broken/$font"
    [ "$(wc -l <"$room/said")" -eq 1 ] || fail "more than a line of $font"
done
for name in -dash "quo'te" "$(printf 'a\nb')" "$(printf 'caf\351')"; do
    cp "$room/font.bdf" "$room/$name"
    (cd "$room" && is 0 "a font named $name" "$root/recipes/sheet" --table latin1 -- "$name") || exit
done
is 3 'a full device' sh -c 'recipes/sheet --table latin1 "$1" >/dev/full' sh "$room/font.bdf"

# the system's fonts, with the packages that bring them
while read -r package font; do
    [ -e "$font" ] || { left_out "$package" && continue; }
    for letter in a b; do
        recipes/sheet --font "$letter" --table latin1 "$font" >"$room/real.pbm" 2>"$room/said"
        says '189 of 189 characters$'
        "$vp" receipt "--font-$letter" "$room/real.pbm" examples/receipt.bin >"$room/real"
    done
    echo "a sheet of $font: ok"
done <<'END'
xfonts-base /usr/share/fonts/X11/misc/10x20.pcf.gz
xfonts-terminus /usr/share/fonts/X11/misc/ter-u24n_unicode.pcf.gz
console-setup-linux /usr/share/consolefonts/Lat15-Terminus24x12.psf.gz
console-setup-linux /usr/share/consolefonts/Lat15-VGA16.psf.gz
unifont /usr/share/unifont/unifont.hex
END
echo 'sheets: ok'
