#!/bin/sh
# The face: what must hold of its letters at some sizes (VP_FACE_SIZES names others, of the first every character) and in
# cells; its BDF as FreeType and sheet read it; a text's image; a sheet that vp prints with.
. "$(dirname "$0")/common.sh"
# shellcheck disable=SC2086
recipes/tests/face/check.py ${VP_FACE_SIZES:-24 15 16 20 33 48 36x18}

# each advance is that in thousandths of the em, rounded once
advances() {
    awk -v wide="$1" '/^SWIDTH/ { exact = $2 } /^STARTCHAR/ { count++ } /^CHARS/ { chars = $2 }
        /^DWIDTH/ && $2 != int(exact * wide / 1000 + 0.5) { exit wrong = 1 } END { exit wrong || count != chars || count < 90 }'
}
recipes/face 16 >"$room/16.bdf"
recipes/face 36 --wide 18 --table cp1253 >"$room/36.bdf"
advances 16 <"$room/16.bdf" || fail 'an advance, or how many characters there are'
advances 18 <"$room/36.bdf" || fail 'an advance of a narrow font'
recipes/sheet --table cp858 "$room/16.bdf" 2>"$room/said" >"$room/16.pbm"
says '^font A, cp858: 221 of 221 characters$'
recipes/face 15 --chars 'ABCé' | sed -n 's/^ENCODING //p' | tr '\n' ' ' >"$room/said"
says '^65 66 67 233 $'
python=$(for it in python3 /usr/bin/python3; do ! "$it" -c 'import freetype' 2>/dev/null || { echo "$it" && break; }; done)
if [ -n "$python" ]; then
    "$python" recipes/tests/face/by_freetype.py "$room/16.bdf" 16 16
    "$python" recipes/tests/face/by_freetype.py "$room/36.bdf" 18 36
    echo 'the BDF, by FreeType: ok'
else
    left_out python3-freetype
fi

# docs/faces.md shows the face as it is
recipes/face 24 --between 8 --text "$(cat recipes/tests/face/picture.txt)" >"$room/picture.pbm"
testing same docs/faces.png "$room/picture.pbm"

# a text: as wide as its advances, and as high as an em with what goes beyond
recipes/face 24 --text 'My text' >"$room/text.pbm"
head -n 2 "$room/text.pbm" | tr '\n' ' ' >"$room/said"
says '^P4 74 24 $'
recipes/paper "$room/text.png" <"$room/text.pbm"
testing same "$room/text.png" "$room/text.pbm"
recipes/face 8 --text "$(printf 'Two\nlines: \303\204')" | head -n 2 | tr '\n' ' ' >"$room/said"
says '^P4 [0-9]* 1[6-9] $'
is 2 'a text that is too large' recipes/face 400 --text "$(head -c 20000 /dev/zero | tr '\0' A)"
recipes/face 400 --chars 'A@' >"$room/400.bdf"
grep -q '^DWIDTH 260 0$' "$room/400.bdf" || fail 'the largest size'
echo 'a text and other sizes: ok'

# cells
for font in a b; do
    for table in cp1253 cp858; do
        recipes/sheet --face --font "$font" --table "$table" 2>"$room/said" >"$room/$font.pbm"
        says "^font ., $table: \([0-9]*\) of \1 characters$"
        [ "$(wc -l <"$room/said")" -eq 1 ] || fail "a letter of $table is missing"
    done
done
"$vp" receipt --font-a "$room/a.pbm" --font-b "$room/b.pbm" examples/receipt.bin >"$room/face.pbm"
"$vp" receipt --font-a examples/font-a.pbm --font-b examples/font-b.pbm examples/receipt.bin >"$room/drawn.pbm"
[ "$(wc -c <"$room/face.pbm")" -eq "$(wc -c <"$room/drawn.pbm")" ] || fail "paper by the face's sheets"
! cmp -s "$room/face.pbm" "$room/drawn.pbm" || fail 'the sheets of the face are the shipped ones'
echo "sheets of the face's cells: ok"

# wrong words, and an output that takes nothing
for words in '' 7 401 x '24 --wide 5' '24 --table klingon' '24 --table utf-8' '24 --chars' '24 --text a --table cp437' '24 25'; do
    # shellcheck disable=SC2086
    is 2 "face $words" recipes/face $words
    ! grep -q Traceback "$room/said" || fail "a traceback of face $words"
done
is 3 'characters that it lacks' recipes/face 24 --chars "$(printf '\346\274\242')"
says '^missing U+6F22 CJK UNIFIED IDEOGRAPH-6F22$'
is 3 'a text without a character' recipes/face 24 --text ''
is 2 'the face and a font' recipes/sheet --face "$room/16.bdf"
is 0 'help' recipes/face --help
says '^Writes a narrow bold face'
is 3 'a full device' sh -c 'recipes/face 24 --table ascii >/dev/full'
{ recipes/face 24 --table cp437 2>"$room/said" || echo $? >"$room/status"; } | true
[ "$(cat "$room/status")" = 3 ] && [ ! -s "$room/said" ] || fail 'a closed pipe'
echo 'the face: ok'
