#!/bin/sh
# Golden images: what is accepted, changed, lost, and the page that shows it.
. "$(dirname "$0")/common.sh"
set -- "$vp" receipt --font-a "$root/examples/font-a.pbm" --font-b "$root/examples/font-b.pbm"
golden=$root/recipes/golden streams=$room/streams golds=$room/golds report=$room/report
mkdir "$streams"
cp examples/*.bin "$streams"
printf 'before\n\033E' >"$streams/fault.bin"
is 1 'accept of a fault' "$golden" accept "$streams" "$golds" -- "$@"
says '^fault.bin: not accepted; it ends in a fault, vp: F8 after 9 bytes: input ends inside a command; --incomplete takes it over$'
[ ! -e "$golds/fault.bin.pbm" ] || fail 'a fault is accepted without a word'
is 0 'accept' "$golden" accept "$streams" "$golds" --incomplete -- "$@"
is 0 'check of what was accepted' "$golden" check "$streams" "$golds" --report "$report" -- "$@"
[ ! -e "$report" ] || fail 'a report though nothing differs'
"$@" examples/receipt.bin | cmp - "$golds/receipt.bin.pbm"
# one dot more, the last but one of first.bin's raster of 16 dots by 2; and the fault elsewhere
{ head -c 9 examples/first.bin; printf '\003'; } >"$streams/first.bin"
printf 'before\n\033' >"$streams/fault.bin"
is 1 'check of a changed dot' "$golden" check "$streams" "$golds" --report "$report" -- "$@"
says '^first.bin: 1 dot differs, in row 1; drawn by bytes 0 to 9, \\x1Dv0\\x00\\x01\\x00\\x02\\x00\\x80\\x03$'
says '^fault.bin: .*the fault is to be .*after 9 bytes: .* and is .*after 8 bytes: '
says '^2 of 4 streams'
for place in '6 ffffff' '598 000000' '1190 005adc' '1191 969696' '1200 ffffff'; do
    colour=$(testing dot "$report/002-first.bin.png" "${place% *}" 1)
    [ "$colour" = "${place#* }" ] || fail "the picture of a changed dot is $colour at $place"
done
grep -q 'first.bin' "$report/index.html" && grep -q 'data:image/png;base64,' "$report/index.html" ||
    fail 'the page of differences shows none'
! grep -q 'http' "$report/index.html" || fail 'the page of differences needs a server'
is 0 'accept by name' "$golden" accept "$streams" "$golds" first.bin -- "$@"
is 1 'check of the fault' "$golden" check "$streams" "$golds" --report "$report" -- "$@"
says '^1 of 4 streams'
is 0 'accept' "$golden" accept "$streams" "$golds" --incomplete -- "$@"
is 0 'check' "$golden" check "$streams" "$golds" --report "$report" -- "$@"
[ ! -e "$report/index.html" ] || fail 'the report of an earlier check stays'
mv "$streams/first.bin" "$room"
is 1 'check of a lost stream' "$golden" check "$streams" "$golds" --report "$report" -- "$@"
says '^first.bin: an image is expected, but there is no such stream$'
[ -e "$report/001-first.bin.png" ] || fail 'a stream that is gone has no picture'
is 0 'accept' "$golden" accept "$streams" "$golds" -- "$@"
says '^first.bin: there is no such stream; --prune takes its image away$'
[ -e "$golds/first.bin.pbm" ] || fail 'the image of a lost stream goes without a word'
is 0 'accept' "$golden" accept "$streams" "$golds" --prune -- "$@"
says '^first.bin: there is no such stream, so its image is taken away$'
[ ! -e "$golds/first.bin.pbm" ] || fail 'the image of a lost stream stays'
is 2 'check without the program' "$golden" check "$streams" "$golds" -- "$room/no-vp"

# with no words a stream is printed in its language with the shipped sheets: what a changed price and an accent print
# differs, and what an image can't show is said
streams=$room/own golds=$room/own-golds
mkdir "$streams"
cp examples/*.bin examples/*.zpl "$streams"
printf 'Caf\177\n' >"$streams/cafe.bin"
printf '   \n' >"$streams/white.bin"
printf 'before\n\033E' >"$streams/fault.bin"
touch "$streams/.gitkeep" "$streams/README.md"
echo note >"$streams/notes.txt"
is 0 'accept without words' "$golden" accept "$streams" "$golds" --incomplete --ignore '*.txt'
says '^cafe.bin: accepted; the sheet has no character for 7F once$'
says '^white.bin: accepted; its paper is all white$'
says '^fault.bin: accepted; it ends in a fault, vp: F8 after 9 bytes: input ends inside a command$'
says '^shelf.zpl: accepted$'
says '^8 of 8 streams taken over$'
is 0 'accept again' "$golden" accept "$streams" "$golds" --ignore '*.txt'
says '^white.bin: as before; its paper is all white$'
"$@" examples/receipt.bin | cmp - "$golds/receipt.bin.pbm"
is 0 'check without words' "$golden" check "$streams" "$golds" --ignore '*.txt' --junit "$room/junit.xml"
says '^8 streams print what is expected$'
grep -q '<testsuite name="golden" tests="8" failures="0"' "$room/junit.xml" || fail 'no JUnit report'
sed 's/2\.58/9.99/' examples/receipt.bin >"$streams/receipt.bin"
printf 'Caf\202\n' >"$streams/cafe.bin"
is 1 'check of a price and an accent' "$golden" check "$streams" "$golds" --ignore '*.txt' \
    --report "$report" --junit "$room/junit.xml"
says '^receipt.bin: [0-9,]* dots differ, in rows 15[0-9] to 16[0-9]; drawn by bytes 76 to 127, .* 9.99\\x0A$'
says '^cafe.bin: [0-9]* dots differ'
python3 - "$room/junit.xml" <<'END' || fail 'the JUnit report is none'
import sys
import xml.etree.ElementTree as tree
suite = tree.parse(sys.argv[1]).getroot()
failed = [it.get('name') for it in suite if it.find('failure') is not None]
assert suite.get('tests') == '8' and suite.get('failures') == '2' and failed == ['cafe.bin', 'receipt.bin'], failed
assert all(float(it.get('time')) > 0 for it in [suite, *suite]) and {it.get('classname') for it in suite} == {'golden'}
assert {it.get('type') for it in suite.iter('failure')} == {'image'}
END
is 0 'accept of the accent' "$golden" accept "$streams" "$golds" cafe.bin

# a line that is put in, or left out, is one strip: what stands below is the same
python3 - "$streams/receipt.bin" <<'END'
import pathlib
import sys
data = pathlib.Path('examples/receipt.bin').read_bytes()
at = data.index(b'Apples')
pathlib.Path(sys.argv[1]).write_bytes(data[:at] + b'One more line\n' + data[at:])
END
is 1 'check of a line put in' "$golden" check "$streams" "$golds" --ignore '*.txt' --report "$report"
says '^receipt.bin: 1 strip of 34 rows is added, at row 218; 800 rows are expected and 834 printed; drawn by bytes [0-9]* to [0-9]*, One more line\\x0A$'
is 0 'accept of the line' "$golden" accept "$streams" "$golds" receipt.bin
sed 's/2\.58/2.59/' examples/receipt.bin >"$streams/receipt.bin"
is 1 'check of a line left out' "$golden" check "$streams" "$golds" --ignore '*.txt' --report "$report"
says '^receipt.bin: [0-9]* dots differ, in rows 15[0-9] to 16[0-9]; 1 strip of 34 rows is missing, at row 218; 834'

# images beside their streams
is 0 'accept into the streams' "$golden" accept "$streams" "$streams" --incomplete --ignore '*.txt'
is 0 'check of these' "$golden" check "$streams" "$streams" --ignore '*.txt'
says '^8 streams print what is expected$'
is 0 'accept without a sheet' "$golden" accept "$streams" "$room/blind" receipt.bin -- "$vp" receipt
says '^receipt.bin: accepted; no sheet is named, so its characters are white$'
is 2 'no folder' "$golden" check "$room/none" "$golds"
says '^golden: .*/none: no streams$'
[ "$(wc -l <"$room/said")" -eq 1 ] || fail 'a folder that is not there has more than a line'

# what is skipped is said, accepted by a word, kept with the image, and a difference where it changes
export VP="$vp"
streams=$room/skips golds=$room/skips-golds
mkdir "$streams"
printf '^XA^PW300^LL100^FO9,9^GB20,20,3^FS^FO9,40^FVNAME JOHN^FS^FVx^FS^MMT^CI28^XZ' >"$streams/name.zpl"
printf '^XA^DFR:A^FO9,9^FN1^FS^XZ^XA^XFR:A^FN1^FDJohn^FS^XZ' >"$streams/form.zpl"
printf 'a\n\035(L\006\0000E\040\040\001\001' >"$streams/logo.bin"
is 1 'accept of what is skipped' "$golden" accept "$streams" "$golds" --as-it-came
says '^name.zpl: not accepted; it skips ^FVNAME JOHN, ^FVx; --incomplete takes it over$'
[ ! -e "$golds/name.zpl.pbm" ] || fail 'what skips something is accepted without a word'
is 0 'accept of what is skipped, by a word' "$golden" accept "$streams" "$golds" --as-it-came --incomplete
says '^name.zpl: accepted; it skips ^FV 2 times$'
says '^form.zpl: accepted; it skips ^DF once, ^FN 2 times, ^XF once$'
says '^logo.bin: accepted; it skips GS ( L once$'
printf '%s\n' '^FVNAME JOHN' '^FVx' | cmp - "$golds/name.zpl.skipped"
is 0 'check of what is skipped' "$golden" check "$streams" "$golds" --as-it-came
says '^name.zpl: as expected; it skips ^FV 2 times$'
sed -i 's/JOHN/MARY/; s/MMT/MMP/' "$streams/name.zpl"
is 1 'check of skipped data that changed' "$golden" check "$streams" "$golds" --as-it-came --report "$room/skips-report"
says '^name.zpl: the images are the same; what is skipped is to be ^FVNAME JOHN and is ^FVNAME MARY$'
grep -q 'FVNAME MARY' "$room/skips-report/index.html" || fail 'the page says nothing of what is skipped'
printf 'a\n' >"$streams/logo.bin"
is 1 'check of what is not skipped any more' "$golden" check "$streams" "$golds" --as-it-came --report "$room/skips-report"
says '^logo.bin: the images are the same; what is skipped is to be .* and is none$'
is 0 'accept of it' "$golden" accept "$streams" "$golds" --as-it-came --incomplete
[ ! -e "$golds/logo.bin.skipped" ] || fail 'what is not skipped any more stays'

# files that nobody here wrote stay
mkdir "$room/others"
for file in 001-mine.png index.html; do echo mine >"$room/others/$file"; done
sed -i 's/MARY/ANNE/' "$streams/name.zpl"
is 3 'a page of somebody else' "$golden" check "$streams" "$golds" --as-it-came --report "$room/others"
says '^golden: .*/others/index.html is there already, and was made of something else$'
rm "$room/others/index.html"
is 1 'a report beside other files' "$golden" check "$streams" "$golds" --as-it-came --report "$room/others"
is 0 'accept' "$golden" accept "$streams" "$golds" --as-it-came --incomplete
cp examples/font-a.pbm "$golds"
is 1 'check beside a sheet' "$golden" check "$streams" "$golds" --as-it-came --report "$room/others"
is 0 'accept beside a sheet' "$golden" accept "$streams" "$golds" --as-it-came --incomplete
says '^font-a: there is no such stream; its image stays, since it was not written here$'
cmp examples/font-a.pbm "$golds/font-a.pbm"
rm "$golds/font-a.pbm"
is 0 'check' "$golden" check "$streams" "$golds" --as-it-came --report "$room/others"
[ "$(ls -A "$room/others")" = 001-mine.png ] || fail 'the report leaves files, or takes those of others'

# an image is whole or as it was; a command that is killed, or isn't vp's, is told
is 5 'a command that is killed' "$golden" check "$streams" "$golds" --as-it-came -- sh -c 'kill -9 $$'
says '^golden: .*/form.zpl: sh was ended by SIGKILL$'
is 5 'a status that is not vp' "$golden" check "$streams" "$golds" --as-it-came -- sh -c 'exit 77'
is 5 'images that are none' "$golden" accept "$streams" "$golds" --as-it-came --incomplete -- cat
is 3 'a sheet that is none' "$golden" check "$streams" "$golds" --as-it-came -- "$vp" label --font-a "$room/none"
printf '^XA^PW800^LL1200^FO9,9^GB700,900,3^FS^XZ' >"$streams/name.zpl"
cp "$golds/name.zpl.pbm" "$room/was.pbm"
(ulimit -f 16 && is 3 'an image that cannot grow' "$golden" accept "$streams" "$golds" --as-it-came --incomplete) || exit
says 'name.zpl.pbm: File too large$'
cmp "$golds/name.zpl.pbm" "$room/was.pbm"
[ -z "$(ls -A "$golds" | grep '^\.vp-[^m]')" ] || fail 'something half done stays'

# of any name
streams=$room/names golds=$room/names-golds
mkdir "$streams"
for name in -dash.bin "quo'te\"s.bin" '$(touch pwned).bin' '<b>&.bin' "$(printf 'a\nb.bin')" "$(printf 'caf\351.bin')"; do
    echo "a line" >"$streams/$name"
done
: >"$streams/empty.bin"
head -c 300000 /dev/zero >"$streams/huge.bin"
is 0 'accept of any names' "$golden" accept "$streams" "$golds"
for name in "$streams"/*.bin; do echo 'another' >"$name"; done
is 1 'check of any names' "$golden" check "$streams" "$golds" --report "$room/names-report" --junit "$room/names.xml"
says '^8 of 8 streams print otherwise'
python3 -c 'import sys, xml.etree.ElementTree as tree
assert len(tree.parse(sys.argv[1]).getroot()) == 8' "$room/names.xml"
grep -q '&lt;b&gt;&amp;.bin' "$room/names-report/index.html" || fail 'a name is taken for marks of the page'
is 0 'accept of any names' "$golden" accept "$streams" "$golds"
is 0 'check of any names' "$golden" check "$streams" "$golds" --report "$room/names-report"
[ -z "$(ls -A "$room/names-report")" ] || fail 'pictures of any names stay'
[ ! -e pwned ] || fail 'a name was run'

# a stream is written anew first, which its image keeps beside it: other data are a difference
mkdir "$room/anew"
printf '^XA^PW300^LL60^FO9,9^AZN,24,12^FVNAME JOHN^FS^FO200,9^GB40,40,3,B,8^FS^FO250,9^BY1^BKN,N,20,N^FD123^FS^XZ' >"$room/anew/name.zpl"
printf 'Cafe \020\024\001\000\005x\n' >"$room/anew/till.bin"
is 0 'accept of streams anew' "$golden" accept "$room/anew" "$room/anew-golds"
says '^name.zpl: accepted$'
says '^till.bin: accepted$'
echo 'byte 53: ^GB: a box with round corners is written as a picture' | cmp - "$room/anew-golds/name.zpl.anew"
[ ! -e "$room/anew-golds/name.zpl.skipped" ] || fail 'what the whole language draws is skipped'
[ ! -e "$room/anew-golds/till.bin.anew" ] || fail 'something is told of what is left out'
is 0 'check of streams anew' "$golden" check "$room/anew" "$room/anew-golds"
sed -i 's/JOHN/MARY/' "$room/anew/name.zpl"
is 1 'another name' "$golden" check "$room/anew" "$room/anew-golds" --report "$room/anew-report"
says '^name.zpl: [0-9]* dots differ'
is 1 'streams as they came' "$golden" check --as-it-came "$room/anew" "$room/anew-golds" --report "$room/anew-report"
says 'what is written anew is to be byte [0-9]*: ^GB: a box with round corners is written as a picture and is none'
says 'what is skipped is to be none and is ^FVNAME MARY'

# without zint a symbol is a frame, which is neither compared nor accepted
printf '^XA^PW300^LL60^FO9,9^BFN,4^FDdata^FS^XZ' >"$room/anew/micro.zpl"
for what in accept check; do
    is 2 "$what without zint" env VP_ZINT="$room/no-zint" "$golden" "$what" "$room/anew" "$room/anew-golds"
    says '^golden: .*/micro.zpl: .*zint is not installed, so this is not compared'
done
[ ! -e "$room/anew-golds/micro.zpl.pbm" ] || fail 'a frame is accepted'
rm "$room/anew/micro.zpl"
# in a CI nothing is accepted
is 2 'accept in a CI' env CI=true "$golden" accept "$room/anew" "$room/anew-golds"
says '^golden: accept is for where you work: CI is set'
# of copies without end some are kept, and their number is
mkdir "$room/copies"
printf '^XA^PW100^LL100^PQ99999999^FO0,0^GB10,10^FS^XZ' >"$room/copies/one.zpl"
is 0 'accept of copies' "$golden" accept "$room/copies" "$room/copies-golds"
says '^one.zpl: accepted$'
[ "$(grep -ao 'P4' "$room/copies-golds/one.zpl.pbm" | wc -l)" -eq 100 ] || fail 'not a hundred copies are kept'
is 0 'check of copies' "$golden" check "$room/copies" "$room/copies-golds"
sed -i 's/PQ99999999/PQ9999999/' "$room/copies/one.zpl"
is 1 'fewer copies' "$golden" check "$room/copies" "$room/copies-golds" --report "$room/copies-report"
says '^one.zpl: the images are the same; what is written anew is to be byte 15: of 99,999,999 copies 100 are kept and is byte 15: of 9,999,999'
# words that are missing are named, and names may stand behind options
is 2 'one folder' "$golden" accept .
says 'the following arguments are required: EXPECTED$'
is 1 'a name behind an option' "$golden" check "$room/copies" "$room/copies-golds" --report "$room/copies-report" one.zpl
is 0 'help' "$golden" --help
for word in --report --junit --ignore --incomplete --prune --as-it-came --most-rows; do says "^  $word [A-Z]*  *[a-z]\\|^  $word"; done

# the fixture of golden.md, by pytest
if needs pytest; then
    mkdir "$room/suite"
    sed -n '/^```python$/,/^```$/p' recipes/pytest.md | sed '/^```/d' >"$room/suite/conftest.py"
    cat >"$room/suite/test_till.py" <<'END'
def test_a_receipt(prints):
    prints('total.bin', b'TOTAL 8.08\n')
END
    export PYTHONPATH="$root/recipes" PYTHONDONTWRITEBYTECODE=1
    cd "$room/suite"
    is 1 'a test with nothing accepted' pytest -q -p no:cacheprovider
    says 'total.bin: no image was accepted yet'
    is 0 'tests that accept' pytest -q -p no:cacheprovider --accept
    is 0 'tests of what was accepted' pytest -q -p no:cacheprovider
    sed -i 's/8.08/9.99/' test_till.py
    is 1 'a test of a changed total' pytest -q -p no:cacheprovider
    says 'total.bin: [0-9]* dots differ, in rows'
    [ -n "$(ls golden-report/*.png)" ] || fail 'no picture of what differs'
fi
echo 'golden images: ok'
