#!/bin/sh
# One PNG of a receipt.
. "$(dirname "$0")/common.sh"
set -- "$vp" receipt --font-a "$root/examples/font-a.pbm" --font-b "$root/examples/font-b.pbm"
"$@" examples/receipt.bin >"$room/receipt.pbm"
recipes/paper "$room/receipt.png" <"$room/receipt.pbm"
testing same "$room/receipt.png" "$room/receipt.pbm"
if needs pnmsplit pnmcat pngtopnm pgmtopbm; then
    (cd "$room" && pnmsplit -quiet receipt.pbm strip%d.pbm && pnmcat -tb $(ls strip*.pbm | sort -V) >whole.pbm)
    pngtopnm "$room/receipt.png" | pgmtopbm -threshold | cmp - "$room/whole.pbm"
fi
echo 'a PNG: ok'

# a PNG for each image, in its true size, and none where nothing is printed
paper=$root/recipes/paper
cd "$room"
printf '^XA^PW200^LL100^FO9,9^GB20,20,3^FS^PQ3^XZ' | "$vp" label >labels.pbm
"$paper" --each --dpmm 8 label.png <labels.pbm
[ "$(echo label*.png)" = 'label-1.png label-2.png label-3.png' ] || fail 'not a PNG for each label'
grep -q 'pHYs' label-1.png || fail 'no size in the PNG'
python3 -c 'import sys
data = open("label-1.png", "rb").read()
at = data.index(b"pHYs") + 4
assert data[at:at + 9] == (8000).to_bytes(4, "big") * 2 + b"\1", data[at:at + 9]'
"$paper" label.png <labels.pbm
[ "$(echo label*.png)" = label.png ] || fail 'PNGs of an earlier run stay'
"$paper" --each label.png <labels.pbm
[ "$(echo label*.png)" = 'label-1.png label-2.png label-3.png label.png' ] || fail 'what the user named is taken away'
head -c 2511 labels.pbm | "$paper" --each label.png
[ "$(echo label*.png)" = label.png ] || fail 'one label has a number'
"$paper" label.png <labels.pbm
: | "$paper" label.png
[ ! -e label.png ] || fail 'the PNG of an earlier run stays where nothing is printed'
: | "$paper" --each label.png
[ "$(echo label*.png)" = 'label*.png' ] || fail 'the PNGs of an earlier run stay where nothing is printed'
[ ! -e .vp-made ] || fail 'a list of nothing stays'

# what nobody here wrote stays, also where an earlier run had files of such names
"$paper" --each label.png <labels.pbm
for n in 1 2 3 4; do echo mine >trip-$n.png; done
echo mine >trip.png
echo mine >label-4.png
echo mine >label-2.png
"$paper" trip.png <receipt.pbm
[ "$(cat trip-1.png trip-2.png trip-3.png trip-4.png | grep -c mine)" -eq 4 ] || fail 'files of others are taken away'
echo mine >trip.png
is 3 'a numbered file of others' "$paper" --each trip.png <labels.pbm
says '^paper: trip-1.png is there already, and was made of something else$'
[ "$(cat trip*.png | grep -c mine)" -eq 5 ] || fail 'files of others are written over'
"$paper" label.png <labels.pbm
[ "$(echo label*.png)" = 'label-2.png label-4.png label.png' ] || fail 'what was changed or not written goes'
rm trip* label*.png
# a list from elsewhere leads nowhere else
mkdir list
echo mine >outside.png
"$paper" --each list/label.png <labels.pbm
sum=$(sha256sum <outside.png)
printf '["../outside.png", "label.png", "%s"]\n[1]\n' "${sum%% *}" >list/.vp-made
is 3 'a list that is none' "$paper" --each list/label.png <labels.pbm
printf '["../outside.png", "label.png", "%s"]\n' "${sum%% *}" >list/.vp-made
"$paper" list/label.png <labels.pbm
[ "$(cat outside.png)" = mine ] || fail 'a list leads out of its folder'
rm -r list outside.png

# a PNG is whole or not there: of cut images, of what is none, on a full disk
head -c 1000 receipt.pbm >cut.pbm
echo before >cut.png
is 1 'an image that is cut' "$paper" cut.png <cut.pbm
says '^paper: its last image is cut short$'
printf 'P4\n576 5000000\n' >rows.pbm
is 1 'rows beyond the bound' "$paper" cut.png <rows.pbm
says '^paper: cut off: it prints more than 2,500,000 rows; --most-rows raises this$'
printf 'P4\n576 2000000\n' >rows.pbm
is 1 'rows that are missing' "$paper" cut.png <rows.pbm
for head in '-1 8' '8 -1' '0 8' '8 0' '8' '8 8 8' 'x y' ' 8 8' '99999999999 1' '8 99999999999' '999999999 1'; do
    printf 'P4\n%s\n\377' "$head" >wrong.pbm
    is 1 "the head $head" "$paper" cut.png <wrong.pbm
    says '^paper: it is not what vp prints$'
done
head -c 100000 /dev/zero >wrong.pbm
is 1 'a long line' "$paper" cut.png <wrong.pbm
[ "$(cat cut.png)" = before ] || fail 'a PNG of half an image takes the place of one that was'
(ulimit -f 1 && is 3 'a file that cannot grow' "$paper" cut.png <receipt.pbm) || exit
says '^paper: cut.png: File too large$'
is 3 'a full device' "$paper" /dev/full <receipt.pbm
[ "$(cat cut.png)" = before ] && [ -z "$(ls -A | grep '^\.vp')" ] || fail 'something half done stays'
# of any name
for name in '-dash.png' "quo'te\".png" '$(touch pwned).png' "$(printf 'a\nb.png')" "$(printf 'caf\351.png')"; do
    is 0 "the name $name" "$paper" --each -- "$name" <labels.pbm
    [ -e "${name%.png}-3.png" ] || fail "no PNG of the name $name"
    is 0 "the name $name again" "$paper" --each -- "$name" </dev/null
done
[ ! -e pwned ] && [ ! -e .vp-made ] || fail 'a name was run, or is not known again'
"$paper" - <receipt.pbm | cmp - receipt.png
"$paper" /dev/stdout <receipt.pbm | cmp - receipt.png
for where in - /dev/stdout; do
    { "$paper" "$where" <receipt.pbm 2>said || echo "$?" >status; } | head -c 1 >/dev/null
    ! grep -q Traceback said || fail "a traceback into a closed pipe, $where"
done
is 1 'several images to standard output' "$paper" --each - <labels.pbm
is 1 'what is no image' "$paper" some.png <"$root/README.md"
is 2 'no words' "$paper"
is 2 'no number' "$paper" --dpmm none some.png </dev/null
is 3 'no folder' "$paper" none/some.png <receipt.pbm
[ "$(wc -l <said)" -eq 1 ] || fail 'a folder that is not there has more than a line'
echo 'PNGs of each image: ok'

# a PDF has the dots in true size, a page for each width, with --each for each image
"$paper" receipt.pdf <receipt.pbm
[ "$(head -c 8 receipt.pdf)" = '%PDF-1.4' ] || fail 'no PDF'
is 0 'help' "$paper" --help
says 'FILE is a PNG, or by its name order.pdf a PDF in true size'
echo before >cut.pdf
is 1 'a PDF of an image that is cut' "$paper" cut.pdf <cut.pbm
[ "$(cat cut.pdf)" = before ] || fail 'a PDF of half an image takes the place of one that was'
"$paper" none.pdf </dev/null
[ ! -e none.pdf ] && [ -z "$(ls -A | grep '^\.vp')" ] || fail 'a PDF of nothing, or half a one'
if needs pdftoppm pdfinfo; then
    pdfinfo receipt.pdf | grep -q '^Page size: *204.094 x 283.46' || fail 'the page of the PDF has another size'
    pdftoppm -r 203.2 -mono receipt.pdf page
    python3 - page-1.pbm receipt.pbm <<'END' || fail 'the PDF has other dots'
import sys
sys.path.insert(0, sys.argv[0] or '.')
page, paper = (open(it, 'rb').read() for it in sys.argv[1:])
head, rows = b'P4\n576 800\n', b''
assert page.startswith(head), page[:20]
at = 0
while at < len(paper):
    _, size, _ = paper[at:at + 30].split(b'\n', 2)
    width, height = map(int, size.split())
    at += len(size) + 4
    rows, at = rows + paper[at:at + 72 * height], at + 72 * height
assert page[len(head):] == rows
END
    "$paper" labels.pdf <labels.pbm
    "$paper" --each each.pdf <labels.pbm
    pages() { pdfinfo "$1" | sed -n 's/^Pages: *//p'; }
    [ "$(pages each.pdf)" = "$(grep -ao 'P4' labels.pbm | wc -l)" ] || fail 'not a page for each image'
    [ "$(pages labels.pdf)" -le "$(pages each.pdf)" ] || fail 'too many pages'
    echo 'PDFs: ok'
fi
