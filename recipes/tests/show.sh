#!/bin/sh
# show: PNGs of any stream, and what they don't show; text and past, beside it.
. "$(dirname "$0")/common.sh"
export VP="$vp"
show=$root/recipes/show
cd "$room"
# each label a PNG of its own, the receipt one, and standard input
printf '^XA^PW200^LL100^FO9,9^BY2^BKN,N,40^FD123^FS^CI28^FO9,60^A0,24^FDCaf\303\251\177^FS^PQ2^XZ' >two.zpl
sed 's/PQ2/PQ3/' two.zpl >three.zpl
mv two.zpl other.zpl && mv three.zpl two.zpl
is 0 'three labels' "$show" two.zpl
mv other.zpl two.zpl
printf 'mine' >two-4.png
is 0 'two labels' "$show" --as-it-came "$root/examples/receipt.bin" two.zpl
says '/receipt.bin: receipt (guessed): receipt.png$'
says '^two.zpl: label (guessed): two-1.png to two-2.png$'
says '^two.zpl: skipped once: ^BK prints a Codabar bar code$'
says '^two.zpl: skipped once: ^CI chooses a code table'
says '^two.zpl: bytes without a character in the sheet: 7F once$'
[ ! -e two-3.png ] || fail 'the PNG of an earlier run stays'
[ "$(cat two-4.png)" = mine ] || fail 'what nobody here wrote is taken away'
"$vp" receipt --font-a "$root/examples/font-a.pbm" --font-b "$root/examples/font-b.pbm" "$root/examples/receipt.bin" \
    >receipt.pbm
testing same receipt.png receipt.pbm
cmp two-1.png two-2.png
is 0 'standard input' "$show" <"$root/examples/shelf.zpl"
says '^-: label (guessed): stdin.png$'
is 0 'another language' "$show" --lang label "$root/examples/receipt.bin"
says '/receipt.bin: label: nothing is printed$'
[ ! -e receipt.png ] || fail 'the PNG of an earlier run stays where nothing is printed'
# what vp doesn't draw is written anew, and said with its byte in the stream that came; so is a fault's
printf '^XA^PW200^LL100^FO9,9^GB40,40,3,B,8^FS^FO99,9^GC40,3^FS^CI28^FO60,9^AZN,24,12^FDCaf\303\251^FS^XZ' >anew.zpl
is 0 'written anew' "$show" anew.zpl
says '^anew.zpl: byte 21: ^GB: a box with round corners is written as a picture$'
says "^anew.zpl: byte 60: letters are written as the sheet's cells\$"
if grep -q 'GC\|skipped\|without a character' said; then fail 'what is drawn or written anew is said to be skipped'; fi
printf 'Caf\303\251\n\033\177x\033E' >utf.bin
is 1 'a fault behind letters' "$show" --from utf-8 utf.bin
says '^utf.bin: byte 6: ESC 7f is no command that is known: it is read past$'
says '^utf.bin: vp: F8 after 11 bytes: input ends inside a command$'
if grep -q skipped said; then fail 'what is said is said twice'; fi
is 1 'the same as it came' "$show" --as-it-came utf.bin
says '^utf.bin: vp: F1 after 8 bytes: unknown command 1B 7F$'
mkdir out
is 0 'another folder' "$show" --to out "$root/examples/ticket.bin"
[ -e out/ticket.png ] || fail 'no PNG in the folder'
# no PNG takes another's place
cp two.zpl order.zpl
printf '\033@two\n' >order-2.bin
is 0 'names that clash' "$show" --to out order.zpl order-2.bin
says ' out/order.zpl-1.png to out/order.zpl-2.png$'
says ' out/order-2.bin.png$'
cp order-2.bin out/order-2.bin
is 2 'files of one name' "$show" order-2.bin out/order-2.bin
says '^show: the PNGs of order-2.bin and out/order-2.bin have one name'
# also not that of another run, or one that nobody here made
cp two.zpl order.bin
is 0 'the PNG of another run' "$show" --to out order-2.bin
is 0 'names that clash with those of another run' "$show" --to out order.bin
says ' out/order.bin-1.png to out/order.bin-2.png$'
[ -e out/order-2.png ] || fail 'the PNG of another run is lost'
echo mine >out/total.png
printf '\033@total\n' >total.bin
is 0 'a PNG of others' "$show" --to out total.bin
says ' out/total.bin.png$'
echo mine >out/total.bin.png
is 3 'two PNGs of others' "$show" --to out total.bin
says '^show: out/total.bin.png is there already, and was made of something else$'
[ "$(cat out/total.png out/total.bin.png | grep -c mine)" -eq 2 ] || fail 'a PNG of others is lost'
# of any name
mkdir names
for name in -dash.bin "quo'te\".bin" '$(touch pwned).bin' "$(printf 'a\nb.bin')" "$(printf 'caf\351.bin')"; do
    cp total.bin "names/$name"
    (cd names && is 0 "a stream named $name" "$show" -- "$name" && [ -e "${name%.bin}.png" ]) || exit
    [ "$(wc -l <said)" -eq 1 ] || fail "a name with a line end is said in two lines"
done
[ ! -e names/pwned ] || fail 'a name was run'
: >names/empty.bin
is 0 'an empty stream' "$show" --to names names/empty.bin
says 'nothing is printed$'
(ulimit -f 2 && is 3 'a PNG that cannot grow' "$show" --to names "$root/examples/receipt.bin") || exit
says '^show: names/receipt.png: File too large$'
VP=$room/killed
printf '#!/bin/sh\nkill -9 $$\n' >killed && chmod +x killed
is 5 'a program that is killed' "$show" total.bin
says '^show: .*/killed was ended by SIGKILL$'
VP=$vp
# its status is vp's, and each fault a line
printf 'Hi\n\033\177more\n' >bad.bin
is 1 'a fault' "$show" --as-it-came bad.bin
says '^bad.bin: vp: F1 after 5 bytes: unknown command 1B 7F$'
printf '^XA^FO9,9^GFA,80,24,1,:Z64:eJxjYGBgAAAABAAB:1234^FS^XZ' >packed.zpl
is 1 'a picture that is packed' "$show" --as-it-came packed.zpl
says '^packed.zpl: a picture that begins with :Z64: or :B64: is packed, which recipes/expand reads$'
is 3 'no file' "$show" none.bin
says '^show: cannot read none.bin: No such file'
is 0 'a new folder' "$show" --to new/deep "$root/examples/ticket.bin"
[ -e new/deep/ticket.png ] || fail 'no PNG in the new folder'
is 3 'no folder' "$show" --to bad.bin/none "$root/examples/ticket.bin"
[ "$(wc -l <said)" -eq 1 ] || fail 'a folder that is not there has more than a line'
is 2 'wrong words' "$show" --lang french bad.bin
VP=$room/none is 2 'no program' "$show" bad.bin
says '^show: cannot run '
printf '^XA^FO1,1^GB9,9,9^FS^PQ99999999^XZ' | "$show" >said || [ $? -eq 1 ] || fail 'copies beyond the bound'
says ' cut off after 34 bytes: it prints more than 100 images; --most-images raises this$'
rm stdin*.png
# the usual head of a driver is nothing, nor is a command that asks for what is so; what was recalled isn't skipped
{
    printf 'CT~~CD,~CC^~CT~\r\n^XA~TA000~JSN^LT0^MNW^MTT^PON^PMN^LH0,0^JMA^PR4,4~SD15^JUS^LRN^CI0^XZ\r\n'
    printf '^XA^DFE:A.ZPL^FS^PW300^LL99^FO9,9^FN1^FS^XZ^XA\r\n^MMT\r\n^LS0^XFE:A.ZPL^FN1^FDHi^FS^PQ1,0,1,Y^XZ\r\n'
} >driver.zpl
is 0 'the head of a driver' "$show" driver.zpl
! grep -q 'skipped\|read past' said || { cat said >&2; fail 'the head of a driver is told'; }
is 0 'the head of a driver as it came' "$show" --as-it-came driver.zpl
grep -q 'skipped once: ^XF' said || fail 'what is skipped as it came is not told'
! grep -q '\^LT\|\^MN\|~JS\|\^JM\|~CC' said || { cat said >&2; fail 'the head of a driver is told'; }
printf '^XA^FO9,9^GB9,9,9^FS^Q0x^FS^XZ^FO9,9^FDlost^FS' >lost.zpl
is 0 'a field outside a format' "$show" lost.zpl
says '^lost.zpl: byte 36: a field of ^FD stands outside ^XA and ^XZ: it is not printed$'
says '^lost.zpl: skipped once: ^Q0 is no command that is known$'
# bounds, and what is no stream
is 1 'a bound of rows' "$show" --most-rows 150 two.zpl
says '^two.zpl: cut off after [0-9]* bytes: it prints more than 150 rows; --most-rows raises this$'
rm two-*.png
python3 -c 'import sys; sys.stdout.buffer.write("^XA^FO9,9^FDx^FS^XZ".encode("utf-16"))' >wide.zpl
is 3 'UTF-16' "$show" wide.zpl
says '^show: wide.zpl looks like text in UTF-16: iconv -f UTF-16 -t UTF-8 makes bytes of it that a printer takes; --lang '
printf 'Dear all,\n' >notes.txt
is 3 'plain text' "$show" notes.txt
says '^show: notes.txt looks like plain text: --lang takes it for a receipt or labels all the same$'
is 0 'plain text, as a receipt' "$show" --lang receipt notes.txt
is 0 'its help' "$show" --help
says '^    show order.bin parcel.zpl$'
python3 "$root/recipes/tests/kinds.py"
# it ends at a signal, with nothing half written
printf '^XA^PW1248^LL8000^PQ99999999^FO0,0^GB999,7999^FS^XZ' >copies.zpl
for signal in TERM HUP INT; do
    mkdir ended
    python3 "$root/recipes/tests/signalled.py" "$signal" ended "$show" --to ended --most-images none --most-rows none copies.zpl ||
        fail "it isn't ended by SIG$signal"
    [ -z "$(ls -A ended)" ] || fail "something is left by SIG$signal"
    rmdir ended
done
# --open hands each PNG to xdg-open
mkdir bin
printf '#!/bin/sh\necho "opened $1"\n' >bin/xdg-open
chmod +x bin/xdg-open
PATH=$room/bin:$PATH is 0 'opened' "$show" --open two.zpl
says '^opened two-1.png$'
says '^opened two-2.png$'
echo 'show: ok'

# beside an installed vp: its program and its sheets are found by where the recipe stands
cd "$root"
VP_PROGRAM=$vp ./install "$room/prefix" >/dev/null
cd "$room"
(unset VP && is 0 'show of a prefix' prefix/lib/vp/show --to out "$root/examples/receipt.bin")
testing same out/receipt.png receipt.pbm
(unset VP && prefix/lib/vp/print <"$root/examples/receipt.bin") | cmp - receipt.pbm
cp -r prefix/lib/vp elsewhere
(unset VP && PATH=$room/prefix/bin:$PATH && elsewhere/print <"$root/examples/receipt.bin") | cmp - receipt.pbm
echo 'recipes of a prefix: ok'

is 0 'the text of a receipt' "$root/recipes/text" "$root/examples/receipt.bin"
says '^2 x Milk 1 l  *2\.58$'
says '^TOTAL EUR  *8\.08$'
# a line ends where the paper has what follows at another height: of these on a page alone, GS $, CAN, ESC T and FF
{
    printf 'raster\035v0\000\001\000\001\000\377bars\035k\0041\000dropped\033@'
    printf 'one\035\044\100\000 \030\014line\035v0\007\001\000\001\000\377, still\033m'
    printf '\033La\035\044\100\000b\030c\033T\000d\033me\014of\035\044\100\000 old\n'
} >ends.bin
is 0 'ends of lines' "$root/recipes/text" ends.bin
printf '%s\n' raster bars 'one line, still' a b c de 'of old' | cmp - said
is 0 'the text of a label' "$root/recipes/text" two.zpl
says '^Café'
is 0 'the text behind what is read past' "$root/recipes/text" bad.bin
printf 'Hi\nmore\n' | cmp - said
is 1 'the text before a fault' "$root/recipes/text" --as-it-came bad.bin
says '^Hi$'
says '^vp: F1 after 5 bytes'
is 2 'a table that is none' "$root/recipes/text" --table klingon two.zpl
says '^text: klingon: no table of letters$'
for table in zlib rot13 base64 hex bz2 idna utf-7 utf-16 punycode undefined raw_unicode_escape '' "$(printf 'a\nb')"; do
    "$root/recipes/text" --table "$table" "$root/examples/receipt.bin" two.zpl >said 2>&1 || [ $? -eq 2 ] ||
        fail "the table $table"
    ! grep -q Traceback said || fail "a traceback of the table $table"
done
for name in -dash.bin "quo'te\".bin" '$(touch pwned).bin' "$(printf 'a\nb.bin')" "$(printf 'caf\351.bin')"; do
    (cd names && is 0 "a text named $name" "$root/recipes/text" -- "$name") || exit
    says '^total$'
done
is 3 'a text that is none' "$root/recipes/text" "$(printf 'caf\351')"
says "^text: cannot read $(printf 'caf\351'): No such file"
echo 'text: ok'

printf 'Hi\n\033\177more\n\035\001last\n' >worse.bin
printf 'Hi\nmore\nlast\n' >good.bin
"$root/recipes/past" --as-it-came <worse.bin >past.pbm 2>said && fail 'what was cut out is no fault' || [ $? -eq 1 ]
says '^cut out at byte 3: 1B 7F$'
says '^cut out at byte 10: 1D 01$'
"$root/recipes/print" <good.bin | cmp - past.pbm
# the whole language reads them past
"$root/recipes/past" <worse.bin | cmp - past.pbm
"$root/recipes/print" <worse.bin | cmp - past.pbm
"$root/recipes/print" --as-it-came <worse.bin 2>said | cmp - past.pbm >&2 2>/dev/null && fail 'the profile reads them past'
says '^vp: F1 after 5 bytes'
"$root/recipes/past" "$vp" receipt --width 384 <worse.bin 2>/dev/null | head -c 9 | grep -q '^384 ' ||
    fail 'other words'
"$root/recipes/past" <"$root/examples/receipt.bin" | cmp - receipt.pbm
# also behind refused symbols; unknown commands one behind the other are read once
printf 'Hi\n\035kA\01312345678901more\n\035k\00012\000\033\177\035(k\003\0001Q0last\n' >symbols.bin
is 1 'past refused symbols' "$root/recipes/past" "$vp" receipt <symbols.bin
says '^cut out at byte 29: 1B 7F$'
says '^cut out at byte 3: GS k 41: F2 symbol: unsupported$'
says '^cut out at byte 23: GS k 00: F2 symbol: unsupported$'
says '^cut out at byte 31: GS ( k 03 00 31 51 30: F2 symbol: empty$'
"$root/recipes/past" --as-it-came <symbols.bin 2>/dev/null >symbols.pbm || true
"$root/recipes/print" <good.bin | cmp - symbols.pbm
is 1 'past those that the whole language refuses' "$root/recipes/past" <symbols.bin
! grep -q 'cut out at byte 3: \|1B 7F' said || fail 'what is drawn is cut out'
says '^cut out at byte 23: GS k 00: F2 symbol: length$'
says '^cut out at byte 31: GS ( k 03 00 31 51 30: F2 symbol: empty$'
python3 -c 'import sys
sys.stdout.buffer.write(b"a\n" + b"\x1b\x7f" * 2000 + b"b\n" + b"\x1d\x01" * 2000)' >many.bin
"$root/recipes/past" --as-it-came <many.bin 2>said >past.pbm || [ $? -eq 1 ]
[ "$(wc -l <said)" -eq 4000 ] || fail 'not each is cut out'
printf 'a\nb\n' | "$root/recipes/print" | cmp - past.pbm
: | "$root/recipes/past" | cmp - /dev/null
is 5 'past a program that is killed' "$root/recipes/past" sh -c 'kill -9 $$' <worse.bin
echo 'past: ok'
