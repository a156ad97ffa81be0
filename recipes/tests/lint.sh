#!/bin/sh
# lint: what a printer prints and vp doesn't, a line each, with its first byte where vp lists places.
. "$(dirname "$0")/common.sh"
export VP="$vp"
lint=$root/recipes/lint
place='\(byte [0-9]*: \)\{0,1\}'
has_places=
"$vp" list --lang label --offsets /dev/null 2>/dev/null && has_places=1
for stream in examples/*.bin examples/*.zpl; do
    is 0 "lint of $stream" "$lint" "$stream"
    [ ! -s "$room/said" ] || fail "lint says something of $stream"
done
cd "$room"
printf '\033@plain\n' >plain.bin
{
    printf '^XA^PW400^LL200^MMT^CI28\r\n^FO10,20^A0N,40^FDCa\177\303\251^FS^FO300,20^BY3^BKN,N,100^FD123^FS'
    printf '^FO9,9^BXN,4,200^FD1^FS^B7N,4,0,2^FD1^FS^GC50^FS^GD9,9^FS^BTN^FD1^FS^SN1,1,Y^FS^XFR:A^FS^F0^FN1\r\n'
    printf '^FO10,150^A0,40,40^FDtoo long for it^FS^FT10,10^A0,40^FDtop^FS^FO390,0^GB11,9,2^FS^FO390,0^GB10,9,2^FS'
    printf '^LH20,0^FT380,90^BY1^B3R^FD1^FS^LH0,0^FO380,180^BQN,2,2^FDQA,1^FS^XZ'
} >label.zpl
is 1 'a label' "$lint" label.zpl
for line in '^BT prints a TLC39 symbol: it is read past' '^SN prints a serial number' '^XF prints a stored format' \
    '^CI chooses a code table' '^F0 is no command that is known' '^FN numbers a field' \
    'byte 7F has no character in the sheet of font A: once' \
    '^A0,40,40 has narrower letters on a printer than the cells of 40 dots here' "the field of ^FT10,10 passes the label's upper edge" \
    "the field of ^FO390,0 passes the label's right edge" \
    "the field of ^FO380,180 passes the label's right and the lower edge"; do
    says "^label.zpl: $place$(printf %s "$line" | sed 's/\^/\\^/g')"
done
! grep -q '\^MM' said || fail 'lint speaks of what no paper shows'
! grep -q ' prints a \(Codabar\|Data\|PDF\|circle\)' said || fail 'lint speaks of what the whole language draws'
[ "$(grep -c 'FO390,0' said)" -eq 1 ] || fail 'a box that just fits passes the edge'
if [ "$has_places" ]; then
    for line in '19: ^CI' '141: ^BT' '190: ^A0,40,40' '220: the field of ^FT10,10'; do
        grep -qF "label.zpl: byte $line " said || { cat said >&2; fail "no $line"; }
    done
fi
is 1 'a label by the profile' "$lint" --as-it-came label.zpl
for line in '^BK prints a Codabar bar code' '^BX prints a Data Matrix symbol' '^GC prints a circle' '^GD prints a diagonal line'; do
    says "^label.zpl: $place$(printf %s "$line" | sed 's/\^/\\^/g'): it is read past, and drawn by the whole language$"
done
{
    printf '\033@\033t\020Ca\351\177\n\033M\001\177\n\034p\001\000\035(L\006\0000E\040\040\001\001'
    printf '\0358L\001\000\000\000x\033{\001Hi\n\035(k\003\0000A\002\035(k\003\0001C\004\033\177rest\n'
} >receipt.bin
is 1 'a receipt' "$lint" receipt.bin
for line in 'ESC t 10 chooses a code table' 'FS p 01 00 prints a picture that is kept in the printer' 'GS ( L' 'GS 8 L' \
    'ESC { 01 prints upside down' 'GS ( k 03 00 30 41 stores or prints a symbol other than QR' \
    'byte 7F has no character in the sheet of font A: once' \
    'byte 7F has no character in the sheet of font B: once'; do
    says "^receipt.bin: $place$line"
done
says '^receipt.bin: byte 60: ESC 7f is no command that is known$'
if [ "$has_places" ]; then
    for line in '2: ESC t' '15: FS p' '19: GS ( L'; do says "^receipt.bin: byte $line"; done
fi
grep -q '03 00 31' said && fail 'lint speaks of what is printed'
is 1 'a receipt by the profile' "$lint" --as-it-came receipt.bin
says '^receipt.bin: byte 60: F1 unknown command 1B 7F: nothing behind it is printed$'
# a byte that ^FH's digits say begins at the indicator
printf '^XA^FO9,9^A0N,24^FH^FDCaf_7F_A9^FS^XZ' >hex.zpl
is 1 'a byte in digits' "$lint" hex.zpl
[ -z "$has_places" ] || says '^hex.zpl: byte 25: byte 7F has no character'
# a sheet's head may be one line, and have comments
sed '1,2d' "$root/examples/font-a.pbm" >rows
{ printf 'P4 192#wide\n384 ' && cat rows; } >one-line.pbm
is 0 'a sheet with a head of its own' "$lint" --font-a one-line.pbm --font-b "$root/examples/font-b.pbm" plain.bin
head -c 9000 one-line.pbm >cut.pbm
is 3 'a sheet that is cut short' "$lint" --font-a cut.pbm plain.bin
# a code table that no byte asks for is nothing
printf '\033@\033t\020plain\n\033p\000\001\002' | "$lint" >said || fail 'lint of a plain receipt'
[ ! -s said ] || fail 'lint speaks of a code table that no byte asks for'
is 3 'no file' "$lint" none.bin
says '^lint: cannot read none.bin'
is 2 'wrong words' "$lint" --lang french plain.bin
is 3 'no sheet' "$lint" --font-a plain.bin plain.bin
says '^lint: plain.bin: not a glyph sheet$'
is 3 'a closed output' sh -c '"$1" plain.bin >&-' sh "$lint"
says '^lint: standard output is closed$'
"$lint" label.zpl label.zpl 2>&1 >/dev/full | grep -q Traceback && fail 'a traceback'

if [ "$has_places" ]; then
    # what sets what is so at the start is nothing, as the head of a label designer
    {
        printf 'CT~~CD,~CC^~CT~\r\n^XA~TA000~JSN^LT0^MNW^MTT^PON^PMN^LH0,0^JMA^PR4,4~SD15^JUS^LRN^CI0^XZ\r\n'
        printf '^XA\r\n^MMT\r\n^PW812^LL1218^LS0^FO10,20^A0N,28^FDCaf\303\251^FS^MUD^FPH^MCY^CVN^PA0,0,0,0^PQ1,0,1,Y^XZ'
    } >head.zpl
    is 0 'the head of a label designer' "$lint" head.zpl
    printf '^XA^LT5^JMB^LS-3^CI28^MUM^FPV,2^MCN^CVY~CD;^FO9,9^A0N,28^FDCaf\303\251^FS^XZ~CC+' >other.zpl
    is 1 'other values' "$lint" other.zpl
    for line in LT JM LS CI MU FP MC CV; do says "\^$line .*: it is read past"; done
    says '~CD takes another'
    says '~CC takes another'
    printf 'a\035P\000\000\035(K\002\0001\000\035(N\002\00001\033t\000\033{\000\034!\000\034S\000\000b\201\n' >start.bin
    is 0 'values of a receipt at the start' "$lint" start.bin
    printf 'a\035P\313\313\035(K\002\0001\003\035(N\002\00002b\n' | "$lint" >said && fail 'other values of a receipt'
    for line in 'GS P cb cb' 'GS ( K 02 00' 'GS ( N 02 00'; do says "$line "; done
fi
# parameters that vp doesn't look at
{
    printf '^XA^PW400^LL400^FO380,20,1^A0N,30^FDat its end^FS^FO9,9^GB90,90,2,B,3^FS^FO9,9^GB90,90,2,B,0^FS'
    printf '^FO9,99^FB300,2,0,J,20^A0N,20^FDblock^FS^FO9,200^BY1^BCN,40,N,N,Y^FD12345678^FS^FO9,300^A@N,20,,E:A.TTF^FDa^FS'
    printf '^FO10,150^A0,40,40^FDtoo long for it^FS^FO10,150^A0,40,40^FDmuch much too long for it^FS'
    printf '^FO10,350^A0,40^FDtoo long for it, that it is^FS^XZ'
} >parameters.zpl
is 1 'parameters' "$lint" parameters.zpl
for line in '^FO380,20,1 has fields end at their place on a printer, and begin there here, unless recipes/expand writes it anew' \
    '^GB90,90,2,B,3 has round corners on a printer, and square ones here, unless recipes/expand writes it anew' \
    '^FB300,2,0,J,20 makes lines of one width on a printer, and has them begin at the left here, unless recipes/expand writes it anew' \
    '^BCN,40,N,N,Y adds a check digit on a printer, and not here' \
    '^A@N,20,,E:A.TTF takes a font of the printer, and the sheet here, unless recipes/expand writes it anew' \
    '^A0,40,40 has narrower letters on a printer than the cells of 40 dots here, unless recipes/expand writes it anew: 2 times' \
    "the field of ^FO10,150 passes the label's right edge" "the field of ^FO10,350 passes the label's right edge"; do
    says "^parameters.zpl: $place$(printf %s "$line" | sed 's/\^/\\^/g')\$"
done
[ "$(wc -l <said)" -eq 8 ] || { cat said >&2; fail 'lint says more of parameters'; }
printf '^XA^FO9,9^GFA,80,24,1,:Z64:eJxjYGBgAAAABAAB:1234^FS^XZ' >packed.zpl
is 1 'a picture that is packed' "$lint" packed.zpl
says 'F7 bad graphic: a picture that begins with :Z64: or :B64: is packed'

# lines that are known, as often as they are
is 1 'a label before it is known' "$lint" label.zpl parameters.zpl
cp said before
is 0 'what is known' "$lint" --known known --write-known label.zpl parameters.zpl
says "^$(wc -l <before) lines are known\$"
sed 's/: byte [0-9]*: /: /' before | cmp - known
is 0 'a label that is known' "$lint" --known known label.zpl parameters.zpl
[ ! -s said ] || fail 'what is known is said'
sed 's/\^XZ/^BT9^FS^BT50^FS^XZ/' label.zpl >more.zpl
mv more.zpl label.zpl
sed -i '/SN prints/d; 1i# a comment' known
is 1 'a label with more' "$lint" --known known label.zpl parameters.zpl
[ "$(grep -c 'BT prints a TLC39' said)" -eq 2 ] && [ "$(grep -c 'SN prints' said)" -eq 1 ] && [ "$(wc -l <said)" -eq 3 ] ||
    { cat said >&2; fail 'what is new is not said'; }
is 2 'a list without its name' "$lint" --write-known label.zpl
is 3 'a list that is none' "$lint" --known none label.zpl
(ulimit -f 0 && "$lint" --known known --write-known label.zpl >/dev/null 2>&1 | cat) && grep -q '# a comment' known ||
    fail 'a list that cannot be written whole is lost'
# fields outside a format, and labels of which each is printed once
printf '^FO9,9^GB9,9,1^FS^XA^PW100^LL100^PQ99999999^FO0,0^GB10,10^FS^XZ^FO1,1^FDlost^FS^XA^XZ' >outside.zpl
is 1 'fields outside a format' "$lint" outside.zpl
says '^outside.zpl: byte 6: the field of ^GB stands outside ^XA and ^XZ: it is not printed$'
says '^outside.zpl: byte 69: the field of ^FD stands outside ^XA and ^XZ: it is not printed$'
[ "$(wc -l <said)" -eq 2 ] || fail 'more is said of fields outside a format'
printf '^XA^PW99^LL8000^FO0,0^GB10,10^FS^XZ' >rows.zpl
is 1 'a bound' "$lint" --most-rows 100 rows.zpl
says '^rows.zpl: byte [0-9]*: cut off: it prints more than 100 rows; --most-rows raises this$'
# ESC = has text for a display; what has its length is left out
printf 'to the paper\n\033=\002TOTAL\033=\001\033(A\002\0000\000\n' >display.bin
is 1 'text for a display' "$lint" display.bin
says '^display.bin: byte 13: ESC = 02 chooses whether the printer or a display listens'
is 1 'the same by the profile' "$lint" --as-it-came display.bin
says 'F1 unknown command 1B 28, and left out by recipes/expand: nothing behind it is printed$'
# what is no stream is named
printf '%%PDF-1.4\n' >form.pdf
is 3 'a PDF' "$lint" form.pdf
says "^lint: form.pdf looks like a PDF: a printer's driver makes a stream of it; --lang takes it for"
is 0 'its help' "$lint" --help
says '^    lint parcel.zpl$'
# of any name, and cut anywhere
for name in -dash.zpl "quo'te\".zpl" '$(touch pwned).zpl' "$(printf 'a\nb.zpl')" "$(printf 'caf\351.zpl')"; do
    cp -- packed.zpl "$name"
    is 1 "a stream named $name" "$lint" -- "$name"
    [ "$(wc -l <said)" -eq 1 ] || fail 'a name with a line end is said in two lines'
done
[ ! -e pwned ] || fail 'a name was run'
for n in 0 1 20 31 100 250; do
    for stream in receipt.bin parameters.zpl; do
        language=receipt
        [ "$stream" = receipt.bin ] || language=label
        head -c "$n" "$stream" | "$lint" --lang "$language" >said 2>&1 || [ $? -eq 1 ] || { cat said >&2; fail "$stream cut at $n"; }
    done
done

# the table is true: labels skip each of its commands, but for those of the whole language, and receipts read each past
cd "$root"
python3 - <<'END' || fail 'commands.tsv has a command that is read otherwise'
import sys
sys.path.insert(0, 'recipes')
sys.dont_write_bytecode = True
from vp_recipes import program, streams
known = streams.table()
labels = [command for language, command in known if language == 'label']
whole = {command for language, command, shows, *_ in streams.rows() if language == 'label' and shows == 'whole'}
for is_whole in True, False:
    items, fault = streams.listing(''.join(labels).encode() + b'^FS', 'label', whole=is_whole)
    read = whole if is_whole else set()
    assert [text for _, text in items] == [it if it in read else f'{it} skipped' for it in labels] + ['^FS'] and not fault, 'labels'
leads = {'esc': b'\x1b', 'gs': b'\x1d', 'fs': b'\x1c', 'dle': b'\x10'}
for command in (command for language, command in known if language == 'receipt'):
    kind, *rest = command.split(' ')
    data = leads[kind] + bytes(int(it, 16) for it in rest) + (b'3\0' if command == 'esc 63' else b'\1') + bytes(99)
    items, _ = streams.listing(data, 'receipt')
    assert [it for _, it in streams.skipped(items, 'receipt')] == [command], command
    assert program.run(['receipt', streams.WHOLE], data)[0] == b'', command
END
echo 'lint: ok'
