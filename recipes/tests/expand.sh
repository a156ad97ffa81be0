#!/bin/sh
# recipes/expand: what needs no expanding stays, what is written anew prints as it was looked at, is read back, and has
# its places; what can't be written is said at its byte.
. "$(dirname "$0")/common.sh"
export VP="$vp"
expand=$root/recipes/expand
tests=$root/recipes/tests/expand
for stream in examples/*.bin examples/*.zpl; do
    "$expand" --keep-sizes --map "$room/map" "$stream" 2>"$room/said" | cmp - "$stream"
    [ ! -s "$room/said" ] || fail "something is told of $stream"
    echo "0 $(($(wc -c <"$stream"))) 0 $(($(wc -c <"$stream"))) same" | cmp - "$room/map"
done
python3 "$tests/grammar.py" "$vp"
python3 "$tests/refused.py" "$vp"
python3 "$tests/costs.py"
python3 "$tests/mutated.py" "$vp" "$room/mutated"
if needs zint; then
    python3 "$tests/rewritten.py" "$vp"
    python3 "$tests/boxes.py" "$vp"
fi
if needs zint ZXingReader zbarimg dmtxread; then
    mkdir "$room/symbols"
    python3 "$tests/readback.py" "$vp" "$room/symbols"
    python3 "$tests/printed.py" "$vp" "$room/printed"
fi

# anew STATUS NAME: the stream on standard input is written anew, with this status
anew() {
    expected=$1 name=$2 status=0
    shift 2
    cat >"$room/$name"
    "$expand" "$@" --map "$room/map" "$room/$name" >"$room/new" 2>"$room/said" || status=$?
    [ "$status" -eq "$expected" ] || { cat "$room/said" >&2; fail "$name: status $status in place of $expected"; }
    grep -q Traceback "$room/said" && fail "$name: a traceback"
    return 0
}
printed() { "$vp" label --whole --font-a examples/font-a.pbm "$room/new" >"$room/paper" || fail "$name doesn't print"; }

# places: the fault of the new stream, and its listing, in the bytes of the old one
printf 'Caf\303\251\n\033\177x\033E' | anew 1 fault.bin --from utf-8
says '^byte 3: letters are written'
says '^byte 6: ESC 7f is no command that is known: it is read past$'
"$vp" receipt --whole "$room/new" 2>"$room/line" >"$room/paper" && fail 'no fault'
grep -q '^vp: F8 after 13 bytes' "$room/line" || fail 'the fault stands elsewhere'
[ "$("$expand" --tell "$room/map" <"$room/line")" = 'vp: F8 after 11 bytes: input ends inside a command' ] ||
    fail "a fault's place isn't told in the old bytes"
"$vp" list --lang receipt --whole --offsets "$room/new" 2>"$room/line" | "$expand" --tell "$room/map" >"$room/listed"
grep -qx '5 char 82' "$room/listed" && grep -qx '6 LF' "$room/listed" || fail "a listing's places"
is 3 'a map that is none' "$expand" --tell "$room/fault.bin"
says 'line 1 is no piece of a map$'

# what can't be written is said, each with its byte, and the rest is written
printf '^XA^PW80^LL40^FO0,0^GFA,20,20,2,:Z64:eJz7/x8TAADRQhPt:0000^FS^FO0,20^GB9,9,1^FS^XZ' | anew 1 sum.zpl
says '^byte 19: \^GF: its packed data have the sum C585, and say 0000$'
printed
printf '^XA^FO0,0^GFA,20,20,2,:Z64:eJz7/x8F^FS^FO0,20^GB9,9,1^FS^XZ' | anew 1 cut.zpl
says '^byte 9: \^GF: its packed data'
printf '^XA^FO0,0^GFA,9,999999999,2,80^FS^FO0,0^GFC,4,9,3,abcd^FS^FO0,0^XGR:NO.GRF,1,1^FS^GB9,9,1^FS^XZ' | anew 1 sizes.zpl
says '^byte 39: \^GF: its packed data are no zlib data$'
says '^byte 63: \^XGR:NO.GRF prints a picture that is not stored$'
printf '^XA^XFR:NO.ZPL^FS^GB9,9,1^FS^XZ' | anew 1 none.zpl
says '^byte 3: \^XFR:NO.ZPL recalls a format that is not stored$'
printed
printf '^XA^DFR:A.ZPL^FS^XFR:A.ZPL^FS^GB9,9,1^FS^XZ^XA^XFR:A.ZPL^FS^XZ' | anew 1 round.zpl
says '^byte 46: \^XFR:A.ZPL recalls formats that recall it$'
printed
printf '^XA^FO9,9^BUN,40^FDletters^FS^FO9,9^B0N,4^FD^FS^FO0,0^GB9,9,1^FS^XZ' | anew 1 refused.zpl
says '^byte 9: \^BU: its data have a sign that it has not$'
printed
printf 'a\035/\000\034p\001\000\035k\000abc\000\033K\001b\n' | anew 1 refused.bin
for line in 'byte 1: GS / prints a picture that is not stored' 'byte 4: FS p 01 00 prints a picture that is not stored' \
    'byte 8: GS k 0: UPC-A: its data have a sign that it has not: it is not printed' 'byte 15: ESC K feeds the paper back: it is left out'; do says "^$line"; done
printf 'ab\n' | cmp - "$room/new"

# a few bytes that unpack to a gigabyte are refused at the size that their head says
python3 - >"$room/large.zpl" <<'END'
import base64, binascii, sys, zlib
packer = zlib.compressobj(9)
data = b''.join(packer.compress(bytes(1 << 20)) for _ in range(300)) + packer.flush()
text = base64.b64encode(data)
sys.stdout.write(f'^XA^FO0,0^GFA,9,80,8,:Z64:{text.decode()}:{binascii.crc_hqx(text, 0):04X}^FS^XZ')
END
status=0
(ulimit -v 300000 && exec "$expand" "$room/large.zpl") >"$room/new" 2>"$room/said" || status=$?
[ "$status" -eq 1 ] || fail 'a picture larger than its head'
says '^byte 9: \^GF: its packed data are more than the 80 bytes that its head says$'

# without zint a frame stands there, and no data
printf '^XA^PW300^LL200^FO9,9^BFN,9^FDsecret^FS^XZ' | VP_ZINT=/nonexistent anew 1 frame.zpl
says '^byte 21: \^BF: MicroPDF417 needs zint: a frame stands in its place$'
grep -q secret "$room/new" && fail 'the data stand in the new stream'
printed

# what is stored stays in a folder from stream to stream
printf '^XA^DFR:B.ZPL^FS^PW90^LL40^FO0,0^FN1^FS^XZ~DGR:P.GRF,2,1,80C0' | anew 0 first.zpl --store "$room/store"
[ ! -s "$room/new" ] || fail 'a stored format prints'
printf '^XA^XFR:B.ZPL^FS^FN1^FDMM^FS^FO40,9^XGR:P.GRF^FS^XZ' | anew 0 second.zpl --store "$room/store"
grep -q 'FDMM' "$room/new" && grep -q 'FO40,9^GFA,[0-9]*,2,1,8,C,' "$room/new" || fail 'nothing is recalled'
printed
is 3 'a folder that is none' "$expand" --store "$room/first.zpl/x" "$room/first.zpl"

is 2 'a table that is none' "$expand" --table nothing examples/first.bin
says '^expand: nothing: no table of one byte$'
is 2 'an encoding that is none' "$expand" --from zlib examples/first.bin
is 2 'a time that is none' "$expand" --now noon examples/first.bin
is 3 'no stream' "$expand" "$room/none"
is 3 'no room for the map' "$expand" --map "$room/none/map" examples/first.bin

# a megabyte in about a second; ten, where the machine does much else
python3 - "$room/large.bin" <<'END'
import sys
data = open('examples/receipt.bin', 'rb').read()
open(sys.argv[1], 'wb').write(data * (1000000 // len(data)))
END
timeout 10 "$expand" "$room/large.bin" | cmp - "$room/large.bin"
echo 'expand: ok'
