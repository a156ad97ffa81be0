#!/bin/sh
# The man page: its form, and its examples, each of which is run.
. "$(dirname "$0")/common.sh"
page=docs/vp.1
[ "$(awk 'length > 79' "$page" | wc -l)" -eq 0 ] || fail 'a line of the man page has 80 columns or more'
if needs mandoc; then
    mandoc -T lint "$page" >"$room/said" 2>&1 || true
    [ ! -s "$room/said" ] || { cat "$room/said" >&2; fail 'the man page has a mistake'; }
fi

mkdir "$room/bin" "$room/at"
ln -s "$vp" "$room/bin/vp"
cp examples/font-a.pbm "$room/at"
cp examples/receipt.bin "$room/at/order.bin"
cp examples/shipping.zpl "$room/at/order.zpl"
sed -n '/^\.Sh EXAMPLES/,/^\.Sh DIAGNOSTICS/p' "$page" | awk '/^\.Ed/ { on = 0 } on { print } /^\.Bd/ { on = 1 }
    /^\.Dl/ { print substr($0, 5) }' >"$room/examples"
[ "$(wc -l <"$room/examples")" -ge 8 ] || fail 'examples of the man page are not found'
needs pnmsplit pnmtopng || { grep -v pnm "$room/examples" >"$room/without" && mv "$room/without" "$room/examples"; }
ran=0
while read -r line; do
    (cd "$room/at" && PATH=$room/bin:$PATH sh -euc "$line") </dev/null >"$room/said" 2>&1 ||
        { cat "$room/said" >&2; fail "an example of the man page fails: $line"; }
    ran=$((ran + 1))
done <"$room/examples"
"$vp" receipt --font-a examples/font-a.pbm examples/receipt.bin | cmp - "$room/at/order.pbm"
"$vp" label --font-a examples/font-a.pbm examples/shipping.zpl | cmp - "$room/at/labels.pbm"
if [ -e "$room/at/order-0.png" ]; then
    "$vp" join "$room/at/order.pbm" >"$room/at/whole.pbm"
    pngtopnm "$room/at/order.png" | cmp - "$room/at/whole.pbm"
    pngtopnm "$room/at/order-0.png" | cmp - "$room/at/labels.pbm"
    [ "$(find "$room/at" -name 'order-*.png' | wc -l)" -eq 1 ] || fail 'an example makes a PNG of its own input'
fi
# what a pipe says of a stream whose fault stands behind its last image, and what the example says
printf 'before\n\033\177' >"$room/at/order.bin"
(cd "$room/at" && "$vp" receipt --font-a font-a.pbm order.bin >order.pbm 2>/dev/null) || true
line=$(grep 'cmp' "$room/examples")
! (cd "$room/at" && PATH=$room/bin:$PATH sh -uc "$line") >/dev/null 2>&1 || fail 'an example loses a fault'
if printf 'P4\n8 1\n\001' | "$vp" join /dev/stdin >/dev/null 2>"$room/said"; then fail 'a pipe is joined'; fi
says '^vp: join: Differ$'
echo "the man page: ok, $ran of its examples were run"
