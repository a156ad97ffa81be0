#!/bin/sh
# Prints each stream of examples/ and compares all bytes with those that were accepted: examples/SHA256SUMS has the
# sums of the images, docs/ has pictures of them. After a change that is meant, ./checks/examples.sh accept writes both
# anew: look at the pictures.
set -eu
export LC_ALL=C
cd "$(dirname "$0")/.."
vp=${VP:-$(tools/dist/program)}
scratch=$(mktemp -d)
trap 'rm -rf "$scratch"' EXIT

fail() {
    echo "checks/examples: $1" >&2
    exit 1
}

# streams and sheets are those that their scripts write
mkdir "$scratch/written" "$scratch/printed"
cp examples/write_streams.py "$scratch/written"
python3 "$scratch/written/write_streams.py"
python3 examples/draw_sheets.py "$scratch/written"
for file in "$scratch/written"/*.bin "$scratch/written"/*.zpl "$scratch/written"/*.pbm; do
    cmp "$file" "examples/${file##*/}"
done

for stream in examples/*.bin; do
    "$vp" receipt --font-a examples/font-a.pbm --font-b examples/font-b.pbm "$stream" \
        >"$scratch/printed/${stream#examples/}.pbm"
done
for stream in examples/*.zpl; do
    "$vp" label --font-a examples/font-a.pbm "$stream" >"$scratch/printed/${stream#examples/}.pbm"
done
(cd "$scratch/printed" && sha256sum -- *.pbm) >"$scratch/sums"
if [ "${1:-}" = accept ]; then cp "$scratch/sums" examples/SHA256SUMS; fi
diff examples/SHA256SUMS "$scratch/sums" || fail 'other images are printed than those that were accepted'
for picture in docs/*.png; do
    # (the viewer's page and the face are drawn by their own tests)
    case $picture in docs/viewer.png | docs/faces.png) continue ;; esac
    name=${picture#docs/}
    printed=$(ls "$scratch/printed/${name%.png}".*.pbm)
    if [ "${1:-}" = accept ]; then recipes/paper "$picture" <"$printed"; fi
    python3 recipes/tests/testing.py same "$picture" "$printed"
done
echo 'examples: ok'

# what other printers' languages say is no label: it is read past and prints nothing, wherever it ends
{
    printf '\r\nN\r\nq812\r\nQ1218,24\r\nA50,40,0,4,1,1,N,"CORNER SHOP"\r\n'
    printf 'B50,120,0,1,3,9,100,B,"4711-0042"\r\nP1,1\r\n'
} >"$scratch/epl"
{
    printf '! 0 200 200 406 1\r\nTEXT 4 0 30 40 CORNER SHOP\r\n'
    printf 'BARCODE 128 1 1 50 30 100 4711-0042\r\nFORM\r\nPRINT\r\n'
} >"$scratch/cpcl"
{
    printf '\033E\033&l0O\033&l2A\033*p300x300YCORNER SHOP\033*t203R\033*r0A\033*b4W\377\176\000\136'
    printf '\033*rB\033*p300x600Y^ and ~ stand for themselves\f\033E'
} >"$scratch/pcl"
cp examples/receipt.bin "$scratch/escpos"
for language in epl cpcl pcl escpos; do
    "$vp" label "$scratch/$language" >"$scratch/paper" || fail "a label in $language has a fault"
    [ ! -s "$scratch/paper" ] || fail "a label in $language is printed"
    length=$(wc -c <"$scratch/$language")
    for end in $(seq "$length"); do
        # all that may be said is that a name is cut
        head -c "$end" "$scratch/$language" | "$vp" label >"$scratch/paper" 2>"$scratch/said" ||
            grep -q '^vp: F8 ' "$scratch/said" || fail "$end bytes of $language: $(cat "$scratch/said")"
        [ ! -s "$scratch/paper" ] || fail "$end bytes of $language are printed"
    done
done
echo "other printers' languages: ok"

# with less and less memory, the first thing that each language says is that there is not enough
for language in receipt label; do
    room=8192 status=0
    while [ "$status" -eq 0 ]; do
        room=$((room - 32)) status=0
        # shellcheck disable=SC3045
        (ulimit -v "$room" && exec "$vp" "$language" --font-a examples/font-a.pbm /dev/null) \
            >"$scratch/paper" 2>"$scratch/said" || status=$?
    done
    if [ "$status" -ne 4 ] || [ "$(cat "$scratch/said")" != 'vp: out of memory' ]; then
        fail "$language with $room KB: status $status"
    fi
    echo "$language without memory: ok, at $room KB"
done
