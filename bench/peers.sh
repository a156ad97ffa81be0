#!/bin/sh
# How long we take beside what Debian has for the same work: bench/peers.sh [VP], with the program that ./vp runs and the
# library beside it. QR symbols beside qrencode and libqrencode, bars beside zint, libzint and barcode, symbols of
# two dimensions beside libzint, and images that are joined beside netpbm's pnmcat. Ours and theirs are timed by turns, and
# the least of seven counts. What isn't installed is said. The times are those of the machine it runs on; the ratios are what
# to look at. Where valgrind is, the instructions of libraries are counted too, which don't hang on the machine's load.
set -eu
top=$(cd "$(dirname "$0")/.." && pwd)
vp=$(realpath "${1:-$("$top/tools/dist/program")}")
# what is printed stays in memory
scratch=$(mktemp -d -p /dev/shm)
trap 'rm -rf "$scratch"' EXIT
cd "$scratch"
ln -s "$vp" program

# has COMMAND..: whether they are installed, or else says which isn't
has() {
    for it in "$@"; do
        command -v "$it" > /dev/null || { echo "left out: no $it" && return 1; }
    done
}

# once WORDS: the nanoseconds of one run
once() {
    start=$(date +%s%N)
    # shellcheck disable=SC2086
    $1 > out
    end=$(date +%s%N)
    echo $((end - start))
}

# beside NAME NUMBER OURS PEER THEIRS: so many symbols or images by us and by a peer; what fails is told, and not timed
beside() {
    for words in "$3" "$5"; do
        # shellcheck disable=SC2086
        $words > out || { echo "$1: $words: status $?" >&2 && exit 1; }
    done
    for _ in 1 2 3 4 5 6 7; do
        echo "$(once "$3") $(once "$5")"
    done | awk -v name="$1" -v number="$2" -v peer="$4" '
        NR == 1 || $1 < ours { ours = $1 }
        NR == 1 || $2 < theirs { theirs = $2 }
        END { printf "%s: vp %.2f us each, %s %.2f us: %.2f times as fast\n", name, ours / number / 1e3, peer, theirs / number / 1e3, theirs / ours }'
}

# again COMMAND..: thirty processes, one after the other
again() {
    for _ in $(seq 30); do "$@"; done
}

# 200 texts of each kind with a receipt of their symbols, and one of each
for kind in qr code128 code128-row ean13 ean13-row upca upce ean8 interleaved codabar code93 pdf417 pdf417-alone; do
    "$top/bench/peers.py" "$kind" 200 "$kind.txt" "$kind.bin"
    "$top/bench/peers.py" "$kind" 1 "$kind-one.txt" "$kind-one.bin"
done
qr=$(cat qr-one.txt) code128=$(cat code128-one.txt) ean13=$(cat ean13-one.txt)

echo 'a process for each symbol'
if has qrencode; then
    beside 'QR symbol' 30 'again ./program receipt qr-one.bin' qrencode "again qrencode -l M -8 -t ASCII $qr"
fi
if has zint; then
    beside 'Code 128' 30 'again ./program receipt code128-one.bin' zint "again zint -b 20 --notext -o one.pcx -d $code128"
    beside 'EAN-13' 30 'again ./program receipt ean13-one.bin' zint "again zint -b 13 --notext -o one.pcx -d $ean13"
fi
if has barcode; then
    beside 'Code 128' 30 'again ./program receipt code128-one.bin' barcode "again barcode -E -n -e 128 -b $code128"
    beside 'EAN-13' 30 'again ./program receipt ean13-one.bin' barcode "again barcode -E -n -e ean -b $ean13"
fi

# made NAME FLAG..: the caller of a library, if that is installed
made() {
    name=$1
    shift
    cc -std=c11 -O2 "$@" -o "$name" 2> made.log || { echo "left out: no lib$name for C" && return 1; }
}

# collected COMMAND: its instructions
collected() {
    # shellcheck disable=SC2086
    valgrind --tool=callgrind --callgrind-out-file=/dev/null $1 2>&1 > out | sed -n 's/^==[0-9]*== Collected : //p'
}

# inside NAME ROUNDS RECEIPT PEER CALLER WORDS: the symbols of 200 texts, so many times over, by us and by the caller of a
# library, and where valgrind is their instructions, but for those of a caller that makes none
inside() {
    beside "$1" $((200 * $2)) "./vp $2 $3" "$4" "./$5 $2 $6"
    command -v valgrind > /dev/null || return 0
    echo "$(collected "./vp 1 $3") $(collected "./vp 0 $3") $(collected "./$5 1 $6") $(collected "./$5 0 $6")" |
        awk '{ ours = ($1 - $2) / 200; theirs = ($3 - $4) / 200 }
            END { printf "    %d instructions each, %d: %.2f times as few\n", ours, theirs, theirs / ours }'
}

# symbols NAME ASKED PEER WORDS: the instructions of 200 symbols, by vp_draw_symbols and by libzint
symbols() {
    command -v valgrind > /dev/null || return 0
    asked() { valgrind --tool=callgrind --callgrind-out-file=/dev/null ./drawn 2>&1 < "$1" > out | sed -n 's/^==[0-9]*== Collected : //p'; }
    echo "$(asked "$2") $(asked /dev/null) $(collected "./zint 1 $4") $(collected "./zint 0 $4")" |
        awk -v name="$1" -v peer="$3" '{ ours = ($1 - $2) / 200; theirs = ($3 - $4) / 200
            printf "%s: %d instructions each, %s %d: %.2f times as few\n", name, ours, peer, theirs, theirs / ours }'
}

echo 'many symbols in one process'
library=$(dirname "$vp")/libvp.so
[ -e "$library" ] || library=$top/dist/libvp.so
ln -s "$library" libvp.so.1
export LD_LIBRARY_PATH="$scratch"
if has cc && made vp -DVP -I"$top/include" "$top/bench/peers.c" "$library"; then
    if made qrencode -DQRENCODE "$top/bench/peers.c" -lqrencode; then
        inside 'QR symbol' 10 qr.bin libqrencode qrencode qr.txt
    fi
    if made zint -DZINT "$top/bench/peers.c" -lzint; then
        inside 'Code 128, a hundred rows' 100 code128.bin 'libzint, drawn,' zint 'code128.txt 20 1'
        inside 'EAN-13, a hundred rows' 100 ean13.bin 'libzint, drawn,' zint 'ean13.txt 13 1'
        inside 'Code 128, a row' 100 code128-row.bin 'libzint, encoded alone,' zint 'code128.txt 20 0'
        inside 'EAN-13, a row' 100 ean13-row.bin 'libzint, encoded alone,' zint 'ean13.txt 13 0'
        inside 'UPC-A, a hundred rows' 100 upca.bin 'libzint, drawn,' zint 'upca.txt 34 1'
        inside 'UPC-E, a hundred rows' 100 upce.bin 'libzint, drawn,' zint 'upce.txt 37 1'
        inside 'EAN-8, a hundred rows' 100 ean8.bin 'libzint, drawn,' zint 'ean8.txt 13 1'
        inside 'Interleaved 2 of 5, a hundred rows' 100 interleaved.bin 'libzint, drawn,' zint 'interleaved.txt 3 1'
        inside 'Codabar, a hundred rows' 100 codabar.bin 'libzint, drawn,' zint 'codabar.txt 18 1'
        inside 'Code 93, a hundred rows' 100 code93.bin 'libzint, drawn,' zint 'code93.txt 25 1'
        drawn=$top/crates/tests/vp_draw_symbols/out/vp_draw_symbols
        if [ -e "$drawn" ]; then
            ln -s "$drawn" drawn
            symbols 'PDF417' pdf417.bin 'libzint, drawn,' 'pdf417.txt 55 1'
            symbols 'PDF417, encoded' pdf417-alone.bin 'libzint, encoded alone,' 'pdf417.txt 55 0'
        fi
    fi
    if has barcode; then
        beside 'EAN-13' 200 './vp 1 ean13.bin' 'barcode -i' 'barcode -E -n -e ean -i ean13.txt'
        beside 'Code 128' 200 './vp 1 code128.bin' 'barcode -i' 'barcode -E -n -e 128 -i code128.txt'
    fi
fi

echo 'images that are joined'
if has pnmcat; then
    # 100 images of 576 dots by 1,000
    for nth in $(seq 100 199); do
        { printf 'P4\n576 1000\n'; head -c 72000 /dev/urandom; } > "image.$nth"
    done
    cat image.* > images
    beside 'image' 100 './program join images' pnmcat "pnmcat -topbottom $(echo image.*)"
    ./program join images > ours
    pnmcat -topbottom image.* | cmp - ours
fi
