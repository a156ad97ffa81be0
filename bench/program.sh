#!/bin/sh
# How long the program takes, beside cat of what it prints and od of what it lists: bench/program.sh [VP], with the
# program that ./vp runs. The times are those of the machine it runs on; the ratios are what to look at. Where valgrind is,
# it counts the instructions too, of the first megabyte that each stream prints: these don't hang on the machine's load.
set -eu
top=$(cd "$(dirname "$0")/.." && pwd)
vp=${1:-$("$top/tools/dist/program")}
# what is printed stays in memory
scratch=$(mktemp -d -p /dev/shm)
trap 'rm -rf "$scratch"' EXIT

# seconds NAME COMMAND..: the least of seven runs in nanoseconds, its output into NAME
seconds() {
    out=$1
    shift
    for _ in 1 2 3 4 5 6 7; do
        start=$(date +%s%N)
        "$@" > "$out"
        end=$(date +%s%N)
        echo $((end - start))
    done | sort -n | head -1
}

# collected COMMAND..: the instructions of a command, of which a megabyte of output is kept, and no more is written
collected() {
    (
        trap '' XFSZ
        ulimit -f 2048
        valgrind --tool=callgrind --callgrind-out-file=/dev/null "$@" > "$scratch/front" 2> "$scratch/said"
    ) || :
    sed -n 's/^==[0-9]*== Collected : //p' "$scratch/said"
}

# those of a run that prints nothing; none where valgrind isn't
nothing=0
if command -v valgrind > /dev/null; then nothing=$(collected "$vp" receipt /dev/null); fi

# instructions FILE COMMAND..: how many a byte of the file, or where that is - of what is printed, or nothing
instructions() {
    [ "$nothing" -gt 0 ] || return 0
    bytes=$1
    shift
    count=$(collected "$@")
    [ "$bytes" != - ] || bytes=$scratch/front
    echo "$count $nothing $(wc -c < "$bytes")" | awk '{ printf ", %.2f instructions a byte", ($1 - $2) / $3 }'
}

# measure LANGUAGE NAME FILE OPTION..: the program over a file, beside cat of its paper
measure() {
    language=$1
    name=$2
    file=$3
    shift 3
    print=$(seconds "$scratch/paper" "$vp" "$language" "$@" "$file")
    copy=$(seconds "$scratch/copy" cat "$scratch/paper")
    bytes=$(wc -c < "$scratch/paper")
    work=$(instructions - "$vp" "$language" "$@" "$file")
    echo "$print $copy $bytes" | awk -v name="$name" -v work="$work" '{ printf "%s: %d bytes of paper, %.1f ms, cat %.1f ms, %.1f times cat, %.0f MB/s%s\n", name, $3, $1 / 1e6, $2 / 1e6, $1 / $2, $3 * 1000 / $1, work }'
}

# idle NAME FILE: bytes that print nothing
idle() {
    took=$(seconds "$scratch/paper" "$vp" receipt "$2")
    bytes=$(wc -c < "$2")
    head -c 1000000 "$2" > "$scratch/begun"
    work=$(instructions "$scratch/begun" "$vp" receipt "$scratch/begun")
    echo "$took $bytes" | awk -v name="$1" -v work="$work" '{ printf "%s: %d bytes, %.1f ms, %.2f ns each%s\n", name, $2, $1 / 1e6, $1 / $2, work }'
}

# listed NAME FILE: the lines of a file, beside od of its bytes
listed() {
    list=$(seconds "$scratch/lines" "$vp" list --lang receipt "$2")
    dump=$(seconds "$scratch/dump" od -An -v -tx1 "$2")
    bytes=$(wc -c < "$2")
    work=$(instructions - "$vp" list --lang receipt "$2")
    echo "$list $dump $bytes" | awk -v name="$1" -v work="$work" '{ printf "listing of %s: %d bytes, %.1f ms, od %.1f ms, %.2f times od%s\n", name, $3, $1 / 1e6, $2 / 1e6, $1 / $2, work }'
}

# placed NAME FILE: the lines of a file with their places, beside those without
placed() {
    list=$(seconds "$scratch/lines" "$vp" list --lang receipt "$2")
    with=$(seconds "$scratch/lines" "$vp" list --lang receipt --offsets "$2")
    bytes=$(wc -c < "$2")
    work=$(instructions - "$vp" list --lang receipt --offsets "$2")
    echo "$with $list $bytes" | awk -v name="$1" -v work="$work" '{ printf "listing of %s with places: %d bytes, %.1f ms, without %.1f ms, %.2f times that%s\n", name, $3, $1 / 1e6, $2 / 1e6, $1 / $2, work }'
}

# repeated NUMBER FILE: the file so many times
repeated() {
    for _ in $(seq "$1"); do cat "$2"; done
}

# GS v 0, a raster of 576 dots by 20,000
{ printf '\035v0\000\110\000\040\116'; head -c 1440000 /dev/urandom; } > "$scratch/raster"
measure receipt raster "$scratch/raster"

# 20 MB of a raster, and of its lines the most memory that the program held
{ printf '\035v0\000\000\004\000\120'; head -c 20971520 /dev/urandom; } > "$scratch/long"
listed raster "$scratch/long"
placed raster "$scratch/long"
/usr/bin/time -f 'listing: %e s, %M KB at most' "$vp" list --lang receipt "$scratch/long" > /dev/null

# a day of 1,000 receipts of 30 lines, each another
"$top/bench/receipts.py" text 1000 > "$scratch/day"
measure receipt text "$scratch/day" --font-a "$top/examples/font-a.pbm"
listed text "$scratch/day"

# 3,000,000 carriage returns, and 20 MB of graphics, which do nothing
head -c 3000000 /dev/zero | tr '\000' '\015' > "$scratch/returns"
idle 'carriage returns' "$scratch/returns"
{ printf '\0358L\000\055\061\001'; head -c 20000000 /dev/zero; } > "$scratch/graphics"
idle 'skipped data' "$scratch/graphics"

# 500 bar codes and 500 QR symbols, each of other data and in all versions, and 1,000 receipts, each with another
# logo, 10 lines of which three are in a style, both symbols and a cut
"$top/bench/receipts.py" symbols 500 > "$scratch/journal"
measure receipt symbols "$scratch/journal" --font-a "$top/examples/font-a.pbm"
"$top/bench/receipts.py" journal 1000 > "$scratch/journal"
measure receipt journal "$scratch/journal" --font-a "$top/examples/font-a.pbm"

# in each direction 200 pages of 576 dots by 1,664 that one raster fills, and 200 full of text, each another
for direction in 0 1 2 3; do
    "$top/bench/receipts.py" rasters 200 "$direction" > "$scratch/pages"
    measure receipt "pages of rasters, direction $direction" "$scratch/pages"
    "$top/bench/receipts.py" pages 200 "$direction" > "$scratch/pages"
    measure receipt "pages of text, direction $direction" "$scratch/pages" --font-a "$top/examples/font-a.pbm"
done

# 1 GB of rasters of 576 dots by 65,535, and the most memory that the program held
{ printf '\035v0\000\110\000\377\377'; head -c 4718520 /dev/urandom; } > "$scratch/tall"
repeated 213 "$scratch/tall" | /usr/bin/time -f 'gigabyte: %e s, %M KB at most' "$vp" receipt > /dev/null

# labels of 832 dots by 1,218: their bytes of paper, and the most memory that the program held
font="$top/examples/font-a.pbm"
label() {
    measure label "$1" "$2" --font-a "$font"
    /usr/bin/time -f "$1: %M KB at most" "$vp" label --font-a "$font" "$2" > /dev/null
}

# formats COPIES NUMBER FILE: so many formats, each of the fields in the file and of so many copies
formats() {
    { printf '^XA'; cat "$3"; printf '^PQ%s^XZ' "$1"; } > "$scratch/format"
    repeated "$2" "$scratch/format"
}

# digits BYTES: so many random bytes in hex digits
digits() {
    head -c "$1" /dev/urandom | od -An -v -tx1 | tr -d ' \n'
}

# 1,000 shipping labels, each another: 20 texts, 6 boxes, 3 bar codes, a QR symbol and a logo of 200 by 200; and
# 1,000 copies of one
"$top/bench/labels.py" shipping 1000 > "$scratch/labels"
label '1,000 shipping labels' "$scratch/labels"
"$top/bench/labels.py" shipping 1 | sed 's/\^XZ$/^PQ1000^XZ/' > "$scratch/labels"
label '1,000 copies of a shipping label' "$scratch/labels"

# 10,000 copies of a label of 400 dots by 200
printf '^PW400^LL200^FO10,10^GB380,180,4^FS^FO30,80^A0N,36,24^FDCoffee 7.40^FS' > "$scratch/fields"
formats 10000 1 "$scratch/fields" > "$scratch/labels"
label '10,000 copies of a small label' "$scratch/labels"

# boxes and three pictures of 400 by 300
{
    for i in $(seq 20); do printf '^FO%s,%s^GB%s,60,%s^FS' $((30 * i)) $((50 * i)) $((20 + 5 * i)) $((1 + i % 2 * 60)); done
    for i in 0 1 2; do
        printf '^FO%s,%s^GFA,30000,15000,50,' $((200 * i)) $((400 * i))
        digits 15000
        printf '^FS'
    done
} > "$scratch/fields"
formats 1000 1 "$scratch/fields" > "$scratch/labels"
label '1,000 copies of boxes and pictures' "$scratch/labels"

# 100 labels, each of another picture of 832 by 1,218: in plain hex digits, and in short mixed runs
"$top/bench/labels.py" digits 100 > "$scratch/labels"
label '100 pictures in plain digits' "$scratch/labels"
"$top/bench/labels.py" runs 100 > "$scratch/labels"
label '100 pictures in short runs' "$scratch/labels"

# runs ROWS: rows of 104 bytes by runs of codes, every fourth of which is the one above
runs() {
    for y in $(seq "$1"); do
        if [ $((y % 4)) = 0 ]; then
            printf ':'
        else
            for x in $(seq 13); do
                if [ $((x % 3)) = $((y % 3)) ]; then printf 'K0JFA5K0'; else printf 'C3H0JFN0'; fi
            done
        fi
    done
}

# one dot, 20 boxes, and a picture by runs: 100 labels, and 100 copies of one
printf '^GB1,1,1^FS' > "$scratch/dot"
for i in $(seq 20); do
    printf '^FO%s,%s^GB60,40,%s^FS' $((i * 97 % 700)) $((i * 7919 % 1200)) $((1 + i % 2 * 60))
done > "$scratch/boxes"
codes=$(runs 1218)
printf '^GFA,%s,126672,104,%s^FS' ${#codes} "$codes" > "$scratch/runs"
for kind in dot boxes runs; do
    formats 1 100 "$scratch/$kind" > "$scratch/labels"
    label "100 labels of $kind" "$scratch/labels"
    formats 100 1 "$scratch/$kind" > "$scratch/labels"
    label "100 copies of a label of $kind" "$scratch/labels"
done

# 10 boxes and 1,000 on 8,000 rows, and a text of as many bytes as a format holds
for boxes in 10 1000; do
    {
        printf '^LL8000'
        for i in $(seq "$boxes"); do printf '^FO%s,%s^GB60,40,2^FS' $((i * 97 % 700)) $((i * 7919 % 7950)); done
    } > "$scratch/fields"
    formats 100 1 "$scratch/fields" > "$scratch/labels"
    label "100 labels of 8,000 rows with $boxes boxes" "$scratch/labels"
done
{
    printf '^LL8000^A0N,16,12^FB480,9999,4,L^FD'
    for _ in $(seq 26214); do printf 'Nine byte '; done
    printf '^FS'
} > "$scratch/fields"
formats 1 1 "$scratch/fields" > "$scratch/labels"
label 'a text of 262,140 bytes' "$scratch/labels"
