#!/bin/sh
# How long labels and receipts take that are made to hold the program up: bench/hostile.sh [VP [SECONDS]], with the program
# that ./vp runs, and the most seconds that a stream may take (60). Labels, and receipts that lay large things, are timed
# beside 1,024 boxes over a whole label, which are 24 kB; receipts that print nothing by the million bytes. The times are
# those of the machine it runs on; the ratios are what to look at.
set -eu
top=$(cd "$(dirname "$0")/.." && pwd)
vp=${1:-$("$top/tools/dist/program")}
limit=${2:-60}
font=$top/examples/font-a.pbm
# what is printed stays in memory
scratch=$(mktemp -d -p /dev/shm)
trap 'rm -rf "$scratch"' EXIT

# repeated NUMBER TEXT: the text so many times
repeated() {
    printf '%s\n' "$2" | awk -v number="$1" '{ for (i = 0; i < number; i++) printf "%s", $0 }'
}

# once LANGUAGE FILE: the milliseconds for what is in a file; fails if it ends too late, or, and says so, is refused
once() {
    start=$(date +%s%N)
    timeout "$limit" "$vp" "$1" --font-a "$font" "$2" > "$scratch/paper" \
        || { [ $? = 124 ] || echo refused; return 1; }
    end=$(date +%s%N)
    echo $(((end - start) / 1000000))
}

# took LANGUAGE FILE: the same, the least of three runs
took() {
    for _ in 1 2 3; do once "$1" "$2" || break; done | sort -n | head -1
}

# measure NAME HEAD NUMBER FIELD: a format of a head and as many fields, beside the boxes
measure() {
    { printf '^XA^LL8000%s' "$2"; repeated "$3" "$4"; printf '^XZ'; } > "$scratch/format"
    compare "$1"
}

# compare NAME [LANGUAGE]: what is in the file, in turn with the boxes, since a machine isn't always as fast: the least of
# three runs of each, and of nine where that is more than it may be (10 times the boxes for a label, 15 for a receipt)
compare() {
    most=10
    [ "${2:-label}" = label ] || most=15
    for _ in 1 2 3 4 5 6 7 8 9; do
        once label "$scratch/boxes" >> "$scratch/beside" || :
        once "${2:-label}" "$scratch/format" >> "$scratch/times" || break
        boxes=$(sort -n "$scratch/beside" | head -1)
        now=$(sort -n "$scratch/times" | head -1)
        [ "$(wc -l < "$scratch/times")" -lt 3 ] || [ "$now" -gt $((most * ${boxes:-0})) ] || break
    done
    boxes=$(sort -n "$scratch/beside" | head -1)
    now=$(sort -n "$scratch/times" | head -1)
    rm "$scratch/beside" "$scratch/times"
    if [ "$now" = refused ]; then
        echo "$1: refused" >&2
        exit 1
    elif [ -z "$now" ]; then
        echo "$1: more than $limit s"
    else
        echo "$now $boxes" \
            | awk -v name="$1" '{ printf "%s: %d ms, %.1f times the boxes\n", name, $1, $1 / $2 }'
    fi
}

{ printf '^XA^PW1248^LL8000'; repeated 1024 '^FR^GB1248,8000,8000^FS'; printf '^XZ'; } > "$scratch/boxes"
boxes=$(took label "$scratch/boxes")
case $boxes in
    "") echo "1,024 boxes: more than $limit s" >&2; exit 1 ;;
    refused) echo "1,024 boxes: refused" >&2; exit 1 ;;
esac
echo "1,024 boxes of 1,248 by 8,000: $boxes ms"

white='^FT0,8000^GFA,,99999999,1^FS'
measure 'a white picture of 100,000,000 rows, turned' '^POI' 1 "$white"
measure 'the same, upright' '' 1 "$white"
measure '1,024 of them, turned' '^POI' 1024 "$white"

# codes NAME CODES: a turned picture of 100,000,000 rows of one byte, of codes that stand in a file
codes() {
    {
        printf '^XA^LL8000^POI^FT0,8000^GFA,%s,99999999,1,' "$(wc -c < "$2")"
        cat "$2"
        printf '^FS^XZ'
    } > "$scratch/format"
    compare "$1"
}
{ repeated 261999 z; printf 'F'; } > "$scratch/codes"
codes '262,000 codes of one run, turned' "$scratch/codes"
{ printf 'F0'; repeated 262000 :; } > "$scratch/codes"
codes '262,000 rows like the first, turned' "$scratch/codes"

measure '1,024 pictures of 1,024 bytes by 8,000 rows, turned' '^PW1248^POI' 1024 \
    '^GFA,8192000,8192000,1024,FF^FS'
measure '1,024 pictures of 240 codes, turned' '^PW1248^POI' 1024 \
    "^GFA,8192000,8192000,1024,$(repeated 80 'F,:')^FS"

cells=$(repeated 254 A)
measure 'a turned block of 262,000 cells on a column' '^PW1' 1 \
    "^FB32000,1^A0R,1500,1^FD$(repeated 262000 A)^FS"
measure '1,024 turned texts of 254 cells' '^PW1248' 1024 "^A0R,1500,30^FD$cells^FS"
measure '1,024 blocks of lines over each other' '^PW1248' 1024 "^FB1,9999,-9999^A0N,1500,1^FD$cells^FS"
measure '1,024 turned blocks of an empty paragraph' '^PW1248' 1024 '^A0B,31,1500^FB8000,33,-1,C^FD\&^FS'
measure 'a block of 87,000 paragraphs' '^PW1248' 1 \
    "^FB32000,9999,-9999^A0N,1500,1^FD$(repeated 87000 'A\&')^FS"
measure '1,024 turned blocks of 100 empty paragraphs' '^PW1248' 1024 \
    "^A0B,31,1500^FB8000,9999,0,L^FD$(repeated 100 '\&')^FS"
measure '1,024 turned blocks of 33 lines' '^PW1248' 1024 \
    "^A0B,31,1500^FB8000,9999,0,L^FD$(repeated 33 'AAAAA\&')^FS"
measure '1,024 turned blocks of 51 lines that wrap' '^PW1248' 1024 "^A0B,24,1500^FB8000,9999,0,L^FD$(repeated 255 A)^FS"
measure '1,024 turned blocks of 51 lines five dots apart' '^PW1248' 1024 \
    "^A0B,1500,1500^FB8000,9999,-1495,L^FD$(repeated 255 A)^FS"
measure 'the same, of characters of many strokes' '^PW1248' 1024 \
    "^A0B,1500,1500^FB8000,9999,-1495,L^FD$(repeated 255 @)^FS"
measure 'the same, no line as the one above' '^PW1248' 1024 \
    "^A0B,1500,1500^FB8000,9999,-1495,L^FD$(repeated 25 'AAAAA@@@@@')AAAAA^FS"
measure 'the same, three lines in turn' '^PW1248' 1024 \
    "^A0B,1500,1500^FB8000,9999,-1495,L^FD$(repeated 17 'AAAAA@@@@@MMMMM')^FS"
# each line of another character, from ! on without those that mean something to the reader
lines=$(awk 'BEGIN { for (i = 33; i < 85; i++) { c = sprintf("%c", i); printf "%s%s%s%s%s", c, c, c, c, c } }')
# (of 260 bytes of data no label takes more)
measure 'the same, each line another' '^PW1248' 1008 "^A0B,1500,1500^FB8000,9999,-1495,L^FD$lines^FS"
measure 'the same on a label of 32 dots' '^PW32' 1008 "^A0B,1500,1500^FB8000,9999,-1495,L^FD$lines^FS"
words=$(repeated 200 A)
measure 'a turned block of lines of three cells over each other' '^PW1248' 1 \
    "^A0R,1500,1500^FB5000,10,0,R^FD$(repeated 1300 "$words ")^FS"
measure 'a turned block of 131,000 empty paragraphs' '^PW1248' 1 \
    "^A0R,1500,1^FB8000,9999,-9999^FD$(repeated 131000 '\&')^FS"
measure 'a turned block of 87,000 paragraphs' '^PW1248' 1 \
    "^A0R,1500,1^FB32000,9999,-9999^FD$(repeated 87000 'A\&')^FS"
measure 'the same, lines a dot apart' '^PW1248' 1 \
    "^A0R,1500,1^FB32000,9999,-1499^FD$(repeated 87000 'A\&')^FS"
measure 'a block of 262,000 lines, two of them a dot apart' '^PW1248' 1 \
    "^A0N,1500,1^FB1,2,-1499^FD$(repeated 262000 A)^FS"
measure 'a block of 87,000 paragraphs, two lines a dot apart' '^PW1248' 1 \
    "^A0N,1500,1^FB32000,2,-1499^FD$(repeated 87000 'A\&')^FS"
measure '1,024 blocks of 250 wide lines a dot apart' '^PW1248' 1024 \
    "^A0N,1500,1248^FB1248,9999,-1499^FD$(repeated 250 A)^FS"

digits=$(repeated 238 7)
measure '1,020 turned Code 128 symbols of 238 bytes' '^PW1248' 1020 "^BY1^BCR,1248,N^FD>:$digits^FS"
measure '1,000 Code 128 symbols of 8,000 rows' '^PW1248' 1000 "^BY1^BCN,8000,N^FD>:$(repeated 234 A)^FS"
measure '1,024 QR symbols of 250 bytes' '^PW1248' 1024 "^BQN,2,10^FDLA,$(repeated 250 a)^FS"

# copies of a label of one dot, which is painted once
single='^PW1^LL1^PQ100'
all_cells="^A0R,1500,1^FB1,9999,-9999^FD$(repeated 262000 A)^FS"
measure '100 copies of a dot of a turned block of 262,000 cells' "$single" 1 "$all_cells"
measure 'the same, of lines a dot apart' "$single" 1 "^FT0,0^A0R,1,1^FB1,9999,0^FD$(repeated 262000 A)^FS"
measure 'the same of 131,000 lines' "$single" 1 "^A0R,1500,1^FB3,9999,-9999^FD$(repeated 131000 'A ')^FS"
measure '2,000 copies of a dot of a picture of 262,000 rows, turned' '^PW1^LL1^PQ2000^POI' 1 \
    "^FT0,1^GFA,,99999999,1,F0$(repeated 262000 :)^FS"

# and of one of two bands, each of which is painted for each copy
measure '242 copies of a turned block of 87,000 paragraphs' '^PW1248^LL33^PQ242' 1 \
    "^A0R,1500,1^FB32000,9999,-9999^FD$(repeated 87000 'A\&')^FS"
measure 'the same of 1,020 turned blocks' '^PW1^LL33^PQ242' 1020 "^A0R,1500,1^FB1,9999,-9999^FD$cells^FS"

# begun NAME HEAD FIELD: the first million bytes of a hundred million copies
begun() {
    { printf '^XA%s^PQ99999999' "$2"; repeated 1 "$3"; printf '^XZ'; } > "$scratch/format"
    start=$(date +%s%N)
    timeout "$limit" "$vp" label --font-a "$font" "$scratch/format" 2> "$scratch/said" \
        | head -c 1000000 > "$scratch/paper"
    end=$(date +%s%N)
    if [ "$(wc -c < "$scratch/paper")" = 1000000 ]; then
        echo "$1: $(((end - start) / 1000000)) ms for 1,000,000 bytes"
    else
        echo "$1: more than $limit s"
    fi
}
begun '99,999,999 copies of a dot of a turned block of 262,000 cells' '^PW1^LL1' "$all_cells"
begun 'the same of 32 rows' '^PW1^LL32' "$all_cells"

# page NAME KIND: a million bytes of a receipt that prints nothing
page() {
    "$top/bench/receipts.py" "$2" 1000000 > "$scratch/format"
    now=$(took receipt "$scratch/format")
    if [ "$now" = refused ]; then
        echo "$1: refused" >&2
        exit 1
    elif [ -z "$now" ]; then
        echo "$1: more than $limit s"
    else
        echo "$1: $now ms for 1,000,000 bytes"
    fi
}
page 'a page wiped over and over' wipes
page 'two areas of it wiped in turn' wiped-areas
page 'each of its characters wiped' wiped-characters
page 'pages begun and left' pages-begun
page 'the largest characters over each other' largest-characters
page 'the largest characters over each other, upward' largest-upward
page 'a QR symbol of 250 bytes over itself' codes

# laid NAME KIND: 300,000 bytes of a receipt that lay lines and symbols over a whole page, beside the boxes
laid() {
    "$top/bench/receipts.py" "$2" 300000 > "$scratch/format"
    compare "$1" receipt
}
laid 'three of the widest lines and a wipe' widest-right
laid 'the same, upward' widest-up
laid 'the same, from the right' widest-left
laid 'the same, downward' widest-down
laid 'three lines that leave some dots white, and a wipe' nearly-widest-right
laid 'the same, upward' nearly-widest-up
laid 'the same, from the right' nearly-widest-left
laid 'the same, downward' nearly-widest-down
laid 'three lines that are underlined up to there, upward' underlined-up
laid 'the same, downward' underlined-down
laid 'the widest lines alone, upward' widest-alone
laid 'four of font B and a wipe, upward' widest-of-font-b
laid 'a QR symbol of 912 dots and a wipe, upward' large-codes-up
laid 'the same, downward' large-codes-down
laid 'two bar codes of 255 rows and a wipe, downward' tall-bars-down
