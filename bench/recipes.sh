#!/bin/sh
# Times recipes/many and recipes/golden on COUNT (1,000) copies of examples/receipt.bin, with the library in process and
# with a process for each stream: seconds, and milliseconds of processors a stream.
set -eu
cd "$(dirname "$0")/.."
count=${COUNT:-1000}
VP=$(tools/dist/program)
export VP
recipes/print --in-process "$VP" receipt || { echo "bench/recipes: $VP has no library beside it" >&2; exit 1; }
room=$(mktemp -d)
trap 'rm -rf "$room"' EXIT
mkdir "$room/streams"
for nth in $(seq "$count"); do cp examples/receipt.bin "$room/streams/$nth.bin"; done
recipes/golden accept "$room/streams" "$room/expected" >/dev/null

# timed WHAT COMMAND..: what it takes
timed() {
    what=$1
    shift
    TIMEFORMAT='%R %U %S' bash -c 'time "$@" >/dev/null' bash "$@" 2>&1 |
        awk -v what="$what" -v count="$count" '{ printf "%-28s %6.2f s %8.2f ms\n", what, $1, 1000 * ($2 + $3) / count }'
}
for way in yes no; do
    export VP_IN_PROCESS="$way"
    in='in process'
    [ "$way" = yes ] || in='a process each'
    timed "many, $in" recipes/many "$room/streams" "$room/out.$way"
    timed "many --sums, $in" recipes/many --sums "$room/streams" "$room/sums.$way"
    timed "golden check, $in" recipes/golden check "$room/streams" "$room/expected"
done
diff -r -x .vp-many "$room/out.yes" "$room/out.no" && cmp "$room/sums.yes/sums.txt" "$room/sums.no/sums.txt"
