#!/bin/sh
# A CUPS backend, called as CUPS does.
. "$(dirname "$0")/common.sh"
set -- "$vp" receipt --font-a "$root/examples/font-a.pbm" --font-b "$root/examples/font-b.pbm"
label="$vp label --font-a $root/examples/font-a.pbm"
"$@" examples/receipt.bin | recipes/paper "$room/receipt.png"
# shellcheck disable=SC2086
$label examples/shipping.zpl | recipes/paper "$room/shipping.png"
printf 'before\n\033\176after\n' >"$room/fault.bin"
export VP_PRINT="$*" DEVICE_URI="vp:$room/queue"
is 0 'what the backend offers' recipes/cups/vp
says '^direct vp:'
is 0 'a job from standard input' recipes/cups/vp 7 user title 1 '' <examples/receipt.bin
says '^INFO: 000001 printed$'
is 0 'two copies of a file' recipes/cups/vp 8 user title 2 '' examples/receipt.bin
cmp "$room/queue/000003.png" "$room/receipt.png"
is 5 'a job with a fault' recipes/cups/vp 9 user title 1 '' "$room/fault.bin"
says '^ERROR: 000004 vp: F1 after 9 bytes: unknown command 1B 7E$'
VP_PRINT=$label
is 0 'a label from standard input' recipes/cups/vp 10 user title 1 '' <examples/shipping.zpl
says '^INFO: 000005 printed$'
cmp "$room/queue/000005.png" "$room/shipping.png"
# without a command, in the job's language with the shipped sheets; of several labels a PNG each
unset VP_PRINT
export VP="$vp"
is 0 'a receipt without a command' recipes/cups/vp 11 user title 1 '' <examples/receipt.bin
is 0 'a label without a command' recipes/cups/vp 12 user title 1 '' <examples/shipping.zpl
cmp "$room/queue/000006.png" "$room/receipt.png"
cmp "$room/queue/000007.png" "$room/shipping.png"
printf '^XA^PW200^LL100^FO9,9^GB20,20,3^FS^PQ2^XZ' >"$room/two.zpl"
is 0 'two labels' recipes/cups/vp 13 user title 1 '' "$room/two.zpl"
[ -e "$room/queue/000008-1.png" ] && [ -e "$room/queue/000008-2.png" ] || fail 'not a PNG for each label'
for copies in x 0 '' -1 '1 2' 99999 "\$(touch $room/pwned)"; do
    is 5 "copies '$copies'" recipes/cups/vp 14 user title "$copies" '' examples/receipt.bin
    says '^ERROR: copies are a number from 1 to 9999, and not '
done
[ ! -e "$room/pwned" ] || fail 'copies were run'
is 5 'a file that is none' recipes/cups/vp 14 user title 1 '' "$room/none"
says '^ERROR: cannot read .*/none$'
[ ! -e "$room/queue/000009.bin" ] || fail 'a job of nothing is kept'
is 5 'a queue without a folder' env DEVICE_URI=vp: recipes/cups/vp 14 user title 1 '' <examples/receipt.bin
VP_PRINT="sh -c kill\${IFS}-9\${IFS}\$\$"
export VP_PRINT
is 5 'a command that is killed' recipes/cups/vp 14 user title 1 '' <examples/receipt.bin
says '^ERROR: 000009 sh was ended by SIGKILL$'
unset VP_PRINT
DEVICE_URI=vp:/dev/null/none
is 5 'a folder that cannot be' recipes/cups/vp 14 user title 1 '' <examples/receipt.bin
says '^ERROR: cannot write to /dev/null/none: Not a directory$'
echo 'a CUPS backend: ok'

# several files, and copies of each, by names and one behind the other as CUPS sends them
export DEVICE_URI="vp:$room/several"
is 0 'two copies of two files' recipes/cups/vp 15 user title 2 '' examples/receipt.bin examples/shipping.zpl
[ "$(cut -d ' ' -f 2- "$room/several/log" | uniq -c | tr -s ' ')" = ' 4 printed' ] || fail 'not four jobs'
for n in 1 2; do cmp "$room/several/00000$n.png" "$room/receipt.png"; done
for n in 3 4; do cmp "$room/several/00000$n.png" "$room/shipping.png"; done
mkdir "$room/spool"
cp examples/receipt.bin "$room/spool/d00016-001"
cp examples/shipping.zpl "$room/spool/d00016-002"
export CUPS_REQUESTROOT="$room/spool" DEVICE_URI="vp:$room/spooled"
cat examples/receipt.bin examples/receipt.bin examples/shipping.zpl examples/shipping.zpl >"$room/four"
is 0 'two copies of two files in one stream' recipes/cups/vp 16 user title 2 '' <"$room/four"
[ "$(wc -l <"$room/spooled/log")" -eq 4 ] || fail 'not four jobs of one stream'
cmp "$room/spooled/000002.png" "$room/receipt.png"
cmp "$room/spooled/000004.png" "$room/shipping.png"
# an address with escaped signs
DEVICE_URI="vp:$room/with%20a%20space%25"
is 0 'a folder with spaces' recipes/cups/vp 17 user title 1 '' examples/receipt.bin
cmp "$room/with a space%/000001.png" "$room/receipt.png"
DEVICE_URI="vp://$room/slashes"
is 0 'a folder behind three slashes' recipes/cups/vp 17 user title 1 '' examples/receipt.bin
[ -e "$room/slashes/000001.png" ] || fail 'three slashes are another folder'

# the state, by the words of CUPS: it waits for paper
DEVICE_URI="vp:$room/state"
mkdir "$room/state"
echo 'paper out, cover open' >"$room/state/state"
recipes/cups/vp 18 user title 1 '' examples/receipt.bin >"$room/said" 2>&1 &
server=$!
# until WHAT TEXT FILE: waits until a file has this
until_in() {
    for _ in $(seq 200); do
        ! grep -q -- "$2" "$3" 2>/dev/null || return 0
        sleep 0.1
    done
    cat "$3" >&2
    fail "it is never said: $1"
}
until_in 'what is wrong' '^STATE: +cover-open-error,media-empty-error$' "$room/said"
[ ! -e "$room/state/000001.png" ] || fail 'it prints without paper'
echo 'paper near end' >"$room/state/state"
wait "$server" || fail 'a job that waited for paper'
server=
grep -q '^STATE: +media-low-warning$' "$room/said" || fail 'paper near its end is not told'
grep -q '^STATE: -cover-open-error,media-empty-error$' "$room/said" || fail 'what is over is not told'
says '^INFO: 000001 printed$'
cmp "$room/state/000001.png" "$room/receipt.png"
# by a command of the user's, which prints all of it at the end, a job waits for paper too
cp "$vp" "$room/own"
DEVICE_URI="vp:$room/own-state"
mkdir "$room/own-state"
echo 'paper out' >"$room/own-state/state"
VP_PRINT="$room/own receipt --font-a $root/examples/font-a.pbm --font-b $root/examples/font-b.pbm" \
    recipes/cups/vp 18 user title 1 '' examples/receipt.bin >"$room/said" 2>&1 &
server=$!
until_in 'that paper is out' '^STATE: +media-empty-error$' "$room/said"
sleep 0.5
[ ! -e "$room/own-state/000001.png" ] || fail 'a command prints without paper'
echo ready >"$room/own-state/state"
wait "$server" || fail 'a command that waited for paper'
server=
cmp "$room/own-state/000001.png" "$room/receipt.png"
DEVICE_URI="vp:$room/state"
# a job that is cancelled while it waits has a line, and leaves nothing half done
echo 'paper out' >"$room/state/state"
recipes/cups/vp 19 user title 1 '' examples/receipt.bin >"$room/said" 2>&1 &
server=$!
until_in 'that paper is out' '^STATE: +media-empty-error$' "$room/said"
sleep 0.5
kill "$server"
wait "$server" || fail 'a job that is cancelled'
server=
grep -q '^000002 cut off: cancelled before it was printed$' "$room/state/log" || fail 'a cancelled job has no line'
cmp "$room/state/000002.bin" examples/receipt.bin
[ ! -e "$room/state/000002.png" ] && [ -z "$(find "$room/state" -name '.*' ! -name . -print)" ] || fail 'something stays'
echo 'a CUPS backend, several files, the state, cancelled: ok'
if command -v mypy >/dev/null; then
    MYPYPATH="$root/recipes/device:$root/python" is 0 'types of the backend' \
        mypy --strict --python-version 3.9 --cache-dir "$room/mypy" recipes/cups/vp
else
    left_out mypy
fi
