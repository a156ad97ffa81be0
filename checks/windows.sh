#!/bin/sh
# Runs what dist/ has for Windows by wine64: vp.exe does what the program must do (checks/program.py), prints the examples as
# dist/vp does, and takes names in any letters and of any length; a program in C that mingw-w64 links with vp.lib prints them
# by vp.dll, of input and output cut at random, and is told what no program should do (checks/in-process.c).
set -eu
cd "$(dirname "$0")/.."
room=$(mktemp -d)
fail() {
    echo "checks/windows: $1" >&2
    exit 1
}
left_out() {
    echo "checks/windows: left out: no $1"
    [ -z "${VP_LEFT_OUT:-}" ] || echo "windows $1" >>"$VP_LEFT_OUT"
}
wine=$(PATH=$PATH:/usr/lib/wine command -v wine64) || { rm -r "$room" && left_out wine64 && exit 0; }
export WINEPREFIX="$room/wine" WINEDEBUG=-all WINEDLLOVERRIDES='mscoree=;mshtml=' LC_ALL=C.UTF-8
server=$(PATH=$PATH:/usr/lib/wine command -v wineserver) || server=
finish() {
    [ -z "$server" ] || "$server" -k -w || true
    rm -rf "$room"
}
trap finish EXIT
trap 'exit 1' HUP INT TERM
printf '#!/bin/sh\nexec %s %s/dist/vp.exe "$@"\n' "$wine" "$PWD" >"$room/vp"
chmod 755 "$room/vp"
# (the server stays between two programs; the first start makes the prefix, and says so)
mkdir "$WINEPREFIX"
[ -z "$server" ] || "$server" -p
"$room/vp" --version >"$room/printed" 2>"$room/said" || { cat "$room/said" >&2 && fail 'vp.exe does not start'; }
dist/vp --version | cmp - "$room/printed" || fail 'vp.exe --version'

VP=$room/vp checks/program.py >"$room/said" 2>&1 || { cat "$room/said" >&2 && fail 'vp.exe: checks/program.py'; }
a=$PWD/examples/font-a.pbm b=$PWD/examples/font-b.pbm

# same WORDS..: whether vp.exe prints, says and answers what dist/vp does
same() {
    wanted=0 status=0
    dist/vp "$@" >"$room/wanted" 2>"$room/line" || wanted=$?
    "$room/vp" "$@" >"$room/printed" 2>"$room/said" || status=$?
    [ "$status" = "$wanted" ] && cmp -s "$room/wanted" "$room/printed" && cmp -s "$room/line" "$room/said" && return 0
    cat "$room/said" >&2
    fail "vp.exe $*: status $status, and $wanted"
}
for stream in examples/*.bin; do same receipt --font-a "$a" --font-b "$b" "$stream"; done
for stream in examples/*.zpl; do same label --font-a "$a" "$stream"; done
name="$room/Grüße € 𝄞 2.zpl"
deep=$room
for nth in 1 2 3 4 5; do deep=$deep/$(printf "%060d" "$nth"); done
mkdir -p "$deep"
cp examples/shelf.zpl "$deep/label.zpl"
cp examples/shelf.zpl "$name"
same list --lang label "$name"
same list --lang label "$deep/label.zpl"
same list --lang label "$deep/Grüße.zpl"
same list --lang "a \"b\\\" \\\\ c\\"
(cd "$deep" && printf '\033\177' | "$room/vp" receipt >"$room/printed" 2>"$room/said") && fail 'a fault has status 0'
grep -q '^vp: F1 after 2 bytes: unknown command 1B 7F$' "$room/said" || fail 'a fault is not told'
echo 'vp.exe: ok'

if ! command -v x86_64-w64-mingw32-gcc >/dev/null; then
    left_out x86_64-w64-mingw32-gcc
    exit 0
fi
x86_64-w64-mingw32-gcc -std=c11 -O1 -Wall -Wextra -Werror -D__USE_MINGW_ANSI_STDIO=1 checks/in-process.c dist/vp.lib \
    -static -lpthread -o "$room/caller.exe" 2>"$room/said" || { cat "$room/said" >&2 && fail 'it is not linked with vp.lib'; }
cp dist/vp.dll "$room"
"$wine" "$room/caller.exe" bad || fail "bad calls: status $?"
"$wine" "$room/caller.exe" threads "$a" "$b" examples/receipt.bin 5 || fail "8 threads: status $?"
# printed LANGUAGE STREAM SEED WORDS..: whether the library prints and says what dist/vp does
printed() {
    language=$1 stream=$2 seed=$3 second=$b wanted=0 status=0
    shift 3
    [ "$language" != label ] || second=-
    dist/vp "$@" "$stream" >"$room/wanted" 2>"$room/line" || wanted=$?
    "$wine" "$room/caller.exe" print "$language" "$a" "$second" "$stream" "$seed" >"$room/printed" 2>"$room/said" || status=$?
    [ "$status" = "$wanted" ] && cmp -s "$room/wanted" "$room/printed" && cmp -s "$room/line" "$room/said" && return 0
    cat "$room/said" >&2
    fail "vp.dll: $stream: status $status, and $wanted"
}
for stream in examples/*.bin; do printed receipt "$stream" 1 receipt --font-a "$a" --font-b "$b"; done
for stream in examples/*.zpl; do printed label "$stream" 1 label --font-a "$a"; done
echo 'vp.dll: ok'
