#!/bin/sh
# Calls the library for C: the same bytes, lines and statuses as the program's, of the examples and of random streams whose
# input and output are cut at random, half of them by a printer that took a front of the stream before and began anew;
# under valgrind and AddressSanitizer; with no memory taken after vp_new, and there as much as vp_memory tells; on 8
# threads.
# It runs the examples in C and PHP. COUNT=5000 takes so many streams of each language in place of 100.
# checks/in-process.sh time says how long a print takes in process, and beside it a process of vp.
set -eu
export LC_ALL=C
cd "$(dirname "$0")/.."
root=$PWD library=$PWD/dist a=$PWD/examples/font-a.pbm b=$PWD/examples/font-b.pbm
count=${COUNT:-100}
vp=${VP:-$(tools/dist/program)}
room=$(mktemp -d)
trap 'rm -rf "$room"' EXIT
fail() {
    echo "checks/in-process: $1" >&2
    exit 1
}
# is STATUS WHAT COMMAND..: whether a command ends with this status; says TEXT: whether it said that, by grep
is() {
    expected=$1 what=$2 status=0
    shift 2
    "$@" >"$room/said" 2>&1 || status=$?
    [ "$status" -eq "$expected" ] || { cat "$room/said" >&2; fail "$what: status $status in place of $expected"; }
}
says() { grep -q -- "$1" "$room/said" || { cat "$room/said" >&2; fail "it doesn't say: $1"; }; }
left_out() {
    echo "checks/in-process: left out: no $1"
    [ -z "${VP_LEFT_OUT:-}" ] || echo "in-process $1" >>"$VP_LEFT_OUT"
}
needs() { command -v "$1" >/dev/null || { left_out "$1" && return 1; }; }
needs cc || exit 0

# built NAME FLAG..: makes the caller under this name
built() {
    made=$1
    shift
    cc -std=c11 -Wall -Wextra -Werror "$@" -lpthread -o "$room/$made"
}
built shared -O2 checks/in-process.c "$library/libvp.so"
ln -s "$library/libvp.so" "$room/libvp.so.1"
export LD_LIBRARY_PATH="$room"
if [ "${1:-}" = time ]; then
    # microseconds of a process, the least of some
    process=$(python3 - "$vp" "$a" "$b" <<'END'
import subprocess, sys, time
words = [sys.argv[1], "receipt", "--font-a", sys.argv[2], "--font-b", sys.argv[3], "examples/receipt.bin"]
best = 1e9
for _ in range(200):
    start = time.perf_counter()
    subprocess.run(words, stdout=subprocess.DEVNULL, check=True)
    best = min(best, time.perf_counter() - start)
print(round(best * 1e6))
END
)
    "$room/shared" time "$a" "$b" examples/receipt.bin 2000 | while read -r whole new; do
        echo "examples/receipt.bin: $whole microseconds in process, of which vp_new takes $new; a process takes $process"
    done
    exit 0
fi
built counted -O2 -DCOUNTED -Wl,--wrap=malloc,--wrap=realloc,--wrap=free checks/in-process.c "$library/libvp.a"

# what is shown, and that C and C++ read the header
if needs nm; then
    declared=$(sed -n 's/^[a-z0-9_]* \(vp_[a-z_]*\)(.*/\1/p' include/vp.h | LC_ALL=C sort)
    [ "$(nm -D --defined-only "$library/libvp.so" | sed -n 's/@@VP_1$//; s/.* T //p' | LC_ALL=C sort)" = "$declared" ] || fail 'libvp.so shows other names'
    [ "$(nm -g --defined-only "$library/libvp.a" | sed -n 's/.* [A-Z] //p' | LC_ALL=C sort)" = "$declared" ] || fail 'libvp.a shows other names'
fi
printf '#include <vp.h>\n' >"$room/c90.c"
cc -std=c99 -pedantic -Wall -Wextra -Werror -Iinclude -fsyntax-only "$room/c90.c"
if needs c++; then c++ -Wall -Wextra -Werror -Iinclude -fsyntax-only -x c++ "$room/c90.c"; fi

# compared CALLER LANGUAGE STREAM SEED: whether the library prints, says and answers what the program does
compared() {
    second=$b
    case $2 in
    receipt) set -- "$@" receipt --font-a "$a" --font-b "$b" ;;
    receipt58) set -- "$@" receipt --width 384 --font-a "$a" --font-b "$b" ;;
    whole) set -- "$@" receipt --whole --font-a "$a" --font-b "$b" ;;
    whole58) set -- "$@" receipt --whole --width 384 --font-a "$a" --font-b "$b" ;;
    list-whole) set -- "$@" list --lang receipt --whole ;;
    offsets-whole) set -- "$@" list --lang receipt --whole --offsets ;;
    wholelabel) set -- "$@" label --whole --font-a "$a" && second=- ;;
    list-wholelabel) set -- "$@" list --lang label --whole ;;
    label) set -- "$@" label --font-a "$a" && second=- ;;
    list-*) set -- "$@" list --lang "${2#list-}" ;;
    offsets-*) set -- "$@" list --offsets --lang "${2#offsets-}" ;;
    esac
    caller=$1 language=$2 stream=$3 seed=$4 wanted=0 status=0
    shift 4
    "$vp" "$@" "$stream" >"$room/wanted" 2>"$room/wanted.line" || wanted=$?
    "$room/$caller" print "$language" "$a" "$second" "$stream" "$seed" >"$room/printed" 2>"$room/said" || status=$?
    [ "$status" = "$wanted" ] && cmp -s "$room/wanted" "$room/printed" && cmp -s "$room/wanted.line" "$room/said" && return 0
    cp "$stream" "$root/out/differs" 2>/dev/null || true
    cat "$room/said" >&2
    fail "$caller, $language, $stream, seed $seed: status $status, the program's $wanted (out/differs)"
}
for caller in shared counted; do
    is 0 "bad calls of $caller" "$room/$caller" bad
    for stream in examples/*.bin; do
        for language in receipt receipt58 whole whole58 list-receipt offsets-receipt list-whole offsets-whole; do
            compared "$caller" "$language" "$stream" 1
        done
    done
    for stream in examples/*.zpl; do
        for language in label wholelabel list-label offsets-label list-wholelabel; do
            compared "$caller" "$language" "$stream" 1
        done
    done
done
mkdir "$room/streams"
python3 checks/streams.py "$room/streams" "$count"
nth=0
for stream in "$room/streams"/*; do
    nth=$((nth + 1))
    case $stream in *.bin) languages='receipt receipt58 whole list-receipt list-whole' ;; *) languages='label wholelabel offsets-label' ;; esac
    for language in $languages; do compared counted "$language" "$stream" "$nth"; done
done
echo "the examples and $nth random streams, cut at random, without memory behind vp_new: ok"

is 0 '8 threads' "$room/shared" threads "$a" "$b" examples/receipt.bin 20
echo '8 threads with a printer each: ok'

if built watched -g -O1 -fsanitize=address,undefined -fno-sanitize-recover checks/in-process.c "$library/libvp.a" 2>"$room/said"; then
    is 0 'bad calls, watched' "$room/watched" bad
    for stream in examples/*.bin "$room/streams/receipt-"[1-5].bin; do compared watched receipt "$stream" 2; done
    for stream in examples/*.zpl "$room/streams/label-"[1-5].zpl; do compared watched label "$stream" 2; done
    echo 'with a caller that AddressSanitizer watches: ok'
else
    left_out libasan
fi
if needs valgrind; then
    unset LD_LIBRARY_PATH
    built plain -g -O1 checks/in-process.c "$library/libvp.a"
    for words in bad "print receipt $a $b examples/receipt.bin 3" "print label $a - examples/shelf.zpl 3" \
        "print receipt $a $b $room/streams/receipt-1.bin 3" "threads $a $b examples/first.bin 2"; do
        # shellcheck disable=SC2086
        valgrind -q --error-exitcode=9 --leak-check=full "$room/plain" $words >"$room/printed" 2>"$room/said" ||
            [ $? = 1 ] || { cat "$room/said" >&2; fail "valgrind: $words"; }
    done
    echo 'under valgrind: ok'
fi

# the examples
"$vp" receipt --font-a "$a" --font-b "$b" examples/receipt.bin >"$room/wanted"
cc -std=c11 -Wall -Wextra -Werror -Iinclude examples/c/print.c "$library/libvp.a" -o "$room/print"
"$room/print" receipt examples/receipt.bin "$a" "$b" | cmp - "$room/wanted"
printf 'ab\033\177' >"$room/fault.bin"
is 1 'the example in C, of a fault' "$room/print" receipt "$room/fault.bin"
says '^vp: F1 after 4 bytes: unknown command 1B 7F$'
is 3 'the example in C, of a sheet that is none' "$room/print" label "$room/fault.bin" "$room/fault.bin"
says '^print: S1 not P4$'
cc -std=c11 -Wall -Wextra -Werror -Iinclude examples/c/room.c "$library/libvp.a" -o "$room/room"
"$vp" receipt examples/receipt.bin >"$room/wanted"
"$room/room" examples/receipt.bin | cmp - "$room/wanted"
is 1 'the example without a heap, of a fault' "$room/room" "$room/fault.bin"
echo 'the examples in C: ok'
if needs php; then
    "$vp" receipt --font-a "$a" examples/receipt.bin >"$room/wanted"
    export VP_HEADER="$root/include/vp.h" VP_LIBRARY="$library/libvp.so"
    php examples/php/print.php examples/receipt.bin "$a" | cmp - "$room/wanted"
    is 1 'the example in PHP, of a fault' php examples/php/print.php "$room/fault.bin"
    says '^vp: F1 after 4 bytes: unknown command 1B 7F$'
    echo 'the example in PHP: ok'
fi
