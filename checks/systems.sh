#!/bin/sh
# Runs what dist/ has for other systems than its program's, but for Windows (checks/windows.sh) and WebAssembly: vp-static and
# vp-aarch64 do what the program must do (checks/program.py), print the examples and need no file of the system, and vp-static
# does so in as little memory (checks/examples.sh). libvp-aarch64.so prints the examples too. What is for ARM runs by
# qemu-aarch64, where that is installed. libvp.so and libvp.a print with musl, and processors that lack what program and
# library need are told so. Programs for macOS are read, and not run (macho.py). Our C below all is tried by itself: copies and
# numbers beside the compiler's (systems.c), and both heaps (heap.c, blocks.c). What is written out for other machines is tried
# beside the processor's own (pairs.c), where the toolchain is, whose language it is in.
set -eu
cd "$(dirname "$0")/.."
room=$(mktemp -d)
trap 'rm -rf "$room"' EXIT
fail() {
    echo "checks/systems: $1" >&2
    exit 1
}
left_out() {
    echo "checks/systems: left out: no $1"
    [ -z "${VP_LEFT_OUT:-}" ] || echo "systems $1" >>"$VP_LEFT_OUT"
}

# tried PROGRAM CHECK: whether a check of the program passes with this one
tried() { VP=$1 "$2" >"$room/said" 2>&1 || { cat "$room/said" >&2; fail "${1##*/}: $2"; }; }
if command -v cc >/dev/null && [ "$(uname -m)" = x86_64 ]; then
    cc -O1 -Wall -Wextra -Werror checks/systems.c -o "$room/systems"
    "$room/systems"
    cc -O1 -Wall -Wextra -Werror -static -nostdlib -ffreestanding -fno-builtin -fno-stack-protector \
        checks/heap.c tools/systems/linux.c tools/systems/bytes.c -o "$room/heap"
    "$room/heap" || fail "the heap: status $?"
    cc -O1 -Wall -Wextra -Werror -fno-builtin -Dmalloc=block_malloc -Drealloc=block_realloc -Dfree=block_free \
        checks/heap.c checks/blocks.c -o "$room/blocks"
    "$room/blocks" || fail "the module's heap: status $?"
    echo 'the heaps: ok'
    if command -v rt >/dev/null; then
        kit=$(dirname "$(dirname "$(readlink -f "$(command -v rt)")")")
        sed 's/^define internal/define/' tools/systems/pairs.ll >"$room/pairs.ll"
        "$kit/toolchain/bin/clang" -O2 -march=x86-64 -Wno-override-module -c "$room/pairs.ll" -o "$room/pairs.o"
        cc -O1 -Wall -Wextra -Werror -mssse3 checks/pairs.c "$room/pairs.o" -o "$room/pairs"
        "$room/pairs"
    else
        echo "checks/systems: what is written out for other machines isn't tried without rt, whose language it is in"
    fi
else
    left_out cc
fi
for name in vp-static vp-aarch64; do
    if grep -q 'ld-linux\|libc\.so' "dist/$name"; then fail "$name names a library of the system"; fi
done
for check in ./checks/program.py ./checks/examples.sh; do tried "$PWD/dist/vp-static" "$check"; done
status=0
# shellcheck disable=SC3045
(ulimit -v 1400 && exec dist/vp-static label examples/shelf.zpl) >"$room/printed" 2>"$room/said" || status=$?
[ "$status $(cat "$room/said")" = '4 vp: out of memory' ] || fail "memory that is refused: status $status, $(cat "$room/said")"
if [ "$(id -u)" = 0 ] && command -v chroot >/dev/null; then
    mkdir "$room/root"
    cp dist/vp-static "$room/root/vp"
    cp examples/font-a.pbm examples/shelf.zpl "$room/root"
    chroot "$room/root" /vp label --font-a font-a.pbm shelf.zpl >"$room/printed"
    dist/vp label --font-a examples/font-a.pbm examples/shelf.zpl | cmp - "$room/printed" || fail 'an empty root'
else
    echo 'not tested: vp-static in a root that is empty, which takes root'
fi
echo 'vp-static: ok'
./checks/macho.py dist/vp-macos-arm64 dist/vp-macos-x86_64

# prints LIBRARY STREAM COMMAND..: whether a caller of the library (checks/in-process.c) prints and says what dist/vp does
prints() {
    library=$1 stream=$2 wanted=0 status=0
    shift 2
    case $stream in
    *.zpl) language=label second=- words='' ;;
    *) language=receipt second=examples/font-b.pbm words='--font-b examples/font-b.pbm' ;;
    esac
    # shellcheck disable=SC2086
    dist/vp "$language" --font-a examples/font-a.pbm $words "$stream" >"$room/wanted" 2>"$room/line" || wanted=$?
    "$@" print "$language" examples/font-a.pbm "$second" "$stream" 1 >"$room/printed" 2>"$room/said" || status=$?
    [ "$status" = "$wanted" ] && cmp -s "$room/wanted" "$room/printed" && cmp -s "$room/line" "$room/said" && return 0
    cat "$room/said" >&2
    fail "$library: $stream: status $status, and $wanted"
}
# library NAME COMMAND..: whether it prints the examples, and is told what no program should do
library() {
    name=$1
    shift
    "$@" bad || fail "$name: bad calls: status $?"
    for stream in examples/*.zpl examples/*.bin; do prints "$name" "$stream" "$@"; done
    echo "$name: ok"
}
# calls COMPILER CALLER LIBRARY..: makes the caller of a library
calls() {
    compiler=$1 caller=$2
    shift 2
    "$compiler" -std=c11 -O1 -Wall -Wextra -Werror checks/in-process.c "$@" -lpthread -o "$room/$caller"
}
if command -v qemu-aarch64 >/dev/null; then
    printf '#!/bin/sh\nexec qemu-aarch64 %s/dist/vp-aarch64 "$@"\n' "$PWD" >"$room/vp-aarch64"
    chmod 755 "$room/vp-aarch64"
    tried "$room/vp-aarch64" ./checks/program.py
    for stream in examples/*.zpl examples/*.bin; do
        case $stream in *.zpl) set -- label ;; *) set -- receipt --font-b examples/font-b.pbm ;; esac
        dist/vp "$@" --font-a examples/font-a.pbm "$stream" >"$room/printed"
        "$room/vp-aarch64" "$@" --font-a examples/font-a.pbm "$stream" | cmp - "$room/printed" || fail "vp-aarch64: $stream"
    done
    echo 'vp-aarch64: ok'
    if command -v aarch64-linux-gnu-gcc >/dev/null; then
        calls aarch64-linux-gnu-gcc on-arm dist/libvp-aarch64.so
        mkdir "$room/arm"
        cp dist/libvp-aarch64.so "$room/arm/libvp.so.1"
        library libvp-aarch64.so qemu-aarch64 -L /usr/aarch64-linux-gnu -E "LD_LIBRARY_PATH=$room/arm" "$room/on-arm"
    else
        left_out aarch64-linux-gnu-gcc
    fi
else
    left_out qemu-aarch64
fi
mkdir "$room/here"
cp dist/libvp.so "$room/here/libvp.so.1"
if command -v musl-gcc >/dev/null; then
    calls musl-gcc with-musl dist/libvp.so
    library 'libvp.so with musl' env "LD_LIBRARY_PATH=$room/here" "$room/with-musl"
    calls musl-gcc all-in-one -static dist/libvp.a
    library 'libvp.a with musl' "$room/all-in-one"
else
    left_out musl-gcc
fi
# a processor that lacks what is needed: the program says so, and glibc's loader does for the library
if command -v qemu-x86_64 >/dev/null && command -v cc >/dev/null; then
    calls cc with-glibc dist/libvp.so
    for program in vp vp-static; do
        qemu-x86_64 -cpu core2duo "dist/$program" --version >"$room/printed" 2>"$room/said" && fail "$program on an old processor"
        grep -q 'lacks a feature of x86-64-v2' "$room/said" || fail "$program doesn't say what the processor lacks"
    done
    qemu-x86_64 -cpu core2duo -E "LD_LIBRARY_PATH=$room/here" "$room/with-glibc" bad 2>"$room/said" && fail 'libvp.so on an old processor'
    grep -q 'CPU ISA level is lower than required' "$room/said" || fail "libvp.so doesn't say what the processor lacks"
    qemu-x86_64 -cpu Nehalem -E "LD_LIBRARY_PATH=$room/here" "$room/with-glibc" bad || fail 'libvp.so on a processor with x86-64-v2'
    echo 'old processors: ok'
else
    left_out qemu-x86_64
fi
