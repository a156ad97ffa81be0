#!/bin/sh
# Tries ./vp, ./build and what holds dist/ to the sources, in a small tree of made-up crates, with a made-up
# toolchain that proves nothing and makes of other sources another program. Nothing is proved.
set -eu
export LC_ALL=C
root=$(dirname "$(dirname "$(realpath "$0")")")
program=${VP:-$root/dist/vp}
[ -x "$program" ] || program=$root/crates/program/vp_cli/out/vp_cli
if ! "$program" --version >/dev/null 2>&1; then
    echo 'not tested: dist/: there is no program to try it with'
    exit 0
fi
room=$(mktemp -d)
trap 'rm -rf "$room"' EXIT
unset CI VP
# (another user is to reach it)
chmod 755 "$room"

fail() {
    echo "checks/dist: $1" >&2
    [ ! -s "$room/said" ] || cat "$room/said" >&2
    exit 1
}
# is EXPECTED WHAT COMMAND..: whether a command ends with this status; what it printed and said is kept
is() {
    expected=$1 what=$2 status=0
    shift 2
    "$@" >"$room/printed" 2>"$room/said" </dev/null || status=$?
    [ "$status" -eq "$expected" ] || fail "$what: status $status in place of $expected"
}
says() { grep -q -- "$1" "$room/said" || fail "it doesn't say: $1"; }
prints() { "$program" --version | cmp -s - "$room/printed" || fail "$1: it doesn't print its version"; }
silent() { [ ! -s "$room/said" ] || fail "$1: something is said"; }

# a toolchain, and a path without one
kit=$room/kit bin=$room/bin
mkdir -p "$kit/bin" "$kit/rlibs" "$kit/toolchain/bin" "$bin"
echo 'made-up-kit 1' >"$kit/KIT-ID"
cat >"$kit/bin/rattle" <<'END'
#!/bin/sh
set -eu
to=
while [ $# -gt 0 ]; do
    [ "$1" != -o ] || to=$2
    shift
done
find src -type f | LC_ALL=C sort | xargs cat >"$to"
END
cat >"$kit/bin/rattle-link" <<END
#!/bin/sh
set -eu
cat "$program" "\$7" >"\$6"
chmod +x "\$6"
END
# (rt ci builds the program as rattle does)
cat >"$kit/bin/rt" <<'END'
import subprocess

BUILT = """cd crates/vp_cli && mkdir -p out && rattle build -o out/vp_cli.o &&
rattle-link --target any --toolchain any -o out/vp_cli out/vp_cli.o && rm out/vp_cli.o"""


def main(words):
    return subprocess.run(["sh", "-c", BUILT], check=False).returncode
END
chmod +x "$kit/bin"/*
for tool in sh env find sort xargs sha256sum cut sed awk cat dirname basename readlink wc head od tr mkdir \
    rm mv cp cmp chmod stat tail ls grep sleep date id uname mktemp ln; do
    ln -s "$(command -v "$tool")" "$bin/$tool"
done
ln -s "$(python3 -c 'import sys; print(sys.executable)')" "$bin/python3"
alone=$bin with=$kit/bin:$bin

# a tree
tree=$room/tree
mkdir -p "$tree/tools" "$tree/crates/drawing/vp_dots/src" "$tree/crates/drawing/vp_dots/proofs/dot" \
    "$tree/crates/program/vp_cli/src" "$tree/crates/tests/vp_tests/src"
cp "$root/vp" "$root/build" "$tree"
cp -R "$root/tools/dist" "$root/tools/gate" "$tree/tools"
cat >"$tree/crates.txt" <<'END'
# drawing
drawing/vp_dots: hex
program/vp_cli: drawing/vp_dots clap # the program
tests/vp_tests: drawing/vp_dots
END
echo dots >"$tree/crates/drawing/vp_dots/src/lib.rt"
echo proof >"$tree/crates/drawing/vp_dots/proofs/dot/Answers.antt"
echo program >"$tree/crates/program/vp_cli/src/main.rt"
echo test >"$tree/crates/tests/vp_tests/src/lib.rt"
dots=$tree/crates/drawing/vp_dots/src/lib.rt
cd "$room"
vp() { PATH=$1 "$tree/vp" --version; }
build() { path=$1 && shift && PATH=$path "$tree/build" "$@"; }
gate() { (cd "$tree" && PATH=$with python3 tools/gate/gate.py); }
check() { PATH=$with "$tree/tools/dist/check" >&2; }

is 0 'the gate on a tree without dist/' check
says 'no program is kept there'
is 125 'a tree without dist/ and without a toolchain' vp "$alone"
says '^vp: the Rattle toolchain'
is 0 'a tree without dist/' vp "$with"
prints 'a tree without dist/'
says '^vp: vp_cli proved in'
is 0 'a program that is built' vp "$with"
silent 'a program that is built'
is 0 'a build where there is no dist/' build "$with"
is 0 'renewing' build "$with" --renew
is 2 'a wrong word' build "$with" --renwe
(cd "$tree/dist" && sha256sum --quiet --strict -c made-from) || fail 'made-from has no sum of the program'
cmp "$tree/dist/vp" "$tree/crates/program/vp_cli/out/vp_cli"
is 0 'the gate' check
says 'byte for byte the program that these sources make$'
is 0 'a build of the same' build "$with"
says 'byte for byte the program that these sources make$'
echo 'built, kept and compared: ok'

# as a clone has it: no toolchain, nothing built
kept=$room/kept
cp -R "$tree/dist" "$kept"
clone() {
    rm -rf "$tree/out" "$tree/crates/program/vp_cli/out" "$tree/dist"
    cp -R "$kept" "$tree/dist"
}
clone
for nth in 1 2; do
    is 0 "call $nth in a clone" vp "$alone"
    prints "call $nth in a clone"
    silent "call $nth in a clone"
done
[ -e "$tree/out/seen" ] || fail 'sums are taken by each call'
[ ! -e "$tree/crates/program/vp_cli/out" ] || fail 'something is built in a clone'
(cd "$tree" && PATH=$alone sh vp --version >/dev/null) || fail 'sh vp'
mv "$tree/out" "$room/away"
# without a tool that sums are taken with
cp -R "$bin" "$room/lacking"
for tool in find sort xargs wc od awk; do
    mv "$room/lacking/$tool" "$room/tool"
    is 125 "without $tool" vp "$room/lacking"
    says "^vp: it can't be told whether dist/vp is of these sources: there is no $tool\$"
    mv "$room/tool" "$room/lacking/$tool"
done
echo >"$tree/out"
is 0 'where nothing can be kept' vp "$alone"
prints 'where nothing can be kept'
silent 'where nothing can be kept'
rm "$tree/out"
mv "$room/away" "$tree/out"
mkdir "$tree/docs" "$tree/examples"
cp "$root"/docs/*.1 "$root"/docs/*.md "$root/docs/faces.png" "$tree/docs"
cp "$root"/examples/*.pbm "$tree/examples"
for part in install completions python recipes LICENSE-MIT LICENSE-APACHE NOTICE CHANGELOG.md; do
    cp -R "$root/$part" "$tree"
done
is 0 'an install of the program that is kept' env PATH="$alone" "$tree/install" "$room/prefix"
cmp "$room/prefix/bin/vp" "$kept/vp"
echo 'a clone without a toolchain: ok'

# called by many at once, by another user, through a link, from a folder of any name
one() {
    is 0 "$1" vp "$alone"
    prints "$1"
    silent "$1"
}
# many WHAT: 24 calls at once, of which each prints the version and says nothing
many() {
    mkdir "$room/many"
    for nth in $(seq 24); do
        { vp "$alone" >"$room/many/$nth" 2>&1 || echo "status $?" >>"$room/many/$nth"; } &
    done
    wait
    for nth in $(seq 24); do
        "$program" --version | cmp -s - "$room/many/$nth" || { cat "$room/many/$nth" >&2; fail "$1"; }
    done
    rm -r "$room/many"
}
for nth in 1 2 3; do
    rm -rf "$tree/out"
    many "24 first calls at once, $nth"
    [ "$(ls "$tree/out")" = "$(printf 'seen\nseen.list')" ] || fail "calls leave other files: $(ls "$tree/out")"
done
mkdir "$tree/out/look.other"
touch "$dots"
one 'beside the look of another'
[ -d "$tree/out/look.other" ] || fail "the look of another is taken away"
rm -r "$tree/out/look.other"

# as another user where root tries this, and else as one who may not write
setpriv=$(command -v setpriv) || setpriv=
if [ "$(id -u)" != 0 ]; then
    other() { "$@"; }
elif [ -n "$setpriv" ]; then
    other() { "$setpriv" --reuid 65534 --regid 65534 --clear-groups "$@"; }
else
    other=
fi
if [ -n "${other-other}" ]; then
    as_other() { other env PATH="$1" "$tree/vp" --version; }
    # (root's own Python may be closed to others)
    runs_python() { other env PATH="$alone" sh -c 'python3 -c ""' 2>/dev/null; }
    runs_python || ln -sf /usr/bin/python3 "$bin/python3"
    no_build() {
        runs_python || return 0
        is 125 "$1" as_other "$with"
        says "^vp: no build would help: $2"
    }
    touch "$dots"
    chmod a-w "$tree/out"
    is 0 'where out/ is old and cannot be written' as_other "$alone"
    prints 'where out/ is old and cannot be written'
    silent 'where out/ is old and cannot be written'
    echo squares >"$dots"
    no_build 'other sources, and no right to write' "$tree/out can't be written: Permission denied"
    chmod u+w "$tree/out"
    chmod a+w "$tree/out"
    chmod 0 "$dots"
    no_build 'a source that cannot be read' "$dots can't be read"
    chmod 644 "$dots"
    echo dots >"$dots"
    rm -rf "$tree/out"
    (umask 077 && vp "$alone" >/dev/null)
    is 0 "where another's out/ is closed" as_other "$alone"
    prints "where another's out/ is closed"
    silent "where another's out/ is closed"
    rm -rf "$tree/out"
fi

# a disk that is full, that can't be written, that has no exec rights
full() (ulimit -f 0 && { vp "$alone" 2>&1 || echo "status $?"; } | cat)
full | cmp - "$room/printed" || fail 'where nothing can be written'
[ -z "$(ls "$tree/out")" ] || fail 'what is no whole file stays'
mkdir "$room/disk"
apart=
for way in 'unshare -m' 'unshare -rm'; do
    # shellcheck disable=SC2086
    if $way mount -t tmpfs none "$room/disk" 2>/dev/null; then apart=$way; fi
done
# on_disk EXPECTED WHAT COMMANDS: what ./vp does on a disk of its own that these have changed
on_disk() {
    # shellcheck disable=SC2016,SC2086
    is "$1" "$2" $apart sh -euc 'mount -t tmpfs -o size=16m none "$1" && cp -R "$2/." "$1" && cd "$1"
        eval "$3" && PATH=$4 && exec sh ./vp --version' sh "$room/disk" "$tree" "$3" "$with"
}
if [ -n "$apart" ]; then
    on_disk 0 'a full disk' 'cat /dev/zero 2>/dev/null >fill || true'
    prints 'a full disk'
    silent 'a full disk'
    on_disk 0 'a disk that cannot be written' 'mkdir -p out && : >out/seen && mount -o remount,ro none .'
    prints 'a disk that cannot be written'
    silent 'a disk that cannot be written'
    on_disk 125 'a disk without exec rights' 'mount -o remount,noexec none .'
    says "^vp: no build would help: no program may be run in $room/disk\$"
else
    echo 'not tested: ./vp on a full disk and the like: nothing may be mounted here'
fi

ln -s ../tree/vp "$bin/linked"
ln -s "$bin/linked" "$room/a link"
(PATH=$alone && linked --version && "$room/a link" --version && cd "$room" && sh 'a link' --version) \
    >"$room/printed"
[ "$(sort -u "$room/printed")" = "$("$program" --version)" ] && [ "$(wc -l <"$room/printed")" = 3 ] ||
    fail 'through a link'
rm "$bin/linked"
tree_was=$tree
cd "$room"
for name in 'a blank' -dash "quo'te\"s" '$(touch pwned)' 'back\slash' 'a=b' '*' '%s' "$(printf 'line\nend')" \
    "$(printf 'end\n.')"; do
    tree=$room/${name%.}
    mv "$tree_was" "$tree"
    one "in a folder whose name is '$name'"
    (cd "$tree" && PATH=$alone sh vp --version >/dev/null) || fail "sh vp in '$name'"
    mv "$tree" "$tree_was"
done
[ ! -e "$room/pwned" ] && [ ! -e "$tree_was/pwned" ] || fail 'a name was run'
tree=$room/$(printf 'caf\351')
mv "$tree_was" "$tree"
is 125 "in a folder whose name isn't UTF-8" vp "$with"
says "^vp: no build would help: the name of this folder isn't UTF-8"
mv "$tree" "$tree_was"
tree=$tree_was
echo 'calls beside others, and from anywhere: ok'

# a source that changed is never missed
was="$room/was"
changed() {
    is 125 "$1" vp "$alone"
    says '^vp: dist/vp is made from other sources than these$'
    is 1 "the gate: $1" check
    says 'dist: dist/vp is made from other sources than these: ./build --renew'
}
same() {
    is 0 "$1" vp "$alone"
    prints "$1"
    silent "$1"
}
for nth in 1 2 3 4 5; do
    same "a source as it was, $nth"
    cp -p "$dots" "$was"
    printf 'dotz\n' >"$dots"
    touch -r "$was" "$dots"
    changed "a source of the same size and time, $nth"
    cp -p "$was" "$dots"
done
same 'all as it was'
echo >"$tree/crates/drawing/vp_dots/src/new.rt"
changed 'a new source'
rm "$tree/crates/drawing/vp_dots/src/new.rt"
same 'the new source taken away'
mv "$tree/crates/drawing/vp_dots/proofs" "$room"
changed 'proofs taken away'
mv "$room/proofs" "$tree/crates/drawing/vp_dots"
mkdir "$tree/crates/drawing/vp_dots/specs"
same 'an empty folder'
echo >"$tree/crates/drawing/vp_dots/specs/Lib.antt"
changed 'a first definition'
rm -r "$tree/crates/drawing/vp_dots/specs"
cp "$tree/crates.txt" "$was"
sed 's/: hex/: hex itoa/' "$was" >"$tree/crates.txt"
changed 'a library more'
sed 's/#.*//; s/: /:  /' "$was" >"$tree/crates.txt"
same 'other words in crates.txt'
cp "$was" "$tree/crates.txt"
mv "$dots" "$room/elsewhere.rt"
ln -s "$room/elsewhere.rt" "$dots"
same 'a source through a link'
echo other >"$room/elsewhere.rt"
changed 'a source that changed behind a link'
rm "$dots"
echo dots >"$dots"
echo other >"$tree/crates/tests/vp_tests/src/lib.rt"
same 'a test that changed'
echo 'a source that changed is never missed: ok'

# other sources are built, and what is built is run
echo squares >"$dots"
is 0 'other sources' vp "$with"
prints 'other sources'
says '^vp: dist/vp is made from other sources than these$'
says '^vp: vp_cli proved in'
is 0 'other sources, built' vp "$with"
silent 'other sources, built'
is 0 'a build of other sources' build "$with"
says 'made from other sources than these: ./build --renew'
is 1 'the gate' check
is 0 'renewing' build "$with" --renew
is 0 'the gate, renewed' check
# the program that the gate made is known as one that was built is
rm -r "$tree/out" "$tree/crates/program/vp_cli/out"
is 0 'the gate' gate
is 0 'what the gate made' check
says 'byte for byte the program that these sources make$'
rm "$tree/dist/vp" "$tree/dist/made-from"
is 0 'what the gate made, run without a toolchain' vp "$alone"
prints 'what the gate made'
silent 'what the gate made'
is 0 'renewing of what the gate made' build "$with" --renew
! grep -q building "$room/said" || fail 'what the gate made is built once more'
echo dots >"$dots"
echo 'other sources: ok'

# faults of dist/
ELSE="$room/else"
wrong() {
    is 125 "$1" vp "$alone"
    says "^vp: $2"
    is 1 "the gate: $1" check
    says "^dist: $2.*: ./build --renew, and commit"
    is 0 "$1, with a toolchain" vp "$with"
    prints "$1"
    says "^vp: $2"
    clone
}
clone
rm "$tree/dist/vp"
wrong 'no program' 'dist/vp is missing'
rm "$tree/dist/made-from"
wrong 'no word of what it is made from' 'dist/made-from is missing'
chmod -x "$tree/dist/vp"
wrong 'not executable' 'dist/vp is not executable'
head -c 1000 "$kept/vp" >"$tree/dist/vp"
wrong 'cut short' 'dist/vp is cut short or has grown: 1000 bytes in place of'
: >"$tree/dist/vp"
wrong 'empty' 'dist/vp is cut short or has grown: 0 bytes in place of'
{ head -c 18 "$kept/vp" && printf '\267\000' && tail -c +21 "$kept/vp"; } >"$tree/dist/vp"
wrong 'for another machine' 'dist/vp is for another machine than x86-64'
{ head -c 5000 "$kept/vp" && printf x && tail -c +5002 "$kept/vp"; } >"$ELSE"
cat "$ELSE" >"$tree/dist/vp"
is 125 'a byte that changed' vp "$alone"
says "^vp: dist/vp isn't the program that dist/made-from tells of"
wrong 'a byte that changed' "dist/vp isn't the program that dist/made-from tells of"
is 0 'as it was' vp "$alone"
cat "$ELSE" >"$tree/dist/vp"
is 125 'a byte that changed after it was run' vp "$alone"
clone
# a made-from that fits the changed byte: only the gate can tell
cat "$ELSE" >"$tree/dist/vp"
sed "s/^[0-9a-f]\{64\}/$(sha256sum <"$ELSE" | cut -c 1-64)/" "$kept/made-from" >"$tree/dist/made-from"
is 1 'the gate where nothing is built' check
says 'no program was built of these sources'
is 1 'a build, which is another program' build "$with"
says "dist/vp isn't the program that these sources make: it differs first at byte 5001: ./build --renew"
is 1 'the gate on another program' check
says 'it differs first at byte 5001'
clone
# as on a system with another C library
sed 's/ld-linux-x86-64/ld-linux-x86-46/' "$kept/vp" >"$tree/dist/vp"
sed "s/^[0-9a-f]\{64\}/$(sha256sum <"$tree/dist/vp" | cut -c 1-64)/" "$kept/made-from" >"$tree/dist/made-from"
is 125 'a program that is not started here' vp "$alone"
says "^vp: dist/vp doesn't run here"
clone
echo 'faults of dist/: ok'

# what the documents say of the program that is kept
if [ -e "$root/dist/made-from" ]; then
    needed=$(sed -n 's/^# glibc: //p' "$root/dist/made-from")
    grep -q "with glibc $needed or later" "$root/README.md" ||
        fail "README.md names another glibc than $needed"
    grep -qF "$(sed -n 's/^# toolchain: //p' "$root/dist/made-from")" "$root/README.md" ||
        fail 'README.md names another toolchain than dist/made-from'
fi

# another toolchain can't tell before it built, nor where it makes other bytes
is 0 'a build' build "$with"
echo 'made-up-kit 2' >"$kit/KIT-ID"
untold() {
    is 0 "$1" check
    says "it can't be told .* made by made-up-kit 1, and on the path is made-up-kit 2"
    export CI=true
    is 1 "$1, in CI" check
    says "it can't be told"
    unset CI
}
untold 'another toolchain'
is 0 'another toolchain' vp "$with"
silent 'another toolchain'
is 0 'a build by another toolchain' build "$with"
export CI=true
is 0 'another toolchain that makes the same, in CI' check
says 'byte for byte the program that these sources make, by made-up-kit 2 as by made-up-kit 1$'
unset CI
echo "echo more >>\"\$to\"" >>"$kit/bin/rattle"
rm -r "$tree/out" "$tree/crates/program/vp_cli/out" "$tree/crates/drawing/vp_dots/out"
is 0 'a build by another toolchain that makes other bytes' build "$with"
untold 'another toolchain that makes other bytes'
echo 'another toolchain: ok'
