#!/bin/sh
# Takes an example and what it stands on into an empty folder by tools/vendoring/copy-crates, and compares docs/library.md with the
# examples' files. ./checks/library.sh check proves the example there too, which builds all libraries below it.
set -eu
export LC_ALL=C
root=$(dirname "$(dirname "$(realpath "$0")")")
room=$(mktemp -d)
trap 'rm -rf "$room"' EXIT
example=examples/vp_print_stream

fail() {
    echo "checks/library: $1" >&2
    exit 1
}
# is EXPECTED COMMAND..: whether a command ends with this status
is() {
    expected=$1 status=0
    shift
    "$@" >"$room/printed" 2>"$room/said" || status=$?
    [ "$status" -eq "$expected" ] || fail "$*: status $status in place of $expected: $(cat "$room/said")"
}

mkdir "$room/ours"
is 0 "$root/tools/vendoring/copy-crates" --edits "$room/ours" "$example"
[ "$(tail -n 1 "$room/printed")" = "$example" ] || fail 'the example is not the last crate that is taken'
(cd "$room/ours" && find . -type f | sort) >"$room/files"
! grep -q '/out/' "$room/files" || fail 'what rt keeps is taken'
for name in $(cat "$room/printed"); do
    diff -r -x out "$root/crates/$name" "$room/ours/crates/$name"
    grep -q "^$name:" "$room/ours/crates.txt" || fail "crates.txt has no line of $name"
done
for name in $(sed 's/^[^:]*://' "$room/ours/crates.txt" | tr ' ' '\n' | grep / | sort -u); do
    [ -d "$room/ours/crates/$name" ] || fail "$name is not taken"
done
! grep -q '^program/\|^tests/' "$room/ours/crates.txt" || fail 'the program or its tests are taken'
cmp "$root/HANDLES" "$room/ours/HANDLES"
cmp "$root/NOTICE" "$room/ours/licences/vp/NOTICE"

# into a repository that has lines and handles of its own
mkdir "$room/theirs"
echo 'own:' >"$room/theirs/crates.txt"
echo 'Handles allowed: Wait.' >"$room/theirs/HANDLES"
is 0 "$root/tools/vendoring/copy-crates" "$room/theirs"
[ "$(head -n 1 "$room/theirs/crates.txt")" = own: ] || fail 'a line of theirs is gone'
grep -q '^printing/vp_engine: ' "$room/theirs/crates.txt" || fail 'vp_engine is not taken where no crate is named'
grep -q Wait "$room/theirs/HANDLES" || fail 'their HANDLES is another'
[ -z "$(find "$room/theirs" -name '*.edit')" ] || fail 'edits are taken that nobody asked for'

# what is there stays
(cd "$room/theirs" && find . -type f -exec sha256sum {} + | sort) >"$room/before"
is 3 "$root/tools/vendoring/copy-crates" "$room/theirs"
(cd "$room/theirs" && find . -type f -exec sha256sum {} + | sort) >"$room/after"
cmp "$room/before" "$room/after"
is 2 "$root/tools/vendoring/copy-crates"
is 2 "$root/tools/vendoring/copy-crates" --edits
is 2 "$root/tools/vendoring/copy-crates" "$room/none" printing/vp_none
[ ! -e "$room/none" ] || fail 'a folder is made for a crate that is none'
touch "$room/file"
is 3 "$root/tools/vendoring/copy-crates" "$room/file"

# each block of the page behind a line that names a file of an example is that file
shown=$(sed -n "s/^[\`]\(vp_.*\)[\`]:\$/\1/p" "$root/docs/library.md")
for file in $shown; do
    awk -v name="\`$file\`:" '
        inside && /^```$/ { exit }
        inside { print }
        named && /^```/ { inside = 1 }
        NF { named = $0 == name }' "$root/docs/library.md" >"$room/block"
    cmp "$room/block" "$root/crates/examples/$file"
done
for folder in "$root"/crates/examples/*/; do
    name=$(basename "$folder")
    echo "$shown" | grep -q "^$name/src/print.rt$" || fail "the page doesn't show $name"
done

if [ "${1:-}" = check ]; then
    (cd "$room/ours/crates/$example" && rt check)
fi
echo 'tools/vendoring/copy-crates, and the examples of docs/library.md: ok'
