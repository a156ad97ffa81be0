#!/bin/sh
# What ./install puts in place runs without the repository.
. "$(dirname "$0")/common.sh"
set -- --font-a "$root/examples/font-a.pbm" --font-b "$root/examples/font-b.pbm"
"$vp" receipt "$@" examples/receipt.bin >"$room/receipt.pbm"
prefix=$room/prefix
VP_PROGRAM=$vp ./install "$prefix" >"$room/said"
for file in bin/vp share/man/man1/vp.1 share/vp/font-a.pbm share/vp/font-b.pbm; do
    says "^$prefix/$file\$"
done
(cd "$prefix/share/vp" && env -i ../../bin/vp receipt --font-a font-a.pbm --font-b font-b.pbm) \
    <examples/receipt.bin | cmp - "$room/receipt.pbm"
is 2 'install without a place' ./install
echo 'install: ok'
