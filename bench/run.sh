#!/bin/sh
# Builds the program of benches (vp_bench) and runs one of them: bench/run.sh NAME. With no name it says which there are.
# The times are those of the machine it runs on; the ratios are what to look at.
set -eu
cd "$(dirname "$0")/../crates/tests/vp_bench"
log=$(mktemp)
trap 'rm -f "$log"' EXIT
if ! rt run >"$log" 2>&1; then
    cat "$log" >&2
    exit 1
fi
out/vp_bench "$@"
