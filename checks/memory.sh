#!/bin/sh
# Refuses one allocation of the calls that take memory, the first, then the second, until none is left to be refused:
# each call must answer that memory was refused, and nothing else, and each must do so as often as it takes memory. As
# many are refused at once as there are processors, each in a copy of the sources, since rt does one thing at a time in a
# folder.
set -eu
export LC_ALL=C
cd "$(dirname "$0")/.."
tools=$PWD/tools
lanes=$(nproc)
rooms=$(mktemp -d)
trap 'rm -rf "$rooms"' EXIT
for lane in $(seq "$lanes"); do
    mkdir "$rooms/$lane"
    cp HANDLES crates.txt "$rooms/$lane"
    for sources in crates/*/*/src; do
        mkdir -p "$rooms/$lane/$sources"
        cp -R "$sources/." "$rooms/$lane/$sources"
    done
done

# refuse LANE NTH: runs the tests in the lane's room, with their nth allocation refused
refuse() {
    cd "$rooms/$1/crates/tests/vp_memory_tests"
    "$tools/gate/rt_try.py" --test --fail-alloc "$2" >"$rooms/$1/log" 2>&1 || true
    cp "$rooms/$1/log" "$rooms/said.$2"
}

# is_last LANE NTH: whether nothing was left to be refused; ends the test where a call answered otherwise
is_last() {
    log=$rooms/$1/log
    grep -q '^test result: ok\.' "$log" && return 0
    failed=$(grep -c '\.\.\. FAILED$' "$log" || true)
    refused=$(grep -c '^ *error: .*AllocError' "$log" || true)
    grep -q '^test result: FAILED\.' "$log" && [ "$failed" = "$refused" ] && return 1
    echo "allocation $2 refused:" >&2
    cat "$log" >&2
    exit 1
}

# how often each test takes memory: so often it must end in a refusal, and then no more
cat >"$rooms/wanted" <<'END'
tests::bands_and_stores 2
tests::formats 2
tests::label_printers 7
tests::label_sessions 7
tests::labels 7
tests::printers 6
tests::receipts 6
tests::sessions 6
tests::sheets 3
tests::whole_inputs 7
tests::whole_labels 11
END
before=0
while :; do
    for lane in $(seq "$lanes"); do
        refuse "$lane" $((before + lane)) &
    done
    wait
    for lane in $(seq "$lanes"); do
        is_last "$lane" $((before + lane)) && break 2
    done
    before=$((before + lanes))
done
for nth in $(seq $((before + lane - 1))); do
    sed -n 's/^test \(.*\) \.\.\. FAILED$/\1/p' "$rooms/said.$nth"
done | sort | uniq -c | awk '{ print $2, $1 }' >"$rooms/found"
diff "$rooms/wanted" "$rooms/found" >&2 || {
    echo 'a test takes memory more or less often, or a refusal was swallowed' >&2
    exit 1
}
most=$((before + lane - 1))
if [ "$most" = 0 ]; then
    echo 'no call took memory' >&2
    exit 1
fi
echo "each allocation refused in turn, up to the ${most}th of a call: all answered"
