#!/bin/sh
# The minutes of a run of the gate.
. "$(dirname "$0")/common.sh"
if [ -d /proc/self ]; then
    tools/gate/minutes.py "$room/gate.log" python3 recipes/tests/testing.py gate >"$room/said"
    says '^| `vp_one` | [0-9.]* | [0-9.]* | [0-9.]* | 1 | [0-9.]* |$'
    for kind in proof tests edits; do
        grep -q "= vp_one $kind [0-9.]* 0\.[1-9]\$" "$room/gate.log" || fail "no time of the $kind"
    done
    echo 'the minutes of a gate: ok'
fi
