# What each test of a recipe begins with, as . "$(dirname "$0")/common.sh". It goes to the top of the repository, and
# has
#   $root, $vp, $room   that place, the program (VP, or the one that ./vp builds), a new folder that goes at the end
#   $server             a process to be ended at the end, where the test sets it
#   fail MESSAGE        ends the test
#   is STATUS WHAT COMMAND..   whether a command ends with this status; says TEXT: whether it said that, by grep
#   needs TOOL..        whether these are installed; where one isn't, says that a check is left out, and answers 1
#   left_out WHAT       says that a check is left out for want of this
#   testing WORD..      what testing.py knows
set -eu
test=${0##*/} test=${test%.*}
cd "$(dirname "$0")/../.."
root=$PWD
room=$(mktemp -d)
server=
trap '[ -z "$server" ] || kill "$server" 2>/dev/null; rm -rf "$room"' EXIT
trap 'exit 1' HUP INT
# (who hasn't ended in time says what was said last)
trap 'tail -n 40 "$room/said" >&2 2>/dev/null; exit 1' TERM
export PYTHONDONTWRITEBYTECODE=1
# (in a CI nothing is accepted, which the tests of golden ask for by themselves)
unset CI

fail() {
    echo "$test: $1" >&2
    exit 1
}
is() {
    expected=$1 what=$2 status=0
    shift 2
    "$@" >"$room/said" 2>&1 || status=$?
    [ "$status" -eq "$expected" ] || { cat "$room/said" >&2; fail "$what: status $status in place of $expected"; }
}
says() { grep -q -- "$1" "$room/said" || { cat "$room/said" >&2; fail "it doesn't say: $1"; }; }
left_out() {
    echo "$test: left out: no $1"
    [ -z "${VP_LEFT_OUT:-}" ] || echo "$test $1" >>"$VP_LEFT_OUT"
}
needs() {
    for tool; do
        command -v "$tool" >/dev/null || { left_out "$tool" && return 1; }
    done
}
testing() { python3 "$root/recipes/tests/testing.py" "$@"; }

vp=${VP:-$(tools/dist/program)}
[ -x "$vp" ] || fail "no program $vp"
