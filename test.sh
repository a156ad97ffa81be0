#!/bin/sh
# Tests all: proves every crate from nothing, tries the edits that must be refused, holds dist/ to what was built, runs tests,
# program, examples and recipes, and refuses memory. Without the Rattle toolchain, whose rt is then not on the path, or with
# --quick, it runs what needs no proof, with the program and the libraries that dist/ has. It installs nothing. It says how
# long each part took, how many passed, and how many were left out for want of which tool. out/gate.log keeps what the prover
# said, and when. docs/gate.md says what --all, --seed N and --renew do.
set -eu
cd "$(dirname "$0")"
# Who begins it in the background may have signals ignored, and the checks' processes would too: they are as on a terminal.
[ -n "${VP_SIGNALS:-}" ] || VP_SIGNALS=default exec python3 -c 'import os, signal, sys
for number in signal.SIGINT, signal.SIGQUIT, signal.SIGHUP, signal.SIGPIPE:
    signal.signal(number, signal.SIG_DFL)
os.execv("/bin/sh", ["sh", *sys.argv[1:]])' ./test.sh "$@"
unset VP_SIGNALS
mkdir -p out
usage() {
    echo 'usage: ./test.sh [--quick] | [--all] [--seed N] [--renew]' >&2
    exit 2
}
words=$* quick=
for word; do
    case $word in
    --quick)
        [ $# = 1 ] || usage
        quick=--quick
        ;;
    --all | --seed | --renew | [0-9]*) ;;
    *) usage ;;
    esac
done
if ! command -v rt >/dev/null; then
    [ $# = 0 ] || [ -n "$quick" ] || {
        echo "./test.sh $words proves, which takes the Rattle toolchain's rt on the path: README.md, \"Prove it\"" >&2
        exit 2
    }
    quick=--quick
fi
room=$(mktemp -d)
VP_LEFT_OUT=$room/left-out VP_NOT_RUN=$room/not-run beside=
export VP_LEFT_OUT VP_NOT_RUN
: >"$VP_LEFT_OUT"
: >"$VP_NOT_RUN"
trap '[ -z "$beside" ] || kill -- "-$beside" 2>/dev/null || kill "$beside" 2>/dev/null || true; rm -rf "$room"' EXIT
trap 'exit 130' HUP INT TERM

# (no check takes a third of it on two slow processors)
passed=0 failed='' most=${VP_MOST_SECONDS:-1800}
# run CHECK WORD..: runs it, and says its seconds
run() {
    started=$(date +%s) how=FAILED
    if ! tried "$@"; then
        failed="$failed $1"
    elif grep -qxF "$1" "$VP_NOT_RUN"; then
        how='not run'
    else
        how=ok passed=$((passed + 1))
    fi
    echo "$*: $how, $(($(date +%s) - started)) s"
}
# begin CHECK: begins one beside the others, in a group of processes of its own, which a shell would let ignore signals
begin() {
    begun=$1
    python3 -c 'import os, signal, sys
os.setsid()
for number in signal.SIGINT, signal.SIGQUIT:
    signal.signal(number, signal.SIG_DFL)
os.execv(sys.argv[1], sys.argv[1:])' tools/gate/within "$most" "$1" >"$room/said" 2>&1 &
    beside=$!
}
# tried CHECK WORD..: whether it passes, which may have begun
tried() {
    if [ -z "$beside" ] || [ "$1" != "$begun" ]; then
        tools/gate/within "$most" "$@"
        return
    fi
    status=0
    wait "$beside" || status=$?
    beside=
    cat "$room/said"
    return "$status"
}
run ./checks/evidence.py
run ./checks/pages.py
run ./checks/trust.py
run ./checks/walks.py
if [ -n "$quick" ]; then
    export VP="$PWD/dist/vp"
    of=--sources
    # (what takes longest)
    begin ./checks/recipes.sh
else
    # shellcheck disable=SC2086
    tools/gate/minutes.py out/gate.log tools/gate/gate.py $words || {
        # behind the table of minutes, once more what failed
        sed -n 's/^ *[0-9.]* | \(rt: FAILED.*\)/\1/p' out/gate.log 2>/dev/null || true
        exit 1
    }
    of=
fi
# (of what these have been built, or else only that dist/ says it is of these sources)
run tools/dist/check $of
run tools/dist/check-library $of
run tools/systems/check $of
run ./checks/dist.sh
run ./checks/systems.sh
run ./checks/windows.sh
run ./checks/install.sh
run ./checks/in-process.sh
run ./checks/dotnet.sh
run ./checks/java.sh
run ./checks/javascript.sh
run ./checks/library.sh
run ./checks/style.sh
run ./checks/test-command.sh
run ./checks/program.py
run ./checks/examples.sh
run ./checks/python.sh
run ./checks/wheels.sh
run ./checks/recipes.sh
if [ -z "$quick" ]; then
    run ./checks/gate.sh
    run ./checks/memory.sh
    run ./checks/symbols.py
    run ./checks/fonts.py
    run ./checks/codes.py
    run ./checks/packed.py
    run ./checks/evidence.py out/gate.log
    run ./checks/trust.py out/gate.log
fi
tools/gate/tell-left-out || failed="$failed tools/gate/tell-left-out"
echo "$passed checks passed${failed:+; failed:$failed}"
if [ -n "$quick" ]; then
    echo "The proofs weren't tried, nor the edits that must be refused. ./test.sh tries them where the Rattle toolchain's rt is"
    echo 'on the path: README.md, "Prove it".'
fi
[ -z "$failed" ]
