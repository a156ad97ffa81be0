#!/bin/sh
# Runs each test of recipes/tests, or those whose names are given, with the program that ./vp builds, or VP. At the end
# it says how many checks were left out for want of which tool.
set -eu
cd "$(dirname "$0")/.."
[ -n "${VP:-}" ] || VP=$(tools/dist/program)
export VP
own=
[ -n "${VP_LEFT_OUT:-}" ] || { own=$(mktemp) && trap 'rm -f "$own"' EXIT && export VP_LEFT_OUT="$own"; }
# tried TEST: whether it passes in its time. What fails is tried once more, and told: a browser's click can miss on a
# machine that is busy.
tried() {
    status=0
    tools/gate/within "$most" "$1" || status=$?
    case $status in
    0) ;;
    124) return 1 ;;
    *) echo "$1: it failed, and is tried once more" >&2 && tools/gate/within "$most" "$1" ;;
    esac
}
# (three times what the longest takes on two slow processors)
ran=0 failed='' most=${VP_MOST_SECONDS:-900}
for test in recipes/tests/*.sh recipes/tests/*.py; do
    name=${test##*/} name=${name%.*}
    case $name in common | signalled | testing) continue ;; esac
    if [ $# -gt 0 ]; then
        case " $* " in *" $name "*) ;; *) continue ;; esac
    fi
    ran=$((ran + 1))
    tried "$test" || failed="$failed $name"
done
[ -z "$failed" ] || { echo "checks/recipes: failed:$failed" >&2; exit 1; }
[ "$ran" -gt 0 ] || { echo "checks/recipes: no such test: $*" >&2; exit 1; }
echo "the tests of $ran recipes: ok"
[ -z "$own" ] || tools/gate/tell-left-out
