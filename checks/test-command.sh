#!/bin/sh
# Tries ./test.sh in a folder of made-up checks, with and without rt on the path: without it, and with --quick, all that needs
# no proof is run, a broken check is a failure that ends no other, and the last lines say what wasn't tried.
set -eu
root=$(dirname "$(dirname "$(realpath "$0")")")
room=$(mktemp -d)
trap 'rm -rf "$room"' EXIT
unset VP VP_TOOLS_INSTALLED
fail() {
    echo "checks/test-command: $1" >&2
    cat "$room/said" >&2
    exit 1
}
# is STATUS WHAT PATH WORD..: whether ./test.sh ends so; says TEXT: whether it said that, by grep
is() {
    expected=$1 what=$2 path=$3 status=0
    shift 3
    (cd "$room/tree" && PATH=$path CI=true ./test.sh "$@") >"$room/said" 2>&1 || status=$?
    [ "$status" -eq "$expected" ] || fail "$what: status $status in place of $expected"
}
says() { grep -q -- "$1" "$room/said" || fail "it doesn't say: $1"; }
silent() { ! grep -q -- "$1" "$room/said" || fail "it says: $1"; }

# a path without rt, and one with it
mkdir -p "$room/alone" "$room/with"
for tool in sh awk cat date dirname env grep mkdir mktemp rm sed sleep sort wc; do ln -s "$(command -v "$tool")" "$room/alone"; done
ln -s "$(python3 -c 'import sys; print(sys.executable)')" "$room/alone/python3"
printf '#!/bin/sh\n' >"$room/with/rt"
alone=$room/alone with=$room/with:$room/alone
# each check says its name and its words
mkdir -p "$room/tree/tools/gate" "$room/tree/dist"
cp "$root/test.sh" "$room/tree"
cp "$root/tools/gate/tell-left-out" "$root/tools/gate/within" "$room/tree/tools/gate"
checks=$(sed -n 's/^ *run \([^ ]*\).*/\1/p' "$root/test.sh" | sort -u)
for check in $checks tools/gate/minutes.py; do
    mkdir -p "$(dirname "$room/tree/$check")"
    printf '#!/bin/sh\necho "ran: $0 $* ${VP##*/}"\n' >"$room/tree/$check"
    chmod 755 "$room/tree/$check"
done
chmod 755 "$room/with/rt"

without=$(($(echo "$checks" | wc -w) - 6))
is 0 'without rt' "$alone"
says "^$without checks passed$"
tail -n 2 "$room/said" | grep -q "^The proofs weren't tried" || fail "the last lines don't say that proofs weren't tried"
says 'ran: tools/dist/check --sources vp$'
silent 'ran: .*\(gate.py\|gate.sh\|memory.sh\|gate.log\)'
mv "$room/said" "$room/alone-said"
is 0 'with --quick and rt' "$with" --quick
grep '^ran' "$room/said" | sort >"$room/quick"
grep '^ran' "$room/alone-said" | sort | diff - "$room/quick" || fail 'it runs others than without rt'
is 0 'with --quick and no rt' "$alone" --quick

# with rt all, and the words are the gate's
is 0 'with rt' "$with" --all --seed 7
says '^ran: tools/gate/minutes.py out/gate.log tools/gate/gate.py --all --seed 7 $'
says "^$((without + 8)) checks passed$"
says 'ran: ./checks/evidence.py out/gate.log'
silent "weren't tried"

# a check that did nothing, and says so, isn't counted
printf 'echo ./checks/java.sh >>"$VP_NOT_RUN"\n' >>"$room/tree/checks/java.sh"
is 0 'a check that was not run' "$alone"
says "^$((without - 1)) checks passed$"
says '^./checks/java.sh: not run, '
sed -i '$d' "$room/tree/checks/java.sh"

# a check that is broken, and a tool that was to be there
for check in ./checks/recipes.sh tools/systems/check; do
    printf 'exit 3\n' >>"$room/tree/$check"
    is 1 "a broken $check" "$alone"
    says "^$((without - 1)) checks passed; failed: $check$"
    says 'ran: ./checks/python.sh'
    says "^The proofs weren't tried"
    is 1 "a broken $check, with rt" "$with"
    sed -i '$d' "$room/tree/$check"
done
# one that never ends is a failure, and the others run
printf 'sleep 600\n' >>"$room/tree/checks/library.sh"
export VP_MOST_SECONDS=2
is 1 'a check without an end' "$alone"
unset VP_MOST_SECONDS
says '^./checks/library.sh: it has not ended within 2 s$'
says "^$((without - 1)) checks passed; failed: ./checks/library.sh$"
sed -i '$d' "$room/tree/checks/library.sh"
printf 'echo "python fish" >>"$VP_LEFT_OUT"; : >out/python\n' >>"$room/tree/checks/python.sh"
is 0 'a check that is left out' "$alone"
says 'fish: 1 (python)'
export VP_TOOLS_INSTALLED=1
is 1 'a check that is left out where its tool is to be there' "$alone"
unset VP_TOOLS_INSTALLED
# a signal ends what was begun beside the others
printf 'sed -n "s/^SigIgn:[^0-9a-f]*//p" "/proc/$$/status" >ignored; echo $$ >pid; sleep 60\n' >>"$room/tree/checks/recipes.sh"
rm -f "$room/tree/out/python"
(cd "$room/tree" && PATH=$alone exec ./test.sh >/dev/null 2>&1) &
for _ in $(seq 100); do
    [ ! -s "$room/tree/pid" ] || [ ! -e "$room/tree/out/python" ] || break
    sleep 0.1
done
sleep 0.5
kill "$!"
wait "$!" || status=$?
[ "$status" = 130 ] || fail "a signal: status $status"
for _ in $(seq 50); do
    kill -0 "$(cat "$room/tree/pid")" 2>/dev/null || break
    sleep 0.1
done
! kill -0 "$(cat "$room/tree/pid")" 2>/dev/null || fail 'a check goes on behind a signal'
case $(cat "$room/tree/ignored") in *[0189]) ;; *) fail 'it ignores what interrupts a terminal' ;; esac
sed -i '$d' "$room/tree/checks/recipes.sh"
printf 'exit 1\n' >>"$room/tree/tools/gate/minutes.py"
is 1 'proofs that fail' "$with"
silent 'checks passed'
# words
is 2 'the gate without rt' "$alone" --all
says "takes the Rattle toolchain's rt"
is 2 'a wrong word' "$with" --quickly
is 2 'two words that rule each other out' "$with" --quick --all
echo './test.sh with and without rt: ok'
