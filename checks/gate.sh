#!/bin/sh
# Runs the gate on a crate of three functions, one of which calls another, and one a constant. What must be refused is, and
# an edit that breaks nothing isn't taken for refused where it is tried beside one of the function that it calls. Edits are
# tried by rounds, of a constant and with a function of their own too: an rt that lacks what rounds stand on, with which each
# would be tried alone, is told. A right body in another form is taken, and a wrong one isn't.
set -eu
# (in a CI rt refuses names of crates)
unset CI
gate=$(dirname "$(dirname "$(realpath "$0")")")/tools/gate/gate.py
room=$(mktemp -d)
trap 'rm -rf "$room"' EXIT
mkdir -p "$room/crates/one/src" "$room/crates/one/must-fail"
cd "$room"
echo 'one:' >crates.txt
echo 'Handles allowed: none.' >HANDLES
cat >crates/one/src/lib.rt <<'END'
//! Three functions, of which one calls another.
#![tactic(auto)]

ghost use Rattle.std.specs.Prelude.{◌≡◌, ◌/◌, ◌≤◌};

/// Half of a number.
pub fn half(a: u8) -> u8
    ensures value { result ≡ a / 2 }
    ensures most { result ≤ 127 }
{
    a / 2
}

/// A quarter of it.
pub fn quarter(a: u8) -> u8
    ensures { result ≡ a / 2 / 2 }
{
    let it = half(a);
    half(it)
}

const MOST: u8 = 100;

/// The most that there is.
pub fn most() -> u8
    ensures { result ≡ 100 }
{
    MOST
}
END
# the second has an answer that was written by hand
mkdir -p crates/one/proofs/quarter
cat >crates/one/proofs/quarter/Answers.antt <<'END'
use Rattle.std.proofs.Common.{rules}
use Rattle.one.proofs.quarter.Goals as goal

pub returns : goal.returns
returns c = search rules
END

# edit NAME OLD NEW
edit() { printf 'file: src/lib.rt\nold: %s\nnew: %s\n' "$3" "$4" >"crates/one/$1/$2.edit"; }
edit must-fail half_is_a_third '    a / 2' '    a / 3'
edit must-fail quarter_is_a_half '    half(it)' '    it'
edit must-fail most_is_less 'const MOST: u8 = 100;' 'const MOST: u8 = 99;'
edit must-fail quarter_by_a_third '/// A quarter of it.' 'fn third(a: u8) -> u8 ensures { result ≤ 85 } { a / 3 } /// A quarter of it.'
printf 'old: %s\nnew: %s\n' '    half(it)' '    third(it)' >>crates/one/must-fail/quarter_by_a_third.edit
edit must-fail quarter_with_a_type 'let it = half(a);' 'let it: u8 = half(a);'

gate() {
    status=0
    "$gate" "$@" >said 2>&1 || status=$?
}
says() {
    grep -q "$1" said || {
        echo "checks/gate: nothing said of: $1" >&2
        cat said >&2
        exit 1
    }
}
gate --renew
says 'must-fail one/half_is_a_third.edit: refused, as it must be: note: src/lib.rt:7:1: it is not proved'
says 'must-fail one/quarter_is_a_half.edit: refused, as it must be: ./proofs/quarter/Answers.antt:5:13: error: `returns`'
says 'must-fail one/quarter_with_a_type.edit: NOT REFUSED'
says 'must-fail one/most_is_less.edit: refused, as it must be: note: src/lib.rt:25:1: it is not proved'
says '^5 passed, 1 failed$'
# and at which clauses
cat >wanted <<'END'
one/half_is_a_third: `half: value`
one/most_is_less: `most`
one/quarter_by_a_third: `quarter` (answer)
one/quarter_is_a_half: `quarter` (answer)
END
"$(dirname "$gate")/refused.py" said | diff wanted - >&2
if grep '^gate: this rt has no' said >&2; then exit 1; fi
[ "$status" = 1 ]

# what was refused is kept by content: it isn't tried again, but one whose text is another is, and so are all that a seed
# draws, and with --all every one. So a row by hand, for an edit that breaks nothing, is found
kept=tools/gate/refused.tsv
[ "$(grep -c '^one/' "$kept")" = 4 ] || { cat "$kept" >&2; exit 1; }
edit must-fail half_is_a_third '    a / 2' '    a / 3 + 0'
printf 'one/quarter_with_a_type\t%s\t\n' "$(sha256sum <crates/one/must-fail/quarter_with_a_type.edit | cut -c 1-64)" >>"$kept"
gate --seed 6
says 'must-fail one/half_is_a_third.edit: refused, as it must be: note: src/lib.rt:7:1: it is not proved'
says 'must-fail one/most_is_less.edit: refused, as it must be (kept): note: src/lib.rt:25:1: it is not proved'
says 'must-fail one/quarter_with_a_type.edit: refused, as it must be (kept)'
says "^gate: 3 edits aren't tried, .*; 1 of the same are, drawn by the seed 6: "
[ "$status$(grep -c '(kept)' said)" = 03 ] || { cat said >&2; exit 1; }
"$(dirname "$gate")/refused.py" said | grep -v with_a_type | diff wanted - >&2
# with names of crates these alone are tried, and what is kept of others stays
printf 'two\t0\ntwo/some\t0\t\none/gone\t0\t\n' >>"$kept"
mkdir crates/two && cp -r crates/one/src crates/two && echo 'two:' >>crates.txt
gate --renew one
says 'This is not the gate'
[ "$(grep -c '^two' "$kept")" = 2 ] && ! grep '^one/gone' "$kept" || { cat "$kept" >&2; exit 1; }
rm -r crates/two && sed -i '$d' crates.txt
# what there is no time for is told by name, and neither passes nor fails
export VP_EDIT_MINUTES=0
gate --all
unset VP_EDIT_MINUTES
says '^gate: not tried: one/half_is_a_third$'
says '^gate: 5 edits were not tried, .*: they are begun in the first 0 minutes$'
says '^1 passed, 0 failed$'
if [ "$status" != 0 ] || grep '^must-' said >&2; then exit 1; fi
rm crates/one/must-fail/most_is_less.edit crates/one/must-fail/quarter_by_a_third.edit
gate --all
says 'must-fail one/quarter_with_a_type.edit: NOT REFUSED'
if [ "$status" = 0 ] || grep '(kept)' said >&2; then exit 1; fi

mkdir crates/one/must-pass
mv crates/one/must-fail/quarter_with_a_type.edit crates/one/must-pass
edit must-pass half_by_a_shift '    a / 2' '    a.wrapping_div(2)'
# (nor is one kept of a crate that is another by a word)
echo '// the end' >>crates/one/src/lib.rt
gate
if grep '(kept)' said >&2; then exit 1; fi
says '^3 passed, 0 failed$'
says '^must-pass one/quarter_with_a_type.edit: taken'
says '^must-pass one/half_by_a_shift.edit: taken'
[ "$status" = 0 ]
edit must-pass half_by_a_shift '    a / 2' '    a / 4'
gate
says '^must-pass one/quarter_with_a_type.edit: taken'
says '^must-pass one/half_by_a_shift.edit: NOT TAKEN'
[ "$status" = 1 ]
# what is only made has no edit tried, nor is what is kept of them another
before=$(sha256sum "$kept")
gate --make
says '^1 passed, 0 failed$'
says '^gate: no edit was tried, and no test run: this is not the gate$'
[ "$status$(sha256sum "$kept")" = "0$before" ]
# (as with the crate's name)
gate one
says '^must-pass one/half_by_a_shift.edit: NOT TAKEN'
[ "$status" = 1 ]
echo 'the gate refuses what it must, takes what it must, and nothing else: ok'
