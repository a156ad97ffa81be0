#!/bin/sh
# Tests the Python package in the clone and as the wheel, with each Python that is here: the same bytes as the program on
# examples and on COUNT random streams of each language (300), bad input, bounds, threads, another user, pytest's
# fixtures, types by mypy; and recipes with the package and without it. LIBVP is another library than dist/libvp.so.
set -eu
root=$(dirname "$(dirname "$(realpath "$0")")")
room=$(mktemp -d)
trap 'rm -rf "$room"' EXIT
trap 'exit 1' HUP INT TERM
cd "$root"
export PYTHONDONTWRITEBYTECODE=1

fail() {
    echo "checks/python: $1" >&2
    exit 1
}
# is EXPECTED WHAT COMMAND..: whether a command ends with this status; says TEXT: whether it said that, by grep
is() {
    expected=$1 what=$2 status=0
    shift 2
    "$@" >"$room/said" 2>&1 || status=$?
    [ "$status" -eq "$expected" ] || { cat "$room/said" >&2 && fail "$what: status $status in place of $expected"; }
}
says() { grep -q -- "$1" "$room/said" || { cat "$room/said" >&2 && fail "it doesn't say: $1"; }; }
left_out() {
    echo "python: left out: no $1"
    [ -z "${VP_LEFT_OUT:-}" ] || echo "python $1" >>"$VP_LEFT_OUT"
}

[ -n "${VP:-}" ] || VP=$(tools/dist/program)
export VP
library=${LIBVP:-$root/dist/libvp.so}
if ! [ -f "$library" ] || ! "$VP" --version >/dev/null 2>&1; then
    echo 'not tested: the Python package: there is no library, or no program to try it beside'
    exit 0
fi
export LIBVP="$library"

# works PYTHON WORDS: whether this is a Python from 3.9 on that these run in
works() { "$1" -c "import sys; assert sys.version_info >= (3, 9); $2" >/dev/null 2>&1; }
# tests PYTHON COUNT: the package's tests, on so many random streams
tests() { COUNT=$2 is 0 "the tests in $1" "$1" -m unittest discover -s python/tests; }
tests python3 "${COUNT:-300}"
tried=python3 has=
for python in python3 /usr/bin/python3 python3.9 python3.10 python3.11 python3.12 python3.13 python3.14; do
    works "$python" '' || continue
    ! works "$python" 'import numpy, PIL' || has=$python
    [ "$python" = python3 ] && continue
    tests "$python" 20
    tried="$tried, $python"
done
[ -n "$has" ] || left_out numpy
echo "the package in $tried: ok"

# what README and the page show
PYTHONPATH=python is 0 'the examples of README.md' python3 -m doctest README.md
# shellcheck disable=SC2016
sed -n '/^```python$/,/^```$/p' docs/python.md | sed '/^```/d; /^def test/,$d' >"$room/page.py"
(cd "$room" && PYTHONPATH="$root/python" is 0 'the examples of docs/python.md' python3 page.py)
[ -s "$room/receipt.png" ] || fail 'the page makes no PNG'
printed() { PYTHONPATH=python is "$1" "the example prints a $2" examples/python/print.py "$2" "$room/$2" <"$3"; }
printed 0 receipt examples/receipt.bin
[ "$(find "$room" -name 'receipt-*.png' | wc -l)" = "$("$VP" receipt examples/receipt.bin | grep -ao P4 | wc -l)" ] ||
    fail 'the example makes other images'
printf '^XA^GB9,9,1^FS^XZ^XA' >"$room/cut.zpl"
printed 1 label "$room/cut.zpl"
says '^vp: F9 after 20 bytes: input ends before printing$'
[ -s "$room/label-1.png" ] && [ ! -e "$room/label-2.png" ] || fail 'the example makes other labels'

# the wheel: the same bytes each time, the same package where it is put, nothing of the repository
python3 python/wheel.py "$room" >"$room/name"
wheel=$(cat "$room/name")
hurts="$room/a 'b' \$(c) %s"
mkdir "$hurts"
is 0 'the wheel in a folder whose name hurts' python3 python/wheel.py "$hurts"
cmp "$wheel" "$hurts/${wheel##*/}"
[ -z "$(find "$room" -name '.vp-*')" ] || fail 'something half done stays'
is 2 'a wrong word' python3 python/wheel.py --wrong
is 3 'no library' env LIBVP="$room/none" python3 python/wheel.py "$room"
is 3 'a library that is none' env LIBVP="$root/README.md" python3 python/wheel.py "$room"
site=$hurts/site
python3 -m zipfile -e "$wheel" "$site"
chmod -R a-w,a+rX "$site"
chmod 755 "$room" "$hurts"
cat >"$room/use.py" <<'END'
import sys

import vp

with open('receipt.bin', 'rb') as file:
    stream = file.read()
paper: vp.Paper = vp.Receipt(width=576).print(stream)
with vp.Receipt().start() as printer:
    images = printer.feed(stream)
    assert printer.finish() is None
assert images == list(paper) and paper.fault is None
heights: int = sum(it.height for it in paper)
assert [it.text for it in vp.list(b'A\n', 'receipt')] == ['char 41', 'LF']
sys.stdout.buffer.write(paper.pbm())
END
cp examples/receipt.bin "$room"
"$VP" receipt --font-a examples/font-a.pbm --font-b examples/font-b.pbm examples/receipt.bin >"$room/receipt.pbm"
chmod 644 "$room/use.py" "$room/receipt.bin"
# used PYTHON..: whether it prints as the program where just the wheel is
used() {
    (cd "$room" && env -u LIBVP PYTHONPATH="$site" "$@" use.py) >"$room/printed" || fail "$*: the wheel can't be used"
    cmp "$room/printed" "$room/receipt.pbm"
}
used python3
if [ "$(id -u)" = 0 ] && command -v setpriv >/dev/null && works /usr/bin/python3 ''; then
    used setpriv --reuid 65534 --regid 65534 --clear-groups /usr/bin/python3
    [ -z "$(find "$site" -name '__pycache__')" ] || fail 'Python writes into a package that is only to be read'
else
    echo 'python: left out: another user, who takes root and setpriv'
fi
VP_PROGRAM="$VP" is 0 'install' ./install "$room/prefix"
PYTHONPATH="$room/prefix/lib/vp/python" is 0 'the package below a prefix' \
    env -u LIBVP python3 -c 'import vp; assert vp.Receipt().print(b"A\n").fault is None'
is 0 'recipes below a prefix print in process' \
    env -u LIBVP -u VP "$room/prefix/lib/vp/print" --in-process "$room/prefix/bin/vp" receipt
if works python3 'import ensurepip, venv'; then
    python3 -m venv "$room/venv"
    is 0 'pip installs it' "$room/venv/bin/python" -m pip install -q --no-index --no-deps "$wheel"
    is 0 'its tests where it is installed' env -u LIBVP VP_INSTALLED=1 COUNT=20 \
        "$room/venv/bin/python" -m unittest discover -s python/tests
    is 0 'pip takes it away' "$room/venv/bin/python" -m pip uninstall -q -y vp
    [ -z "$(find "$room/venv" -path '*site-packages/vp*')" ] || fail 'files of the wheel are left'
else
    left_out python3-venv
fi
echo 'the wheel: ok'

# (types of the fixtures are pytest's)
if command -v mypy >/dev/null && command -v pytest >/dev/null; then
    is 0 'types of the package' mypy --strict --python-version 3.9 --cache-dir "$room/mypy" python/vp
    is 0 'types where it is used' env MYPYPATH="$root/python" mypy --strict --cache-dir "$room/mypy" "$room/use.py"
    sed 's/heights: int/heights: str/' "$room/use.py" >"$room/wrong.py"
    is 1 'a wrong type' env MYPYPATH="$root/python" mypy --strict --cache-dir "$room/mypy" "$room/wrong.py"
    says 'Incompatible types in assignment'
else
    left_out mypy
fi

# recipes that print in process, or with VP in this environment in a process: in the way that checks/recipes.sh doesn't
env -u LIBVP recipes/print --in-process "$root/dist/vp" receipt || fail 'no library is beside dist/vp'
! VP_IN_PROCESS=no recipes/print --in-process "$root/dist/vp" receipt || fail 'a process is not to be had'
if recipes/print --in-process "$VP" receipt; then way=no; else way=yes; fi
env -u LIBVP VP="$root/dist/vp" VP_IN_PROCESS="$way" checks/recipes.sh golden golden-labels many lint

# pytest's fixtures, by the wheel's entry point
if command -v pytest >/dev/null; then
    mkdir "$room/suite"
    cat >"$room/suite/test_till.py" <<'END'
import os

import pytest

TOTAL = os.environ.get('TOTAL', '8.08')


def test_receipt(vp_receipt, vp_golden):
    paper = vp_receipt.print(f'TOTAL {TOTAL}\n'.encode())
    assert paper.fault is None
    vp_golden(paper)


@pytest.mark.parametrize('name', ['a/../b', '..', '', 'x' * 300, "é '\"$(c)"])
def test_label(vp_label, vp_golden, name):
    vp_golden(vp_label.print(b'^XA^PW80^LL40^GB9,9,1^FS^XZ^XA'))
    vp_golden(vp_label.print(b'^XA^PW80^LL40^XZ'), name)


def test_twice(vp_label, vp_golden):
    paper = vp_label.print(b'^XA^PW80^LL40^XZ')
    vp_golden(paper, 'one')
    with pytest.raises(ValueError):
        vp_golden(paper, 'one')
END
    tested() { (cd "$room/suite" && env -u LIBVP PYTHONPATH="$site" pytest -q -p no:cacheprovider --basetemp "$room/pytest" "$@"); }
    unset CI
    is 1 'nothing accepted yet' tested
    says 'no image was accepted yet: .*test_receipt.pbm'
    CI=true is 4 'nothing is accepted in a CI' tested --vp-accept
    says 'CI is set, and there nothing is accepted'
    is 1 'a fault is accepted by a word alone' tested --vp-accept
    says 'not accepted: it ends in a fault, vp: F9 after 30 bytes: input ends before printing; --vp-accept-incomplete'
    [ -z "$(find "$room/suite/expected" -name '*.fault')" ] || fail 'a fault is accepted'
    is 0 'what is printed is accepted' tested --vp-accept-incomplete
    is 0 'what was accepted is printed' tested
    is 0 'what was accepted by a word needs none' tested --vp-accept
    grep -q '^vp: F9 after 30 bytes: input ends before printing$' "$room/suite/expected/test_till/"*.fault || fail 'no fault is kept'
    [ -z "$(find "$room/suite" -name '*.pbm' ! -path '*/expected/*' -o -name '.*' -type f)" ] || fail 'a file stands elsewhere'
    TOTAL=9.08 is 1 'a total that changed' tested
    says '27 dots differ, in rows 9 to 16; see .*test_receipt.png; --vp-accept'
    picture=$(find "$room/pytest" -name test_receipt.png)
    [ "$(od -An -j 16 -N 8 -tu1 "$picture" | tr -s ' ')" = ' 0 0 6 224 0 0 0 34' ] || fail 'the picture is another'
    echo '# F9 no more' >>"$room/suite/test_till.py"
    sed -i 's/\^FS^XZ^XA/^FS^XZ/' "$room/suite/test_till.py"
    is 1 'a fault that is gone' tested
    says 'the fault is to be vp: F9 after 30 bytes: input ends before printing and is none'
    cat >"$room/suite/test_skips.py" <<'END'
def test_skips(vp_label, vp_receipt, vp_golden):
    vp_golden(vp_label.print(b'^XA^CI28^LT0^PW80^LL40^GB9,9,1^FS^FVNAME JOHN^FS^XZ'), 'label')
    vp_golden(vp_receipt.print(b'\x1b@\x1bt\x10A\n'), 'receipt')
END
    is 1 'what is skipped is accepted by a word alone' tested test_skips.py --vp-accept
    says 'not accepted: it skips ^FVNAME JOHN; --vp-accept-incomplete takes it over'
    is 0 'what is skipped is accepted by a word' tested test_skips.py --vp-accept-incomplete
    [ "$(cat "$room/suite/expected/test_skips/"*.skipped)" = '^FVNAME JOHN' ] || fail 'other things are skipped'
    is 0 'what no test compares is told' tested test_skips.py --vp-accept-incomplete
    ! grep 'any more' "$room/said" >&2 || fail 'an image that is compared is told'
    sed -i '/receipt.print/d' "$room/suite/test_skips.py"
    mkdir "$room/suite/expected/test_gone" && cp "$room/suite/expected/test_skips/"*.pbm "$room/suite/expected/test_gone"
    is 0 'what no test compares any more' tested test_skips.py --vp-accept-incomplete
    says '^vp_golden: no test compares .*/expected/test_skips/test_skips.receipt.pbm any more$'
    says '^vp_golden: no test compares .*/expected/test_gone any more$'
    [ "$(grep -c 'any more' "$room/said")" = 2 ] || { cat "$room/said" >&2 && fail 'others are told'; }
    is 0 'of a part of a file nothing is told' tested test_skips.py::test_skips
    ! grep 'test_skips.receipt' "$room/said" >&2 || fail 'a part of a file tells of the rest'
    sed -i 's/JOHN/MARY/' "$room/suite/test_skips.py"
    is 1 'what is skipped is another thing' tested test_skips.py
    says 'what is skipped is to be ^FVNAME JOHN and is ^FVNAME MARY'
    ! grep 'any more' "$room/said" >&2 || fail 'a test that fails tells of its images'
    echo "pytest's fixtures: ok"
else
    left_out pytest
fi
