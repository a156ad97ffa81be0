#!/bin/sh
# Holds Python, shell and JavaScript to their linters: flake8 with lines of 120 columns, mypy --strict for Python 3.9,
# the warnings of shellcheck, and tsc's checkJs. What isn't clean yet is named below.
set -eu
cd "$(dirname "$0")/.."
room=$(mktemp -d)
trap 'rm -rf "$room"' EXIT

# What isn't clean yet: by flake8 for its long lines and named lambdas alone, by mypy, by shellcheck, and by tsc.
LONG='bench/* python/tests/* recipes/tests/* recipes/vp_recipes/* tools/systems/*'
UNTYPED=''
SHELL_NOT_YET='recipes/many recipes/tests/[egjmp]*.sh recipes/tests/common.sh'
SCRIPTS_NOT_YET='recipes/viewer/[!bdkm]*.js recipes/viewer/mending.js recipes/web/*.js'
# What is held to mypy beside the packages vp and vp_recipes.
TYPED='checks/pages.py checks/trust.py checks/walks.py javascript/pack.py recipes/web/bundle.py tools/dist/keeping.py tools/docs/commands.py
    tools/gate/edits.py tools/gate/gate.py tools/gate/minutes.py tools/gate/passing.py tools/gate/record.py
    tools/gate/refused.py tools/gate/within'

# not_yet TOOL FILE: whether a file isn't held to it yet
not_yet() {
    case $1 in
    flake8) patterns=$LONG ;;
    mypy) patterns=$(for name in $UNTYPED; do echo "recipes/vp_recipes/$name.py"; done) ;;
    shellcheck) patterns=$SHELL_NOT_YET ;;
    tsc) patterns=$SCRIPTS_NOT_YET ;;
    esac
    set -f
    for pattern in $patterns; do
        # shellcheck disable=SC2254
        case $2 in $pattern) set +f && return 0 ;; esac
    done
    set +f
    return 1
}

left_out() {
    echo "checks/style: left out: no $1"
    [ -z "${VP_LEFT_OUT:-}" ] || echo "style $1" >>"$VP_LEFT_OUT"
}
needs() { command -v "$1" >/dev/null || { left_out "$1" && return 1; }; }
# written_in FIRST END..: the files of the repository whose first line has this word, or whose names have one of these ends
written_in() {
    word=$1
    shift
    find checks completions examples javascript python recipes tools bench build install test.sh vp .ci -type f ! -path '*/out/*' \
        ! -path '*/__pycache__/*' ! -path '*/node_modules/*' ! -path '*/mypy_cache/*' | LC_ALL=C sort |
        while IFS= read -r file; do
            for end; do
                case $file in *."$end") echo "$file" && continue 2 ;; esac
            done
            case ${file##*/} in *.*) continue ;; esac
            case $(head -c 60 "$file" | head -n 1 | tr -d '\0') in '#!'*"$word"*) echo "$file" ;; esac
        done
}
# held TOOL: of the files that are read those that are held to it
held() {
    while IFS= read -r file; do not_yet "$1" "$file" || echo "$file"; done
}
failed=
# told TOOL: what a tool said in $room/said of the files that are held to it; any line is a fault
told() {
    while IFS= read -r line; do
        file=${line%%[:(]*}
        { [ -e "$file" ] && not_yet "$1" "$file"; } || echo "$line"
    done <"$room/said" >"$room/faults"
    [ -s "$room/faults" ] || return 0
    cat "$room/faults" >&2
    failed="$failed $1"
}

written_in python3 py >"$room/python"
if needs flake8; then
    # of what isn't held to it any other fault than these is one
    xargs flake8 --max-line-length 120 <"$room/python" | while IFS= read -r line; do
        case $line in
        *': E501 '* | *': E731 '* | *': E203 '*) echo "$line" ;;
        *) echo "(other) $line" ;;
        esac
    done >"$room/said" || true
    told flake8
    held flake8 <"$room/python" >"$room/held"
    echo "flake8, $(wc -l <"$room/held") of $(wc -l <"$room/python") files"
fi
if needs mypy; then
    # (calls of what has no types yet are let through; the recipes have the package as a part of theirs, which is found as
    # they run and for mypy stands there)
    mkdir -p "$room/types/recipes"
    cp -R recipes/vp_recipes "$room/types/recipes"
    cp -R python/vp "$room/types/recipes/vp_recipes"
    MYPYPATH=$room/types/recipes:python mypy --strict --allow-untyped-calls --python-version 3.9 --no-error-summary --hide-error-context \
        --cache-dir "$room/mypy" -p vp -p vp_recipes 2>&1 |
        sed "s|^[^ ]*/types/||; s|^recipes/vp_recipes/vp/|python/vp/|" | sort -u >"$room/said" || true
    # shellcheck disable=SC2086
    MYPYPATH=recipes/viewer:recipes/web:tools/dist:tools/gate:tools/packages mypy --strict --allow-untyped-calls --follow-imports silent --python-version 3.9 \
        --no-error-summary --cache-dir "$room/mypy" $TYPED >>"$room/said" 2>&1 || true
    ! grep -v '^[^ ]*\.pyi\{0,1\}:[0-9]' "$room/said" >&2 || failed="$failed mypy"
    told mypy
    find python/vp recipes/vp_recipes -name '*.py' >"$room/python"
    held mypy <"$room/python" >"$room/held"
    echo "mypy --strict, $(wc -l <"$room/held") of $(wc -l <"$room/python") files of packages, and $(echo "$TYPED" | wc -w) others"
fi
if needs shellcheck; then
    written_in '/sh' sh >"$room/shell"
    held shellcheck <"$room/shell" >"$room/held"
    xargs shellcheck -x -P SCRIPTDIR -S warning -f gcc <"$room/held" >"$room/said" || true
    told shellcheck
    echo "shellcheck, $(wc -l <"$room/held") of $(wc -l <"$room/shell") files"
fi
if needs tsc; then
    find javascript/src recipes/viewer recipes/web -name '*.js' | LC_ALL=C sort >"$room/javascript"
    held tsc <"$room/javascript" >"$room/held"
    xargs tsc --noEmit --allowJs --checkJs --target es2022 --module es2022 --moduleResolution node \
        --lib es2022,dom,dom.iterable javascript/src/node.d.ts <"$room/javascript" | grep '^[^ ]' >"$room/said" || true
    told tsc
    echo "tsc, $(wc -l <"$room/held") of $(wc -l <"$room/javascript") files"
fi
[ -z "$failed" ] || { echo "checks/style: not clean by:$failed" >&2; exit 1; }
echo 'what is held to linters is clean: ok'
