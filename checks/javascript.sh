#!/bin/sh
# Makes the package for JavaScript and runs its tests: in node, as it is unpacked and as esbuild and rollup put it together;
# in Chromium, as they do for a browser (BROWSER names firefox or webkit); its types by tsc, as each way of finding them
# does; its matchers over stand-ins of vitest, jest and playwright, and the examples by node's own runner.
set -eu
cd "$(dirname "$0")/.."
root=$PWD
room=$(mktemp -d)
trap 'rm -rf "$room"' EXIT
export PYTHONDONTWRITEBYTECODE=1 TMPDIR="$room"
fail() {
    echo "checks/javascript: $1" >&2
    exit 1
}
left_out() {
    echo "checks/javascript: left out: no $1"
    [ -z "${VP_LEFT_OUT:-}" ] || echo "javascript $1" >>"$VP_LEFT_OUT"
}
needs() {
    for tool; do
        command -v "$tool" >/dev/null || { left_out "$tool" && return 1; }
    done
}
# in_node FILE..: node's tests, of which only what failed is said
in_node() {
    node --test --test-reporter=tap "$@" >"$room/said" 2>&1 || { grep -v '^ok\|^    ok' "$room/said" >&2; fail "$* in node"; }
    grep '^# pass' "$room/said" | sed 's/# pass \(.*\)/\1 tests in node: ok/'
}

package=$(javascript/pack.py "$room")
mkdir "$room/again"
javascript/pack.py "$room/again" >/dev/null
cmp "$package" "$room/again/${package##*/}"
own=$room/node_modules/virtual-receipt-printer
mkdir -p "$own" "$room/recipes/tests/web"
tar -xzf "$package" --strip-components=1 -C "$own"
for file in javascript/examples/*/package.json docs/javascript.md; do
    grep -q "/${package##*/}" "$file" || fail "$file names another version"
done
cp -R javascript examples "$room"
cp recipes/tests/web/same.mjs "$room/recipes/tests/web"
cp -R javascript/tests/stand-ins/. "$room/node_modules"
# rollup finds files alone: by their paths these are found without a plugin
for way in browser index; do
    mkdir -p "$room/$way/javascript/tests"
    cp -R "$room/recipes" "$room/$way"
    for file in same page streams; do
        sed "s|from 'virtual-receipt-printer'|from '$own/$way.mjs'|" "javascript/tests/$file.mjs" >"$room/$way/javascript/tests/$file.mjs"
    done
done
cd "$room"

if needs node; then
    for file in javascript/tests/*.test.mjs; do in_node "$file"; done
    in_node javascript/examples/node/till.test.js
    # what stands is what is expected: so that nothing is accepted where CI is set, and without the flag nowhere
    cd javascript/examples/node
    sed -i 's/Rye bread/Rye bred/' till.test.js
    if CI=true node --test >"$room/said" 2>&1 || CI=true node till.test.js --test-update-snapshots >"$room/said" 2>&1; then
        fail 'a receipt that differs is let through'
    fi
    grep -q -- '--test-update-snapshots is for where you work: CI is set' "$room/said" || fail 'it is accepted in a CI'
    CI='' node till.test.js --test-update-snapshots >"$room/said" || fail 'it is not accepted'
    in_node till.test.js
    cd ../vitest
    node --import virtual-receipt-printer/vitest label.test.js >"$room/said" || { cat "$room/said" >&2; fail "vitest's example"; }
    echo "vitest's example over a stand-in: ok"
    cd "$room"
    python3 "$root/recipes/tests/web/printed.py" "$root/dist/vp" "${COUNT:-150}" "${SEED:-1}" >printed.json
    node javascript/tests/streams.mjs printed.json
    sed -n '/^```js$/,/^```$/p' "$root/docs/javascript.md" | sed '1d; /^```$/,$d' >first.mjs
    [ "$(node first.mjs)" = printed ] && [ -s label.png ] || fail 'the first example of docs/javascript.md'
fi
# (each bundle on some of them)
python3 "$root/recipes/tests/web/printed.py" "$root/dist/vp" "${FEW:-10}" "${SEED:-1}" >few.json
# bundled TOOL BROWSER-BUNDLE NODE-BUNDLE: what a bundler made for node runs there, and what it made for a browser asks for
# nothing of node
bundled() {
    ! grep -n "from 'node:\|require('node:[^w]\|require(\"" "$2" || fail "$1's bundle for a browser asks for node"
    if needs node; then node "$3" few.json; fi
    case " $bundles " in *" $2 "*) ;; *) bundles="$bundles $2" ;; esac
}
bundles=
if needs esbuild; then
    esbuild javascript/tests/page.mjs --bundle --platform=browser --format=iife --log-level=warning --outfile=esbuild.js
    for form in cjs esm; do
        end=js
        [ "$form" = cjs ] || end=mjs
        esbuild javascript/tests/streams.mjs --bundle --platform=node --format="$form" --log-level=warning --outfile="of-esbuild.$end"
    done
    bundled esbuild esbuild.js of-esbuild.js
    bundled esbuild esbuild.js of-esbuild.mjs
    echo "window.printed = require('virtual-receipt-printer');" >common.js
    esbuild common.js --bundle --platform=browser --log-level=warning --outfile=of-common.js
    ! grep -q 'node:util' of-common.js || fail 'required in a browser, it asks for node'
    esbuild javascript/examples/react/main.jsx --bundle --platform=browser --jsx=automatic --external:react \
        --external:react-dom --format=esm --log-level=warning --outfile=react.mjs
    echo 'bundled by esbuild: ok'
fi
if needs rollup; then
    rollup browser/javascript/tests/page.mjs --silent -f iife -o rollup.js
    rollup index/javascript/tests/streams.mjs --silent -f es -o of-rollup.mjs
    bundled rollup rollup.js of-rollup.mjs
    echo 'bundled by rollup: ok'
fi
if [ -n "$bundles" ] && needs node chromium; then
    cat >differs.mjs <<'END'
import { Label } from 'virtual-receipt-printer';
import { toMatchPaper } from 'virtual-receipt-printer/testing';
for (const [text, update] of [['one', 'all'], ['two', 'none']]) {
  const test = { testPath: `${process.cwd()}/shop.test.js`, currentTestName: 'label', snapshotState: { _updateSnapshot: update } };
  await toMatchPaper.call(test, new Label().print(`^XA^PW200^LL60^FO8,8^A0N,30,20^FD${text}^FS^XZ`));
}
END
    CI='' node differs.mjs
    # shellcheck disable=SC2086
    python3 "$root/javascript/tests/in_browser.py" "${BROWSER:-chromium}" few.json __papers__/differs/shop.test.js/label.html $bundles
fi
# typed WORD..: that tsc says nothing
typed() { tsc --noEmit --strict --target es2022 "$@" || fail "the types by tsc $*"; }
if needs tsc; then
    cd javascript/tests
    for file in types types-of-runners; do cp "$file.ts" "$file.mts"; done
    typed --lib es2022 --moduleResolution node --module es2022 types.ts types-of-runners.ts
    typed --lib es2022 --moduleResolution node16 --module node16 types.ts types.mts types-of-runners.mts
    typed --lib es2022,dom,dom.iterable --moduleResolution node16 --module node16 types-of-browsers.ts
    case $(tsc --version) in
    *' '[1-4].*) ;;
    *) typed --lib es2022 --moduleResolution bundler --module es2022 types.ts types-of-runners.ts ;;
    esac
    # (as bundlers find them, by `types` and `import` without a condition of node's, which tsc knows from 5.0 on)
    python3 found.py "$own" "$root/python"
    echo 'the types, by each way of finding them: ok'
fi
