#!/bin/sh
# The module, vp.js and viewer.html: in node the same bytes as vp on the examples and on random streams of each
# language, cut at random, beside vp's time; in Chromium, Firefox and WebKit these and the viewer's own tests, on the
# page as a file.
# `web.sh streams COUNT [SEED]` prints so many random streams of each language, and tests nothing else;
# `web.sh picture FILE [dark]` draws the page.
# shellcheck source=recipes/tests/common.sh
. "$(dirname "$0")/common.sh"
export VP="$vp" TMPDIR="$room"
page=$root/dist/viewer.html
count=150 seed=1 only=
case ${1:-} in
picture)
    python3 recipes/tests/web/in_page.py picture "$page" "$2" "${3:-}"
    exit
    ;;
streams) only=streams count=$2 seed=${3:-1} ;;
esac
recipes/web/page.py dist/vp.wasm | cmp - "$page" || fail 'dist/viewer.html is made of other sources: tools/systems/make.py --renew'
[ "$(wc -c <dist/vp.wasm)" -lt 1000000 ] || fail 'the module has a megabyte or more'
python3 recipes/tests/web/printed.py "$vp" "$count" "$seed" >"$room/streams.json"
if needs node; then
    mkdir "$room/module"
    cp dist/vp.wasm recipes/web/vp.js "$room/module"
    echo '{"type": "module"}' >"$room/module/package.json"
    if [ -n "$only" ]; then set --; else set -- "$vp"; fi
    node recipes/tests/web/in_node.mjs "$room/module" "$room/streams.json" "$@"
    echo 'the module in node: ok'
fi
# in_browser NAME TOOL..: the page in a browser, where its tools are installed
in_browser() {
    name=$1
    shift
    needs "$@" || return 0
    # shellcheck disable=SC2086
    python3 recipes/tests/web/in_page.py "$name" "$page" "$room/streams.json" $only
    echo "viewer.html in $name: ok"
}
in_browser chromium chromium
in_browser firefox firefox-esr
in_browser webkit WebKitWebDriver Xvfb
