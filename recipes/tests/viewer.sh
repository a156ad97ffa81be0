#!/bin/sh
# The viewer, over HTTP, and in a headless Chromium where one is installed. `viewer.sh picture FILE` draws the
# README's picture of the page.
# shellcheck source=recipes/tests/common.sh
. "$(dirname "$0")/common.sh"
export VP="$vp" TMPDIR="$room"
if [ "${1:-}" = picture ]; then
    python3 recipes/tests/viewer/check.py picture "$2"
    exit
fi
python3 recipes/tests/viewer/check.py http
echo 'the viewer over HTTP: ok'
if needs chromium; then
    python3 recipes/tests/viewer/check.py browser
    echo 'the viewer in Chromium: ok'
fi
