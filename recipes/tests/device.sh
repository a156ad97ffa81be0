#!/bin/sh
# A printer that answers, on port 9100, over HTTP and as a page: what it says, prints, keeps, and how it ends.
. "$(dirname "$0")/common.sh"
export VP="$vp"
# (it answers in process, by the library that is made of the program's sources)
PYTHONPATH=recipes/device python3 -c 'import sys
from vp_device import tools
sys.exit(not tools.package_of(tools.words_of("receipt")))' || fail "the library of $VP isn't beside it"
(cd recipes/tests/device && python3 -W error::ResourceWarning -m unittest discover -b 2>"$room/said") ||
    { cat "$room/said" >&2; fail 'a printer on a network'; }
sed -n 's/^Ran \(.*\) in .*/a printer on a network, \1: ok/p' "$room/said"
if command -v mypy >/dev/null; then
    for file in recipes/device/vp_device recipes/device/device recipes/device/vp_device_fixture.py recipes/port-9100/serve; do
        MYPYPATH="$root/recipes/device:$root/python" is 0 "types of $file" \
            mypy --strict --python-version 3.9 --cache-dir "$room/mypy" "$file"
    done
    MYPYPATH="$root/recipes/device:$root/python" is 0 'types of the tests' \
        mypy --strict --python-version 3.9 --cache-dir "$room/mypy" recipes/tests/device
else
    left_out mypy
fi
