#!/bin/sh
# Golden images of labels, whose words stand behind --.
. "$(dirname "$0")/common.sh"
golden=$root/recipes/golden report=$room/report
labels=$room/labels
mkdir "$labels"
cp examples/*.zpl "$labels"
label="$vp label --font-a $root/examples/font-a.pbm"
# shellcheck disable=SC2086
is 0 'accept of labels' "$golden" accept "$labels" "$room/label-golds" -- $label
# shellcheck disable=SC2086
is 0 'check of labels' "$golden" check "$labels" "$room/label-golds" --report "$report" -- $label
sed 's/4\.79/4.99/' examples/shelf.zpl >"$labels/shelf.zpl"
# shellcheck disable=SC2086
is 1 'check of a changed price' "$golden" check "$labels" "$room/label-golds" --report "$report" -- $label
says '^shelf.zpl: [0-9,]* dots differ'
says '^1 of 2 streams'
echo 'golden images of labels: ok'
