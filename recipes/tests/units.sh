#!/bin/sh
# The systemd units, with paths that are there.
. "$(dirname "$0")/common.sh"
if needs systemd-analyze; then
    mkdir "$room/units"
    cp recipes/port-9100/vp-printer.socket "$room/units"
    sed "s|/usr/local/lib/vp|$root/recipes|; s|/usr/local/bin/vp|$vp|" \
        recipes/port-9100/vp-printer.service >"$room/units/vp-printer.service"
    is 0 'the systemd units' systemd-analyze verify "$room"/units/*
    ! grep 'vp-printer' "$room/said" >&2 || fail 'systemd complains of a unit'
    echo 'the systemd units: ok'
fi
