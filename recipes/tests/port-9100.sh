#!/bin/sh
# A printer on port 9100: by itself, behind systemd's socket, behind inetd.
. "$(dirname "$0")/common.sh"
set -- "$vp" receipt --font-a "$root/examples/font-a.pbm" --font-b "$root/examples/font-b.pbm"
"$@" examples/receipt.bin >"$room/receipt.pbm"
recipes/paper "$room/receipt.png" <"$room/receipt.pbm"
serve=$root/recipes/port-9100/serve

# begins NAME OPTION..: a printer of this test's words on a free port, to a folder of this name
begins() {
    port=$(testing port)
    jobs=$room/$1
    shift
    "$serve" --port "$port" "$@" "$jobs" "$vp" receipt --font-a "$root/examples/font-a.pbm" \
        --font-b "$root/examples/font-b.pbm" 2>/dev/null &
    server=$!
}
# ends COUNT: once so many lines are in the log, ends it
ends() {
    for _ in $(seq 600); do
        [ ! -e "$jobs/log" ] || [ "$(wc -l <"$jobs/log")" -lt "$1" ] || break
        sleep 0.1
    done
    kill "$server" && wait "$server" 2>/dev/null || true
    server=
    [ "$(wc -l <"$jobs/log")" -eq "$1" ] || { cat "$jobs/log" >&2; fail "no $1 lines in the log"; }
}
# in_order COUNT: that many connections one after the other have their numbers in order
in_order() {
    testing order "$port" "$1"
    ends "$1"
    for n in $(seq "$1"); do
        [ "$(cat "$jobs/$(printf %06d "$n").bin")" = "$n" ] || fail "job $n isn't the connection's"
    done
}

begins tills --at-once 3
testing tills "$port" examples/receipt.bin "$jobs"
testing loopback "$port"
ends 3
for line in ' printed$' ' cut off: the connection was reset; vp: F' ' vp: F1 after 9 bytes: unknown command 1B 7F$' ' vp: F[89] after .*: input ends'; do
    [ "$(grep -c "$line" "$jobs/log")" -eq 1 ] || { cat "$jobs/log" >&2; fail "no single line '$line' in the log"; }
done
whole=$(sed -n 's/ printed$//p' "$jobs/log")
cmp "$jobs/$whole.bin" examples/receipt.bin
cmp "$jobs/$whole.png" "$room/receipt.png"
[ "$(ls "$jobs"/*.png | wc -l)" -eq 3 ] || fail 'not a PNG for each connection'
echo 'a printer on a port, three tills side by side: ok'

begins sequence
in_order 20
[ "$(cut -d ' ' -f 1 "$jobs/log" | sort | tr '\n' ' ')" = "$(seq -f %06g -s ' ' 20) " ] || fail 'not a line for each'
begins sequence-1 --at-once 1
in_order 20
echo 'twenty connections one after the other: ok'

begins hang --idle 1
testing hang "$port" examples/receipt.bin
ends 18
[ "$(grep -c 'cut off: nothing came for 1 s; ' "$jobs/log")" -eq 17 ] || fail 'not each silent one is cut off'
grep -q '^000017 cut off: nothing came for 1 s; what came is printed$' "$jobs/log" ||
    fail 'what came before the silence is not printed'
[ -e "$jobs/000017.png" ] || fail 'what came before the silence has no paper'
cmp "$jobs/000018.png" "$room/receipt.png"
echo 'sixteen silent connections: ok'

# rasters of 5 MB in all, and a receipt behind them
testing large "$room/large.bin"
begins large
testing send "$port" "$room/large.bin"
testing send "$port" examples/receipt.bin
ends 2
cmp "$jobs/000001.bin" "$room/large.bin"
cmp "$jobs/000002.png" "$room/receipt.png"
"$@" "$room/large.bin" >"$room/large.pbm"
testing same "$jobs/000001.png" "$room/large.pbm"
echo 'five megabytes: ok'

port=$(testing port) jobs=$room/default
VP=$vp "$serve" --port "$port" "$jobs" 2>/dev/null &
server=$!
testing send "$port" examples/shipping.zpl
ends 1
"$vp" label --font-a "$root/examples/font-a.pbm" examples/shipping.zpl | recipes/paper "$room/shipping.png"
cmp "$jobs/000001.png" "$room/shipping.png"
echo 'the shipped sheets: ok'

is 2 'an idle limit that is none' "$serve" --idle 0 "$room/wrong" "$@"
is 2 'a port that is none' "$serve" --port 70000 "$room/wrong" "$@"
is 2 'a program that is none' "$serve" "$room/wrong" "$room/no-vp"
says '^serve: no program '
is 3 'a folder that can be none' "$serve" "$vp/wrong" "$@"
says '^serve: .*: Not a directory$'

if needs systemd-socket-activate; then
    port=$(testing port)
    jobs=$room/activated
    systemd-socket-activate --listen="127.0.0.1:$port" "$serve" "$jobs" "$@" 2>/dev/null &
    server=$!
    in_order 20
    echo 'socket activation: ok'
fi
if needs inetd; then
    port=$(testing port)
    jobs=$room/inetd
    # it ends by itself once inetd is gone
    sed -n "s|:9100|:$port|; s|idle 30|idle 1|; s| vp-printer | $(id -un) |; s|/var/lib/vp-printer|$jobs|
        s|/usr/local/lib/vp/port-9100/serve|$serve|; s|/usr/local/bin/vp|$vp|
        s|/usr/local/share/vp|$root/examples|g; /^127/p" recipes/port-9100/inetd.conf >"$room/inetd.conf"
    inetd -i "$room/inetd.conf" 2>/dev/null &
    server=$!
    in_order 20
    echo 'inetd: ok'
fi
