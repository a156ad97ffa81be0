#!/bin/sh
# Many streams at once: by xargs, by GNU parallel, and on another machine.
. "$(dirname "$0")/common.sh"
set -- "$vp" receipt --font-a "$root/examples/font-a.pbm" --font-b "$root/examples/font-b.pbm"
"$@" examples/receipt.bin >"$room/receipt.pbm"
many=$room/many
mkdir -p "$many/a shop" "$many/.hidden"
for n in $(seq 50); do cp examples/receipt.bin "$many/a shop/$n.bin"; done
printf 'before\n\033\176after\n' >"$many/fault.bin"
head -c 200 examples/receipt.bin >"$many/'cut' \$1.bin"
touch "$many/.gitkeep" "$many/.hidden/none"
sum=$(sha256sum <"$room/receipt.pbm")

# all OPTION..: each stream is printed as it must be, with these options
all() {
    is 1 "many streams $*" recipes/many "$@" "$many" "$room/out" "$vp" receipt --font-a examples/font-a.pbm \
        --font-b examples/font-b.pbm
    says '^52 streams, 2 with a fault$'
    says '^ *1 F1 unknown command$'
    says '^ *1 F[89] input ends'
    grep -q '^fault\.bin: vp: F1 after 9 bytes: unknown command 1B 7E$' "$room/out/faults.txt" &&
        [ "$(wc -l <"$room/out/faults.txt")" -eq 2 ] || fail 'other lines of faults'
    grep -q 'F1' "$room/out/fault.bin.fault" || fail 'no line of the fault'
}
papers() {
    all "$@"
    cmp "$room/out/a shop/50.bin.pbm" "$room/receipt.pbm"
    [ "$(find "$room/out" -name '*.pbm' | wc -l)" -eq 52 ] || fail 'not an image file for each stream'
    [ -z "$(find "$room/out" -name '.vp-*' ! -name .vp-many)" ] || fail 'something half done stays'
    # what is missing is printed again, and nothing else
    rm "$room/out/a shop/7.bin.pbm"
    echo kept >"$room/out/a shop/8.bin.pbm"
    all --resume "$@"
    cmp "$room/out/a shop/7.bin.pbm" "$room/receipt.pbm"
    [ "$(cat "$room/out/a shop/8.bin.pbm")" = kept ] || fail 'what was printed is printed again'
    rm -r "$room/out"
}
sums() {
    all --sums "$@"
    [ "$(wc -l <"$room/out/sums.txt")" -eq 52 ] || fail 'not a sum for each stream'
    [ "$(grep -c "^${sum%% *}  a shop/[0-9]*\.bin\$" "$room/out/sums.txt")" -eq 50 ] || fail 'other sums'
    [ -z "$(find "$room/out" -name '*.pbm')" ] || fail 'images are kept beside their sums'
    sed -i '/a shop.7\.bin/d' "$room/out/sums.txt"
    all --sums --resume "$@"
    [ "$(wc -l <"$room/out/sums.txt")" -eq 52 ] || fail 'not a sum for each stream, after a break'
    rm -r "$room/out"
}

# a program of the same name that isn't GNU's is none
mkdir "$room/bin"
printf '#!/bin/sh\n' >"$room/bin/parallel"
chmod +x "$room/bin/parallel"
path=$PATH
PATH=$room/bin:$path
papers
sums
mkdir "$room/anew"
printf 'Caf\303\251\020\024\001\000\005\n\033E' >"$room/anew/till.bin"
is 1 'streams that are written anew' recipes/many --expand "$room/anew" "$room/anew-out"
[ "$(cat "$room/anew-out/till.bin.fault")" = 'vp: F8 after 13 bytes: input ends inside a command' ] ||
    fail 'a fault is not told in the bytes that came'
is 2 'other machines without GNU parallel' recipes/many --on far "$many" "$room/out"
says '^many: --on needs GNU parallel$'
PATH=$path
echo 'many by xargs: ok'
if needs parallel; then
    export PARALLEL_HOME="$room"
    papers
    sums
    echo 'many by GNU parallel: ok'
fi

# the shipped sheets, in the language of each stream
mkdir "$room/labels" "$room/receipts"
cp examples/*.zpl "$room/labels"
cp examples/receipt.bin "$room/receipts"
is 0 'labels without words' env VP="$vp" recipes/many "$room/labels" "$room/printed"
"$vp" label --font-a examples/font-a.pbm examples/shelf.zpl | cmp - "$room/printed/shelf.zpl.pbm"
is 0 'receipts without words' env VP="$vp" recipes/many "$room/receipts" "$room/printed"
cmp "$room/printed/receipt.bin.pbm" "$room/receipt.pbm"
[ "$(cat "$room/printed/faults.txt" | wc -l)" -eq 0 ] || fail 'a fault of none'

# nothing of an earlier run is taken for this one's
is 0 'receipts again' env VP="$vp" recipes/many "$room/receipts" "$room/printed" "$vp" receipt
cmp -s "$room/printed/receipt.bin.pbm" "$room/receipt.pbm" && fail 'the image of an earlier run stays'
is 3 'a run that breaks off' env VP="$vp" recipes/many "$room/receipts" "$room/printed" \
    sh -c '[ ! -s /dev/stdin ] || kill -9 $PPID'
[ ! -e "$room/printed/receipt.bin.pbm" ] || fail 'an earlier image stays for --resume to count'

# each stream of a mixed folder in its own language
mkdir "$room/mixed"
cp "$room"/labels/* "$room"/receipts/* "$room/mixed"
is 0 'a mixed folder' env VP="$vp" recipes/many "$room/mixed" "$room/mixed-out"
cmp "$room/mixed-out/receipt.bin.pbm" "$room/receipt.pbm"
cmp "$room/mixed-out/shelf.zpl.pbm" "$room/printed/shelf.zpl.pbm" 2>/dev/null ||
    "$vp" label --font-a examples/font-a.pbm examples/shelf.zpl | cmp - "$room/mixed-out/shelf.zpl.pbm"
is 0 'a mixed folder as receipts' env VP="$vp" recipes/many --lang receipt --sums "$room/receipts" "$room/mixed-sums"

# what no run made stays, and is in the way; what one made goes
mkdir -p "$room/mixed-out/sub"
for file in note.fault sub/mine.fault other.pbm; do echo mine >"$room/mixed-out/$file"; done
cp "$room/mixed/receipt.bin" "$room/mixed/other"
is 3 'an image that no run made' env VP="$vp" recipes/many "$room/mixed" "$room/mixed-out"
says '^many: .*/mixed-out/other.pbm is there already, and no run of many made it$'
is 3 'an image that no run made, and --resume' env VP="$vp" recipes/many --resume "$room/mixed" "$room/mixed-out"
rm "$room/mixed/other" "$room/mixed/shelf.zpl"
is 0 'beside files of others' env VP="$vp" recipes/many "$room/mixed" "$room/mixed-out"
[ "$(cd "$room/mixed-out" && cat note.fault sub/mine.fault other.pbm | grep -c mine)" -eq 3 ] ||
    fail 'files of others are lost'
[ ! -e "$room/mixed-out/shelf.zpl.pbm" ] || fail 'the image of an earlier run stays'
echo mine >"$room/outside"
printf '%s\n' ../outside sub/../../outside "$room/outside" >>"$room/mixed-out/.vp-many"
is 0 'a list from elsewhere' env VP="$vp" recipes/many "$room/mixed" "$room/mixed-out"
[ -e "$room/outside" ] || fail 'a list leads out of its folder'

# an image is whole or not there; a command that is killed, or isn't vp's, is told
is 5 'a command that is killed' recipes/many "$room/receipts" "$room/killed" sh -c '[ ! -s /dev/stdin ] || kill -9 $$'
says '^many: receipt.bin: status 137, and nothing was said$'
says '^many: not all streams were printed; --resume goes on$'
is 5 'a status that is not vp' recipes/many "$room/receipts" "$room/killed" sh -c '[ ! -s /dev/stdin ] || exit 77'
(trap '' XFSZ && ulimit -f 16 && is 3 'a disk that is full' recipes/many "$room/receipts" "$room/killed" "$@") || exit
says '^many: receipt.bin: vp: write failed$'
[ -z "$(find "$room/killed" -name '*.pbm' -o -name '.vp-part*')" ] || fail 'a part of an image is kept'
is 0 'what is left, behind it' recipes/many --resume "$room/receipts" "$room/killed" "$@"
cmp "$room/killed/receipt.bin.pbm" "$room/receipt.pbm"
# of any name, and through a link
mkdir "$room/names"
for name in -dash.bin "quo'te\".bin" '$(touch pwned).bin' "$(printf 'caf\351.bin')"; do
    cp examples/receipt.bin "$room/names/$name"
done
: >"$room/names/empty"
ln -s "$root/recipes/many" "$room/linked"
is 0 'any names' env VP="$vp" "$room/linked" "$room/names" "$room/names-out"
[ "$(find "$room/names-out" -name '*.pbm' | wc -l)" -eq 5 ] && [ ! -e pwned ] || fail 'not an image for each name'
is 0 'any names again' env VP="$vp" "$room/linked" "$room/names" "$room/names-out"
touch "$room/names/$(printf 'a\nb')"
is 3 'a name with a line end' env VP="$vp" recipes/many "$room/names" "$room/names-out"

# a clone's program is the one that its ./vp runs, wherever that is
mkdir -p "$room/clone/tools/dist" "$room/clone/examples"
cp -r recipes python vp "$room/clone"
cp examples/*.pbm "$room/clone/examples"
touch "$room/clone/crates.txt"
printf '#!/bin/sh\necho "$VP_THERE"\n' >"$room/clone/tools/dist/program"
chmod +x "$room/clone/tools/dist/program"
is 0 "a clone's receipts" env -u VP VP_THERE="$vp" "$room/clone/recipes/many" "$room/receipts" "$room/printed"
cmp "$room/printed/receipt.bin.pbm" "$room/receipt.pbm"
rm "$room/clone/tools/dist/program"
is 125 'a clone without a program' env -u VP "$room/clone/recipes/many" "$room/receipts" "$room/printed"

# wrong words and files
is 3 "a folder that isn't there" recipes/many "$room/no such" "$room/printed" "$@"
[ "$(cat "$room/said")" = "many: no folder $room/no such" ] || fail 'more than a line is said'
mkdir "$room/empty"
is 3 'a folder without streams' recipes/many "$room/empty" "$room/printed" "$@"
is 3 'a folder that can be none' recipes/many "$many" "$vp/out" "$@"
is 2 'a folder inside of the streams' recipes/many "$many" "$many/out" "$@"
rmdir "$many/out"
is 2 'one word' recipes/many "$many"
is 2 'a wrong option' recipes/many --wrong "$many" "$room/printed"
is 2 'a wrong language' recipes/many --lang klingon "$many" "$room/printed"
is 2 'a program that is none' recipes/many "$many" "$room/printed" "$room/no-vp"
for count in 0 -1 many; do
    is 2 'a wrong count of jobs' env JOBS=$count recipes/many "$many" "$room/printed" "$@"
    is 2 'a wrong count of a batch' env BATCH=$count recipes/many "$many" "$room/printed" "$@"
done
is 2 'wrong words of vp' recipes/many "$many" "$room/printed" "$vp" receipt --wrong
is 3 'a sheet that is none' recipes/many "$many" "$room/printed" "$vp" receipt --font-a "$room/none"
says '^vp: cannot open '
echo 'many, its words: ok'

# another machine: this one, by an sshd of the test's own
if needs parallel rsync ssh sshd ssh-keygen; then
    far=$room/far
    mkdir -m 700 "$far"
    ssh-keygen -q -t ed25519 -N '' -f "$far/host"
    ssh-keygen -q -t ed25519 -N '' -f "$far/user"
    port=$(testing port)
    cp "$far/user.pub" "$far/authorized_keys"
    printf '[127.0.0.1]:%s %s\n' "$port" "$(cat "$far/host.pub")" >"$far/known_hosts"
    printf '%s\n' "Port $port" 'ListenAddress 127.0.0.1' "HostKey $far/host" "PidFile $far/pid" 'UsePAM no' \
        "AuthorizedKeysFile $far/authorized_keys" 'StrictModes no' 'PasswordAuthentication no' >"$far/sshd_config"
    printf '%s\n' 'Host far' 'HostName 127.0.0.1' "Port $port" "User $(id -un)" "IdentityFile $far/user" \
        'IdentitiesOnly yes' "UserKnownHostsFile $far/known_hosts" 'StrictHostKeyChecking yes' \
        'BatchMode yes' >"$far/ssh_config"
    [ "$(id -u)" != 0 ] || mkdir -p /run/sshd
    "$(command -v sshd)" -D -f "$far/sshd_config" -E "$far/log" &
    server=$!
    on="ssh -F $far/ssh_config far"
    for _ in $(seq 100); do
        if $on true 2>"$far/said"; then break; fi
        sleep 0.1
    done
    $on true || { cat "$far/log" >&2; fail 'no connection to the sshd of this test'; }
    BATCH=40
    export BATCH
    papers --on "$on"
    unset BATCH
    all --sums --on "$on"
    [ "$(grep -c "^${sum%% *}  a shop/[0-9]*\.bin\$" "$room/out/sums.txt")" -eq 50 ] || fail 'other sums from afar'
    rm "$far/authorized_keys"
    is 3 'a machine that lets nobody in' recipes/many --on "$on" "$many" "$room/out" "$@"
    says '^many: not all streams were printed; --resume goes on$'
    echo 'many on another machine: ok'
fi
