#!/bin/sh
# A job: what is kept of it, and what is said where it can't be kept or its command doesn't end as vp does.
. "$(dirname "$0")/common.sh"
export VP="$vp"
job=$root/recipes/job
set -- "$vp" receipt --font-a "$root/examples/font-a.pbm" --font-b "$root/examples/font-b.pbm"
"$@" examples/receipt.bin >"$room/receipt.pbm"
recipes/paper "$room/receipt.png" <"$room/receipt.pbm"
cd "$room"
# becomes NUMBER STATUS LINE FILES COMMAND..: what becomes of a receipt that is printed so
becomes() {
    number=$1 status=$2 line=$3 files=$4
    shift 4
    is "$status" "job $number" "$job" q "$@" <"$root/examples/receipt.bin"
    [ "$(tail -n 1 q/log)" = "$number $line" ] || fail "the log says: $(tail -n 1 q/log)"
    says "^$number "
    [ "$(cd q && echo "$number"*)" = "$files" ] || fail "of job $number there is: $(cd q && echo "$number"*)"
}
becomes 000001 0 printed '000001.bin 000001.png'
cmp q/000001.bin "$root/examples/receipt.bin"
cmp q/000001.png receipt.png
becomes 000002 3 'sh ended with status 3 and said nothing' '000002.bin' sh -c 'exit 3'
becomes 000003 5 'sh was ended by SIGKILL' '000003.bin' sh -c 'kill -9 $$'
becomes 000004 5 'sh ended with status 77 and said nothing' '000004.bin' sh -c 'cat receipt.pbm; exit 77'
becomes 000005 5 'sh ended with status 1 and said nothing' '000005.bin' sh -c 'exit 1'
becomes 000006 5 'cat printed no images as vp does: it is not what vp prints' '000006.bin' cat "$root/README.md"
head -c 1000 receipt.pbm >cut.pbm
becomes 000007 5 'cat printed no images as vp does: its last image is cut short' '000007.bin' cat cut.pbm
becomes 000008 5 'sh was ended by SIGTERM' '000008.bin' sh -c 'cat cut.pbm; kill $$'
becomes 000009 5 'yes printed no images as vp does: it is not what vp prints' '000009.bin' yes
becomes 000010 2 'cannot run ./none: No such file or directory' '000010.bin' ./none
becomes 000011 2 'error: unknown option --wrong; usage: vp receipt' '000011.bin 000011.txt' \
    sh -c 'printf "error: unknown option --wrong\nusage: vp receipt\n" >&2; exit 2'
becomes 000012 1 'vp: F1 after 9 bytes: unknown command 1B 7F' '000012.bin 000012.png 000012.txt' \
    sh -c 'printf "before\n\033\177" | "$0" receipt' "$vp"
becomes 000013 0 printed '000013.bin 000013.png 000013.txt' sh -c 'echo a warning >&2; cat receipt.pbm'
becomes 000014 0 'nothing was printed' '000014.bin' true
# a PNG that is there already isn't the job's
echo mine >q/000015.png
becomes 000015 3 'q/000015.png is there already, and was made of something else' '000015.bin 000015.png'
is 0 'a label' "$job" q <"$root/examples/shelf.zpl"
[ -e q/000016.png ] || fail 'a lone label has a number'
echo 'what becomes of a job: ok'

# what can't be kept whole isn't, and takes no number
testing large large.bin
(ulimit -f 1000 && is 3 'a stream that is too large' "$job" q <large.bin) || exit
says '^000017 cannot be kept: File too large$'
[ "$(tail -n 1 q/log)" = '000017 cannot be kept: File too large' ] || fail 'the log says nothing of it'
[ ! -e q/000017.bin ] || fail 'a part of the stream is kept'
# (its stream is smaller than its image)
printf 'x\n\033d\377\033d\377' >tall.bin
for n in 1 2 3 4 5 6; do cat tall.bin tall.bin >taller.bin && mv taller.bin tall.bin; done
"$vp" receipt --font-a "$root/examples/font-a.pbm" tall.bin >tall.pbm
(ulimit -f 1 && is 3 'an image that is too large' "$job" q cat tall.pbm <"$root/examples/first.bin") || exit
[ "$(cd q && echo 000017*)" = '000017.bin' ] || fail 'a part of a PNG is kept'
[ -z "$(ls -A q | grep '^\.vp')" ] || fail 'something half done stays'
apart=
for way in 'unshare -m' 'unshare -rm'; do
    # shellcheck disable=SC2086
    if $way mount -t tmpfs none "$room/q" 2>/dev/null; then apart=$way; fi
done
if [ -n "$apart" ]; then
    mkdir disk
    # shellcheck disable=SC2016,SC2086
    is 3 'a full disk' $apart sh -euc 'mount -t tmpfs -o size=1m none disk
        "$0" disk cat receipt.pbm <large.bin 2>&1 && exit 9 || kept=$?
        [ -z "$(ls -A disk | grep -v ^log)" ] || exit 8
        exit "$kept"' "$job"
    says '^000001 cannot be kept: No space left on device$'
else
    echo 'job: not tested: a full disk: nothing may be mounted here'
fi
is 3 'a folder that can be none' "$job" /dev/null/none </dev/null
is 3 'standard input that is closed' "$job" q <&-
says 'standard input is closed'
for name in 'a blank' "quo'te\"" '$(touch pwned)' "$(printf 'a\nb')" "$(printf 'caf\351')"; do
    is 0 "the folder $name" "$job" "./$name" <"$root/examples/first.bin"
    [ -e "./$name/000001.png" ] || fail "no PNG in $name"
done
[ ! -e pwned ] || fail 'a name was run'
printf 'Caf\351\n\020\024\001\000\005x\n' >anew.bin
is 0 'a stream that is written anew' "$job" --expand anew-jobs <anew.bin
says '^000001 printed$'
cmp anew.bin anew-jobs/000001.bin
is 0 'the same by the whole language' "$job" anew-jobs <anew.bin
is 1 'the same as it came' "$job" --as-it-came anew-jobs <anew.bin
is 2 'both' "$job" --as-it-came --expand anew-jobs <anew.bin
is 2 'no folder' "$job"
is 2 'a wrong option' "$job" --wrong
is 0 'help' "$job" --help
says '^usage: job \[--expand\].* FOLDER'
echo 'jobs that cannot be kept: ok'
