# shellcheck shell=sh
# What dist/ is held to: functions for scripts that have set root to the repository's folder.
# shellcheck disable=SC2034,SC2154,SC2164
dist=$root/dist built=$root/crates/program/vp_cli/out/vp_cli library=$root/crates/program/vp_c/out

# lines [CRATE]: those of crates.txt of the crates that the program stands on, or that another crate does
lines() {
    awk -v top="${1:-program/vp_cli}" '
        { sub(/#.*/, "") }
        at = index($0, ":") {
            name = substr($0, 1, at - 1)
            # (behind a name may stand what is made of the crate)
            gsub(/^[ \t]+|[ \t].*$/, "", name)
            $0 = substr($0, at + 1)
            $1 = $1
            stands_on[name] = $0
            order[++count] = name
        }
        END {
            needed[top] = more = 1
            while (more) {
                more = 0
                for (name in stands_on)
                    if (name in needed) {
                        words = split(stands_on[name], on, " ")
                        for (i = 1; i <= words; i++)
                            if (on[i] in stands_on && !(on[i] in needed)) needed[on[i]] = more = 1
                    }
            }
            for (i = 1; i <= count; i++)
                if (order[i] in needed) print order[i] ": " stands_on[order[i]]
        }' "$root/crates.txt"
}

# sources [CRATE]: the sum of what the program, or another crate, is made from: these lines, and by name the sums
# of all files of the crates' src, specs and proofs
sources() (
    export LC_ALL=C
    cd "$root" || exit
    top=${1:-program/vp_cli}
    set --
    for place in $(lines "$top" | sed 's/:.*//'); do
        for part in src specs proofs; do
            [ ! -e "crates/$place/$part" ] || set -- "$@" "crates/$place/$part"
        done
    done
    {
        lines "$top"
        [ $# -eq 0 ] || find -L "$@" -type f -print0 | sort -z | xargs -0 sha256sum
    } | sha256sum | cut -c 1-64
)

# toolchain: its identity, as rt version prints it; nothing where rt isn't on the path
toolchain() {
    rt=$(command -v rt) || return 0
    cat "$(dirname -- "$(dirname -- "$(readlink -f -- "$rt")")")/KIT-ID" 2>/dev/null || true
}

# told NAME [FILE]: what a made-from, that of dist/ where no other is named, says of toolchain, sources, glibc
# or bytes
told() { sed -n "s/^# $1: //p" "${2:-$dist/made-from}" 2>/dev/null || true; }

# sum_told [FILE], sum_of FILE: the program's sum as a made-from has it, and a file's own
sum_told() { sed -n 's/^\([0-9a-f]\{64\}\)  .*/\1/p' "${1:-$dist/made-from}" 2>/dev/null || true; }
sum_of() { sha256sum <"$1" | cut -c 1-64; }

# fault: says what keeps dist/vp from being the program that dist/made-from tells of; nothing where it is
fault() {
    if [ ! -e "$dist/vp" ]; then
        echo 'dist/vp is missing'
    elif [ ! -e "$dist/made-from" ]; then
        echo 'dist/made-from is missing'
    elif [ ! -x "$dist/vp" ] || [ ! -r "$dist/vp" ]; then
        echo 'dist/vp is not executable'
    elif [ "$(head -c 20 "$dist/vp" | od -An -v -tx1 -j18 | tr -d ' \n')" != 3e00 ] && [ -s "$dist/vp" ]; then
        echo 'dist/vp is for another machine than x86-64'
    elif [ "$(wc -c <"$dist/vp")" != "$(told bytes)" ]; then
        echo "dist/vp is cut short or has grown: $(wc -c <"$dist/vp") bytes in place of $(told bytes)"
    elif [ "$(sum_of "$dist/vp")" != "$(sum_told)" ]; then
        echo "dist/vp isn't the program that dist/made-from tells of: its bytes are others"
    fi
}

# is_built SOURCES: whether the program that the gate or a build left is made from sources of this sum
is_built() {
    made=${built%/*}/made-from
    [ -x "$built" ] && [ -e "$made" ] && [ "$(told sources "$made")" = "$1" ] &&
        [ "$(sum_of "$built")" = "$(sum_told "$made")" ] || return 1
    here=$(toolchain)
    [ -z "$here" ] || [ "$here" = "$(told toolchain "$made")" ]
}

# has_library: whether the tree has the crate that the library for C is made of
has_library() { [ -d "$root/crates/program/vp_c" ]; }

# library_sources: the sum of what the library for C is made from
library_sources() (
    cd "$root" && {
        sources program/vp_c
        sha256sum include/vp.h
    } | sha256sum | cut -c 1-64
)

# library_is_built SOURCES: whether the library that the gate or a build left is made from sources of this sum
library_is_built() {
    made=$library/made-from
    [ -e "$made" ] && [ "$(told sources "$made")" = "$1" ] &&
        (cd "$library" && sha256sum --quiet -c made-from >/dev/null 2>&1) || return 1
    here=$(toolchain)
    [ -z "$here" ] || [ "$here" = "$(told toolchain "$made")" ]
}

# find_library: sets library to the folder with the library of the sources as they stand: dist/, or where it was
# built, or else it is built now; status 125 where that doesn't go well
find_library() {
    now=$(library_sources)
    if [ "$(told sources "$dist/library-made-from")" = "$now" ] &&
        (cd "$dist" && sha256sum --quiet -c library-made-from >/dev/null 2>&1); then
        library=$dist
    elif ! library_is_built "$now"; then
        python3 "$root/tools/dist/build.py" --library || return 125
    fi
}

# seen [LIST]: in what a change shows, of each file and folder of out/seen.list, or of another list: when it was
# last changed, its place on the disk and its size
seen() (
    export LC_ALL=C
    { cd "$root" && xargs -0 stat -c '%.9Z %i %s %n' <"${1:-out/seen.list}"; } 2>/dev/null
)

# look, keep WORD: what is seen of all that sums are taken of, before they are, and kept, with the word for
# the program that they showed to be current, and where that is. It is kept only where all was last changed
# before the look began, by the clock of this file system: a later change has another time, and in a folder so
# has what comes and goes. What a link leads to isn't seen. Each look has a folder of its own, which drop takes
# away; where it can't be written or kept nothing is said, and the next call takes the sums again.
at=
look() {
    at=$({ mkdir -p "$root/out" && mktemp -d "$root/out/look.XXXXXX"; } 2>/dev/null) || at=
    [ -n "$at" ] || return 0
    # (a limit on files' size ends the shell that writes, and another says so)
    ( (echo >"$at/began" && listed >"$at/list" && seen "$at/list" >"$at/seen") || exit) 2>/dev/null || drop
}
# listed: the names of all that is looked at
listed() (
    cd "$root" && places=$(lines | sed 's/:.*//') && [ -n "$places" ] || exit
    for place in $places; do
        printf '%s\0' "crates/$place" || exit
        for part in src specs proofs; do
            [ ! -e "crates/$place/$part" ] || find "crates/$place/$part" -print0 || exit
        done
    done
    folder=${built%/*}
    for file in crates.txt dist "${built#"$root"/}" "${folder#"$root"/}/made-from"; do
        [ ! -e "$file" ] || find "$file" -print0 || exit
    done
    rt=$(command -v rt) || exit 0
    readlink -z -f -- "$rt"
)
keep() {
    [ -n "$at" ] || return 0
    ( (was_before && printf '%s\n' "$1 $(command -v rt)" "$root" | cat - "$at/seen" >"$at/new" &&
        mv -fT "$at/list" "$root/out/seen.list" &&
        mv -fT "$at/new" "$root/out/seen") || exit) 2>/dev/null || true
    drop
}
# was_before: whether all that is seen was last changed before the look began, on one disk, and none is a link
was_before() (
    export LC_ALL=C
    cd "$root" || exit
    last=$(cut -d ' ' -f 1 "$at/seen" | sort | tail -n 1)
    # what kinds of files there are, and on which disks, but for the toolchain's
    kinds=$({ grep -zv '^/' "$at/list" && printf '%s\0' "$at/began"; } | xargs -0 stat -c '%d %F') || exit
    began=$(stat -c '%.9Z' "$at/began")
    first=$(printf '%s\n' "$last" "$began" | sort | head -n 1)
    [ "$last" != "$began" ] && [ "$first" = "$last" ] && ! echo "$kinds" | grep -q ' symbolic' &&
        [ "$(echo "$kinds" | cut -d ' ' -f 1 | sort -u | wc -l)" = 1 ]
)
drop() {
    [ -z "$at" ] || rm -rf "$at" 2>/dev/null || true
    at=
}

# is_seen: whether nothing changed since a program was shown to be current; sets run to it
is_seen() {
    { [ -r "$root/out/seen" ] && read -r word with <"$root/out/seen"; } 2>/dev/null || return 1
    case $word in
    dist) run=$dist/vp ;;
    built) run=$built && [ "$with" = "$(command -v rt)" ] || return 1 ;;
    *) return 1 ;;
    esac
    [ -x "$run" ] && { printf '%s\n' "$word $with" "$root" && seen; } | cmp -s - "$root/out/seen" 2>/dev/null
}

# find_program: sets run to the program of the sources as they stand: that of dist/, or the one that was
# built, or else it is built now; status 125 where that doesn't go well
find_program() {
    is_seen && return 0
    trap 'drop; exit 130' HUP INT TERM
    find_anew
    found=$?
    drop
    trap - HUP INT TERM
    return "$found"
}
# lacking: the tools, of those that sums are taken with, that aren't there
lacking() {
    for tool in awk cut find head od sed sha256sum sort tr wc xargs; do
        command -v "$tool" >/dev/null || printf ' %s' "$tool"
    done
}
find_anew() {
    tools=$(lacking)
    if [ -n "$tools" ]; then
        echo "vp: it can't be told whether dist/vp is of these sources: there is no$tools" >&2
        return 125
    fi
    look
    now=$(sources 2>/dev/null) why=
    if [ -e "$dist/vp" ] || [ -e "$dist/made-from" ]; then
        why=$(fault)
        [ -n "$why" ] || [ "$now" = "$(told sources)" ] || why='dist/vp is made from other sources than these'
        [ -n "$why" ] || said=$("$dist/vp" --version 2>&1) || why="dist/vp doesn't run here: $said"
        if [ -z "$why" ]; then
            run=$dist/vp
            keep dist
            return 0
        fi
    fi
    run=$built
    if ! is_built "$now"; then
        drop
        python3 "$root/tools/dist/build.py" "$why" || return 125
        look
        is_built "$(sources)" || return 0
    fi
    keep built
}
