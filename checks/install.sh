#!/bin/sh
# Installs the program below a folder and takes it away again, asks the completions for words where their
# shells are, and makes the Debian packages, which are unpacked into an empty root.
set -eu
export LC_ALL=C
root=$(dirname "$(dirname "$(realpath "$0")")")
program=${VP:-$root/dist/vp}
[ -x "$program" ] || program=$root/crates/program/vp_cli/out/vp_cli
if ! "$program" --version >/dev/null 2>&1; then
    echo 'not tested: install, completions, package: there is no program to try them with'
    exit 0
fi
room=$(mktemp -d)
trap 'rm -rf "$room"' EXIT
export VP_PROGRAM="$program"

fail() {
    echo "checks/install: $1" >&2
    [ ! -s "$room/said" ] || cat "$room/said" >&2
    exit 1
}
# is EXPECTED WHAT COMMAND..: whether a command ends with this status
is() {
    expected=$1 what=$2 status=0
    shift 2
    "$@" >"$room/printed" 2>"$room/said" || status=$?
    [ "$status" -eq "$expected" ] || fail "$what: status $status in place of $expected"
}
# is_compiled PREFIX: whether each module that a call of vp-show reads is kept compiled
is_compiled() {
    python3 -v "$1/bin/vp-show" "$root/examples/shelf.zpl" >/dev/null 2>"$room/said" || fail 'vp-show of modules that are compiled'
    rm -f shelf.png
    grep -q "^# code object from .*/lib/vp/.*\.pyc'" "$room/said" || fail "nothing below $1 is compiled"
    ! grep "^# code object from .*/lib/vp/.*\.py'" "$room/said" || fail "a module below $1 isn't compiled"
}
has() { command -v "$1" >/dev/null || { echo "not tested: $2: $1 isn't installed"; false; }; }

# below a prefix, and below a prefix in another root
for dest in '' "$room/a root"; do
    prefix="$room/a prefix"
    [ -z "$dest" ] || prefix=/usr
    mkdir -p "$dest$prefix/share/doc/other" "$dest$prefix/lib/vp/own"
    echo kept >"$dest$prefix/share/doc/other/kept"
    echo kept >"$dest$prefix/lib/vp/own/kept"
    export DESTDIR="$dest"
    is 0 'install' "$root/install" "$prefix"
    grep -qx "$dest$prefix/bin/vp" "$room/printed" || fail 'install names no program'
    (cd "$dest$prefix" && find . -type f | LC_ALL=C sort) >"$room/files"
    for file in bin/vp include/vp.h lib/libvp.so.1 lib/libvp.a lib/pkgconfig/vp.pc lib/pkgconfig/vp-static.pc lib/cmake/vp/vp-config.cmake lib/cmake/vp/vp-config-version.cmake share/man/man1/vp.1 share/vp/font-a.pbm share/vp/font-b.pbm lib/vp/job lib/vp/paper \
        share/doc/vp/LICENSE-MIT share/doc/vp/LICENSE-APACHE share/doc/vp/NOTICE share/doc/vp/CHANGELOG.md; do
        grep -qx "./$file" "$room/files" || fail "$file isn't installed"
    done
    ! grep '/tests/\|testing\|\.new$\|/\.vp-' "$room/files" || fail 'what only serves tests is installed'
    # what names a place names this one, and what a page links to is there
    ! grep -rn '/usr/local' "$dest$prefix/lib" "$dest$prefix/share/man" || fail 'an installed file names another place'
    for file in port-9100/vp-printer.service port-9100/inetd.conf cups/vp; do
        grep -qF "$prefix/lib/vp/" "$dest$prefix/lib/vp/$file" || fail "$file doesn't name its place"
    done
    grep -qF "$prefix/share/vp/font-a.pbm" "$dest$prefix/share/man/man1/vp.1" ||
        fail "the man page doesn't name its place"
    (cd "$dest$prefix" && grep -ro --include '*.md' '](\.*[A-Za-z0-9_./-]*[)#]' lib/vp share/doc/vp) |
        grep -v '](https\{0,1\}:\|CHANGELOG' >"$room/links"
    while IFS= read -r link; do
        file=${link%%:*} to=${link#*](}
        to=${to%?}
        [ -z "$to" ] || [ -e "$dest$prefix/${file%/*}/$to" ] || fail "$file links to $to, which isn't installed"
    done <"$room/links"
    [ "$(wc -l <"$room/links")" -ge 12 ] || fail 'no links are found'
    # recipes on the path
    for tool in show lint golden paper; do
        is 0 "vp-$tool" env -i PATH="$PATH" "$dest$prefix/bin/vp-$tool" --help
    done
    for tool in "$dest$prefix/bin"/vp-*; do
        tool=${tool##*/}
        [ -e "$dest$prefix/share/bash-completion/completions/$tool" ] || fail "no completions of $tool"
        grep -q "^\.Ss $tool\$" "$dest$prefix/share/man/man1/$tool.1" || fail "no manual page of $tool"
    done
    (cd "$room" && is_compiled "$dest$prefix")
    (cd "$room" && is 0 'vp-show' env -i PATH="$PATH" "$dest$prefix/bin/vp-show" "$root/examples/shelf.zpl")
    [ -e "$room/shelf.png" ] || fail 'vp-show makes no PNG'
    (cd "$dest$prefix/share/vp" && env -i ../../bin/vp receipt --font-a font-a.pbm --font-b font-b.pbm) \
        <"$root/examples/receipt.bin" >"$room/receipt.pbm"
    (cd "$room" && env -i PATH="$PATH" "$dest$prefix/lib/vp/paper" receipt.png) <"$room/receipt.pbm"
    python3 "$root/recipes/tests/testing.py" same "$room/receipt.png" "$room/receipt.pbm"
    # a file of an earlier version goes with the next install
    echo old >"$dest$prefix/lib/vp/old"
    echo lib/vp/old >>"$dest$prefix/lib/vp/installed"
    is 0 'install over an install' "$root/install" "$prefix"
    [ ! -e "$dest$prefix/lib/vp/old" ] || fail 'a file of an earlier version stays'
    for folder in vp_recipes own; do
        mkdir -p "$dest$prefix/lib/vp/$folder/__pycache__"
        touch "$dest$prefix/lib/vp/$folder/__pycache__/paper.cpython-39.pyc"
    done
    is 0 'uninstall' "$root/install" --uninstall "$prefix"
    left=$(cd "$dest$prefix" && find . -type f | LC_ALL=C sort | tr '\n' ' ')
    [ "$left" = './lib/vp/own/__pycache__/paper.cpython-39.pyc ./lib/vp/own/kept ./share/doc/other/kept ' ] ||
        fail "other files are left: $left"
    [ ! -e "$dest$prefix/share/vp" ] || fail 'an empty folder is left'
    is 3 'uninstall where nothing is' "$root/install" --uninstall "$prefix"
done
unset DESTDIR

# whoever may read the place may use it, whatever the umask
(umask 077 && is 0 'install under umask 077' "$root/install" "$room/closed/to others")
closed=$(find "$room/closed" \( -type d ! -perm -755 -o -type f ! -perm -644 \) -print)
[ -z "$closed" ] || fail "it is closed to others: $closed"
rm -r "$room/closed"

# files that no install put there stay, and no link leads it elsewhere
prefix=$room/others
mkdir -p "$prefix/bin" "$prefix/share/vp"
echo mine >"$prefix/share/vp/font-a.pbm"
echo mine >"$room/mine"
ln -s "$room/mine" "$prefix/bin/vp.new"
is 3 'install over files of others' "$root/install" "$prefix"
grep -q "font-a.pbm is there already, and no install put it there" "$room/said" || fail 'it names no file'
[ ! -e "$prefix/bin/vp" ] && [ "$(cat "$prefix/share/vp/font-a.pbm")" = mine ] ||
    fail 'files of others are written over'
rm "$prefix/share/vp/font-a.pbm"
ln -s "$room/mine" "$prefix/bin/vp"
is 3 'install over a link of others' "$root/install" "$prefix"
rm "$prefix/bin/vp"
is 0 'install beside a link' "$root/install" "$prefix"
[ "$(cat "$room/mine")" = mine ] || fail 'install writes through a link'
# one that breaks off is known to the next
rm "$prefix/bin/vp"
mkdir "$prefix/bin/vp"
is 1 'an install that breaks off' "$root/install" "$prefix"
[ -z "$(find "$prefix" -name '.vp-*')" ] || fail 'something half done stays'
rmdir "$prefix/bin/vp"
is 0 'an install behind one that broke off' "$root/install" "$prefix"
is 0 'uninstall' "$root/install" --uninstall "$prefix"
[ "$(cd "$prefix" && find . ! -type d)" = ./bin/vp.new ] || fail 'other files are left, or taken away'
is 3 'a name that no file can name' "$root/install" "$room/a'b"
is 2 'install without a place' "$root/install"
is 2 'install with a wrong word' "$root/install" --prefix "$room"
is 2 'uninstall without a place' "$root/install" --uninstall
echo 'install and uninstall: ok'

# what each shell offers: offers SHELL WORDS WANT..: behind these words just these come, in any order
offers() {
    shell=$1 words=$2
    shift 2
    found=$("in_$shell" "$words" | LC_ALL=C sort | tr '\n' ' ')
    wanted=$(printf '%s\n' "$@" | LC_ALL=C sort | tr '\n' ' ')
    [ "$found" = "$wanted" ] || fail "$shell offers behind '$words': $found"
}
in_bash() {
    case $1 in vp-*) name=vp-tools asked=_vp_tools ;; *) name=vp asked=_vp ;; esac
    bash --norc -c '. "$1"; read -ra COMP_WORDS <<<"$2"; case $2 in *" ") COMP_WORDS+=("") ;; esac
        COMP_CWORD=$((${#COMP_WORDS[@]} - 1)); "$3"; printf "%s\n" "${COMPREPLY[@]}"' \
        bash "$root/completions/$name.bash" "$1" "$asked" 2>/dev/null
}
in_fish() {
    HOME=$room XDG_CONFIG_HOME=$room XDG_DATA_HOME=$room \
        fish -c "source $root/completions/vp.fish; source $root/completions/vp-tools.fish; complete -C '$1'" \
        2>/dev/null | cut -f 1
}
# (zsh completes only on a terminal: one is made for it, and what is added to its list is kept)
in_zsh() {
    (
        cd "$room/zsh"
        rm -f ready offered finished
        HOME=$room timeout 30 zsh -f ask.zsh "$1" >/dev/null 2>&1 || true
        sort -u offered
    )
}
mkdir "$room/zsh"
cat >"$room/zsh/setup.zsh" <<END
PROMPT=
fpath=($root/completions \$fpath)
autoload -U compinit
compinit -u -D
bindkey '^I' complete-word
compadd() {
    if [[ \${@[1,(i)(-|--)]} != *-(O|A|D)\ * ]]; then
        local -a hits
        builtin compadd -A hits "\$@"
        (( \$#hits )) && print -rl -- \$hits >>offered
    fi
    builtin compadd "\$@"
}
ended() { : >finished }
comppostfuncs=(ended)
: >ready
END
cat >"$room/zsh/ask.zsh" <<'END'
zmodload zsh/zpty
await() { repeat 200; do [[ -e $1 ]] && return; sleep 0.05; done; exit 1 }
zpty asked zsh -f -i
zpty -w asked 'source ./setup.zsh'
await ready
zpty -n -w asked "$1"$'\t'
await finished
zpty -d asked
END
"$root/tools/docs/commands.py" --check || fail 'completions or the manual page lack what a command has'
for words in receipt label list join; do
    for option in $("$program" "$words" --help | grep -o '^ *\(-., \)\?--[a-z-]*' | grep -o -- '--.*'); do
        in_bash "vp $words --" | grep -qx -- "$option" || fail "bash doesn't offer vp $words $option"
        grep -q -- "-l ${option#--}\>" "$root/completions/vp.fish" || fail "fish doesn't offer $option"
        grep -q -- "$option\>" "$root/completions/_vp" || fail "zsh doesn't offer $option"
    done
done
touch "$room/zsh/order.bin"
touch "$room/order.bin"
cd "$room"
for shell in bash fish zsh; do
    if has "$shell" "completions of $shell"; then
        offers "$shell" 'vp l' label list
        offers "$shell" 'vp j' join
        offers "$shell" 'vp receipt --width ' 384 576
        offers "$shell" 'vp list --lang ' label receipt
        offers "$shell" 'vp list --o' --offsets
        offers "$shell" 'vp receipt --font-' --font-a --font-b
        offers "$shell" 'vp label --font-' --font-a
        offers "$shell" 'vp receipt ord' order.bin
        offers "$shell" 'vp label --font-a ord' order.bin
        offers "$shell" 'vp join ord' order.bin
        offers "$shell" 'vp-show --lang ' label receipt
        offers "$shell" 'vp-show --o' --open
        offers "$shell" 'vp-show ord' order.bin
        offers "$shell" 'vp-lint --known ord' order.bin
        offers "$shell" 'vp-golden che' check
        offers "$shell" 'vp-job --e' --expand
        offers "$shell" 'vp-job ord' order.bin
        offers "$shell" 'vp-viewer --width ' 384 576
        offers "$shell" 'vp-sheet --font ' a b
        offers "$shell" 'vp-face --b' --between
        echo "completions of $shell: ok"
    fi
done

# the Debian packages
mkdir deb again
is 0 'the packages' "$root/tools/packages/deb.py" deb
is 0 'the packages once more' "$root/tools/packages/deb.py" again
for deb in deb/*.deb; do cmp "$deb" "again/${deb#deb/}" || fail 'a package is made of other bytes'; done
deb=$(ls deb/vp_*.deb) library_deb=$(ls deb/libvp1_*.deb) dev_deb=$(ls deb/libvp-dev_*.deb)
[ "$deb" = "deb/vp_$("$program" --version | cut -d ' ' -f 2)_amd64.deb" ] || fail "the package is $deb"
version=$("$program" --version | cut -d ' ' -f 2)
grep -q "^## $version," "$root/CHANGELOG.md" || fail "CHANGELOG.md lacks $version"
is 2 'two folders' "$root/tools/packages/deb.py" deb again
is 3 'a folder that is a file' "$root/tools/packages/deb.py" order.bin
if has dpkg-deb 'what the package holds'; then
    # into an empty root, run there, and taken away
    mkdir empty
    dpkg-deb -x "$deb" empty
    ! grep -rn '/usr/local' empty || fail 'a file of the package names another place'
    is 0 'vp-lint of the package' env -i PATH="$PATH" empty/usr/bin/vp-lint "$root/examples/shelf.zpl"
    empty/usr/bin/vp receipt --font-a empty/usr/share/vp/font-a.pbm --font-b empty/usr/share/vp/font-b.pbm \
        "$root/examples/receipt.bin" | cmp - receipt.pbm
    dpkg-deb -e "$deb" head
    (cd empty && md5sum --quiet -c ../head/md5sums) || fail 'a sum of the package is wrong'
    needed=$("$root/tools/dist/glibc_needed.py" "$program")
    grep -q "^Depends: libc6 (>= $needed)" head/control || fail 'the package needs another libc6'
    grep -q '^Recommends: .*\bzint\b' head/control || fail 'the package recommends no zint'
    for name in vp vp-tools vp-show vp-viewer; do
        gzip -dc "empty/usr/share/man/man1/$name.1.gz" >/dev/null || fail "the package has no manual page of $name"
    done
    # what is built with the library's packages runs by them
    dpkg-deb -x "$library_deb" for-c
    dpkg-deb -x "$dev_deb" for-c
    dpkg-deb -f "$library_deb" Depends | grep -q "^libc6 (>= $("$root/tools/dist/glibc_needed.py" for-c/usr/lib/libvp.so.1))" ||
        fail 'the library needs another libc6'
    if has cc 'a program in C by the packages'; then
        cc -Ifor-c/usr/include "$root/examples/c/print.c" -Lfor-c/usr/lib -lvp -o print
        LD_LIBRARY_PATH=for-c/usr/lib ./print receipt "$root/examples/receipt.bin" \
            "$root/examples/font-a.pbm" "$root/examples/font-b.pbm" | cmp - receipt.pbm
        if has pkg-config 'what pkg-config says'; then
            words=$(PKG_CONFIG_PATH=for-c/usr/lib/pkgconfig pkg-config --define-variable=prefix=here --cflags --libs vp)
            [ "$(echo "$words" | tr -s ' ' | sed 's/ $//')" = '-Ihere/include -Lhere/lib -lvp' ] || fail "pkg-config says $words"
            words=$(PKG_CONFIG_PATH=for-c/usr/lib/pkgconfig pkg-config --define-variable=prefix=here --cflags --libs vp-static)
            [ "$(echo "$words" | tr -s ' ' | sed 's/ $//')" = '-Ihere/include here/lib/libvp.a' ] || fail "pkg-config says $words"
        fi
    fi
    echo 'what the packages hold: ok'
fi
if [ "$(id -u)" != 0 ]; then
    echo 'not tested: the package, installed and removed: only root can'
elif has dpkg 'the package, installed and removed'; then
    mkdir -p place/var/lib/dpkg/updates place/var/lib/dpkg/info
    : >place/var/lib/dpkg/status
    dpkg_in() {
        PATH=$PATH:/usr/sbin:/sbin \
            dpkg --root="$room/place" --force-depends --force-script-chrootless --log=/dev/null "$@"
    }
    is 0 'installed by dpkg' dpkg_in -i "$deb" "$library_deb" "$dev_deb"
    place/usr/bin/vp --version >/dev/null
    is_compiled "$room/place/usr"
    is 0 'removed by dpkg' dpkg_in --purge vp libvp-dev libvp1
    left=$(cd place && find . -path ./var -prune -o -type f -print)
    [ -z "$left" ] || fail "dpkg left: $left"
    echo 'the package, installed and removed: ok'
fi
if has lintian 'the package by lintian'; then
    lintian --allow-root --fail-on error "$deb" "$library_deb" "$dev_deb" >said 2>&1 || fail 'lintian finds an error'
    echo 'the package by lintian: ok'
fi
