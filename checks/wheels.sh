#!/bin/sh
# Makes the wheels and the archive of their sources: their names, tags and sums, the same bytes each time; the one of this
# system, as pip installs it from the clone and from the archive, prints by the package, the program and the commands; the
# one without a library says so.
set -eu
cd "$(dirname "$0")/.."
root=$PWD
room=$(mktemp -d)
trap 'rm -rf "$room"' EXIT
export PYTHONDONTWRITEBYTECODE=1
fail() {
    echo "checks/wheels: $1" >&2
    exit 1
}
python3 python/wheel.py --all "$room/one" >"$room/names"
python3 python/wheel.py --all "$room/two" >"$room/again"
diff -r "$room/one" "$room/two" || fail 'they are others the second time'
python3 - "$room/one" <<'END'
import base64, csv, hashlib, io, os, sys, zipfile
wanted = {
    'manylinux_2_14_x86_64.musllinux_1_1_x86_64': ('vp/libvp.so', 'vp', b'\x7fELF', b'>\0'),
    'manylinux_2_17_aarch64.musllinux_1_1_aarch64': ('vp/libvp.so', 'vp', b'\x7fELF', b'\xb7\0'),
    'win_amd64': ('vp/vp.dll', 'vp.exe', b'MZ', b''),
    'any': (None, None, b'', b''),
}
for name in sorted(os.listdir(sys.argv[1])):
    with zipfile.ZipFile(f'{sys.argv[1]}/{name}') as it:
        files = {each: it.read(each) for each in it.namelist()}
        modes = {each.filename: each.external_attr >> 16 & 0o777 for each in it.infolist()}
    library, program, magic, machine = wanted.pop(name.split('-py3-none-')[1].removesuffix('.whl'))
    info = next(each for each in files if each.endswith('.dist-info/WHEEL')).rpartition('/')[0]
    tags = [line[5:] for line in files[f'{info}/WHEEL'].decode().split('\n') if line.startswith('Tag: ')]
    assert name.endswith(f"-py3-none-{'.'.join(each[9:] for each in tags)}.whl"), tags
    assert (b'Root-Is-Purelib: true' in files[f'{info}/WHEEL']) == (library is None)
    scripts = [each for each in files if '.data/scripts/' in each]
    assert [each.rpartition('/')[2] for each in scripts] == ([program] if program else []), scripts
    for each in [library, *scripts] if library else []:
        assert files[each].startswith(magic) and (not machine or files[each][18:20] == machine), each
        assert modes[each] == (0o644 if each.endswith('.dll') else 0o755), each
    assert {'vp/__init__.py', 'vp/__main__.py', 'vp/py.typed', 'vp_recipes/program.py', 'vp_recipes/commands.tsv'} <= set(files)
    for each, found, size in csv.reader(io.StringIO(files[f'{info}/RECORD'].decode())):
        if found:
            made = base64.urlsafe_b64encode(hashlib.sha256(files[each]).digest()).rstrip(b'=').decode()
            assert (found, int(size)) == (f'sha256={made}', len(files[each])), each
assert not wanted, wanted
END
echo 'the wheels: ok'

# used PYTHON: whether a Python prints by the package, the program and the commands, and has nothing of the clone
used() {
    folder=$(dirname "$1")
    (
        cd "$room"
        printf '^XA^PW400^LL120^FO20,20^A0N,40^FDHello^FS^XZ' >label.zpl
        "$1" -c 'import vp; assert vp.Label().print(open("label.zpl", "rb").read())[0].width == 400, vp'
        "$1" -c "import sys, vp, vp_recipes; assert '$root' not in vp.__file__ + vp_recipes.__file__ + ':'.join(sys.path)"
        "$folder/vp" --version
        PATH=$folder:/usr/bin:/bin "$1" -m vp show --to shown label.zpl
        [ -s shown/label.png ]
        "$1" -m vp --help >/dev/null
        ! "$1" -m vp none >/dev/null 2>&1
    ) >"$room/said" 2>&1 || { cat "$room/said" >&2; fail "$1"; }
}
for from in "$root/python" archive; do
    if [ "$from" = archive ]; then
        python3 -c 'import sys; sys.path.insert(0, "python"); import wheel; wheel.build_sdist(sys.argv[1])' "$room"
        from=$(ls "$room"/vp-*.tar.gz)
    fi
    rm -rf "$room/venv"
    python3 -m venv "$room/venv" >"$room/said" 2>&1 || { echo 'checks/wheels: left out: no venv'; exit 0; }
    "$room/venv/bin/python" -m pip install -q --no-index "$from" >"$room/said" 2>&1 ||
        { cat "$room/said" >&2; fail "pip install $from"; }
    used "$room/venv/bin/python"
done
echo 'pip installs the clone and the archive: ok'

mkdir "$room/site"
python3 -m zipfile -e "$room"/one/vp-*-none-any.whl "$room/site"
if (cd "$room" && PYTHONPATH=$room/site python3 -c 'import vp; vp.Label()') 2>"$room/said"; then fail 'it prints without a library'; fi
grep -q 'NoLibrary: vp: no library .*; LIBVP names one' "$room/said" || { cat "$room/said" >&2; fail 'what it says'; }
echo 'without a library: ok'
