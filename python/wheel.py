#!/usr/bin/env python3
"""wheel.py [--all] [FOLDER]: makes the wheel of the package vp in a folder, else in out/, with dist/libvp.so (or the
library that LIBVP names), the program vp, the commands of recipes/ (python -m vp), the two example sheets and the
licences in it. With --all it makes one for each system that dist/ has a library for, and one without, which says at its
use that there is no library. It needs no network and nothing but Python; the same sources give the same bytes, packed
by the same zlib. pip builds by it too (pyproject.toml).

Status 0; 2 for wrong words, 3 where a file can't be read or written."""
import base64
import hashlib
import io
import os
import struct
import sys
import tarfile

sys.dont_write_bytecode = True
HERE = os.path.dirname(os.path.realpath(__file__))
ROOT = os.path.dirname(HERE)
sys.path[:0] = [os.path.join(ROOT, 'tools', it) for it in ('dist', 'packages')]
import deb  # noqa: E402
import glibc_needed  # noqa: E402
from archive import keep, packed  # noqa: E402

METADATA = '''Metadata-Version: 2.1
Name: vp
Version: {version}
Summary: A virtual printer of receipts (ESC/POS) and labels (ZPL II), in process
License: MIT OR Apache-2.0
License-File: LICENSE-MIT
License-File: LICENSE-APACHE
License-File: NOTICE
Classifier: Framework :: Pytest
Classifier: Operating System :: POSIX :: Linux
Classifier: Programming Language :: Python :: 3
Classifier: Topic :: Printing
Classifier: Topic :: Software Development :: Testing
Classifier: Typing :: Typed
Requires-Python: >=3.9
Description-Content-Type: text/plain

vp reads what software sends to a receipt printer or a label printer, and draws the paper, dot for dot:

    import vp
    paper = vp.Receipt().print(stream)
    open('receipt.png', 'wb').write(paper.png())

Where a stream is wrong, paper.fault names the fault and the byte. Fixtures for pytest come with it.
'''
WHEEL = '''Wheel-Version: 1.0
Generator: vp wheel.py
Root-Is-Purelib: {is_pure}
{tags}'''
ENTRY_POINTS = '''[pytest11]
vp = vp.pytest_plugin
'''
# The libraries of dist/ by the system that each is for: its name in the wheel, the system as wheels name it, and the
# program beside it. It calls the C library that the process has, glibc's or musl's; on ARM glibc begins with 2.17.
LIBRARIES = {
    'libvp.so': ('libvp.so', ('manylinux_{glibc}_x86_64', 'musllinux_1_1_x86_64'), 'vp-static'),
    'libvp-aarch64.so': ('libvp.so', ('manylinux_2_17_aarch64', 'musllinux_1_1_aarch64'), 'vp-aarch64'),
    'vp.dll': ('vp.dll', ('win_amd64',), 'vp.exe'),
}


def commands():
    """The modules of the commands, and their tables."""
    top = f'{ROOT}/recipes'
    places = sorted(f'{at}/{name}' for at, _, names in os.walk(f'{top}/vp_recipes') for name in names
                    if name.endswith(('.py', '.tsv', '.json', '.html', '.css', '.js')))
    return {os.path.relpath(it, top): deb.read(it) for it in places}


def files_of(version, tags, library):
    """The files of the wheel, but for its list: by their names their bytes. The library is its name, its bytes and
    those of the program."""
    info, data = f'vp-{version}.dist-info', f'vp-{version}.data'
    files = {f'vp/{name}': deb.read(f'{HERE}/vp/{name}') for name in sorted(os.listdir(f'{HERE}/vp'))
             if name.endswith('.py') or name == 'py.typed'}
    for name in 'commands.tsv', 'values.py':
        files[f'vp/{name}'] = deb.read(f'{ROOT}/recipes/vp_recipes/{name}')
    files |= commands()
    if library:
        files[f'vp/{library[0]}'] = library[1]
        files[f"{data}/scripts/{'vp.exe' if library[0] == 'vp.dll' else 'vp'}"] = library[2]
    for name in 'font-a.pbm', 'font-b.pbm':
        files[f'vp/{name}'] = files[f'{data}/data/share/vp/{name}'] = deb.read(f'{ROOT}/examples/{name}')
    for name in 'LICENSE-APACHE', 'LICENSE-MIT', 'NOTICE':
        files[f'{info}/{name}'] = deb.read(f'{ROOT}/{name}')
    files[f'{info}/METADATA'] = METADATA.format(version=version).encode()
    files[f'{info}/WHEEL'] = WHEEL.format(
        is_pure=str(not library).lower(), tags=''.join(f'Tag: py3-none-{it}\n' for it in tags)).encode()
    files[f'{info}/entry_points.txt'] = ENTRY_POINTS.encode()
    return files


def record(files, name):
    """The list of the files with their sums."""
    lines = []
    for file, data in files.items():
        made = base64.urlsafe_b64encode(hashlib.sha256(data).digest()).rstrip(b'=').decode()
        lines.append(f'{file},sha256={made},{len(data)}\n')
    return ''.join([*lines, f'{name},,\n']).encode()


def is_program(name):
    return name.endswith('.so') or '/scripts/' in name


def wheel(tags, library):
    """A wheel's name, and its bytes."""
    version, when = deb.version_and_time()
    files, name = files_of(version, tags, library), f'vp-{version}.dist-info/RECORD'
    files[name] = record(files, name)
    return f'vp-{version}-py3-none-{".".join(tags)}.whl', packed(files, when, is_program)


def wheel_of(library, place=None):
    """The wheel with a library of dist/, or with one that stands in its place."""
    name, tags, program = LIBRARIES[library]
    data = deb.read(place or f'{ROOT}/dist/{library}')
    known = {'glibc': glibc_needed.glibc(data).replace('.', '_')} if library == 'libvp.so' else {}
    return wheel([it.format(**known) for it in tags], (name, data, deb.read(f'{ROOT}/dist/{program}')))


def library_here():
    """The library of dist/ for the system that this runs on."""
    if os.name == 'nt':
        return 'vp.dll'
    return 'libvp-aarch64.so' if os.uname().machine == 'aarch64' else 'libvp.so'


def wheels(is_all):
    """The wheels, each by its name and its bytes."""
    if not is_all:
        return [wheel_of(library_here(), os.environ.get('LIBVP'))]
    return [*(wheel_of(it) for it in LIBRARIES), wheel(['any'], None)]


def build_wheel(wheel_directory, config_settings=None, metadata_directory=None):
    """Makes the wheel for pip, and returns its name."""
    name, made = wheels(False)[0]
    keep(wheel_directory, name, made)
    return name


def build_sdist(sdist_directory, config_settings=None):
    """Makes an archive of all that a wheel is made of, and returns its name."""
    version, when = deb.version_and_time()
    top, room = f'vp-{version}', io.BytesIO()
    with tarfile.open(fileobj=room, mode='w:gz', compresslevel=9) as archive:
        for name, data in source_files(version).items():
            one = tarfile.TarInfo(f'{top}/{name}')
            one.size, one.mtime, one.mode = len(data), when, 0o644
            archive.addfile(one, io.BytesIO(data))
    keep(sdist_directory, f'{top}.tar.gz', room.getvalue())
    return f'{top}.tar.gz'


def source_files(version):
    """The files that a wheel is made of: by their names their bytes."""
    names = [f'python/vp/{it}' for it in sorted(os.listdir(f'{HERE}/vp')) if it.endswith('.py') or it == 'py.typed']
    names += [f'recipes/{it}' for it in commands()]
    names += [f'dist/{it}' for library, (_, _, program) in LIBRARIES.items() for it in (library, program)]
    names += ['python/wheel.py', 'tools/packages/archive.py', 'tools/packages/deb.py', 'tools/dist/glibc_needed.py']
    names += ['examples/font-a.pbm', 'examples/font-b.pbm']
    names += ['LICENSE-APACHE', 'LICENSE-MIT', 'NOTICE', 'CHANGELOG.md']
    names.append('crates/program/vp_command_line/src/grammar.rt')
    project = deb.read(f'{HERE}/pyproject.toml').replace(b'backend-path = ["."]', b'backend-path = ["python"]')
    files = {it: deb.read(f'{ROOT}/{it}') for it in names if os.path.isfile(f'{ROOT}/{it}')}
    return files | {'PKG-INFO': METADATA.format(version=version).encode(), 'pyproject.toml': project}


def main():
    words = sys.argv[1:]
    is_all = words[:1] == ['--all']
    words = words[is_all:]
    if len(words) > 1 or words and words[0].startswith('-'):
        print('usage: wheel.py [--all] [FOLDER]', file=sys.stderr)
        return 2
    folder = words[0] if words else f'{ROOT}/out'
    try:
        for name, made in wheels(is_all):
            keep(folder, name, made)
            print(os.path.join(folder, name))
    except (OSError, ValueError, struct.error) as fault:
        print(f'wheel.py: {fault}', file=sys.stderr)
        return 3
    return 0


if __name__ == '__main__':
    sys.exit(main())
