#!/usr/bin/env python3
"""pack.py [FOLDER]: makes virtual-receipt-printer-VERSION.jar in a folder, else in out/: the sources in src/
compiled by javac over JNA (Debian's libjna-java, or the file that JNA names), the two shipped sheets, and dist/'s
library, where JNA looks for it. It needs no network; the same sources and the same javac give the same bytes.

Status 0; 1 where javac or JNA isn't there or javac refuses the sources, 2 for wrong words, 3 where a file can't be read
or written."""
import glob
import os
import subprocess
import sys
import tempfile

sys.dont_write_bytecode = True
HERE = os.path.dirname(os.path.realpath(__file__))
ROOT = os.path.dirname(HERE)
sys.path.insert(0, f'{ROOT}/tools/packages')
import deb  # noqa: E402
from archive import keep, packed  # noqa: E402

JNA = os.environ.get('JNA') or '/usr/share/java/jna.jar'
PACKAGE = 'virtualreceiptprinter'
# The libraries by the system that each is for, as JNA names it, and the name that it is loaded by there.
NATIVES = {
    'linux-x86-64': ('libvp.so', 'libvp.so'),
}


def compiled(folder):
    """Compiles the sources into a folder, and returns the classes: by their names their bytes."""
    words = ['javac', '-Xlint:all', '-Werror', '--release', '8', '-Xlint:-options', '-cp', JNA, '-d', folder]
    subprocess.run([*words, *sorted(glob.glob(f'{HERE}/src/{PACKAGE}/*.java'))], check=True)
    return {os.path.relpath(it, folder): deb.read(it) for it in sorted(glob.glob(f'{folder}/{PACKAGE}/*.class'))}


def jar(folder):
    """The package's name, and its bytes."""
    version, when = deb.version_and_time()
    manifest = f'Manifest-Version: 1.0\nImplementation-Version: {version}\nAutomatic-Module-Name: {PACKAGE}\n'
    files = {'META-INF/MANIFEST.MF': manifest.encode(), **compiled(folder)}
    for it in 'font-a.pbm', 'font-b.pbm':
        files[f'{PACKAGE}/{it}'] = deb.read(f'{ROOT}/examples/{it}')
    for system, (library, name) in NATIVES.items():
        files[f'{system}/{name}'] = deb.read(f'{ROOT}/dist/{library}')
    for it in 'LICENSE-APACHE', 'LICENSE-MIT', 'NOTICE':
        files[f'META-INF/{it}'] = deb.read(f'{ROOT}/{it}')
    return f'virtual-receipt-printer-{version}.jar', packed(files, when)


def main():
    if len(sys.argv) > 2 or sys.argv[1:] and sys.argv[1].startswith('-'):
        print('usage: pack.py [FOLDER]', file=sys.stderr)
        return 2
    folder = sys.argv[1] if sys.argv[1:] else f'{ROOT}/out'
    if not os.path.isfile(JNA):
        print(f'pack.py: there is no {JNA}', file=sys.stderr)
        return 1
    try:
        with tempfile.TemporaryDirectory() as room:
            name, made = jar(room)
        keep(folder, name, made)
    except FileNotFoundError as fault:
        print(f'pack.py: {fault.filename} is not there', file=sys.stderr)
        return 1 if fault.filename == 'javac' else 3
    except subprocess.CalledProcessError:
        return 1
    except OSError as fault:
        print(f'pack.py: {fault}', file=sys.stderr)
        return 3
    print(os.path.join(folder, name))
    return 0


if __name__ == '__main__':
    sys.exit(main())
