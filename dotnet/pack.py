#!/usr/bin/env python3
"""pack.py [FOLDER]: makes the NuGet package VirtualReceiptPrinter in a folder, else in out/: the sources in src/
compiled by mcs (Debian's mono-mcs), and dist/'s library. It needs no network; the same sources give the same bytes, but
for the numbers that mcs gives an assembly.

Status 0; 1 where mcs isn't there or refuses the sources, 2 for wrong words, 3 where a file can't be read or written."""
import glob
import os
import subprocess
import sys
import tempfile

sys.dont_write_bytecode = True
HERE = os.path.dirname(os.path.realpath(__file__))
ROOT = os.path.dirname(HERE)
sys.path.insert(0, f'{ROOT}/tools/packages')
import deb  # noqa: E402
from archive import keep, packed  # noqa: E402

ID = 'VirtualReceiptPrinter'
# The libraries by the system that each is for, as .NET names it, and the name that it is loaded by there.
NATIVES = {
    'linux-x64': ('libvp.so', 'libvp.so'),
    'linux-musl-x64': ('libvp.so', 'libvp.so'),
}
# .NET Framework 4.6.1 and Mono; .NET Core 2.0, .NET 5 and later. One assembly serves both.
FRAMEWORKS = 'net461', 'netstandard2.0'
SPEC = '''<?xml version="1.0" encoding="utf-8"?>
<package xmlns="http://schemas.microsoft.com/packaging/2013/05/nuspec.xsd">
  <metadata>
    <id>{id}</id>
    <version>{version}</version>
    <authors>Vuzaremo maintainers</authors>
    <license type="expression">MIT OR Apache-2.0</license>
    <description>A virtual printer of receipts (ESC/POS) and labels (ZPL II), in process: what software sends to a
printer is drawn dot for dot, and where a stream is wrong the fault and the byte are named.</description>
    <readme>README.md</readme>
    <tags>escpos zpl receipt label printer test</tags>
    <dependencies>
{dependencies}
    </dependencies>
  </metadata>
</package>
'''
TYPES = '''<?xml version="1.0" encoding="utf-8"?>
<Types xmlns="http://schemas.openxmlformats.org/package/2006/content-types">
{types}
</Types>
'''
RELATIONS = '''<?xml version="1.0" encoding="utf-8"?>
<Relationships xmlns="http://schemas.openxmlformats.org/package/2006/relationships">
  <Relationship Type="http://schemas.microsoft.com/packaging/2010/07/manifest" Target="/{id}.nuspec" Id="R1" />
</Relationships>
'''


def compiled(folder, version):
    """Compiles the sources into a folder, and returns the assembly's bytes and those of its documentation."""
    made, told = f'{folder}/{ID}.dll', f'{folder}/{ID}.xml'
    with open(f'{folder}/version.cs', 'w', encoding='utf-8') as file:
        file.write(f'[assembly: System.Reflection.AssemblyVersion("{version}.0")]\n')
    words = ['mcs', '-unsafe', '-optimize', '-target:library', '-langversion:7.2', '-sdk:4.6.1-api', '-warnaserror']
    words += ['-nowarn:1591', f'-doc:{told}', f'-out:{made}', file.name, *sorted(glob.glob(f'{HERE}/src/*.cs'))]
    words += [f'-resource:{ROOT}/examples/{it},{it}' for it in ('font-a.pbm', 'font-b.pbm')]
    subprocess.run(words, check=True)
    return deb.read(made), deb.read(told)


def files_of(version, assembly, documentation):
    """The package's files: by their names their bytes."""
    dependencies = '\n'.join(f'      <group targetFramework="{it}" />' for it in FRAMEWORKS)
    files = {
        '_rels/.rels': RELATIONS.format(id=ID).encode(),
        f'{ID}.nuspec': SPEC.format(id=ID, version=version, dependencies=dependencies).encode(),
        'README.md': deb.read(f'{HERE}/README.md'),
    }
    for it in FRAMEWORKS:
        files |= {f'lib/{it}/{ID}.dll': assembly, f'lib/{it}/{ID}.xml': documentation}
    for system, (library, name) in NATIVES.items():
        files[f'runtimes/{system}/native/{name}'] = deb.read(f'{ROOT}/dist/{library}')
    for it in 'LICENSE-APACHE', 'LICENSE-MIT', 'NOTICE':
        files[it] = deb.read(f'{ROOT}/{it}')
    ends = sorted({it.rpartition('.')[2] for it in files if '.' in it.rpartition('/')[2]})
    types = [f'  <Default Extension="{it}" ContentType="application/octet" />' for it in ends if it != 'rels']
    relations = 'application/vnd.openxmlformats-package.relationships+xml'
    types.append(f'  <Default Extension="rels" ContentType="{relations}" />')
    types += [f'  <Override PartName="/{it}" ContentType="application/octet" />' for it in files if '.' not in it]
    return {'[Content_Types].xml': TYPES.format(types='\n'.join(types)).encode(), **files}


def main():
    if len(sys.argv) > 2 or sys.argv[1:] and sys.argv[1].startswith('-'):
        print('usage: pack.py [FOLDER]', file=sys.stderr)
        return 2
    folder = sys.argv[1] if sys.argv[1:] else f'{ROOT}/out'
    version, when = deb.version_and_time()
    name = f'{ID}.{version}.nupkg'
    try:
        with tempfile.TemporaryDirectory() as room:
            files = files_of(version, *compiled(room, version))
        keep(folder, name, packed(files, when))
    except FileNotFoundError as fault:
        print(f'pack.py: {fault.filename} is not there', file=sys.stderr)
        return 1 if fault.filename == 'mcs' else 3
    except subprocess.CalledProcessError:
        return 1
    except OSError as fault:
        print(f'pack.py: {fault}', file=sys.stderr)
        return 3
    print(os.path.join(folder, name))
    return 0


if __name__ == '__main__':
    sys.exit(main())
