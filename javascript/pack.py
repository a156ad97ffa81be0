#!/usr/bin/env python3
"""pack.py [FOLDER]: makes virtual-receipt-printer-VERSION.tgz, as npm takes it, in a folder, else in out/: the sources
in src/ with those of recipes/ that they use, dist/'s module and page, the two shipped sheets, types and licences. It
needs no network and nothing but Python; the same sources give the same bytes, packed by the same zlib.

Status 0; 2 for wrong words, 3 where a file can't be read or written."""
import base64
import io
import json
import os
import pathlib
import sys
import tarfile
import zlib
from typing import Any, Dict

sys.dont_write_bytecode = True
HERE = pathlib.Path(__file__).resolve().parent
ROOT = HERE.parent
sys.path[:0] = [str(ROOT / it) for it in ('tools/packages', 'recipes/viewer', 'recipes/web')]
import deb  # noqa: E402
from archive import keep  # noqa: E402
from bundle import Bundle  # noqa: E402
from known import known  # noqa: E402

NAME = 'virtual-receipt-printer'
# What a script in node has of node, whatever a runner of tests leaves of it.
NODE = (('{ Blob }', 'node:buffer'), ('{ performance }', 'node:perf_hooks'),
        ('{ TextDecoder, TextEncoder }', 'node:util'),
        ('{ TransformStream }', 'node:stream/web'))
SOURCE = HERE / 'src'
# The entries beside the first, by the names that they are imported by, and the forms that each has.
ENTRIES = {'testing': ('esm', 'cjs'), 'jest': ('esm', 'cjs'), 'vitest': ('esm',), 'playwright': ('esm', 'cjs')}
ENDS = {'esm': ('.mjs', '.d.mts'), 'cjs': ('.js', '.d.ts')}
WHERE = {'esm': "export const here = new URL('./', import.meta.url).href;\n",
         'cjs': "export const here = require('node:url').pathToFileURL(`${__dirname}/`).href;\n"}


def packed(data: bytes) -> str:
    """Bytes as links have them: deflate without a head, in base64."""
    packer = zlib.compressobj(9, zlib.DEFLATED, -15)
    return base64.urlsafe_b64encode(packer.compress(data) + packer.flush()).decode().rstrip('=')


def given(version: str) -> str:
    """The module given.js."""
    worker = Bundle({}, {}).text(SOURCE / 'working.js', 'worker')
    told = known()
    found = {'module': packed((ROOT / 'dist/vp.wasm').read_bytes()),
             'sheets': {it: packed((ROOT / f'examples/font-{it}.pbm').read_bytes()) for it in 'ab'},
             # (what the page says in help isn't asked for here)
             'known': {'commands': told['commands'], 'help': [], 'starts': told['starts']},
             'worker': worker, 'version': version}
    return f'export const given = {json.dumps(found, separators=(",", ":"))};\n'


def in_node(bundle: Bundle) -> None:
    """Gives all modules what node has."""
    bundle.imports += NODE
    bundle.known(SOURCE / 'packing-node.js')


def entry(version: str, form: str, system: str) -> bytes:
    """The package's first entry, of a form, for node or a browser."""
    platform = (SOURCE / f'platform-{system}.js').read_text(encoding='utf-8')
    bundle = Bundle({'given.js': given(version), 'platform.js': platform}, {})
    if system == 'node':
        in_node(bundle)
    return bundle.text(SOURCE / 'index.js', form).encode()


def beside(name: str, form: str) -> bytes:
    """An entry for tests."""
    outer = {f'./{it}.js': f'./{it}{ENDS[form][0]}' for it in ('index', 'testing') if it != name}
    bundle = Bundle({'here.js': WHERE[form]}, outer)
    if name == 'testing':
        in_node(bundle)
    return bundle.text(SOURCE / f'{name}.js', form).encode()


def ways(name: str, forms: Any) -> Dict[str, Any]:
    """How an entry is imported, by the forms that it has."""
    words = {'esm': 'import', 'cjs': 'require'}
    return {words[it]: {'types': f'./{name}{ENDS[it][1]}', 'default': f'./{name}{ENDS[it][0]}'} for it in forms}


def package(version: str) -> Dict[str, Any]:
    browser = {'types': './index.d.mts', 'default': './browser.mjs'}
    # a runner of tests that has a page's names in node asks for a browser's way by require, which is node's here
    of_browser = {'module': browser, 'import': browser, **ways('index', ['cjs'])}
    exports: Dict[str, Any] = {'.': {'browser': of_browser, **ways('index', ['esm', 'cjs'])}}
    exports |= {f'./{name}': ways(name, forms) for name, forms in ENTRIES.items()}
    exports |= {f'./{it}': f'./{it}' for it in ('viewer.html', 'package.json')}
    return {
        'name': NAME, 'version': version, 'license': 'MIT OR Apache-2.0',
        'description': 'A virtual printer of receipts (ESC/POS) and labels (ZPL II): print to an image, dot for dot, '
                       'and test what your software prints',
        'keywords': ['escpos', 'esc-pos', 'zpl', 'receipt', 'label', 'printer', 'thermal', 'emulator', 'barcode',
                     'test', 'snapshot', 'jest', 'vitest', 'playwright'],
        'main': './index.js', 'module': './index.mjs', 'types': './index.d.ts',
        'browser': {'./index.mjs': './browser.mjs', './index.js': './browser.mjs'},
        'exports': exports, 'sideEffects': ['./jest.*', './vitest.*'], 'engines': {'node': '>=18'},
    }


def files() -> Dict[str, bytes]:
    """The package's files, by their names."""
    version, _ = deb.version_and_time()
    found = {'package.json': (json.dumps(package(version), indent=2) + '\n').encode(),
             'index.mjs': entry(version, 'esm', 'node'), 'index.js': entry(version, 'cjs', 'node'),
             'browser.mjs': entry(version, 'esm', 'browser'), 'viewer.html': (ROOT / 'dist/viewer.html').read_bytes(),
             'README.md': (ROOT / 'docs/javascript.md').read_bytes()}
    for name, forms in (('index', ('esm', 'cjs')), *ENTRIES.items()):
        types = (HERE / f'types/{name}.d.ts').read_text(encoding='utf-8')
        # (tsc that knows no exports looks for the one of CommonJS)
        found |= {f'{name}.d.ts': types.encode(), f'{name}.d.mts': types.replace(".js'", ".mjs'").encode()}
        if name != 'index':
            found |= {f'{name}{ENDS[form][0]}': beside(name, form) for form in forms}
    for it in 'LICENSE-APACHE', 'LICENSE-MIT', 'NOTICE':
        found[it] = (ROOT / it).read_bytes()
    return found


def archive(found: Dict[str, bytes], when: int) -> bytes:
    """The files as npm packs them."""
    room = io.BytesIO()
    with tarfile.open(fileobj=room, mode='w', format=tarfile.USTAR_FORMAT) as made:
        for name in sorted(found):
            one = tarfile.TarInfo(f'package/{name}')
            one.size, one.mtime, one.mode = len(found[name]), when, 0o644
            made.addfile(one, io.BytesIO(found[name]))
    return bytes(deb.packed(room.getvalue()))


def main() -> int:
    if len(sys.argv) > 2 or sys.argv[1:] and sys.argv[1].startswith('-'):
        print('usage: pack.py [FOLDER]', file=sys.stderr)
        return 2
    folder = sys.argv[1] if sys.argv[1:] else f'{ROOT}/out'
    try:
        version, when = deb.version_and_time()
        name = f'{NAME}-{version}.tgz'
        keep(folder, name, archive(files(), when))
    except OSError as fault:
        print(f'pack.py: {fault}', file=sys.stderr)
        return 3
    print(os.path.join(folder, name))
    return 0


if __name__ == '__main__':
    sys.exit(main())
