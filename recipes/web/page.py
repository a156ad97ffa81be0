#!/usr/bin/env python3
"""page.py MODULE > viewer.html: the viewer as one page, for any browser of these years, without a server.

It is of the sources of recipes/viewer, with the printer of within.js in place of the server's; the module, sheets and
examples are in it.
"""
import base64
import hashlib
import json
import pathlib
import sys
from typing import Any, Dict

HERE = pathlib.Path(__file__).resolve().parent
VIEWER, EXAMPLES = HERE.parent / 'viewer', HERE.parent.parent / 'examples'
sys.path.insert(0, str(VIEWER))
from bundle import Bundle  # noqa: E402
from known import known  # noqa: E402
from together import together  # noqa: E402
SHOWN = 'shelf.zpl', 'shipping.zpl', 'receipt.bin', 'ticket.bin'


def text_of(file: pathlib.Path) -> str:
    return file.read_text(encoding='utf-8')


def coded(data: bytes) -> str:
    return base64.b64encode(data).decode()


def put(page: str, old: str, new: str) -> str:
    before, found, behind = page.partition(old)
    if not found:
        raise ValueError(f'there is no {old}')
    return f'{before}{new}{behind}'


def worker() -> str:
    """The worker as one script: of a page that is a file, browsers make none that imports another."""
    return Bundle({}, {}).text(HERE / 'working.js', 'worker')


def given(module: bytes) -> Dict[str, Any]:
    """What within.js finds in the page."""
    sheets = {name: coded((EXAMPLES / name).read_bytes()) for name in ('font-a.pbm', 'font-b.pbm')}
    examples = [{'name': name, 'bytes': coded((EXAMPLES / name).read_bytes())} for name in SHOWN]
    return {'module': coded(module), 'sheets': sheets, 'examples': examples, 'worker': worker(), 'known': known()}


def inline(value: Any) -> str:
    return json.dumps(value, separators=(',', ':')).replace('</', '<\\/')


def may(script: str, style: str) -> str:
    """What the page may load and run: the script and the style that are in it, by their hashes, and its worker."""
    def hashed(text: str) -> str:
        return f"'sha256-{coded(hashlib.sha256(text.encode()).digest())}'"

    return (f"default-src 'none'; script-src {hashed(script)} 'wasm-unsafe-eval'; worker-src blob: 'self'; "
            f"style-src {hashed(style)}; img-src blob: data:; base-uri 'none'; form-action 'none'")


def page(module: bytes) -> str:
    files = {it.name: it for it in VIEWER.glob('*.js')}
    files['served.js'] = HERE / 'within.js'
    script, style = f"\n{together(files, 'page.js')}", f"\n{text_of(VIEWER / 'page.css')}"
    if '</script' in script or '</style' in style:
        raise ValueError('what is put into the page would end before its end')
    made = text_of(VIEWER / 'page.html')
    head = f'<meta http-equiv="Content-Security-Policy" content="{may(script, style)}">'
    made = put(made, '<meta charset="utf-8">', f'<meta charset="utf-8">\n{head}')
    made = put(made, '<link rel="stylesheet" href="page.css">', f'<style>{style}</style>')
    # (what is given stands before the script, which runs once the page is there)
    return put(made, '<script type="module" src="page.js"></script>', '\n'.join((
        f'<script type="application/json" id="given">{inline(given(module))}</script>',
        f'<script type="module">{script}</script>')))


if __name__ == '__main__':
    if len(sys.argv) != 2:
        sys.exit('usage: page.py MODULE > viewer.html')
    sys.stdout.buffer.write(page(pathlib.Path(sys.argv[1]).read_bytes()).encode())
