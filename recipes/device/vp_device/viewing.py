"""A job's stream in the viewer's page, which is one file."""
from __future__ import annotations

import base64
import hashlib
import json

from . import tools

POLICY = ("default-src 'none'; script-src 'unsafe-inline' 'wasm-unsafe-eval' data: blob:; style-src 'unsafe-inline'; "
          "img-src data: blob:; worker-src blob:; base-uri 'none'; form-action 'none'; frame-ancestors 'none'")
# (its first tab shows that it is ready)
OPENS = """
const opening = setInterval(() => {
  const input = document.getElementById('file')
  if (!document.querySelector('.tab') || !input.onchange) return
  clearInterval(opening)
  const files = new DataTransfer()
  files.items.add(new File([Uint8Array.from(atob('%s'), it => it.charCodeAt(0))], %s))
  input.files = files.files
  input.dispatchEvent(new Event('change'))
}, 50)
"""
# What the page says of the scripts that it runs: by their sums.
ALLOWS = b"script-src 'sha256-"


def page(name: str, stream: bytes) -> bytes:
    """The viewer's page, which opens this stream."""
    places = [tools.RECIPES.parent / 'dist/viewer.html', tools.RECIPES.parents[1] / 'share/vp/viewer.html']
    found = next((it for it in places if it.is_file()), None)
    if not found:
        raise ValueError('the viewer is not here')
    opens = (OPENS % (base64.b64encode(stream).decode(), json.dumps(name))).encode()
    own = base64.b64encode(hashlib.sha256(opens).digest())
    data = found.read_bytes().replace(ALLOWS, b"script-src 'sha256-" + own + b"' 'sha256-", 1)
    return data + b'<script>' + opens + b'</script>\n'
