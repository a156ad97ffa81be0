"""What is skipped of a paper's stream and a printer's paper would show."""
from __future__ import annotations

from typing import Iterator

from .commands import code_of, named, raw, skipped, table, values
from .listing import list_stream
from .paper import Paper

# Code tables, which show where bytes above 7F are drawn alone.
TABLES = 'esc 74', 'fs 26', '^CI', '^SE'
# What is shown of a command's bytes.
MOST_SHOWN = 200


def skips(paper: Paper) -> Iterator[str]:
    """The commands that are skipped, each with its data, as far as it is to be read. None of a paper whose stream isn't
    known."""
    if paper.source is None:
        return
    language, data, whole = paper.source
    listing = list_stream(data, language, True, whole=whole)
    items = [(it.place, it.text) for it in listing if not it.text.startswith('column ')]
    drawn = {text.split(' ')[1] for _, text in items if text.startswith(('char ', 'byte '))}
    known = table()
    for n, command in skipped(items, language):
        code = raw(data, items, n) if language == 'label' else code_of(items[n][1])
        is_table = command in TABLES and not any(it >= '80' for it in drawn)
        if known.get((language, command), (True, ''))[0] and not is_table and not values().is_start(command, code):
            yield written(code) if code else named(command, items[n][1])


def written(code: bytes) -> str:
    """A command's bytes, to be read."""
    text = ''.join(chr(it) if 0x20 <= it < 0x7F and it != 0x5C else f'\\x{it:02X}' for it in code.rstrip(b'\r\n'))
    return text if len(text) <= MOST_SHOWN else f'{text[:MOST_SHOWN]} .. of {len(code)} bytes'
