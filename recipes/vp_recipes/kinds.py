"""What a file is by its first bytes: a receipt, labels, or something else, by the table kinds.tsv."""
import functools
import pathlib
import re
from typing import List, NamedTuple, Optional

from .faults import Fault, shown

# Of so many bytes it is told.
MOST = 1 << 20


class Kind(NamedTuple):
    """What a file is: the language that it is taken for, or None; what it looks like; what to do, or ''."""
    language: Optional[str]
    what: str
    advice: str


class Row(NamedTuple):
    pattern: str
    kind: Kind


@functools.lru_cache(None)
def table() -> List[Row]:
    lines = pathlib.Path(__file__).with_name('kinds.tsv').read_text(encoding='utf-8').splitlines()
    rows = [line.split('\t') for line in lines if line and not line.startswith('# ')]
    return [Row(pattern, Kind(None if language == '-' else language, what, advice))
            for language, pattern, what, advice in rows]


def kind(data: bytes) -> Kind:
    """What bytes are: what their first million says."""
    text = data[:MOST].decode('latin-1')
    return next(row.kind for row in table() if re.search(row.pattern, text))


def language_of(data: bytes, name: str) -> str:
    """The language of a stream; a Fault where it looks like something else, which says what to do."""
    found = kind(data)
    if found.language:
        return found.language
    advice = f'{found.advice}; ' if found.advice else ''
    raise Fault(f'{shown(name)} looks like {found.what}: {advice}--lang takes it for a receipt or labels all the same')
