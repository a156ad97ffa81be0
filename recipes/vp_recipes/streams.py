"""Streams by what vp lists of them: their language, items, commands that aren't printed.

A place is a number of bytes: of an item of a listing those that are taken when it is given, of a remark those
before the first byte that it is about. Where vp lists no places, it is None.
"""
import re
from typing import List, Optional, Sequence, Tuple

from .faults import Fault
from .kinds import kind
from .program import run
from .vp.commands import Items, becomes, code_of, first_byte, named, raw, rows, skipped, table

__all__ = ['GUESSED', 'LANGUAGES', 'WHOLE', 'Items', 'becomes', 'code_of', 'first_byte', 'guess', 'items_of',
           'lines_of', 'listing', 'may_skip', 'named', 'raw', 'rows', 'skipped', 'table']
LANGUAGES = 'receipt', 'label'
# Has vp read the whole language, and not the profile alone.
WHOLE = '--whole'
# Of so many bytes of a stream its language is guessed, where it isn't read whole.
GUESSED = 1 << 20


def guess(data: bytes) -> str:
    """The language of a stream, by what its first bytes are (kinds.tsv); what is neither is taken for a receipt."""
    return kind(data).language or 'receipt'


def lines_of(data: bytes, language: str, vp: Optional[Sequence[str]] = None, dots: bool = True, whole: bool = True
             ) -> Tuple[bytes, bool, str]:
    """What vp lists of a stream by the whole language or by the profile, whether with places, and the line of the fault
    that reading ends in, or ''. Without dots the bytes of a receipt's pictures and symbols are left out."""
    words, has_places = ['list', '--lang', language, *([WHOLE] if whole else [])], True
    try:
        out, line, _ = run([*words, '--offsets'], data, vp)
    except Fault as fault:
        if fault.status != 2 or 'cannot run' in str(fault):
            raise
        has_places = False
        out, line, _ = run(words, data, vp)
    if not dots and language == 'receipt':
        out = re.sub(rb'(?m)^(\d+ )?(byte|column) .*\n', b'', out)
    return out, has_places, line


def items_of(out: bytes, has_places: bool) -> List[Tuple[Optional[int], str]]:
    """The items of a listing as (place, text)."""
    texts = out.decode('latin-1').splitlines()
    if has_places:
        return [(int(place), text) for place, text in (it.split(' ', 1) for it in texts)]
    return [(None, text) for text in texts]


def listing(data: bytes, language: str, vp: Optional[Sequence[str]] = None, dots: bool = True, whole: bool = True
            ) -> Tuple[List[Tuple[Optional[int], str]], str]:
    """The items of a stream as (place, text), and the line of the fault that reading ends in, or ''."""
    out, has_places, line = lines_of(data, language, vp, dots, whole)
    return items_of(out, has_places), line


def may_skip(out: bytes, language: str) -> bool:
    """Whether a listing has a command in it that isn't printed."""
    if language == 'label':
        return re.search(rb'(?m) skipped$', out) is not None
    codes = '|'.join(re.escape(command) for of, command, shows, *_ in rows() if of == language and shows == 'prints')
    return re.search(rb'(?m)^(?:\d+ )?(?!(?:%s)\b)(?:esc|gs|fs|dle) ' % codes.encode(), out) is not None
