"""What is known of commands: whether a printer's paper shows what vp reads past, and what they do.

Items are those of a listing, (place, text); a place is how many bytes are taken when the item is given, or None.
"""
from __future__ import annotations

import functools
import importlib.util
import pathlib
import sys
from types import ModuleType
from typing import Dict, Iterable, Iterator, List, Optional, Sequence, Tuple

Items = Sequence[Tuple[Optional[int], str]]
HERE = pathlib.Path(__file__).resolve().parent
# The byte by which GS ( k names QR, in a listing.
QR = '31'
LEADS = {'esc': 0x1B, 'gs': 0x1D, 'fs': 0x1C, 'dle': 0x10}


def file_of_recipes(name: str) -> pathlib.Path:
    """A file of the recipes': in this package, in the repository, below a prefix."""
    top = HERE.parent.parent
    places = HERE / name, top / 'recipes/vp_recipes' / name, top / 'vp_recipes' / name
    return next((it for it in places if it.is_file()), places[0])


@functools.lru_cache(None)
def values() -> ModuleType:
    """What commands' values say, as the recipes know it."""
    spec = importlib.util.spec_from_file_location(f'{__package__}.values', file_of_recipes('values.py'))
    assert spec and spec.loader
    module = sys.modules[spec.name] = importlib.util.module_from_spec(spec)
    spec.loader.exec_module(module)
    return module


@functools.lru_cache(None)
def rows() -> List[List[str]]:
    """The table's lines: language, command, whether the paper shows it, what becomes of it, what it does."""
    lines = file_of_recipes('commands.tsv').read_text(encoding='utf-8').splitlines()
    return [line.split('\t') for line in lines if line and not line.startswith('#')]


@functools.lru_cache(None)
def table() -> Dict[Tuple[str, str], Tuple[bool, str]]:
    """The commands that are read past, by the profile or by the whole language: by language and command whether the
    paper shows them, and what they do."""
    return {(language, command): (shows != 'no' and becomes != 'left out', what)
            for language, command, shows, becomes, what in rows() if shows != 'prints'}


@functools.lru_cache(None)
def becomes() -> Dict[Tuple[str, str], str]:
    """What recipes/expand makes of each command: by language and command printed, expanded, left out or said."""
    return {(language, command): word for language, command, _, word, _ in rows()}


def skipped(items: Iterable[Tuple[Optional[int], str]], language: str) -> Iterator[Tuple[int, str]]:
    """What is read and not printed: the number of the item and the command, as the table has it; of a receipt's command
    that isn't known the lead and the byte behind it."""
    known, all_known = table(), becomes()
    leads = {command.partition(' ')[0] for of, command in known if of == language}
    for n, (_, text) in enumerate(items):
        if language == 'label':
            if text.endswith(' skipped'):
                yield n, text[:-len(' skipped')]
            continue
        if text.partition(' ')[0] not in leads:
            continue
        words = text.split(' ')
        if words[:3] == ['gs', '28', '6b'] and words[5:6] == [QR]:
            continue
        names = ' '.join(words[:3]), ' '.join(words[:2])
        command = next((it for it in names if (language, it) in all_known), names[1])
        if (language, command) in known or (language, command) not in all_known:
            yield n, command


def code_of(text: str) -> bytes:
    """The bytes of a receipt's command by its item; none for another item."""
    kind, *rest = text.split(' ')
    return bytes([LEADS[kind], *(int(it, 16) for it in rest)]) if kind in LEADS else b''


def first_byte(data: bytes, place: Optional[int], text: str) -> Optional[int]:
    """Where the command begins whose item is given at a place."""
    if place is None:
        return None
    kind, *rest = text.split(' ')
    if code_of(text):
        return max(0, data.rfind(code_of(text), 0, place))
    if text[:1] in ('^', '~'):
        # the last byte that was taken may be the lead of the next
        return max(0, data.rfind(b'^', 0, place - 1), data.rfind(b'~', 0, place - 1))
    # a byte that isn't itself is the end of an indicator and two digits, behind ^FH
    return place - 1 if kind != 'byte' or data[place - 1] == int(rest[0], 16) else place - 3


def raw(data: bytes, items: Items, n: int) -> Optional[bytes]:
    """The bytes of the n-th command, up to the next one: its data too, where these have no item. None without places.
    """
    if items[n][0] is None:
        return None
    start = first_byte(data, *items[n])
    return data[start:first_byte(data, *items[n + 1]) if n + 1 < len(items) else len(data)]


def named(command: str, text: str) -> str:
    """A command as its manual names it: of a receipt its lead, its signs, and the bytes that follow."""
    if command[0] in '^~':
        return command
    kind, *rest = command.split(' ')
    signs = [chr(int(it, 16)) if 0x21 <= int(it, 16) < 0x7F else it for it in rest]
    return ' '.join([kind.upper(), *signs, *text.split(' ')[len(rest) + 1:]])
