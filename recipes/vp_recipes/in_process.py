"""The words of vp done in this process, by the library that comes with the program: what is printed, said and ended
with is what the program does, without a process for each stream.

VP_IN_PROCESS=no in the environment has a process run for each.
"""
import functools
import os
import shutil
from types import ModuleType
from typing import Any, Dict, Iterator, NamedTuple, Optional, Sequence, Tuple

from . import vp as own_package
from .vp.bounds import HELD, Bounds, Reached

HERE = os.path.dirname(os.path.dirname(os.path.realpath(__file__)))
# The words behind each of vp's.
OPTIONS = {'receipt': ('--font-a', '--font-b', '--width'), 'label': ('--font-a',), 'list': ('--lang',)}
# Those that have no word behind them.
FLAGS = {'receipt': ('--whole',), 'label': ('--whole',), 'list': ('--offsets', '--whole')}
SHEETS = '--font-a', '--font-b'
VALUES = {'--width': ('576', '384'), '--lang': ('receipt', 'label')}


class Done(NamedTuple):
    """What vp does with a stream: what it prints, its line, its status, the bound that was reached."""

    out: bytes
    line: str
    status: int
    reached: Optional[Reached] = None


def places() -> Iterator[Tuple[str, str]]:
    """Where a program may be, with its library: in a clone, below a prefix."""
    top = os.path.dirname(HERE)
    yield f'{top}/dist/vp', f'{top}/dist/libvp.so'
    prefix = os.path.dirname(top)
    yield f'{prefix}/bin/vp', f'{prefix}/lib/libvp.so.1'


@functools.lru_cache(None)
def package_of(program: str) -> Optional[ModuleType]:
    """The package over the library that is made of the same sources as a program; None where there is none."""
    for own, library in places():
        if os.path.realpath(program) == own and os.path.isfile(library):
            try:
                own_package.version()
            except own_package.NoLibrary:
                return None
            return own_package
    return None


def package(words: Sequence[str]) -> Optional[ModuleType]:
    """The package that does what words ask of their program; None where a process has to."""
    is_known = len(words) > 1 and words[1] in OPTIONS
    program = shutil.which(words[0]) if is_known and os.environ.get('VP_IN_PROCESS') != 'no' else None
    return package_of(program) if program else None


def options(words: Sequence[str]) -> Optional[Dict[str, Any]]:
    """The values of the words behind the first; None where a process has to tell what is wrong with them, or reads a
    sheet that is no file."""
    rest, found = list(words[1:]), {}
    while rest:
        name, equals, value = rest.pop(0).partition('=')
        if name in FLAGS[words[0]] and not equals:
            found[name] = 'yes'
        elif name in OPTIONS[words[0]] and name not in found and (equals or rest):
            found[name] = value if equals else rest.pop(0)
            if found[name] not in VALUES.get(name, (found[name],)):
                return None
        else:
            return None
    are_there = all(os.path.isfile(found[it]) for it in SHEETS if it in found)
    return found if are_there and (words[0] != 'list' or '--lang' in found) else None


def done(words: Sequence[str], data: bytes, own: Bounds = HELD, most: Bounds = HELD) -> Optional[Done]:
    """What vp does of words with a stream. None where a process has to, and where more is printed than is to be held in
    memory, `most`, and isn't more than it may."""
    vp = package(words)
    found = options(words[1:]) if vp else None
    if found is None:
        return None
    held = least(own, most)
    try:
        if words[1] == 'list':
            lines = own_package.list(data, found['--lang'], '--offsets' in found, held.bytes, '--whole' in found)
            return Done(lines.text().encode('latin-1'), str(lines.fault or ''), 1 if lines.fault else 0)
        made = printers(words[1], tuple(found.items()), sheets_seen(found), held).print(data)
        return Done(made.pbm(), str(made.fault or ''), 1 if made.fault else 0)
    except own_package.TooMuchPaper as much:
        is_ours = getattr(own, much.reached.bound) == much.reached.most
        return Done(much.paper.pbm(), '', 1, much.reached) if is_ours and much.paper else None
    except (own_package.BadSheet, own_package.NoMemory) as error:
        return Done(b'', str(error), 3 if isinstance(error, own_package.BadSheet) else 4)


def least(one: Bounds, other: Bounds) -> Bounds:
    """What is within both."""
    found: Dict[str, Any] = {}
    for bound, value in one._asdict().items():
        found[bound] = min((it for it in (value, getattr(other, bound)) if it is not None), default=None)
    return Bounds(**found)


def sheets_seen(found: Dict[str, str]) -> Tuple[Tuple[int, ...], ...]:
    """In what a change of a sheet shows."""
    seen = (os.stat(found[it]) for it in SHEETS if it in found)
    return tuple((it.st_dev, it.st_ino, it.st_size, it.st_mtime_ns) for it in seen)


@functools.lru_cache(8)
def printers(language: str, words: Tuple[Tuple[str, str], ...], seen: Tuple[Tuple[int, ...], ...],
             own: Bounds) -> 'own_package.Label | own_package.Receipt':
    """Printers as words ask for them, with sheets as they were seen."""
    found = dict(words)
    font_a = found.get('--font-a')
    if language == 'label':
        return own_package.Label(font_a, *own, whole='--whole' in found)
    width = int(found.get('--width', '576'))
    return own_package.Receipt(font_a, found.get('--font-b'), width, *own, whole='--whole' in found)
