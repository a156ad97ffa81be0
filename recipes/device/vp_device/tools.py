"""What the recipes know that a printer on a network needs too, and where they are."""
from __future__ import annotations

import functools
import importlib
import os
import pathlib
import sys
from typing import Any, List, Optional, Tuple

# The folder of the recipes.
RECIPES = pathlib.Path(__file__).resolve().parents[2]
if str(RECIPES) not in sys.path:
    sys.path.insert(0, str(RECIPES))

bounds: Any = importlib.import_module('vp_recipes.bounds')
files: Any = importlib.import_module('vp_recipes.files')
images: Any = importlib.import_module('vp_recipes.images')
in_process: Any = importlib.import_module('vp_recipes.in_process')
program: Any = importlib.import_module('vp_recipes.program')
sheets: Any = importlib.import_module('vp_recipes.sheets')
streams: Any = importlib.import_module('vp_recipes.streams')
words: Any = importlib.import_module('vp_recipes.words')
add_as_it_came: Any = words.add_as_it_came
LANGUAGES: Tuple[str, str] = streams.LANGUAGES
# GS ( k: the symbol that is stored is printed.
PRINT_SYMBOL = b'\x1d(k\x03\x001Q0'


def words_of(language: str, as_it_came: bool = False, width: Optional[int] = None) -> List[str]:
    """The words that print a language with the shipped sheets, by the whole language or by the profile."""
    narrow = [f'--width={width}'] if width and language == 'receipt' else []
    made: List[str] = program.direct([*words.printing(language, as_it_came), *narrow])
    return made


def command_of(given: List[str], expands: bool, as_it_came: bool) -> List[str]:
    """The words that a user gave to print with, if any. What is written anew they print by the whole language."""
    if expands and as_it_came:
        raise program.Fault('--expand writes each stream anew, and --as-it-came does not', 2)
    command: List[str] = program.direct(words.whole(given) if expands else given) if given else []
    return command


def package_of(command: List[str]) -> Any:
    """The Python package that does what words ask; None where a process has to."""
    package = in_process.package(command)
    return package if package and in_process.options(command[1:]) is not None else None


@functools.lru_cache(8)
def printers(command: Tuple[str, ...], _: Any) -> Any:
    """Printers as words ask for them, with the sheets as they were seen."""
    package, found = package_of(list(command)), in_process.options(command[1:])
    font_a, none = found.get('--font-a'), {'most_rows': None, 'most_bytes': None}
    whole = '--whole' in found
    if command[1] == 'label':
        return package.Label(font_a, **none, whole=whole)
    width = int(found.get('--width', '576'))
    return package.Receipt(font_a, found.get('--font-b'), width, **none, whole=whole)


def handle_of(command: List[str]) -> Any:
    """A printer of the library's that was just switched on, whose paper nobody holds."""
    seen = in_process.sheets_seen(in_process.options(command[1:]))
    return printers(tuple(command), seen).start()._handle


@functools.lru_cache(64)
def printed_side(symbol: bytes, command: Tuple[str, ...]) -> int:
    """How many rows what prints a symbol makes of it; none where it can't be printed."""
    package = package_of(list(command))
    if not package:
        return 0
    width = int((in_process.options(list(command[1:])) or {}).get('--width', '576'))
    return sum(it.height for it in package.Receipt(None, None, width).print(symbol + PRINT_SYMBOL))


def side_of(request: Any, command: List[str]) -> int:
    """How many dots the symbol is wide and high that a request asks about. None is 0."""
    return printed_side(request.symbol, tuple(command)) if request.symbol else 0


def part(package: Any, name: str) -> Any:
    """A module of the package."""
    return importlib.import_module(f'{package.__name__}.{name}')


def write_all(file: int, data: bytes) -> None:
    """Writes bytes to a file. On a full disk that is an error, also where a part of them found room."""
    view = memoryview(data)
    while view:
        view = view[os.write(file, view):]


def python() -> str:
    """The Python that runs this, which inetd's environment doesn't tell."""
    return sys.executable or os.readlink('/proc/self/exe')
