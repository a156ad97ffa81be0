"""python -m vp COMMAND WORD..: the commands around the printers, which a clone has in recipes/: what a stream is, what
a printer would print of it that vp doesn't, its paper as a picture, tests of it."""
from __future__ import annotations

import importlib
import pathlib
import sys

# The commands, and what each does.
COMMANDS = {
    'show': 'says what a stream is and what of it is not printed, and makes pictures of its paper',
    'lint': 'says what a printer would print of a stream that vp does not',
    'golden': 'keeps the paper of streams, and compares',
    'expand': 'writes a real stream anew in words that vp prints',
    'past': 'says what a stream has behind its first fault',
    'paper': 'makes PNG or PDF of images',
    'text': 'reads the text of a stream',
    'sheet': 'makes a glyph sheet of a font',
    'face': 'writes a bold face of our own at any size',
}

# Those that are packages.
PACKAGES = 'expand', 'face'


def usage() -> str:
    lines = [f'  {name:8} {what}' for name, what in COMMANDS.items()]
    return '\n'.join(['usage: python -m vp COMMAND WORD..', '', *lines, '', 'COMMAND --help says more.'])


def main() -> int:
    words = sys.argv[1:]
    if words[:1] in ([], ['--help'], ['-h']):
        print(usage())
        return 0 if words else 2
    name = words[0]
    if name not in COMMANDS:
        print(f'python -m vp: there is no command {name}\n{usage()}', file=sys.stderr)
        return 2
    top = pathlib.Path(__file__).resolve().parent.parent.parent
    if (top / 'crates.txt').is_file():
        sys.path.insert(0, str(top / 'recipes'))
    sys.argv = [f'python -m vp {name}', *words[1:]]
    module = f'vp_recipes.{name}.command' if name in PACKAGES else f'vp_recipes.{name}'
    status: int = importlib.import_module('vp_recipes.program').ended(importlib.import_module(module).main)
    return status


if __name__ == '__main__':
    sys.exit(main())
