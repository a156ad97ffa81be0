"""Says what a printer would print otherwise than vp does, as far as it is known: lint [WORDS] FILE..

A line for each: commands that are skipped and what they do, unless they set what is so at the start; parameters that
vp doesn't look at; characters that the sheets lack; fields outside a format or off a label's edges; the fault. The
number is that of its first byte, counted from 0. Status 1 where there is one. --known KNOWN takes the lines of that
file for known: they aren't said, as often as they stand there; with --write-known all lines of now are written there.
--as-it-came says it of the profile alone, and not of the whole language.

    lint parcel.zpl
    lint --known lint.txt --write-known streams/*     keeps what is accepted
    lint --known lint.txt streams/*                   says what is new
"""
import argparse
import sys
from collections import Counter
from typing import List

from . import bounds
from .faults import Fault, shown
from .files import keep
from .kinds import language_of
from .program import read
from .remarks import remarks
from .sheets import chosen
from .streams import LANGUAGES
from .words import add_as_it_came


def known_lines(name: str) -> 'Counter[str]':
    """How often each line is known. Empty lines and those that begin with # are none."""
    lines = read(name).decode('utf-8', 'surrogateescape').splitlines()
    return Counter(it for it in lines if it and not it.startswith('#'))


def words_of() -> argparse.ArgumentParser:
    words = argparse.ArgumentParser(description=__doc__, formatter_class=argparse.RawDescriptionHelpFormatter)
    words.add_argument('files', metavar='FILE', nargs='*', default=['-'], help='a stream; without one, standard input')
    words.add_argument('--lang', choices=LANGUAGES, help='the language, not guessed')
    words.add_argument('--font-a', metavar='SHEET', help='the sheet of font A, in place of the shipped one')
    words.add_argument('--font-b', metavar='SHEET', help='the sheet of font B')
    words.add_argument('--known', metavar='KNOWN', help="a file of lines that aren't said")
    words.add_argument('--write-known', action='store_true', help='writes the lines of now into that file')
    add_as_it_came(words)
    bounds.add_words(words, bounds.HELD)
    return words


def main() -> int:
    words = words_of()
    given = words.parse_args()
    if given.write_known and not given.known:
        words.error('--write-known needs --known KNOWN')
    known = known_lines(given.known) if given.known and not given.write_known else Counter()
    last = 0
    said: List[str] = []
    for file in given.files:
        try:
            data = read(file)
            language = given.lang or language_of(data, file)
            sheets = chosen(language, given.font_a, given.font_b)
            found = remarks(data, language, sheets, own=bounds.of(given), whole=not given.as_it_came)
        except Fault as fault:
            print(f'lint: {fault}', file=sys.stderr)
            last = max(last, fault.status)
            continue
        for place, text in found:
            line = f'{shown(file)}: {text}'
            said.append(line)
            if known[line]:
                known[line] -= 1
            elif not given.write_known:
                print(f'{shown(file)}: {"" if place is None else f"byte {place}: "}{text}')
                last = max(last, 1)
    if given.write_known:
        keep(given.known, ''.join(f'{it}\n' for it in said))
        print(f'{len(said)} lines are known')
    return last
