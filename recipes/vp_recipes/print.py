"""Prints a stream by vp in its language, with the shipped sheets: print [--most-rows N ..] < STREAM > IMAGES

By the whole language; print --as-it-came .. by the profile alone.

--most-rows, --most-bytes, --most-images and --most-seconds say where a print ends that goes on and on (N, or none);
what was printed before is kept, a line says which was reached, and the status is 1. Else the status is vp's.

print --guess < STREAM says the language, and prints nothing; print [--as-it-came] --words LANGUAGE says the words that
run vp, one a line; print --languages < NAMES says the language of each file, before its name, a line each. print
--expand [--table CODEC] [--from CODEC] [COMMAND..] < STREAM writes the stream anew first (recipes/expand) and prints it
by COMMAND, in place of vp; a fault is told in the bytes that came.

`many` has a folder printed by print --batch [--sums] [--expand] [--most-rows N ..] COMMAND.. -- STREAMS OUT NAME.. and
asks by print --in-process COMMAND.. whether one process does as well for all of its streams.
"""
import sys
from typing import IO, Iterable, List

from . import bounds, in_process
from .batch import batch
from .faults import Fault, shown, why
from .papers import passed_on
from .program import given_input, opened
from .streams import GUESSED, LANGUAGES, guess
from .words import printing

USAGE = ('print [--as-it-came] [--most-rows N ..] [--guess] < STREAM; print --expand [COMMAND..] < STREAM; '
         f'print [--as-it-came] --words {"|".join(LANGUAGES)}; print --languages < NAMES; print --help')


def languages(names: Iterable[bytes]) -> int:
    """Says the language of each of the files whose names are given."""
    for line in names:
        name = line.rstrip(b'\n')
        try:
            with open(name, 'rb') as file:
                language = guess(file.read(GUESSED))
        except OSError as error:
            raise Fault(f'cannot read {shown(name.decode("utf-8", "surrogateescape"))}: {why(error)}') from None
        sys.stdout.buffer.write(language.encode() + b' ' + line)
    return 0


def many(words: List[str]) -> int:
    """Prints streams of a folder, as `many` asks for it."""
    flags = [it for it in ('--sums', '--expand') if it in words[:2]]
    own, words = bounds.taken(words[len(flags):])
    end = words.index('--')
    streams, out, *names = words[end + 1:]
    return batch(words[:end], streams, out, names, own, '--sums' in flags, '--expand' in flags)


def prints(stream: IO[bytes], own: bounds.Bounds, as_it_came: bool) -> int:
    """Prints a stream in its language."""
    start = stream.tell()
    language = guess(stream.read(GUESSED))
    stream.seek(start)
    return passed_on(printing(language, as_it_came), stream, own)


def main() -> int:
    words = sys.argv[1:]
    if words[:1] in (['-h'], ['--help']):
        print((__doc__ or '').strip())
        return 0
    if words[:1] == ['--in-process']:
        return 0 if in_process.package(words[1:]) else 1
    if words[:1] == ['--batch']:
        return many(words[1:])
    if words[:1] == ['--expand']:
        # (loaded only here: it takes longer than to print some hundred receipts)
        from .anew import anew
        return anew(words[1:])
    if words == ['--languages']:
        return languages(given_input())
    as_it_came = words[:1] == ['--as-it-came']
    words = words[as_it_came:]
    if words[:1] == ['--words'] and len(words) == 2 and words[1] in LANGUAGES:
        print('\n'.join(printing(words[1], as_it_came)))
        return 0
    own, words = bounds.taken(words)
    if words not in ([], ['--guess']):
        print(f'usage: {USAGE}', file=sys.stderr)
        return 2
    if words:
        print(guess(given_input().read(GUESSED)))
        return 0
    with opened('-', own.bytes) as stream:
        return prints(stream, own, as_it_came)
