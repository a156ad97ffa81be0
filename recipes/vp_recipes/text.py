"""Says the text of streams: text [--lang LANGUAGE] [--table CODEC] FILE..

Of a receipt its lines of characters, of labels the data of each field on a line of its own, with an empty line between
labels. CODEC is the table that says which character a byte is, by Python's name for it: cp437 is the default of
receipts, utf-8 that of labels.
"""
import argparse
import codecs
import os
import re
import sys
from typing import IO, Callable, Iterable, Iterator, Optional, Sequence, Tuple, cast

from . import bounds
from .faults import Fault, shown, text_of, told
from .labels import labels
from .program import direct, find_vp, opened
from .streams import GUESSED, LANGUAGES, WHOLE, guess
from .words import add_as_it_came

# What puts what follows at another height: anywhere, in standard mode, on a page.
ANYWHERE = re.compile(r'LF|esc (4a|64)|gs 6b|gs 28 6b 03 00 31 51 30|gs 76 30 [03][0-3] (?!00 00).. .. (?!00 00)')
STANDARD = re.compile('esc (69|6d)|gs 56')
PAGE = re.compile('FF|CAN|esc (0c|53|54|57)|gs (24|5c)')
Items = Iterable[Tuple[Optional[int], str]]


def receipt(items: Items) -> Iterator[bytes]:
    """The lines of a receipt's characters. A tab is one; a line that is open at the end counts, one that ESC @ drops
    doesn't."""
    line, on_page = bytearray(), False
    for _, text in items:
        if text.startswith('char '):
            line.append(int(text[5:], 16))
        elif text == 'HT':
            line += b'\t'
        elif text == 'esc 40':
            line.clear()
        elif ANYWHERE.match(text) or (PAGE if on_page else STANDARD).match(text):
            if line or text == 'LF':
                yield bytes(line)
            line.clear()
        on_page = text not in ('esc 40', 'esc 53', 'FF') and (on_page or text == 'esc 4c' and not line)
    if line:
        yield bytes(line)


def label(items: Items) -> Iterator[bytes]:
    """The data of the fields of labels, a line each, and an empty line between two labels."""
    # (labels goes through the items once, as they come)
    for n, (_, closed) in enumerate(labels(cast(Sequence[Tuple[Optional[int], str]], items))):
        if n:
            yield b''
        for field in closed:
            if field['content'] == '^FD':
                yield bytes(byte for _, byte in field['bytes'])


def decoder(table: str) -> Callable[[bytes], str]:
    """What makes a text of bytes, by a table of letters."""
    def decoded(line: bytes) -> str:
        # what is no table of letters raises whatever its module does
        try:
            text = codecs.lookup(table).decode(line, 'replace')[0]
            return text.encode('utf-8', 'replace').decode()
        except Exception:  # noqa: BLE001
            raise Fault(f'{shown(table)}: no table of letters', 2) from None
    decoded(b'A ')
    return decoded


def items_as_they_come(run: bounds.Run) -> Iterator[Tuple[None, str]]:
    """The items that are listed, without those of pictures' dots."""
    is_picture = False
    for piece in run:
        for text in piece.decode('latin-1').splitlines():
            is_dots = text.startswith(('byte ', 'column '))
            is_picture = is_picture if is_dots else text.startswith(('^GF', 'gs ', 'esc '))
            if not is_dots or not is_picture:
                yield None, text


def say(stream: IO[bytes], language: str, whole: bool, decoded: Callable[[bytes], str], own: bounds.Bounds) -> str:
    """Says the text of a stream by the whole language or by the profile, and gives the line of its fault, or of the
    bound that is reached."""
    command = direct([*find_vp(), 'list', '--lang', language, *([WHOLE] if whole else [])])
    os.lseek(stream.fileno(), stream.tell(), os.SEEK_SET)
    with bounds.Run(command, stream, own, is_paper=False) as run:
        for line in {'receipt': receipt, 'label': label}[language](items_as_they_come(run)):
            print(decoded(line))
    return str(run.reached) if run.reached else told(command, run.status, text_of(run.said))


def main() -> int:
    words = argparse.ArgumentParser(description=__doc__, formatter_class=argparse.RawDescriptionHelpFormatter)
    words.add_argument('files', metavar='FILE', nargs='*', default=['-'], help='a stream; without one, standard input')
    words.add_argument('--lang', choices=LANGUAGES, help='the language, not guessed')
    words.add_argument('--table', metavar='CODEC', help='which character a byte is')
    add_as_it_came(words)
    bounds.add_words(words)
    given = words.parse_args()
    last, chosen = 0, given.table and decoder(given.table)
    for file in given.files:
        try:
            with opened(file, bounds.of(given).bytes) as stream:
                start = stream.tell()
                language = given.lang or guess(stream.read(GUESSED))
                stream.seek(start)
                decoded = chosen or decoder({'receipt': 'cp437', 'label': 'utf-8'}[language])
                line = say(stream, language, not given.as_it_came, decoded, bounds.of(given))
            if line:
                print(line, file=sys.stderr)
                last = max(last, 1)
        except Fault as fault:
            print(f'text: {fault}', file=sys.stderr)
            last = max(last, fault.status)
    return last
