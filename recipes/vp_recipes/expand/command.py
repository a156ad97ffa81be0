"""Writes a stream of the whole language anew in the words that vp prints: expand [WORDS] [FILE] > NEW

Letters of other tables, packed and stored pictures, stored formats, other symbols and the like. What was written anew
is told on standard error, a line for each with its first byte in FILE, and so is what couldn't be; where there is
such a line the status is 1. --tell MAP tells lines of vp (its fault, its listing with places) in the bytes of FILE.

    expand parcel.zpl | vp label --font-a font-a.pbm > parcel.pbm
    expand --from utf-8 order.bin > order.new.bin
"""
import argparse
import datetime
import sys

from . import Options, expanded
from .places import as_file, of_file, told
from ..faults import Fault, shown
from ..files import keep
from ..kinds import language_of
from ..program import read
from ..sheets import chosen
from ..streams import LANGUAGES
from ..tables import characters


def moment(text: str) -> datetime.datetime:
    try:
        return datetime.datetime.fromisoformat(text)
    except ValueError:
        raise argparse.ArgumentTypeError(f'{text} is no time as 2026-11-26T14:30') from None


def words_of() -> argparse.ArgumentParser:
    words = argparse.ArgumentParser(description=__doc__, formatter_class=argparse.RawDescriptionHelpFormatter)
    words.add_argument('file', metavar='FILE', nargs='?', default='-', help='a stream; without one, standard input')
    words.add_argument('--lang', choices=LANGUAGES, help='the language, not guessed')
    words.add_argument('--table', default='cp858', metavar='CODEC', help='the table that the sheet shows; cp858')
    words.add_argument('--from', dest='encoding', metavar='CODEC', help="what a receipt's text is in, as utf-8")
    words.add_argument('--nearest', action='store_true', help='takes e for é where the sheet lacks it')
    words.add_argument('--keep-sizes', action='store_true', help="leaves a label's texts in the sizes of vp")
    words.add_argument('--map', metavar='FILE', help='writes which bytes each piece comes from')
    words.add_argument('--store', metavar='FOLDER', help='where formats and pictures are kept from stream to stream')
    words.add_argument('--now', type=moment, metavar='TIME', help='the time of clocks, as 2026-11-26T14:30')
    words.add_argument('--font-a', metavar='SHEET', help='the sheet that symbols have their text from')
    words.add_argument('--tell', metavar='MAP', help="tells vp's lines on standard input by a map")
    return words


def main() -> int:
    given = words_of().parse_args()
    if given.tell:
        pieces = of_file(read(given.tell).decode('latin-1'), given.tell)
        for line in sys.stdin:
            sys.stdout.write(told(line, pieces))
        return 0
    data = read(given.file)
    characters(given.table)
    if given.encoding:
        known_encoding(given.encoding)
    language = given.lang or language_of(data, given.file if given.file != '-' else 'standard input')
    options = Options(given.table, given.encoding, given.store, given.now, given.nearest, given.keep_sizes,
                      tuple(chosen(language, given.font_a)))
    found = expanded(data, language, options)
    sys.stdout.buffer.write(found.data)
    sys.stdout.flush()
    if given.map:
        keep(given.map, as_file(found.pieces))
    for remark in found.remarks:
        print(f'byte {remark.place}: {remark.text}', file=sys.stderr)
    return 0 if all(remark.is_done for remark in found.remarks) else 1


def known_encoding(name: str) -> None:
    """Raises a Fault where a name is of no encoding of letters."""
    try:
        if not isinstance(b'a'.decode(name), str):
            raise LookupError
    except (LookupError, UnicodeError, ValueError):
        raise Fault(f'{shown(name)}: no table of letters', 2) from None
