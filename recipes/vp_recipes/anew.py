"""Prints a stream that is written anew first, by vp or by another command: the fault is told in the bytes that came.

What is written anew is in the words of the whole language, and printed by it, whatever words name vp's language."""
import argparse
import tempfile
from typing import Any, List, Sequence

from . import bounds
from .expand import Expanded, Options, expanded
from .expand.places import old_place, told
from .papers import passed_on
from .program import direct, read
from .sheets import sheet_words
from .streams import LANGUAGES, guess
from .words import printing, whole


def written(data: bytes, command: Sequence[str], **options: Any) -> Expanded:
    """A stream as recipes/expand writes it for words that run vp, or that name its language and sheets."""
    language = next((it for it in LANGUAGES if it in command), None) or guess(data)
    sheets = [it for letter, name in sheet_words(command).items() for it in (f'--font-{letter}', name)]
    return expanded(data, language, Options(sheet=tuple(sheets), **options))


def anew(words: List[str]) -> int:
    """Does what these words ask, and gives the status of what printed."""
    parser = argparse.ArgumentParser(prog='print --expand', allow_abbrev=False)
    parser.add_argument('--table', default='cp858', metavar='CODEC', help='the table that the sheet shows; cp858')
    parser.add_argument('--from', dest='encoding', metavar='CODEC', help="what a receipt's text is in, as utf-8")
    parser.add_argument('command', nargs=argparse.REMAINDER, help='what prints, in place of vp')
    bounds.add_words(parser)
    given, data = parser.parse_args(words), read('-')
    language = next((it for it in LANGUAGES if it in given.command), None) or guess(data)
    command = direct(whole(given.command) or printing(language))
    found = written(data, command, table=given.table, encoding=given.encoding)
    with tempfile.TemporaryFile() as stream:
        stream.write(found.data)
        stream.seek(0)
        return passed_on(command, stream, bounds.of(given), lambda text: str(told(text, found.pieces)),
                         lambda byte: int(old_place(found.pieces, byte)))
