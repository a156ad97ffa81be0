"""The words that print a stream by vp: by the whole language, or by the profile where it is to be as it came."""
import argparse
from typing import List, Optional, Sequence

from .program import find_vp
from .sheets import shipped
from .streams import LANGUAGES, WHOLE


def printing(language: str, as_it_came: bool = False, sheets: Optional[Sequence[str]] = None) -> List[str]:
    """The words that print a language, with the shipped sheets where no others are named."""
    words = [*find_vp(), language, *(shipped(language) if sheets is None else sheets)]
    return words if as_it_came else whole(words)


def language_at(words: Sequence[str]) -> Optional[int]:
    """Where words that run vp name the language, if they do."""
    return next((n for n, word in enumerate(words) if n and word in LANGUAGES), None)


def whole(words: Sequence[str]) -> List[str]:
    """Words that run vp, by the whole language. Where they name no language they stay."""
    at = language_at(words)
    return list(words) if at is None or WHOLE in words else [*words[:at + 1], WHOLE, *words[at + 1:]]


def add_as_it_came(parser: argparse.ArgumentParser) -> None:
    parser.add_argument('--as-it-came', action='store_true',
                        help='prints by the profile alone, and writes nothing anew')
