"""What the page knows of commands: those of the table that all recipes use, and in more words those that vp draws."""
import pathlib
import sys
from typing import Any, Dict, List

HERE = pathlib.Path(__file__).resolve().parent
sys.path.insert(0, str(HERE.parent))
from vp_recipes import values  # noqa: E402
from vp_recipes.streams import rows  # noqa: E402


def lines_of(name: str) -> List[List[str]]:
    """The lines of a table beside this file, each its columns."""
    lines = (HERE / name).read_text(encoding='utf-8').splitlines()
    return [line.split('\t') for line in lines if line and not line.startswith('#')]


def known() -> Dict[str, Any]:
    """All that the page knows, as JSON has it:

    commands   language, command, whether the paper shows it, what recipes/expand makes of it, what it does
    help       language, command, form, name, what completion writes, parameters
    starts     the values that skipped commands have at the start: of labels, of receipts, those of one bit or figure
    """
    return {
        'commands': [list(it) for it in rows()],
        'help': lines_of('help.tsv'),
        'starts': {'label': values.LABEL_DEFAULTS, 'signs': values.SIGNS, 'receipt': values.RECEIPT_DEFAULTS,
                   'bits': list(values.BITS), 'figures': list(values.FIGURES)},
    }
