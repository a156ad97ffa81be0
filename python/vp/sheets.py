"""Glyph sheets: files, bytes, and those that come with vp."""
from __future__ import annotations

import enum
import os
import pathlib
from typing import Tuple, Union

from .faults import BadSheet

HERE = pathlib.Path(__file__).resolve().parent
# Of a sheet's file the first bytes count, as in the program.
MOST = 1 << 20
# What an empty file is to the library: a sheet that is none.
EMPTY = b'\0'


class Shipped(enum.Enum):
    """The sheets that come with vp."""

    SHEET = 'shipped'


SHIPPED = Shipped.SHEET
Sheet = Union[bytes, str, 'os.PathLike[str]', Shipped, None]


def shipped(font: str) -> pathlib.Path:
    """The file of a shipped sheet: in this package, in the repository, below the prefix, on the system."""
    top, name = HERE.parent.parent, f'{font.replace("_", "-")}.pbm'
    folders = HERE, top / 'examples', top.parent.parent / 'share/vp'
    return next((it / name for it in folders if (it / name).is_file()), folders[0] / name)


def read(sheet: Sheet, font: str) -> Tuple[bytes, str]:
    """The bytes of a sheet, and its name: of bytes that of the font. No sheet is b'', as the library takes it."""
    if sheet is None:
        return b'', font
    if isinstance(sheet, bytes):
        return sheet or EMPTY, font
    file: Union[str, 'os.PathLike[str]'] = shipped(font) if isinstance(sheet, Shipped) else sheet
    try:
        with open(file, 'rb') as it:
            return it.read(MOST) or EMPTY, str(file)
    except IsADirectoryError:
        raise BadSheet('vp: read failed') from None
    except (OSError, ValueError):
        raise BadSheet(f'vp: cannot open {file}') from None
