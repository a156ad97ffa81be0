"""A stream that is printed whole, at its end, by a process."""
from __future__ import annotations

import os
from typing import List, NamedTuple

from . import tools
from .ways import Ways


class Made(NamedTuple):
    """What a command printed: its line, '' where all is well, the PNGs, and how much that is."""

    line: str
    names: List[str]
    images: int
    rows: int


def printed(ways: Ways, job: str, name: str, command: List[str], is_label: bool) -> Made:
    """Prints JOB.bin to PNGs. A command that ends as vp doesn't, or prints what vp doesn't, is a Fault."""
    words = [tools.python(), str(tools.RECIPES / 'print'), '--expand', *command] if ways.expands else command
    spool = f'{name}.pbm'
    with open(f'{job}.bin', 'rb') as stream, open(spool, 'wb') as out:
        with tools.bounds.Run(words, stream, ways.bounds) as run:
            for piece in run:
                out.write(piece)
    if run.said:
        tools.files.keep(f'{job}.txt', run.said)
    line = str(run.reached) if run.reached else tools.program.told(words, run.status, tools.program.text_of(run.said))
    try:
        with open(spool, 'rb') as file, tools.images.Files(name, is_label, is_new=True) as files:
            tools.images.write(file, files)
            names = [os.path.basename(it) for it in files.settle()]
    except ValueError as error:
        said = f'{tools.program.shown(command[0])} printed no images as vp does: {error}'
        raise tools.program.Fault(said, tools.program.NOT_OF_VP) from None
    finally:
        os.unlink(spool)
    return Made(line, names, run.cutter.images, run.cutter.rows)
