"""Golden images: whether paper is as it was accepted, and a picture of what differs.

Kept as recipes/golden keeps them: the images are NAME.pbm, the line of the fault that the stream ends in is NAME.fault,
and what is skipped of it NAME.skipped.
"""
from __future__ import annotations

import hashlib
import io
import os
import pathlib
import re
import secrets
from typing import Dict, Mapping, Optional

from .comparing import Compared, Strips
from .paper import Paper
from .skips import skips

# How long a name of a file may be without its end.
MOST_NAME = 100


class Incomplete(ValueError):
    """Paper that isn't all that its stream would print, and is accepted by a word alone."""


def file_name(name: str) -> str:
    """A name for files, of any text: of letters, digits and a few signs, other texts with a sum of theirs."""
    plain = re.sub(r'[^\w.+=@-]', '_', name, flags=re.ASCII).lstrip('.-')[:MOST_NAME] or 'paper'
    if plain == name:
        return plain
    return f'{plain}-{hashlib.sha256(name.encode("utf-8", "surrogatepass")).hexdigest()[:8]}'


def keep(file: pathlib.Path, data: bytes) -> None:
    """Writes a file whole or not at all."""
    part = file.with_name(f'.vp-{secrets.token_hex(6)}')
    try:
        part.write_bytes(data)
        os.replace(part, file)
    except BaseException:
        part.unlink(missing_ok=True)
        raise


def beside(paper: Paper) -> Dict[str, str]:
    """What is kept of a paper beside its images, by the ends of the files: what they don't show."""
    return {'.fault': f'{paper.fault}\n' if paper.fault else '', '.skipped': ''.join(f'{it}\n' for it in skips(paper))}


def kept(folder: pathlib.Path, name: str) -> Dict[str, str]:
    """What was kept beside an image."""
    files = {end: folder / f'{name}{end}' for end in ('.fault', '.skipped')}
    return {end: file.read_text(encoding='utf-8') if file.exists() else '' for end, file in files.items()}


def incomplete(now: Mapping[str, str], known: Mapping[str, str]) -> Optional[str]:
    """Why a paper isn't all that its stream would print, in words, unless that was accepted before."""
    said = []
    if now['.fault'] and now['.fault'] != known['.fault']:
        said.append(f'it ends in a fault, {now[".fault"].strip()}')
    if now['.skipped'] and now['.skipped'] != known['.skipped']:
        said.append(f'it skips {", ".join(now[".skipped"].splitlines()[:9])}')
    return '; '.join(said) or None


def accept(paper: Paper, folder: pathlib.Path, name: str, is_incomplete: bool = False) -> None:
    """Keeps a paper as what is expected from now on. Incomplete where its stream has a fault, or something of it is
    skipped, and that isn't said to be so."""
    now = beside(paper)
    why = incomplete(now, kept(folder, name))
    if why and not is_incomplete:
        raise Incomplete(why)
    folder.mkdir(parents=True, exist_ok=True)
    keep(folder / f'{name}.pbm', paper.pbm())
    for end, text in now.items():
        if text:
            keep(folder / f'{name}{end}', text.encode())
        else:
            (folder / f'{name}{end}').unlink(missing_ok=True)


def strips(paper: Paper) -> Strips:
    return Strips((image.width, image.rows) for image in paper)


def difference(paper: Paper, folder: pathlib.Path, name: str, picture: pathlib.Path) -> str:
    """What differs from what is expected, in words, or ''. Where dots differ a picture is made of it."""
    try:
        data = (folder / f'{name}.pbm').read_bytes()
    except FileNotFoundError:
        return f'no image was accepted yet: {folder / name}.pbm'
    said = []
    if data != paper.pbm():
        compared, file = Compared(strips(Paper.read(data)), strips(paper)), io.BytesIO()
        compared.picture(file)
        keep(picture, file.getvalue())
        said += [compared.said, f'see {picture}']
    known, now = kept(folder, name), beside(paper)
    for end, what in ('.fault', 'the fault'), ('.skipped', 'what is skipped'):
        if known[end] != now[end]:
            texts = ('; '.join(it[end].splitlines()) or 'none' for it in (known, now))
            said.append('{} is to be {} and is {}'.format(what, *texts))
    return '; '.join(said)
