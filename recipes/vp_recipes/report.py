"""What golden reports: a page of what differs, with its pictures in itself, and JUnit's XML."""
import base64
import html
import os
import pathlib
import re
import tempfile
import urllib.parse
from typing import IO, List, NamedTuple, Optional, Sequence

from .files import keep, whole
from .images import Taken
from .vp.comparing import GAP, Compared

# The first difference is shown so many times as large, with so many dots and rows beside it.
TIMES, BESIDE, ABOVE = 6, 48, 16
# How long a name of a picture may be.
MOST_NAME = 200

HEAD = '''<!DOCTYPE html>
<html lang="en"><meta charset="utf-8"><meta name="viewport" content="width=device-width">
<title>%(title)s</title>
<style>
body { font: 16px/1.5 system-ui, sans-serif; color: #1c2024; background: #fff }
body { max-width: 1760px; margin: 0 auto; padding: 24px }
h1 { font-size: 22px } h2 { font-size: 17px; margin: 48px 0 0 } p { margin: 4px 0 12px }
ol { margin: 4px 0 12px; padding-left: 32px } code { font-size: 14px; overflow-wrap: anywhere }
.heads { display: grid; grid-template-columns: 1fr 1fr 1fr; column-gap: .9%%; font-weight: 600 }
.whole { display: block; background: var(--picture) 0 0 / 100%%; outline: 1px solid #d6dae0 }
.close { max-width: 100%%; background-image: var(--picture); image-rendering: pixelated; outline: 1px solid #d6dae0 }
pre { background: #f4f5f7; padding: 8px 12px; white-space: pre-wrap; margin: 4px 0 12px }
.lost { color: #d61e32 } .new { color: #005adc } .near { background: #fff0aa }
</style>
<h1>%(title)s</h1>
<ol>
%(contents)s
</ol>
<p>In the differences, dots that are only expected are <b class="lost">red</b>, dots that are only printed
<b class="new">blue</b>, all others grey; places near one are <span class="near">yellow</span>.</p>
'''
END = '</html>\n'
WHOLE = '''<div class="heads"><span>Expected</span><span>Printed</span><span>Differences</span></div>
<a class="whole" style="aspect-ratio: %d / %d" href="%s"
aria-label="picture"></a>'''
CLOSE = '''<p style="margin-top: 16px">The first difference, close:</p>
<div class="close" style="width: %dpx; height: %dpx;
background-size: %dpx %dpx; background-position: %dpx %dpx"></div>'''


class Case(NamedTuple):
    """Of a stream what differs, '' where nothing does, the kinds of that, and the seconds that it took."""

    name: str
    said: str = ''
    kinds: Sequence[str] = ()
    seconds: float = 0


def quoted(text: str) -> str:
    """A text for a page or a report: signs that can't stand there, and bytes that are no text, as question marks."""
    return html.escape(re.sub('[^\t\n -\uD7FF\uE000-\uFFFD\U00010000-\U0010FFFF]', '?', text))


def pairs(title: str, was: str, now: str) -> str:
    """Two texts below each other, with what they are."""
    texts = [quoted(it.rstrip('\n') or 'nothing') for it in (was, now)]
    return f'<p>{title} as expected, and now:</p><pre>{texts[0]}</pre><pre>{texts[1]}</pre>'


def shown(it: Compared, name: str) -> str:
    """The part of the page that shows a picture of this name."""
    wide, high = it.size
    part, first = WHOLE % (wide, high, urllib.parse.quote(os.fsencode(name))), it.close()
    if first:
        x = max(2 * (it.width + GAP), min(first.left - BESIDE + 6, wide - 2 * BESIDE))
        top = max(0, first.row - ABOVE)
        place = 2 * BESIDE, min(2 * ABOVE, high - top), wide, high, -x, -top
        part += CLOSE % tuple(TIMES * it for it in place)
    return part


class Report:
    """A folder with a page and pictures, of which an earlier one is known by its list."""

    def __init__(self, folder: pathlib.Path) -> None:
        self.folder = folder
        self.names: List[str] = []
        self.parts: IO[str] = tempfile.TemporaryFile('w+', encoding='utf-8')
        self.entries: List[str] = []

    def picture(self, it: Compared, name: str, number: Optional[int]) -> str:
        """Writes the picture of a stream, and gives the part of the page that shows it."""
        end = name.replace(os.sep, '-')
        while len(os.fsencode(end)) > MOST_NAME:
            end = end[:-1]
        own = f'{number or 0:03}-{end}.png'
        self.folder.mkdir(parents=True, exist_ok=True)
        if number is not None and os.path.lexists(self.folder / own):
            raise Taken(self.folder / own)
        with whole(str(self.folder / own)) as file:
            it.picture(file)
        self.names.append(own)
        data = base64.b64encode((self.folder / own).read_bytes()).decode()
        return f'<div style="--picture: url(data:image/png;base64,{data})">{shown(it, own)}</div>'

    def add(self, name: str, said: str, parts: str) -> None:
        """Adds a stream that differs to the page."""
        number = len(self.entries) + 1
        self.entries.append(f'<li><a href="#{number}">{quoted(name)}</a>: {quoted(said)}</li>')
        self.parts.write(f'<h2 id="{number}">{quoted(name)}</h2><p>{quoted(said)}</p>{parts}\n')

    def page(self, title: str) -> None:
        """Writes the page."""
        with whole(str(self.folder / 'index.html')) as file:
            file.write((HEAD % {'title': quoted(title), 'contents': '\n'.join(self.entries)}).encode())
            self.parts.seek(0)
            for part in iter(lambda: self.parts.read(1 << 16), ''):
                file.write(part.encode())
            file.write(END.encode())
        self.names.append('index.html')


def junit(cases: Sequence[Case], file: pathlib.Path) -> None:
    """A report as CI systems read it: a test case for each stream, of the class of its folder."""
    failed, took = sum(1 for it in cases if it.said), sum(it.seconds for it in cases)
    lines = [f'<testsuite name="golden" tests="{len(cases)}" failures="{failed}" errors="0" skipped="0" '
             f'time="{took:.3f}">']
    for it in sorted(cases):
        of = '.'.join(['golden', *filter(None, os.path.dirname(it.name).split(os.sep))])
        said, kinds = quoted(it.said), quoted(' '.join(it.kinds))
        failure = f'<failure type="{kinds}" message="{said}">{said}</failure>'
        lines.append(f'<testcase classname="{quoted(of)}" name="{quoted(it.name)}" file="{quoted(it.name)}" '
                     f'time="{it.seconds:.3f}">{failure if it.said else ""}</testcase>')
    file.parent.mkdir(parents=True, exist_ok=True)
    keep(str(file), '\n'.join(['<?xml version="1.0" encoding="UTF-8"?>', *lines, '</testsuite>', '']))


def is_free(file: pathlib.Path) -> None:
    """Raises that a file is somebody else's."""
    if os.path.lexists(file):
        raise Taken(file)
