"""What is kept of a stream as its golden images: what it prints, its fault, what is skipped of it, what was written
anew."""
import hashlib
import io
import pathlib
import re
import tempfile
from collections import Counter
from typing import IO, Any, Dict, List, NamedTuple, Optional, Sequence, Tuple

from . import in_process
from .anew import written
from .bounds import DEFAULT, Bounds, Reached, Run
from .expand.places import old_place
from .expand.places import told as told_anew
from .faults import Fault, shown, text_of, times, told
from .files import Made, whole
from .images import Cut, images
from .origins import MOST_BYTES
from .program import direct
from .remarks import passed
from .sheets import sheet_words, without_cell
from .streams import WHOLE, Items, first_byte, guess, items_of, lines_of, may_skip, named
from .vp.bounds import HELD
from .words import language_at, printing
from .words import whole as by_whole

ENDS = '.pbm', '.fault', '.skipped', '.anew'
# An image of so many bytes is held in memory, and of a listing so many are looked at.
MOST_HELD, MOST_LISTED = 1 << 22, 1 << 23
SMALL = HELD._replace(bytes=MOST_HELD)
# What a file of skipped commands shows of one, beyond which it is a sum.
MOST_SAID = 200
# Of the copies of a label so many are kept, and the others counted.
MOST_COPIES = 100
COPIES = re.compile(rb'P[\r\n]*Q[\r\n ]*\d[\r\n]*\d[\r\n]*\d', re.IGNORECASE)


class Kept(NamedTuple):
    """What stands in the files of a name: the images, and the texts beside them by their ends."""

    image: IO[bytes]
    texts: Dict[str, str]

    def bytes(self) -> bytes:
        self.image.seek(0)
        return self.image.read()

    def is_as(self, other: 'Kept') -> bool:
        """Whether these are the same."""
        if self.texts != other.texts:
            return False
        self.image.seek(0)
        other.image.seek(0)
        while True:
            one, two = self.image.read(1 << 16), other.image.read(1 << 16)
            if one != two:
                return False
            if not one:
                return True


class Look(NamedTuple):
    """What is printed of a stream now, how often which command is skipped, what the image hides, in words, and how the
    stream was printed: by which words, its bytes where they aren't many, and how to come to those that came."""

    now: Kept
    counts: 'Counter[str]'
    hidden: List[str]
    command: List[str]
    data: bytes
    pieces: Optional[List[Any]]


def bytes_said(code: bytes) -> str:
    """The bytes of a command, to be read; of many the first, and a sum."""
    text = ''.join(chr(it) if 0x20 <= it < 0x7F and it != 0x5C else f'\\x{it:02X}' for it in code[:MOST_SAID])
    if len(code) <= MOST_SAID:
        return text
    return f'{text} .. of {len(code)} bytes with the SHA-256 {hashlib.sha256(code).hexdigest()}'


def listed(command: Sequence[str], data: bytes) -> Optional[Tuple[bytes, bool]]:
    """What is listed of a stream, and whether with places. None where the words don't say the language, or the
    listing is too long to be looked at."""
    at = language_at(command)
    if at is None:
        return None
    out, has_places, _ = lines_of(data, command[at], command[:at], dots=False, whole=WHOLE in command)
    return (out, has_places) if len(out) <= MOST_LISTED else None


def fewer(data: bytes, items: Items) -> Tuple[bytes, List[str]]:
    """A stream of labels with at most MOST_COPIES of each, and of those that are fewer their number. Of which there are
    others only this counts, as all are alike."""
    parts, at, said = [], 0, []
    for place, text in items:
        found = re.match(r'\^PQ(\d+)', text)
        if not found or place is None or int(found[1]) <= MOST_COPIES:
            continue
        start = first_byte(data, place, text)
        digits = re.compile(rb'\d[\d\r\n]*').search(data, start or 0, place)
        if digits:
            parts += [data[at:digits.start()], b'%d' % MOST_COPIES]
            at = digits.end()
            said.append(f'byte {start}: of {int(found[1]):,} copies {MOST_COPIES} are kept')
    return b''.join([*parts, data[at:]]), said


def skips(command: Sequence[str], data: bytes, out: bytes, items: Items) -> Tuple[str, 'Counter[str]']:
    """The commands of a stream that vp skips and a printer would print, each with its data, and how often each is."""
    language = command[language_at(command) or 0]
    lines: List[str] = []
    counts: 'Counter[str]' = Counter()
    for n, name, code in passed(data, items, language) if may_skip(out, language) else ():
        lines.append((items[n][1] if code is None else bytes_said(code.rstrip(b'\r\n'))) + '\n')
        counts[named(name, name)] += 1
    return ''.join(lines), counts


def skipped_in(counts: 'Counter[str]') -> str:
    return 'it skips ' + ', '.join(f'{name} {times(count)}' for name, count in counts.items())


def without_characters(command: Sequence[str], items: Items) -> List[str]:
    """Which bytes the sheet has no character for, in words."""
    language = command[language_at(command) or 0]
    found: Dict[int, int] = {}
    for (_, byte), (count, _) in without_cell(items, language, command).items():
        found[byte] = found.get(byte, 0) + count
    if found and not sheet_words(command):
        return ['no sheet is named, so its characters are white']
    said = ', '.join(f'{byte:02X} {times(count)}' for byte, count in sorted(found.items()))
    return [f'the sheet has no character for {said}'] if found else []


def paper_of(command: Sequence[str], data: bytes, own: Bounds) -> Tuple[IO[bytes], str, Optional[Reached]]:
    """What words print of a stream, a file; the line that is said with status 1; the bound that is reached."""
    found = in_process.done(command, data, own, SMALL)
    if found:
        line = told(command, found.status, found.line) if not found.reached else ''
        return io.BytesIO(found.out), line if found.status else '', found.reached
    paper: IO[bytes] = tempfile.SpooledTemporaryFile(MOST_HELD)
    with tempfile.TemporaryFile() as stream:
        stream.write(data)
        stream.seek(0)
        with Run(command, stream, own) as run:
            for piece in run:
                paper.write(piece)
    line = '' if run.reached else told(command, run.status, text_of(run.said))
    return paper, line if run.status else '', run.reached


def look_of_paper(command: Sequence[str], paper: IO[bytes], fault: str) -> List[str]:
    """What is odd in a paper, in words; a Fault where it isn't vp's, whose last image may be cut short by a fault."""
    paper.seek(0)
    count, is_white = 0, True
    try:
        for _, height, rows in images(paper):
            count += 1
            for row in rows:
                is_white = is_white and not row.strip(b'\0')
    except ValueError as error:
        if fault and isinstance(error, Cut):
            return []
        raise Fault(f'{shown(command[0])} printed no images as vp does: {error}', 5) from None
    return ['nothing is printed'] if not count else ['its paper is all white'] if is_white else []


def anew_of(command: Sequence[str], data: bytes) -> Tuple[bytes, List[Any], List[str]]:
    """A stream as recipes/expand writes it, its pieces, and what was written. Without zint, which draws symbols, it
    can't be compared."""
    found = written(data, command)
    lines = [f'byte {it.place}: {it.text}' for it in found.remarks]
    needs = next((it for it in lines if 'needs zint' in it), None)
    if needs:
        raise Fault(f'{needs}: zint is not installed, so this is not compared; --as-it-came leaves it out', 2)
    return found.data, found.pieces, lines


def look(command: Sequence[str], data: bytes, as_it_came: bool = False, own: Bounds = DEFAULT, tells: bool = False
         ) -> Look:
    """What words print of a stream, where there are none vp in its language with the shipped sheets. Where it isn't to
    be as it came it is written anew first, and printed by the whole language. `tells` says also which bytes the sheet
    has no character for."""
    command = direct(command or printing(guess(data), as_it_came))
    command = command if as_it_came else by_whole(command)
    pieces: Optional[List[Any]] = None
    anew: List[str] = []
    if not as_it_came:
        data, pieces, anew = anew_of(command, data)
    found, hidden, few = listed(command, data), [], data
    items: Items = []
    if found:
        has_copies = COPIES.search(data) is not None
        if tells or has_copies or may_skip(found[0], command[language_at(command) or 0]):
            items = items_of(*found)
        if has_copies:
            few, said = fewer(data, items)
            anew = anew + [told_byte(it, pieces) for it in said]
    elif language_at(command) is not None:
        hidden.append('it is too long to look for what it skips')
    paper, line, reached = paper_of(command, few, own)
    fault = told_in_old(line, reached, pieces)
    hidden += look_of_paper(command, paper, fault)
    skipped, counts = skips(command, data, found[0], items) if found else ('', Counter())
    texts = {'.fault': f'{fault}\n' if fault else '', '.skipped': skipped, '.anew': ''.join(f'{it}\n' for it in anew)}
    hidden += without_characters(command, items) if tells and found else []
    return Look(Kept(paper, texts), counts, hidden, list(command), data if len(data) <= MOST_BYTES else b'', pieces)


def told_in_old(line: str, reached: Optional[Reached], pieces: Optional[List[Any]]) -> str:
    """A fault's line, or that of a bound that is reached, in the bytes that came."""
    if not reached:
        return line if pieces is None else str(told_anew(line, pieces))
    if reached.byte is None or pieces is None:
        return str(reached)
    return str(reached._replace(byte=old_place(pieces, reached.byte)))


def told_byte(line: str, pieces: Optional[List[Any]]) -> str:
    """A line that begins with a byte of the stream that is printed, in those that came."""
    found = re.match(r'byte (\d+)', line)
    if not found or pieces is None:
        return line
    return f'byte {old_place(pieces, int(found[1]))}{line[found.end():]}'


def unseen(it: Look) -> List[str]:
    """What an image can't show of a stream, in words."""
    fault = it.now.texts['.fault'].strip()
    return ([f'it ends in a fault, {fault}'] if fault else []) + it.hidden


def expected(folder: pathlib.Path, name: str) -> Optional[Kept]:
    """What was accepted of a stream; None where nothing was. Its image is an open file."""
    image, *others = (folder / (name + end) for end in ENDS)
    if not image.is_file():
        return None
    texts = [it.read_bytes().decode('utf-8', 'surrogateescape') if it.is_file() else '' for it in others]
    return Kept(image.open('rb'), dict(zip(ENDS[1:], texts)))


def incomplete(now: Kept, known: Optional[Kept]) -> List[str]:
    """Why what is printed isn't all that the stream prints, in words, but for what was accepted before."""
    was = known.texts if known else {}
    said = []
    if now.texts['.fault'] and now.texts['.fault'] != was.get('.fault'):
        said.append(f'it ends in a fault, {now.texts[".fault"].strip()}')
    if now.texts['.skipped'] and now.texts['.skipped'] != was.get('.skipped'):
        said.append('it skips ' + ', '.join(now.texts['.skipped'].splitlines()[:9]))
    return said


def take_over(made: Made, name: str, now: Kept) -> None:
    """Takes over what is printed of a stream."""
    for end in ENDS:
        at = pathlib.Path(made.folder, name + end)
        if end == '.pbm' or now.texts[end]:
            at.parent.mkdir(parents=True, exist_ok=True)
            with whole(str(at)) as file:
                if end == '.pbm':
                    now.image.seek(0)
                    for part in iter(lambda: now.image.read(1 << 16), b''):
                        file.write(part)
                else:
                    file.write(now.texts[end].encode('utf-8', 'surrogateescape'))
            made.add(name + end, 'golden')
        elif at.exists():
            at.unlink()
            made.files.pop(name + end, None)
