"""Golden images: whether each stream of a folder still prints what it printed when its image was accepted.

  golden check STREAMS EXPECTED [NAME..] [--report FOLDER] [--junit FILE] [OPTION..] [-- COMMAND..]
  golden accept STREAMS EXPECTED [NAME..] [--incomplete] [--prune] [OPTION..] [-- COMMAND..]

check has status 0 where all are as expected, 1 where not; accept takes over what is printed now, and has status 1 where
it left one as it was: a stream that ends in a fault, or of which something is skipped, is taken over with --incomplete.
2 is for wrong words and what can't be told, 3 for files, 5 where COMMAND was killed or didn't end as vp does. COMMAND
prints standard input as vp does; without it, it is vp in the language that the stream is in, with the shipped sheets.

The stream STREAMS/NAME has its images in EXPECTED/NAME.pbm, the line of the fault that it ends in in
EXPECTED/NAME.fault, in EXPECTED/NAME.skipped what vp skips of it and a printer would print. Each stream is written
anew first (recipes/expand) and printed by the whole language, as show does it; what was so is in EXPECTED/NAME.anew.
--as-it-came prints it by the profile alone. README files, hidden files, PATTERNs and these outputs are no streams.
"""
import argparse
import contextlib
import fnmatch
import os
import pathlib
import sys
import threading
import time
from collections import Counter, deque
from concurrent.futures import Future, ThreadPoolExecutor
from typing import IO, Any, Callable, Deque, Generator, Iterator, List, Optional, Sequence, Set, Tuple

from . import bounds, in_process
from .expand.places import old_place
from .faults import Fault, shown, why
from .files import Made, Name, is_other
from .images import Cut, images
from .kept import (ENDS, SMALL, Kept, Look, expected, incomplete, listed, look, skipped_in, take_over, unseen)
from .origins import drew, shown_bytes
from .program import direct, find_vp, ran, read
from .report import Case, Report, is_free, junit, pairs
from .streams import items_of
from .vp.comparing import MOST_ROWS, ROWS_BEFORE, Compared, Place, Strips
from .words import add_as_it_came, language_at

# So many streams that differ are drawn, and of so many the bytes are named that drew the first difference.
MOST_SHOWN, MOST_NAMED = 100, 20
# Streams of more bytes are looked at one after the other.
LARGE = 1 << 18
# Papers of more rows are drawn from a little above where they differ first, and not aligned above.
MOST_ALIGNED = 100_000
WORDS = {'.fault': 'the fault', '.skipped': 'what is skipped', '.anew': 'what is written anew'}


def rows_of(file: IO[bytes]) -> Iterator[Tuple[int, bytes]]:
    """The rows of a paper, each with its width; a last image may be cut short."""
    file.seek(0)
    with contextlib.suppress(Cut):
        for width, _, rows in images(file):
            for row in rows:
                yield width, row


def images_of(file: IO[bytes]) -> Iterator[Tuple[int, List[bytes]]]:
    """The images of a paper, each its width and its rows; a last one may be cut short."""
    file.seek(0)
    with contextlib.suppress(Cut):
        for width, _, rows in images(file):
            found: List[bytes] = []
            with contextlib.suppress(Cut):
                found += iter(rows)
            yield width, found


def strips_of(file: IO[bytes], first: int, most: Optional[int]) -> Strips:
    """The strips of a paper, or so many rows of it from one on as one."""
    if most is None:
        return Strips(images_of(file))
    found = [it for n, it in enumerate(rows_of(file)) if first <= n < first + most]
    return Strips([(found[0][0], [row for width, row in found if width == found[0][0]])] if found else [])


def compared(was: IO[bytes], now: IO[bytes]) -> Tuple[Compared, str]:
    """Two papers compared, and what is to be said of it besides, where they are long."""
    counts = [sum(1 for _ in rows_of(it)) for it in (was, now)]
    if max(counts) <= MOST_ALIGNED:
        return Compared(strips_of(was, 0, None), strips_of(now, 0, None)), ''
    first = next((n for n, (one, other) in enumerate(zip(rows_of(was), rows_of(now))) if one != other), min(counts))
    top, said = max(0, first - ROWS_BEFORE), f'row {first:,} is the first that differs'
    if counts[0] != counts[1]:
        said += f'; {counts[0]:,} rows are expected and {counts[1]:,} printed in all'
    return Compared(strips_of(was, top, MOST_ROWS), strips_of(now, top, MOST_ROWS), top), said


def origin(it: Look, place: Place) -> str:
    """What drew a dot, in words: its bytes in the stream that came."""
    at = language_at(it.command)
    if at is None or not it.data:
        return ''
    paper = it.now.bytes()
    found = listed(it.command, it.data)
    items = items_of(*found) if found else []

    def prints(front: bytes) -> bytes:
        return ran(it.command, front, SMALL._replace(seconds=5)).out

    drawn = drew(it.data, it.command[at], place, paper, items, prints)
    if not drawn:
        return ''
    start, end = (n if it.pieces is None else old_place(it.pieces, n) for n in drawn)
    return f'drawn by bytes {start:,} to {max(start, end - 1):,}, {shown_bytes(it.data[drawn[0]:drawn[1]])}'


class Difference:
    """What differs of a stream: in words, in kinds, and as a part of the page."""

    def __init__(self, name: str, known: Optional[Kept], it: Optional[Look], report: Report,
                 number: Optional[int]) -> None:
        """`number` says how many differ so far, and is None where there is no page."""
        self.said: List[str] = []
        self.kinds: List[str] = []
        self.part = ''
        empty = Kept(open(os.devnull, 'rb'), {})
        was, now = known or empty, it.now if it else empty
        self.images(name, was.image, now.image, it, report, number)
        if not known:
            self.said = ['no image was accepted yet']
            self.kinds = ['new']
        if not it:
            self.said = ['an image is expected, but there is no such stream']
            self.kinds = ['gone']
        for end, what in WORDS.items() if it else ():
            old, new = was.texts.get(end, ''), now.texts.get(end, '')
            if old == new or not known and end != '.fault':
                continue
            self.kinds.append(end[1:])
            self.said.append(f'{what} {other_lines(old, new)}')
            self.part += pairs(what.capitalize(), old, new)

    def images(self, name: str, was: IO[bytes], now: IO[bytes], it: Optional[Look], report: Report,
               number: Optional[int]) -> None:
        if Kept(was, {}).is_as(Kept(now, {})):
            self.said.append('the images are the same')
            return
        self.kinds.append('image')
        if number is not None and number > MOST_SHOWN:
            self.said.append(f'other dots or images (the first {MOST_SHOWN} differences alone are drawn)')
            return
        found, besides = compared(was, now)
        self.said += [found.said] + ([besides] if besides else [])
        if it and found.first and (number or 0) <= MOST_NAMED:
            drawn = origin(it, found.first)
            self.said += [drawn] if drawn else []
        self.part += report.picture(found, name, number)


def other_lines(was: str, now: str) -> str:
    """What differs of what is kept beside an image."""
    old, new = Counter(was.splitlines()), Counter(now.splitlines())
    parts = [('is to be', old - new), ('is', new - old)]
    return ' and '.join(f'{what} {next(iter(it), "none")}' for what, it in parts)


def is_refused() -> bool:
    """Whether this is a CI, where nothing is accepted."""
    return os.environ.get('CI', '') not in ('', '0', 'false')


def verify(stream: bytes, name: str, folder: Name, command: Sequence[str] = (), accept: bool = False,
           report: Name = 'golden-report', as_it_came: bool = False, is_incomplete: bool = False) -> str:
    """For tests: compares what a stream's bytes print with folder/NAME.pbm. Gives what differs in a line, '' where
    nothing does, with a picture in the report's folder. With accept it takes it over, but not where CI is set, and what
    ends in a fault or skips something where that is said; the stream is written anew first, unless it is to be as it
    came."""
    place = pathlib.Path(folder)
    found = look(command, stream, as_it_came)
    known = expected(place, name)
    if known and known.is_as(found.now):
        return ''
    why = incomplete(found.now, known) if accept and not is_incomplete else []
    if accept and is_refused():
        return f'{name}: nothing is accepted where CI is set'
    if why:
        return f'{name}: not accepted: {"; ".join(why)}'
    if accept:
        place.mkdir(parents=True, exist_ok=True)
        with Made(str(place)) as made:
            take_over(made, name, found.now)
        return ''
    said = '; '.join(Difference(name, known, found, Report(pathlib.Path(report)), None).said)
    return f'{name}: {said}; see {report}'


@contextlib.contextmanager
def reporting(folder: pathlib.Path, is_wanted: bool) -> Iterator[Optional[Made]]:
    """The list of what an earlier report left, which goes; None where there is no such folder, and no need of one."""
    if is_wanted:
        folder.mkdir(parents=True, exist_ok=True)
    if not folder.is_dir():
        yield None
        return
    with Made(str(folder)) as made:
        made.take_away('golden')
        yield made


Looks = Generator[Tuple[str, Optional[Look], float], None, None]


def check(looks: Looks, given: argparse.Namespace) -> int:
    """Says what differs, and writes the page of it."""
    cases, as_expected = [], []
    with reporting(given.report, False) as made, contextlib.ExitStack() as own:
        report = Report(given.report)
        for name, it, seconds in looks:
            known = expected(given.expected, name)
            if it and known and known.is_as(it.now):
                cases.append(Case(name, seconds=seconds))
                if it.counts:
                    as_expected.append(f'{shown(name)}: as expected; {skipped_in(it.counts)}')
                continue
            if made is None:
                made = own.enter_context(reporting(given.report, True))
            if not report.entries:
                is_free(given.report / 'index.html')
            found = Difference(name, known, it, report, len(report.entries) + 1)
            cases.append(Case(name, '; '.join(found.said), found.kinds, seconds))
            report.add(name, cases[-1].said, found.part)
            print(f'{shown(name)}: {shown(cases[-1].said)}', flush=True)
            for file in report.names:
                if made:
                    made.add(file, 'golden')
        title = f'{len(report.entries)} of {len(cases)} streams print otherwise than expected'
        if report.entries and made:
            report.page(title)
            made.add('index.html', 'golden')
    print(*as_expected, sep='\n', end='\n' if as_expected else '')
    if given.junit:
        junit(cases, given.junit)
    if not report.entries:
        print(f'{len(cases)} streams print what is expected')
        return 0
    print(f'{title}: see {shown(given.report / "index.html")}')
    return 1


def accept(looks: Looks, given: argparse.Namespace) -> int:
    """Takes over what is printed."""
    given.expected.mkdir(parents=True, exist_ok=True)
    taken = total = left = 0
    with Made(str(given.expected)) as made:
        for name, it, _ in looks:
            total += 1
            if not it:
                taken += gone(made, name, given)
                continue
            known = expected(given.expected, name)
            differs = not known or not known.is_as(it.now)
            missing = incomplete(it.now, known) if not given.incomplete else []
            if missing:
                print(f'{shown(name)}: not accepted; {shown("; ".join(missing))}; --incomplete takes it over')
                left += 1
                continue
            remarks = shown('; '.join([*unseen(it), *([skipped_in(it.counts)] if it.counts else [])]))
            if differs:
                take_over(made, name, it.now)
                taken += 1
            if differs or remarks:
                what = 'accepted' if differs else 'as before'
                print(f'{shown(name)}: {what}; {remarks}' if remarks else f'{shown(name)}: {what}', flush=True)
    print(f'{taken} of {total} streams taken over')
    return 1 if left else 0


def gone(made: Made, name: str, given: argparse.Namespace) -> int:
    """Says of images that have no stream what becomes of them, and how many went."""
    own = [name + end for end in ENDS if name + end in made.files]
    if not own:
        print(f'{shown(name)}: there is no such stream; its image stays, since it was not written here')
    elif not given.prune:
        print(f'{shown(name)}: there is no such stream; --prune takes its image away')
    elif all([made.take_one(it) for it in own]):
        print(f'{shown(name)}: there is no such stream, so its image is taken away')
        return 1
    else:
        print(f'{shown(name)}: there is no such stream; its image stays, since it was changed')
    return 0


def is_stream(path: pathlib.Path, given: argparse.Namespace) -> bool:
    """Whether a file is what software sent: not hidden, no README, nothing that this script writes or is told of."""
    name = path.relative_to(given.streams)
    if not path.is_file() or any(part.startswith('.') for part in name.parts) or name.name.startswith('README'):
        return False
    inside = [folder.resolve() for folder in (given.report, given.expected)]
    if any(folder in path.resolve().parents and folder != given.streams.resolve() for folder in inside):
        return False
    if given.expected.resolve() == given.streams.resolve() and name.suffix in ENDS:
        return False
    return not any(fnmatch.fnmatch(it, pattern) for pattern in given.ignore for it in (str(name), name.name))


def streams_of(given: argparse.Namespace) -> Tuple[List[str], Set[str]]:
    """The names of all streams, and of the images that have none."""
    files = [it for it in given.streams.rglob('*') if is_stream(it, given)] if given.streams.is_dir() else []
    names = {str(it.relative_to(given.streams)) for it in files}
    known = {str(it.relative_to(given.expected))[:-len('.pbm')] for it in given.expected.rglob('*.pbm')}
    return sorted(names), known - names


def each(names: Sequence[str], count: int, one: Callable[[str], Optional[Look]]) -> Looks:
    """What is looked at of each name, in their order, so many at a time."""
    waiting: 'Deque[Tuple[str, Future[Tuple[Optional[Look], float]]]]' = deque()
    pool = ThreadPoolExecutor(count)

    def timed(name: str) -> Tuple[Optional[Look], float]:
        start = time.monotonic()
        return one(name), time.monotonic() - start

    try:
        for name in names:
            waiting.append((name, pool.submit(timed, name)))
            if len(waiting) > 2 * count:
                first, future = waiting.popleft()
                yield (first, *future.result())
        for first, future in waiting:
            yield (first, *future.result())
    except BaseException:
        bounds.end_all()
        raise
    finally:
        pool.shutdown(wait=False, cancel_futures=True)


def arguments() -> argparse.ArgumentParser:
    parser = argparse.ArgumentParser(description=__doc__, formatter_class=argparse.RawDescriptionHelpFormatter,
                                     usage='golden check|accept STREAMS EXPECTED [NAME..] [OPTION..] [-- COMMAND..]')
    parser.add_argument('what', choices=('check', 'accept'), help='compares, or takes over')
    parser.add_argument('streams', metavar='STREAMS', type=pathlib.Path, help='the folder of streams, a file a job')
    parser.add_argument('expected', metavar='EXPECTED', type=pathlib.Path, help='the folder of what was accepted')
    parser.add_argument('names', metavar='NAME', nargs='*', default=[], help='these streams alone, as STREAMS has them')
    parser.add_argument('--report', type=pathlib.Path, default=pathlib.Path('golden-report'), metavar='FOLDER',
                        help='where check shows what differs; golden-report')
    parser.add_argument('--junit', type=pathlib.Path, metavar='FILE', help="check's report as CI systems read it")
    parser.add_argument('--ignore', action='append', default=[], metavar='PATTERN',
                        help="names of files that are no streams, as '*.txt'; may be said again")
    parser.add_argument('--incomplete', action='store_true',
                        help='accept takes over also what ends in a fault, or of which something is skipped')
    parser.add_argument('--prune', action='store_true', help='accept takes images away whose streams are gone')
    add_as_it_came(parser)
    bounds.add_words(parser)
    return parser


def main() -> int:
    words = sys.argv[1:]
    at = words.index('--') if '--' in words else len(words)
    given, command = arguments().parse_intermixed_args(words[:at]), words[at + 1:]
    if given.what == 'accept' and is_refused():
        raise Fault('accept is for where you work: CI is set, and there nothing is accepted', 2)
    if given.junit and given.junit.exists() and not is_other(given.junit):
        given.junit.unlink()
    large = threading.Lock()
    names, orphans = (given.names, set()) if given.names else streams_of(given)
    if not names:
        raise Fault(f'{shown(given.streams)}: no streams', 2)

    def looked_at(name: str) -> Optional[Look]:
        if name in orphans:
            return None
        file, tells = given.streams / name, given.what == 'accept'
        try:
            alone: Any = large if os.path.getsize(file) > LARGE else contextlib.nullcontext()
            with alone:
                data = read(str(file))
                return look(command, data, given.as_it_came, bounds.of(given), tells)
        except OSError as error:
            raise Fault(f'cannot read {shown(file)}: {why(error)}') from None
        except Fault as fault:
            raise Fault(f'{shown(given.streams / name)}: {fault}', fault.status) from None

    # (where this process prints, further threads of it are no faster)
    is_own = in_process.package(direct([*(command or find_vp()), *([] if command else ['label'])]))
    looks = each(sorted([*names, *orphans]), 1 if is_own else os.cpu_count() or 1, looked_at)
    with contextlib.closing(looks):
        return check(looks, given) if given.what == 'check' else accept(looks, given)
