"""One job of a printer: job [--expand] [--as-it-came] [--most-rows N ..] FOLDER [COMMAND..] < STREAM

Takes the next number in FOLDER (or VP_JOB_NUMBER, which its caller took by making NUMBER.bin), keeps the stream as
NUMBER.bin and what COMMAND prints of it as NUMBER.png, of several labels as NUMBER-1.png and so on. Without COMMAND it
is vp in the stream's language, with the shipped sheets, by the whole language, or with --as-it-came by the profile
alone. --expand writes the stream anew before it is printed (recipes/expand); NUMBER.bin is the one that came. What
COMMAND says is kept as NUMBER.txt. What became of the job is a line of FOLDER/log, and of standard error where that is
no socket. Each file is there once it is whole. Where a bound is reached the rest is left out, and the log says so; it
also says which signal ended a job.

Status 0; 1 where the stream has a fault, or prints more than it may; 2 to 4 and 125 as vp's, 3 also where FOLDER can't
be written, as on a full disk; 5 where COMMAND was killed, ended as vp doesn't, or didn't print what vp prints.
"""
import argparse
import contextlib
import os
import re
import signal
import stat
import sys
from typing import IO, Iterator, Sequence, Tuple

from . import bounds
from .faults import Fault, shown, signal_name, why
from .files import keep, whole
from .images import Files
from .papers import paper
from .program import HERE, given_input
from .streams import GUESSED, LANGUAGES, guess
from .words import add_as_it_came, printing


def next_number(folder: str) -> str:
    """The next number, whose file only one of the jobs that want it at one time can make."""
    taken = [int(it[1]) for it in map(re.compile(r'(\d{6,})\.bin').fullmatch, os.listdir(folder)) if it]
    last = max(taken, default=0)
    while True:
        last += 1
        try:
            os.close(os.open(f'{folder}/{last:06}.bin', os.O_WRONLY | os.O_CREAT | os.O_EXCL, 0o666))
            return f'{last:06}'
        except FileExistsError:
            pass


def parts(file: IO[bytes]) -> Iterator[bytes]:
    """What is sent. A connection that breaks off ends the stream."""
    while True:
        try:
            part = file.read(1 << 16)
        except OSError:
            return
        if not part:
            return
        yield part


def store(name: str, own: bounds.Bounds) -> str:
    """Keeps the stream, or takes the file away that holds its number. Says where it is cut."""
    left, said = own.bytes, ''
    try:
        with whole(name) as file:
            for part in parts(given_input().raw):  # type: ignore[attr-defined]
                if left is not None and len(part) > left:
                    said = f'cut off: the stream has more than {own.bytes:,} bytes; --most-bytes raises this'
                file.write(part[:left])
                file.flush()
                if said:
                    break
                left = None if left is None else left - len(part)
    except BaseException:
        with contextlib.suppress(OSError):
            os.unlink(name)
        raise
    return said


def printed(job: str, command: Sequence[str], given: argparse.Namespace) -> Tuple[str, int]:
    """Prints the stream that was kept, and says what becomes of it, in a line and a status."""
    with open(f'{job}.bin', 'rb') as stream:
        language = next((it for it in LANGUAGES if it in command), None) or guess(stream.read(GUESSED))
        stream.seek(0)
        command = command or printing(language, given.as_it_came)
        command = [sys.executable, str(HERE / 'print'), '--expand', *command] if given.expand else command
        own = bounds.of(given, bounds.FILES if language == 'label' else None)
        with Files(f'{job}.png', language == 'label', is_new=True) as files:
            made = paper(command, stream, files, own=own)
            if made.said:
                keep(f'{job}.txt', made.said)
            line = made.line()
            names = files.settle()
    if made.status:
        return line, made.status
    return 'printed' if names else 'nothing was printed', 0


def say(folder: str, line: str) -> None:
    """Puts a line into the log, in one write, and says it."""
    line = shown(line) + '\n'
    log = os.open(f'{folder}/log', os.O_WRONLY | os.O_CREAT | os.O_APPEND, 0o666)
    try:
        os.write(log, line.encode('utf-8', 'surrogateescape'))
    finally:
        os.close(log)
        if sys.stderr and not stat.S_ISSOCK(os.fstat(2).st_mode):
            sys.stderr.write(line)


def done(number: str, given: argparse.Namespace) -> Tuple[str, int]:
    """Keeps and prints the job, and says what became of it, in a line and a status."""
    job = f'{given.folder}/{number}'
    try:
        cut = store(f'{job}.bin', bounds.of(given))
        what, status = printed(job, given.command, given)
        return (f'{cut}; what came: {what}', status or 1) if cut else (what, status)
    except Fault as fault:
        return str(fault), fault.status
    except OSError as error:
        return f'cannot be kept: {why(error)}', 3


def main() -> int:
    usage = 'job [--expand] [--as-it-came] [--most-rows N ..] FOLDER [COMMAND..] < STREAM'
    parser = argparse.ArgumentParser(usage=usage, description=__doc__, allow_abbrev=False,
                                     formatter_class=argparse.RawDescriptionHelpFormatter)
    parser.add_argument('folder', metavar='FOLDER', help='where jobs are kept')
    parser.add_argument('command', metavar='COMMAND', nargs=argparse.REMAINDER, help='what prints, as vp does')
    parser.add_argument('--expand', action='store_true', help='writes the stream anew before it is printed')
    add_as_it_came(parser)
    bounds.add_words(parser)
    given = parser.parse_args()
    if given.expand and given.as_it_came:
        parser.error('--expand writes the stream anew, and --as-it-came does not')
    folder = given.folder
    try:
        os.makedirs(folder, exist_ok=True)
        number = os.environ.get('VP_JOB_NUMBER') or next_number(folder)
    except OSError as error:
        raise Fault(f'cannot write to {shown(folder)}: {why(error)}') from None
    try:
        what, status = done(number, given)
    except (KeyboardInterrupt, SystemExit) as end:
        code = end.code if isinstance(end, SystemExit) else 128 + signal.SIGINT
        before = 'it was printed' if os.path.exists(f'{folder}/{number}.bin') else 'all of it came'
        say(folder, f'{number} ended by {signal_name(int(code or 0) - 128)} before {before}')
        raise
    say(folder, f'{number} {what}')
    return status
