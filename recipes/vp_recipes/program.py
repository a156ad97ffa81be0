"""The program vp, and how a command ends: where vp is, what it does with a stream, what is read, what a signal does."""
import contextlib
import functools
import io
import os
import pathlib
import signal
import subprocess
import sys
import tempfile
from typing import IO, Callable, Iterator, List, Optional, Sequence, Tuple

from . import in_process
from .bounds import Run, end_all
from .faults import NOT_OF_VP, VP_STATUSES, Fault, cannot_run, shown, text_of, times, told, why
from .vp.bounds import HELD, Bounds

__all__ = ['HERE', 'NOT_OF_VP', 'VP_STATUSES', 'Fault', 'begins', 'cannot_run', 'direct', 'ended', 'find_vp',
           'given_input', 'opened', 'ran', 'read', 'run', 'shown', 'text_of', 'times', 'told']
# The folder of the commands.
HERE = pathlib.Path(__file__).resolve().parent.parent
# A stream that is held in memory has so many bytes at most.
MOST_STREAM = 1 << 26


def find_vp() -> List[str]:
    """The words that run vp: VP of the environment, the prefix's, the repository's, the path's."""
    if os.environ.get('VP'):
        return [os.environ['VP']]
    for folder in HERE.parents:
        if os.access(folder / 'bin/vp', os.X_OK) and (folder / 'bin/vp').is_file():
            return [str(folder / 'bin/vp')]
        if (folder / 'crates.txt').is_file() and (folder / 'vp').is_file():
            return [str(folder / 'vp')]
    return ['vp']


def given_input() -> IO[bytes]:
    """Standard input."""
    if not sys.stdin:
        raise Fault('standard input is closed')
    return sys.stdin.buffer


def read(name: str, most: int = MOST_STREAM) -> bytes:
    """The bytes of a file, or of standard input for `-`."""
    try:
        if name == '-':
            data = given_input().read(most + 1)
        else:
            with open(name, 'rb') as file:
                data = file.read(most + 1)
    except (OSError, ValueError) as error:
        raise Fault(f'cannot read {shown(name)}: {why(error)}') from None
    if len(data) > most:
        raise Fault(f'{shown(name)} has more than {most:,} bytes, and is read no further')
    return data


@contextlib.contextmanager
def opened(name: str, most: Optional[int]) -> Iterator[IO[bytes]]:
    """A stream's file, which goes back: standard input for `-`, what comes of it kept aside where it can't, at most
    so many bytes."""
    try:
        with contextlib.ExitStack() as ends:
            file = given_input() if name == '-' else ends.enter_context(open(name, 'rb'))
            if not file.seekable():
                file = spooled(file, ends.enter_context(tempfile.TemporaryFile()), most)
            elif name == '-':
                # (what others read of it before isn't this stream's)
                os.lseek(file.fileno(), file.tell(), os.SEEK_SET)
            yield file
    except (OSError, ValueError) as error:
        if isinstance(error, OSError) and error.filename != name:
            raise
        raise Fault(f'cannot read {shown(name)}: {why(error)}') from None


def spooled(file: IO[bytes], room: IO[bytes], most: Optional[int]) -> IO[bytes]:
    """What comes of a file, kept in another one."""
    left = most
    while left is None or left >= 0:
        part = file.read(1 << 16)
        if not part:
            room.seek(0)
            return room
        room.write(part)
        left = None if left is None else left - len(part)
    raise Fault(f'cut off: the stream has more than {most:,} bytes; --most-bytes raises this', 1)


@functools.lru_cache(None)
def program_of(script: str) -> str:
    """The program that a clone's ./vp runs: its own way to it looks at the sources at each call."""
    ran = subprocess.run([script], stdout=subprocess.PIPE)
    if ran.returncode:
        raise Fault('there is no program of these sources', ran.returncode)
    return os.fsdecode(ran.stdout.rstrip(b'\n'))


def direct(words: Sequence[str]) -> List[str]:
    """Words that run vp, by the program itself where they name a clone's ./vp."""
    script = os.path.join(os.path.dirname(os.path.realpath(words[0])), 'tools/dist/program')
    is_clone = os.sep in words[0] and os.path.basename(words[0]) == 'vp' and os.path.isfile(script)
    return [program_of(script), *words[1:]] if is_clone else list(words)


def ran(words: Sequence[str], data: bytes, own: Bounds = HELD, keeps: bool = True) -> in_process.Done:
    """What words that run vp, as `direct` has them, do with a stream within bounds. Without `keeps` what they print is
    counted, and let go."""
    found = in_process.done(words, data, own) if keeps else None
    if found:
        return found
    with tempfile.TemporaryFile() as stream:
        stream.write(data)
        stream.seek(0)
        with Run(words, stream, own, words[1:2] != ['list']) as it:
            kept = [piece for piece in it if keeps]
    return in_process.Done(b''.join(kept), text_of(it.said), it.status, it.reached)


def run(words: Sequence[str], data: bytes, vp: Optional[Sequence[str]] = None, output: int = subprocess.PIPE
        ) -> Tuple[bytes, str, int]:
    """What vp does with a stream: its output, where that isn't to go to subprocess.DEVNULL, its line, its status;
    where a bound is reached, that is the line, with 1. Wrong words and the like are a Fault."""
    words = direct([*(vp or find_vp()), *words])
    made = ran(words, data, HELD, output == subprocess.PIPE)
    if made.reached:
        return made.out, str(made.reached), 1
    return made.out, told(words, made.status, made.line), made.status


def begins() -> None:
    """Has names of any bytes written as they are, and a script that is ended put away what is half done."""
    for stream in sys.stdout, sys.stderr:
        if isinstance(stream, io.TextIOWrapper):
            stream.reconfigure(encoding='utf-8', errors='surrogateescape')
    for number in signal.SIGTERM, signal.SIGHUP:
        if signal.getsignal(number) is signal.SIG_DFL:
            signal.signal(number, lambda got, _: sys.exit(128 + got))


def ended(main: Callable[[], int]) -> int:
    """The status of a script. What is told to a user is a line; a closed output and Ctrl-C leave no traceback. Where a
    signal ends it, it waits for no thread."""
    name = pathlib.Path(sys.argv[0]).name
    begins()
    if not sys.stdout:
        # (a file that is opened would be it)
        print(f'{name}: standard output is closed', file=sys.stderr)
        return 3
    try:
        status = main()
        sys.stdout.flush()
        return status
    except Fault as fault:
        print(f'{name}: {fault}', file=sys.stderr)
        return fault.status
    except OSError as error:
        os.dup2(os.open(os.devnull, os.O_WRONLY), 1)
        if not isinstance(error, BrokenPipeError):
            print(f'{name}: {shown(error.filename or "output")}: {error.strerror}', file=sys.stderr)
        return 3
    except MemoryError:
        print(f'{name}: out of memory', file=sys.stderr)
        return 4
    except KeyboardInterrupt:
        end_all()
        os._exit(128 + signal.SIGINT)
    except SystemExit as it:
        if isinstance(it.code, int) and it.code > 128:
            end_all()
            os._exit(it.code)
        raise
