"""What a user is told in a line, and the statuses that scripts end with."""
import re
import signal
from typing import Sequence

# The statuses of vp beside 0 and 1, whose line says why; and what a command ends with that ran something which was
# killed, or which ended as vp doesn't.
VP_STATUSES, NOT_OF_VP = (2, 3, 4, 125), 5


class Fault(Exception):
    """What a user is told in one line. The status is 2 for wrong words, 3 for files, 4 for memory, 5 for a program
    that was killed or didn't end as vp does."""

    def __init__(self, line: str, status: int = 3) -> None:
        super().__init__(line)
        self.status = status


def shown(name: object) -> str:
    """A name as it stands in a line: a line end and other control characters by their numbers."""
    return re.sub('[\0-\x1f\x7f]', lambda it: f'\\x{ord(it[0]):02x}', str(name))


def signal_name(number: int) -> str:
    return {it.value: it.name for it in signal.Signals}.get(number, f'signal {number}')


def told(words: Sequence[str], status: int, line: str) -> str:
    """What the words that ran vp say, in one line, where they ended with 0 or 1. Else it is a Fault."""
    line = '; '.join(line.split('\n'))
    if status == 0 or status == 1 and line:
        return line
    program = shown(words[0])
    if status < 0:
        raise Fault(f'{program} was ended by {signal_name(-status)}', NOT_OF_VP)
    said = f'{program} ended with status {status}' + (f': {line}' if line else ' and said nothing')
    raise Fault(line or said if status in VP_STATUSES else said, status if status in VP_STATUSES else NOT_OF_VP)


def text_of(said: bytes) -> str:
    """What a program said on standard error."""
    return said.decode('utf-8', 'surrogateescape').strip()


def why(error: BaseException) -> str:
    """What went wrong, as the system says it."""
    return getattr(error, 'strerror', None) or str(error)


def cannot_run(words: Sequence[str], error: Exception) -> Fault:
    return Fault(f'cannot run {shown(words[0])}: {why(error)}', 2)


def times(count: int) -> str:
    return 'once' if count == 1 else f'{count:,} times'
