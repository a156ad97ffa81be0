"""The commands of a stream of labels, by the grammar of docs/zpl.md, with other signs where a stream chooses them.

What stands between commands belongs to none. Binary pictures are as long as their heads say.
"""
import functools
import re
from typing import Iterator, List, Optional, Pattern, Tuple

GREATEST = 99_999_999


class Command:
    """A command of bytes `start` to `end` of the stream: its `sign` and `name`, of ^A the `font`, and the bytes behind
    them, `rest`, in which `comma` parts the parameters. `is_plain` where it stands there in the usual signs, so that
    its bytes may be kept; `is_exact` where `rest` is data as they are meant, without digits or line ends to be taken
    out. `parts` are the parameters once somebody asked for them."""
    __slots__ = ('sign', 'name', 'font', 'rest', 'start', 'end', 'is_plain', 'comma', 'is_exact', 'parts')

    def __init__(self, sign: str, name: str, rest: bytes = b'', start: int = 0, end: int = 0, is_plain: bool = False,
                 font: str = '', comma: bytes = b',', is_exact: bool = False) -> None:
        self.sign, self.name, self.rest, self.start, self.end = sign, name, rest, start, end
        self.is_plain, self.font, self.comma, self.is_exact = is_plain, font, comma, is_exact
        self.parts: Optional[List[str]] = None

    @classmethod
    def with_data(cls, data: bytes, start: int, end: int) -> 'Command':
        """^FD of bytes as they are meant."""
        return cls('^', 'FD', data, start, end, is_exact=True)

    def copied(self, start: int, end: int) -> 'Command':
        """The same command in place of other bytes of the stream."""
        return Command(self.sign, self.name, self.rest, start, end, font=self.font, comma=self.comma,
                       is_exact=self.is_exact)

    def parameters(self) -> List[str]:
        """What stands between commas, without blanks and line ends, as it came."""
        if self.parts is None:
            self.parts = self.rest.translate(None, b'\r\n ').decode('latin-1').split(self.comma.decode('latin-1'))
        return self.parts

    def parameter(self, n: int) -> str:
        """The n-th parameter, '' where there is none."""
        found = self.parts or self.parameters()
        return found[n] if n < len(found) else ''

    def letter(self, n: int, values: str, default: str) -> str:
        """A letter among the parameters, of these values."""
        found = self.parameter(n).upper()
        return found if len(found) == 1 and found in values else default

    def number(self, n: int, default: int, least: int = 0, most: int = GREATEST) -> int:
        """A number among the parameters, in its range."""
        found = self.parameter(n)
        if not found or not is_number(found):
            return default
        value = int(found)
        return least if value < least else most if value > most else value

    def data(self) -> bytes:
        """The bytes of ^FD, line ends dropped."""
        return self.rest if self.is_exact else self.rest.translate(None, b'\r\n')

    def title(self) -> str:
        return self.sign + self.name + self.font

    def written(self) -> bytes:
        """The command in the usual signs."""
        rest = self.rest
        if self.comma != b',' and self.name not in ('FD', 'FV'):
            rest = rest.replace(self.comma, b',')
        return f'{self.sign}{self.name}{self.font}'.encode('latin-1') + rest


def is_number(text: str) -> bool:
    """Whether a parameter is a number that a label takes."""
    return text.isdigit() and text.isascii() and len(text) <= 16


@functools.lru_cache(64)
def pattern(caret: bytes, tilde: bytes) -> Pattern[bytes]:
    signs = re.escape(caret) + re.escape(tilde)
    one, gap = rb'([^%s\r\n])' % signs, rb'[\r\n]*'
    return re.compile(rb'([%s])%s%s%s%s([^%s]*)' % (signs, gap, one, gap, one, signs))


def binary_length(command: Command, data: bytes, at: int) -> Optional[Tuple[int, int]]:
    """Where the bytes of a picture begin whose head stands at a place, and how many they are, or None."""
    if command.name == 'GF':
        kind_at, kinds, count_at, commas = 0, 'BC', 1, 4
    elif command.sign == '~' and command.name == 'DY':
        kind_at, kinds, count_at, commas = 1, 'BPC', 3, 5
    else:
        return None
    head = command.rest.split(command.comma, commas)
    if len(head) <= commas:
        return None
    words = [it.translate(None, b'\r\n ').decode('latin-1') for it in head[:commas]]
    if words[kind_at].upper() not in tuple(kinds):
        return None
    if words[kind_at].upper() != 'B' and head[commas].lstrip(b'\r\n')[:1] == b':':
        return None
    length = min(int(words[count_at]), GREATEST) if is_number(words[count_at]) else 0
    return at + len(command.rest) - len(head[commas]), length


def commands(data: bytes) -> Iterator[Command]:
    """Each whole command of a stream. Where the stream ends within a name there is none."""
    caret, tilde, comma = b'^', b'~', b','
    found, at, is_plain = pattern(caret, tilde), 0, True
    while True:
        for match in found.finditer(data, at):
            lead, first, second, rest = match.groups()
            sign = '^' if lead == caret else '~'
            name, font = (first + second).upper().decode('latin-1'), ''
            if sign == '^' and name[0] == 'A':
                name, font = 'A', second.decode('latin-1')
            command = Command(sign, name, rest, match.start(), match.end(), is_plain, font, comma)
            span = binary_length(command, data, match.start(4)) if name in ('GF', 'DY') else None
            if span:
                command.end = min(len(data), span[0] + span[1])
                command.rest, command.parts = data[match.start(4):command.end], None
                tail = re.compile(rb'[^%s]*' % (re.escape(caret) + re.escape(tilde))).match(data, command.end)
                yield command
                at = tail.end() if tail else command.end
                break
            if name in ('CC', 'CT', 'CD'):
                new = rest.lstrip(b'\r\n')[:1] or data[match.end():match.end() + 1]
                if new and new not in b'\r\n':
                    command.end = data.index(new, match.start(4)) + 1
                    caret, tilde, comma = [new if name == it else old for it, old in
                                           (('CC', caret), ('CT', tilde), ('CD', comma))]
                    is_plain = (caret, tilde, comma) == (b'^', b'~', b',')
                    found, at = pattern(caret, tilde), command.end
                    yield command
                    break
            yield command
        else:
            return
