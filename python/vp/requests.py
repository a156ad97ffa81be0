"""What a stream asks of its printer: its state, its name, its settings, each with the place where it is known.

The library finds them. Real-time requests of ESC/POS (DLE) count wherever they stand, also within pictures, as a
printer answers them when they arrive. What a symbol holds whose size is asked for comes from a listing.
"""
from __future__ import annotations

import ctypes
import re
import threading
import weakref
from collections import deque
from typing import Deque, Dict, Iterable, Iterator, List, NamedTuple, Optional, Tuple, Union

from .faults import BadArgument
from .handle import Handle
from .library import LABEL, WHOLE_RECEIPT, CRequest, CRequests, check, library
from .printers import Stream, bytes_of

LANGUAGES = {'receipt': WHOLE_RECEIPT, 'label': LABEL}
# How a real-time request begins.
DLE = 'DLE'
# The size of a QR symbol is asked for: an argument follows.
SYMBOL_SIZE = 'gs 28 6b 03 00 31 52'.split()
# A raster's head, whose data need no listing.
RASTER = re.compile(rb'\x1dv0.{5}', re.DOTALL)


class Request(NamedTuple):
    """A request by its name in the manual, the bytes behind the name, and the places of its first byte and behind its
    last. Where it asks for the size of a symbol (GS ( k), `symbol` is the commands that store it and say how it is
    drawn."""

    name: str
    arguments: bytes
    start: int
    end: int
    symbol: bytes = b''


def _told(found: CRequest) -> Request:
    return Request(found.name.decode(), bytes(found.arguments[:found.count]), found.start, found.end)


class Requests:
    """The requests of a stream that is fed in pieces, in the order in which they are known."""

    def __init__(self, lang: str) -> None:
        if lang not in LANGUAGES:
            raise BadArgument(f'vp: a language is receipt or label, and not {lang}')
        made = CRequests()
        check(library().vp_new_requests(LANGUAGES[lang], made), ('', ''))
        self._made, self._lock = made, threading.Lock()
        self._free = weakref.finalize(self, library().vp_free_requests, made)
        self._free.atexit = False

    def feed(self, data: Stream) -> List[Request]:
        part = bytes_of(data)
        start = ctypes.cast(ctypes.c_char_p(part), ctypes.c_void_p).value or 0
        at, taken, request = 0, ctypes.c_size_t(), CRequest()
        found: List[Request] = []
        with self._lock:
            while True:
                library().vp_next_request(self._made, start + at, len(part) - at, taken, request)
                at += taken.value
                if not request.name:
                    return found
                found.append(_told(request))

    def end(self) -> List[Request]:
        """The last request, whose end is that of the stream."""
        request = CRequest()
        with self._lock:
            library().vp_last_request(self._made, request)
        return [_told(request)] if request.name else []


class RealTime:
    """The real-time requests of a stream that is fed in pieces."""

    def __init__(self) -> None:
        self._requests = Requests('receipt')

    def feed(self, data: bytes) -> List[Request]:
        return [it for it in self._requests.feed(data) if it.name.startswith(DLE)]


class _Symbol:
    """What a stream has stored for its QR symbol, and said of how it is drawn, by the lines of its listing."""

    # How many commands that say how it is drawn are kept: a good one isn't undone by a bad one behind it.
    MOST = 64
    SETTINGS = {'41', '43', '45'}

    def __init__(self) -> None:
        self._drawn: Deque[bytes] = deque(maxlen=self.MOST)
        self._stored = bytearray()
        # how many bytes are still to be stored: those of a picture have the same lines
        self._left = 0

    @staticmethod
    def _command(data: bytes) -> bytes:
        return b'\x1d(k' + len(data).to_bytes(2, 'little') + data

    def take(self, words: List[str]) -> None:
        if words[0] == 'byte':
            if self._left:
                self._left -= 1
                self._stored.append(int(words[1], 16))
        elif words == ['esc', '40']:
            self._drawn.clear()
            self._stored.clear()
        elif words[:3] == ['gs', '28', '6b'] and words[5:6] == ['31']:
            data = bytes(int(it, 16) for it in words[5:])
            if words[6:8] == ['50', '30']:
                self._stored = bytearray(data)
                self._left = int(words[3], 16) + 256 * int(words[4], 16) - 3
            elif words[6] in self.SETTINGS:
                self._drawn.append(self._command(data))

    @property
    def commands(self) -> bytes:
        return b''.join(self._drawn) + (self._command(bytes(self._stored)) if self._stored else b'')


class _Listed:
    """The listing of a receipt that is fed in pieces, without the data of its rasters."""

    def __init__(self) -> None:
        self._handle: Optional[Handle] = None
        # where the handle began, how far it was fed, and how many bytes are passed by
        self._begun = self._fed = self._pass = 0
        self._line = bytearray()

    def close(self) -> None:
        if self._handle:
            self._handle.close()
        self._handle = None

    def _put(self, part: memoryview) -> None:
        self._line += part

    def _lines(self) -> Iterator[Tuple[int, str]]:
        """The whole lines that came, as place and text."""
        *lines, rest = bytes(self._line).split(b'\n')
        self._line = bytearray(rest)
        for line in lines:
            place, _, text = line.decode('latin-1').partition(' ')
            yield self._begun + int(place), text

    def feed(self, data: bytes) -> Iterator[Tuple[int, str]]:
        """The lines of a piece, each with its place."""
        at = 0
        while at < len(data):
            if self._pass:
                count = min(self._pass, len(data) - at)
                self._pass, self._fed, at = self._pass - count, self._fed + count, at + count
                continue
            if not self._handle:
                self._handle, self._begun = Handle.listing(WHOLE_RECEIPT, True), self._fed
                self._line.clear()
            raster = RASTER.search(data, at)
            part = data[at:raster.end() if raster else len(data)]
            self._handle.feed(part, self._put)
            self._fed, at = self._fed + len(part), at + len(part)
            last = ''
            for place, text in self._lines():
                last = text if place == self._fed else ''
                yield place, text
            if raster and last.startswith('gs 76 30 '):
                size = [int(it, 16) for it in last.split(' ')[4:8]]
                self.close()
                self._pass = (size[0] + 256 * size[1]) * (size[2] + 256 * size[3])

    @property
    def passed(self) -> int:
        """How far it was fed, where it stands within a raster; else 0."""
        return self._fed if self._pass else 0


class Commands:
    """The requests among a stream's commands, in their order; DLE DC4 is one of them. It is fed in pieces."""

    def __init__(self, lang: str) -> None:
        self._requests = Requests(lang)
        self._listed = _Listed() if lang == 'receipt' else None
        self._symbol = _Symbol()
        # of symbols whose size is asked for, by the place where that ends
        self._symbols: Dict[int, bytes] = {}
        self._known = self._size = 0

    def feed(self, data: bytes) -> List[Request]:
        self._size += len(data)
        found = [it for it in self._requests.feed(data) if not it.name.startswith(DLE)]
        if not self._listed:
            self._known = self._size
            return found
        for place, text in self._listed.feed(data):
            words = text.split(' ')
            self._symbol.take(words)
            self._known = place
            if words == SYMBOL_SIZE:
                self._symbols[place + 1] = self._symbol.commands
            elif words[:2] == ['dle', '14']:
                code = bytes(int(it, 16) for it in words[1:])
                found.append(Request('DLE DC4', code[1:], place - len(words), place))
        self._known = max(self._known, self._listed.passed)
        asked = [it._replace(symbol=self._symbols.pop(it.end, b'')) if it.name == 'GS ( k' else it for it in found]
        return sorted(asked, key=lambda it: (it.end, it.start))

    @property
    def settled(self) -> int:
        """Up to which place all is known: what stands behind it may be a part of a request."""
        return self._known

    def end(self) -> List[Request]:
        """The last request, whose end is that of the stream."""
        if self._listed:
            self._listed.close()
        return self._requests.end()


def requests(stream: Union[Stream, Iterable[Stream]], lang: str) -> Iterator[Tuple[int, Request]]:
    """What a stream asks, 'receipt' or 'label', whole or in pieces: each request, and how many bytes of the stream it
    ends behind. At any cut it gives the same."""
    reader = Requests(lang)
    commands = Commands(lang) if lang == 'receipt' else None
    pieces = [stream] if isinstance(stream, (bytes, bytearray, memoryview)) else stream
    for piece in pieces:
        part = bytes_of(piece)
        symbols = {it.end: it.symbol for it in commands.feed(part) if it.symbol} if commands else {}
        for it in reader.feed(part):
            yield it.end, it._replace(symbol=symbols.get(it.end, b'')) if it.name == 'GS ( k' else it
    for it in reader.end():
        yield it.end, it
