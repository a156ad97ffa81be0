"""A printer that runs in a folder of its own, and tills that talk to it by Python's own sockets."""
from __future__ import annotations

import http.client
import os
import pathlib
import re
import signal
import socket
import struct
import subprocess
import sys
import tempfile
import time
import unittest
from typing import Any, Callable, Dict, List, NamedTuple, Optional, Sequence

ROOT = pathlib.Path(__file__).resolve().parents[3]
SERVE, DEVICE = ROOT / 'recipes/port-9100/serve', ROOT / 'recipes/device/device'
RECEIPT, LABEL = ROOT / 'examples/receipt.bin', ROOT / 'examples/shipping.zpl'
# (of a machine that has much else to do)
PATIENCE = 60


def wait_for(what: Callable[[], Any], why: str = '') -> Any:
    end = time.monotonic() + PATIENCE
    while time.monotonic() < end:
        found = what()
        if found:
            return found
        time.sleep(.02)
    raise TimeoutError(why or 'it takes too long')


def processes(group: int) -> List[int]:
    """The processes whose parent this is."""
    found = []
    for name in os.listdir('/proc'):
        if name.isdigit():
            try:
                text = pathlib.Path(f'/proc/{name}/stat').read_text()
            except OSError:
                continue
            if int(text.rsplit(')', 1)[1].split()[1]) == group:
                found.append(int(name))
    return found


def memory(process: int) -> int:
    """The bytes of memory that a process has."""
    text = pathlib.Path(f'/proc/{process}/status').read_text()
    found = re.search(r'VmRSS:\s*(\d+) kB', text)
    return int(found[1]) * 1024 if found else 0


def processor(process: int) -> float:
    """The seconds of processor that a process has used."""
    words = pathlib.Path(f'/proc/{process}/stat').read_text().rsplit(')', 1)[1].split()
    return (int(words[11]) + int(words[12])) / os.sysconf('SC_CLK_TCK')


class Printer:
    """One that runs."""

    def __init__(self, program: pathlib.Path, *words: str, folder: Optional[str] = None,
                 before: Optional[Callable[[], None]] = None, command: Sequence[str] = ()) -> None:
        self.room = tempfile.TemporaryDirectory()
        self.folder = pathlib.Path(folder or f'{self.room.name}/jobs')
        self.errors = open(f'{self.room.name}/errors', 'w+b')
        # (another user may have no way to the Python of this one)
        python = '/usr/bin/python3' if before and os.path.exists('/usr/bin/python3') else sys.executable
        self.process = subprocess.Popen([python, str(program), '--port', '0', *words, str(self.folder), *command],
                                        stdin=subprocess.DEVNULL, stdout=subprocess.DEVNULL, stderr=self.errors,
                                        preexec_fn=before)
        found = wait_for(lambda: re.search(r'port (\d+), to ', self.said()) or self.process.poll() is not None)
        if found is True:
            said = self.said()
            self.errors.close()
            self.room.cleanup()
            raise AssertionError(said)
        self.port = int(found[1])

    def said(self) -> str:
        return pathlib.Path(self.errors.name).read_text('utf-8', 'replace')

    def log(self) -> List[str]:
        try:
            return (self.folder / 'log').read_text().splitlines()
        except FileNotFoundError:
            return []

    def lines(self, count: int) -> List[str]:
        """The log, once it has so many lines."""
        return list(wait_for(lambda: len(self.log()) >= count and self.log(), f'{self.log()} {self.said()}'))

    @property
    def web(self) -> int:
        """The port of the service."""
        found = wait_for(lambda: re.search(r'its page is http://127.0.0.1:(\d+)/', self.said()))
        return int(found[1])

    def http(self, method: str, path: str, body: Optional[bytes] = None, **heads: str) -> 'Answer':
        """What the service answers."""
        way = http.client.HTTPConnection('127.0.0.1', self.web, timeout=PATIENCE)
        try:
            way.request(method, path, body, {name.replace('_', '-'): it for name, it in heads.items()})
            answer = way.getresponse()
            return Answer(answer.status, {name.lower(): it for name, it in answer.getheaders()}, answer.read())
        finally:
            way.close()

    def sets(self, words: str) -> None:
        """Sets the state."""
        answer = self.http('PUT', '/v1/state', words.encode())
        assert answer.status == 200, answer.body

    def till(self) -> 'Till':
        return Till(self.port)

    def sent(self, data: bytes) -> None:
        """Sends a stream as a job, and waits until the printer has ended it."""
        with self.till() as it:
            it.send(data)
            it.ends()

    def end(self, number: int = signal.SIGTERM) -> float:
        """Ends it, and says how many seconds that took."""
        begun = time.monotonic()
        if self.process.poll() is None:
            self.process.send_signal(number)
        self.process.wait(PATIENCE)
        return time.monotonic() - begun

    def close(self) -> None:
        self.end()
        self.errors.close()
        self.room.cleanup()


class Answer(NamedTuple):
    status: int
    heads: Dict[str, str]
    body: bytes


class Till:
    def __init__(self, port: int) -> None:
        self.socket = socket.create_connection(('127.0.0.1', port), PATIENCE)

    def send(self, data: bytes) -> None:
        self.socket.sendall(data)

    def answer(self, count: int) -> bytes:
        """So many bytes of answers."""
        found = b''
        while len(found) < count:
            part = self.socket.recv(count - len(found))
            if not part:
                break
            found += part
        return found

    def until(self, end: bytes) -> bytes:
        """What comes, up to these bytes."""
        found = b''
        while not found.endswith(end):
            part = self.socket.recv(1)
            if not part:
                break
            found += part
        return found

    def asks(self, data: bytes, count: int) -> bytes:
        self.send(data)
        return self.answer(count)

    def silence(self, seconds: float = .2) -> bytes:
        """What comes in this time."""
        self.socket.settimeout(seconds)
        try:
            return self.socket.recv(1000)
        except socket.timeout:
            return b''
        finally:
            self.socket.settimeout(PATIENCE)

    def ends(self) -> bytes:
        """Sends no more, and takes what comes until the printer closes."""
        self.socket.shutdown(socket.SHUT_WR)
        found = b''
        while True:
            part = self.socket.recv(1 << 16)
            if not part:
                return found
            found += part

    def reset(self) -> None:
        self.socket.setsockopt(socket.SOL_SOCKET, socket.SO_LINGER, struct.pack('ii', 1, 0))
        self.socket.close()

    def __enter__(self) -> 'Till':
        return self

    def __exit__(self, *_: object) -> None:
        self.socket.close()


class WithPrinter(unittest.TestCase):
    def printer(self, *words: str, program: pathlib.Path = SERVE, folder: Optional[str] = None,
                before: Optional[Callable[[], None]] = None, command: Sequence[str] = ()) -> Printer:
        it = Printer(program, *words, folder=folder, before=before, command=command)
        self.addCleanup(it.close)
        return it

    def whole(self, printer: Printer) -> None:
        """Whether nothing that isn't whole stays, and no process."""
        self.assertEqual([it for it in os.listdir(printer.folder) if it.startswith('.')], [])
        self.assertEqual(processes(printer.process.pid), [])
