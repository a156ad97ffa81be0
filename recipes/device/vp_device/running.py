"""A printer that answers as a process of a test's own."""
from __future__ import annotations

import json
import pathlib
import re
import subprocess
import sys
import time
import urllib.error
import urllib.request
from types import TracebackType
from typing import Any, Dict, List, Optional, Type

PROGRAM = pathlib.Path(__file__).resolve().parent.parent / 'device'
PATIENCE = 20


class Running:
    """A printer on free ports of 127.0.0.1, which ends with the process that began it at the latest. What `device`
    doesn't take raises RuntimeError."""

    def __init__(self, folder: 'pathlib.Path | str', *words: str) -> None:
        self.folder = pathlib.Path(folder)
        self.process = subprocess.Popen(
            [sys.executable, str(PROGRAM), '--while-stdin', '--port', '0', '--http', '0', *words, str(self.folder)],
            stdin=subprocess.PIPE, stdout=subprocess.DEVNULL, stderr=subprocess.PIPE)
        assert self.process.stderr
        head, said = None, ''
        for line in iter(self.process.stderr.readline, b''):
            said += line.decode('utf-8', 'replace')
            head = re.search(r'port (\d+), to .*\nits page is (\S+)/\n', said)
            if head:
                break
        if not head:
            self.end()
            raise RuntimeError(said.strip())
        self.host, self.port, self.address = '127.0.0.1', int(head[1]), head[2]
        # what it says further stands in the log; nobody reads this
        self.process.stderr.close()

    def ask(self, method: str, path: str, body: Optional[bytes] = None, **heads: str) -> bytes:
        """What its service answers, as /v1/openapi.json describes it. A wrong word raises ValueError with its line."""
        asked = urllib.request.Request(self.address + path, body, {k.replace('_', '-'): v for k, v in heads.items()},
                                       method=method)
        try:
            with urllib.request.urlopen(asked, timeout=PATIENCE) as answer:
                data: bytes = answer.read()
                return data
        except urllib.error.HTTPError as error:
            with error:
                raise ValueError(error.read().decode('utf-8', 'replace').strip()) from None

    def set(self, words: str) -> None:
        """Changes the state, as `paper out, cover open`."""
        self.ask('PUT', '/v1/state', words.encode())

    def script(self, words: str) -> None:
        """Begins with a script, as `after 1200 rows: paper out; after 3 s: loaded`."""
        self.ask('PUT', '/v1/script', words.encode())

    @property
    def state(self) -> Dict[str, Any]:
        found: Dict[str, Any] = json.loads(self.ask('GET', '/v1/state'))
        return found

    @property
    def jobs(self) -> List[Dict[str, Any]]:
        """The last 200 jobs, the oldest first: number, language, bytes, rows, line, is_over, images, asked."""
        found: List[Dict[str, Any]] = json.loads(self.ask('GET', '/v1/jobs'))['jobs']
        return found[::-1]

    def ended(self, count: int = 1, seconds: float = PATIENCE) -> List[Dict[str, Any]]:
        """The jobs, once so many have ended. Where that takes longer it raises TimeoutError."""
        until = time.monotonic() + seconds
        while True:
            jobs = self.jobs
            if sum(it['is_over'] for it in jobs) >= count:
                return jobs
            if time.monotonic() > until:
                raise TimeoutError(f'{count} jobs have not ended: {jobs}')
            time.sleep(.02)

    def stream(self, number: str) -> bytes:
        """The stream of a job."""
        return (self.folder / f'{number}.bin').read_bytes()

    def end(self) -> None:
        if self.process.stdin:
            self.process.stdin.close()
        try:
            self.process.wait(PATIENCE)
        except subprocess.TimeoutExpired:
            self.process.kill()
            self.process.wait()
        if self.process.stderr:
            self.process.stderr.close()

    def __enter__(self) -> Running:
        return self

    def __exit__(self, kind: Optional[Type[BaseException]], error: Optional[BaseException],
                 trace: Optional[TracebackType]) -> None:
        self.end()
