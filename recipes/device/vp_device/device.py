"""A printer as it is now: its state, what it has printed, what changes it, and who is told."""
from __future__ import annotations

import collections
import contextlib
import os
import threading
import time
from typing import Any, Callable, Deque, Dict, List, Optional, Tuple

from . import script
from .state import State, changed_by

# Paper of fewer rows than these is near its end: five centimetres.
NEAR = 400
# How many events are kept for who asks late.
MOST_EVENTS = 500
# How often a file of the state is looked at.
LOOK = .1
MOST_FILE = 1 << 16


class Device:
    """One printer, which all its tills and threads share."""

    def __init__(self, state: State = State(), steps: Optional[script.Script] = None) -> None:
        self.changes = threading.Condition()
        self.state = state
        self.counts: Dict[str, float] = {'row': 0, 'job': 0, 'byte': 0}
        self.script, self.step = steps or script.Script([]), 0
        self.since = self._now()
        self.listeners: List[Callable[[State], None]] = []
        self.events: Deque[Tuple[int, Dict[str, Any]]] = collections.deque(maxlen=MOST_EVENTS)
        self.told = 0
        self.is_over = False
        threading.Thread(target=self._run, daemon=True).start()

    def _now(self) -> Dict[str, float]:
        return {**self.counts, 's': time.monotonic()}

    def tell(self, **event: Any) -> None:
        """Has who follows hear of something."""
        with self.changes:
            self.told += 1
            self.events.append((self.told, event))
            self.changes.notify_all()

    def set(self, words: str) -> None:
        """Changes the state by words. What is no state raises ValueError."""
        with self.changes:
            self._become(changed_by(self.state, words))

    def follow(self, steps: script.Script) -> None:
        """Begins with a script."""
        with self.changes:
            self.script, self.step, self.since = steps, 0, self._now()
            self._due()
            self.changes.notify_all()

    def _become(self, state: State) -> None:
        if state == self.state:
            return
        was, self.state = self.state, state
        self.changes.notify_all()
        for listener in list(self.listeners):
            listener(state)
        if was._replace(rows=None) != state._replace(rows=None):
            self.tell(kind='state', **state.json())

    def _due(self) -> Optional[float]:
        """Does the steps that are due, and says in how many seconds the next one is."""
        for _ in range(1000):
            step = self.script.step(self.step)
            if not step:
                return None
            left = step.amount - (self._now()[step.of] - self.since[step.of])
            if left > 0:
                return left if step.of == 's' else None
            self.step += 1
            self.since = self._now()
            self._become(changed_by(self.state, step.words))
        return LOOK

    def _run(self) -> None:
        with self.changes:
            while not self.is_over:
                self.changes.wait(self._due())

    def count(self, of: str, number: int = 1) -> None:
        """Counts rows, jobs or bytes, and does what is due then."""
        with self.changes:
            self.counts[of] += number
            rows = self.state.rows
            if of == 'row' and rows is not None:
                rows = max(0, rows - number)
                paper = 'out' if not rows else 'near end' if rows < NEAR else self.state.paper
                self._become(self.state._replace(rows=rows, paper=paper))
            self._due()
            # (a step that waits for seconds may begin here)
            self.changes.notify_all()

    def wait(self, is_given_up: Callable[[], bool]) -> bool:
        """Waits until it can print. False where that was given up."""
        with self.changes:
            while self.state.stops and not is_given_up():
                self.changes.wait(1)
            return not is_given_up()

    def end(self) -> None:
        with self.changes:
            self.is_over = True
            self.changes.notify_all()


def seen(name: str) -> Optional[Tuple[int, int, int]]:
    """In what a change of a file shows; None where it isn't there."""
    try:
        it = os.stat(name)
    except OSError:
        return None
    return it.st_mtime_ns, it.st_size, it.st_ino


def read_file(device: Device, name: str) -> None:
    """Sets the state by a file, where it is there: its words, a line each or with commas, are all that isn't ready."""
    with contextlib.suppress(FileNotFoundError), open(name, 'rb') as file:
        text = file.read(MOST_FILE).decode('utf-8', 'replace')
        device.set(','.join(['ready', *text.splitlines()]))


def follow(device: Device, name: str, complain: Callable[[str], None]) -> None:
    """Has a file set the state whenever it changes, in a thread of its own."""
    def look() -> None:
        last = None
        while not device.is_over:
            now = seen(name)
            if now and now != last:
                try:
                    read_file(device, name)
                except (OSError, ValueError) as error:
                    complain(f'{name}: {error}')
            last = now
            time.sleep(LOOK)

    threading.Thread(target=look, daemon=True).start()
