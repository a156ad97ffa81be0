"""What is kept elsewhere too: a shell's command that is run behind jobs, with their files as its words."""
from __future__ import annotations

import os
import threading
from typing import Any, List, Tuple

from . import tools
from .store import Store

# How long it waits before each try, in seconds: a store may be away for a moment.
TRIES = 0, 1, 5
MOST_SECONDS = 300
# How many files are stored by one run of the command, but for one job's that has more, and how many jobs may wait.
MOST_AT_ONCE, MOST_WAITING = 500, 10_000


class Storing:
    """Jobs are stored while others are printed: those at once that have ended meanwhile."""

    def __init__(self, store: Store, command: str) -> None:
        self.store, self.command = store, command
        self.changes = threading.Condition()
        self.waiting: List[Tuple[str, List[str]]] = []
        self.is_over = False
        threading.Thread(target=self.run, daemon=True).start()

    def put(self, number: str, names: List[str]) -> None:
        """Has a job be stored: its stream, and its images by name."""
        with self.changes:
            has_room = len(self.waiting) < MOST_WAITING
            if has_room:
                self.waiting.append((number, [f'{number}.bin', *names]))
                self.changes.notify_all()
        if not has_room:
            self.store.say(number, f'not stored: {MOST_WAITING:,} jobs wait')

    def run(self) -> None:
        while True:
            with self.changes:
                self.changes.wait_for(lambda: self.waiting or self.is_over)
                jobs = self.first()
            wrong = self.stored([name for _, names in jobs for name in names])
            with self.changes:
                if self.is_over:
                    return
                del self.waiting[:len(jobs)]
            for number, _ in jobs if wrong else ():
                self.store.say(number, f'not stored: {wrong}')

    def first(self) -> List[Tuple[str, List[str]]]:
        """The jobs that are stored next."""
        jobs, files = self.waiting[:1], 0
        for job in self.waiting[1:MOST_AT_ONCE]:
            files += len(job[1])
            if len(jobs[0][1]) + files > MOST_AT_ONCE:
                break
            jobs.append(job)
        return jobs

    def stored(self, names: List[str]) -> str:
        """Stores files, and says what is wrong where that fails each time."""
        wrong = ''
        for seconds in TRIES:
            with self.changes:
                if self.changes.wait_for(lambda: self.is_over, seconds):
                    return ''
            try:
                wrong = self.tried(names)
            except tools.program.Fault as fault:
                wrong = str(fault)
            except OSError as error:
                # as on a full disk
                wrong = error.strerror or str(error)
            if not wrong:
                break
        return wrong

    def tried(self, names: List[str]) -> str:
        words = ['/bin/sh', '-c', self.command, 'sh', *(str(self.store.folder / it) for it in names)]
        own: Any = tools.bounds.FILES._replace(seconds=MOST_SECONDS)
        with open(os.devnull, 'rb') as nothing, tools.bounds.Run(words, nothing, own, is_paper=False) as run:
            for _ in run:
                pass
        if run.reached:
            return str(run.reached.what())
        last = tools.program.text_of(run.said).strip().rpartition('\n')[2]
        return f'status {run.status}{last and ": " + last}' if run.status else ''

    def end(self, why: str) -> None:
        """Ends at once. What waits stays in the folder, and is told."""
        with self.changes:
            self.is_over = True
            self.changes.notify_all()
        for number, _ in self.waiting:
            self.store.say(number, f'not stored: ended by {why} before')
