"""Which accepted images no test compares any more: told at the end of a run of pytest, of test files that ran whole."""
from __future__ import annotations

import collections
import pathlib
from typing import Any, Counter, DefaultDict, Dict, List, Sequence, Set

import pytest

FOLDER = 'expected'


def folder_of(file: pathlib.Path) -> pathlib.Path:
    """Where the images of a test file's tests stand."""
    return file.parent / FOLDER / file.stem


class Orphans:
    """What a run compared, and of which test files it ran all tests."""

    def __init__(self) -> None:
        self.compared: DefaultDict[pathlib.Path, Set[str]] = collections.defaultdict(set)
        self.files: Dict[str, pathlib.Path] = {}
        self.collected: Counter[pathlib.Path] = collections.Counter()
        self.passed: Counter[pathlib.Path] = collections.Counter()
        self.partial: Set[pathlib.Path] = set()

    def pytest_deselected(self, items: Sequence[pytest.Item]) -> None:
        self.partial.update(it.path for it in items)

    def pytest_collection_finish(self, session: pytest.Session) -> None:
        words = [it.partition('::') for it in session.config.args]
        self.partial.update((session.config.invocation_params.dir / file).resolve() for file, of, _ in words if of)
        self.files = {it.nodeid: it.path for it in session.items}
        self.collected.update(self.files.values())

    def pytest_runtest_logreport(self, report: pytest.TestReport) -> None:
        # (another plugin may report what wasn't collected)
        if report.when == 'call' and report.passed and report.nodeid in self.files:
            self.passed[self.files[report.nodeid]] += 1

    def found(self) -> List[pathlib.Path]:
        """The images, and folders of them, that no test compares."""
        files = {it for it, count in self.collected.items() if count == self.passed[it] and it not in self.partial}
        alone = [image for file in files for image in folder_of(file).glob('*.pbm')
                 if image.stem not in self.compared[folder_of(file)]]
        folders = {folder_of(it).parent for it in files}
        lost = [it for folder in folders if folder.is_dir() for it in folder.iterdir()
                if it.is_dir() and any(it.glob('*.pbm')) and not (folder.parent / f'{it.name}.py').exists()]
        return sorted(alone + lost)

    def pytest_terminal_summary(self, terminalreporter: Any) -> None:
        for path in self.found():
            terminalreporter.write_line(f'vp_golden: no test compares {path} any more')
