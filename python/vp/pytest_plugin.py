"""Fixtures of pytest: printers, and paper that is compared with what was accepted."""
from __future__ import annotations

import os
import pathlib
from typing import Callable, Optional, Set

import pytest

from . import golden, orphans
from .paper import Paper
from .printers import Label, Receipt


# The name by which pytest has the plugin that tells what no test compares.
ORPHANS = 'vp_orphans'


def pytest_addoption(parser: pytest.Parser) -> None:
    group = parser.getgroup('vp')
    group.addoption('--vp-accept', action='store_true', help='take over what is printed now as what is expected')
    group.addoption('--vp-accept-incomplete', action='store_true',
                    help='take over also what ends in a fault, or of which something is skipped')


def pytest_configure(config: pytest.Config) -> None:
    if accepts(config) and os.environ.get('CI', '') not in ('', '0', 'false'):
        raise pytest.UsageError('--vp-accept is for where you work: CI is set, and there nothing is accepted')
    # (where other processes run the tests, none knows them all)
    if not config.getoption('numprocesses', None) and not hasattr(config, 'workerinput'):
        config.pluginmanager.register(orphans.Orphans(), ORPHANS)


def accepts(config: pytest.Config) -> bool:
    """Whether what is printed is to be taken over."""
    return bool(config.getoption('--vp-accept') or config.getoption('--vp-accept-incomplete'))


@pytest.fixture(scope='session')
def vp_receipt() -> Receipt:
    """A receipt printer with the shipped sheets. A fixture of this name in conftest.py is another one."""
    return Receipt()


@pytest.fixture(scope='session')
def vp_label() -> Label:
    """A label printer with the shipped sheet. A fixture of this name in conftest.py is another one."""
    return Label()


@pytest.fixture
def vp_golden(request: pytest.FixtureRequest, tmp_path: pathlib.Path) -> Callable[..., None]:
    """Compares a paper with what was accepted, which stands below expected/ beside the test, by the name of the test;
    each further paper of a test has a name of its own. With --vp-accept it is taken over, and what ends in a fault or
    has commands that are skipped with --vp-accept-incomplete."""
    folder = orphans.folder_of(request.path)
    test = '.'.join(request.node.nodeid.split('::')[1:])
    taken: Set[str] = set()
    known: Optional[orphans.Orphans] = request.config.pluginmanager.get_plugin(ORPHANS)

    def check(paper: Paper, name: Optional[str] = None) -> None:
        own = golden.file_name(test if name is None else f'{test}.{name}')
        if own in taken:
            raise ValueError(f'{own} is compared already: a second paper has a name, as vp_golden(paper, "second")')
        taken.add(own)
        if known is not None:
            known.compared[folder].add(own)
        if accepts(request.config):
            try:
                golden.accept(paper, folder, own, request.config.getoption('--vp-accept-incomplete'))
            except golden.Incomplete as why:
                pytest.fail(f'{own}: not accepted: {why}; --vp-accept-incomplete takes it over', pytrace=False)
            return
        said = golden.difference(paper, folder, own, tmp_path / f'{own}.png')
        if said:
            pytest.fail(f'{own}: {said}; --vp-accept takes over what is printed now', pytrace=False)

    return check
