"""A fixture of pytest: vp_device is a printer that answers, of the test's own.

In conftest.py: pytest_plugins = ["vp_device_fixture"], with recipes/device in PYTHONPATH. A mark has its words:
@pytest.mark.vp_device('--busy', 'xoff').
"""
from __future__ import annotations

import pathlib
import sys
from typing import Iterator

import pytest

sys.path.insert(0, str(pathlib.Path(__file__).resolve().parent))
from vp_device.running import Running  # noqa: E402


def pytest_configure(config: pytest.Config) -> None:
    config.addinivalue_line('markers', 'vp_device(*words): the words of the printer that vp_device is')


@pytest.fixture
def vp_device(request: pytest.FixtureRequest, tmp_path: pathlib.Path) -> Iterator[Running]:
    """A printer that answers, on free ports, which goes with the test."""
    mark = request.node.get_closest_marker('vp_device')
    with Running(tmp_path / 'vp_device', *(mark.args if mark else ())) as printer:
        yield printer
