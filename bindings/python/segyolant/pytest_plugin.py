"""Fixtures for pytest: `terminal`, `bus`, `implement` and `bench`, all in simulated time.

    # conftest.py
    pytest_plugins = ['segyolant.pytest_plugin']

    # test_my_implement.py
    def test_on(bench):
        bench.press('key_on')
        expect(bench.value('value_Rate') > 50, within=5)

`bench` has the implement of the fixture `implement`. That uploads the pool that the setting `segyolant_pool` of pytest.ini names; override
the fixture for an implement of your own. `segyolant_names` names the file of names. Where a test fails, the mask is written beside it as
SVG, and the report has the last frames in words.
"""
from __future__ import annotations

import re
from collections.abc import Generator, Iterator
from pathlib import Path
from typing import Any

import pytest

from .bench import Bench, Refused, Unmet
from .bus import Bus
from .implement import Implement
from .names import names_of
from .terminal import Terminal


def pytest_addoption(parser: pytest.Parser) -> None:
    """The settings of pytest.ini."""
    parser.addini('segyolant_pool', 'the object pool that the fixture `implement` uploads', default='')
    parser.addini('segyolant_names', 'the file with the names of the objects of the pool', default='')


@pytest.fixture
def terminal() -> Iterator[Terminal]:
    """A terminal at the address 26, with no sets."""
    with Terminal() as terminal:
        yield terminal


@pytest.fixture
def bus() -> Bus:
    """A bus of 250 kbit/s in simulated time."""
    return Bus()


@pytest.fixture
def names(pytestconfig: pytest.Config) -> dict[str, int]:
    """The IDs of objects by their names."""
    path = _file(pytestconfig, 'segyolant_names')
    return {} if path is None else names_of(path)


@pytest.fixture
def implement(pytestconfig: pytest.Config) -> Implement:
    """The implement of the bench, at the address 80."""
    path = _file(pytestconfig, 'segyolant_pool')
    if path is None:
        pytest.fail('no pool: set segyolant_pool in pytest.ini, or override the fixture `implement`', pytrace=False)
    return Implement(path.read_bytes())


@pytest.fixture
def bench(request: pytest.FixtureRequest, terminal: Terminal, bus: Bus, implement: Implement, names: dict[str, int]) -> Iterator[Bench]:
    """A bench with the terminal and the implement, whose pool is accepted."""
    bench = Bench(implement, terminal=terminal, bus=bus, names=names, place=_place(request.node))
    _picture(request.node).unlink(missing_ok=True)
    bench.start()
    yield bench
    bench.close()


@pytest.hookimpl(hookwrapper=True)
def pytest_runtest_makereport(item: pytest.Item, call: pytest.CallInfo[None]) -> Generator[None, Any, None]:
    """Adds the last frames and the picture of the mask to the report of a failed test, where its message does not have them.

    A test that passed leaves no picture, as of a refusal that it expected.
    """
    outcome = yield
    report = outcome.get_result()
    bench = getattr(item, 'funcargs', {}).get('bench')
    if call.when != 'call' or not isinstance(bench, Bench):
        return
    if report.passed:
        _picture(item).unlink(missing_ok=True)
    if not report.failed or call.excinfo is None:
        return
    if not call.excinfo.errisinstance((Unmet, Refused)):
        report.sections.append(('bench', bench.state()))


def _file(config: pytest.Config, setting: str) -> Path | None:
    """The file that a setting names, by a path from the folder of pytest.ini."""
    value = config.getini(setting)
    folder = config.inipath.parent if config.inipath is not None else config.rootpath
    return folder / value if value else None


def _place(item: pytest.Item) -> tuple[Path, str]:
    """Where the picture of a failed test is written: its folder, and a name made of those of the file and the test."""
    return item.path.parent, re.sub(r'[^\w.-]+', '-', f'{item.path.stem}.{item.name}')


def _picture(item: pytest.Item) -> Path:
    folder, stem = _place(item)
    return folder / f'{stem}.svg'
