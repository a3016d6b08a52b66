"""The bench of the sprayer: python3 -m pytest examples/sprayer_bench"""
import sys
from pathlib import Path

import pytest

sys.path.insert(0, str(Path(__file__).resolve().parents[2] / 'bindings' / 'python'))

from segyolant.names import names_of  # noqa: E402
from segyolant.sprayer import NAMES, Sprayer, sprayer_file  # noqa: E402

pytest_plugins = ['segyolant.pytest_plugin']


@pytest.fixture
def names():
    return {**names_of(sprayer_file('h')), **NAMES}


@pytest.fixture
def implement():
    return Sprayer()
