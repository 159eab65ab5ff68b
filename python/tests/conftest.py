import os

import pytest

ROOT = os.path.dirname(os.path.dirname(os.path.dirname(os.path.abspath(__file__))))
os.environ.setdefault("GA144", os.path.join(ROOT, "out", "ga144"))
pytest_plugins = ["pytester"]


@pytest.fixture
def examples():
    """The folder of programs with expectations."""
    return os.path.join(ROOT, "examples", "expect")
