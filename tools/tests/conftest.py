"""What the tests of the commands share. They need no toolchain and nothing that was built."""
import importlib.machinery
import importlib.util
import pathlib
import sys

import pytest

sys.dont_write_bytecode = True
TOP = pathlib.Path(__file__).resolve().parents[2]
sys.path.insert(0, str(TOP / "tools"))


def module_of(command):
    """The module of a command of tools/."""
    loader = importlib.machinery.SourceFileLoader(command, str(TOP / "tools" / command))
    module = importlib.util.module_from_spec(importlib.util.spec_from_loader(command, loader))
    sys.modules[command] = module
    loader.exec_module(module)
    return module


@pytest.fixture
def gate():
    return module_of("gate")


@pytest.fixture
def refused():
    return module_of("refused")
