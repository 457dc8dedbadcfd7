"""What the tests of the built programs share: the programs, the shim that refuses memory, and the options of tools/programs."""
import fcntl
import pathlib
import subprocess
import sys

import hypothesis
import pytest

top = pathlib.Path(__file__).resolve().parents[2]
sys.path.insert(0, str(top / "tools"))
from wumsnair_tools.built import sources
from refusing import build_shim
from running import program

# The ends of the names of the programs that `rt ci` builds by each of its two compilers.
COMPILERS = {"by_llvm": "", "by_rattle": ".by-rattle"}
# The CI run tries the same examples each time; `--hypothesis-profile=search` tries ten times as many, and others each time. Tests take
# a multiple of `max_examples`.
STEADY = {"deadline": None, "database": None, "print_blob": False, "report_multiple_bugs": False}
UNEXPLAINED = tuple(phase for phase in hypothesis.Phase if phase is not hypothesis.Phase.explain)
hypothesis.settings.register_profile("gate", max_examples=50, derandomize=True, phases=UNEXPLAINED, **STEADY)
hypothesis.settings.register_profile("search", max_examples=500, phases=UNEXPLAINED, **STEADY)
hypothesis.settings.load_profile("gate")


def pytest_addoption(parser):
    parser.addoption("--page", help="the folder in which page/build put the page; without it page/out")


def pytest_collection_modifyitems(items):
    """Spreads the tests that take longest over the first half, since a process takes many tests at a time that follow each other."""
    random = [item for item in items if item.name.startswith("test_random")]
    items[:] = [item for item in items if item not in random]
    for number, item in enumerate(random):
        items.insert(number * (len(items) // 2) // len(random), item)


def program_fixture(name):
    """A fixture that gives a program by each of the compilers in turn."""

    @pytest.fixture(params=COMPILERS, name=name)
    def by_each_compiler(request):
        return program(name + COMPILERS[request.param])

    return by_each_compiler


flow_play = program_fixture("flow_play")
flow_play_over = program_fixture("flow_play_over")
flow_draw = program_fixture("flow_draw")
flow_judge = program_fixture("flow_judge")
flow_stress = program_fixture("flow_stress")
use_flows = program_fixture("use_flows")


@pytest.fixture(scope="session")
def shim(tmp_path_factory):
    """The library that refuses requests for memory."""
    return build_shim(tmp_path_factory.mktemp("shim"))


def newest(files):
    return max((file.stat().st_mtime for file in files if file.is_file()), default=0)


@pytest.fixture(scope="session")
def page(request):
    """The folder with the page, the command for Node, the library and the module, as new as the code."""
    folder = pathlib.Path(request.config.getoption("--page") or top / "page" / "out")
    parts = [file for part in ("command", "library", "make", "web") for file in (top / "page" / part).iterdir()]
    with open(top / "page" / "build") as lock:
        # One process builds them, and the other ones wait.
        fcntl.flock(lock, fcntl.LOCK_EX)
        if newest([folder / "wumsnair.html"]) < newest([*sources("flow_calls"), *parts]):
            subprocess.run([top / "page" / "build", folder], check=True)
    return folder
