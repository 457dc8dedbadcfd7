"""The first commands in a fresh clone, of the files of the index, where nothing is built.

If Node is there, wumsnair.mjs prints the lines. If it is not, ./play builds its program without a proof, which takes about a minute of
processor time, and shows at a terminal what it builds and how many seconds have passed. The other commands build in the same way
(tools/tests/test_failing_commands.py)."""
import os
import pty
import re
import shutil
import subprocess
import sys

import pytest

from wumsnair_tools.built import top
from running import SECONDS

# What ./judge says of the way that it takes.
WAYS = {"./judge": "wumsnair.mjs judges: no proved program is as new as the code\n"}
# The most seconds that the build may take.
LONG = 1800
REPLAY = "examples/replay.json"
PRINTED = {
    f"./play {REPLAY}": "examples/replay.lines",
    f"./draw {REPLAY}": "docs/pictures/replay.svg",
    "./judge examples/records/illegal_state_stale.json": "examples/records/illegal_state_stale.told",
}
# The commands that the build of a program needs, apart from Python.
TOOLS = ("rt", "sh", "cp")


@pytest.fixture(scope="module")
def clone(tmp_path_factory):
    folder = tmp_path_factory.mktemp("clone")
    subprocess.run(["git", "checkout-index", "--all", f"--prefix={folder}/"], cwd=top, check=True)
    return folder


@pytest.mark.parametrize("words", PRINTED)
def test_with_node(clone, words):
    ran = subprocess.run(words.split(), cwd=clone, stdin=subprocess.DEVNULL, capture_output=True, text=True, timeout=SECONDS)
    assert (ran.stdout, ran.stderr) == ((top / PRINTED[words]).read_text(), WAYS.get(words.split()[0], ""))


@pytest.fixture
def without_node(tmp_path):
    """An environment with the commands that a build needs, and no other ones."""
    for name, file in (("python3", sys.executable), *((tool, shutil.which(tool)) for tool in TOOLS)):
        (tmp_path / name).symlink_to(file)
    return {**os.environ, "PATH": str(tmp_path)}


def read(terminal):
    """What was written to the other end of a terminal, or nothing once that end is closed."""
    try:
        return os.read(terminal, 10_000)
    except OSError:
        return b""


def at_terminal(words, printed, **how):
    """Runs a command whose standard error is a terminal. Returns its status, and what it says there."""
    terminal, end = pty.openpty()
    with open(printed, "wb") as output:
        process = subprocess.Popen(words.split(), stdin=subprocess.DEVNULL, stdout=output, stderr=end, **how)
    os.close(end)
    said = b"".join(iter(lambda: read(terminal), b"")).decode()
    os.close(terminal)
    return process.wait(LONG), said


def test_without_node(clone, without_node, tmp_path):
    """The program is built once, and nothing else is left of the build."""
    words, printed = f"./play {REPLAY}", tmp_path / "printed"
    for is_first in (True, False):
        status, said = at_terminal(words, printed, cwd=clone, env=without_node)
        assert (status, printed.read_text()) == (0, (top / PRINTED[words]).read_text()), said
        assert is_first == said.startswith("building flow_play without a proof, which takes one to three minutes; ")
        assert is_first == bool(re.search(r"\r *\d+ s ", said)), said
    assert [file.relative_to(clone).as_posix() for file in clone.glob("crates/*/out/*")] == ["crates/flow_play/out/flow_play.unproved"]
