"""Runs a program with each request for memory or for a thread refused in turn, by refuse.c."""
import io
import pathlib
import subprocess
import tempfile

import pytest

from running import difference, ended, Outcome

OUT_OF_MEMORY = ended(4, "out of memory")


def build_shim(folder):
    """Builds refuse.c."""
    shim = folder / "refuse.so"
    subprocess.run(["cc", "-shared", "-fPIC", "-O1", "-o", shim, pathlib.Path(__file__).with_name("refuse.c")], check=True)
    return shim


def runs(shim, program, words, text):
    """The outcome of each run, and whether the request of its number was made and refused. In the first run, which has the number 0,
    nothing is refused; in the last one no request is left to be refused. What is printed on standard error is not kept."""
    with tempfile.TemporaryFile() as given:
        given.write(text)
        given.seek(0)
        # The loader splits this name at spaces and colons, so it has none.
        where = {"cwd": shim.parent, "env": {"LD_PRELOAD": f"./{shim.name}"}}
        ran = subprocess.run([program, *words], stdin=given, stdout=subprocess.PIPE, check=True, **where)
    told = io.BytesIO(ran.stdout)
    for line in iter(told.readline, b""):
        status, is_refused, length = map(int, line.split())
        yield Outcome(status, told.read(length)), bool(is_refused)


def prints(status, lines):
    """Whether a run ended with this status, and printed these lines."""
    return lambda came: came.status == status and came.printed.decode().splitlines() == lines


def is_told(came, wanted):
    """Whether a run with a refused request says so, and nothing else."""
    return came == OUT_OF_MEMORY


def refuse_each(shim, program, words, text, is_right, is_told):
    """Fails unless each run with a refused request has the outcome of the run without one, or says that it was refused.

    `is_right` takes the outcome of the run without a refusal; `is_told` takes the outcome of a run with a refusal, and that outcome."""
    (wanted, _), *tried = runs(shim, program, words, text)
    if not is_right(wanted):
        pytest.fail(f"nothing refused: {wanted!r:.400}", pytrace=False)
    for number, (came, is_refused) in enumerate(tried, 1):
        if came != wanted and not (is_refused and is_told(came, wanted)):
            pytest.fail(f"request {number} refused:\n{difference(came, wanted)}", pytrace=False)
    assert len(tried) > 1, "nothing could be refused"
