"""Runs programs, and compares how they ended with what is wanted."""
import difflib
import functools
import itertools
import re
import subprocess
from typing import NamedTuple

import pytest
from hypothesis import seed, settings

from wumsnair_tools.built import programs, top

# The most seconds that a run may take, and the most that is shown of a difference.
SECONDS = 60
LINES, COLUMNS = 60, 200


class Outcome(NamedTuple):
    """How a program ended: its status, and what it printed on standard output and on standard error."""

    status: int
    printed: bytes
    said: bytes = b""


@functools.cache
def program(name):
    """A program that `rt ci` built last; its name ends in `.by-rattle` if it is the one by Rattle's own compiler."""
    found = programs(name.removesuffix(".by-rattle"))
    return next((each for each in found if each.name == name), None) or pytest.skip(f"{name} is not built; `rt ci` builds it")


def run(*words, text=b"", **how):
    """Runs a program on a text. The words are the program and its arguments."""
    ran = subprocess.run(words, input=text, capture_output=True, timeout=SECONDS, **how)
    return Outcome(ran.returncode, ran.stdout, ran.stderr)


def ended(status, *lines, said=""):
    """The outcome of a program that prints these lines."""
    return Outcome(status, "".join(f"{line}\n" for line in lines).encode(), said.encode())


def lines_of_outcome(outcome):
    """An outcome in lines that can be compared and printed."""
    printed, said = (part.decode(errors="backslashreplace").split("\n") for part in outcome[1:])
    return [*printed, f"status {outcome.status}", *(f"standard error: {line}" for line in said if line)]


def difference(came, wanted):
    """The lines in which two outcomes differ, the first of them only."""
    lines = difflib.unified_diff(lines_of_outcome(wanted), lines_of_outcome(came), "wanted", "came", lineterm="")
    return "\n".join(line[:COLUMNS] for line in itertools.islice(lines, LINES)) or f"wanted {wanted!r:.400}\ncame {came!r:.400}"


def expect(came, wanted, about=""):
    """Fails, with the lines that differ, unless a program ended as is wanted."""
    if came != wanted:
        pytest.fail(f"{about}\n{difference(came, wanted)}".lstrip(), pytrace=False)


def tries(times, nodeid):
    """Decorates a function with `given`, so that it tries a multiple of the profile's examples: in the CI run the same ones each time,
    others for each test."""
    count = settings(max_examples=times * settings().max_examples)
    return lambda function: seed(nodeid)(count(function)) if count.derandomize else count(function)


def case_id(*words):
    """The name of a test, of letters, digits and underscores, so that `-k` can pick it."""
    return re.sub(r"\W+", "_", " ".join(map(str, words)), flags=re.ASCII).strip("_")[:90]


def examples():
    """The scripts of examples/, by their names."""
    return {path.stem: path for path in sorted((top / "examples").glob("*.json"))}


def records():
    """The records of examples/records, by their names."""
    return {path.stem: path for path in sorted((top / "examples" / "records").glob("*.json*"))}
