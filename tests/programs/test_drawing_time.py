"""A script of 10,000 steps is drawn as SVG and as text, each in at most five times the processor time that it takes to play it."""
import json
import resource
import statistics

import pytest

from conftest import COMPILERS
from running import program, run

SLOWER_AT_MOST = 5
SHARED = {"kind": "shared", "replay": 2, "extra": 62, "overflow": "suspend"}


def long_script():
    """A script of 10,000 steps: emissions, subscribers that subscribe, read and unsubscribe, and lists that are read."""
    steps = [{"do": "subscribe", "name": "a"}]
    for at in range(1, 2000):
        name = f"b{at}"
        steps += [
            {"do": "try_emit", "value": at},
            {"do": "next", "name": "a"},
            {"do": "subscribe", "name": name},
            {"do": "next", "name": name},
            {"do": "unsubscribe", "name": name},
        ]
    steps += [{"do": "cache"}] * (10_000 - len(steps))
    return json.dumps({"version": 1, "flow": SHARED, "steps": steps}).encode()


def processor_seconds(*words, text):
    before = resource.getrusage(resource.RUSAGE_CHILDREN)
    assert run(*words, text=text).status == 0
    after = resource.getrusage(resource.RUSAGE_CHILDREN)
    return after.ru_utime + after.ru_stime - before.ru_utime - before.ru_stime


@pytest.mark.parametrize("form", ([], ["--text"]), ids=["svg", "text"])
@pytest.mark.parametrize("compiler", COMPILERS)
def test_long_script(compiler, form):
    """Both programs are those of one compiler. They run in turn, so that other work on the machine slows both."""
    script = long_script()
    player, drawer = (program(name + COMPILERS[compiler]) for name in ("flow_play", "flow_draw"))
    times = [(processor_seconds(player, text=script), processor_seconds(drawer, *form, text=script)) for _ in range(11)]
    assert statistics.median(drawing / playing for playing, drawing in times) <= SLOWER_AT_MOST
