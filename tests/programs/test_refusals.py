"""The programs with one request for memory or for a thread refused, each in turn.

The player plays each script of examples/ and of tests/cases/, the drawer draws those of examples/ as SVG, as text and with their rules, and
a crowd and a count of threads, `flow_stress` with crowds and without, and `use_flows` are run: with the first request refused, then
with the second one, and so on, until a run makes no further request. Each run must print what it prints without a refusal, or only
`out of memory`, with status 4; in place of the latter `use_flows` prints the beginning of its lines, with status 1."""
import pytest

from refusing import is_told, prints, refuse_each
from running import examples
from worked_scripts import worked_scripts

WORKED = worked_scripts()
# The status of a program that ends with an error of its own.
FAILED = 1
# The statuses if a script was played or drawn, or was refused.
PLAYED = (0, 2)
# What threads print, which does not depend on their schedule.
THREADS = {
    "crowd": (["crowd", "2", "2", "100"], ["subscriber 1 got 200 in order", "subscriber 2 got 200 in order", "emitted 200"]),
    "count": (["count", "2", "20"], ["value 40"]),
}
STRESS = {"flows": ["1", "4", "40"], "crowd": ["--crowd", "1", "2", "3", "1", "20"], "word_crowd": ["--word-crowd", "1", "2", "3", "20", "20"]}
DRAWN = {"svg": [], "text": ["--text"], "explain": ["--explain"]}


def is_cut(came, wanted):
    return came.status == FAILED and wanted.printed.startswith(came.printed)


@pytest.mark.parametrize("name", WORKED)
def test_play(shim, flow_play, name):
    worked = WORKED[name]
    refuse_each(shim, flow_play, [], worked.text.encode(), prints(worked.status, worked.lines), is_told)


@pytest.mark.parametrize("words, lines", THREADS.values(), ids=THREADS)
def test_threads(shim, flow_play, words, lines):
    refuse_each(shim, flow_play, words, b"", prints(0, lines), is_told)


@pytest.mark.parametrize("words", DRAWN.values(), ids=DRAWN)
@pytest.mark.parametrize("name", examples())
def test_draw(shim, flow_draw, name, words):
    refuse_each(shim, flow_draw, words, examples()[name].read_bytes(), lambda came: came.status in PLAYED, is_told)


@pytest.mark.parametrize("words", STRESS.values(), ids=STRESS)
def test_stress(shim, flow_stress, words):
    refuse_each(shim, flow_stress, words, b"", lambda came: came.status == 0, is_told)


def test_use(shim, use_flows):
    refuse_each(shim, use_flows, [], b"", lambda came: came.status == 0, is_cut)
