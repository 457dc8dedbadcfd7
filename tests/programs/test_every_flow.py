"""Each script prints the same lines over every kind of flow: `flow_play_over` plays it by the calls of flows for one thread, of handles
in threads, of futures, and of flows of words, which have no lock or are read without one.

The scripts are those of examples/ and of tests/cases/, whose lines were typed by hand, also with each request for memory or for a thread
refused in turn; and random ones, whose lines `flow_play` prints. `tools/programs -k every_flow --hypothesis-profile=search` tries other and
more of these. docs/SCRIPTS.md says what a way does not have."""
import json

import pytest
from hypothesis import given

from refusing import is_told, prints, refuse_each
from running import difference, ended, expect, program, run, tries
from scripts_strategy import scripts
from ways import LACKING, NO_CALL, NO_KEY, WAYS, lines_over, lines_over_all, plays
from worked_scripts import PLAYED, REFUSED, worked_scripts

WORKED = worked_scripts()
# How often a test tries the number of examples of the profile.
TIMES = 40


@pytest.mark.parametrize("name", WORKED)
def test_lines(flow_play_over, name):
    worked = WORKED[name]
    wanted = {way: lines_over(way, worked) for way in WAYS}
    wanted["all"] = lines_over_all(worked.text, worked.lines, worked.status)
    for way, lines in wanted.items():
        came = run(flow_play_over, way, text=worked.text.encode())
        expect(came, ended(worked.status, *lines), f"{way}: {worked.text}")


def played():
    """The worked scripts that are played, each with the ways in which it makes calls of threads."""
    for name, worked in WORKED.items():
        if worked.status == PLAYED:
            script = json.loads(worked.text)
            for way in WAYS[1:]:
                if plays(way, script):
                    yield pytest.param(worked, way, id=f"{name}_{way}")


@pytest.mark.parametrize("worked, way", played())
def test_refusals(shim, flow_play_over, worked, way):
    is_right = prints(worked.status, lines_over(way, worked))
    refuse_each(shim, flow_play_over, [way], worked.text.encode(), is_right, is_told)


@pytest.mark.parametrize("version", (1, 2))
def test_random_scripts(flow_play_over, version, request):
    first, statuses, lacking = program("flow_play"), set(), set()

    @tries(TIMES, request.node.nodeid)
    @given(scripts(version))
    def play(script):
        text = json.dumps(script)
        told = run(first, text=text.encode())
        wanted = ended(told.status, *lines_over_all(text, told.printed.decode().splitlines(), told.status))
        came = run(flow_play_over, "all", text=text.encode())
        statuses.add(told.status)
        lacking.update(wanted.printed.decode().partition(NO_CALL)[2].strip().split(", "))
        assert came == wanted, f"{text}\n{difference(came, wanted)}"

    play()
    # Version 1 has no first values of a subscriber.
    lacked = {"", *LACKING} - ({NO_KEY} if version == 1 else set())
    assert (statuses, lacking) == ({PLAYED, REFUSED}, lacked)
