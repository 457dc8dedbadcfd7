"""The judge and a plain search through all orders give random small records the same verdict, and errors that were planted are found.

The plain search is plain_flows.py; it gives the records of worked_records.py their verdicts. `tools/programs -k random_records --hypothesis-profile=search` tries other and more records."""
import json

import pytest
from hypothesis import given

from broken_flows import Forgetful, Losing, Reordering, ShortReplay, Torn
from plain_flows import is_explained
from recorded_calls import MAY_BE_CANCELLED, MAY_BE_PENDING, records, records_of_broken
from running import Outcome, case_id, run, tries
from worked_records import worked_records

VERDICTS = {True: Outcome(0, b"legal"), False: Outcome(1, b"illegal")}
# How often a test tries the number of examples of the profile.
RIGHT, BROKEN = 25, 1
# The flows with an error, and the room of each; a state flow has none.
PLANTED = {Torn: None, Forgetful: 2, Reordering: 2, ShortReplay: 2, Losing: 0}
WORKED = worked_records()


def check(flow_judge, strategy, times, nodeid):
    """Has the judge and the search judge records. Returns for each whether it is legal, and its pending and its cancelled calls."""
    tried = []

    @tries(times, nodeid)
    @given(strategy)
    def judge(record):
        is_legal = is_explained(record.flow, record.calls)
        came = run(flow_judge, text=record.text().encode())
        verdict = Outcome(came.status, came.printed.partition(b"\n")[0], came.said)
        pending = {call["call"] for call in record.calls if "end" not in call}
        cancelled = {call["call"] for call in record.calls if call.get("answer") == "cancelled"}
        tried.append((is_legal, pending, cancelled))
        assert verdict == VERDICTS[is_legal], record.text()

    judge()
    return tried


@pytest.mark.parametrize("kind", MAY_BE_PENDING)
def test_random_records(flow_judge, kind, request):
    tried = check(flow_judge, records(kind), RIGHT, request.node.nodeid)
    verdicts, pending, cancelled = zip(*tried)
    legal, fifth = sum(verdicts), len(tried) // 5
    assert fifth < legal < len(tried) - fifth, f"wanted: more than {fifth} legal records and more than {fifth} illegal ones; came: {legal} legal of {len(tried)}"
    never = MAY_BE_PENDING[kind] - set().union(*pending)
    assert never == set(), f"wanted: each call is pending in some record; came: never {never}"
    assert set().union(*cancelled) == MAY_BE_CANCELLED[kind]


@pytest.mark.parametrize("what", WORKED, ids=case_id)
def test_worked_record(what):
    text, moment = WORKED[what]
    record = json.loads(text)
    assert is_explained(record["flow"], record["calls"]) == (moment is None)


@pytest.mark.parametrize("broken", PLANTED, ids=lambda broken: broken.__name__)
def test_planted_error(flow_judge, broken, request):
    tried = check(flow_judge, records_of_broken(broken, PLANTED[broken]), BROKEN, request.node.nodeid)
    illegal = sum(not is_legal for is_legal, *_ in tried)
    assert illegal, f"wanted: an illegal record of the flow with an error; came: {len(tried)} legal ones"
