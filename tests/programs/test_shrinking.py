"""`./judge --shrink` finds a small illegal record in an illegal one, which goes wrong at the same moment, and what it may leave out never
makes a legal record illegal.

The numbers of calls that are left were counted by hand: without any of them the record is legal, or another value has no source."""
import json
import subprocess
import time

import pytest
from hypothesis import given

from wumsnair_tools.judging import oracle
from wumsnair_tools.built import top
from wumsnair_tools.judging.leaving_out import Case
from recorded_calls import MAY_BE_PENDING, records as random_records
from running import SECONDS, program, records, run, tries
from wumsnair_tools.judging.shrinking import shrink, text_of, wrong_from

ILLEGAL = {name: path for name, path in records().items() if name.startswith("illegal")}
# The calls that are left of each record, by their numbers. Before a stale look the state may begin with the value that it has then.
LEFT = {
    "illegal_shared_first_leaves_unserved": [1, 2, 3],
    "illegal_shared_first_loses_its_place": [1, 2, 3],
    "illegal_shared_forgets_a_subscriber": [2, 3, 5],
    "illegal_shared_opposite_orders": [1, 2, 3, 4, 5, 7],
    "illegal_shared_returned_too_early": [1, 2],
    "illegal_state_goes_back": [1, 2, 3],
    "illegal_state_stale": [1, 2],
    "illegal_state_stale_among_looks": [2],
    "illegal_state_torn_exchange": [1, 2],
}
# How often a test tries the number of examples of the profile.
TIMES = 2
# The most parts of a record that are tried one by one.
MOST_PARTS = 40


def calls_of(text):
    return oracle.remedies.calls_of(text)


def judge(text, _seconds=None):
    came = run(program("flow_judge"), text=text)
    return came.status, came.printed.decode()


def bare(call):
    """What is left of a call if it becomes pending."""
    return {key: call.get(key) for key in ("by", "begin", "value")}


@pytest.mark.parametrize("name", ILLEGAL)
def test_small_record(name):
    """The command prints an illegal record, of calls of the one that it read, and says how many calls it has."""
    text = ILLEGAL[name].read_bytes()
    ran = subprocess.run(["./judge", "--shrink", ILLEGAL[name]], cwd=top, capture_output=True, timeout=SECONDS)
    whole, small = calls_of(text), calls_of(ran.stdout)
    assert ran.returncode == 1 and wrong_from(judge(ran.stdout)[1]) == wrong_from(judge(text)[1]) is not None
    assert ran.stderr.decode() == f"{len(small)} of {len(whole)} calls are left\n"
    assert [call for call in small if bare(call) not in map(bare, whole)] == []
    if name in LEFT:
        assert [bare(call) for call in small] == [bare(whole[number - 1]) for number in LEFT[name]]


def test_record_that_is_not_illegal():
    legal, refused = records()["legal_state_overlap"], records()["refused_unknown_call"]
    for path, status, said in ((legal, 0, "legal\n"), (refused, 2, refused.with_suffix(".told").read_text())):
        ran = subprocess.run(["./judge", "--shrink", path], cwd=top, capture_output=True, timeout=SECONDS, text=True)
        assert (ran.returncode, ran.stdout, ran.stderr) == (status, "", said)


def test_long_record():
    """A stale answer after 200 changes of other values is found in two calls."""
    changes = [{"by": "t1", "call": "set", "value": 10 + at, "begin": 2 * at, "end": 2 * at + 1, "answer": "done"} for at in range(200)]
    looks = [{"by": "t2", "call": "value", "begin": 2 * at + 1, "end": 2 * at + 2, "answer": {"value": 10 + at}} for at in range(199)]
    stale = {"by": "t3", "call": "value", "begin": 500, "end": 501, "answer": {"value": 0}}
    status, _, small = shrink(judge, text_of({"kind": "state", "initial": 0}, (*changes, *looks, stale)))
    assert status == 1 and len(calls_of(small)) == 2 and stale in calls_of(small)


def test_few_values():
    """Of two exchanges that both succeed from the same 0 those are left, and not an earlier one whose value another call gave."""
    own = [("set", 2, None), ("compare_and_set", 0, 2), ("compare_and_set", 1, 0), ("compare_and_set", 2, 1), ("set", 0, None)]
    calls = [{"by": "t1", "call": call, "value": value, "begin": 2 * at, "end": 2 * at + 1, "answer": True if call != "set" else "done"}
             | ({} if expect is None else {"expect": expect}) for at, (call, value, expect) in enumerate(own)]
    calls += [{"by": by, "call": "compare_and_set", "expect": 0, "value": 1, "begin": 10, "end": end, "answer": True}
              for by, end in (("t1", 11), ("t2", 12))]
    text = text_of({"kind": "state", "initial": 7}, calls)
    status, _, small = shrink(judge, text)
    assert status == 1 and wrong_from(judge(small)[1]) == wrong_from(judge(text)[1]) == 12


def done(by, call, begin, end, answer="done", **keys):
    return {"by": by, "call": call, **keys, "begin": begin, "end": end, "answer": answer}


def test_cancelled_emission():
    """An emission that is cancelled after the moment may have withdrawn its value before: wrong is the count, and not what r received."""
    flow = {"kind": "shared", "replay": 0, "extra": 0, "overflow": "suspend"}
    calls = [done("r", "subscribe", 0, 1), done("s", "subscribe", 0, 1), done("t1", "emit", 2, 20, "cancelled", value=3),
             done("s", "next", 5, 6, {"value": 3}), done("r", "next", 7, 8, "empty"), done("t3", "subscription_count", 14, 15, 7)]  # fmt: skip
    assert judge(text_of(flow, calls[:-1]))[0] == 0
    status, _, small = shrink(judge, text_of(flow, calls))
    assert status == 1 and wrong_from(judge(small)[1]) == 15 and calls[-1] in calls_of(small)


def test_small_record_of_another_conflict(monkeypatch):
    """If a smaller record is illegal from another moment on, it is not printed, whatever leaving_out.py leaves out."""
    calls = [done("t1", "set", 10, 20, value=3), done("t2", "value", 11, 12, {"value": 3}), done("t2", "value", 21, 30, {"value": 0})]
    text = text_of({"kind": "state", "initial": 0}, calls)
    early = Case({"kind": "state", "initial": 0}, (done("t2", "value", 11, 12, {"value": 3}),))
    monkeypatch.setattr(Case, "without", lambda case, places: early)
    monkeypatch.setattr(Case, "without_value", lambda case, value: early)
    status, _, small = shrink(judge, text)
    assert status == 1 and wrong_from(judge(small)[1]) == wrong_from(judge(text)[1]) == 30


def test_limit_of_time():
    """The first judging may take all of the time, and the search ends with it. The last judging has as long as the first one took."""
    limits = []

    def slow(text, seconds):
        limits.append(seconds)
        time.sleep(0.3)
        return judge(text)

    begin = time.monotonic()
    status, words, small = shrink(slow, ILLEGAL["illegal_state_torn_exchange"].read_bytes(), 1)
    assert status == 1 and words.endswith("the time was up, and --seconds sets more") and judge(small)[0] == 1
    assert limits[0] == 1 and max(limits[1:-1]) < 1 and time.monotonic() - begin < SECONDS
    stopped = subprocess.run(["./judge", "--shrink", "--seconds", "0.000001", ILLEGAL["illegal_state_stale"]], cwd=top, capture_output=True, text=True)
    assert (stopped.returncode, stopped.stdout, stopped.stderr) == (3, "", "gave up\n")


@pytest.mark.parametrize("kind", MAY_BE_PENDING)
def test_random_small_records(kind, request):
    """The small record of a random illegal one goes wrong at the same moment."""
    @tries(1, request.node.nodeid)
    @given(random_records(kind))
    def check(record):
        text = text_of(record.flow, record.calls)
        status, words = judge(text)
        if status == 1:
            _, _, small = shrink(judge, text)
            assert wrong_from(judge(small)[1]) == wrong_from(words), f"of\n{text.decode()}\nthis is left:\n{small.decode()}"

    check()


def smaller(case):
    """The records that a case may become."""
    moments = sorted({call[key] for call in case.calls for key in ("begin", "end") if key in call})
    yield from (case.cut(moment) for moment in moments[:: len(moments) // 8 + 1])
    parts = case.units()
    tried = [*(case.without(part) for part in parts[:MOST_PARTS]), case.without(set().union(*parts[: len(parts) // 2]))]
    tried += [case.without_value(value) for value in range(10)]
    yield from (each for each in tried if each is not None)


@pytest.mark.parametrize("kind", MAY_BE_PENDING)
def test_random_parts(kind, request):
    """A part that is left out of a legal record leaves a legal one, and so does another part of that one."""
    legal = []

    @tries(TIMES, request.node.nodeid)
    @given(random_records(kind))
    def check(record):
        case = Case(record.flow, tuple(record.calls))
        if judge(text_of(case.flow, case.calls))[0] != 0:
            return
        legal.append(case)
        for moment in case.quiet_moments():
            rests = [case.after(moment, value) for value in case.values()]
            statuses = [judge(text_of(rest.flow, rest.calls))[0] for rest in rests]
            assert {0, 3} & set(statuses), f"wanted: status 0 or 3 for a rest after {moment}; came: {statuses}\n{json.dumps(record.calls)}"
        for once in smaller(case):
            text = text_of(once.flow, once.calls + once.optional)
            status = judge(text)[0]
            assert status in (0, 3), f"wanted: status 0 or 3 for a part; came: {status}\n{json.dumps(record.calls)}\n{text.decode()}"

    check()
    assert legal, "wanted: a legal record among the random ones; came: none"
