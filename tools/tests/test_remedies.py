"""What ./judge and wumsnair.mjs say about a record is the same, and is what page/command/remedies.json says.

The words of the verdicts are those that the program prints. tests/programs/test_verdicts.py asks ./judge about such records."""
import json
import subprocess

import pytest

from conftest import TOP
from wumsnair_tools.judging import oracle, remedies

STATE = {"kind": "state", "initial": 0}
SHARED = {"kind": "shared", "replay": 0, "extra": 1, "overflow": "suspend"}
SUBSCRIBE = {"by": "a", "call": "subscribe", "begin": 0, "end": 1, "answer": "done"}
PENDING = {"by": "a", "call": "set", "value": 1, "begin": 0}
MOST = 2**64 - 1
AFTER_ANOTHER = """refused: line 4, column 21: call 3: 2 is no value of "begin"
  expected: a moment from the end of the caller's call before on
"""
# Reads bytes, a verdict and its words, and prints what wumsnair.mjs says.
IN_NODE = """
import { readFileSync } from "node:fs";
import { lookAt } from "./page/command/remedies.mjs";
const table = JSON.parse(readFileSync("page/command/remedies.json"));
const given = JSON.parse(readFileSync(0));
const told = given.map(({ text, verdict, words }) => lookAt(table, Buffer.from(text), verdict, words).remedies);
console.log(JSON.stringify(told));
"""


def lines(flow, *calls):
    return "".join(json.dumps(line) + "\n" for line in ({"flow": flow}, *calls))


def received(value, begin, **changes):
    return {"by": "a", "call": "next", "begin": begin, "end": begin + 1, "answer": {"value": value}, **changes}


def sent(value, begin, **changes):
    return {"by": "b", "call": "try_emit", "value": value, "begin": begin, "end": begin + 1, "answer": True, **changes}


def unknown(value):
    return [f"no call of the record sends {value}: is a call missing?"]


# Records, the verdict and the words of the program on each, and what must be said.
REFUSED = {
    "no byte": ("", "refused: line 1, column 1: the text ends here\n  expected: a value\n", "the record is empty: did the recorder fail?"),
    "a channel": (
        '{"flow": {"kind": "broadcast"}}',
        'refused: line 1, column 19: "broadcast" is no value of "kind"\n  expected: "state" or "shared"\n',
        "a broadcast is recorded as a flow of the kind shared, a watch or an atomic variable as one of the kind state",
    ),
    "a call after a pending one": (
        lines(STATE, PENDING, {**PENDING, "by": "b"}, {**PENDING, "begin": 2}),
        AFTER_ANOTHER,
        'call 1, of a, has no "end", and a pending call is the last one of its caller',
    ),
    "a call after one that overlaps it": (
        lines(STATE, {**PENDING, "by": "b"}, {**PENDING, "end": 5, "answer": "done"}, {**PENDING, "begin": 2}),
        AFTER_ANOTHER,
        "two calls of one caller overlap",
    ),
}
ILLEGAL = {
    "an unknown value": (lines(STATE, SUBSCRIBE, received(2044, 2)), unknown(2044)),
    "a long unknown value": (lines(SHARED, SUBSCRIBE, sent(MOST - 1, 2), received(MOST, 4)), unknown(MOST)),
    "an unknown value of a list": (lines(STATE, received(0, 2, call="replay_cache", answer=[0, 7])), unknown(7)),
    "an unknown old value": (lines(STATE, received(1, 2, call="update", answer={"old": 5, "value": 1})), unknown(5)),
    "an unknown expected value": (lines(STATE, sent(1, 2, call="compare_and_set", expect=6)), unknown(6)),
    "values that are sent": (
        lines(STATE, received(1, 0, call="update", answer={"old": 0, "value": 1}), sent(MOST, 2), {**SUBSCRIBE, "begin": 4, "end": 5}, received(1, 6)),
        [],
    ),
    "own first values": (lines(SHARED, {**SUBSCRIBE, "first": [3, 4]}, received(4, 2)), []),
    "a value that was not taken": (lines(SHARED, SUBSCRIBE, sent(7, 2, answer=False), received(7, 4)), []),
    "the same value twice": (
        lines(STATE, SUBSCRIBE, received(0, 2), received(0, 4, answer="empty"), received(0, 6)),
        ["call 4: a state flow gives no subscriber the same value twice in a row: if your library may do so, end such a `next` as `value`"],
    ),
    "the same value of two subscriptions": (
        lines(STATE, SUBSCRIBE, received(0, 2), {**SUBSCRIBE, "call": "unsubscribe", "begin": 4, "end": 5}, {**SUBSCRIBE, "begin": 6, "end": 7}, received(0, 8)),
        [],
    ),
    "the same value twice of a shared flow": (lines(SHARED, SUBSCRIBE, sent(7, 2), received(7, 4), received(7, 6)), []),
    "callers that do not overlap": (
        lines(STATE, SUBSCRIBE, received(0, 2), sent(0, 4), sent(0, 6)),
        [
            "all calls of b come after all calls of a: their moments are of different clocks (take them from one clock that all callers share), "
            "or one thread ended before the other began (make more calls)"
        ],
    ),
}
GAVE_UP = {
    "many callers": (
        lines(STATE, *({**PENDING, "by": f"u{at}", "begin": at} for at in range(9))),
        ["a search takes long where many calls overlap: the most were open at moment 8, 9 calls, among them call 1, call 2, call 3, call 4, call 5, "
         "call 6, call 7, call 8. It need not have stopped there. Record fewer callers at once, leave out calls that changed nothing, or judge the "
         "calls that began before this moment"],
    ),
    "two callers": (
        lines(STATE, PENDING, {**PENDING, "by": "b", "begin": 3}),
        ["no more than 2 calls overlap, at moment 3, so the record is long: judge the calls that began in the first half of its moments"],
    ),
    "no calls": (lines(STATE), []),
    "no record": ("{", []),
}  # fmt: skip


@pytest.fixture(scope="module")
def in_node():
    """What wumsnair.mjs says about each record."""
    given = [{"text": text, "verdict": "refused", "words": words} for text, words, _ in REFUSED.values()]
    given += [{"text": text, "verdict": "illegal", "words": ""} for text, _ in ILLEGAL.values()]
    given += [{"text": text, "verdict": "gave up", "words": "gave up\n"} for text, _ in GAVE_UP.values()]
    ran = subprocess.run(["node", "--input-type=module", "-e", IN_NODE], cwd=TOP, input=json.dumps(given), capture_output=True, text=True, check=True)
    return dict(zip([*REFUSED, *ILLEGAL, *GAVE_UP], json.loads(ran.stdout)))


@pytest.mark.parametrize("what", REFUSED)
def test_refusal(what, in_node):
    text, words, remedy = REFUSED[what]
    (told,) = remedies.of_refusal(words, text.encode())
    assert told.startswith(remedy) and in_node[what] == [told]


@pytest.mark.parametrize("what", ILLEGAL)
def test_warnings(what, in_node):
    text, wanted = ILLEGAL[what]
    assert remedies.of_calls(*remedies.record_of(text.encode())) == wanted == in_node[what]


@pytest.mark.parametrize("what", GAVE_UP)
def test_giving_up(what, in_node):
    text, wanted = GAVE_UP[what]
    calls = oracle.calls_if_read(text.encode()) or []
    assert remedies.of_giving_up(calls) == wanted == in_node[what]
    assert remedies.of_giving_up(calls, True) == (wanted if what == "many callers" else [])
