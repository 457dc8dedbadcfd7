"""Random records of small flows, as strategies of hypothesis: a record is made of turns, so it shrinks as they do.

The calls of a record are made of a flow one after another, and recorded with moments that overlap."""
import dataclasses
import itertools
import json

from hypothesis import strategies as st

from plain_flows import Shared, State

CALLERS = ("a", "b", "c")
OF_STATE = ("value", "set", "compare_and_set", "update", "try_emit", "subscribe", "subscribe", "next", "next", "next", "unsubscribe",
            "first", "subscription_count", "replay_cache")  # fmt: skip
OF_SHARED = ("try_emit", "try_emit", "emit", "emit", "emit", "subscribe", "subscribe", "next", "next", "next", "unsubscribe", "first",
             "subscription_count", "replay_cache", "reset_replay_cache")  # fmt: skip
CALLS = {"state": OF_STATE, "shared": OF_SHARED}
# An `update` that never ended is no call of a record.
MAY_BE_PENDING = {kind: set(words) - {"update"} for kind, words in CALLS.items()}
MAY_BE_CANCELLED = {"state": {"first"}, "shared": {"first", "emit"}}
VALUES = range(3)
ONE_IN_FIVE = (False, False, False, False, True)
# The callers whose last calls are left pending.
PENDING = ((), (), (), ("a",), ("b",), ("c",), ("a", "b"), CALLERS)


@dataclasses.dataclass(frozen=True)
class Turn:
    """What a caller does in a turn: it ends the call that it has begun, or else makes this one."""

    by: str
    call: str
    value: int
    expect: int
    # Whether a subscriber has first values of its own, and whether an `emit` or a `first` is cancelled.
    has_first: bool
    is_cancelled: bool
    # How long before the turn the call begins, and how long after it the call ends.
    early: int
    late: int


@dataclasses.dataclass(frozen=True)
class Record:
    flow: dict
    calls: list

    def text(self):
        """The record in lines."""
        return "".join(json.dumps(line) + "\n" for line in ({"flow": self.flow}, *self.calls))


class Recorder:
    """Makes calls of a flow, and keeps them with their moments."""

    def __init__(self, flow):
        self.flow, self.calls = flow, []
        self.end = dict.fromkeys(CALLERS, 0)
        # The calls that wait, by their callers.
        self.emits, self.firsts = {}, {}

    def begin(self, turn, moment, **arguments):
        """Keeps a call that has begun, and returns it."""
        begin = max(self.end[turn.by], moment - turn.early)
        self.end[turn.by] = begin
        self.calls.append({"by": turn.by, "call": turn.call, **arguments, "begin": begin})
        return self.calls[-1]

    def finish(self, call, turn, moment, answer):
        call["end"] = self.end[turn.by] = max(self.end[turn.by], moment + turn.late)
        call["answer"] = answer

    def update(self, turn, moment):
        old, value = self.flow.value, turn.value
        self.flow.compare_and_set(turn.by, old, value)
        self.finish(self.begin(turn, moment), turn, moment, {"old": old, "value": value})

    def first(self, turn, moment):
        """Begins the call `first()`. It is pending until it has received a value or is cancelled."""
        if self.flow.subscribe(turn.by) is not None:
            self.firsts[turn.by] = self.begin(turn, moment)
            self.end_first(turn, moment)

    def end_first(self, turn, moment):
        # A flow with an error may have lost the subscriber: then the call waits for ever.
        answer = "cancelled" if turn.is_cancelled else self.flow.next(turn.by)
        if answer not in ("empty", None):
            self.flow.unsubscribe(turn.by)
            self.finish(self.firsts.pop(turn.by), turn, moment, answer)

    def emit(self, turn, moment):
        """Begins an emission, or records one that was cancelled before it began."""
        value = turn.value
        if turn.is_cancelled:
            self.finish(self.begin(turn, moment, value=value), turn, moment, "cancelled")
        elif self.flow.emit(turn.by, value) is not None:
            self.emits[turn.by] = self.begin(turn, moment, value=value)

    def end_emit(self, turn, moment):
        if turn.is_cancelled:
            self.flow.cancelled(turn.by)
        elif self.flow.waits(turn.by):
            return
        else:
            self.flow.returned(turn.by)
        self.finish(self.emits.pop(turn.by), turn, moment, "cancelled" if turn.is_cancelled else "done")

    def arguments(self, turn):
        if turn.call in ("set", "try_emit"):
            return {"value": turn.value}
        if turn.call == "compare_and_set":
            return {"expect": turn.expect, "value": turn.value}
        has_first = turn.call == "subscribe" and turn.has_first and isinstance(self.flow, Shared)
        return {"first": [7, 8]} if has_first else {}

    def make(self, turn, moment):
        """Lets a caller take its turn. While a call of the caller has not ended, it begins no other one."""
        if turn.by in self.emits:
            self.end_emit(turn, moment)
        elif turn.by in self.firsts:
            self.end_first(turn, moment)
        elif self.end[turn.by] > moment or turn.call == "nothing":
            return
        elif turn.call in ("update", "first", "emit"):
            getattr(self, turn.call)(turn, moment)
        else:
            arguments = self.arguments(turn)
            answer = getattr(self.flow, "get" if turn.call == "value" else turn.call)(turn.by, *arguments.values())
            if answer is not None:
                self.finish(self.begin(turn, moment, **arguments), turn, moment, answer)


def recorded(flow, turns):
    """The calls that a flow answers in these turns, those of each caller in order."""
    recorder = Recorder(flow)
    for number, turn in enumerate(turns, 1):
        recorder.make(turn, 10 * number)
    return sorted(recorder.calls, key=lambda call: call["begin"])


def changed(answer, value):
    """Another answer of the same form."""
    if isinstance(answer, bool):
        return not answer
    if isinstance(answer, int):
        return value
    if isinstance(answer, list):
        return [value for _ in answer] or [0]
    if answer == "empty" or isinstance(answer, dict) and "old" not in answer:
        return {"value": value}
    return answer


def leave_pending(calls, by):
    """Makes the last call of a caller a call that has not ended."""
    last = next((call for call in reversed(calls) if call["by"] == by), None)
    if last and "answer" in last and last["call"] != "update":
        del last["end"], last["answer"]


def overflows(replay, extra):
    """What a flow may do when its buffer is full. Without a buffer its emitters wait."""
    return ("suspend", "drop_oldest", "drop_latest") if replay + extra else ("suspend",)


def heads(kind, rooms):
    """The flows of a kind. The replay and the extra room of a shared flow are among these."""
    if kind == "state":
        return st.sampled_from([{"kind": kind, "initial": value} for value in VALUES])
    shared = [(replay, extra, word) for replay in rooms for extra in rooms for word in overflows(replay, extra)]
    return st.sampled_from([{"kind": kind, "replay": replay, "extra": extra, "overflow": word} for replay, extra, word in shared])


def turns(kind, count, width):
    """About this many turns. The greater the width, the more calls overlap. A test has few choices to draw, so it takes little time."""
    whats = st.sampled_from([(by, call) for call in ("nothing", *CALLS[kind]) for by in CALLERS])
    details = st.sampled_from(list(itertools.product(VALUES, VALUES, ONE_IN_FIVE, ONE_IN_FIVE)))
    moments = st.integers(0, width - 1)
    drawn = st.lists(st.tuples(whats, details, moments, moments), min_size=count // 2, max_size=count + count // 2)
    return drawn.map(lambda drawn: [Turn(*what, *detail, early, late) for what, detail, early, late in drawn])


def records(kind):
    """Records of right flows. Many have changed answers, and in some the last calls of some callers are pending."""
    changes = st.lists(st.tuples(st.integers(0, 7), st.sampled_from(VALUES)), max_size=8)
    return st.builds(right_record, heads(kind, range(3)), turns(kind, 14, 40), changes, st.sampled_from(PENDING))


def right_record(head, turns, changes, pending):
    calls = recorded(State(head) if head["kind"] == "state" else Shared(head), turns)
    for place, value in changes:
        if place < len(calls) and "answer" in calls[place]:
            calls[place]["answer"] = changed(calls[place]["answer"], value)
    for by in pending:
        leave_pending(calls, by)
    return Record(head, calls)


def records_of_broken(broken, room):
    """Records of a flow with a planted error. The replay and the extra room of a shared flow are given."""
    kind = "state" if room is None else "shared"
    return st.builds(lambda head, turns: Record(head, recorded(broken(head), turns)), heads(kind, [room]), turns(kind, 20, 10))
