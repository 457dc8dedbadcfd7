"""Records with verdicts that are worked out by hand from kotlinx.coroutines' documentation: what each one is, its bytes, and the moment at
which it becomes illegal, or None."""
from hostile_records import STATE, whole


def made(by, call, begin, end, answer="done", **keys):
    """A call. One without an end had not ended when the record was made."""
    ended = {} if end is None else {"end": end, "answer": answer}
    return {"by": by, "call": call, "begin": begin, **ended, **keys}


def shared(extra=0, overflow="suspend"):
    return {"kind": "shared", "replay": 0, "extra": extra, "overflow": overflow}


def reads():
    """`value` returns the value that was set last. The read ends at 3."""

    def read(end, begin, value):
        return whole(made("t1", "set", 0, end, value=1), made("t2", "value", begin, 3, {"value": value}))

    yield "a read after a set returns the old value", read(1, 2, 0), 3
    yield "a read after a set returns the new value", read(1, 2, 1), None
    yield "a read that overlaps a set returns the old value", read(2, 1, 0), None
    yield "a read that begins when a set ends returns the old value", read(2, 2, 0), None
    yield "a read returns what was never set", read(2, 1, 2), 3
    for value in (0, 1):
        yield f"a read returns {value} beside a set that has not ended", read(None, 2, value), None


def late_reads():
    """The record becomes illegal when the wrong read ends, whatever later calls return."""

    def read(end, *more):
        return whole(made("t1", "set", 0, end, value=1), made("t2", "value", 4, 7, {"value": 0}), *more, flow=STATE)

    yield "a right read follows a wrong one", read(1, made("t2", "value", 8, 9, {"value": 1})), 7
    yield "a read of the old value overlaps a set", read(6), None


def rendezvous():
    """Without a buffer an emitter waits until each subscriber has received its value."""

    def sent(end, answer):
        emitted = made("t1", "emit", 2, end, value=3)
        return whole(made("r", "subscribe", 0, 1), emitted, made("r", "next", 5, 6, answer), flow=shared())

    yield "a value is received before its emission ends", sent(9, {"value": 3}), None
    yield "an emission ends before its value is received", sent(4, {"value": 3}), 4
    yield "an emission ends, and its value is never received", sent(9, "empty"), 9


def full_buffers():
    """The subscriber is a full buffer behind: `try_emit` is refused, drops the oldest value, or drops the new one."""

    def full(overflow, is_taken, received):
        emitted = [made("t1", "try_emit", 2, 3, True, value=1), made("t1", "try_emit", 4, 5, is_taken, value=2)]
        nexts = [made("r", "next", 6, 7, {"value": received}), made("r", "next", 8, 9, "empty")]
        return whole(made("r", "subscribe", 0, 1), *emitted, *nexts, flow=shared(1, overflow))

    yield "suspend refuses a value", full("suspend", False, 1), None
    yield "suspend takes a value without room", full("suspend", True, 1), 5
    yield "drop_oldest drops the oldest value", full("drop_oldest", True, 2), None
    yield "drop_oldest keeps the oldest value", full("drop_oldest", True, 1), 7
    yield "drop_latest drops the new value", full("drop_latest", True, 1), None
    yield "drop_latest keeps the new value", full("drop_latest", True, 2), 7
    yield "drop_latest refuses a value", full("drop_latest", False, 1), 5


def late_values():
    """Without a replay `next` receives no value from before its subscription."""
    emitted = made("t1", "try_emit", 0, 1, True, value=3)
    received = made("r", "next", 4, 5, {"value": 3})
    yield "a value from before a subscription", whole(emitted, made("r", "subscribe", 2, 3), received, flow=shared(1)), 5


def equal_sets():
    """Two callers set 1, and one of them may do so again after another caller has set 2."""
    first, reads = made("t1", "set", 0, 3, value=1), (
        made("t2", "value", 1, 3, {"value": 1}),
        made("t2", "set", 4, 5, value=2),
        made("t2", "value", 6, 6, {"value": 2}),
        made("t2", "value", 7, 8, {"value": 1}),
    )

    def again(end):
        return whole(made("t3", "set", 0, end, value=1), first, *reads, flow=STATE)

    yield "a set of an equal value has ended before the value was read anew", again(5), 8
    yield "a set of an equal value may have happened after another value was read", again(9), None
    both = made("t1", "set", 0, 9, value=1), made("t1", "set", 0, 9, value=2)
    other = made("t2", "set", 0, 5, value=1)
    read = [made("t3", "value", begin, end, {"value": value}) for begin, end, value in ((1, 2, 1), (3, 4, 2), (6, 7, 1))]
    yield "one caller sets 1 and 2 in the same moments, and another one sets 1", whole(*both, other, *read, flow=STATE), None


def cancelled_firsts():
    """A cancelled `first` may have subscribed and received a value, and has left by its end. No other call subscribes."""

    def came(begin, end, *others, flow=shared()):
        return whole(made("b", "first", begin, end, "cancelled"), *others, flow=flow)

    def tried(begin, end, answer):
        return made("t1", "try_emit", begin, end, answer, value=3)

    def counted(begin, end, count):
        return made("t2", "subscription_count", begin, end, count)

    yield "a cancelled first subscribes, so a value is refused, and leaves", came(0, 4, tried(1, 2, False), tried(8, 9, True)), None
    yield "a value is refused after a cancelled first", came(0, 4, tried(5, 6, False)), 6
    yield "a cancelled first is counted, and leaves", came(0, 4, counted(1, 2, 1), counted(8, 9, 0)), None
    yield "a cancelled first is counted, and leaves before its end", came(0, 9, counted(1, 2, 1), counted(3, 4, 0)), None
    yield "a cancelled first is counted after its end", came(0, 4, counted(5, 6, 1)), 6
    yield "a cancelled first is counted before its begin", came(2, 4, counted(0, 1, 1)), 1
    yield "a cancelled first subscribes twice", came(0, 9, counted(1, 2, 1), counted(3, 4, 0), counted(5, 6, 1)), 6
    yield "a cancelled first is not counted", came(0, 9, counted(1, 2, 0), tried(3, 4, True), counted(5, 6, 0)), None
    emitted = made("t1", "emit", 3, 4, value=3)
    yield "a cancelled first receives a value, and leaves later", came(0, 9, counted(1, 2, 1), emitted, counted(5, 6, 1)), None
    both = made("t1", "emit", 3, 4, value=3), made("t1", "emit", 5, 6, value=4)
    yield "a cancelled first receives two values", came(0, 9, counted(1, 2, 1), *both, counted(7, 8, 1)), 8
    yield "a cancelled first of a state is counted, and leaves", came(0, 4, counted(1, 2, 1), counted(8, 9, 0), flow=STATE), None
    yield "a cancelled first of a state is counted after its end", came(0, 4, counted(8, 9, 1), flow=STATE), 9
    own = made("b", "subscribe", 0, 1)
    yield "a subscriber calls first, which is cancelled", whole(own, made("b", "first", 2, 3, "cancelled"), flow=shared()), 3


def worked_records():
    """All records, by what they are."""
    kinds = (reads, late_reads, equal_sets, rendezvous, full_buffers, late_values, cancelled_firsts)
    return {what: (record, moment) for kind in kinds for what, record, moment in kind()}
