"""Hostile records: what each one is, its bytes, and the status that is wanted, from docs/RECORDS.md."""
import json

MOST = 2**64 - 1
STATE = {"kind": "state", "initial": 0}
SHARED = {"kind": "shared", "replay": 1, "extra": 0, "overflow": "suspend"}
SET = {"by": "t1", "call": "set", "value": 3, "begin": 10, "end": 20, "answer": "done"}
VALUE = {"by": "t2", "call": "value", "begin": 21, "end": 30, "answer": {"value": 3}}
LEGAL, ILLEGAL, REFUSED, GAVE_UP, FAILED = range(5)


def whole(*calls, flow=STATE):
    return json.dumps({"flow": flow, "calls": calls}).encode()


def lines(*calls, flow=STATE):
    return "".join(json.dumps(line) + "\n" for line in ({"flow": flow}, *calls)).encode()


def one(flow=STATE, **changes):
    """A record of one call with some keys changed. A key whose value is None is left out."""
    return whole({key: value for key, value in {**SET, **changes}.items() if value is not None}, flow=flow)


def damaged():
    """The ways to damage a record, and for each the texts by what they are, and the status that is wanted of each text."""
    record, in_lines = whole(SET, VALUE), lines(SET, VALUE)
    places, ends = range(len(record)), [at for at, byte in enumerate(in_lines) if byte == ord("\n")]
    return {
        "cut": {f"the first {length} bytes": (record[:length], REFUSED) for length in places},
        "zero": {f"byte {at} is 0": (record[:at] + b"\0" + record[at + 1 :], REFUSED) for at in places},
        "no_utf8": {f"byte {at} is 255": (record[:at] + b"\xff" + record[at + 1 :], REFUSED) for at in places},
        # A record in lines may end after each line.
        "cut_lines": {
            f"the first {length} bytes": (in_lines[:length], LEGAL if {length, length - 1} & set(ends) else REFUSED)
            for length in range(1, len(in_lines))
        },
    }


def texts():
    record, in_lines = whole(SET, VALUE), lines(SET, VALUE)
    yield "a whole record", record, LEGAL
    yield "blank lines", in_lines.replace(b"\n", b"\r\n \t\n\n"), LEGAL
    yield "a record twice", record + record, REFUSED
    yield "a second flow", in_lines + in_lines, REFUSED
    for depth in (126, 127, 128, 100_000):
        yield f"{depth} brackets", b"[" * depth + b"]" * depth, REFUSED
    yield "spaces alone", b" " * 1_000_000, REFUSED
    yield "a list", b"[]", REFUSED
    yield "no calls", whole(), LEGAL
    yield "a flow alone in a line", lines(), LEGAL
    yield "the last of two keys", record.replace(b'"value": 3, "begin": 10', b'"value": 4, "value": 3, "begin": 10'), LEGAL


def numbers():
    for value in (0, 1, MOST):
        yield f"the value {value}", one(value=value), LEGAL
        yield f"the initial value {value}", one(flow={**STATE, "initial": value}), LEGAL
        yield f"moments {value}", one(begin=value, end=value), LEGAL
    for value in (-1, MOST + 1, 1.0, "1", [1], {}, True):
        for key in ("value", "begin", "end"):
            yield f"{key} {value}", one(**{key: value}), REFUSED
        yield f"initial {value}", one(flow={**STATE, "initial": value}), REFUSED
    yield "a number of a megabyte", whole(SET).replace(b"20", b"2" * 1_000_000), REFUSED
    for replay, extra in ((65_536, 0), (0, 65_536), (1, 65_535)):
        yield f"{replay} and {extra}", whole(flow={**SHARED, "replay": replay, "extra": extra}), LEGAL
    for replay, extra in ((65_537, 0), (65_536, 1), (4_294_967_295, 4_294_967_295), (4_294_967_296, 0), (-1, 0), (1.0, 0), ("1", 0)):
        yield f"{replay} and {extra}", whole(flow={**SHARED, "replay": replay, "extra": extra}), REFUSED
    yield "nothing to drop", whole(flow={**SHARED, "replay": 0, "overflow": "drop_latest"}), REFUSED


def keys():
    for key in SET:
        yield f"no {key}", one(**{key: None}), REFUSED
    yield "pending", one(end=None, answer=None), LEGAL
    for kind in ("State", "", None, 1, "shared "):
        yield f"the kind {kind!r}", one(flow={**STATE, "kind": kind}), REFUSED
    for word in ("Set", "", 1, "emit", "reset_replay_cache"):
        yield f"the call {word!r}", one(call=word), REFUSED
    for answer in ("Done", True, 1, {"value": 1}, [], "empty"):
        yield f"the answer {answer!r}", one(answer=answer), REFUSED
    yield "a key of a megabyte", one(**{"a" * 1_000_000: 1}), REFUSED
    for name in ("", "a" * 1_000_000, "é", "\0", "a\nb", "<&>", "\U0010ffff"):
        yield f"the caller {name[:20]!r}", one(by=name), LEGAL
    yield "no caller's name", one(by=1), REFUSED


def moments():
    yield "an end before its begin", one(begin=21), REFUSED
    yield "two calls that overlap", whole(SET, {**VALUE, "by": "t1", "begin": 19}), REFUSED
    yield "two calls that meet", whole(SET, {**VALUE, "by": "t1", "begin": 20}), LEGAL
    pending = {key: value for key, value in SET.items() if key not in ("end", "answer")}
    yield "a call after a pending one", whole(pending, {**VALUE, "by": "t1"}), REFUSED
    yield "calls of a caller in another order", whole({**VALUE, "by": "t1"}, SET), REFUSED


def many():
    sets = [{**SET, "by": f"t{at}", "value": at} for at in range(300)]
    yield "300 callers at once", whole(*sets), LEGAL
    stale = {**VALUE, "answer": {"value": 99}}
    yield "a value that none of 4 sets has", whole(*sets[:4], stale), ILLEGAL
    yield "a value that none of 14 sets at once has", whole(*sets[:14], stale), ILLEGAL
    yield "a value that none of 20 sets at once has", whole(*sets[:20], stale), GAVE_UP
    one_after_another = [{**SET, "begin": 2 * at, "end": 2 * at + 1} for at in range(20_000)]
    yield "20000 calls", lines(*one_after_another), LEGAL
    yield "20000 values", whole({**VALUE, "call": "subscribe", "first": [1] * 20_000, "answer": "done"}, flow=SHARED), LEGAL
    yield "a list for no answer", whole({**VALUE, "call": "replay_cache", "answer": [1] * 20_000}), ILLEGAL


def cases():
    """All records, each with what it is and the status that is wanted."""
    return [case for kind in (texts, numbers, keys, moments, many) for case in kind()]
