"""Hostile scripts: what each one is, its bytes, and the outcome that is wanted, from docs/SCRIPTS.md."""
import itertools
import json

from running import ended

MOST = 1_048_576
SHARED = {"kind": "shared", "replay": 2, "extra": 0, "overflow": "suspend"}
STATE = {"kind": "state", "initial": 7}
COUNT = {"do": "count"}
COUNT_P = {"do": "count", "flow": "p"}
SCRIPT = (
    b'{"version":1,"flow":{"kind":"shared","replay":2,"extra":0,"overflow":"suspend"},"steps":['
    b'{"do":"try_emit","value":1},{"do":"try_emit","value":2},{"do":"try_emit","value":3},{"do":"cache"},'
    b'{"do":"subscribe","name":"a"},{"do":"next","name":"a"},{"do":"next","name":"a"},{"do":"next","name":"a"}]}'
)
WHOLE = ended(0, "true", "true", "true", "[2, 3]", "subscribed", "value 2", "value 3", "empty")
SEVERAL = (
    b'{"version":2,"flows":{"p":{"kind":"shared","replay":1,"extra":0,"overflow":"drop_oldest"},'
    b'"q":{"kind":"state","initial":0},"r":{"kind":"shared","replay":0,"extra":0,"overflow":"drop_latest"}},"steps":['
    b'{"do":"subscribe","flow":"p","name":"a","first":[8]},{"do":"emit","flow":"p","name":"e","value":1},'
    b'{"do":"next","flow":"p","name":"a"},{"do":"next","flow":"p","name":"a"},{"do":"value","flow":"q"},{"do":"count","flow":"r"}]}'
)
SEVERAL_WHOLE = ended(0, "r refused 3 NeedsBuffer", "subscribed", "done", "value 8", "value 1", "0", "no flow")
PLAYED = {"one_flow": (SCRIPT, WHOLE), "several_flows": (SEVERAL, SEVERAL_WHOLE)}
NOT_JSON = ended(2, "script refused 3 NotJson")
BAD_VERSION = ended(2, "script refused 4 BadVersion")


def refused(fault, step):
    number = {"BadShape": 5, "UnknownName": 6, "DuplicateName": 7, "TooLarge": 8}[fault]
    return ended(2, f"script refused {number} {fault} at step {step}")


def played(*lines):
    return ended(0, *lines)


def script(*steps, flow=SHARED, version=1):
    return json.dumps({"version": version, "flow": flow, "steps": steps}).encode()


def several(*steps, **flows):
    return json.dumps({"version": 2, "flows": flows, "steps": steps}).encode()


def chain(source, *ops):
    return {"from": source, "ops": list(ops)}


def collect(source, *ops):
    return {"do": "collect", "chain": chain(source, *ops)}


def collected(items):
    return f"[{', '.join(map(str, items))}] completed"


def expiring(expire):
    """A shared chain whose replay cache expires this long after its stop."""
    return {"kind": "share", "chain": chain({"of": []}), "started": {"stop": 1, "expire": expire}, "replay": 0}


def zipped(with_chain):
    return {"op": "zip", "with": with_chain, "by": "left"}


def damaged(text):
    """The ways to damage a text, and the damaged texts of each, by what they are. None of them is JSON."""
    places = range(len(text))
    return {
        "cut": {f"the first {length} bytes": text[:length] for length in places},
        "zero": {f"byte {at} is 0": text[:at] + b"\0" + text[at + 1 :] for at in places},
        "no_utf8": {f"byte {at} is 255": text[:at] + b"\xff" + text[at + 1 :] for at in places},
    }


def texts():
    yield "one byte 255", b"\xff", NOT_JSON
    yield "a text and a half", SCRIPT + b"{", NOT_JSON
    yield "a name cut inside a letter", SCRIPT.replace(b'"a"', b'"\xc3"'), NOT_JSON
    for depth in (126, 127):
        yield f"{depth} brackets", b"[" * depth + b"]" * depth, refused("BadShape", 0)
    yield "128 brackets", b"[" * 128 + b"]" * 128, NOT_JSON
    yield "spaces alone", b" " * MOST, NOT_JSON


def sizes():
    for (text, wanted), size in itertools.product(PLAYED.values(), (None, MOST - 1, MOST)):
        yield f"{size or len(text)} bytes", text.ljust(size or 0), wanted
    for size in (MOST + 1, MOST + 2, 2 * MOST):
        yield f"{size} bytes", SCRIPT.ljust(size), refused("TooLarge", 0)
        yield f"{size} brackets", b"[" * size, refused("TooLarge", 0)


def numbers():
    def emit(value):
        return script({"do": "try_emit", "value": 7}).replace(b"7", value)

    for value in (b"9223372036854775807", b"-9223372036854775808", b"0"):
        yield f"the value {value.decode()}", emit(value), played("true")
    for value in (b"9223372036854775808", b"-9223372036854775809", b"1e0", b"1.0", b'"1"', b"null", b"[1]", b"1" * 300):
        yield f"the value {value.decode()}", emit(value), refused("BadShape", 1)
    for value in (b"01", b"+1", b"1.", b".5", b"NaN", b"1e", b"--1", b"0x1", b"1e400"):
        yield f"the value {value.decode()}", emit(value), NOT_JSON
    for replay in (-1, 4294967296, 1.0, None, "2"):
        yield f"replay {replay}", script(flow={**SHARED, "replay": replay}), refused("BadShape", 0)
    yield "replay 4294967295", script(flow={**SHARED, "replay": 4294967295}), played("refused 2 TooLarge")
    for version in (0, 3, -1, 2**64, "1", "2", None, 1.0, 2.0):
        yield f"version {version}", script(version=version), BAD_VERSION
    yield "one flow in version 2", script(version=2), refused("BadShape", 0)
    yield "flows in version 1", several(p=STATE).replace(b'"version": 2', b'"version": 1'), refused("BadShape", 0)
    for expire in (0, 2**64 - 1):
        yield f"expire {expire}", several(COUNT_P, p=expiring(expire)), played(0)
    for expire in (-1, 2**64, 1.0, "1", None):
        yield f"expire {expire}", several(COUNT_P, p=expiring(expire)), refused("BadShape", 0)


def limits():
    for count in (9_999, 10_000):
        yield f"{count} steps", script(*[COUNT] * count), played(*[0] * count)
    yield "10001 steps", script(*[COUNT] * 10_001), refused("TooLarge", 0)
    one, least, most = {"of": [1]}, -(2**63), 2**63 - 1
    good = [collect({"of": [1] * length}) for length in (9_999, 10_000)]
    lines = [collected([1] * length) for length in (9_999, 10_000)]
    good += [collect({"script": [1] * 10_000}), collect({"range": [1, 9_999]}), collect({"range": [1, 10_000]})]
    lines += [collected([1] * 10_000), collected(range(1, 10_000)), collected(range(1, 10_001))]
    good += [collect({"range": [most - 9_999, most]}), collect({"range": [most, least]})]
    lines += [collected(range(most - 9_999, most + 1)), collected([])]
    good += [collect(one, {"op": "transform", "add": [1] * length}) for length in (15, 16)]
    lines += [collected([2] * length) for length in (15, 16)]
    good += [collect(one, {"op": "flat_map", "to": "repeat", "n": n}) for n in (0, 999, 1_000)]
    lines += [collected([1] * n) for n in (0, 999, 1_000)]
    for step, line in zip(good, lines):
        yield f"{str(step)[:60]}..", script(step), played(line)
    over = [chain({kind: [1] * 10_001}) for kind in ("of", "script")]
    over += [chain({"range": bounds}) for bounds in ([1, 10_001], [least, most], [least, least + 10_000])]
    over += [chain(one, {"op": "transform", "add": [1] * 17})]
    over += [chain(one, {"op": "flat_map", "to": to, "n": n}) for to in ("repeat", "range") for n in (1_001, 2**64 - 1)]
    for each in over:
        for where in (each, chain(one, zipped(each)), chain(one, zipped(chain(one, zipped(each))))):
            yield f"{str(where)[:60]}..", script({"do": "collect", "chain": where}), refused("TooLarge", 1)
        head = {"kind": "share", "chain": each, "started": "lazily", "replay": 1}
        yield f"a head with {str(each)[:60]}..", script(flow=head), refused("TooLarge", 0)
        yield f"a second flow with {str(each)[:60]}..", several(p=STATE, q=head), refused("TooLarge", 0)


def depths():
    """Chains at the greatest depth, 64 with the source, and above it, with their parts in each order."""
    for op, source, items in (
        ({"op": "map", "by": "add", "k": 1}, [0], None),
        ({"op": "drop_while", "by": "ne", "k": 0}, [0], [0]),
        ({"op": "running_reduce", "by": "mul"}, [1, 1], [1, 1]),
    ):
        for count in (62, 63):
            line = collected(items or [count])
            yield f"{count} times {op['op']}", several(collect({"of": source}, *[op] * count)), played(line)
        yield f"64 times {op['op']}", several(collect({"of": source}, *[op] * 64)), played("refused 5 TooDeep")


def limits_of_several_flows():
    for count in (63, 64):
        yield f"{count} flows", several({**COUNT_P, "flow": "f0"}, **states(count)), played(0)
        yield f"{count} flows, one of them twice", twice(several(**states(count))), played()
        last = several({"do": "value", "flow": "f5"}, **states(count), g5={"kind": "state", "initial": 9})
        yield f"{count} flows, one of them twice, once by an escape", last.replace(b'"g5"', b'"\\u00665"'), played(9)
    for count in (65, 66, 10_000):
        yield f"{count} flows", several(**states(count)), refused("TooLarge", 0)
    yield "65 flows, one of them of no form", several(**states(64), p={"kind": "none"}), refused("BadShape", 0)
    yield "65 flows, one of them without a name", several(**states(64), P=STATE), refused("BadShape", 0)
    yield "65 flows beside a step of no form", several({"do": "fly"}, **states(65)), refused("TooLarge", 0)
    yield "10000 steps", several(*[COUNT_P] * 10_000, p=STATE), played(*[0] * 10_000)
    yield "10001 steps", several(*[COUNT_P] * 10_001, p=STATE), refused("TooLarge", 0)
    for length in (0, 1, 9_999, 10_000):
        yield f"{length} first values", several(subscribe([1] * length), p=SHARED), played("subscribed")
    for length in (10_001, 20_000):
        yield f"{length} first values", several(subscribe([1] * length), p=SHARED), refused("TooLarge", 1)
        yield f"{length} first values, one of them 1.5", several(subscribe([1] * length + [1.5]), p=SHARED), refused("BadShape", 1)
        yield f"{length} first values on no flow", several(subscribe([1] * length), q=SHARED), refused("UnknownName", 1)
        yield f"{length} first values on a state flow", several(subscribe([1] * length), p=STATE), refused("BadShape", 1)
        named = {"do": "subscribe", "flow": "p", "name": "a"}
        yield f"{length} first values, a name twice", several(named, subscribe([1] * length), p=SHARED), refused("TooLarge", 2)


def states(count):
    return {f"f{number}": STATE for number in range(count)}


def twice(text):
    return text.replace(b'"flows": {', b'"flows": {"f0": {"kind": "state", "initial": 8}, ')


def subscribe(first):
    return {"do": "subscribe", "flow": "p", "name": "a", "first": first}


def names():
    for length in (1, 31, 32):
        yield f"a name of {length}", script({"do": "subscribe", "name": "a" * length}), played("subscribed")
        named = {"do": "subscribe", "flow": "p", "name": "a" * length}
        yield f"a name of {length} on a flow", several(named, p=STATE), played("subscribed")
    for name in ("", "a" * 33, "A", "a b", "é", "a\0", "a\n", "-", None, 1, ["a"]):
        yield f"the name {name!r}", script({"do": "subscribe", "name": name}), refused("BadShape", 1)
        yield f"a step on the flow {name!r}", several({"do": "count", "flow": name}, p=STATE), refused("BadShape", 1)
    for length in (1, 31, 32):
        name = "a" * length
        yield f"a flow's name of {length}", several({"do": "value", "flow": name}, **{name: STATE}), played(7)
    for name in ("", "a" * 33, "A", "a b", "é", "a\0", "a\n", "-"):
        yield f"a flow's name {name!r}", several(**{name: STATE}), refused("BadShape", 0)


def orders():
    """Scripts with several faults: the first one in the documented order must be reported."""
    unknown, extra = {"do": "next", "name": "b"}, {"do": "next", "name": "b", "at": 1}
    long = collect({"of": [1] * 10_001})
    shape, known = {"do": "fly"}, {"do": "subscribe", "name": "a"}
    yield "an unlisted key before an unknown name", script(COUNT, extra), refused("BadShape", 2)
    yield "an unlisted key before a known name", script(known, {**known, "at": 1}), refused("BadShape", 2)
    yield "an unlisted key before a limit", script({**long, "at": 1}), refused("BadShape", 1)
    faults = [(shape, "BadShape"), (long, "TooLarge"), (unknown, "UnknownName"), (known, "DuplicateName")]
    for (first, fault), (second, _) in itertools.permutations(faults, 2):
        yield f"{fault} before a later fault", script(known, first, second), refused(fault, 2)
    for first, fault in faults:
        yield f"{fault} after ten thousand steps", script(known, first, *[COUNT] * 9_999), refused("TooLarge", 0)
    yield "a version before the flow", script(shape, flow=None, version=3), BAD_VERSION
    yield "the flow before the steps", script(shape, flow={"kind": "none", "at": 1}), refused("BadShape", 0)
    yield "no object", b"[]", refused("BadShape", 0)
    yield "the last of two keys", SCRIPT.replace(b'"version":1', b'"version":2,"version":1'), WHOLE


def orders_of_several_flows():
    """Scripts with two faults in one step, for each pair that one step can have, and scripts with two faults in a head."""
    shape, flow, allowed = {"at": 1}, {"flow": "z"}, {"do": "set", "value": 1}
    subscribe = {"do": "subscribe", "flow": "p", "name": "b"}
    known = {"do": "subscribe", "flow": "p", "name": "a"}
    long = {"first": [1] * 10_001}
    for what, step, fault in (
        ("a form before an unknown flow", {**subscribe, **shape, **flow}, "BadShape"),
        ("a form before a limit", {**subscribe, **long, **shape}, "BadShape"),
        ("a form before a name", {**known, **shape}, "BadShape"),
        ("an unknown flow before what it would not allow", {**allowed, **flow}, "UnknownName"),
        ("an unknown flow before a limit", {**subscribe, **long, **flow}, "UnknownName"),
        ("an unknown flow before a name that is taken", {**known, **flow}, "UnknownName"),
        ("what is not allowed before a limit", {**subscribe, **long, "flow": "q"}, "BadShape"),
        ("what is not allowed before a name that is taken", {**known, "first": [], "flow": "q"}, "BadShape"),
        ("what is not allowed before an unknown name", {"do": "poll", "flow": "q", "name": "b"}, "BadShape"),
        ("a limit before a name that is taken", {**known, **long}, "TooLarge"),
        ("a name that is taken by another flow", {**known, "flow": "q"}, "DuplicateName"),
        ("a name that is another flow's", {"do": "next", "flow": "q", "name": "a"}, "UnknownName"),
        ("a name on a flow that is refused", {"do": "next", "flow": "r", "name": "a"}, "UnknownName"),
    ):
        refusing = {"kind": "shared", "replay": 0, "extra": 0, "overflow": "drop_latest"}
        yield what, several(known, step, {"do": "fly"}, p=SHARED, q=STATE, r=refusing), refused(fault, 2)
    over = {"kind": "share", "chain": chain({"range": [1, 10_001]}), "started": "lazily", "replay": 1}
    yield "the form of a later flow before a limit", several(a=over, b={"kind": "none"}), refused("BadShape", 0)
    yield "the form of a later name before a limit", several(a=over, B=STATE), refused("BadShape", 0)
    yield "a version before the flows", SEVERAL.replace(b'"version":2,"flows":{"p":{', b'"version":3,"flows":{"P":{'), BAD_VERSION
    yield "the flows before the steps", several({"do": "fly"}, p={"kind": "none"}), refused("BadShape", 0)
    yield "the last of two flows", SEVERAL.replace(b'"q":{', b'"q":{"kind":"none"},"q":{'), SEVERAL_WHOLE


def cases():
    """All scripts, each with what it is and the outcome that is wanted."""
    kinds = (texts, sizes, numbers, limits, depths, limits_of_several_flows, names, orders, orders_of_several_flows)
    return [case for kind in kinds for case in kind()]
