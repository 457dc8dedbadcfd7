"""The trace of each script of examples/ and tests/cases/: what `flow_draw --json` prints.

It follows docs/trace.schema.json. It has the lines that flow_play prints, the rules that `flow_draw --explain` prints, and the bytes of
each step. What it says of a flow after each step is what the player answers when it is asked: it plays the steps up to there, and then
further steps that read the replay cache, the value and the number of subscribers, poll each emission, and receive all that is pending for
each subscriber."""
import json
import re

import jsonschema
import pytest

from wumsnair_tools.built import top
from running import case_id, examples, run
from wumsnair_tools.scripts import all_cases, text_of, versions

PLAYED = 0
SCHEMA = jsonschema.Draft202012Validator(json.loads((top / "docs" / "trace.schema.json").read_text()))
# The kinds of flow that have a value.
HAVE_VALUES = ("state", "state_in")
# More steps than a subscriber of an example has values to receive.
MOST_PENDING = 70


def texts():
    """The scripts that are not refused, by their names."""
    found = {name: path.read_text() for name, path in examples().items() if not name.startswith("refused_")}
    found |= {name: examples()[name].read_text() for name in ("refused_flow", "refused_among_others")}
    for number, (file, case) in enumerate(all_cases()):
        if "refused" not in case:
            found |= {case_id(file.removesuffix(".toml"), f"{number}", f"{version}"): text_of(case, version) for version in versions(case)}
    return found


TEXTS = texts()


def trace_of(flow_draw, text):
    came = run(flow_draw, "--json", text=text.encode())
    assert (came.status, came.said) == (PLAYED, b"")
    return json.loads(came.printed)


def printed_lines(flow_play, script):
    came = run(flow_play, text=json.dumps(script).encode() if isinstance(script, dict) else script.encode())
    assert came.status == PLAYED
    return came.printed.decode().splitlines()


@pytest.mark.parametrize("name", TEXTS)
def test_trace(flow_play, flow_draw, name):
    text = TEXTS[name]
    trace = trace_of(flow_draw, text)
    SCHEMA.validate(trace)
    assert [line["line"] for line in trace["lines"]] == printed_lines(flow_play, text)
    steps = [line for line in trace["lines"] if "step" in line]
    script = json.loads(text)
    assert [json.loads(text[line["from"] : line["to"]]) for line in steps] == script["steps"][: len(steps)]
    assert [line["step"] for line in steps] == list(range(1, len(steps) + 1))
    listed = run(flow_draw, "--explain", text=text.encode()).printed.decode().splitlines()
    entries = [f"{line['step']:5}  {line['words']}: {line['line']}" + (f"  -- {line['rule']}" if line["rule"] else "") for line in steps]
    assert listed[len(listed) - len(entries) :] == entries


# ---- the state of a flow after some steps


def first_state(flow):
    return {"after": {"emitted": 0, "cached": 0, "subscribers": 0, "value": flow.get("value")}, "readers": {}, "waiting": {}, "flow": flow}


def add(state, line):
    """Adds a step to the state of its flow."""
    readers = state["readers"]
    for moved in line.get("moved", []):
        place = moved["place"]
        known = readers.pop(place, None) or {"name": line["name"], "first": line.get("first", []), "last": None}
        if "position" in moved:
            readers[place] = known | {"own": moved["own"], "position": moved["position"]}
    if "received" in line:
        readers[line["place"]]["last"] = line["received"]
    if "waits" in line:
        state["waiting"][line["place"]] = line["name"]
    for place in line.get("ended", []):
        del state["waiting"][place]
    if "emitted" in line:
        state["after"] = line


def pending(state, reader):
    own = reader["first"][len(reader["first"]) - reader["own"] :]
    value = state["after"].get("value")
    if value is None:
        return own + state["flow"]["values"][reader["position"] : state["after"]["emitted"]]
    return [] if reader["last"] == value else [value]


def told(state):
    """What the trace says of a flow: its replay cache, the number of its subscribers, its value, the emissions that wait, and what each
    subscriber has yet to receive."""
    after, values = state["after"], state["flow"]["values"]
    value = after.get("value")
    cache = [value] if value is not None else values[after["emitted"] - after["cached"] : after["emitted"]]
    readers = {reader["name"]: pending(state, reader) for reader in state["readers"].values()}
    return cache, after["subscribers"], value, sorted(state["waiting"].values()), readers


def asked(flow_play, script, flow, count, state):
    """What the player answers about a flow after some steps."""
    named = {"flow": flow["name"]} if script["version"] == 2 else {}

    def lines_after(*steps):
        further = [{**step, **named} for step in steps]
        return printed_lines(flow_play, {**script, "steps": script["steps"][:count] + further})[-len(further) :]

    has_value = flow["head"]["kind"] in HAVE_VALUES
    emissions = [step["name"] for step in script["steps"][:count] if step["do"] == "emit" and step.get("flow") == named.get("flow")]
    lines = lines_after({"do": "cache"}, {"do": "count"}, *([{"do": "value"}] if has_value else []), *({"do": "poll", "name": name} for name in emissions))
    waiting = [name for name, line in zip(emissions, lines[2 + has_value :]) if line == "waiting"]
    readers = {}
    for reader in state["readers"].values():
        received = lines_after(*[{"do": "next", "name": reader["name"]}] * MOST_PENDING)
        values = [line.removeprefix("value ") for line in received if line.startswith("value ")]
        # What waits is emitted when there is room, so it is received, too.
        readers[reader["name"]] = values
    return re.findall(r"-?\d+", lines[0]), int(lines[1]), lines[2] if has_value else None, sorted(waiting), readers


def is_front(front, whole):
    return whole[: len(front)] == front


@pytest.mark.parametrize("name", examples())
def test_states(flow_play, flow_draw, name):
    text = examples()[name].read_text()
    if run(flow_play, text=text.encode()).status != PLAYED:
        return
    script, trace = json.loads(text), trace_of(flow_draw, text)
    states = [first_state(flow) for flow in trace["flows"]]
    steps = [line for line in trace["lines"] if "step" in line]
    for count, line in enumerate(steps, 1):
        if "flow" not in line or trace["flows"][line["flow"]]["refused"]:
            continue
        state = states[line["flow"]]
        add(state, line)
        *came, readers = told(state)
        *wanted, received = asked(flow_play, script, state["flow"], count, state)
        assert came == wanted, f"after step {count}"
        assert readers.keys() == received.keys()
        for reader in readers:
            assert is_front(readers[reader], received[reader]), f"{reader} after step {count}"
            more = len(received[reader]) - len(readers[reader])
            # An item of a shared chain waits without a name.
            assert more <= len(state["waiting"]) + (state["flow"]["head"]["kind"] == "share"), f"{reader} after step {count}"


def traced_cases():
    for case in (case for _, case in all_cases() if "traced" in case):
        for version in versions(case):
            yield pytest.param(case, version, id=case_id(case["name"], "version", version))


@pytest.mark.parametrize("case, version", traced_cases())
def test_counts(flow_draw, case, version):
    """The trace of a case has the counts of its flow that the case says."""
    trace = trace_of(flow_draw, text_of(case, version))
    state, came = first_state(trace["flows"][0]), []
    for line in trace["lines"]:
        add(state, line)
        lags = sorted((reader["name"], line["emitted"] - reader["position"]) for reader in state["readers"].values())
        came.append(", ".join([f"emitted {line['emitted']}", f"kept {line['held']}", *(f"{name} {lag}" for name, lag in lags)]))
    assert came == case["traced"]
