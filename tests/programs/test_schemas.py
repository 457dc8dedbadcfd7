"""docs/script.schema.json and docs/record.schema.json accept each script that is played and each record that is judged, and refuse those of a
wrong form, of examples/, tests/cases/, hostile_scripts.py, worked_records.py and hostile_records.py.

What a schema cannot say is left out: see `is_beyond_form` and MOMENTS. No program runs."""
import json
import re

import jsonschema
import pytest

import hostile_records
import hostile_scripts
from running import case_id, records
from scripts_strategy import STEPS
from worked_records import worked_records
from worked_scripts import worked_scripts
from wumsnair_tools.built import top

# Python's validator takes two milliseconds for each step.
MOST_BYTES = 4_000
MOST_ITEMS = 10_000
# What a step may do.
WORDS = {"collect"}.union(*STEPS.values())
# The faults of a script whose form is wrong, or which has too much of something.
OF_FORM = ("4 BadVersion", "5 BadShape", "8 TooLarge")
# The hostile records that are refused for their moments, or for the sum of two numbers.
MOMENTS = ("an end before its begin", "two calls that overlap", "a call after a pending one", "calls of a caller in another order", "65536 and 1")
OVERLAP = "refused_calls_of_one_caller_overlap"


def validator(name):
    schema = json.loads((top / "docs" / f"{name}.schema.json").read_text())
    jsonschema.Draft202012Validator.check_schema(schema)
    return jsonschema.Draft202012Validator(schema)


SCRIPT, RECORD = validator("script"), validator("record")


def parts(value):
    """A value of JSON, and all values in it."""
    yield value
    for part in value.values() if isinstance(value, dict) else value if isinstance(value, list) else ():
        yield from parts(part)


def has_fraction_of_zero(value):
    """Whether a number is written as 1.0 or 1e0, which a schema takes for a whole number."""
    return any(isinstance(part, float) and part.is_integer() for part in parts(value))


def expect_accepted(schema, value, text):
    error = jsonschema.exceptions.best_match(schema.iter_errors(value))
    if error:
        pytest.fail(f"wanted: the schema accepts this; came: {error.json_path}: {error.message:.200}\n{text:.400}", pytrace=False)


def expect_refused(schema, value, text, why):
    if schema.is_valid(value):
        pytest.fail(f"wanted: the schema refuses this, as the program does: {why}; came: it accepts it\n{text:.400}", pytrace=False)


# ---- scripts


def loaded(text):
    """The value of a text, or None if it is no JSON."""
    try:
        return json.loads(text)
    except (ValueError, RecursionError):
        return None


def scripts():
    """The scripts by their names: the value, the text, and the line by which it is refused or None."""
    texts = {name: (worked.text, worked.lines[0] if worked.status else None) for name, worked in worked_scripts().items()}
    hostile = [(what, text, wanted) for what, text, wanted in hostile_scripts.cases() if len(text) <= MOST_BYTES]
    texts |= {f"hostile_{number}_{case_id(what)}": (text.decode(errors="replace"), wanted.printed.decode().strip() if wanted.status else None)
              for number, (what, text, wanted) in enumerate(hostile)}  # fmt: skip
    return {name: (loaded(text), text, line) for name, (text, line) in texts.items() if loaded(text) is not None}


def is_disallowed(script, number):
    """Whether the flow of a step exists and does not allow the step. What is allowed depends on another part of the script."""
    step = script["steps"][number - 1]
    if not isinstance(step, dict) or step.get("do") not in WORDS:
        return False
    flow = script["flow"] if script["version"] == 1 else script["flows"].get(str(step.get("flow")), {})
    allowed = STEPS.get(flow.get("kind"))
    return allowed is not None and (step["do"] not in (*allowed, "collect") or "first" in step and flow["kind"] != "shared")


def has_long_range(script):
    ranges = [part["range"] for part in parts(script) if isinstance(part, dict) and "range" in part]
    return any(last - first >= MOST_ITEMS for first, last in ranges)


def is_beyond_form(script, line):
    """Whether a schema cannot say why the script is refused."""
    step = re.search(r"5 BadShape at step ([1-9]\d*)$", line)
    return has_fraction_of_zero(script) or bool(step) and is_disallowed(script, int(step[1])) or "8 TooLarge" in line and has_long_range(script)


SCRIPTS = scripts()


@pytest.mark.parametrize("name", [name for name, (_, _, line) in SCRIPTS.items() if line is None])
def test_script_that_is_played(name):
    script, text, _ = SCRIPTS[name]
    expect_accepted(SCRIPT, script, text)


@pytest.mark.parametrize(
    "name",
    [name for name, (script, _, line) in SCRIPTS.items() if line and any(fault in line for fault in OF_FORM) and not is_beyond_form(script, line)],
)
def test_script_of_a_wrong_form(name):
    script, text, line = SCRIPTS[name]
    expect_refused(SCRIPT, script, text, line)


# ---- records


def record_of(text):
    """A record as one object, or None if it is no JSON. One in lines has its flow in the first line."""
    whole = loaded(text)
    if whole is not None and not (isinstance(whole, dict) and list(whole) == ["flow"] and text.count(b"\n") == 1):
        return whole
    values = [loaded(line) for line in text.splitlines() if line.strip()]
    if None in values or not all(isinstance(value, dict) for value in values) or not values or "calls" in values[0]:
        return None
    return {**values[0], "calls": values[1:]}


def judged():
    """The records by their names: the value, the text, and whether the judge refuses it."""
    texts = {name: (path.read_bytes(), name.startswith("refused_")) for name, path in records().items()}
    texts |= {f"worked_{case_id(what)}": (text, False) for what, (text, _) in worked_records().items()}
    hostile = [(what, text, status) for what, text, status in hostile_records.cases() if len(text) <= MOST_BYTES and what not in MOMENTS]
    texts |= {f"hostile_{number}_{case_id(what)}": (text, status == hostile_records.REFUSED) for number, (what, text, status) in enumerate(hostile)}
    return {name: (record_of(text), text, is_refused) for name, (text, is_refused) in texts.items() if record_of(text) is not None}


RECORDS = judged()


@pytest.mark.parametrize("name", [name for name, (_, _, is_refused) in RECORDS.items() if not is_refused])
def test_record_that_is_judged(name):
    record, text, _ = RECORDS[name]
    expect_accepted(RECORD, record, text.decode())


@pytest.mark.parametrize(
    "name", [name for name, (record, _, is_refused) in RECORDS.items() if is_refused and name != OVERLAP and not has_fraction_of_zero(record)]
)
def test_record_of_a_wrong_form(name):
    record, text, _ = RECORDS[name]
    expect_refused(RECORD, record, text.decode(), "refused")


def test_line_of_a_record():
    """A line can be checked alone."""
    line = RECORD.evolve(schema={**RECORD.schema["$defs"]["call"], "$defs": RECORD.schema["$defs"]})
    assert line.is_valid(hostile_records.SET) and not line.is_valid({**hostile_records.SET, "valeu": 1})


# ---- each description


@pytest.mark.parametrize("name", ["script", "record", "trace"])
def test_descriptions_are_sentences(name):
    descriptions = [part["description"] for part in parts(validator(name).schema) if isinstance(part, dict) and isinstance(part.get("description"), str)]
    assert len(descriptions) > 20
    assert [text for text in descriptions if not re.fullmatch(r"[A-Z`].*\.", text)] == []
