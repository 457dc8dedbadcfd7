"""The program of docs/RECORDS.md, and what examples/recorders/README.md and docs/RECORDS.md say about state flows, by recorder.py.

The records are judged by page/wumsnair.mjs as it is kept."""
import io
import json
import re
import shutil
import subprocess
import sys

import pytest

from conftest import TOP

PYTHON = TOP / "examples" / "recorders" / "python"
STATE = {"kind": "state", "initial": 0}
# The most runs of a program of threads whose record must be illegal, or must not be too hard for the search.
RUNS = 10


@pytest.fixture(scope="module")
def recorder():
    sys.path.insert(0, str(PYTHON))
    import recorder

    return recorder


def verdict(record):
    ran = subprocess.run(["node", TOP / "page" / "wumsnair.mjs", "judge"], input=record, capture_output=True, text=True, timeout=60)
    return ran.stdout.partition("\n")[0]


def written(recording):
    text = io.StringIO()
    recording.write(STATE, text)
    return text.getvalue()


def make(caller, name, answer, **keys):
    with caller.call(name, **keys) as call:
        call.answer = answer


@pytest.fixture
def program(tmp_path):
    """Runs the program of the page with another queue, and returns the verdicts of some runs."""
    text = re.search(r"^```python\n(.*?)^```$", (TOP / "docs" / "RECORDS.md").read_text(), re.M | re.S)[1]
    shutil.copy(PYTHON / "recorder.py", tmp_path)

    def verdicts(queue):
        (tmp_path / "record.py").write_text(text.replace("queue.Queue(2)", queue))
        for _ in range(RUNS):
            ran = subprocess.run([sys.executable, "record.py"], cwd=tmp_path, capture_output=True, text=True, check=True, timeout=60)
            yield verdict(ran.stdout)

    return verdicts


def test_program_of_the_page(program):
    assert next(told for told in program("queue.Queue(2)") if told != "gave up") == "legal"
    assert "illegal" in program("queue.LifoQueue(2)")


@pytest.mark.parametrize("is_value", [False, True])
def test_flow_that_notifies_by_version(recorder, is_value):
    """A `next` that gives the last value again is illegal, and legal as `value`."""
    recording = recorder.Recording()
    reader, writer = recording.caller("r"), recording.caller("w")
    make(reader, "subscribe", "done")
    make(reader, "next", {"value": 0})
    make(writer, "set", "done", value=1)
    make(writer, "set", "done", value=0)
    with reader.call("next") as call:
        if is_value:
            call.end_as("value", {"value": 0})
        else:
            call.answer = {"value": 0}
    assert verdict(written(recording)) == ("legal" if is_value else "illegal")


@pytest.mark.parametrize("seen, told", [(3, "legal"), (0, "illegal")])
def test_compare_exchange(recorder, seen, told):
    """One that succeeds is an `update`, and one that fails a `value`."""
    recording = recorder.Recording()
    caller = recording.caller("a")
    make(caller, "update", {"old": 0, "value": 3})
    with caller.call("update") as call:
        call.end_as("value", {"value": seen})
    assert verdict(written(recording)) == told


def test_call_without_an_answer(recorder):
    """The error names the call."""
    caller = recorder.Recording().caller("a")
    with caller.call("set", value=3):
        pass
    with pytest.raises(RuntimeError) as error, caller.call("value"):
        pass
    line, said = str(error.value).split(" has not ended: ")
    assert json.loads(line) == {"by": "a", "call": "set", "value": 3, "begin": 1}
    assert said == "its block set no call.answer, or still runs"
