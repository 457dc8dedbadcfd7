"""The judge with hostile records, inputs, outputs and arguments, and with each request for memory refused in turn.

The outcomes are those of docs/RECORDS.md."""
import os
import subprocess

import pytest

from hostile_records import FAILED, GAVE_UP, ILLEGAL, LEGAL, REFUSED, SET, VALUE, cases, damaged, whole
from refusing import refuse_each
from running import SECONDS, case_id, ended, expect, records, run

# The first line of what is printed.
VERDICTS = {LEGAL: b"legal", ILLEGAL: b"illegal", REFUSED: b"refused: ", GAVE_UP: b"gave up"}
OUT_OF_MEMORY = ended(FAILED, "out of memory")
USAGE = ended(REFUSED, "usage: flow_judge [--turns N] [--order | --draw [--text]]")
FORMS = {"verdict": [], "order": ["--order"], "draw": ["--draw"], "draw_text": ["--draw", "--text"]}
WRONG_WORDS = (["--Order"], ["--draw", "--order"], ["--text"], ["--draw", "--draw"], [""], ["--draw", "--text", "--text"], ["--turns"],
               ["--turns", "-1"], ["--turns", "2^9"], ["--turns", "18446744073709551616"], ["--order", "--turns", "9"])  # fmt: skip


def is_verdict(came, status):
    """Whether a program ended with a status, and printed its verdict first."""
    first = came.printed.partition(b"\n")[0]
    return came.status == status and (first.startswith(VERDICTS[status]) if status == REFUSED else first == VERDICTS[status])


@pytest.mark.parametrize("text, status", [pytest.param(text, status, id=case_id(what)) for what, text, status in cases()])
def test_record(flow_judge, text, status):
    came = run(flow_judge, text=text)
    assert is_verdict(came, status), f"wanted status {status}, came {came!r:.300}"


@pytest.mark.parametrize("damage", damaged())
def test_damaged_record(flow_judge, damage):
    came = {what: (run(flow_judge, text=text), status) for what, (text, status) in damaged()[damage].items()}
    wrong = [f"{what}: wanted status {status}, came {outcome!r:.200}" for what, (outcome, status) in came.items() if not is_verdict(outcome, status)]
    assert wrong == []


def test_folder_as_input(flow_judge, tmp_path):
    reading = os.open(tmp_path, os.O_RDONLY)
    ran = subprocess.run([flow_judge], stdin=reading, stdout=subprocess.PIPE, timeout=SECONDS)
    os.close(reading)
    assert ran.returncode == FAILED


@pytest.mark.parametrize("words", FORMS.values(), ids=FORMS)
def test_full_device(flow_judge, words):
    with open("/dev/full", "wb", buffering=0) as full:
        assert subprocess.run([flow_judge, *words], input=whole(SET, VALUE), stdout=full, timeout=SECONDS).returncode == FAILED


@pytest.mark.parametrize("words", WRONG_WORDS, ids=case_id)
def test_wrong_words(flow_judge, words):
    expect(run(flow_judge, *words, text=whole(SET, VALUE)), USAGE)


@pytest.mark.parametrize("words", FORMS.values(), ids=FORMS)
@pytest.mark.parametrize("name", records())
def test_refused_memory(shim, flow_judge, name, words):
    """A run with a refused request says so, and nothing else."""
    refuse_each(shim, flow_judge, words, records()[name].read_bytes(), lambda _: True, lambda came, _: came == OUT_OF_MEMORY)
