"""Each script of examples/ prints the lines beside it, which were typed by hand, and so does each of version 1 as one of version 2."""
import pytest

from running import ended, expect, run
from worked_scripts import worked_examples

WORKED = dict(worked_examples())


@pytest.mark.parametrize("name", WORKED)
def test_example(flow_play, name):
    worked = WORKED[name]
    expect(run(flow_play, text=worked.text.encode()), ended(worked.status, *worked.lines))
