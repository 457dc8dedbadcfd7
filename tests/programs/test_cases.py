"""Each case of tests/cases/*.toml prints its lines, is explained as it says, and has the rules that it names.

tools/wumsnair_tools/scripts.py describes the keys of a case."""
import pytest

from running import case_id, ended, expect, run
from wumsnair_tools.scripts import all_cases, lines_of, text_of, versions

PLAYED, REFUSED = 0, 2


def cases(is_taken):
    """The cases that are taken, each in its versions."""
    for number, (file, case) in enumerate(all_cases()):
        for version in versions(case) if is_taken(case) else ():
            name = case.get("name") or f"{case.get('refused', '')} {number}"
            yield pytest.param(case, version, id=case_id(file.removesuffix(".toml"), name, f"version {version}" if version else ""))


def has_rules(case):
    return any(len(step) == 3 for step in case.get("steps", []) if not isinstance(step, str))


@pytest.mark.parametrize("case, version", cases(lambda case: True))
def test_lines(flow_play, case, version):
    text = text_of(case, version)
    status = REFUSED if "refused" in case else PLAYED
    expect(run(flow_play, text=text.encode()), ended(status, *lines_of(case, version)), text)


@pytest.mark.parametrize("case, version", cases(lambda case: "explained" in case))
def test_explanation(flow_draw, case, version):
    """The drawer explains a refused script on standard error."""
    text = text_of(case, version)
    expect(run(flow_draw, text=text.encode()), ended(REFUSED, *lines_of(case, version), said=case["explained"]), text)


@pytest.mark.parametrize("case, version", cases(has_rules))
def test_rules(flow_draw, case, version):
    """The drawer lists the steps at the end, each with its line and its rule."""
    listing = run(flow_draw, "--explain", text=text_of(case, version).encode())
    listed = listing.printed.decode().splitlines()[-len(case["steps"]) :]
    assert (listing.status, len(listed)) == (PLAYED, len(case["steps"]))
    wanted = [(number, f": {step[1]}  -- {step[2]}") for number, step in enumerate(case["steps"], 1) if len(step) == 3]
    pairs = [(listed[number - 1], f"{number:5}  ", end) for number, end in wanted]
    assert [pair for pair in pairs if not (pair[0].startswith(pair[1]) and pair[0].endswith(pair[2]))] == []
