"""The worked scripts, those of examples/ and of tests/cases/, each with the lines that it prints.

A script of version 1 is also one of version 2, in which its flow has the name f. There a refused flow has its name before its line, and
its steps print `no flow`."""
import json
import re
from typing import NamedTuple

from running import case_id, examples
from wumsnair_tools.scripts import all_cases, lines_of, text_of, versions

PLAYED, REFUSED = 0, 2
# The lines of flows that are refused when they are made; no step has one of these.
FLOW_REFUSED = re.compile("refused (2 TooLarge|3 NeedsBuffer|3 Chain (3 NotPositive|5 TooDeep)|4 Flow 2 TooLarge)")


class Worked(NamedTuple):
    """The text of a script, the lines that it prints, the player's status, and the line that each step has if its flows are played."""

    text: str
    lines: list
    status: int
    answers: list


def is_refused(script, lines):
    """Whether the lines are the one line of a flow that is refused."""
    return len(lines) == 1 and FLOW_REFUSED.fullmatch(lines[0]) is not None


def named(script):
    """The script of version 1 as one of version 2."""
    flows = {} if script["flow"]["kind"] == "none" else {"f": script["flow"]}
    steps = [step if step["do"] == "collect" else {**step, "flow": "f"} for step in script["steps"]]
    return {"version": 2, "flows": flows, "steps": steps}


def lines_of_named(script, lines):
    """The lines of the script that `named` returns."""
    if not is_refused(script, lines):
        return lines
    return [f"f {lines[0]}", *("no flow" for step in script["steps"])]


def worked_examples():
    """The scripts of examples/, by their names."""
    for name, path in examples().items():
        text, lines = path.read_text(), path.with_suffix(".lines").read_text().splitlines()
        script = json.loads(text)
        status = REFUSED if lines and lines[0].startswith("script refused ") else PLAYED
        longer = lines_of_named(script, lines) if script["version"] == 1 else lines
        answers = longer[-len(script["steps"]) :]
        yield name, Worked(text, lines, status, answers)
        if script["version"] == 1:
            yield f"{name}_in_version_2", Worked(json.dumps(named(script)), longer, status, answers)


def worked_cases():
    """The scripts of tests/cases/, each in its versions, by the names of their tests."""
    for number, (file, case) in enumerate(all_cases()):
        status = REFUSED if "refused" in case else PLAYED
        answers = [step[1] for step in case["steps"]] if status == PLAYED else []
        for version in versions(case):
            name = case_id("case", number, file.removesuffix(".toml"), case.get("name", ""), "version", version)
            yield name, Worked(text_of(case, version), lines_of(case, version), status, answers)


def worked_scripts():
    """All worked scripts, by their names."""
    return {**dict(worked_examples()), **dict(worked_cases())}
