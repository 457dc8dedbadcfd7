"""The cases of tests/cases/*.toml as scripts, and the lines that these print.

A case is a block of one of these files. The text between single quotes reaches the program unchanged, so a case can have a key
twice, `1e0`, or a text that is not JSON. Lines and rules are typed by hand, from docs/SCRIPTS.md and docs/DEFINITIONS.md.

    [[case]]
    name = "a value without a subscriber is gone"
    flow = '{"kind":"shared","replay":0,"extra":0,"overflow":"suspend"}'
    steps = [
        ['{"do":"try_emit","value":5}', 'true'],
        ['{"do":"cache"}', '[]', 'without replay the replay cache stays empty'],
    ]

name           what the case shows; it may be left out
flow           the flow of a script of version 1. Unless the case has `version = 1`, it is played in version 2, too, where its
               flow has the name f
flows          in place of `flow` the flows of a script of version 2
steps          each step, its line and, if it must be compared, the rule that `./draw --explain` prints for it; for a script that is
               refused only the steps
refused        the one line by which the script is refused
flow_refused   the line by which its one flow is refused, which is all that version 1 prints
flows_refused  the lines of the flows that are refused, which come before those of the steps
script         in place of `flow` or `flows` and `steps` a whole text, with `refused`
explained      what `./draw` prints about it on standard error
traced         what the trace says of its one flow after each step: how many values it has emitted, how many of them it keeps, and the lag
               of each subscriber
"""
import tomllib

from wumsnair_tools.built import top

NO_FLOW = '{"kind":"none"}'


def all_cases():
    """Each case, with the name of its file."""
    files = sorted((top / "tests" / "cases").glob("*.toml"))
    return [(file.name, case) for file in files for case in tomllib.loads(file.read_text())["case"]]


def versions(case):
    """The versions in which a case is played: 1 and 2 if it has one flow. A whole text has its own version."""
    if "script" in case:
        return (0,)
    if "flows" in case:
        return (2,)
    return (1,) if case.get("version") == 1 else (1, 2)


def named(step):
    """A step of version 1 as one of version 2 on the flow f. A collection has no flow."""
    return step if step.startswith('{"do":"collect"') else '{"flow":"f",' + step[1:]


def text_of(case, version):
    """The script of a case in a version. The flow of a script of version 1 has the name f in version 2."""
    if "script" in case:
        return case["script"]
    steps = [step if isinstance(step, str) else step[0] for step in case["steps"]]
    if version == 1:
        return f'{{"version":1,"flow":{case["flow"]},"steps":[{",".join(steps)}]}}'
    flows = case.get("flows")
    if flows is None:
        flows = "{}" if case["flow"] == NO_FLOW else f'{{"f":{case["flow"]}}}'
        steps = map(named, steps)
    return f'{{"version":2,"flows":{flows},"steps":[{",".join(steps)}]}}'


def lines_of(case, version):
    """The lines that the script of a case prints in a version. In version 2 the line of a refused flow begins with the flow's name."""
    if "refused" in case:
        return [case["refused"]]
    lines = [step[1] for step in case["steps"]]
    if "flow_refused" not in case:
        return case.get("flows_refused", []) + lines
    refused = case["flow_refused"]
    return [refused] if version == 1 else [f"f {refused}", *lines]
