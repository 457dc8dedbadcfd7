"""Tests the flows and chains in plain Rust of bench/peers by the scripts of examples/ and tests/cases/.

`ref` has shared flows, state flows, and shared chains of plain lists. It plays each script that is not refused as a whole and
has no other chain and no collection. `collect` plays the scripts that only collect chains."""
import difflib
import json
import subprocess
import sys

from wumsnair_tools.built import top
from wumsnair_tools.scripts import all_cases, lines_of, text_of, versions

NEVER = 2**64 - 1


def named(script, lines):
    """A script of version 1 as one of version 2 with the flow f, and its lines."""
    if script["version"] == 2:
        return script, lines
    flow = script["flow"]
    if flow["kind"] == "none":
        return {"flows": {}, "steps": script["steps"]}, lines
    if lines[:1] in (["refused 2 TooLarge"], ["refused 3 NeedsBuffer"]):
        lines = [f"f {lines[0]}", *("no flow" for _ in script["steps"])]
    return {"flows": {"f": flow}, "steps": [{"flow": "f", **step} for step in script["steps"]]}, lines


def is_plain(flow):
    """Whether `ref` has flows of this kind."""
    if flow["kind"] == "share":
        return not flow["chain"]["ops"] and "of" in flow["chain"]["from"]
    return flow["kind"] in ("shared", "state")


def can_play(script):
    steps_on_flows = all(step["do"] != "collect" for step in script["steps"])
    return bool(script["flows"]) and steps_on_flows and all(map(is_plain, script["flows"].values()))


def words_of_flow(flow):
    """The words that make the flow."""
    limit = flow.get("limit", NEVER)
    if flow["kind"] == "shared":
        return ["shared", flow["replay"], flow["extra"], flow["overflow"], limit]
    if flow["kind"] == "state":
        return ["state", flow["initial"], limit]
    started = flow["started"]
    if isinstance(started, dict):
        started = f"stop:{started['stop']}:{started.get('expire', NEVER)}"
    return ["share", flow["replay"], started, limit, *flow["chain"]["from"]["of"]]


def words_of_step(step):
    """The call of a step: its words, in the order in which the call takes them."""
    keys = ("flow", "do", "name", "value", "expect", "update", "at")
    return [step[key] for key in keys if key in step] + step.get("first", [])


def calls(script):
    """The script as calls, one per line. Flows are made in the order of their names."""
    flows = [["flow", name, *words_of_flow(flow)] for name, flow in sorted(script["flows"].items())]
    rows = flows + [words_of_step(step) for step in script["steps"]]
    return "".join(" ".join(map(str, row)) + "\n" for row in rows)


def scripts():
    """Each script's name, its text, and the lines that it prints."""
    for path in sorted((top / "examples").glob("*.json")):
        yield path.name, path.read_text(), path.with_suffix(".lines").read_text().splitlines()
    for file, case in all_cases():
        if "script" not in case and "refused" not in case:
            version = versions(case)[-1]
            yield f"{file}: {case.get('name', '')}", text_of(case, version), lines_of(case, version)


def accepted():
    """Each script that is not refused, in version 2."""
    for name, text, lines in scripts():
        if not lines or not lines[0].startswith("script refused "):
            yield name, text, *named(json.loads(text), lines)


def for_ref():
    """Each script that `ref` plays: its name, its calls, and the lines that they print."""
    for name, _, script, lines in accepted():
        if can_play(script):
            yield name, calls(script), lines


def for_collect():
    """Each script that `collect` plays: its name, its text, and the lines that it prints."""
    for name, text, script, lines in accepted():
        if not script["flows"] and script["steps"]:
            yield name, text, lines


def test(program, word, played):
    """Plays scripts. Exits at the first one that prints other lines than it should, and returns the number of scripts."""
    count = 0
    for name, given, lines in played:
        ran = subprocess.run([program, word], input=given, capture_output=True, text=True)
        printed = ran.stdout.splitlines()
        if ran.returncode != 0 or printed != lines:
            wanted = difflib.unified_diff(lines, printed, "wanted", "printed", lineterm="")
            sys.exit("\n".join([name, *wanted, ran.stderr]))
        count += 1
    return count


def test_peers(program):
    print(f"ref: {test(program, 'play', for_ref())} scripts played as their lines say")
    print(f"collect: {test(program, 'collect', for_collect())} scripts played as their lines say")
