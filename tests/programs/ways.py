"""What `flow_play_over` prints of a script in each way, as docs/SCRIPTS.md says it: the lines of `flow_play`, except for what the way
does not have."""
import json

from worked_scripts import PLAYED, is_refused

# The ways that have all flows and all calls.
WHOLE = ("one-thread", "threads", "futures")
WAYS = (*WHOLE, "word")
# What flows of words do not have: sharing into a shared flow, the strategy of a shared flow that suspends, first values of a subscriber, and the steps
# on a state flow for which they have no call.
NO_KIND, NO_STRATEGY, NO_KEY = "share", "suspend", "first"
NO_STEPS = ("cache", "reset")
LACKING = (NO_KIND, NO_STRATEGY, NO_KEY, *NO_STEPS)
NO_CALL = "no such call over word: "


def flows_of(script):
    """The flows of a script by their names. The flow of version 1 has none."""
    flows = script["flows"] if script["version"] == 2 else {"": script["flow"]}
    return {name: flow for name, flow in flows.items() if flow["kind"] != "none"}


def lacked_by_word(script, name, flow):
    """What `word` lacks of a flow that is not refused, if it does not have the flow. It lacks a sharing also if that is refused."""
    if flow["kind"] == NO_KIND:
        return NO_KIND
    if flow["kind"] == "shared" and flow["overflow"] == NO_STRATEGY:
        return flow["overflow"]
    if any(NO_KEY in step and step.get("flow", "") == name for step in script["steps"]):
        return NO_KEY
    return None


class OverWord:
    """What `word` prints of a script that is played: its lines, how many lines of `flow_play` are among them, and what it does not have.

    The lines of `flow_play` are given, and the line of each step for a script of version 1 whose flow is refused."""

    def __init__(self, script, lines, answers=()):
        self.lines, self.same, self.lacking = [], 0, []
        steps, is_first = script["steps"], script["version"] == 1
        flows = flows_of(script)
        has_no_answers = is_first and is_refused(script, lines)
        heads = lines if has_no_answers else lines[: len(lines) - len(steps)]
        self.refused = {"" if is_first else line.partition(" ")[0]: line for line in heads}
        lacked = {name: lacked_by_word(script, name, flow) for name, flow in flows.items()}
        self.lacked = {name: what for name, what in lacked.items() if what == NO_KIND or what and name not in self.refused}
        self.states = [name for name, flow in flows.items() if flow["kind"] in ("state", "state_in")]
        for name in sorted(flows):
            self.add_head(name)
        if not has_no_answers:
            self.add_steps(steps, lines[len(heads) :])
        elif self.lacking:
            self.add_steps(steps, answers or ["no flow"] * len(steps))
            self.same = 0

    def add(self, line):
        self.lines.append(line)
        self.same += 1

    def lack(self, what, before=""):
        self.lines.append(f"{before}{NO_CALL}{what}")
        if what not in self.lacking:
            self.lacking.append(what)

    def add_head(self, name):
        if name in self.lacked:
            self.lack(self.lacked[name], f"{name} " if name else "")
        elif name in self.refused:
            self.add(self.refused[name])

    def add_steps(self, steps, answers):
        for step, answer in zip(steps, answers, strict=True):
            name = step.get("flow", "")
            if step["do"] != "collect" and name in self.lacked:
                self.lines.append("no flow")
            elif step["do"] in NO_STEPS and name in self.states and name not in self.refused:
                self.lack(step["do"])
            else:
                self.add(answer)


def plays(way, script):
    """Whether a way makes calls of flows for a script."""
    return any(way != "word" or lacked_by_word(script, name, flow) is None for name, flow in flows_of(script).items())


def lines_over(way, worked):
    """The lines of a worked script in a way."""
    if way != "word" or worked.status != PLAYED:
        return worked.lines
    return OverWord(json.loads(worked.text), worked.lines, worked.answers).lines


def lines_over_all(text, lines, status):
    """The lines of a script in all ways, with those of `flow_play` and its status given."""
    if status != PLAYED:
        return lines
    word = OverWord(json.loads(text), lines)
    lacking = ", ".join(word.lacking)
    by_word = f"same in {word.same} of {len(lines)} lines; {NO_CALL}{lacking}" if lacking else "same"
    return [*lines, "threads: same", "futures: same", f"word: {by_word}"]
