"""The theorems of WorkedExamples.antt state what the scripts of examples/ and tests/cases/ say, and no script is there twice."""
import collections
import json
import re
from typing import NamedTuple

import pytest

from wumsnair_tools.built import top
from wumsnair_tools.scripts import all_cases, lines_of, text_of, versions

TEXT = (top / "crates/flow_law/proofs/WorkedExamples.antt").read_text()


class Script(NamedTuple):
    """A script that is worked out by hand, in a version, and its lines."""

    text: str
    lines: list


def scripts():
    """The scripts by their names: those of examples/ by the names of their files, the cases by their files and names."""
    found = {path.stem: Script(path.read_text(), path.with_suffix(".lines").read_text().splitlines()) for path in (top / "examples").glob("*.json")}
    for number, (file, case) in enumerate(all_cases()):
        for version in versions(case):
            name = f"{file}: {case.get('name') or number}" + (", version 2" if len(versions(case)) == 2 and version == 2 else "")
            found[name] = Script(text_of(case, version), lines_of(case, version))
    return found


SCRIPTS = scripts()


# ---- what the theorems state


class Stated(NamedTuple):
    """The script of which a theorem states some steps, in this order; without them all of its steps."""

    script: str
    steps: tuple = ()


OWN = "several.toml: own first values come before the replay cache, and take no number"
READS_OWN = "several.toml: who reads its own first values is still offered the value"
LAGS = "several.toml: a subscriber that has own first values to receive lags only behind those of the flow"
# The theorems on replies to calls.
REPLIES = {
    "slow_subscriber": Stated("slow_subscriber"),
    "oldest_go": Stated("drop_oldest"),
    "latest_go": Stated("drop_latest"),
    "two_readers": Stated("fast_and_slow"),
    "offered_to_two": Stated("capacity_zero"),
    "offer_cancelled": Stated("cancelled_offer"),
    "late_subscriber": Stated("late_subscriber"),
    "two_offers": Stated("shared.toml: without a buffer two emissions wait for each other"),
    "queue_after_the_last": Stated("unsubscribe"),
    # The polls between them change nothing.
    "cancelled_is_lost": Stated("cancelled_emit", (1, 2, 3, 4, 5, 6, 7, 11)),
    "forgotten": Stated("reset"),
    "few_numbers": Stated("few_numbers"),
    # Reading the replay cache, the sixth step, changes nothing.
    "own_values_first": Stated("own_first_values", (1, 2, 3, 4, 5, 7, 8, 9, 10, 11, 6)),
    "own_value_lets_wait": Stated(READS_OWN, (1, 2, 3, 4, 5, 6)),
    "own_value_outlives_a_cancel": Stated("several.toml: a cancelled value leaves a subscriber its own first values"),
    "own_values_are_no_lag": Stated(LAGS, (1, 2, 3, 4, 5)),
    "no_number_for_own_values": Stated(OWN, (16,)),
}
# The theorems on flows that are refused: the script, and the name of its flow.
FAULTS = {"needs_a_buffer": ("refused_flow", None), "too_large": ("refused_among_others", "huge")}
# The theorems that no script can state.
BOX = "no line says what a subscriber has yet to receive, as its mailbox does"
REFUSED = "a script's flow that needs a buffer is refused"
NO_SCRIPT = {"oldest_left": BOX, "admitted_left": BOX, "own_left": BOX, "bufferless_box": REFUSED, "bufferless_rest": REFUSED}

CALLS = {"TryEmit": "try_emit", "Emit": "emit", "Poll": "poll", "Cancel": "cancel", "Subscribe": "subscribe", "TakeNext": "next",
         "Unsubscribe": "unsubscribe", "ReplayCache": "cache", "ResetReplayCache": "reset"}  # fmt: skip
FLOWS = {"suspending": "suspend", "dropping_oldest": "drop_oldest", "dropping_latest": "drop_latest"}
OVERFLOWS = {"Suspend": "suspend", "DropOldest": "drop_oldest", "DropLatest": "drop_latest"}
LINES = {"Emitted Done": "done", "Received Empty": "empty", "Received Gone": "gone", "Reset": "reset", "Refused Exhausted": "refused 4 Exhausted"}
THEOREMS = re.findall(r"^(\w+) : ", TEXT, re.M)


def statement(name, text=TEXT):
    """What a theorem states, in one line."""
    return " ".join(re.search(rf"^{name} : (.*?)^{name} = ", text, re.M | re.S)[1].split())


def bracketed(text):
    """The parts of a text that begins with parts in brackets: what is in the brackets, and the rest."""
    depth, start = 0, 1
    for at, char in enumerate(text):
        depth += (char == "(") - (char == ")")
        if char == ")" and depth == 0:
            yield text[start:at]
        if char == "(" and depth == 1:
            start = at + 1
        if depth == 0 and char not in "( )":
            yield text[at:]
            return


def entries(listed):
    """The entries of a list."""
    found, depth, start = [], 0, 0
    for at, char in enumerate(listed):
        depth += (char == "(") - (char == ")")
        if char == "∷" and depth == 0:
            found.append(listed[start:at].strip())
            start = at + 1
    return found


def flow_of(config):
    """The flow of a script that a configuration stands for. The limit of 1000 numbers, which none of the rows reaches, stands for none."""
    words = config.split()
    if words[0] in FLOWS:
        return {"kind": "shared", "replay": int(words[1]), "extra": int(words[2]), "overflow": FLOWS[words[0]]}
    fields = dict(re.findall(r"(\w+) = (\w+)", config))
    return {"kind": "shared", "replay": int(fields["replay"]), "extra": int(fields["extra"]), "overflow": OVERFLOWS[fields["overflow"]],
            "limit": int(fields["limit"])}  # fmt: skip


def line_of(do, reply):
    """The line that a reply stands for, and the number that it issues or None."""
    word, _, rest = reply.partition(" ")
    if word == "Subscribed" or rest.startswith("(Queued "):
        return "subscribed" if word == "Subscribed" else "queued", int(re.search(r"\d+", rest)[0])
    if word == "Tested":
        return {"true": "waiting", "false": "done"}[rest] if do == "poll" else rest, None
    if word == "Cached":
        return f"[{', '.join(re.findall(r'[0-9]+', rest))}]", None
    return LINES.get(reply) or f"value {re.fullmatch(r'Received .Value ([0-9]+).', reply)[1]}", None


def rows_of_theorem(name, names, text=TEXT):
    """The flow of a theorem, and its rows in words. A number has the name that the step has, which must always be the same one."""
    config, calls, replies = bracketed(statement(name, text).removeprefix("replies "))
    rows, named = [], {}
    for call, reply, step_name in zip(entries(calls), entries(replies.removeprefix("≡ ")), names, strict=True):
        word, *words = call.split(" ", 1)
        line, issued = line_of(CALLS[word], reply)
        if CALLS[word] in ("poll", "cancel", "next", "unsubscribe"):
            issued, words = int(words[0]), []
        if issued is not None and step_name not in named.values():
            named.setdefault(issued, step_name)
        shown = named.get(issued, f"number {issued}") if issued is not None else step_name
        values = re.findall(r"\d+", "".join(words))
        rows.append(f"{CALLS[word]} {shown or ''} {values}: {line}")
    return flow_of(config), rows


def rows_of_script(stated):
    """The flow of a script, the rows in words, and the name in each step or None."""
    text, lines = SCRIPTS[stated.script]
    script = json.loads(text)
    numbers = stated.steps or range(1, len(script["steps"]) + 1)
    lines = lines[-len(script["steps"]) :]
    steps = [script["steps"][number - 1] for number in numbers]
    (flow,) = {step.get("flow") for step in steps}
    rows = [
        f"{step['do']} {step.get('name', '')} {[str(value) for value in step.get('first', [step['value']] if 'value' in step else [])]}: {lines[number - 1]}"
        for step, number in zip(steps, numbers)
    ]
    return script["flows"][flow] if flow else script["flow"], rows, [step.get("name") for step in steps]


def test_each_theorem_is_mapped():
    assert sorted(THEOREMS) == sorted([*REPLIES, *FAULTS, *NO_SCRIPT])


@pytest.mark.parametrize("name", REPLIES)
def test_theorem_states_the_script(name):
    flow, rows, names = rows_of_script(REPLIES[name])
    assert rows_of_theorem(name, names) == (flow, rows), f"theorem {name} (left) and {REPLIES[name].script} (right)"


@pytest.mark.parametrize("name", FAULTS)
def test_theorem_states_the_fault(name):
    (script, flow_name), (config, rest) = FAULTS[name], bracketed(statement(name).removeprefix("config_fault "))
    text, lines = SCRIPTS[script]
    flow = json.loads(text)["flows"][flow_name] if flow_name else json.loads(text)["flow"]
    fault = rest.removeprefix("≡ Some ")
    refused = [line.split()[-1] for line in lines if line.startswith(f"{flow_name} refused " if flow_name else "refused ")]
    assert (flow_of(config), [fault]) == (flow, refused), f"theorem {name} (left) and {script} (right)"


CHANGES = [("Tested false", "Tested true"), ("Poll 4", "Poll 3"), ("TryEmit 2", "TryEmit 1"), ("suspending 1 1", "suspending 1 2"), ("3 ∷ [])", "[])"),
           ("Received Empty", "Received Gone"), ("Emit 3 ∷ Poll", "TryEmit 3 ∷ Poll")]  # fmt: skip


@pytest.mark.parametrize("old, new", CHANGES)
def test_theorem_that_states_something_else(old, new):
    """A theorem with another row than the script is found."""
    flow, rows, names = rows_of_script(REPLIES["slow_subscriber"])
    at = TEXT.index("slow_subscriber :")
    changed = TEXT[:at] + TEXT[at:].replace(old, new, 1)
    assert changed != TEXT and rows_of_theorem("slow_subscriber", names, changed) != (flow, rows)


# ---- no script twice


def pairs(members):
    """An object as a dictionary, or as its members if a key occurs twice."""
    return dict(members) if len(dict(members)) == len(members) else {"members": members}


def renamed(part, names):
    """A part of a script whose names are replaced by numbers in the order in which they occur."""

    def number(name):
        return names.setdefault(name, len(names)) if isinstance(name, str) and re.fullmatch("[a-z0-9_]{1,32}", name) else name

    if isinstance(part, list):
        return [renamed(each, names) for each in part]
    if not isinstance(part, dict):
        return part
    found = {}
    for key, value in sorted(part.items()):
        if key == "flows" and isinstance(value, dict):
            found[key] = {str(number(name)): renamed(flow, names) for name, flow in value.items()}
        else:
            found[key] = number(value) if key in ("flow", "name") and isinstance(value, str) else renamed(value, names)
    return found


def normal(text):
    """A form in which scripts are the same that differ only in names, white space and the order of keys. A number is as it is written."""
    try:
        value = json.loads(text, object_pairs_hook=pairs, parse_float=lambda number: {"number": number})
    except ValueError:
        return text.strip()
    return json.dumps(renamed(value, {}), sort_keys=True)


def test_no_script_is_there_twice():
    """In examples/ and in tests/cases/."""
    found = collections.defaultdict(list)
    for name, script in SCRIPTS.items():
        found[normal(script.text)].append(name)
    assert [names for names in found.values() if len(names) > 1] == []


@pytest.mark.parametrize(
    "other, is_same",
    [
        ('{"version":2,"flows":{"q":{"kind":"state","initial":1.0}},"steps":[{"name":"b","flow":"q","do":"next"}]}', True),
        ('{"version":2,"flows":{"q":{"kind":"state","initial":1e0}},"steps":[{"name":"b","flow":"q","do":"next"}]}', False),
        ('{"version":2,"flows":{"q":{"kind":"state","initial":1.0}},"steps":[{"name":"q","flow":"q","do":"next"}]}', False),
        ('{"version":2,"flows":{"q":{"kind":"state","initial":1.0},"q":{}},"steps":[{"name":"b","flow":"q","do":"next"}]}', False),
    ],
)
def test_normal_form(other, is_same):
    text = '{"version":2,"flows":{"p":{"kind":"state","initial":1.0}},\n"steps":[{"do":"next","flow":"p","name":"a"}]}'
    assert (normal(text) == normal(other)) == is_same
