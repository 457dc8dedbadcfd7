"""The calls that a verdict lists are read right whatever the callers' names are, and a terminal gets no control characters: in Python and in
JavaScript alike.

The verdicts are made here as the program prints them. tests/programs/test_verdicts.py asks ./judge about such names."""
import json
import subprocess

import pytest

from conftest import TOP
from wumsnair_tools.judging import reports
from wumsnair_tools.judging.oracle import Verdict
from wumsnair_tools.judging.verdict_text import lines_of, visible_words
from wumsnair_tools.terminal import visible

# Callers' names, each with what a terminal shows of it.
NAMES = {
    "t1": "t1",
    "": "",
    "two words": "two words",
    "é \U0001f600 \\n": "é \U0001f600 \\n",
    "t\n  1  z set 5: done": "t\\u000a  1  z set 5: done",
    "t\n  1  z": "t\\u000a  1  z",
    "\n": "\\u000a",
    "\n  2  ": "\\u000a  2  ",
    "a\nby moment 3 no order explains the calls; from 1 on there were:": "a\\u000aby moment 3 no order explains the calls; from 1 on there were:",
    "a set 3: done (it returns)\n": "a set 3: done (it returns)\\u000a",
    "\x1b[2J\x1b]0;title\x07": "\\u001b[2J\\u001b]0;title\\u0007",
    "\r\t\b\0": "\\u000d\\u0009\\u0008\\u0000",
    "\x7f\x9b31m": "\\u007f\\u009b31m",
    "\u202egnp.\u2066x": "\\u202egnp.\\u2066x",
}
# Reads names and verdicts, and prints what JavaScript makes of them.
IN_NODE = """
import { readFileSync } from "node:fs";
import { jsonReport, junitReport } from "./page/command/reports.mjs";
import { linesOf, visible, visibleWords } from "./page/web/verdict_text.js";
const { names, verdicts } = JSON.parse(readFileSync(0));
const lines = ({ words, calls }) => linesOf(words, calls).map(({ number, front, name, rest }) => [number, front, name, rest]);
const read = verdicts.map((each) => ({ lines: lines(each), visible: visibleWords(each.words, each.calls) }));
console.log(JSON.stringify({ shown: names.map(visible), read, json: jsonReport(verdicts, true), junit: junitReport(verdicts) }));
"""


def calls_by(name):
    """Two calls of a caller z, and two of one of this name between them."""
    z, own = ({"by": by, "call": "set", "value": 5, "begin": 1, "end": 2, "answer": "done"} for by in ("z", name))
    return [z, own, own, z]


def illegal(name):
    """A verdict that lists the second and the fourth of these calls."""
    calls = calls_by(name)
    named = "".join(f"  {number}  {calls[number - 1]['by']} set 5: done  [1, 2]\n" for number in (2, 4))
    words = f"illegal\nby moment 2 no order explains the calls; from 1 on there were:\n{named}"
    return Verdict("-", "illegal", 1, words, [f"all calls of {name} come late"], calls)


def legal(name):
    """A verdict with an order, in which the last turn is a part of a call."""
    calls = calls_by(name)
    named = "".join(f"  {number}  {calls[number - 1]['by']} set 5: done{part}\n" for number, part in ((3, ""), (2, ""), (1, ""), (4, " (it returns)")))
    return Verdict("-", "legal", 0, f"legal\n{named}", [], calls)


VERDICTS = [make(name) for name in NAMES for make in (illegal, legal)]


@pytest.fixture(scope="module")
def in_node():
    given = {"names": list(NAMES), "verdicts": [vars(verdict) for verdict in VERDICTS]}
    ran = subprocess.run(["node", "--input-type=module", "-e", IN_NODE], cwd=TOP, input=json.dumps(given), capture_output=True, text=True, check=True)
    return json.loads(ran.stdout)


@pytest.mark.parametrize("name", NAMES, ids=ascii)
def test_calls_of_a_verdict(name):
    """The numbers and the moments are those of the verdict, and not those of a name."""
    told = reports.entry(illegal(name), False)
    assert [call["number"] for call in told["calls"]] == [2, 4] and (told["moment"], told["since"]) == (2, 1)
    order = reports.entry(legal(name), True)["order"]
    assert [(turn["number"], turn["by"], turn["part"]) for turn in order] == [(3, name, None), (2, name, None), (1, "z", None), (4, "z", "it returns")]


@pytest.mark.parametrize("name", NAMES, ids=ascii)
def test_verdict_at_a_terminal(name):
    """Each call has one line, and a name no control character."""
    shown = NAMES[name]
    assert visible(name) == shown
    assert visible_words(illegal(name).words, calls_by(name)).split("\n")[2:] == [f"  2  {shown} set 5: done  [1, 2]", "  4  z set 5: done  [1, 2]", ""]


@pytest.mark.parametrize("words", ["legal\n", "illegal\n", "gave up\n", "refused: line 1, column 1: the text ends here\n  expected: a value\n", ""])
def test_verdict_without_calls(words):
    assert visible_words(words, []) == words


def test_bar_of_a_drawing():
    """A line of a drawing has a bar before the number of its call."""
    words = "illegal\n|-----|   ! 2  a\nb set 5: done  [10, 20]\n  |---->    3  a\nb set 5: done  [11, ..]\n"
    assert [line.number for line in lines_of(words, calls_by("a\nb"))] == [0, 2, 3]
    assert visible_words(words, calls_by("a\nb")) == words.replace("a\nb", "a\\u000ab")


def test_same_in_node(in_node):
    assert in_node["shown"] == list(NAMES.values())
    read = [{"lines": [list(line) for line in lines_of(each.words, each.calls)], "visible": visible_words(each.words, each.calls)} for each in VERDICTS]
    assert in_node["read"] == read
    assert json.loads(in_node["json"])["records"] == json.loads(reports.json_report(VERDICTS, True))["records"]
    assert in_node["junit"] == reports.junit_report(VERDICTS)
