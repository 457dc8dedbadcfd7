"""./judge on several records, its reports, its limits, and its remedies for records that were recorded wrongly.

The reports of `./judge --json` have the members that docs/RECORDS.md lists, and those of `--junit` are XML. The sentences of the
remedies are those of page/command/remedies.json."""
import json
import os
import pty
import resource
import subprocess
import sys
import xml.etree.ElementTree

import pytest

from wumsnair_tools.built import top
from wumsnair_tools.judging import oracle
from hostile_records import SET, SHARED, STATE, VALUE, lines, whole
from running import SECONDS, case_id, records

RECORDS = {name: str(path.relative_to(top)) for name, path in records().items()}
LEGAL, STALE = RECORDS["legal_state_overlap"], RECORDS["illegal_state_stale"]
OVERLAPPING, UNKNOWN = RECORDS["refused_calls_of_one_caller_overlap"], RECORDS["refused_unknown_call"]
NO_FILE = "no_such_file.json"
STATUSES = {"legal": 0, "illegal": 1, "refused": 2}
MEMBERS = "record verdict status seconds counts moment since calls order refusal hints".split()
# A record of many calls.
MANY = lines(*({**SET, "begin": 2 * at, "end": 2 * at + 1} for at in range(100_000)))
# More bytes than a record may have.
TOO_MANY = 268_435_457
TOO_LARGE = "refused: the record has more than 268435456 bytes\n  expected: at most 268435456 bytes\n"


def judge(*words, text=None):
    given = {"input": text} if text is not None else {"stdin": subprocess.DEVNULL}
    ran = subprocess.run(["./judge", *words], cwd=top, capture_output=True, timeout=SECONDS, **given)
    return ran.returncode, ran.stdout.decode(), ran.stderr.decode()


def report(*words, text=None):
    """The status of `./judge --json`, and the report."""
    status, printed, _ = judge("--json", *words, text=text)
    return status, json.loads(printed)


def test_several_records():
    """Each record has its words after its name, and the last line counts the verdicts."""
    status, printed, said = judge(LEGAL, STALE, UNKNOWN)
    told = [(top / path).with_suffix(".told").read_text() for path in (STALE, UNKNOWN)]
    assert (status, said) == (1, "")
    assert printed == f"{LEGAL}: legal\n{STALE}: {told[0]}{UNKNOWN}: {told[1]}3 records: 1 legal, 1 illegal, 1 refused\n"


@pytest.mark.parametrize(
    "files, status",
    [((LEGAL, LEGAL), 0), ((LEGAL, UNKNOWN), 2), ((UNKNOWN, STALE), 1), ((LEGAL, NO_FILE), 6), ((STALE, NO_FILE), 1), ((UNKNOWN, NO_FILE), 6)],
    ids=lambda value: case_id(*value) if isinstance(value, tuple) else None,
)
def test_status_of_several(files, status):
    """The status is 1 if one record is illegal, and else the greatest."""
    assert judge(*files)[0] == status
    assert report(*files)[1]["status"] == status


def test_missing_file():
    assert judge(NO_FILE) == (6, "", f"no such file: {NO_FILE}\n")
    assert judge("--draw", NO_FILE) == (6, "", f"no such file: {NO_FILE}\n")
    assert judge("--shrink", NO_FILE) == (6, "", f"no such file: {NO_FILE}\n")


@pytest.mark.parametrize("seconds", ["0", "much", ""])
def test_wrong_seconds(seconds):
    assert judge("--seconds", seconds, LEGAL) == (2, "", "--seconds takes a number of seconds above 0\n")


@pytest.mark.parametrize("words", ["--text", "--draw --order", "--draw --json", "--draw --seconds 1", "--order --order"], ids=case_id)
def test_options_that_do_not_go_together(words):
    assert judge(*words.split(), LEGAL) == (2, "", "--text goes with --draw, and --draw with no other option\n")


@pytest.mark.parametrize("turns", ["0", "1.5", "1e9", "18446744073709551616", ""])
def test_wrong_turns(turns):
    assert judge("--turns", turns, LEGAL) == (2, "", "--turns takes a whole number above 0 and below 2^64\n")


@pytest.mark.parametrize("words", ["--draw", "--shrink"])
def test_turns_that_do_not_go_together(words):
    assert judge("--turns", "9", words, LEGAL) == (2, "", "--turns goes with neither --draw nor --shrink\n")


def test_limit_of_turns():
    """Each of six changes takes a turn."""
    record = whole(*({**SET, "by": f"u{at}", "value": at} for at in range(6)), {**VALUE, "answer": {"value": 5}})
    assert judge("--turns", "5", text=record)[:2] == (3, "gave up\n")
    assert judge("--turns", "1000", text=record) == (0, "legal\n", "")
    assert report("--turns", "5", text=record)[1]["records"][0]["verdict"] == "gave up"


def test_limit_of_time():
    """No process ends within a millionth of a second."""
    assert judge("--seconds", "0.000001", LEGAL) == (3, "gave up\n", "hint: stopped after 1e-06 seconds; --seconds sets the limit\n")
    assert judge("--seconds", "50", LEGAL) == (0, "legal\n", "")


@pytest.mark.parametrize("megabytes", ["0", "15", "4097", "much", "1.5", ""])
def test_wrong_memory(megabytes):
    assert judge("--memory", megabytes, LEGAL) == (2, "", "--memory takes a number of megabytes from 16 to 4,096\n")


def test_limit_of_memory():
    """A record of 100,000 calls needs more than 16 megabytes, and a small one does not."""
    assert judge("--memory", "16", LEGAL) == (0, "legal\n", "")
    status, printed, said = judge("--memory", "16", text=MANY)
    assert (status, printed, said) == (4, "out of memory\n", "16 megabytes are not enough; --memory sets the limit\n")
    assert report("--memory", "16", text=MANY)[1]["records"][0]["verdict"] == "failed"
    assert judge("--memory", "1024", text=MANY)[:2] == (0, "legal\n")


def test_time_at_a_terminal(monkeypatch):
    """A terminal shows for how long a search has run."""
    monkeypatch.setattr(oracle, "SHOWN_EVERY", 0.05)
    terminal, end = pty.openpty()
    with os.fdopen(end, "w") as shown:
        monkeypatch.setattr(sys, "stderr", shown)
        told = oracle.judged(["sleep", "0.5"], "-", b"")
    said = shown_at(terminal)
    assert told.verdict == "legal" and said.startswith("\rjudging    0 s ") and said.endswith("\r\x1b[K")


def turns_of(calls):
    """The fewest turns of a search that gives up on so many calls, as docs/RECORDS.md has them."""
    return max(1_000 * calls, 4_000_000)


def test_time_of_a_turn():
    """Two searches that give up take about a microsecond of processor time for each turn."""
    text, _, _ = WRONG["callers that all overlap"]
    before = resource.getrusage(resource.RUSAGE_CHILDREN)
    assert judge(text=text)[0] == 3
    after = resource.getrusage(resource.RUSAGE_CHILDREN)
    seconds = after.ru_utime + after.ru_stime - before.ru_utime - before.ru_stime
    assert 0.1 < seconds / (2 * turns_of(21)) * 1_000_000 < 10


def drawn(text):
    """The lines of a drawing, without that of the verdict."""
    return judge("--draw", "--text", text=text)[1].splitlines()[1:]


def test_end_of_a_drawing():
    """The drawing of a legal record ends when 30 calls are over, and has at most 1,000."""
    apart = [{**VALUE, "begin": 2 * at, "end": 2 * at + 1, "answer": {"value": 0}} for at in range(40)]
    assert [line.split("t2 ")[0].split()[-1] for line in drawn(whole(*apart))] == [str(number) for number in range(1, 31)]
    at_once = [{**VALUE, "by": f"u{at}", "begin": 1, "end": 2, "answer": {"value": 0}} for at in range(1_100)]
    assert len(drawn(whole(*at_once))) == 1_000


def test_limit_of_size(tmp_path):
    with open(tmp_path / "large.json", "wb") as file:
        file.truncate(TOO_MANY)
    assert judge(tmp_path / "large.json") == (2, TOO_LARGE, "")


def test_json_of_a_legal_record():
    """The order of the calls is that of test_commands.py, typed by hand."""
    status, told = report("--order", LEGAL)
    (entry,) = told["records"]
    assert status == told["status"] == 0 and told["version"] == 1 and told["counts"]["legal"] == told["counts"]["records"] == 1
    assert list(entry) == MEMBERS and (entry["record"], entry["verdict"], entry["status"]) == (LEGAL, "legal", 0)
    assert entry["counts"] == {"calls": 3, "callers": 2, "pending": 0}
    assert [(turn["number"], turn["by"], turn["call"], turn["part"]) for turn in entry["order"]] == [
        (2, "t2", "value", None),
        (1, "t1", "set", None),
        (3, "t2", "value", None),
    ]
    assert report(LEGAL)[1]["records"][0]["order"] is None


def test_json_of_an_illegal_record():
    _, told = report(STALE)
    (entry,) = told["records"]
    assert (entry["verdict"], entry["moment"], entry["since"]) == ("illegal", 30, 10)
    assert entry["calls"] == [
        {"number": 1, "by": "t1", "call": "set", "value": 3, "begin": 10, "end": 20, "answer": "done"},
        {"number": 2, "by": "t2", "call": "value", "begin": 21, "end": 30, "answer": {"value": 0}},
    ]


def test_json_of_a_refused_record():
    _, told = report(UNKNOWN)
    (entry,) = told["records"]
    assert entry["refusal"] == {
        "line": 4,
        "column": 24,
        "call": 2,
        "message": '"valeu" is no value of "call"',
        "expected": (top / UNKNOWN).with_suffix(".told").read_text().split("expected: ")[1].partition("\n")[0],
        "nearest": "value",
    }
    assert entry["counts"] is None and entry["calls"] == []


def test_json_of_all_records():
    """The verdict of each record is the first word of its name."""
    status, told = report(*RECORDS.values())
    assert status == 1 and told["counts"]["records"] == len(RECORDS)
    wanted = {path: name.partition("_")[0] for name, path in RECORDS.items()}
    assert {entry["record"]: entry["verdict"] for entry in told["records"]} == wanted
    assert {entry["record"]: entry["status"] for entry in told["records"]} == {path: STATUSES[verdict] for path, verdict in wanted.items()}
    assert [entry for entry in told["records"] if list(entry) != MEMBERS] == [], f"wanted: the members {MEMBERS}"


def test_junit():
    status, printed, _ = judge("--junit", LEGAL, STALE, UNKNOWN, NO_FILE)
    suites = xml.etree.ElementTree.fromstring(printed)
    (suite,) = suites
    assert status == 1 and suites.tag == "testsuites" and suite.get("name") == "judge"
    assert [suite.get(key) for key in ("tests", "failures", "errors")] == ["4", "1", "2"]
    assert [case.get("name") for case in suite] == [LEGAL, STALE, UNKNOWN, NO_FILE]
    assert [[(part.tag, part.get("type")) for part in case] for case in suite] == [
        [],
        [("failure", "illegal")],
        [("error", "refused")],
        [("error", "failed")],
    ]
    assert suite[1][0].text == (top / STALE).with_suffix(".told").read_text().rstrip()


# Callers' names, each with what a terminal shows of it.
NAMES = {
    "<&>": "<&>",
    '"': '"',
    "a\nb": "a\\u000ab",
    "t1\n  2  t2 set 5: done": "t1\\u000a  2  t2 set 5: done",
    "\0": "\\u0000",
    "\x1b[2J": "\\u001b[2J",
    "\x9b2J": "\\u009b2J",
    "\u202ea": "\\u202ea",
    "\ufffe": "\ufffe",
    "é": "é",
    "\U0010ffff": "\U0010ffff",
    "]]>": "]]>",
}


@pytest.mark.parametrize("name", NAMES, ids=ascii)
def test_names_in_reports(name):
    """A report is well-formed and has the calls of the verdict, whatever the callers' names are."""
    record = whole({**SET, "by": name}, {**VALUE, "by": name, "answer": {"value": 0}})
    (entry,) = report(text=record)[1]["records"]
    assert [(call["number"], call["by"]) for call in entry["calls"]] == [(1, name), (2, name)]
    (turn,) = report("--order", text=whole({**SET, "by": name}))[1]["records"][0]["order"]
    assert turn == {"number": 1, "by": name, "call": "set", "part": None}
    xml.etree.ElementTree.fromstring(judge("--junit", text=record)[1])


def at_terminal(*words, text):
    """What a command prints at a terminal on standard output and on standard error."""
    terminal, end = pty.openpty()
    ran = subprocess.Popen(words, cwd=top, stdin=subprocess.PIPE, stdout=end, stderr=end)
    os.close(end)
    ran.stdin.write(text)
    ran.stdin.close()
    said = shown_at(terminal)
    ran.wait(timeout=SECONDS)
    return said


def read(terminal):
    try:
        return os.read(terminal, 10_000)
    except OSError:
        return b""


def shown_at(terminal):
    """What a terminal shows until its other end is closed."""
    said = b"".join(iter(lambda: read(terminal), b""))
    os.close(terminal)
    return said.decode().replace("\r\n", "\n")


@pytest.mark.parametrize("name", NAMES, ids=ascii)
def test_names_at_a_terminal(name):
    """A terminal gets no control characters, and each call in one line. tools/tests/test_verdict_text.py compares wumsnair.mjs."""
    shown, record = NAMES[name], whole({**SET, "by": name})
    told = f"legal\n  1  {shown} set 3: done\n"
    assert at_terminal("./judge", "--order", text=record) == told
    drawn = at_terminal("./judge", "--draw", "--text", text=record)
    assert drawn.startswith("legal\n|-| ") and drawn.endswith(f"   1  {shown} set 3: done  [10, 20]\n")


SUBSCRIBE = {"by": "b", "call": "subscribe", "begin": 1, "end": 2, "answer": "done"}
NEXT = {"by": "b", "call": "next", "begin": 3, "end": 4, "answer": {"value": 9}}
FIRST = {"by": "b", "call": "first", "begin": 5, "end": 6, "answer": {"value": 0}}
IN_LINES = lines(SET, VALUE)
# Wrong records, the status of each, and a part of the remedy.
WRONG = {
    "an end before its begin": (whole({**SET, "begin": 21}), 2, "the call ends before it begins: take both moments from one clock"),
    "overlapping calls of a caller": (whole(SET, {**VALUE, "by": "t1", "begin": 19}), 2, "give each thread and each coroutine a caller's name"),
    "no flow": (b'{"calls": []}', 2, "the first line, or the one object, has the flow"),
    "calls before the flow": (IN_LINES.partition(b"\n")[2] + IN_LINES, 2, "or lines, of which the first one has only the flow"),
    "no calls": (b'{"flow":\n {"kind": "state", "initial": 0}}', 2, 'a record is one object with "flow" and "calls"'),
    "emit of a state flow": (whole({**SET, "call": "emit"}), 2, "record emit of a state flow as set"),
    "a name that is no UTF-8": (IN_LINES.replace(b"t2", b"t\xff"), 2, "the first other byte is in line 3, column 10"),
    "a cut-off line": (IN_LINES[:-20], 2, "the last line is cut off"),
    "a cut-off object": (whole(SET)[:-20], 2, "the record is cut off"),
    "callers that all overlap": (
        whole(*({**SET, "by": f"u{at}", "value": at} for at in range(20)), {**VALUE, "answer": {"value": 99}}),
        3,
        "the most were open at moment 10, 20 calls, among them call 1, call 2,",
    ),
    "no subscription": (whole(NEXT), 1, "call 1: b calls next without a subscription: record its subscribe, too"),
    "a first within a subscription": (whole(SUBSCRIBE, FIRST, flow=STATE), 1, "call 2: b calls first while it has a subscription"),
    "another subscription": (whole(SUBSCRIBE, {**SUBSCRIBE, "begin": 3, "end": 4}, flow=SHARED), 1, "call 2: b calls subscribe while it has"),
    "two clocks": (
        whole(SET, {**SET, "begin": 21, "end": 22}, {**VALUE, "begin": 900, "end": 901}, {**VALUE, "begin": 902, "end": 903, "answer": {"value": 0}}),
        1,
        "all calls of t2 come after all calls of t1: their moments are of different clocks",
    ),
    "no bytes": (b"", 2, "the record is empty: did the recorder fail?"),
    "a channel": (whole(flow={**SHARED, "kind": "broadcast"}), 2, "a broadcast is recorded as a flow of the kind shared"),
    "a call after a pending one": (
        whole({"by": "t2", "call": "set", "value": 3, "begin": 1}, VALUE),
        2,
        'call 1, of t2, has no "end", and a pending call is the last one of its caller',
    ),
    "a value that no call sends": (whole(SET, {**VALUE, "answer": {"value": 2044}}), 1, "no call of the record sends 2044: is a call missing?"),
    "the same value twice": (
        whole(SUBSCRIBE, {**NEXT, "answer": {"value": 0}}, {**NEXT, "begin": 5, "end": 6, "answer": {"value": 0}}),
        1,
        "call 3: a state flow gives no subscriber the same value twice in a row",
    ),
}


@pytest.mark.parametrize("what", WRONG)
def test_remedy(what):
    text, wanted, remedy = WRONG[what]
    status, printed, said = judge(text=text)
    assert status == wanted and said.startswith("hint: ") and remedy in said
    assert "hint" not in printed
    told = report(text=text)[1]["records"][0]
    assert [f"hint: {hint}" for hint in told["hints"]] == said.splitlines()


@pytest.mark.parametrize("name", [name for name in RECORDS if name.startswith("legal")])
def test_no_remedy(name):
    assert judge(RECORDS[name]) == (0, "legal\n", "")
