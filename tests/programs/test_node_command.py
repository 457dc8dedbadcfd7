"""wumsnair.mjs, which page/build makes, prints what the programs print, with the same statuses, and its reports are those of ./judge.

The scripts are those of examples/ and of tests/cases/. The records are those of examples/records."""
import json
import re
import subprocess

import pytest

from wumsnair_tools.built import top
from hostile_records import SET, whole
from running import SECONDS, case_id, ended, examples, expect, program, records, run
from test_verdicts import MANY, NAMES, WRONG, at_terminal
from wumsnair_tools.scripts import all_cases, text_of, versions

DRAWN = {("draw",): [], ("draw", "--text"): ["--text"], ("explain",): ["--explain"]}
RECORDS = {name: str(path.relative_to(top)) for name, path in records().items()}
STALE = RECORDS["illegal_state_stale"]
REPLAY = "examples/replay.json"
# The most bytes of the file.
MOST = 900_000


def scripts():
    found = {name: path.read_bytes() for name, path in examples().items()}
    for number, (_, case) in enumerate(all_cases()):
        version = versions(case)[-1]
        found[f"case_{number}_{version}"] = text_of(case, version).encode()
    return found | {"no_json": b"{", "no_utf8": b"\xff", "too_long": b" " * 2_000_000}


SCRIPTS = scripts()


@pytest.fixture(scope="session")
def node(page):
    """Calls the command with some words, and a text as standard input."""
    return lambda *words, text=b"": run("node", page / "wumsnair.mjs", *words, text=text, cwd=top)


def without_times(report):
    """A report without what differs from one run to the next."""
    return re.sub(r'"seconds": [\d.]+|time="[\d.]+"', "", report)


@pytest.mark.parametrize("name", SCRIPTS)
def test_script(node, name):
    text = SCRIPTS[name][:1_048_577]
    drawn = {words: run(program("flow_draw"), *flags, text=text) for words, flags in DRAWN.items()}
    played = run(program("flow_play"), text=text)
    came = node("play", text=SCRIPTS[name])
    assert (came.status, came.printed, came.said) == (played.status, played.printed, drawn["draw",].said)
    # test_page_outputs.py compares what the same module draws of the cases.
    for words, wanted in () if name.startswith("case_") else drawn.items():
        expect(node(*words, text=SCRIPTS[name]), wanted, " ".join(words))


def test_records(node):
    """The words of each record are those of the program."""
    came = node("judge", *RECORDS.values())
    native = {path: run(program("flow_judge"), text=(top / path).read_bytes()).printed.decode() for path in RECORDS.values()}
    told = "".join(f"{path}: {words}" for path, words in native.items())
    assert came.status == 1
    assert came.printed.decode().startswith(told) and came.printed.decode()[len(told) :].startswith(f"{len(RECORDS)} records: ")


@pytest.mark.parametrize("name", RECORDS)
def test_record(node, name):
    text = (top / RECORDS[name]).read_bytes()
    for flags in ([], ["--order"]):
        native = run(program("flow_judge"), *flags, text=text)
        expect(node("judge", *flags, text=text)._replace(said=b""), native._replace(said=b""), " ".join(flags))


def test_reports(node):
    """The reports are those of ./judge."""
    for words in (["--json"], ["--json", "--order"], ["--junit"]):
        ran = subprocess.run(["./judge", *words, *RECORDS.values()], cwd=top, capture_output=True, timeout=SECONDS)
        came = node("judge", *words, *RECORDS.values())
        assert came.status == ran.returncode
        assert without_times(came.printed.decode()) == without_times(ran.stdout.decode())


def test_long_numbers(node):
    """Numbers of 64 bits are whole in a report."""
    most = 2**64 - 1
    call = {"by": "a", "call": "value", "begin": most - 1, "end": most, "answer": {"value": most}}
    record = json.dumps({"flow": {"kind": "state", "initial": 0}, "calls": [call]}).encode()
    (entry,) = json.loads(node("judge", "--json", text=record).printed)["records"]
    assert entry["calls"] == [{"number": 1, **call}] and entry["moment"] == most


def test_stream(node):
    """Each record has its length before it, and each verdict its status and its length."""
    texts = [(top / RECORDS[name]).read_bytes() for name in ("legal_state_overlap", "illegal_state_stale", "refused_not_json")]
    came = node("judge", "--stream", text=b"".join(b"%d\n" % len(text) + text for text in texts))
    wanted = [run(program("flow_judge"), text=text) for text in texts]
    assert came.printed == b"".join(b"%d %d\n" % (each.status, len(each.printed)) + each.printed for each in wanted)


FORMS = {
    "judge no_such_file.json": (6, "no such file: no_such_file.json"),
    "play no_such_file.json": (6, "no such file: no_such_file.json"),
    "judge examples": (6, "cannot read examples"),
    f"play {REPLAY} {REPLAY}": (6, "one script at a time"),
    "judge --oder": (2, "no option --oder: did you mean --order?"),
    "draw --pretty": (2, "no option --pretty; --help lists them"),
    "jugde": (2, "no command jugde: did you mean judge?"),
    f"judge --draw {STALE}": (2, "no option --draw here: ./judge has it"),
    f"judge --seconds 0 {STALE}": (2, "--seconds takes a number of seconds above 0"),
    f"judge --memory 15 {STALE}": (2, "--memory takes a number of megabytes from 16 to 4,096"),
    f"judge --memory 4097 {STALE}": (2, "--memory takes a number of megabytes from 16 to 4,096"),
    f"judge --memory {STALE}": (2, "--memory takes a number of megabytes from 16 to 4,096"),
    f"judge --seconds 0.001 {STALE}": (3, "hint: stopped after 0.001 seconds; --seconds sets the limit"),
}


@pytest.mark.parametrize("words", FORMS, ids=case_id)
def test_form(node, words):
    status, said = FORMS[words]
    came = node(*words.split())
    assert (came.status, said in came.said.decode()) == (status, True), f"wanted: status {status} and {said!r}; came: {came}"


def test_standard_input(node):
    """The file - is standard input, for each command, and among other files."""
    stale, replay = (top / STALE).read_bytes(), (top / REPLAY).read_bytes()
    assert node("judge", "-", text=stale) == node("judge", STALE)
    for words in (["play"], ["draw", "--text"], ["explain"]):
        assert node(*words, "-", text=replay) == node(*words, REPLAY)
    came = node("judge", STALE, "-", text=(top / RECORDS["legal_state_overlap"]).read_bytes())
    assert came.printed.decode().endswith("-: legal\n2 records: 1 legal, 1 illegal\n")


@pytest.mark.parametrize("seconds", [[], ["--seconds", "50"]], ids=case_id)
def test_limit_of_memory(node, seconds):
    """It holds in the main thread, and in the thread that a time stops. The words are those of ./judge."""
    assert node("judge", "--memory", "16", *seconds, STALE).status == 1
    assert node("judge", "--memory", "16", *seconds, text=MANY) == ended(4, "out of memory", said="16 megabytes are not enough; --memory sets the limit\n")
    assert node("judge", "--memory", "4096", *seconds, text=MANY) == ended(0, "legal")


@pytest.mark.parametrize("name", NAMES, ids=ascii)
def test_names_at_a_terminal(page, name):
    record = whole({**SET, "by": name})
    assert at_terminal("node", page / "wumsnair.mjs", "judge", "--order", text=record) == f"legal\n  1  {NAMES[name]} set 3: done\n"


def test_time_at_a_terminal(page):
    """A terminal shows for how long a search has run, every two seconds, and nothing of that in the end."""
    text, _, _ = WRONG["callers that all overlap"]
    said = at_terminal("node", page / "wumsnair.mjs", "judge", text=text)
    shown, _, told = said.rpartition("\r\x1b[K")
    assert re.fullmatch(r"(\rjudging +\d+ s )+", shown) and told.startswith("gave up\nhint: ")


def test_time_is_enough(node):
    assert node("judge", "--seconds", "50", STALE).printed == (top / STALE).with_suffix(".told").read_bytes()


def test_help_and_version(node, page):
    for words in (["--help"], ["judge", "--help"]):
        assert b"node wumsnair.mjs judge RECORD.." in node(*words).printed
    assert re.fullmatch(r"wumsnair 0\.1\.0, built from (commit [0-9a-f]{12}(, changed)?|no commit)\n", node("--version").printed.decode())
    assert (page / "wumsnair.mjs").stat().st_size < MOST


def test_full_device(node, page):
    """A write that fails has the same status as in ./play, ./draw and ./judge."""
    for words in (["play", REPLAY], ["draw", REPLAY], ["judge", STALE]):
        with open("/dev/full", "wb") as full:
            ran = subprocess.run(["node", page / "wumsnair.mjs", *words], cwd=top, stdout=full, stderr=subprocess.PIPE, timeout=SECONDS)
        assert ran.returncode == 6 and b"cannot write" in ran.stderr
