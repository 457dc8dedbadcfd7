"""The library and the module of the player give what the native programs print.

The scripts are those of examples/ and of tests/cases/, each in its versions, and some that are hard to read. Each is played, drawn as SVG and
as text, listed with its rules, and explained. Each record of examples/records is judged, without the order of its calls and with it. The
module runs in Node, and Python and C call the library; C does so for some texts under valgrind, and with each request for memory refused
in turn. The library and the module are those of the folder that --page names, or of page/out; page/build builds them if they are older
than the code."""
import importlib.util
import json
import subprocess

import pytest

from wumsnair_tools.built import top
from refusing import refuse_each
from running import SECONDS, Outcome, case_id, ended, expect, program, records, run
from worked_scripts import worked_scripts

# The outputs that are compared, each by its word for play.c, and the words for the native programs.
DRAWN = {"svg": [], "text": ["--text"], "explain": ["--explain"]}
JSON = ["--json"]
JUDGED = {"check": [], "order": ["--order"]}
HARD = [b"", b"\xff", b"[" * 200_000, b"{" * 126, b'{"version":1', b'"\xed\xa0\x80"', b" " * 1_048_577]
OUT_OF_MEMORY = ended(4, "out of memory")
ILLEGAL = 5
UNDER_VALGRIND = [
    ("two_flows", "play"),
    ("two_flows", "svg"),
    ("share_and_forget", "explain"),
    ("refused_value", "why"),
    ("operators", "text"),
    ("illegal_state_stale", "check"),
    ("legal_state_overlap", "order"),
    ("refused_unknown_call", "check"),
]
GRIND = ["valgrind", "-q", "--error-exitcode=99", "--leak-check=full"]


def scripts():
    """The scripts, by their names."""
    found = {name: worked.text.encode() for name, worked in worked_scripts().items()}
    return found | {f"hard_{number}": text for number, text in enumerate(HARD)}


def texts_of_records():
    """The records, by their names, and texts that are none."""
    found = {name: path.read_bytes() for name, path in records().items()}
    return found | {f"hard_record_{number}": text for number, text in enumerate(HARD[:4])}


SCRIPTS, RECORDS = scripts(), texts_of_records()
TEXTS = SCRIPTS | RECORDS


def native(name):
    """What the programs print for a text: an outcome for each word. An illegal record has another status in the library."""
    text = TEXTS[name]
    if name in RECORDS:
        judged = {word: run(program("flow_judge"), *flags, text=text)[:2] for word, flags in JUDGED.items()}
        return {word: (ILLEGAL if status == 1 else status, printed) for word, (status, printed) in judged.items()}
    drawn = {word: run(program("flow_draw"), *flags, text=text) for word, flags in (DRAWN | {"json": JSON}).items()}
    why = drawn["explain"].status, drawn["explain"].said
    return {"play": run(program("flow_play"), text=text)[:2], **{word: each[:2] for word, each in drawn.items()}, "why": why}


@pytest.fixture(scope="session")
def library(page):
    """The library as a module of Python."""
    spec = importlib.util.spec_from_file_location("wumsnair", page / "wumsnair.py")
    module = importlib.util.module_from_spec(spec)
    spec.loader.exec_module(module)
    return module


@pytest.fixture(scope="session")
def player_in_c(page, tmp_path_factory):
    """A program in C that calls the library."""
    built = tmp_path_factory.mktemp("c") / "play"
    subprocess.run(["cc", "-O2", "-Wall", "-Wextra", "-Werror", "-o", built, page / "play.c", page / "libwumsnair.a"], check=True)
    return built


@pytest.fixture(scope="session")
def outputs_of_node(page, tmp_path_factory):
    """What the module gives for all texts: a status and bytes for each name and word."""
    folder = tmp_path_factory.mktemp("texts")
    for name, text in TEXTS.items():
        (folder / f"{name}.{'record' if name in RECORDS else 'script'}").write_bytes(text)
    words = ["node", top / "page" / "tests" / "outputs.mjs", folder, page / "wumsnair.wasm"]
    given = json.loads(subprocess.run(words, stdout=subprocess.PIPE, check=True).stdout)
    return {name: {word: (status, bytes.fromhex(text)) for word, (status, text) in by.items()} for name, by in given.items()}


def from_python(library, name):
    text = TEXTS[name]
    if name in RECORDS:
        return {"check": library.check(text), "order": library.check(text, True)}
    drawn = {word: library.draw(text, form) for form, word in enumerate(DRAWN)}
    return {"play": library.play(text), **drawn, "json": library.trace(text), "why": library.explain(text)}


def expect_all(came, wanted):
    """Compares the outputs for each word."""
    assert set(came) == set(wanted)
    for word in wanted:
        expect(Outcome(*came[word]), Outcome(*wanted[word]), word)


@pytest.mark.parametrize("name", TEXTS)
def test_outputs(name, outputs_of_node, library, player_in_c):
    wanted = native(name)
    expect_all(outputs_of_node[name], wanted)
    expect_all(from_python(library, name), wanted)
    expect_all({word: run(player_in_c, word, text=TEXTS[name])[:2] for word in wanted}, wanted)


@pytest.mark.parametrize("name, word", UNDER_VALGRIND, ids=case_id)
def test_memory(name, word, player_in_c):
    came = subprocess.run([*GRIND, player_in_c, word], input=TEXTS[name], stdout=subprocess.PIPE, timeout=SECONDS)
    expect(Outcome(came.returncode, came.stdout), Outcome(*native(name)[word]))


def is_told(came, _):
    """Whether a run with a refused request ended as it must. An explanation has no line for that."""
    return came in (OUT_OF_MEMORY, Outcome(OUT_OF_MEMORY.status, b""))


@pytest.mark.parametrize("name, word", UNDER_VALGRIND, ids=case_id)
def test_refused_memory(shim, name, word, player_in_c):
    wanted = Outcome(*native(name)[word])
    refuse_each(shim, player_in_c, [word], TEXTS[name], lambda came: came == wanted, is_told)
