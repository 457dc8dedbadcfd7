"""./play, ./draw and ./judge do what their --help says. They use the programs that were built last."""
import json
import os
import pty
import resource
import signal
import subprocess
import threading
import time
from typing import NamedTuple

import pytest

from wumsnair_tools.built import top
from running import SECONDS, case_id, ended, expect, run

REPLAY = "examples/replay.json"
REFUSED = "examples/refused_value.json"
TORN = "examples/records/illegal_state_torn_exchange.json"
OVERLAP = "examples/records/legal_state_overlap.json"
STALE = "examples/records/illegal_state_stale.json"
VERSION = f"wumsnair {(top / 'VERSION').read_text()}"
TOO_LARGE = "script refused 8 TooLarge at step 0\n"
NO_FILE = "no such file: no_such_file.json"
WHY_REFUSED = "line 5, column 33: step 1: 1.5 is no value"
# The picture of two overlapping exchanges of the same value, and an order of calls, typed by hand.
TORN_DRAWN = """illegal
|-----|   ! 1  t1 compare_and_set 0 1: true  [10, 20]
  |-|     ! 2  t2 compare_and_set 0 2: true  [11, 19]
"""
ORDERED = "legal\n  2  t2 value: 0\n  1  t1 set 3: done\n  3  t2 value: 3\n"
# A script of three shared flows and a state flow, and what it prints by the calls of flows of words, and in all ways. Typed by hand.
COUNTED = """{"version": 2, "flows": {
  "a": {"kind": "shared", "replay": 1, "extra": 0, "overflow": "suspend"}, "b": {"kind": "state", "initial": 4},
  "c": {"kind": "shared", "replay": 1, "extra": 0, "overflow": "drop_oldest"},
  "d": {"kind": "shared", "replay": 1, "extra": 0, "overflow": "drop_oldest"}}, "steps": [
    {"do": "count", "flow": "a"}, {"do": "subscribe", "flow": "b", "name": "r"}, {"do": "next", "flow": "b", "name": "r"},
    {"do": "cache", "flow": "b"}, {"do": "count", "flow": "b"}, {"do": "try_emit", "flow": "c", "value": 7}, {"do": "cache", "flow": "c"},
    {"do": "subscribe", "flow": "d", "name": "s", "first": [1]}]}
"""
COUNTED_BY_WORD = """a no such call over word: suspend
d no such call over word: first
no flow
subscribed
value 4
no such call over word: cache
1
true
[7]
no flow
"""
COUNTED_IN_ALL_WAYS = """0
subscribed
value 4
[4]
1
true
[7]
subscribed
threads: same
futures: same
word: same in 5 of 8 lines; no such call over word: suspend, first, cache
"""
# The numbers of emitters and readers of a crowd, the number of values that its flow has room for, and that of the values that are sent.
CROWDS = (2, 3, 0, 2000), (2, 3, 1, 2000), (2, 3, 4, 2000), (2, 3, 16, 2000), (32, 32, 4, 640)
# The same of crowds at a flow that is read without a lock, which keeps all values.
WORD_CROWDS = (1, 1, 2000, 2000), (2, 3, 2000, 2000), (32, 32, 640, 640)


def text_of(file):
    return (top / file).read_text()


def command(*words, text=None):
    """Runs a command in the repository."""
    given = {"input": text} if text is not None else {"stdin": subprocess.DEVNULL}
    return subprocess.run(words, cwd=top, capture_output=True, text=True, timeout=SECONDS, **given)


class Form(NamedTuple):
    """A form of a call: its status, what it prints, a part of what it says on standard error, and its input."""

    words: str
    status: int
    printed: str
    said: str = ""
    text: str | None = None


FORMS = (
    Form(f"./play {REPLAY}", 0, text_of("examples/replay.lines")),
    Form("./play", 0, text_of("examples/replay.lines"), text=text_of(REPLAY)),
    Form("./play --version", 0, VERSION),
    Form("./draw --version", 0, VERSION),
    Form("./judge --version", 0, VERSION),
    Form("./play no_such_file.json", 6, "", NO_FILE),
    Form("./draw no_such_file.json", 6, "", NO_FILE),
    Form("./judge no_such_file.json", 6, "", NO_FILE),
    Form(f"./play {REPLAY} {REPLAY}", 6, "", "one script at a time"),
    Form("./play examples", 6, "", "cannot read examples"),
    Form(f"./play {REFUSED}", 2, text_of("examples/refused_value.lines"), WHY_REFUSED),
    Form("./play", 2, text_of("examples/refused_value.lines"), WHY_REFUSED, text_of(REFUSED)),
    # A script that is longer than the program reads.
    Form("./play", 2, TOO_LARGE, "1048577 bytes", " " * 2_000_000),
    Form("./draw --text", 2, TOO_LARGE, "1048577 bytes", " " * 2_000_000),
    Form("./play count 2 10", 0, "value 20\n"),
    Form(f"./play --over one-thread {REPLAY}", 0, text_of("examples/replay.lines")),
    Form(f"./play --over threads {REPLAY}", 0, text_of("examples/replay.lines")),
    Form(f"./play {REPLAY} --over futures", 0, text_of("examples/replay.lines")),
    Form("./play --over word", 0, COUNTED_BY_WORD, text=COUNTED),
    Form("./play --over all", 0, COUNTED_IN_ALL_WAYS, text=COUNTED),
    Form(f"./play --over all {REFUSED}", 2, text_of("examples/refused_value.lines"), WHY_REFUSED),
    Form(f"./play --over thread {REPLAY}", 2, "", "no way thread: did you mean threads?"),
    Form("./play --over", 2, "", "no way without a name; --help lists them"),
    Form(f"./draw --pretty {REPLAY}", 2, "", "no option --pretty; --help lists them"),
    Form(f"./play --wathc {REPLAY}", 2, "", "no option --wathc: did you mean --watch?"),
    Form("./play counts 2 10", 2, "", "no command counts: did you mean count?"),
    Form(f"./judge {OVERLAP}", 0, "legal\n"),
    Form(f"./judge --order {OVERLAP}", 0, ORDERED),
    Form(f"./judge {STALE}", 1, text_of("examples/records/illegal_state_stale.told")),
    Form("./judge", 1, text_of("examples/records/illegal_state_stale.told"), text=text_of(STALE)),
    Form(f"./judge --draw --text {TORN}", 1, TORN_DRAWN),
)


@pytest.mark.parametrize("form", FORMS, ids=lambda form: case_id(form.words, form.said))
def test_form(form):
    ran = command(*form.words.split(), text=form.text)
    assert (ran.returncode, ran.stdout) == (form.status, form.printed)
    assert form.said in ran.stderr and bool(form.said) == bool(ran.stderr)


def test_places_of_draws_words():
    """The file and the option of ./draw come in any order, and the file may be standard input."""
    drawn = command("./draw", REPLAY, "--text").stdout
    for came in (command("./draw", "--text", REPLAY), command("./draw", "--text", text=text_of(REPLAY))):
        assert (came.returncode, came.stdout, came.stderr) == (0, drawn, "")


@pytest.mark.parametrize("count, lanes", [(24, 0), (25, 2)])
def test_long_collection(count, lanes):
    """24 items of a collection are drawn to their end, and two dots follow the first 24 of more."""
    collected = {"do": "collect", "chain": {"from": {"of": list(range(count))}, "ops": []}}
    script = {"version": 1, "flow": {"kind": "none"}, "steps": [collected]}
    assert command("./draw", "--text", text=json.dumps(script)).stdout.count("───..") == lanes


WAYS = "one-thread, threads, futures, word, or all"
OPTIONS = ("./play", "--watch"), ("./play", WAYS), ("./draw", "--watch"), ("./judge", "--order"), ("./judge", "--draw")


@pytest.mark.parametrize("name, option", OPTIONS)
def test_help(name, option):
    told = command(name, "--help").stdout
    assert "FILE" in told and option in told and "exit" not in told


def test_built_program_is_not_built_again():
    """The command takes less than half a second of processor time on any machine, and less than 0.1 s on an idle one."""
    took = []
    for _ in range(5):
        before = resource.getrusage(resource.RUSAGE_CHILDREN)
        command("./play", REPLAY)
        after = resource.getrusage(resource.RUSAGE_CHILDREN)
        took.append(after.ru_utime + after.ru_stime - before.ru_utime - before.ru_stime)
    assert min(took) < 0.5, f"wanted: one of five runs takes less than 0.5 s of processor time; came: {took}"


def heed_interrupts():
    """Lets SIGINT end a command, as in a terminal. Background jobs of a shell ignore it, and their children inherit that."""
    signal.signal(signal.SIGINT, signal.SIG_DFL)


def begin(*words, **streams):
    """Begins a command that waits, in the repository."""
    return subprocess.Popen(words, cwd=top, text=True, preexec_fn=heed_interrupts, **streams)


def line_of(process, stream):
    """The next line that a process prints to a stream. If it prints none in a minute, kills it, and the line is empty."""
    timer = threading.Timer(SECONDS, process.kill)
    timer.start()
    line = stream.readline()
    timer.cancel()
    return line


def missing(file, parts):
    """Waits at most a minute until a file has all parts. Returns those that it has not."""
    end = time.monotonic() + SECONDS
    while [part for part in parts if part not in file.read_text()] and time.monotonic() < end:
        time.sleep(0.1)
    return [part for part in parts if part not in file.read_text()]


def test_watch(tmp_path):
    """A file is played and drawn again when it changes."""
    file, output = tmp_path / "script.json", tmp_path / "output"
    file.write_text(text_of(REPLAY))
    with output.open("w") as to:
        watching = begin("./play", "--watch", file, stdout=to, stderr=subprocess.PIPE)
    for example in ("replay", "unsubscribe"):
        file.write_text(text_of(f"examples/{example}.json"))
        shown = [text_of(f"examples/{example}.lines"), command("./draw", f"examples/{example}.json", "--text").stdout]
        assert missing(output, shown) == []
    file.unlink()
    assert line_of(watching, watching.stderr) == f"waiting for {file}\n"
    watching.send_signal(signal.SIGINT)
    assert watching.communicate(timeout=SECONDS)[1] == ""


def test_watch_of_a_refused_script(tmp_path):
    """A refusal is printed once, and explained once."""
    output, told = tmp_path / "output", tmp_path / "told"
    with output.open("w") as out, told.open("w") as err:
        watching = begin("./play", "--watch", REFUSED, stdout=out, stderr=err)
    lines = command("./play", REFUSED)
    assert missing(told, [lines.stderr]) == []
    time.sleep(1)
    watching.send_signal(signal.SIGINT)
    watching.wait(timeout=SECONDS)
    assert (output.read_text(), told.read_text()) == (lines.stdout, lines.stderr)


def test_watch_ends_after_its_reader():
    watching = begin("./draw", "--watch", REPLAY, stdout=subprocess.PIPE, stderr=subprocess.PIPE)
    line_of(watching, watching.stdout)
    watching.stdout.close()
    assert (watching.wait(timeout=SECONDS), watching.stderr.read()) == (0, "")


@pytest.mark.parametrize("name, what", [("./play", "script"), ("./draw", "script"), ("./judge", "record")])
def test_terminal(name, what):
    """A command without a file says at a terminal what it reads."""
    terminal, end = pty.openpty()
    reading = begin(name, stdin=end, stdout=subprocess.DEVNULL, stderr=subprocess.PIPE)
    assert f"reading a {what} from standard input" in line_of(reading, reading.stderr)
    os.write(terminal, b"\x04")
    reading.communicate(timeout=SECONDS)
    os.close(end)
    os.close(terminal)


def run_crowd(flow_stress, word, crowd):
    emitters, readers, room, values = crowd
    line = f"seed 7, {emitters} emitters, {readers} readers, room for {room}, {values} values: 0 wrong"
    expect(run(flow_stress, word, "7", *map(str, crowd)), ended(0, line))


@pytest.mark.parametrize("crowd", CROWDS, ids=lambda crowd: case_id(*crowd))
def test_crowd(flow_stress, crowd):
    """Emitters that sleep while there is no room, and readers that sleep while there is no value, wake each other: the run ends."""
    run_crowd(flow_stress, "--crowd", crowd)


@pytest.mark.parametrize("crowd", WORD_CROWDS, ids=lambda crowd: case_id(*crowd))
def test_word_crowd(flow_stress, crowd):
    """Readers that sleep while there is no value are woken by emitters, which wait for no reader: the run ends."""
    run_crowd(flow_stress, "--word-crowd", crowd)
