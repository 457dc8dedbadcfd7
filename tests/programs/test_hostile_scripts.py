"""The player with hostile scripts, inputs, outputs and arguments, and with little memory. The outcomes are those of docs/SCRIPTS.md."""
import itertools
import os
import subprocess
import tempfile

import pytest

from hostile_scripts import COUNT, MOST, NOT_JSON, PLAYED, SCRIPT, WHOLE, cases, damaged, played, refused, script
from running import SECONDS, Outcome, case_id, difference, ended, expect, run

READ_FAILED = ended(3, "read failed")
WRITE_FAILED = ended(3)
OUT_OF_MEMORY = ended(4, "out of memory")
USAGE = ended(2, "usage: flow_play [crowd E S N | count T N]")
CROWD = ["crowd", "1", "1", "1"]
WRONG_NUMBERS = {"empty": "", "negative": "-1", "plus": "+1", "space": " 1", "exponent": "1e0", "hexadecimal": "0x1", "six_digits": "000001",
                 "too_great": "100000", "arabic": "\u0661"}  # fmt: skip
WRONG_WORDS = (
    [""],
    ["play"],
    ["Crowd", *CROWD[1:]],
    CROWD[:3],
    [*CROWD, "1"],
    ["crowd", "0", "1", "1"],
    ["crowd", "9", "1", "1"],
    ["count", "9", "1"],
    ["count", "0", "1"],
    ["count", "1", "10001"],
    ["count", "1"],
    ["count", "1", "1", "1"],
    ["Count", "1", "1"],
)
# What a program with little memory must refuse without much more of it.
SMALL = {
    "brackets": (b"[" * 1_000_000, NOT_JSON),
    "name": (script({"do": "subscribe", "name": "a" * 1_000_000}), refused("BadShape", 1)),
    "key": (script({"do": "count", "a" * 1_000_000: 1}), refused("BadShape", 1)),
    "number": (b"1" * 1_000_000, NOT_JSON),
    "spaces": (b" " * MOST, NOT_JSON),
}


@pytest.mark.parametrize("text, wanted", [pytest.param(text, wanted, id=case_id(what)) for what, text, wanted in cases()])
def test_script(flow_play, text, wanted):
    expect(run(flow_play, text=text), wanted)


@pytest.mark.parametrize("damage", damaged(b""))
@pytest.mark.parametrize("name", PLAYED)
def test_damaged_script(flow_play, name, damage):
    texts = damaged(PLAYED[name][0])[damage]
    came = {what: run(flow_play, text=text) for what, text in texts.items()}
    wrong = {what: each for what, each in came.items() if each != NOT_JSON}
    assert wrong == {}, f"wanted: {NOT_JSON} for each"


def run_between(source, sink, *words):
    """Runs a program from one file to another one; the first may be a folder. The second may take nothing."""
    reading = os.open(source, os.O_RDONLY)
    ran = subprocess.run(words, stdin=reading, stdout=sink, stderr=subprocess.PIPE, timeout=SECONDS)
    os.close(reading)
    return Outcome(ran.returncode, ran.stdout or b"", ran.stderr)


def run_on_single_bytes(program, text):
    """Runs a program on a script from a pipe that gives one byte to each read."""
    reading, writing = os.pipe2(os.O_DIRECT | os.O_CLOEXEC)
    with subprocess.Popen(program, stdin=reading, stdout=subprocess.PIPE) as running:
        os.close(reading)
        try:
            for at in range(len(text)):
                os.write(writing, text[at : at + 1])
        except BrokenPipeError:
            pass
        os.close(writing)
        return Outcome(running.wait(SECONDS), running.stdout.read())


def taken_by(*words):
    """The number of bytes that a program reads of a file that has far more."""
    with tempfile.TemporaryFile() as given:
        given.truncate(1 << 40)
        subprocess.run(words, stdin=given, stdout=subprocess.DEVNULL, timeout=SECONDS)
        return os.lseek(given.fileno(), 0, os.SEEK_CUR)


@pytest.fixture(params=["script", "no_json", "folder"])
def source(request, tmp_path):
    """A script, a text that is none, or a folder."""
    if request.param == "folder":
        return tmp_path
    file = tmp_path / "source"
    file.write_bytes(SCRIPT if request.param == "script" else b"{")
    return file


def test_input_without_end(flow_play):
    expect(run_between("/dev/zero", subprocess.PIPE, flow_play), refused("TooLarge", 0))
    assert taken_by(flow_play) == MOST + 1


def test_wrong_arguments_read_nothing(flow_play):
    assert taken_by(flow_play, "play") == 0


def test_folder_as_input(flow_play, tmp_path):
    expect(run_between(tmp_path, subprocess.PIPE, flow_play), READ_FAILED)


def test_single_bytes(flow_play):
    expect(run_on_single_bytes(flow_play, SCRIPT), WHOLE)


def test_too_many_single_bytes(flow_play):
    expect(run_on_single_bytes(flow_play, b" " * (MOST + 1)), refused("TooLarge", 0))


def test_full_device(flow_play, source):
    with open("/dev/full", "wb", buffering=0) as full:
        expect(run_between(source, full, flow_play), WRITE_FAILED)


@pytest.mark.parametrize("words", [["play"], CROWD], ids=case_id)
def test_full_device_with_arguments(flow_play, words):
    with open("/dev/full", "wb", buffering=0) as full:
        expect(run_between("/dev/null", full, flow_play, *words), WRITE_FAILED)


def test_reader_that_is_gone(flow_play, source):
    reading, writing = os.pipe()
    os.close(reading)
    expect(run_between(source, writing, flow_play), WRITE_FAILED)
    os.close(writing)


def test_crowd_beside_a_refused_script(flow_play):
    expect(run(flow_play, *CROWD, text=b"{"), played("subscriber 1 got 1 in order", "emitted 1"))


@pytest.mark.parametrize("number", WRONG_NUMBERS.values(), ids=WRONG_NUMBERS)
@pytest.mark.parametrize("place", [1, 2, 3])
def test_wrong_number(flow_play, place, number):
    expect(run(flow_play, *CROWD[:place], number, *CROWD[place + 1 :], text=SCRIPT), USAGE)


@pytest.mark.parametrize("words", WRONG_WORDS, ids=case_id)
def test_wrong_words(flow_play, words):
    expect(run(flow_play, *words, text=SCRIPT), USAGE)


@pytest.mark.parametrize("threads, times", [(1, 0), (4, 100), (8, 10_000)])
def test_count(flow_play, threads, times):
    expect(run(flow_play, "count", str(threads), str(times), text=SCRIPT), played(f"value {threads * times}"))


def run_within(memory, program, text):
    """Runs a program with at most this many bytes of memory for its data."""
    return run("sh", "-c", f'ulimit -d {memory // 1024} && exec "$0"', program, text=text)


def test_script_in_any_memory(flow_play):
    """A script is played whole, or ends out of memory. With more memory than is enough it is played, too."""
    text, whole = script(*[COUNT] * 10_000), played(*[0] * 10_000)
    came = [run_within(size, flow_play, text) for size in range(MOST // 2, 20 * MOST, MOST // 2)]
    enough = came.index(whole) if whole in came else len(came)
    assert enough < len(came), "no memory is enough"
    for outcome, wanted in zip(came, itertools.chain([OUT_OF_MEMORY] * enough, itertools.repeat(whole))):
        assert outcome == wanted, difference(outcome, wanted)


@pytest.mark.parametrize("text, wanted", SMALL.values(), ids=SMALL)
def test_refused_in_little_memory(flow_play, text, wanted):
    expect(run_within(4 * MOST, flow_play, text), wanted)


@pytest.mark.parametrize("text", [text for text, _ in SMALL.values()], ids=SMALL)
def test_refused_in_little_time(flow_play, text):
    """The program takes less than a quarter of a second of processor time."""
    before = os.times()
    run(flow_play, text=text)
    after = os.times()
    took = after.children_user + after.children_system - before.children_user - before.children_system
    assert took < 0.25, f"wanted: less than 0.25 s of processor time; came: {took:.2f} s"
