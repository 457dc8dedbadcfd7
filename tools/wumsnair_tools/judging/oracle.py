"""Judges the bytes of records by the fastest way that is there."""
import select
import signal
import subprocess
import time
from dataclasses import dataclass, field

from wumsnair_tools import launch, ways
from wumsnair_tools.building import seconds_shown
from wumsnair_tools.judging import remedies

VERDICTS = {0: "legal", 1: "illegal", 2: "refused", 3: "gave up"}
# The most bytes of a record.
MOST_BYTES = 268_435_456
TOO_LARGE = f"refused: the record has more than {MOST_BYTES} bytes\n  expected: at most {MOST_BYTES} bytes\n"
# The program is out of memory, or was ended by a signal.
FAILED = 4
# After how many seconds a terminal shows for how long a search has run, and how often.
SHOWN_EVERY = 2
# Runs a program with so many kilobytes of memory, or with fewer if it may not have so many.
WITH_MEMORY = 'ulimit -v "$1" 2>/dev/null; shift; exec "$@"'


@dataclass(frozen=True)
class Limits:
    """The most seconds and megabytes that judging a record may take; None is no limit."""

    seconds: float | None = None
    memory: int | None = None


@dataclass
class Verdict:
    """The verdict on a record: its word, the status, the words of the program, remedies, and the record's calls if they were read."""

    record: str
    verdict: str
    status: int
    words: str = ""
    hints: list = field(default_factory=list)
    calls: list | None = None
    seconds: float = 0.0


def run(words, text, limits):
    """The status and the words of a program, and a hint."""
    if limits.memory:
        words = ["sh", "-c", WITH_MEMORY, "sh", str(limits.memory * 1024), *words]
    try:
        ran = launch.run([*words], text, stdout=subprocess.PIPE, timeout=limits.seconds)
    except subprocess.TimeoutExpired:
        return 3, "gave up\n", [f"stopped after {limits.seconds:g} seconds; --seconds sets the limit"]
    if ran.returncode < 0:
        return FAILED, "", [f"the program was ended by the signal {signal.Signals(-ran.returncode).name}"]
    hints = [f"{limits.memory} megabytes are not enough; --memory sets the limit"] if limits.memory and ran.returncode == FAILED else []
    return ran.returncode, ran.stdout.decode(errors="replace"), hints


def judged(words, record, text, limits=Limits(), reads_calls=False):
    """The verdict of a program on the bytes of a record."""
    begin = time.perf_counter()
    with seconds_shown("judging ", SHOWN_EVERY):
        status, told, hints = (2, TOO_LARGE, []) if len(text) > MOST_BYTES else run(words, text, limits)
    verdict = Verdict(record, VERDICTS.get(status, "failed"), status, told, hints, None, round(time.perf_counter() - begin, 3))
    if verdict.verdict == "refused" and len(text) <= MOST_BYTES:
        verdict.hints += remedies.of_refusal(told, text)
    elif verdict.verdict == "gave up":
        verdict.calls = calls_if_read(text)
        verdict.hints += remedies.of_giving_up(verdict.calls or [], bool(hints))
    elif verdict.verdict == "illegal" or reads_calls and verdict.verdict == "legal":
        flow, verdict.calls = remedies.record_of(text)
        verdict.hints += remedies.of_calls(flow, verdict.calls)
    return verdict


def calls_if_read(text):
    """The calls of a record; None if it is none, which a search that was stopped does not say."""
    try:
        calls = remedies.calls_of(text)
        return calls if all({"by", "call", "begin"} <= call.keys() for call in calls) else None
    except (ValueError, AttributeError):
        return None


class Stream:
    """A process of wumsnair.mjs that judges one record after another."""

    def __init__(self, words):
        self.words = [*words, "--stream"]
        self.begin()

    def begin(self):
        self.process = subprocess.Popen(self.words, stdin=subprocess.PIPE, stdout=subprocess.PIPE)

    def __call__(self, text, seconds=None):
        self.process.stdin.write(b"%d\n" % len(text) + text)
        self.process.stdin.flush()
        if not select.select([self.process.stdout], [], [], seconds)[0]:
            self.process.kill()
            self.process.communicate()
            self.begin()
            return 3, "gave up\n"
        status, length = map(int, self.process.stdout.readline().split())
        return status, self.process.stdout.read(length).decode()


def many(memory=None):
    """A function that judges the bytes of one record after another, within so many megabytes, and returns the status and the words. Its
    second argument is the most seconds that a search may take."""
    words = ways.command("flow_judge", tells_way=True)
    if ways.is_slow(words):
        launch.say(ways.SLOW)
    if ways.is_node(words):
        return Stream([*words, *(["--memory", str(memory)] if memory else [])])
    return lambda text, seconds=None: run(words, text, Limits(seconds, memory))[:2]
