"""The command ./judge."""
import subprocess
import sys
from dataclasses import dataclass, field

from wumsnair_tools import launch, ways
from wumsnair_tools.building import seconds_shown
from wumsnair_tools.judging import oracle, reports, shrinking
from wumsnair_tools.judging.verdict_text import visible_words
from wumsnair_tools.terminal import for_stream, is_terminal, visible

OPTIONS = ["--order", "--draw", "--text", "--json", "--junit", "--seconds", "--memory", "--turns", "--shrink"]
# The least and the most megabytes of --memory: the program needs a few to begin, and wumsnair.mjs has addresses of 32 bits.
LEAST_MEMORY = 16
MOST_MEMORY = 4096
# The most turns that a search can count.
MOST_TURNS = 2**64 - 1
# The options that the program takes, in the forms that it takes.
FORMS = [], ["--order"], ["--draw"], ["--draw", "--text"]


@dataclass
class Asks:
    """What a call of the command asks for."""

    flags: list = field(default_factory=list)
    files: list = field(default_factory=list)
    seconds: float | None = None
    memory: int | None = None
    # The option --turns with its number, if the words have it.
    turns: list = field(default_factory=list)
    form: str | None = None

    @property
    def draws(self):
        return "--draw" in self.flags

    @property
    def limits(self):
        return oracle.Limits(self.seconds, self.memory)

    @property
    def reads_calls(self):
        """Whether the calls of a legal record are read, too: for a report, or since the callers' names are shown at a terminal."""
        return self.form is not None or "--order" in self.flags and is_terminal(sys.stdout)


def seconds_of(word):
    try:
        seconds = float(word or "")
    except ValueError:
        seconds = 0
    if not 0 < seconds < 2_000_000:
        launch.refuse("--seconds takes a number of seconds above 0")
    return seconds


def memory_of(word):
    megabytes = int(word) if word and word.isascii() and word.isdecimal() else 0
    if not LEAST_MEMORY <= megabytes <= MOST_MEMORY:
        launch.refuse(f"--memory takes a number of megabytes from {LEAST_MEMORY} to {MOST_MEMORY:,}")
    return megabytes


def turns_of(word):
    if not (word and word.isascii() and word.isdecimal() and 0 < int(word) <= MOST_TURNS):
        launch.refuse("--turns takes a whole number above 0 and below 2^64")
    return ["--turns", word]


def asked(words):
    """What the words ask for."""
    asks, rest = Asks(), iter(words)
    for word in rest:
        if word == "--seconds":
            asks.seconds = seconds_of(next(rest, None))
        elif word == "--memory":
            asks.memory = memory_of(next(rest, None))
        elif word == "--turns":
            asks.turns = turns_of(next(rest, None))
        elif word in ("--json", "--junit", "--shrink"):
            if asks.form not in (None, word):
                launch.refuse(f"{asks.form} and {word} do not go together")
            asks.form = word
        elif not launch.is_file(word):
            asks.flags.append(word)
        else:
            asks.files.append(word)
    if sorted(asks.flags) not in FORMS or asks.draws and (asks.form or asks.seconds or asks.memory):
        launch.refuse("--text goes with --draw, and --draw with no other option")
    if asks.turns and (asks.draws or asks.form == "--shrink"):
        launch.refuse("--turns goes with neither --draw nor --shrink")
    if len(asks.files) > 1 and (asks.form == "--shrink" or asks.draws):
        launch.stop(f"one record at a time: {' '.join(asks.files)}")
    return asks


def put(words):
    """Prints words, to a terminal without control characters. Returns whether that went well."""
    if is_terminal(sys.stdout):
        words = for_stream(words.decode(errors="replace") if isinstance(words, bytes) else words, sys.stdout)
    return launch.put(words)


class Unread(Exception):
    """Why a record was not read. The status is the first argument, and the words the second one."""


def text_of(file):
    """The bytes of a record, or of the first part of one that is too long."""
    try:
        source = launch.opened(None, "record") if file in (None, launch.STANDARD_INPUT) else open(file, "rb")
    except FileNotFoundError:
        raise Unread(launch.FAILED, f"no such file: {file}")
    except OSError as error:
        raise Unread(launch.FAILED, f"cannot read {file}: {error.strerror}")
    try:
        return source.read(oracle.MOST_BYTES + 1)
    except OSError as error:
        raise Unread(launch.FAILED, f"cannot read {file or 'standard input'}: {error.strerror}")


def judge_file(words, file, asks):
    """The verdict on a file, or on standard input."""
    name = file or "-"
    try:
        text = text_of(file)
    except Unread as error:
        return oracle.Verdict(name, "failed", error.args[0], hints=[error.args[1]])
    if ways.is_slow(words) and len(text) > ways.LARGE:
        launch.say(ways.SLOW)
    return oracle.judged([*words, *asks.turns, *asks.flags], name, text, asks.limits, asks.reads_calls)


def show(told, is_only):
    """Prints the verdict on one of several records, or on the only one. Returns whether that went well."""
    words = visible_words(told.words, told.calls or []) if is_terminal(sys.stdout) else told.words
    went_well = put(words if is_only else f"{told.record}: {words or told.verdict + chr(10)}")
    for hint in map(visible, told.hints) if is_terminal(sys.stderr) else told.hints:
        launch.say(hint if told.verdict == "failed" else f"hint: {hint}" if is_only else f"{told.record}: hint: {hint}")
    return went_well


def report(verdicts, asks):
    """The last part of what is printed: a report, or the summary of several records."""
    if asks.form == "--json":
        return reports.json_report(verdicts, "--order" in asks.flags)
    if asks.form == "--junit":
        return reports.junit_report(verdicts)
    return reports.summary(verdicts) if len(verdicts) > 1 else ""


def judge_all(words, asks):
    """Judges the records. Returns the status."""
    verdicts, went_well = [], True
    for file in asks.files or [None]:
        verdicts.append(judge_file(words, file, asks))
        if asks.form is None:
            went_well &= show(verdicts[-1], len(asks.files) < 2)
    went_well &= put(report(verdicts, asks))
    return reports.status_of(verdicts) if went_well else launch.FAILED


def shrink(asks):
    """Prints the smallest illegal record that is found. Returns the status of the record."""
    try:
        text = text_of((asks.files or [None])[0])
    except Unread as error:
        launch.say(error.args[1])
        return error.args[0]
    judge = oracle.many(asks.memory)
    with seconds_shown("searching ", oracle.SHOWN_EVERY):
        status, words, small = shrinking.shrink(judge, text, asks.seconds)
    if small is None:
        launch.say(words.rstrip("\n"))
        return status
    launch.say(words)
    return status if put(small) else launch.FAILED


def draw(words, asks):
    """Draws the calls of a record. Returns the status."""
    record = launch.opened((asks.files or [None])[0], "record")
    if not is_terminal(sys.stdout):
        with seconds_shown("judging ", oracle.SHOWN_EVERY):
            ran = subprocess.run([*words, *asks.flags], stdin=record, stdout=subprocess.PIPE)
        return ran.returncode if launch.put(ran.stdout) else launch.FAILED
    text = record.read(oracle.MOST_BYTES + 1)
    with seconds_shown("judging ", oracle.SHOWN_EVERY):
        ran = launch.run([*words, *asks.flags], text, stdout=subprocess.PIPE)
    drawn = visible_words(ran.stdout.decode(errors="replace"), oracle.calls_if_read(text) or [])
    return ran.returncode if put(drawn) else launch.FAILED


def check_source(asks):
    """Ends the command if its only record cannot be opened, before a program is built."""
    file = (asks.files or [launch.STANDARD_INPUT])[0]
    if file != launch.STANDARD_INPUT:
        launch.opened(file, "record").close()
    elif sys.stdin is None:
        launch.opened(None, "record")


def main(words, usage):
    launch.first_options(words, usage, OPTIONS)
    asks = asked(words)
    if asks.form == "--shrink":
        return shrink(asks)
    if asks.form is None and len(asks.files) < 2:
        check_source(asks)
    program = ways.command("flow_judge", may_be_node=not (asks.draws or asks.turns), tells_way=True)
    if ways.is_node(program):
        sys.stdout.flush()
        return subprocess.run([*program, *words]).returncode
    if asks.draws:
        return draw(program, asks)
    return judge_all(program, asks)
