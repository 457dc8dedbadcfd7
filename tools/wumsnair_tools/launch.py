"""The parts that ./play, ./draw and ./judge share: they read the arguments, and run a program."""
import difflib
import os
import select
import signal
import subprocess
import sys
import time

from wumsnair_tools.building import FAILED, fresh_program, program, say, stop
from wumsnair_tools.built import top

# The commands take these from here, too.
__all__ = ["FAILED", "fresh_program", "program", "say", "stop"]

VERSION = (top / "VERSION").read_text().strip()
REFUSED = 2
# The status of the programs of scripts if a read or a write fails. A command then has FAILED.
TRANSFER_FAILED = 3
# The most bytes that a program reads of a script: one more than a script may have.
MOST_READ = 1_048_577
# The name of standard input, which is read if no file is named, too.
STANDARD_INPUT = "-"
# Stands for the time of a watched file's last change if there is no file.
GONE = -1


def put(words):
    """Prints words. Returns whether that went well, and says why if not."""
    if sys.stdout is None:
        if words:
            say("standard output is closed")
        return not words
    try:
        sys.stdout.buffer.write(words if isinstance(words, bytes) else words.encode(errors="surrogateescape"))
        sys.stdout.flush()
    except OSError as error:
        say(f"cannot write: {error.strerror}")
        # Python would try to write the rest as it ends.
        os.dup2(os.open(os.devnull, os.O_WRONLY), 1)
        return False
    return True


def show(words):
    """Prints words, and exits if that fails."""
    if not put(words):
        sys.exit(FAILED)


def ended(main):
    """The status of a command, also of one that exits by itself."""
    try:
        return main()
    except SystemExit as exited:
        return exited.code


def run_command(main, interrupted=None):
    """Runs a command to its end. An interrupt, a file that cannot be used, or a write that fails ends it without a traceback. After an
    interrupt it prints these words, if there are any."""
    # With this `./play FILE | head` ends as other commands do.
    signal.signal(signal.SIGPIPE, signal.SIG_DFL)
    signal.signal(signal.SIGTERM, lambda number, _: sys.exit(128 + number))
    try:
        status = ended(main)
        sys.exit(status if put("") else FAILED)
    except OSError as error:
        stop(f"{error.filename}: {error.strerror}" if error.filename else error.strerror)
    except KeyboardInterrupt:
        if interrupted:
            say(interrupted)
        sys.exit(128 + signal.SIGINT)


def status_of(ran):
    """The status of a command, by that of the program that it ran on a script."""
    if ran.returncode != TRANSFER_FAILED:
        return ran.returncode
    say("a read or a write failed")
    return FAILED


def is_file(word):
    """Whether a word names a file, and is no option."""
    return word == STANDARD_INPUT or not word.startswith("-")


def file_of(words, what):
    """The file that the words name, or standard input, and the other words."""
    files = [word for word in words if is_file(word)]
    if len(files) > 1:
        stop(f"one {what} at a time: {' '.join(files)}")
    return (files or [STANDARD_INPUT])[0], [word for word in words if not is_file(word)]


def opened(file, what):
    """The file, or standard input."""
    if file in (None, STANDARD_INPUT):
        if sys.stdin is None:
            stop(f"standard input is closed: name a {what}, or pass one to it")
        if sys.stdin.isatty():
            say(f"reading a {what} from standard input, up to Ctrl-D; --help lists all forms")
        return sys.stdin.buffer
    try:
        return open(file, "rb")
    except FileNotFoundError:
        stop(f"no such file: {file}")
    except OSError as error:
        stop(f"cannot read {file}: {error.strerror}")


def script_of(words):
    """The text of the script that the words name, or of standard input, and the other words."""
    file, words = file_of(words, "script")
    try:
        return opened(file, "script").read(MOST_READ), words
    except OSError as error:
        stop(f"cannot read {file}: {error.strerror}")


def run(words, script, **how):
    """Runs a program on a script. If the program does not read all of it, the broken pipe does not end this command."""
    before = signal.signal(signal.SIGPIPE, signal.SIG_IGN)
    try:
        return subprocess.run(words, input=script, **how)
    finally:
        signal.signal(signal.SIGPIPE, before)


def watched(words):
    """The file to watch."""
    files = [word for word in words if is_file(word)]
    if len(files) != 1 or files[0] == STANDARD_INPUT:
        stop("--watch takes one script: --watch FILE")
    return files[0]


def has_reader():
    """Whether standard output still has a reader: false if it is a pipe whose reader has ended."""
    output = select.poll()
    output.register(sys.stdout, 0)
    return not output.poll(0)


def watch(file, show):
    """Calls `show` now, and again whenever the file has changed, until it is interrupted or its output has no reader left."""
    seen = None
    try:
        while has_reader():
            try:
                changed = os.stat(file).st_mtime_ns
            except FileNotFoundError:
                if seen is None:
                    stop(f"no such file: {file}")
                changed = None if seen == GONE else GONE
            if changed == GONE:
                say(f"waiting for {file}")
                seen = GONE
            elif changed not in (None, seen):
                seen = changed
                if sys.stdout.isatty():
                    print("\x1b[2J\x1b[H", end="", flush=True)
                try:
                    show()
                except (SystemExit, FileNotFoundError):
                    # Some editors remove a file before they write it anew.
                    if os.path.exists(file):
                        raise
            time.sleep(0.2)
    except KeyboardInterrupt:
        pass


def refuse(words):
    """Prints what is wrong with the arguments, and exits."""
    say(words)
    sys.exit(REFUSED)


def refuse_word(kind, word, known):
    """Prints that there is no such option or command, and the nearest one, and exits."""
    near = difflib.get_close_matches(word, known, 1)
    refuse(f"no {kind} {word}" + (f": did you mean {near[0]}?" if near else "; --help lists them"))


def first_options(words, usage, options):
    """Handles --help and --version, and refuses an option that is not among these."""
    if "--help" in words or "-h" in words:
        show(f"{usage}\n")
        sys.exit(0)
    if "--version" in words:
        show(f"wumsnair {VERSION}\n")
        sys.exit(0)
    for word in words:
        if not is_file(word) and word not in options:
            refuse_word("option", word, [*options, "--help", "--version"])
