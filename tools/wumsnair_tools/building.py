"""Finds the program that a command runs, or builds it without a proof.

The toolchain has no command that writes a program without a proof: `rt try` builds one, runs it and removes it. So `rt try` is run from
a copy of the toolchain, of links, whose linker also copies the program to another place."""
import contextlib
import os
import pathlib
import shutil
import subprocess
import sys
import tempfile
import threading
import time

from wumsnair_tools.built import sources, top
from wumsnair_tools.prover import kit
from wumsnair_tools.terminal import for_stream, is_terminal

# The status if the command itself fails. The programs use 0 to 4, and the C library 5.
FAILED = 6
# A linker that copies the program that it makes.
LINKER = """#!/bin/sh
"{linker}" "$@" && cp program "{kept}"
"""


def say(words):
    print(for_stream(words, sys.stderr), file=sys.stderr, flush=True)


def stop(words):
    """Ends the command, since it cannot do what is asked."""
    say(words)
    sys.exit(FAILED)


def fresh_program(name):
    """The program that was proved or built last; None if none is as new as its sources."""
    crate = top / "crates" / name
    newest = max(file.stat().st_mtime for file in sources(name))
    built = (crate / "out" / name, crate / "out" / f"{name}.unproved")
    return next((file for file in built if file.exists() and file.stat().st_mtime >= newest), None)


@contextlib.contextmanager
def seconds_shown(what="", every=1):
    """Shows at a terminal how many seconds have passed, once in so many seconds."""
    if not is_terminal(sys.stderr):
        yield
        return
    begin, is_over = time.monotonic(), threading.Event()

    def show():
        is_shown = False
        while not is_over.wait(every):
            is_shown = True
            print(f"\r{what}{time.monotonic() - begin:4.0f} s ", end="", file=sys.stderr, flush=True)
        if is_shown:
            print("\r\x1b[K", end="", file=sys.stderr, flush=True)

    shower = threading.Thread(target=show)
    shower.start()
    try:
        yield
    finally:
        is_over.set()
        shower.join()


def link_all(source, target, but):
    """Makes a folder of links to all that another folder has, except for these names."""
    target.mkdir()
    for entry in source.iterdir():
        if entry.name not in but:
            (target / entry.name).symlink_to(entry)


def toolchain_that_keeps(folder, kept):
    """Makes a copy of the toolchain whose linker copies the program that it makes. Returns the `rt` of the copy."""
    link_all(kit(), folder, but=("bin", "toolchain"))
    link_all(kit() / "bin", folder / "bin", but=("rt", "rtlib.py"))
    link_all(kit() / "toolchain", folder / "toolchain", but=("bin",))
    link_all(kit() / "toolchain/bin", folder / "toolchain/bin", but=("ld.lld",))
    # `rt` takes the toolchain of the folder that it is in, and not that of a link to it.
    for name in ("rt", "rtlib.py"):
        shutil.copy(kit() / "bin" / name, folder / "bin")
    linker = folder / "toolchain/bin/ld.lld"
    linker.write_text(LINKER.format(linker=kit() / "toolchain/bin/ld.lld", kept=kept))
    linker.chmod(0o755)
    return folder / "bin/rt"


def try_program(crate, room, kept):
    """Builds the program of a crate by `rt try`, and puts it in its place. Returns what `rt try` printed if that fails."""
    cases, new = room / "cases", room / "new"
    cases.mkdir()
    # Of a run by --cases the status does not matter: the program refuses an empty script.
    (cases / "empty").touch()
    words = [toolchain_that_keeps(room / "kit", new), "try", "--cases", cases]
    how = {"stdin": subprocess.DEVNULL, "stdout": subprocess.DEVNULL, "stderr": subprocess.PIPE, "start_new_session": True}
    trying = subprocess.Popen(words, cwd=crate, env={**os.environ, "TMPDIR": str(room)}, **how)
    try:
        _, said = trying.communicate()
    except BaseException:
        # Then `rt try` ends what it runs, and removes its folder.
        trying.terminate()
        trying.wait()
        raise
    if trying.returncode == 0 and new.exists():
        new.replace(kept)
        return None
    return said.decode(errors="replace").strip() or f"`rt try` ended with status {trying.returncode}"


def build(name):
    """Builds a program without a proof, and returns it."""
    crate = top / "crates" / name
    kept = crate / "out" / f"{name}.unproved"
    say(f"building {name} without a proof, which takes one to three minutes; `rt run` in crates/{name} proves it as well")
    try:
        kept.parent.mkdir(exist_ok=True)
        with tempfile.TemporaryDirectory(prefix="flows-", dir=kept.parent) as room, seconds_shown():
            failure = try_program(crate, pathlib.Path(room), kept)
    except OSError as error:
        stop(f"cannot build {name} in {kept.parent}: {error.strerror}")
    if failure:
        stop(f"{failure}\n{name} could not be built; `rt run` in crates/{name} builds it, too")
    return kept


def program(name):
    """The program that was proved or built last; if there is none, builds one without a proof."""
    found = fresh_program(name)
    if found is None and not shutil.which("rt"):
        stop("the toolchain's command `rt` is not on this machine")
    return found or build(name)
