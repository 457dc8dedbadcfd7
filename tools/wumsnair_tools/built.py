"""The programs as they were built last."""
import fcntl
import pathlib
import subprocess
import sys

top = pathlib.Path(__file__).resolve().parents[2]


def needs():
    """The crates of crates.txt, each with those that its line names, also of the toolchain."""
    lines = [line.partition(":") for line in (top / "crates.txt").read_text().splitlines()]
    return {head.split()[0]: names.split() for head, colon, names in lines if colon and not head.startswith("#")}


def below(name):
    """A crate of the repository, and those that it needs."""
    left, taken, known = [name], [], needs()
    while left:
        name = left.pop()
        if name in known and name not in taken:
            taken.append(name)
            left += known[name]
    return taken


def sources(name):
    """The code that a program is built of."""
    files = [file for each in below(name) for file in (top / "crates" / each / "src").rglob("*.rt")]
    return [file for file in files if "tests" not in file.parts and file.stem != "tests"]


def run(crate):
    """Proves and builds a program, and runs it as the CI run does."""
    given, args = crate / "stdin", crate / "args"
    script = given.read_bytes() if given.exists() else b""
    words = args.read_text().splitlines() if args.exists() else []
    said = subprocess.run(["rt", "run", "--", *words], cwd=crate, input=script, capture_output=True)
    if said.returncode != 0:
        sys.exit((said.stdout + said.stderr).decode(errors="replace"))


def programs(name):
    """The programs that `rt ci` built last, by each of its two compilers; otherwise the one that `rt run` proves and builds."""
    crate = top / "crates" / name
    built = [crate / "out" / name, crate / "out" / f"{name}.by-rattle"]
    newest = max(file.stat().st_mtime for file in sources(name))
    with open(crate / "src" / "main.rt") as lock:
        # One process builds the program, and the others wait for it.
        fcntl.flock(lock, fcntl.LOCK_EX)
        fresh = [file for file in built if file.exists() and file.stat().st_mtime >= newest]
        if not fresh:
            run(crate)
            fresh = built[:1]
    return fresh
