"""Tries the crates that must not compile, and their twins.

Each file of tests/refused/crates/NAME/ is a whole crate NAME. A crate with a line `//! Refused: WORDS` must be refused by an error with
these words. The others must be proved: each is the twin of a wrong crate, and shows that nothing else in that crate is refused. The
names of the files end in .in, since `rt ci` takes each .rt file of the repository for one of its own."""
import pathlib
import re
import shutil
import subprocess
import sys
import tempfile

from wumsnair_tools.built import top


def checked(text):
    """The status of `rt check` of a crate, and what it printed."""
    name = text.parent.name
    with tempfile.TemporaryDirectory() as room:
        source = pathlib.Path(room, "crates", name, "src")
        source.mkdir(parents=True)
        shutil.copy(top / "HANDLES", room)
        pathlib.Path(room, "crates.txt").write_text(f"{name}:\n")
        shutil.copy(text, source / "lib.rt")
        ran = subprocess.run(["rt", "check"], cwd=source.parent, stdout=subprocess.PIPE, stderr=subprocess.STDOUT, text=True, errors="replace")
    return ran.returncode, ran.stdout


def is_right(text):
    """Whether a crate is refused as its line says, or proved without such a line. Prints what came."""
    words = re.search(r"^//! Refused: (.*)$", text.read_text(), re.M)
    status, said = checked(text)
    came = "proved" if status == 0 else "refused" if words and words[1] in said else "failed"
    name = text.relative_to(top)
    if came == ("refused" if words else "proved"):
        print(f"{name}: {came}, as it must be" + (f": {words[1]}" if words else ""), flush=True)
        return True
    print(f"{name}: {came}, which is wrong:\n{said}", flush=True)
    return False


def try_crates():
    texts = sorted((top / "tests" / "refused" / "crates").glob("*/*.rt.in"))
    if not texts or not all([is_right(text) for text in texts]):
        sys.exit("crates: some are not refused or not proved as they must be")
