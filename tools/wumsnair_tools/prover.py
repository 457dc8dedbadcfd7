"""The toolchain, and the arguments with which its prover reads a crate."""
import functools
import pathlib
import subprocess
import sys

from wumsnair_tools.built import below, needs, top


@functools.cache
def kit():
    """The folder of the toolchain."""
    said = subprocess.run(["rt", "doc"], capture_output=True, text=True, check=True).stdout
    return pathlib.Path(said.strip()).parent


def library(name):
    """What `rt ci` made of a crate of this repository, or what the toolchain has of one of its own."""
    return top / "crates" / name / "out/rlib" / f"{name}.rlib" if name in needs() else kit() / "rlibs" / f"{name}.rlib"


def words_for(name):
    """The arguments with which the prover reads a crate, with the libraries that `rt ci` proved last. `rattle help check` explains them."""
    own = [each for each in below(name) if each != name]
    missing = next((each for each in own if not library(each).is_dir()), None)
    if missing:
        sys.exit(f"crates/{missing} is not proved yet: run `rt ci` first")
    is_program = (top / "crates" / name / "src/main.rt").exists()
    externs = [f"{each}={library(each)}" for each in ("std", *needs()[name])]
    folders = dict.fromkeys([kit() / "rlibs", *(library(each).parent for each in own)])
    words = ["--crate-name", name, "src/main.rt" if is_program else "src/lib.rt"]
    words += [word for extern in externs for word in ("--extern", extern)]
    words += [word for folder in folders for word in ("-L", f"dependency={folder}")]
    words += ["--antt-project", kit() / "rattle/logic/antt-project.json", "--logic-built", kit() / "logic_built"]
    return [*words, "--links", f"{name}=", "--jobs", "1"]
