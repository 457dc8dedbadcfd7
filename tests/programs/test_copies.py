"""A program in another repository is checked over the libraries that ./use_in copied there: `rt` does not prove them again.

The libraries are two small ones: `rt ci` leaves none of this repository that could be copied, since it builds only their statements, and
`rt lib` would prove them again."""
import shutil
import subprocess

import pytest

from running import SECONDS
from wumsnair_tools.built import top

LINES = "below: \nabove: below\n"
CRATES = {
    "below": ("lib", "//! A number.\n\npub fn seven() -> u64 {\n    7\n}\n"),
    "above": ("lib", "//! The next number.\n\npub fn eight() -> u64 {\n    below::seven().wrapping_add(1)\n}\n"),
}
PROGRAM = """//! Prints a number of the library.
#![tactic(auto)]

fn main(rt: HostRuntime) -> anyhow::Result<()> {
    println!(rt; "{}", above::eight())?;
    Ok(())
}
"""


def write_crate(root, name, kind, text):
    source = root / "crates" / name / "src" / f"{kind}.rt"
    source.parent.mkdir(parents=True)
    source.write_text(text)


def rt(root, crate, word):
    """Runs a command of `rt` in a crate. Fails, with what was printed, if it does."""
    ran = subprocess.run(["rt", word], cwd=root / "crates" / crate, stdout=subprocess.PIPE, stderr=subprocess.STDOUT, text=True, timeout=SECONDS)
    if ran.returncode:
        pytest.fail(f"wanted: rt {word} in {crate} succeeds; came: status {ran.returncode}\n{ran.stdout[-3000:]}", pytrace=False)
    return ran.stdout


def library_files(root):
    """The files of the built libraries, each with the number and the time by which it is known."""
    found = [file for name in CRATES for file in (root / "crates" / name / "out/rlib").rglob("*") if file.is_file()]
    return {str(file.relative_to(root)): (file.stat().st_ino, file.stat().st_mtime_ns) for file in found}


@pytest.fixture
def original(tmp_path):
    """A small repository with proved libraries, and the command that copies them."""
    folder = tmp_path / "original"
    folder.mkdir()
    for name in ("use_in", "LICENSE", "VERSION"):
        shutil.copy(top / name, folder)
    shutil.copytree(top / "tools" / "wumsnair_tools", folder / "tools" / "wumsnair_tools")
    (folder / "crates.txt").write_text(LINES)
    for name, (kind, text) in CRATES.items():
        # Without a text of its own `rt` takes what an earlier run of this test proved, which is older than these files.
        write_crate(folder, name, kind, f"{text}// {folder} {folder.stat().st_ctime_ns}\n")
    rt(folder, "above", "lib")
    return folder


def copy_of(original, folder):
    """A repository with copies of the libraries and a program over them."""
    folder.mkdir()
    ran = subprocess.run([original / "use_in", folder, "above"], capture_output=True, text=True)
    assert (ran.returncode, ran.stderr, "still to be proved" in ran.stdout) == (0, "", False), ran.stdout
    with open(folder / "crates.txt", "a") as lines:
        lines.write("program: above anyhow\n")
    write_crate(folder, "program", "main", PROGRAM)
    return folder


def test_copied_libraries_are_taken(original, tmp_path):
    """A library that is built again has other files."""
    copy = copy_of(original, tmp_path / "copy")
    before = library_files(copy)
    assert {f"crates/{name}/out/rlib/stamp" for name in CRATES} <= set(before), "wanted: the built libraries are copied, with their stamps"
    said = rt(copy, "program", "check")
    after = library_files(copy)
    changed = sorted(file for file in before if after.get(file) != before[file])
    assert changed == [], f"wanted: no library is built again; rt said:\n{said}"
