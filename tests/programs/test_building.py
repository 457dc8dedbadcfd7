"""./play, ./draw and ./judge build a program without a proof by the kit's `rt try`. Here they build a small one."""
import shutil
import subprocess
import sys

from wumsnair_tools.built import top

SMALL = """//! Prints a line.
#![tactic(auto)]

use std::io;

fn main(rt: HostRuntime) -> io::Result<()> {
    println!(rt; "built")?;
    Ok(())
}
"""
BUILD = "from wumsnair_tools.building import program; print(program('small'))"
# The most seconds that the build may take.
LONG = 1800


def test_program_without_a_proof(tmp_path):
    """It is kept beside the crate, runs, and is not built again; nothing else is left."""
    source = tmp_path / "crates" / "small" / "src"
    source.mkdir(parents=True)
    (source / "main.rt").write_text(SMALL)
    (tmp_path / "crates.txt").write_text("small:\n")
    shutil.copytree(top / "tools" / "wumsnair_tools", tmp_path / "tools" / "wumsnair_tools")
    for said in ("building small without a proof", ""):
        words = [sys.executable, "-c", BUILD]
        built = subprocess.run(words, cwd=tmp_path / "tools", capture_output=True, text=True, timeout=LONG)
        program = tmp_path / "crates/small/out/small.unproved"
        assert (built.returncode, built.stdout) == (0, f"{program}\n"), built.stderr
        assert built.stderr.startswith(said) and bool(said) == bool(built.stderr)
    assert [path.name for path in program.parent.iterdir()] == [program.name]
    assert subprocess.run([program], capture_output=True).stdout == b"built\n"
