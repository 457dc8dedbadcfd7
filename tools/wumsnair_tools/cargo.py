"""Builds programs in Rust with cargo, only from Debian's packages."""
import pathlib
import subprocess
import sys

# The folder in which Debian's packages put crates.
REGISTRY = pathlib.Path("/usr/share/cargo/registry")


def call(folder, *words):
    """Runs a command in a folder. Exits if it fails."""
    ran = subprocess.run(words, cwd=folder, capture_output=True, text=True)
    if ran.returncode != 0:
        sys.exit(ran.stdout + ran.stderr)
    return ran.stdout


def cargo_build(folder, *words):
    """Builds the crate in a folder with cargo, only from Debian's packages."""
    config = ['source.crates-io.replace-with="debian"', f'source.debian.directory="{REGISTRY}"']
    call(folder, "cargo", "build", "--offline", *words, *(word for line in config for word in ("--config", line)))
