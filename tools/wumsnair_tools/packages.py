"""Installs from Debian what the parts of the CI run need, or says what to install."""
import os
import shutil
import subprocess
import sys

from wumsnair_tools.cargo import REGISTRY

# The packages that have a command.
COMMANDS = {
    "cc": ("gcc", "libc6-dev"),
    "c++": ("g++",),
    "java": ("default-jdk-headless",),
    "javac": ("default-jdk-headless",),
    "kotlinc": ("kotlin",),
    "cargo": ("cargo",),
    "node": ("nodejs",),
    "valgrind": ("valgrind",),
    "chromium": ("chromium", "fonts-dejavu-core"),
    "shellcheck": ("shellcheck",),
    "pyflakes3": ("pyflakes3",),
}
# The packages that have a module of Debian's Python.
PYTHON = "/usr/bin/python3"
MODULES = {"pytest": ("python3-pytest",), "xdist": ("python3-pytest-xdist",), "hypothesis": ("python3-hypothesis",), "jsonschema": ("python3-jsonschema",)}
# The packages that have a crate of Rust, by the names of their folders.
CRATES = {"tokio-1.*": ("librust-tokio-dev",), "async-broadcast-0.4.*": ("librust-async-broadcast-dev",)}
# What not every release of Debian has. If it cannot be had, what needs it is left out.
NOT_EVERYWHERE = ("kotlinc",)


def packages_of(needs):
    """The packages of these commands, modules and crates."""
    return list(dict.fromkeys(package for need in needs for package in {**COMMANDS, **MODULES, **CRATES}[need]))


def has(need):
    if need in COMMANDS:
        return shutil.which(need) is not None
    if need in CRATES:
        return any(REGISTRY.glob(need))
    return subprocess.run([PYTHON, "-c", f"import {need}"], stderr=subprocess.DEVNULL).returncode == 0


def missing(needs):
    """The packages of these commands, modules and crates that are not installed."""
    return packages_of(need for need in needs if not has(need))


def is_had_here(need):
    """Whether what not every release of Debian has is installed, or a package of this release."""
    if need not in NOT_EVERYWHERE or has(need) or not shutil.which("apt-cache"):
        return True
    told = subprocess.run(["apt-cache", "policy", *packages_of([need])], capture_output=True, text=True).stdout
    return "Candidate: " in told and "Candidate: (none)" not in told


def apt(*words):
    """Runs apt-get as root. False if that cannot be done."""
    if os.geteuid() != 0 or not shutil.which("apt-get"):
        return False
    settings = {"env": {**os.environ, "DEBIAN_FRONTEND": "noninteractive"}, "stdout": subprocess.DEVNULL}
    return subprocess.run(["apt-get", "-o", "Acquire::Retries=3", *words], **settings).returncode == 0


def install(needs):
    """Installs what is missing and can be had here. Exits, and says what to install, if it cannot."""
    needs = [need for need in needs if not has(need)]
    if not needs:
        return
    # What can be had is known only after an update.
    is_updated = apt("update", "-qq")
    packages = missing(need for need in needs if is_had_here(need))
    if packages and not (is_updated and apt("install", "-y", "-qq", "--no-install-recommends", *packages)):
        names = " ".join(packages)
        sys.exit(f"gate: not installed: {names}. On Debian, as root: apt-get update && apt-get install -y {names}")
