"""tools/gate runs its parts, stops at the first that fails, and prints the time of each."""
import re
import subprocess

import pytest

from conftest import module_of
from wumsnair_tools.built import top

PARTS = "scripts pages blocks proofs refused recorders pictures page programs".split()


def gate_of(*words):
    return subprocess.run([top / ".ci" / "run", *words], capture_output=True, text=True)


def test_help_lists_the_parts_in_order():
    told = gate_of("--help").stdout
    places = [told.index(f"\n  {name} ") for name in PARTS]
    assert places == sorted(places)


def test_help_says_what_each_part_needs(gate):
    told = " ".join(gate.usage().split())
    assert "(minutes) needs no package, and that `proofs` passed" in told
    for part in gate.PARTS:
        assert all(package in told for package in gate.packages.packages_of(part.needs))
        assert all(name in PARTS[: PARTS.index(part.name)] for name in part.after)


@pytest.mark.parametrize("name, said", [("proof", "no part proof: did you mean proofs?\n"), ("zzz", "no part zzz; --help lists them\n")])
def test_unknown_part(name, said):
    ran = gate_of(name)
    assert (ran.returncode, ran.stdout, ran.stderr) == (2, "", said)


def test_part_that_fails_ends_the_run(gate, monkeypatch, capfd):
    parts = [gate.Part(name, "", "", [["sh", "-c", f"echo {name}; exit {status}"]]) for name, status in (("a", 0), ("b", 7), ("c", 0))]
    monkeypatch.setattr(gate, "PARTS", parts)
    assert gate.main([]) == 1
    printed = capfd.readouterr().out.splitlines()
    assert [line.split()[0] for line in printed[-4:-1]] == ["part", "a", "b"]
    assert printed[-1] == "gate: failed: sh -c echo b; exit 7 (status 7)"
    assert "c" not in printed


def test_parts_run_in_their_order(gate, monkeypatch, capfd):
    parts = [gate.Part(name, "", "", [["echo", name]]) for name in "abc"]
    monkeypatch.setattr(gate, "PARTS", parts)
    assert gate.main(["c", "a"]) == 0
    printed = capfd.readouterr().out.splitlines()
    assert [line for line in printed if len(line) == 1] == ["a", "c"]
    assert printed[-1] == "gate: passed"


def test_contributing_lists_the_parts():
    text = (top / "CONTRIBUTING.md").read_text()
    section = text.split("Run after a change of")[1].split("Not in the CI run")[0]
    assert re.findall(r"`(\w+)`", section) == PARTS


def test_every_command_of_a_part_exists(gate):
    words = [command[0] for part in gate.PARTS for command in part.commands if command[0].startswith("tools/")]
    assert words and all((top / word).is_file() for word in words)


def test_needs_of_the_parts_have_packages(gate):
    for part in gate.PARTS:
        assert bool(gate.packages.packages_of(part.needs)) == bool(part.needs), part.name


def test_recorders_need_what_their_languages_need(gate):
    needed = {need for language in module_of("recorders").LANGUAGES.values() for need in language.needs}
    (part,) = (part for part in gate.PARTS if part.name == "recorders")
    assert set(part.needs) == needed


NO_KOTLIN = "recorders: without kotlin: cannot be had here: this release of Debian has no package kotlin\n"
WITHOUT = {
    "kotlin": ("kotlinc", "", NO_KOTLIN),
    "rust": ("tokio-1.*", None, "recorders: without rust: on Debian: apt-get install librust-tokio-dev\n"),
}


@pytest.mark.parametrize("name", WITHOUT)
def test_language_that_is_left_out(name, monkeypatch, capfd):
    """With --all one language may be left out: Kotlin, and only if Debian does not have it."""
    need, policy, said = WITHOUT[name]
    recorders = module_of("recorders")
    monkeypatch.setattr(recorders.packages, "has", lambda other: other != need)
    told = subprocess.CompletedProcess([], 0, policy)
    monkeypatch.setattr(recorders.packages.subprocess, "run", lambda *words, **how: told)
    monkeypatch.setattr(recorders, "programs", lambda name: ["judge"])
    monkeypatch.setattr(recorders.shutil, "which", lambda command: command)
    if policy is None:
        with pytest.raises(SystemExit) as error:
            recorders.main(["--all", name])
        assert error.value.code == "recorders: a language is left out"
    else:
        assert recorders.main(["--all", name]) == 0
        said += "recorders: 0 programs, 0 wrong\n"
    assert capfd.readouterr().out == said
