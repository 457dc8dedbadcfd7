"""./use_in copies crates with all that they need, and says in one sentence why it does not."""
import os
import signal
import subprocess
import time

import pytest

from wumsnair_tools.built import top

LINES = [line for line in (top / "crates.txt").read_text().splitlines() if ":" in line and not line.startswith("#")]
NAMES = [line.split(":")[0].split()[0] for line in LINES]


def use_in(*words):
    return subprocess.run([top / "use_in", *words], capture_output=True, text=True)


def files_of(root, name):
    """The files of a crate that are copied, by their paths, with their bytes."""
    parts = (root / "crates" / name / part for part in ("src", "specs", "proofs"))
    return {file.relative_to(root): file.read_bytes() for part in parts for file in part.rglob("*") if file.is_file()}


def is_built(root, name):
    return (root / "crates" / name / "out/rlib/stamp").exists()


@pytest.fixture(scope="module")
def copied(tmp_path_factory):
    """A folder with copies of all crates, and what the command printed."""
    folder = tmp_path_factory.mktemp("copied")
    (folder / "crates.txt").write_text("my_program: flow_law\n")
    ran = use_in(folder, *NAMES)
    assert (ran.returncode, ran.stderr) == (0, "")
    return folder, ran.stdout


def test_all_crates_are_copied(copied):
    folder, said = copied
    assert [name for name in NAMES if files_of(folder, name) != files_of(top, name)] == []
    assert [name for name in NAMES if is_built(folder, name) != is_built(top, name)] == []
    assert all(is_built(top, name) for name in NAMES) or "still to be proved" in said


def test_each_line_follows_those_that_it_needs(copied):
    *lines, last = (copied[0] / "crates.txt").read_text().splitlines()
    assert sorted(lines) == sorted(LINES) and last == "my_program: flow_law"
    found = []
    for line in lines:
        head, _, needs = line.partition(":")
        assert [need for need in needs.split() if need in NAMES and need not in found] == []
        found.append(head.split()[0])


def test_license_and_version_are_copied(copied):
    crates = copied[0] / "crates"
    assert (crates / "LICENSE-wumsnair").read_bytes() == (top / "LICENSE").read_bytes()
    version, commit, *sums = (crates / "VERSION-wumsnair").read_text().splitlines()
    assert version == f"wumsnair {(top / 'VERSION').read_text().strip()}"
    number = subprocess.run(["git", "-C", top, "rev-parse", "HEAD"], capture_output=True, text=True).stdout.strip()
    assert commit.startswith(f"commit {number or 'unknown'}")
    assert [line.split()[1] for line in sums] == sorted(NAMES)


def test_crate_takes_along_what_it_needs_and_is_copied_again(tmp_path):
    for _ in range(2):
        assert use_in(tmp_path, "flow_word").returncode == 0
        assert sorted(path.name for path in (tmp_path / "crates").iterdir() if path.is_dir()) == ["flow_law", "flow_sleepers", "flow_word"]
        assert len((tmp_path / "crates.txt").read_text().splitlines()) == 3


def test_changed_copy_is_not_overwritten(tmp_path):
    use_in(tmp_path, "flow_law")
    changed = tmp_path / "crates/flow_law/src/lib.rt"
    changed.write_text("// mine\n")
    ran = use_in(tmp_path, "flow_law")
    assert (ran.returncode, ran.stdout) == (6, "")
    assert ran.stderr == "changed since they were copied, so nothing is copied: flow_law; move them away first\n"
    assert changed.read_text() == "// mine\n"


def test_interrupt(tmp_path):
    """The folder is as it was, and no traceback is printed."""
    heed = lambda: signal.signal(signal.SIGINT, signal.default_int_handler)
    copying = subprocess.Popen([top / "use_in", tmp_path, *NAMES], stdout=subprocess.PIPE, stderr=subprocess.PIPE, text=True, preexec_fn=heed)
    end = time.monotonic() + 60
    while not list(tmp_path.glob("crates/.wumsnair-*/*")) and time.monotonic() < end:
        time.sleep(0.001)
    copying.send_signal(signal.SIGINT)
    printed, said = copying.communicate(timeout=60)
    assert (copying.returncode, printed, said) == (130, "", "interrupted, so nothing is copied\n")
    assert list(tmp_path.iterdir()) == []


REFUSALS = (
    ([top / "no_such_folder", "flow_law"], 6, f"no such folder: {top}/no_such_folder\n"),
    ([top, "flow_law"], 6, f"{top} is this repository\n"),
    (["/", "no_such_crate"], 2, "no crate of this repository: no_such_crate; --help lists the crates\n"),
    (["/"], 2, "name a folder and at least one crate: ./use_in FOLDER CRATE..; --help lists the crates\n"),
    (["--all", "/"], 2, "no option --all; --help lists the forms\n"),
)


@pytest.mark.parametrize("words, status, said", REFUSALS)
def test_refusal(words, status, said):
    ran = use_in(*words)
    assert (ran.returncode, ran.stdout, ran.stderr) == (status, "", said)


def test_file_in_the_way(tmp_path):
    """The command says what it cannot write."""
    (tmp_path / "crates").write_text("")
    ran = use_in(tmp_path, "flow_law")
    assert (ran.returncode, ran.stdout) == (6, "")
    assert ran.stderr.startswith(f"cannot copy to {tmp_path}: ") and ran.stderr.count("\n") == 1


@pytest.mark.skipif(os.geteuid() == 0, reason="root may write everywhere")
def test_folder_that_may_not_be_written(tmp_path):
    tmp_path.chmod(0o500)
    assert use_in(tmp_path, "flow_law").stderr == f"cannot copy to {tmp_path}: {tmp_path}/crates: Permission denied\n"


def test_help_lists_the_crates():
    ran = use_in("--help")
    assert (ran.returncode, ran.stderr) == (0, "") and all(name in ran.stdout for name in NAMES)


def test_full_device():
    with open("/dev/full", "wb") as full:
        ran = subprocess.run([top / "use_in", "--help"], stdout=full, stderr=subprocess.PIPE, text=True)
    assert (ran.returncode, ran.stderr) == (6, "cannot write: No space left on device\n")
