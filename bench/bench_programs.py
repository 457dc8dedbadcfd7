"""Builds the two programs of the bench: the flows (bench/flow_bench), and what people would use in their place (bench/peers)."""
import hashlib
import pathlib
import shutil
import sys
import tempfile

from wumsnair_tools.built import top
from wumsnair_tools.cargo import REGISTRY, call, cargo_build

# The files of flow_bench have names that end in .in, and are built in a repository of their own, since the CI run proves
# each crate of this repository. The other repository is kept for the next run.
work = pathlib.Path(tempfile.gettempdir()) / f"wumsnair-bench-{hashlib.sha256(str(top).encode()).hexdigest()[:8]}"
sources = top / "bench" / "flow_bench"
crate = work / "crates" / "flow_bench"
flow_bench = crate / "out" / "flow_bench"
LIBRARIES = "flow_law flow_core flow_shared flow_word flow_word_shared flow_cold flow_turns"

peers_sources = top / "bench" / "peers"
peers_work = work / "peers"
# Of each crate its folder in the registry, its feature in bench/peers, and the Debian package.
PACKAGES = [
    ("tokio-1.*", "tokio", "librust-tokio-dev"),
    ("async-broadcast-0.4.*", "async-broadcast", "librust-async-broadcast-dev"),
    ("parking_lot-0.12.*", "parking_lot", "librust-parking-lot-dev"),
]


# ---- the flows


def copy_libraries(lines):
    """Copies the built libraries, and the lines of crates.txt for them and the crates that they need."""
    listed = {}
    for line in lines:
        if ":" in line and not line.startswith("#"):
            named, needs = line.split(":")
            listed[named.split()[0]] = (line, needs.split())
    wanted = LIBRARIES.split()
    for name in wanted:
        wanted += [it for it in listed[name][1] if it in listed and it not in wanted]
    for name in wanted:
        for part in ("src", "specs", "proofs", "out/rlib"):
            if (top / "crates" / name / part).is_dir():
                shutil.copytree(top / "crates" / name / part, work / "crates" / name / part)
    return [listed[name][0] for name in wanted]


def copy_flow_bench():
    """Copies the program's files under their names without '.in'."""
    for file in sources.rglob("*.in"):
        to = crate / file.relative_to(sources).with_suffix("")
        to.parent.mkdir(parents=True, exist_ok=True)
        shutil.copyfile(file, to)


def build_flow_bench():
    """Proves and builds the program flow_bench, unless it is up to date."""
    for name in LIBRARIES.split():
        call(top / "crates" / name, "rt", "lib")
    for old in {*work.glob("crates/*"), crate / "src", crate / "proofs"} - {crate}:
        shutil.rmtree(old, ignore_errors=True)
    lines = copy_libraries((top / "crates.txt").read_text().splitlines())
    copy_flow_bench()
    (work / "crates.txt").write_text("\n".join([*lines, f"flow_bench: {LIBRARIES}", ""]))
    if "nanoseconds" not in call(crate, "rt", "run", "--", "set_state", "plain"):
        sys.exit("flow_bench does not answer")
    return flow_bench


# ---- the peers


def features():
    """The features that can be built, and the packages that are missing."""
    has_cargo = shutil.which("cargo") is not None
    found = {feature for folder, feature, _ in PACKAGES if has_cargo and any(REGISTRY.glob(folder))}
    missing = [package for _, feature, package in PACKAGES if feature not in found]
    return sorted(found), missing if has_cargo else ["cargo", *missing]


def build_with_cargo(found):
    """Builds the peers with cargo."""
    cargo_build(peers_work, "--release", "--features", ",".join(found))
    return peers_work / "target" / "release" / "peers"


def build_with_rustc():
    """Builds the peers with rustc, only from the files of bench/peers."""
    program = peers_work / "by_rustc"
    options = ["-C", "opt-level=3", "-C", "codegen-units=1", "-C", "panic=abort"]
    call(peers_work, "rustc", "--edition", "2021", *options, "-o", program, "src/main.rs")
    return program


def build_peers():
    """Builds the peers with all crates that are installed, and prints which are missing."""
    shutil.rmtree(peers_work / "src", ignore_errors=True)
    shutil.copytree(peers_sources, peers_work, dirs_exist_ok=True)
    found, missing = features()
    if missing:
        print(f"without their peers, since these Debian packages are not installed: {' '.join(missing)}")
    return build_with_cargo(found) if found else build_with_rustc()
