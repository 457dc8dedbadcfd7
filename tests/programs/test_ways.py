"""The commands take the fastest way that is there: a proved program, else wumsnair.mjs if there is Node, else a build without a proof."""
import pathlib

import pytest

from wumsnair_tools import launch, ways

PROVED, UNPROVED, BUILT = (pathlib.Path("out", name) for name in ("flow_judge", "flow_judge.unproved", "built.unproved"))


@pytest.fixture
def machine(monkeypatch, tmp_path):
    """Says what there is: a fresh program or None, whether wumsnair.mjs is kept and of the same code, and the tools."""
    said = []

    def with_parts(fresh, kept, is_same, tools):
        file = tmp_path / "wumsnair.mjs"
        if kept:
            file.write_text(f'// A head.\nconst SOURCES = "{"a1" if is_same else "b2"}";\n')
        monkeypatch.setattr(ways, "KEPT", file)
        monkeypatch.setattr(ways, "sum_of_sources", lambda: "a1")
        monkeypatch.setattr(ways.shutil, "which", lambda tool: f"/bin/{tool}" if tool in tools else None)
        monkeypatch.setattr(launch, "fresh_program", lambda name: fresh)
        monkeypatch.setattr(launch, "program", lambda name: BUILT)
        monkeypatch.setattr(launch, "say", said.append)
        ways.is_kept_current.cache_clear()
        return ["/bin/node", str(file), "judge"], said

    yield with_parts
    ways.is_kept_current.cache_clear()


@pytest.mark.parametrize(
    "fresh, kept, is_same, tools, wanted",
    [
        (PROVED, True, True, ("node", "rt"), [PROVED]),
        (UNPROVED, True, True, ("node", "rt"), "node"),
        (None, True, True, ("node", "rt"), "node"),
        (None, True, True, ("node",), "node"),
        (UNPROVED, True, False, ("node", "rt"), [UNPROVED]),
        (None, True, False, ("node", "rt"), [BUILT]),
        (None, True, True, ("rt",), [BUILT]),
        (None, False, True, ("node", "rt"), [BUILT]),
    ],
)
def test_way(machine, fresh, kept, is_same, tools, wanted):
    node, said = machine(fresh, kept, is_same, tools)
    assert ways.command("flow_judge") == (node if wanted == "node" else wanted)
    assert said == []


def test_command_of_other_code(machine):
    """Without Rattle's kit, a command that was built from other code is better than none, and the user is told."""
    node, said = machine(None, True, False, ("node",))
    assert ways.command("flow_judge") == node and said == [ways.OTHER_CODE]


def test_what_is_present(machine):
    """A way that needs no build."""
    node, _ = machine(None, True, True, ("node", "rt"))
    assert ways.present("flow_judge") == node
    machine(None, True, False, ("node", "rt"))
    assert ways.present("flow_judge") is None


def test_what_node_cannot_do(machine):
    machine(UNPROVED, True, True, ("node", "rt"))
    assert ways.command("flow_judge", may_be_node=False) == [UNPROVED]


def test_names():
    assert ways.is_slow([UNPROVED]) and not ways.is_slow([PROVED]) and ways.is_node(["node", str(ways.KEPT), "judge"]) and not ways.is_node([PROVED])


def test_sum_is_of_the_code():
    """The sum covers the code of the player, and what page/build makes the command from."""
    from bundle_command import made_from, sum_of_sources

    names = {str(file.relative_to(ways.top)) for file in made_from()}
    assert {"crates/flow_calls/src/lib.rt", "crates/flow_law/src/lib.rt", "page/make/heap.c", "page/command/main.mjs", "page/web/player.js"} <= names
    assert len(sum_of_sources()) == 64 and sum_of_sources() == sum_of_sources()
