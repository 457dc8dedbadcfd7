"""The wrong bodies of tests/refused, and the kit's form of them."""
import tomllib

import pytest

from wumsnair_tools.edits import REFUSED, Edit, crates, edit_of_kit, edits_of, kit_text, toml_of, write_kit_folders

GATE = """only: shared::SharedCore::trim
goal: kept
file: src/shared.rt
old: let count = 1;
new: let count = 0;
old:     drop(kept);
new:
"""
OUTSIDE = """file: src/state.rt
goal: documented
old: 'a
new: b \\ "c" '''
"""


@pytest.mark.parametrize("text", [GATE, OUTSIDE])
def test_kit_form_is_kept(text):
    """An edit is the same after it was written as TOML and read again."""
    edit = edit_of_kit("keeps every value", text)
    (entry,) = tomllib.loads(toml_of([edit]))["edit"]
    assert Edit(**entry) == edit
    assert kit_text(Edit(**entry)) == text


@pytest.mark.parametrize("crate", crates())
def test_files_are_as_they_are_written(crate):
    """Taking an edit anew changes nothing else in a file."""
    text = (REFUSED / f"{crate}.toml").read_text()
    assert text.endswith(toml_of(edits_of(crate))) and text.count("[[edit]]") == len(edits_of(crate))


def test_folders_of_the_kit(tmp_path):
    write_kit_folders(tmp_path)
    found = list(tmp_path.glob("crates/*/must-fail/*.edit"))
    assert len(found) == sum(len(edits_of(crate)) for crate in crates()) > 500
    edit = next(edit for edit in edits_of("flow_core") if edit.name == "keeps every value")
    file = tmp_path / "crates/flow_core/must-fail/keeps_every_value.edit"
    assert edit_of_kit(edit.name, file.read_text()) == edit


@pytest.mark.parametrize("text, made", [("a b c", "x b y"), ("a b", None), ("a b c c", None)])
def test_each_old_text_is_in_the_file_once(text, made):
    assert Edit("changes two", "src/lib.rt", ["a", "c"], ["x", "y"]).made(text) == made


def test_edits_are_taken(refused, monkeypatch, tmp_path):
    """An edit of the same name keeps its name as a sentence, and its clause. Other edits stay."""
    monkeypatch.setattr("wumsnair_tools.edits.REFUSED", tmp_path)
    old = Edit("try_emit emits twice", "src/lib.rt", ["a"], ["b"], clause="`documented` of `TryEmit::run`")
    (tmp_path / "flow_shared.toml").write_text(toml_of([old]))
    for name, text in (("try_emit_emits_twice", GATE), ("state_is_lost", OUTSIDE)):
        (tmp_path / f"{name}.edit").write_text(text)
    refused.main(["--take", "flow_shared", *map(str, sorted(tmp_path.glob("*.edit")))])
    new, taken = edits_of("flow_shared")
    assert (new.name, kit_text(new)) == ("state is lost", OUTSIDE)
    assert (taken.name, taken.clause, kit_text(taken)) == (old.name, old.clause, GATE)


def test_function_of_an_edit(refused):
    """An edit of an attribute belongs to the function below it."""
    text = "fn first() {\n    one;\n}\n\n#[inline]\npub fn second() {\n    two;\n}\n"
    edit = Edit("changes both", "src/lib.rt", ["one;", "#[inline]", "two;"], ["", "", ""])
    assert list(refused.functions(edit, text)) == [(0, "first"), (5, "second"), (5, "second")]


def test_edits_that_are_chosen(refused):
    name = "queue_left_at_unsubscribe"
    assert [edit.stem for edit in refused.chosen([f"flow_core:{name}"])["flow_core"]] == [name]
    assert len(refused.chosen(["flow_core", "flow_word"])["flow_core"]) == len(refused.edits_of("flow_core"))


@pytest.mark.parametrize("word, said", [("flow_core:queue_left", "no edit queue_left of flow_core"), ("flow_cor", "no crate of tests/refused: flow_cor")])
def test_unknown_choice(refused, word, said):
    with pytest.raises(SystemExit, match=said):
        refused.chosen([word])
