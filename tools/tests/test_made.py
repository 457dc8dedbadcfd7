"""tools/made prints in which lines a generated file differs, and writes it."""
import pytest

from conftest import module_of


@pytest.fixture
def made(monkeypatch, tmp_path):
    """The command, with one file in each part: its bytes must be two lines."""
    module = module_of("made")
    monkeypatch.setattr(module, "top", tmp_path)
    monkeypatch.setattr(module, "files_of", lambda part: {tmp_path / f"{part}.md": b"a\nc\n"})
    return module


def test_file_that_differs(made, tmp_path, capsys):
    (tmp_path / "calls.md").write_text("a\nb\n")
    with pytest.raises(SystemExit, match="from: calls. `tools/made --write calls` writes them"):
        made.main(["calls"])
    assert capsys.readouterr().out == "differs: calls.md\n-b\n+c\ncalls: 1 files\n"
    made.main(["--write", "calls"])
    assert (tmp_path / "calls.md").read_bytes() == b"a\nc\n"
    made.main(["calls"])


def test_file_that_is_not_there(made, tmp_path):
    with pytest.raises(SystemExit, match="from: sizes"):
        made.main(["sizes"])
    made.main(["sizes", "--write"])
    assert (tmp_path / "sizes.md").exists()


def test_last_line_without_its_end(made, tmp_path, capsys):
    (tmp_path / "calls.md").write_text("a\nc")
    with pytest.raises(SystemExit):
        made.main(["calls"])
    assert capsys.readouterr().out.startswith("differs: calls.md\n-c\n")


def test_unknown_part(made):
    with pytest.raises(SystemExit, match="tools/made"):
        made.main(["call"])
