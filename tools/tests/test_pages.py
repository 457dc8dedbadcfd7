"""tools/numbers finds a number that is not the code's, and a count without a row; tools/commands a command without a row, and one that
ends otherwise than its row says."""
import pytest

from conftest import module_of


@pytest.fixture
def numbers():
    return module_of("numbers")


@pytest.fixture
def commands():
    return module_of("commands")


@pytest.mark.parametrize("page, said", [("a heap of 7 lines", []), ("a heap of 1,008 lines", ["the code says 7"]), ("no heap", ["has no"])])
def test_number_of_a_page(numbers, monkeypatch, page, said):
    monkeypatch.setattr(numbers, "QUOTED", [("a heap of N lines", ["page.md"], 7)])
    wrong, _ = numbers.check_quoted({"page.md": page})
    assert len(wrong) == len(said) and all(words in line for words, line in zip(said, wrong))


def test_count_without_a_row(numbers):
    assert len(list(numbers.check_counted({"page.md": "It has thirteen facts and 12 crates."}, set()))) == 2
    assert list(numbers.check_counted({"page.md": "It has 12 crates."}, {("page.md", 7)})) == []


def test_command_without_a_row(commands):
    found = [*commands.blocks(), commands.Block("page.md", ["./play --new"], "")]
    assert list(commands.check_named(found)) == ["page.md: tools/commands has no row of: ./play --new"]


def test_command_that_ends_otherwise(commands, monkeypatch):
    monkeypatch.setattr(commands, "RUN", {"false": commands.Ends(), "echo a": commands.Ends(prints=True), "cd docs": commands.Ends()})
    wrong = list(commands.check_block(commands.Block("page.md", ["cd docs", "false", "echo a"], "b\n")))
    assert [line.split(": ")[1] for line in wrong] == ["false", "echo a"]
    assert list(commands.check_block(commands.Block("page.md", ["cd docs", "echo a"], "a\n"))) == []


@pytest.fixture
def words():
    return module_of("words")


@pytest.mark.parametrize("known, said", [({}, "polled_by is defined in a, b"), ({"polled_by": 1}, "polled_by is defined in a, b"), ({"polled_by": 2}, None)])
def test_word_with_several_definitions(words, monkeypatch, known, said):
    monkeypatch.setattr(words, "KNOWN", known)
    monkeypatch.setattr(words, "cited", lambda: {"polled_by", "cache"})
    monkeypatch.setattr(words, "definitions", lambda: {"polled_by": ["a", "b"], "cache": ["crates/c/specs/C.antt"]})
    assert words.check()[1] == ([said] if said else [])


def test_known_word_with_one_definition(words, monkeypatch):
    """A word that was renamed leaves the list."""
    monkeypatch.setattr(words, "KNOWN", {"cache": 2})
    monkeypatch.setattr(words, "cited", lambda: {"cache"})
    monkeypatch.setattr(words, "definitions", lambda: {"cache": ["crates/c/specs/C.antt"]})
    assert words.check()[1] == ["KNOWN of tools/words has cache, which no longer has several definitions"]
