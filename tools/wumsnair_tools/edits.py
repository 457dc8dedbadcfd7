"""The wrong bodies of tests/refused/CRATE.toml, and the kit's form of an edit.

    [[edit]]
    name = "signs are taken after the call"
    file = "src/attended.rt"
    old = ['let before = self.core.signs();']
    new = ['let _core = &self.core;']

name    what the wrong body does. With underscores in place of spaces it is the edit's name on docs/WRONG-BODIES.md
file    the file of the crate that is changed
old     texts of a line each, which are in the file exactly once. Each text is looked for after the changes before it
new     what replaces them, in the same order
gate    true if the CI run tries the edit; then it has a key only
only    the function, by its path, that must be left with an open goal
goal    the name of the goal that must stay open; without it any goal will do
clause  what refuses the wrong body, in the words of docs/WRONG-BODIES.md, if the page names the edit
"""
import tomllib
from dataclasses import dataclass, field

from wumsnair_tools.built import top

REFUSED = top / "tests" / "refused"


@dataclass
class Edit:
    """A wrong body: texts of a file, and the texts that replace them."""

    name: str
    file: str
    old: list
    new: list
    gate: bool = False
    only: str | None = None
    goal: str | None = None
    clause: str | None = field(default=None, compare=False)

    @property
    def stem(self):
        """The name of the kit's file of this edit."""
        return self.name.replace(" ", "_")

    @property
    def changes(self):
        return list(zip(self.old, self.new, strict=True))

    def made(self, text):
        """The file's text with the wrong body, or None if the file does not have each replaced text exactly once."""
        for old, new in self.changes:
            if text.count(old) != 1:
                return None
            text = text.replace(old, new)
        return text


def crates():
    """The crates that have wrong bodies."""
    return sorted(file.stem for file in REFUSED.glob("*.toml"))


def edits_of(crate):
    """The wrong bodies of a crate, in the order of their names."""
    listed = tomllib.loads((REFUSED / f"{crate}.toml").read_text())["edit"]
    return sorted((Edit(**entry) for entry in listed), key=lambda edit: edit.stem)


def right_text(crate, file):
    return (top / "crates" / crate / file).read_text()


# ---- the kit's form


def kit_text(edit):
    """The edit as the kit reads it. `only` and `goal` are lines that the kit passes over."""
    file, only, goal = ([f"{word}: {text}"] if text else [] for word, text in (("file", edit.file), ("only", edit.only), ("goal", edit.goal)))
    head = only + goal + file if edit.gate else file + goal
    pairs = [line for old, new in edit.changes for line in (f"old: {old}", f"new: {new}" if new else "new:")]
    return "\n".join(head + pairs) + "\n"


def edit_of_kit(name, text):
    """The edit of a text in the kit's form."""
    rows = [line.partition(": ")[::2] if ": " in line else (line.rstrip(":"), "") for line in text.splitlines()]
    files, olds, news, only, goals = ([text for word, text in rows if word == part] for part in ("file", "old", "new", "only", "goal"))
    return Edit(name, files[0], olds, news, bool(only), *only or [None], *goals or [None])


def write_kit_folders(folder):
    """Writes all edits as the kit reads them: FOLDER/crates/CRATE/must-fail/NAME.edit."""
    for crate in crates():
        target = folder / "crates" / crate / "must-fail"
        target.mkdir(parents=True, exist_ok=True)
        for edit in edits_of(crate):
            (target / f"{edit.stem}.edit").write_text(kit_text(edit))


# ---- writing the files


def literal(text):
    """The text as a string of TOML, without escapes if that can be."""
    if "'" not in text:
        return f"'{text}'"
    if "'''" not in text and not text.endswith("'"):
        return f"'''{text}'''"
    return '"' + text.replace("\\", "\\\\").replace('"', '\\"') + '"'


def listed(texts):
    """A list of strings, each in a line if there are several."""
    if len(texts) == 1:
        return f"[{literal(texts[0])}]"
    return "[\n" + "".join(f"    {literal(text)},\n" for text in texts) + "]"


def toml_of(edits):
    """The text of a file with these edits."""
    blocks = []
    for edit in sorted(edits, key=lambda edit: edit.stem):
        lines = ["[[edit]]", f'name = "{edit.name}"']
        lines += ["gate = true"] if edit.gate else []
        lines += [f"{key} = {literal(text)}" for key in ("only", "goal", "clause") if (text := getattr(edit, key))]
        lines += [f"file = {literal(edit.file)}", f"old = {listed(edit.old)}", f"new = {listed(edit.new)}"]
        blocks.append("\n".join(lines) + "\n")
    return "\n".join(blocks)


def write(crate, edits):
    head = f"# Wrong bodies of {crate}, which the prover must refuse. tools/wumsnair_tools/edits.py says what the keys mean.\n\n"
    (REFUSED / f"{crate}.toml").write_text(head + toml_of(edits))
