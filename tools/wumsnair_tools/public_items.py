"""The public items of the crates, read from their `.rt` sources as `rt fmt` lays them out: for tools/made and tools/believe."""
import collections
import functools
import pathlib
import re

top = pathlib.Path(__file__).resolve().parents[2]
Item = collections.namedtuple("Item", "docs text clauses inner")


def closing(text, start):
    """The index of the bracket that closes the one at `start`."""
    depth = 0
    for index in range(start, len(text)):
        if text[index] in "<([{":
            depth += 1
        elif text[index] in ")]}" or text[index] == ">" and text[index - 1] not in "-=":
            depth -= 1
            if depth == 0:
                return index
    raise ValueError(f"no bracket closes: {text[start:]}")


def split(text):
    """The parts of `text` between commas that are not inside brackets."""
    parts, start, depth = [], 0, 0
    for index, char in enumerate(text):
        depth += (char in "<([{") - (char in ")]}" or char == ">" and text[index - 1] not in "-=")
        if char == "," and depth == 0:
            parts.append(text[start:index].strip())
            start = index + 1
    return [part for part in parts + [text[start:].strip()] if part]


def one_line(lines):
    text = re.sub(r"\s+", " ", " ".join(lines)).strip()
    return re.sub(r",? ?([)\]])", r"\1", re.sub(r"([(\[<]) ", r"\1", text)).replace(", >", ">")


def items(lines, ends=";"):
    """The items that begin at the margin of these lines: functions, types, implementations, or fields (which end with a comma)."""
    docs, item, inner, body = [], [], [], False
    for line in lines:
        at_margin = bool(line) and not line.startswith(" ")
        if not item:
            if line.startswith("///"):
                docs.append(line[3:].strip())
            elif not line.strip() or line.startswith("//"):
                docs = []
            elif at_margin and not line.startswith(("#[", ")]")):
                item = [line]
        elif body and not at_margin:
            inner.append(line[4:])
        elif not line.strip().startswith("//"):
            item.append(line)
        if not item:
            continue
        is_over = at_margin and line.startswith(("}", "{}")) or at_margin and line.endswith("}") or not body and line.endswith(ends)
        # The first line of an implementation may be broken before `for`.
        begins = at_margin and not item[0].startswith("pub use") or item[0].startswith("impl") and line.startswith("    for ")
        body = body or begins and line.endswith("{")
        if is_over:
            first = next((i for i, x in enumerate(item) if i and re.match(r"\s*(where|requires|ensures)\b", x)), len(item))
            clauses = one_line(x for x in item[first:] if x.strip() not in ("{", "}", "{}"))
            yield Item(docs, re.sub(r" ?\{ ?\}?$", "", one_line(x for x in item[:first] if x != "}")), clauses, inner)
            docs, item, inner, body = [], [], [], False


def files(crate):
    for file in sorted((top / "crates" / crate / "src").rglob("*.rt")):
        if "tests" not in file.relative_to(top / "crates" / crate).as_posix():
            yield file


@functools.cache
def exports(crate):
    """The exports of `lib.rt`: each name with the crate, or the public module of a crate, that defines it."""
    found = {}
    for item in items((top / "crates" / crate / "src/lib.rt").read_text().splitlines()):
        use = re.match(r"pub use ([\w:]+)::(?:\{(.*)\}|(\w+));$", item.text)
        if use:
            origin = use.group(1).split("::")
            for name in split(use.group(2) or use.group(3)):
                behind = exports(origin[0]) if origin[0] in crates else {}
                module = "::".join(origin[:2])
                found[name] = module if (module, name) in types else behind.get(name, origin[0] if behind else crate)
    return found


def plain(text):
    """A type without lifetimes, allocators, and bounds of the implementation."""
    text = re.sub(r"\s+where .*", "", re.sub(r"'\w+ |'\w+, |<'\w+>", "", text))
    return re.sub(r"(, |<)[AB](: Allocator( \+ Copy)?)?( = Global)?(?=>)", lambda m: "<" if m.group(1) == "<" else "", text).replace("<>", "")


def target(text):
    """The trait, if any, and the type of an implementation."""
    text = re.sub(r"^impl ?", "", text)
    if text.startswith("<"):
        text = text[closing(text, 0) + 1 :].strip()
    trait, _, of = plain(text).rpartition(" for ")
    return trait, of


def name_of(text):
    return re.match(r"\W*(\w*)", text).group(1)


# The traits of values. A caller has to know which of its types need one.
OF_VALUES = re.compile(r"\b(FlowValue|Packed|OneWord|Words)\b")


def signature(item):
    """The call as it is written, with the types of closures in place of their type parameters, and of the others those that must be
    values; and its return type."""
    text = re.sub(r"^(pub |final |const )*fn |;$", "", item.text)
    bounds = re.match(r"where (.*?)(?= (?:requires|ensures)\b|$)", item.clauses)
    parameters = split(bounds.group(1)) if bounds else []
    name = re.match(r"\w+", text).group()
    if text[len(name)] == "<":
        end = closing(text, len(name))
        parameters += split(text[len(name) + 1 : end])
        text = name + text[end + 1 :]
    for parameter in parameters:
        short, _, bound = parameter.partition(": ")
        if bound.startswith("Fn"):
            text = re.sub(rf": {short}\b", lambda _: f": impl {bound}", text)
    text = re.sub(r"(?<=[( ])mut (?=\w+: )", "", text)
    values = [parameter for parameter in parameters if OF_VALUES.search(parameter) and re.search(rf"\b{name_of(parameter)}\b", text)]
    shown = name + (f"<{', '.join(values)}>" if values else "") + text[len(name) :]
    return plain(shown), plain(text[closing(text, len(name)) + 1 :].replace(" -> ", "", 1))


def sentences(docs):
    """The sentences of a doc comment up to its first heading, and apart from them those under `# Errors`."""
    parts = re.split(r"\n# (\w+)[^\n]*\n", "\n" + "\n".join(docs) + "\n")
    cut = lambda text: [s.replace("\n", " ").strip() for s in re.split(r"(?<=\.)\s+(?=[A-Z`])|\n\n", text) if s.strip()]
    errors = dict(zip(parts[1::2], parts[2::2])).get("Errors", "")
    return cut(parts[0]), cut(errors.strip().split("\n\n")[0])


def comment(item):
    """The doc comment up to its first heading, as one paragraph."""
    return " ".join(sentences(item.docs)[0])


PUBLIC = re.compile(r"pub (struct|enum|trait|type|const|fn) (\w+)")
types, impls = {}, []  # by crate (or public module) and name; every implementation
crates = [folder.name for folder in sorted((top / "crates").iterdir()) if (folder / "src/lib.rt").exists()]
for crate in crates:
    modules = re.findall(r"^pub mod (\w+);", (top / "crates" / crate / "src/lib.rt").read_text(), re.M)
    for file in files(crate):
        of = f"{crate}::{file.stem}" if file.stem in modules else crate
        for item in items(file.read_text().splitlines()):
            found = PUBLIC.match(item.text)
            if found:
                types.setdefault((of, found.group(2)), (found.group(1), item, file.stem))
            elif item.text.startswith("impl"):
                impls.append((of, item))
