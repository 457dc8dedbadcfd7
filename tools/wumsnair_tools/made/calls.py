"""docs/CALLS.md: each public call of the crates that programs name, from their sources.

A name is public if `lib.rt` exports it. It is listed under the first crate of CRATES that exports it, wherever it is defined. The later
crates that export it only refer to that crate, and crates that only define it need no section."""
import collections
import re

from wumsnair_tools.public_items import Item, comment, crates, exports, impls, items, name_of, plain, sentences, signature
from wumsnair_tools.public_items import split, target, top, types

PAGE = top / "docs/CALLS.md"
CRATES = """flow_law flow_core flow_shared flow_word flow_word_shared flow_cold flow_sharing flow_script script_drawing
    flow_program script_explain flow_check record_judging""".split()
HEAD = """# Every public call

[README](../README.md) · [Glossary](GLOSSARY.md)

This page lists every public call with its arguments, what it does, and the errors that it returns. [USE.md](USE.md) shows how
calls are used, and [THREADS.md](THREADS.md) explains their clauses. A call is listed under its type, constructors first, and a
type under the crate that a program names. `tools/made --write` makes the page from the sources.

- A call that takes `rt` may wait for other threads, or tries again if another caller was faster.
- Allocators, lifetimes and bounds of type parameters are left out: `Vec<T>` may be `Vec<T, A>`. `alloc` is where memory
  comes from. Only that a type must be a [`FlowValue`](#flowvalue) is written: `scan<U: FlowValue>(..)`.
- The values of flows and chains are `FlowValue`s, those of a `WordState` [`Packed`](#packed), and those of a `WordFlow`
  [`Words`](#words). [Floats and shared pointers](USE.md#a-state-between-two-threads) are none. `S::Item` is a value of the
  flow.
- The last column has the error type and, after the colon, the variants that this call can return. If no clause lists
  them, it has what the source says of refusals. It is empty for a call that returns no error.
"""


def variants(crate, name):
    of = next((c for c in (crate, *CRATES, *crates, *modules) if (c, name) in types), None)
    kind, item, _ = types.get((of, name), ("", None, ""))
    return [one for one in items(item.inner, (",", ";")) if re.match(r"\w", one.text)] if kind == "enum" else []


def link(name):
    """The name of an error type, as a link to its section if it has one."""
    return f"[`{name}`](#{name.lower()})" if name in shown else f"`{name}`"


def with_cases(error, cases):
    *first, last = [f"`{case}`" for case in cases] or [""]
    return link(error) + (": " if cases else "") + (", ".join(first) + " or " if first else "") + last


def refusing_variants(crate, answer):
    """The variants that refuse a call in an answer that is not a `Result`, with their error types."""
    for variant in variants(crate, name_of(answer)):
        if name_of(variant.text) in ("Refused", "Busy"):
            error = split(variant.text.rstrip(",")[len(name_of(variant.text)) + 1 : -1])[-1]
            error = split(answer[answer.index("<") + 1 : -1])[-1] if error.startswith("Rejected<") else error
            known = [name_of(v.text) for v in variants(crate, error)]
            told = ", " + with_cases(error, known if len(known) < 4 else []) if known else ""
            yield f"`{name_of(answer)}::{name_of(variant.text)}`{told}"


def allowed(item, known):
    """The variants that a clause of the call allows, if it lists them."""
    for bound, fact in re.findall(r"\{ IfErr result \(λ (\w+)\. ([^{}]*)\) \}", item.clauses):
        cases = [re.fullmatch(rf"\(?{bound}(?:\.fault|\.error)? ≡ (?:\w+\.)*(\w+)\)?", case) for case in fact.split(" ⊎ ")]
        if all(cases) and all(case.group(1) in known for case in cases):
            return [case.group(1) for case in cases]
    return re.findall(r"\{ result ≡ Err (?:\w+\.)*(\w+) \}", item.clauses)


def refusals(crate, item, answer):
    """The refusals of the call, in the words of its contract, or otherwise of its error type and its doc comment."""
    text, errors = sentences(item.docs)
    if answer.startswith("io::Result<"):
        return ". ".join(["`io::Error`", *errors])
    if not answer.startswith("Result<"):
        return "; ".join(refusing_variants(crate, answer))
    error = split(answer[7:-1])[1]
    back = "; the value comes back" if error.startswith(("Refused<", "Rejected<")) else ""
    error = "FlowFault" if error.startswith("Refused<") else split(error[9:-1])[1] if error.startswith("Rejected<") else error
    if "<" in error:
        return f"the `{error}` comes back"
    known = [name_of(variant.text) for variant in variants(crate, error)]
    always = [k for k in known if text and f"refused as `{k}`" in text[0]]
    cases = allowed(item, known) or always or (known if len(known) < 4 else [])
    words = "|".join(["[Rr]efus", "`Err`", "want of memory", *(f"`{k}`" for k in known)])
    told = [] if cases else errors or [sentence for sentence in text[1:] if re.search(words, sentence)]
    if "IsAlwaysCopied → IsOk result" in item.clauses:
        told.append("Never for values whose copies need no memory.")
    if told and told[0].startswith(f"`{error}`"):
        return " ".join(told).replace(f"`{error}`", link(error), 1)
    return ". ".join([with_cases(error, cases) + back, *[" ".join(told)][: len(told)]])


def row(cells):
    return "| " + " | ".join(re.sub(r"\|", r"\\|", cell) for cell in cells) + " |"


def table(crate, calls):
    """A row for each call; the last column only if some call can be refused."""
    rows = [["Call", "What it does", "Refused by"], ["---"] * 3]
    # Constructors come first.
    for item in sorted(calls, key=lambda item: "self" in item.text.split(")")[0]):
        text, answer = signature(item)
        rows.append([f"`{text}`", comment(item), refusals(crate, item, answer)])
    width = 3 if any(cells[2] for cells in rows[2:]) else 2
    return [row(cells[:width]) for cells in rows] + [""] if calls else []


def calls_of(name, of, alias):
    """The calls of a type by its implementations, or of a trait."""
    kind, item, _ = types[of, name]
    calls = [call for call in items(item.inner) if re.match(r"(final )?fn ", call.text)] if kind == "trait" else []
    for behind, block in impls:
        trait, meant = target(block.text)
        if not trait and (meant == alias or behind == of and meant not in aliases and name_of(meant) == name):
            calls += [call for call in items(block.inner) if re.match(r"pub (const )?fn ", call.text)]
    return calls


def gives(name, of):
    """The traits by which a type is polled or iterated over, each with the type that it then gives."""
    for behind, block in impls:
        trait, meant = target(block.text)
        if trait in ("Future", "Stream", "Iterator") and behind == of and name_of(meant) == name:
            for item in items(block.inner):
                if item.text.startswith(("type Output = ", "type Item = ")):
                    yield trait, plain(item.text.rstrip(";"))


def parts_of(item, is_enum):
    """A line for each variant of an enum, or for each public field of a struct."""
    for part in items(item.inner, (",", ";")):
        if is_enum or part.text.startswith("pub "):
            fields = ", ".join(field.text.rstrip(",") for field in items(part.inner, (",", ";")))
            text = part.text.rstrip(",").replace("{ }", "").rstrip(" {") + (f" {{ {fields} }}" if fields else "")
            told = comment(part)
            yield f"- `{plain(text).replace('pub ', '')}`" + (f": {told}" if told else "")


def meaning(name, of):
    """The type that an alias stands for; None if the name is none."""
    kind, item, _ = types[of, name]
    return plain(item.text.rpartition(" = ")[2].rstrip(";")) if kind == "type" else None


def section(name, of):
    """The section of a type or trait: what it is, its variants or fields, and its calls."""
    kind, item, _ = types[of, name]
    alias = meaning(name, of)
    base = f" It is {'an' if alias.startswith('O') else 'a'} `{alias}`" if alias and name_of(alias) != name else ""
    if base and (of, name_of(alias)) in home and calls_of(name_of(alias), of, meaning(name_of(alias), of)):
        base += f", and has the calls of {link(name_of(alias))}, too"
    lines = [f"### {name}", ""] + ([comment(item) + (base + "." if base else ""), ""] if item.docs or base else [])
    parts = list(parts_of(item, kind == "enum")) if kind in ("struct", "enum") else []
    lines += parts + [""] if parts else []
    for trait, what in gives(name, of):
        lines += [f"As {'an' if trait.startswith('I') else 'a'} `{trait}` it has `{what}`.", ""]
    if kind == "trait":
        by = {meant for _, block in impls for trait, meant in [target(block.text)] if trait.split("<")[0] == name}
        exported = sorted(meant for meant in by if name_of(meant) in shown or meant.islower() or re.match(r"\(|Option<|Arc<", meant))
        lines += ["Implemented by " + ", ".join(f"`{meant}`" for meant in exported) + ".", ""] if exported else []
    return lines + table(of, calls_of(name, of, alias))


def crate_part(crate):
    """The part of the page about a crate: its functions and constants, and then its types."""
    names = {name: of for name, of in exports(crate).items() if (of, name) in types}
    mine = {name: of for name, of in names.items() if home[of, name] == crate}
    by_kind = collections.defaultdict(list)
    for name, of in sorted(mine.items()):
        kind, item, _ = types[of, name]
        by_kind[kind].append(item._replace(text=re.sub(r"^pub (const )?|;$", "", item.text)))
    docs = re.findall(r"^//! ?(.*)", (top / "crates" / crate / "src/lib.rt").read_text(), re.M)
    lines = [f"## {crate}", "", comment(Item(docs, "", "", [])), ""]
    elsewhere = collections.defaultdict(list)
    for name in sorted(names.keys() - mine.keys()):
        elsewhere[home[names[name], name]].append(f"`{name}`")
    for other, theirs in elsewhere.items():
        lines += [f"It also exports, from [{other}](#{other}): {', '.join(theirs)}.", ""]
    laws = [item for item in by_kind["fn"] if "fn law_" in item.text]
    functions = [item for item in by_kind["fn"] if item not in laws]
    lines += ["### Functions", "", *table(crate, functions)] if functions else []
    lines += ["### Laws", "", "A program calls one for what it proves; nothing runs.", "", *table(crate, laws)] if laws else []
    told = [f"- `{item.text}`" + (f": {comment(item)}" if item.docs else "") for item in by_kind["const"]]
    lines += ["### Constants", "", *told, ""] if told else []
    for name, of in sorted(mine.items()):
        if types[of, name][0] not in ("fn", "const"):
            lines += section(name, of)
    return lines


def page():
    parts = [crate_part(crate) for crate in CRATES]
    lines = [HEAD, "| Crate | What has calls |", "|---|---|"]
    for crate, part in zip(CRATES, parts):
        starts = [i for i, line in enumerate(part) if line.startswith("### ")]
        called = [part[i][4:] for i, end in zip(starts, [*starts[1:], len(part)]) if any(x.startswith("| Call") for x in part[i:end])]
        links = (f"[{name}](#{name.lower()})" for name in called if name not in ("Functions", "Laws"))
        lines.append(f"| [{crate}](#{crate}) | {', '.join(links) or 'functions alone'} |")
    return "\n".join(lines + [""] + [line for part in parts for line in part])


modules = sorted({of for of, _ in types} - set(crates))
home = {}
for crate in CRATES:
    for name, of in exports(crate).items():
        home.setdefault((of, name), crate)
shown = {name for _, name in home}
aliases = {plain(item.text.rpartition(" = ")[2].rstrip(";")) for kind, item, _ in types.values() if kind == "type"}


def files():
    return {PAGE: page().encode()}
