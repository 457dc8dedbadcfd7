"""What clauses and definitions mean by their words, read from specs/ and src/: for tools/believe and tools/words."""
import collections
import functools
import re

from wumsnair_tools import public_items as house

NAME = re.compile(r"[^\W\d][\w'-]*(?:\.[^\W\d][\w'-]*)*")
START = re.compile(r" *(?:pub )?(?:abbrev|unfoldable|record|data) +(?:pub )?([^\W\d][\w'-]*)")
USE = re.compile(r"^ *(?:pub )?(?:ghost )?use ([\w.]+?)(?:\.\{(.*)\}| as (\w+));?$", re.M)
GHOST = re.compile(r"^ +ghost (\w+) = \{(.*?)\};$", re.M | re.S)
# A member that a trait declares, perhaps with a default.
DECLARED = re.compile(r"^ghost (\w+): (\{.*?\});$", re.M | re.S)
Definition = collections.namedtuple("Definition", "name path text lines")
Scope = collections.namedtuple("Scope", "own names modules")


def without_comments(text):
    return re.sub(r"[ ]*(?:--|//).*", "", text)


def imports(text):
    """The imports of a text: each name with its module, and each module that is imported under another name."""
    names, modules = {}, {}
    for module, listed, alias in USE.findall(text):
        if alias:
            modules[alias] = module
        names.update({name.strip(): module for name in listed.split(",") if name.strip()})
    return names, modules


def blocks(lines):
    """The definitions among these lines, each with its name and its lines."""
    name, block = None, []
    for line in lines + ["module end"]:
        start = START.match(line)
        if start or re.match(r" *(module|use|pub use) ", line):
            if name:
                yield name, block
            name, block = start and start.group(1), []
        if name and line.strip():
            block.append(line)


@functools.cache
def specs(crate, module):
    """The definitions of a module of specs/, and its imports; None if no crate here has the module."""
    file = house.top / "crates" / crate / "specs" / (module.replace(".", "/") + ".antt")
    if not file.exists():
        return None
    text = without_comments(file.read_text())
    path = file.relative_to(house.top).as_posix()
    own = {name: Definition(name, path, "\n".join(block), len(block)) for name, block in blocks(text.splitlines())}
    return Scope(own, *imports(text))


@functools.cache
def source(crate, module):
    """The types and traits that a source file declares, and the imports of its clauses. None of a module inside of one."""
    file = house.top / "crates" / crate / "src" / (module.replace(".", "/") + ".rt")
    if not file.exists():
        return Scope({}, {}, {})
    text = without_comments(file.read_text())
    own = {}
    for item in re.finditer(r"^pub (?:struct|enum|trait) (\w+)(?:[^\n]*;|[^;]*?^\})$", text, re.M | re.S):
        path = file.relative_to(house.top).as_posix()
        lines = [line for line in item.group().splitlines() if line.strip()]
        own[item.group(1)] = Definition(item.group(1), path, "", len(lines))
    return Scope(own, *imports(text))


def resolve(scope, word):
    """The definition that a word of this scope stands for, with the scope in which its own words are read."""
    first, _, rest = word.partition(".")
    if word in scope.own:
        return scope.own[word], scope
    if first in scope.modules and rest:
        return defined(scope.modules[first], rest.split(".")[0])
    if first in scope.names:
        return defined(scope.names[first], first)
    return (scope.own[first], scope) if first in scope.own else None


def defined(module, name):
    parts = module.split(".")
    if parts[0] != "Rattle" or len(parts) < 4 or parts[1] not in house.crates or parts[2] != "specs":
        return None
    if parts[3] == "declared":
        path = [part for part in parts[4:] if part != "TheVariants"]
        scope = source(parts[1], ".".join(path[:-1]))
        return (scope.own[path[-1]], scope) if path[-1] in scope.own else None
    scope = specs(parts[1], ".".join(parts[3:]))
    return resolve(scope, name) if scope else None


def rests_on(*cited):
    """All definitions that texts cite, each in its scope, and those that these cite in turn."""
    found, left = {}, list(cited)
    while left:
        text, scope = left.pop()
        for word in NAME.findall(text):
            hit = resolve(scope, word)
            if hit and (hit[0].path, hit[0].name) not in found:
                found[hit[0].path, hit[0].name] = hit[0]
                left.append((hit[0].text, hit[1]))
    return found.values()


@functools.cache
def all_items():
    """The items of each source file of the crates."""
    files = [(file, file.read_text()) for crate in house.crates for file in house.files(crate)]
    return [(file, text, list(house.items(text.splitlines()))) for file, text in files]


@functools.cache
def members(types):
    """The ghost members of the implementations of the crates' traits for these types, each with its scope."""
    found = collections.defaultdict(list)
    for _, text, items in all_items():
        for item in items:
            trait, of = house.target(item.text) if item.text.startswith("impl") else (None, None)
            if trait and house.name_of(of) in types:
                inner = without_comments("\n".join("    " + line for line in item.inner))
                (names, modules), (near, around) = imports(text), imports(inner)
                scope = Scope({}, {**names, **near}, {**modules, **around})
                for name, body in GHOST.findall(inner):
                    found[name].append((body, scope))
    return found


def declared_by(trait, path):
    """The members that a trait declares, by their names."""
    found = DECLARED.finditer(without_comments("\n".join(trait.inner)))
    return {each[1]: Definition(each[1], path, each[2], len(each[0].splitlines())) for each in found}


def heads_in(item, path):
    """The functions of an item, each with its type or trait, and with the members that the trait declares."""
    if not item.text.startswith(("impl", "pub trait")):
        return [(item, "", {})]
    is_trait = item.text.startswith("pub trait")
    within = item.text.split()[2] if is_trait else house.target(item.text)[1]
    own = declared_by(item, path) if is_trait else {}
    return [(inner, within, own) for inner in house.items(item.inner)]


@functools.cache
def all_heads():
    """The functions of the crates, each with the path and the text of its file, and what `heads_in` returns of it."""
    paths = [(file.relative_to(house.top).as_posix(), text, items) for file, text, items in all_items()]
    return [(path, text, *head) for path, text, items in paths for item in items for head in heads_in(item, path)]
