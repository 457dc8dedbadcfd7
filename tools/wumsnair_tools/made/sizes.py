"""The numbers of docs/PROVED.md: a claim ends with a call, and the lines of the definitions on which its contract rests.

They are the definitions that its clauses cite, and those that these cite in turn. The lines of a type are those of its declaration.
Comments and empty lines do not count. Definitions of the toolchain's own libraries are not followed."""
import re
import sys

from wumsnair_tools import public_items as house
from wumsnair_tools.definitions import Scope, all_heads, imports, members, rests_on

PAGE = house.top / "docs/PROVED.md"


def calls(wanted):
    """The clauses of each call that is asked for, with its scope and the types that stand for its parameters."""
    of, _, name = wanted.rpartition("::")
    kind = next((entry for (_, known), entry in house.types.items() if known == of and entry[0] == "type"), None)
    target = house.plain(kind[1].text.split("> = ")[1].rstrip(";")) if kind else of
    arguments = frozenset(re.findall(r"[A-Z]\w+", target)[1:])
    for path, text, head, within, own in all_heads():
        is_it = re.match(rf"(pub(\(crate\))? )?(final )?(extern \"C\" )?fn {name}\b", head.text)
        same = house.name_of(within) == house.name_of(target)
        fits = not arguments or not set(re.findall(r"[A-Z]\w+Core", within)) - arguments
        if is_it and same and fits and head.clauses:
            yield f"{path}: {head.text}", head.clauses, Scope(own, *imports(text)), arguments


def believed(clauses, scope, types):
    found = {(d.path, d.name): d for d in rests_on((clauses, scope))}
    if types:
        given = members(types)
        for member in set(re.findall(r"\bS\.(\w+)", clauses)):
            for body, inner in given[member]:
                found.update({(d.path, d.name): d for d in rests_on((body, inner))})
    return sorted(found.values())


def contracts_of(call):
    """Each function that a call names: its head, and the definitions on which its contract rests. Exits if there is none."""
    found = [(head, believed(clauses, scope, types)) for head, clauses, scope, types in calls(call)]
    return found or sys.exit(f"no public call {call}")


def lines_of(call):
    """The number of lines of definitions on which the contract of a call rests."""
    _, definitions = contracts_of(call)[0]
    return sum(definition.lines for definition in definitions)


def files():
    text = re.sub(r"`([\w:]+)` (\d+)(?=,?$|, `)", lambda end: f"`{end.group(1)}` {lines_of(end.group(1))}", PAGE.read_text(), flags=re.M)
    return {PAGE: text.encode()}
