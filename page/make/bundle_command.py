#!/usr/bin/env python3
"""Puts the command wumsnair.mjs and its module of the player into one file for Node: bundle_command.py LOWERED.wasm OUT.mjs

The file begins with the commit that it was built from, and a sum of the files that it is made from."""
import hashlib
import json
import pathlib
import re
import sys

make = pathlib.Path(__file__).resolve().parent
page, top = make.parent, make.parent.parent
sys.path[:0] = [str(make), str(top / "tools")]
from bundle import compressed
from origin import commit, version
from wumsnair_tools.built import sources

OWN = re.compile(r'^import \{[^}]*\} from "(\.[\w./]+)";\n', re.M)
OF_NODE = re.compile(r'^import \{ ([^}]*) \} from "(node:\w+)";\n', re.M)


def in_order(file, taken):
    """The texts of a module and of those that it imports, each after those that it needs."""
    text = file.read_text()
    for other in OWN.findall(text):
        below = (file.parent / other).resolve()
        if below not in taken:
            in_order(below, taken)
    taken[file] = re.sub(r"^export ", "", OWN.sub("", text), flags=re.M)
    return taken


def parts():
    """The texts of the command's modules."""
    return in_order(page / "command" / "main.mjs", {})


def imports(texts):
    """The imports of parts of Node, each name once."""
    names = {}
    for text in texts:
        for found, module in OF_NODE.findall(text):
            names.setdefault(module, set()).update(found.split(", "))
    return "".join(f'import {{ {", ".join(sorted(found))} }} from "{module}";\n' for module, found in sorted(names.items()))


def made_from():
    """The files that the command is made from."""
    own = [page / "build", *(make / name for name in ("bundle_command.py", "heap.c", "lower.py", "origin.py", "retarget.py"))]
    return sorted({*sources("flow_calls"), *own, *parts(), page / "command" / "remedies.json"})


def sum_of_sources():
    """A sum of what the command is made from."""
    taken = hashlib.sha256()
    for file in made_from():
        taken.update(f"{file.relative_to(top)}\0".encode() + file.read_bytes() + b"\0")
    return taken.hexdigest()


def bundle_command(lowered, target):
    texts = list(parts().values())
    code = "\n".join(OF_NODE.sub("", text) for text in texts)
    remedies = json.loads((page / "command" / "remedies.json").read_text())
    head = f"""#!/usr/bin/env node
// Wumsnair judges records of calls, and plays and draws flow scripts: node wumsnair.mjs --help. Node 18 or later. Apache License 2.0.
// page/build made this file; change page/command and build it again.
const COMMIT = "{commit(made_from())}";
const SOURCES = "{sum_of_sources()}";
const VERSION = "{version()}";
const REMEDIES = {json.dumps(remedies)};
const MODULE = "{compressed(lowered)}";
"""
    shebang, rest = head.split("\n", 1)
    target.write_text(f"{shebang}\n{imports(texts)}{rest}{code}")
    target.chmod(0o755)


if __name__ == "__main__":
    bundle_command(*map(pathlib.Path, sys.argv[1:]))
