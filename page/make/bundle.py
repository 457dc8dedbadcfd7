#!/usr/bin/env python3
"""Puts the page, its code, both modules of the player and the examples into one file, which a browser can open from a disk:
bundle.py EXAMPLES WIDE.wasm LOWERED.wasm OUT.html

The foot of the page names the version, and the commit that it was built from."""
import base64
import json
import pathlib
import re
import sys
import zlib

make = pathlib.Path(__file__).resolve().parent
page, top = make.parent, make.parent.parent
web = page / "web"
sys.path[:0] = [str(make), str(top / "tools")]
from origin import commit, version
from wumsnair_tools.built import sources

FOOT = "<footer>Version VERSION, built from COMMIT</footer>"
STYLE = '<link rel="stylesheet" href="page.css">\n'
CODE = '<script type="module" src="page.js"></script>\n'
IMPORT = re.compile(r'^import (?:\{[^}]*\} from )?"\./(\w+\.js)";\n', re.M)


def in_order(name, taken):
    """The files of a module and of those that it imports, each after those that it needs."""
    text = (web / name).read_text()
    for other in IMPORT.findall(text):
        if other not in taken:
            in_order(other, taken)
    taken[name] = re.sub(r"^export ", "", IMPORT.sub("", text), flags=re.M)
    return taken


def compressed(path):
    packer = zlib.compressobj(9, zlib.DEFLATED, -15)
    return base64.b64encode(packer.compress(path.read_bytes()) + packer.flush()).decode()


def element(kind, name, text):
    """A part of the page that its code reads by its id. In a text of JSON each `<` is escaped."""
    return f'<script type="{kind}" id="{name}">{text}</script>\n'


def replaced(text, part, by):
    assert text.count(part) == 1, part
    return text.replace(part, by)


def texts(folder):
    """The texts of a folder by their names, as JSON."""
    found = sorted(path for path in folder.iterdir() if path.suffix in (".json", ".jsonl"))
    return json.dumps({path.stem: path.read_text() for path in found}).replace("<", "\\u003c")


def made_from(examples):
    """The files that the page is made from."""
    texts_of = [file for folder in (examples, examples / "records") for file in folder.glob("*.json*")]
    return [*sources("flow_calls"), *web.iterdir(), *make.iterdir(), page / "build", *texts_of]


def bundle(examples, wide, lowered, target):
    inside = element("text/plain", "wide-module", compressed(wide)) + element("text/plain", "module", compressed(lowered))
    inside += element("application/json", "example-scripts", texts(examples))
    inside += element("application/json", "example-records", texts(examples / "records"))
    code = "\n".join(in_order("page.js", {}).values())
    assert "</script" not in code
    text = (web / "index.html").read_text()
    text = replaced(text, STYLE, f'<style>\n{(web / "page.css").read_text()}</style>\n')
    text = replaced(text, FOOT, f"<footer>Version {version()}, built from {commit(made_from(examples))}</footer>")
    target.write_text(replaced(text, CODE, f'{inside}<script type="module">\n{code}</script>\n'))


if __name__ == "__main__":
    bundle(*map(pathlib.Path, sys.argv[1:]))
