"""The beginnings of the pages of docs/: the way back and, on a long page, the table of contents. docs/CALLS.md is made by calls.py."""
import re
import textwrap

from wumsnair_tools.built import top

BACK = "[README](../README.md) · [Glossary](GLOSSARY.md)"
# A page of more lines has a table of contents.
LONG = 90


def fragment(heading):
    """The part of a link that leads to a heading, as GitHub makes it."""
    text = re.sub(r"\[([^]]*)\]\([^)]*\)", r"\1", heading).lower()
    return re.sub(r"[^\w\- ]", "", text).replace(" ", "-")


def headings(text):
    plain = re.sub(r"^```.*?^```$", "", text, flags=re.M | re.S)
    return re.findall(r"^## (.+)$", plain, re.M)


def contents(page, text):
    """The lines between a page's title and its first paragraph."""
    way_back = BACK.replace(" · [Glossary](GLOSSARY.md)", "") if page.name == "GLOSSARY.md" else BACK
    found = headings(text)
    if len(found) < 3 or text.count("\n") < LONG:
        return f"{way_back}\n"
    # A link keeps its spaces while the list of links is broken into lines.
    links = " · ".join(f"[{heading}](#{fragment(heading)})".replace(" ", "\0") for heading in found)
    lines = textwrap.fill(links, 120, break_long_words=False, break_on_hyphens=False).replace("\0", " ")
    return f"{way_back}\n\n{lines}\n"


def written(page):
    title, rest = page.read_text().split("\n", 1)
    rest = re.sub(r"\A\s*\[README\].*\n(\n\[.*\]\(#.*\n(?:(?:·|\[).*\n)*)?", "", rest).lstrip("\n")
    return f"{title}\n\n{contents(page, rest)}\n{rest}"


def files():
    return {page: written(page).encode() for page in sorted((top / "docs").glob("*.md")) if page.name != "CALLS.md"}
