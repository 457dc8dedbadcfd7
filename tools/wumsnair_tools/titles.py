"""The titles of pictures."""
import pathlib
import re

TITLE = b"A flow script, step by step"


def titled(svg, file):
    """The picture of a script with the name of its file as its title. A name without letters and digits is no title."""
    words = re.sub(r"[\W_]+", " ", pathlib.Path(file).stem).strip()
    return svg.replace(TITLE, words.encode(), 1) if words else svg
