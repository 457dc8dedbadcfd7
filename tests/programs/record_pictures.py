"""Reads which calls a picture of a record marks."""
import xml.etree.ElementTree


def marked_in_text(drawn):
    """The calls that the lines of a text picture mark, in the form in which a verdict lists them."""
    return ["  " + line.partition("! ")[2] for line in drawn if "! " in line]


def bars_of(drawn):
    """The words of all bars of an SVG picture, and the words of the marked bars."""
    words, marked, is_marked = [], [], None
    for part in xml.etree.ElementTree.fromstring(drawn):
        kind = part.get("class")
        if part.tag.endswith("rect"):
            is_marked = {"c": False, "w": True}.get(kind)
        elif part.tag.endswith("text") and kind is None and is_marked is not None:
            words.append(part.text)
            marked += [part.text] if is_marked else []
            is_marked = None
    return words, marked


def words_of(line):
    """The words of the bar of a call, from the line that lists the call."""
    number, _, rest = line.strip().partition("  ")
    return f"{number} {rest.rpartition('  ')[0].partition(' ')[2]}"
