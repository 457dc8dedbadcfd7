"""Text for a terminal, without characters that move its cursor, change its colours or turn the direction of the text."""
import re

# Control characters, those that set the direction of the text, and bytes of a file's name that are no UTF-8.
CONTROL = re.compile("[\x00-\x1f\x7f-\x9f\u202a-\u202e\u2066-\u2069\ud800-\udfff]")


def visible(text):
    """A text with each such character as its number."""
    return CONTROL.sub(lambda one: f"\\u{ord(one[0]):04x}", text)


def visible_lines(text):
    """A text of several lines with each such character in a line as its number."""
    return "\n".join(map(visible, text.split("\n")))


def is_terminal(stream):
    """Whether what is printed to a stream is shown at a terminal."""
    return stream is not None and stream.isatty()


def for_stream(text, stream):
    """Lines as they are printed to a stream: only a terminal gets them without such characters."""
    return visible_lines(text) if is_terminal(stream) else text
