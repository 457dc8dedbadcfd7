"""The lines of a verdict. page/web/verdict_text.js reads the same ones.

A line that names a call has its number, its caller's name, and the call: `  2  t1 set 3: done`; in a drawing its bar comes first. A name may
have any characters, also line breaks, and then lines that look like others. So a line is read by the name of the call of its number."""
import re
from typing import NamedTuple

from wumsnair_tools.terminal import visible

# What comes before a caller's name: a bar, if there is one, and the number of the call.
FRONT = re.compile(r"[-|> !]*([0-9]+) {2}")


class Line(NamedTuple):
    """A line: the number of the call that it names, or 0, what comes before the caller's name, the name, and the rest."""

    number: int
    front: str
    name: str
    rest: str


def line_at(words, at, calls):
    """The line that begins at a place of a verdict on these calls."""
    front = FRONT.match(words, at)
    number = int(front[1]) if front else 0
    name = calls[number - 1]["by"] if 0 < number <= len(calls) else None
    is_named = name is not None and words.startswith(name, front.end())
    begin = front.end() + len(name) if is_named else at
    end = words.find("\n", begin)
    rest = words[begin : end if end >= 0 else len(words)]
    return Line(number, front[0], name, rest) if is_named else Line(0, "", "", rest)


def lines_of(words, calls):
    """The lines of a verdict on these calls."""
    at, lines = 0, []
    while at < len(words):
        lines.append(line_at(words, at, calls))
        at += sum(map(len, lines[-1][1:])) + 1
    return lines


def visible_words(words, calls):
    """A verdict on these calls for a terminal. Each line of it is one line, whatever the callers' names are."""
    return "".join("".join(map(visible, line[1:])) + "\n" for line in lines_of(words, calls))
