"""Reports verdicts: in a line, as JSON, and as the XML of JUnit. page/command/reports.mjs writes the same for wumsnair.mjs."""
import json
import re
from xml.sax.saxutils import escape

from wumsnair_tools.judging.verdict_text import lines_of, visible_words
from wumsnair_tools.terminal import visible

VERDICTS = "legal", "illegal", "refused", "gave up", "failed"
MOMENTS = re.compile(r"illegal\nby moment (\d+) .*; from (\d+) on ")
PART = re.compile(r"\((it [a-z ]+)\)$")
REFUSED = re.compile(r"refused: (?:line (\d+), column (\d+): )?(?:call (\d+): )?(.*)")
NO_XML = re.compile("[^\n\u0020-\ud7ff\ue000-\ufffd\U00010000-\U0010ffff]")


def status_of(verdicts):
    """The status of a command that judged records: 1 if one is illegal, else the greatest."""
    statuses = [verdict.status for verdict in verdicts]
    return 1 if 1 in statuses else max(statuses, default=0)


def counted(verdicts):
    """How many records have each verdict."""
    return {"records": len(verdicts), **{word: sum(verdict.verdict == word for verdict in verdicts) for word in VERDICTS}}


def summary(verdicts):
    """The summary of several records in a line."""
    counts = counted(verdicts)
    return f"{counts['records']} records: " + ", ".join(f"{counts[word]} {word}" for word in VERDICTS if counts[word]) + "\n"


def listed(words, calls):
    """The numbers of the calls that the lines of a verdict name, each with the part of the call."""
    found = [(line.number, PART.search(line.rest)) for line in lines_of(words, calls) if line.number]
    return [(number, part and part[1]) for number, part in found]


def moments_of(words):
    """The moment by which no order explains the calls of an illegal record, and the one from which on its calls are listed."""
    found = MOMENTS.match(words)
    return (int(found[1]), int(found[2])) if found else (None, None)


def refusal_of(words):
    """What a refusal says, in parts."""
    line, column, call, message = REFUSED.match(words).groups()
    parts = {"expected": re.search(r"^  expected: (.*)$", words, re.M), "nearest": re.search(r'^  nearest: "(.*)"$', words, re.M)}
    place = {"line": line and int(line), "column": column and int(column), "call": call and int(call)}
    return {**place, "message": message, **{name: part and part[1] for name, part in parts.items()}}


def entry(told, with_order):
    """A verdict as a value for JSON."""
    calls, is_illegal = told.calls, told.verdict == "illegal"
    counts = None if calls is None else {
        "calls": len(calls),
        "callers": len({call["by"] for call in calls}),
        "pending": sum("end" not in call for call in calls),
    }
    order = [{"number": number, "by": calls[number - 1]["by"], "call": calls[number - 1]["call"], "part": part}
             for number, part in listed(told.words, calls)] if with_order and told.verdict == "legal" else None
    return {
        "record": told.record,
        "verdict": told.verdict,
        "status": told.status,
        "seconds": told.seconds,
        "counts": counts,
        "moment": moments_of(told.words)[0],
        "since": moments_of(told.words)[1],
        "calls": [{"number": number, **calls[number - 1]} for number, _ in listed(told.words, calls)] if is_illegal else [],
        "order": order,
        "refusal": refusal_of(told.words) if told.verdict == "refused" else None,
        "hints": told.hints,
    }


def json_report(verdicts, with_order):
    seconds = round(sum(verdict.seconds for verdict in verdicts), 3)
    records = [entry(verdict, with_order) for verdict in verdicts]
    report = {"version": 1, "status": status_of(verdicts), "seconds": seconds, "counts": counted(verdicts), "records": records}
    return json.dumps(report, indent=1, ensure_ascii=False) + "\n"


def escaped(text):
    """A text for XML. A character that XML cannot have is written as its number."""
    plain = NO_XML.sub(lambda one: f"\\u{ord(one[0]):04x}", text)
    return escape(plain, {'"': "&quot;"})


def in_tag(text):
    return escaped(text).replace("\n", "&#10;")


def test_of(told):
    """A test of JUnit for a verdict."""
    opened = f'  <testcase classname="wumsnair.judge" name="{in_tag(told.record)}" time="{told.seconds:.3f}"'
    if told.verdict == "legal":
        return f"{opened}/>\n"
    kind = "failure" if told.verdict == "illegal" else "error"
    words = visible_words(told.words, told.calls or []).rstrip()
    text = escaped("\n".join(part for part in (words, *map(visible, told.hints)) if part))
    message = in_tag(" ".join(line.strip() for line in told.words.split("\n")[:2]).strip() or told.verdict)
    return f'{opened}>\n   <{kind} type="{told.verdict}" message="{message}">{text}</{kind}>\n  </testcase>\n'


def junit_report(verdicts):
    failures = sum(verdict.verdict == "illegal" for verdict in verdicts)
    errors = sum(verdict.verdict not in ("legal", "illegal") for verdict in verdicts)
    time = sum(verdict.seconds for verdict in verdicts)
    counts = f'tests="{len(verdicts)}" failures="{failures}" errors="{errors}" time="{time:.3f}"'
    tests = "".join(map(test_of, verdicts))
    head = f'<?xml version="1.0" encoding="UTF-8"?>\n<testsuites {counts}>\n <testsuite name="judge" {counts}>\n'
    return f"{head}{tests} </testsuite>\n</testsuites>\n"
