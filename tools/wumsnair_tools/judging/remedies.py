"""What to do about a record that is refused, or that was recorded wrongly.

The sentences are those of page/command/remedies.json, and page/command/remedies.mjs finds the same ones for wumsnair.mjs."""
import json
import re

from wumsnair_tools.built import top

TABLE = json.loads((top / "page" / "command" / "remedies.json").read_text())
# The least number of calls of a caller of whose moments anything is said.
FEW_CALLS = 2
# The least number of open calls that are many, and the number of them that are named.
MANY_OPEN, NAMED = 3, 8
TEXT_ENDS = re.compile(r"refused: line (\d+), column \d+: the text ends here")
# The refusal of a call that begins before its caller's call before has ended.
AFTER_ANOTHER = re.compile(r'refused: .*call (\d+): .* is no value of "begin"\n  expected: a moment from the end of the caller\'s call before on')


def place_of_other_byte(text):
    """The line and the column, from 1, of the first byte that is no UTF-8; None if there is none."""
    try:
        text.decode()
    except UnicodeDecodeError as error:
        front = text[: error.start]
        return {"line": front.count(b"\n") + 1, "column": error.start - front.rfind(b"\n")}
    return None


def is_cut_off(words, text):
    """Whether a record of JSON lines is refused for its last line, which has no end."""
    lines = text.decode(errors="replace").rstrip().split("\n")
    refused = TEXT_ENDS.match(words)
    return bool(refused) and int(refused[1]) == len(lines) and has_lines(lines)


def has_lines(lines):
    """Whether the first line of a record is all of its head."""
    try:
        return "calls" not in json.loads(next(line for line in lines if line.strip()))
    except (ValueError, StopIteration, TypeError):
        return False


def pending_before(words, text):
    """The pending call that a caller made before the call that is refused; None if there is none."""
    refused = AFTER_ANOTHER.match(words)
    if not refused:
        return None
    *before, last = calls_of(text)[: int(refused[1])]
    own = [(number, call) for number, call in enumerate(before, 1) if call["by"] == last["by"]]
    return {"number": own[-1][0], "by": last["by"]} if own and "end" not in own[-1][1] else None


def of_refusal(words, text):
    """What to do about a refused record, by the words of its refusal and its bytes."""
    if not text:
        return [TABLE["of_texts"]["empty"]]
    if is_cut_off(words, text):
        return [TABLE["of_texts"]["cut_off"]]
    pending = pending_before(words, text)
    if pending:
        return [TABLE["of_texts"]["after_pending"].format(**pending)]
    place = place_of_other_byte(text)
    if place:
        return [TABLE["of_texts"]["no_utf8"].format(**place)]
    return [row["remedy"] for row in TABLE["of_refusals"] if re.search(row["pattern"], words)][:1]


def record_of(text):
    """The flow and the calls of a record that was not refused."""
    try:
        record = json.loads(text)
        return record.get("flow"), record.get("calls", [])
    except json.JSONDecodeError:
        head, *calls = [json.loads(line) for line in text.decode().split("\n") if line.strip()]
        return head.get("flow"), calls


def calls_of(text):
    """The calls of a record that was not refused."""
    return record_of(text)[1]


def subscription_faults(calls):
    """The first call of each caller that its subscription does not allow."""
    subscribed, faults = set(), {}
    for number, call in enumerate(calls, 1):
        by, name = call["by"], call["call"]
        fault = "second_subscription" if by in subscribed else "no_subscription"
        if name in (("subscribe", "first") if by in subscribed else ("next", "unsubscribe")):
            faults.setdefault(by, TABLE["of_calls"][fault].format(number=number, by=by, call=name))
        if name == "subscribe":
            subscribed.add(by)
        elif name == "unsubscribe":
            subscribed.discard(by)
    return list(faults.values())


def sent_by(call):
    """The values that a call may give the flow or its own subscription."""
    return [*([call["value"]] if "value" in call else []), *([call["answer"]["value"]] if call["call"] == "update" else []), *call.get("first", [])]


def found_by(call):
    """The values that a call found in the flow."""
    answer = call.get("answer")
    if isinstance(answer, list):
        return answer
    if isinstance(answer, dict):
        return [answer["old" if call["call"] == "update" else "value"]]
    return [call["expect"]] if "expect" in call and answer is True else []


def unknown_values(flow, calls):
    """A warning if a call found a value that no call sends."""
    sent = {flow.get("initial"), *(value for call in calls for value in sent_by(call))}
    found = next((value for call in calls for value in found_by(call) if value not in sent), None)
    return [] if found is None else [TABLE["of_calls"]["unknown_value"].format(value=found)]


def repeated_values(flow, calls):
    """A warning if a subscriber of a state flow received the same value twice in a row."""
    last = {}
    for number, call in enumerate(calls if flow["kind"] == "state" else [], 1):
        by, answer = call["by"], call.get("answer")
        if call["call"] in ("subscribe", "unsubscribe"):
            last.pop(by, None)
        elif call["call"] == "next" and isinstance(answer, dict):
            if last.get(by) == answer:
                return [TABLE["of_calls"]["same_value"].format(number=number)]
            last[by] = answer
    return []


def spans_of(calls):
    """For each caller that made some calls its first and its last moment; a pending call has no last moment."""
    spans = {}
    for call in calls:
        begin, end, count = spans.get(call["by"], (call["begin"], 0, 0))
        over = None if "end" not in call or end is None else max(end, call["end"])
        spans[call["by"]] = begin, over, count + 1
    return {by: (begin, end) for by, (begin, end, count) in spans.items() if count >= FEW_CALLS}


def clock_warnings(calls):
    """A warning if two callers never overlap."""
    spans = spans_of(calls)
    ended = [(end, by) for by, (_, end) in spans.items() if end is not None]
    if not ended:
        return []
    end = min(end for end, _ in ended)
    other = next(by for over, by in ended if over == end)
    later = next((by for by, (begin, _) in spans.items() if begin > end), None)
    return [] if later is None else [TABLE["of_calls"]["other_clock"].format(by=later, other=other)]


def open_calls(calls):
    """The first moment at which the most calls were open, and their numbers."""
    ends = [call.get("end", float("inf")) for call in calls]
    opened, closed, most, moment = sorted(call["begin"] for call in calls), sorted(ends), 0, 0
    over = 0
    for count, begin in enumerate(opened, 1):
        while closed[over] < begin:
            over += 1
        if count - over > most:
            most, moment = count - over, begin
    return moment, [number for number, call in enumerate(calls, 1) if call["begin"] <= moment <= ends[number - 1]]


def of_giving_up(calls, is_stopped=False):
    """What to do if the search gave up, by itself or since the time was up. Where it stopped, it does not say."""
    moment, numbers = open_calls(calls)
    if len(numbers) < MANY_OPEN and (is_stopped or not numbers):
        return []
    if len(numbers) < MANY_OPEN:
        return [TABLE["of_calls"]["few_open"].format(moment=moment, count=len(numbers))]
    named = ", ".join(f"call {number}" for number in numbers[:NAMED])
    return [TABLE["of_calls"]["many_open"].format(moment=moment, count=len(numbers), calls=named)]


def of_calls(flow, calls):
    """What looks wrong in a record that was read."""
    return [*subscription_faults(calls), *unknown_values(flow, calls), *repeated_values(flow, calls), *clock_warnings(calls)]
