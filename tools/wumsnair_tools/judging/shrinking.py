"""Finds a small illegal record in an illegal one: ./judge --shrink.

It leaves out parts for as long as the judge finds the rest illegal, and illegal from the same moment on as the whole record: larger parts
before smaller ones. leaving_out.py says which parts may be left out. The record is judged again before it is printed, and printed only if
it is illegal from that moment on."""
import json
import time

from wumsnair_tools.judging import remedies
from wumsnair_tools.judging.leaving_out import Case, values_of
from wumsnair_tools.judging.reports import moments_of

LEGAL, ILLEGAL = 0, 1
# The most values of a record of which each may be that of the state at a moment.
MOST_VALUES = 50
# The most seconds that the search for a smaller record may take, unless --seconds says otherwise.
SECONDS = 60


def text_of(flow, calls):
    """A record in lines."""
    return "".join(json.dumps(line, ensure_ascii=False) + "\n" for line in ({"flow": flow}, *calls)).encode()


def wrong_from(words):
    """The moment from which on no order explains a record, if the verdict names it."""
    return moments_of(words)[0]


class Search:
    """The search for a smaller record, which ends by a time. `words` are those on the whole record."""

    def __init__(self, judge, end, words):
        self.judge, self.end, self.named = judge, end, wrong_from(words)
        self.moment = self.named

    def is_over(self):
        return time.monotonic() > self.end

    def verdict(self, flow, calls):
        return self.judge(text_of(flow, calls), max(0.1, self.end - time.monotonic()))

    def is_illegal(self, case):
        """Whether a case is illegal with its optional calls."""
        return case is not None and not self.is_over() and self.verdict(case.flow, case.calls + case.optional)[0] == ILLEGAL

    def is_wrong(self, status, words):
        """Whether a record with this verdict is illegal from the same moment on as the whole record."""
        return status == ILLEGAL and wrong_from(words) in (self.named, self.moment)

    def stays_wrong(self, case):
        """Whether a case is illegal with its optional calls, and without them from the same moment on as the whole record."""
        if case is None or self.is_over() or case.optional and not self.is_illegal(case):
            return False
        return self.is_wrong(*self.verdict(case.flow, case.calls))

    def first_moment(self, case):
        """The first moment by which a case is illegal."""
        begins = {call["begin"] for call in case.calls}
        moments = sorted(begins | {call["end"] for call in case.calls if "end" in call})
        low, high = 0, len(moments) - 1
        while low < high:
            middle = (low + high) // 2
            if self.is_illegal(case.cut(moments[middle])):
                high = middle
            else:
                low = middle + 1
        return moments[low]

    def cut(self, case):
        """The case up to the first moment by which it is illegal."""
        if self.moment is None:
            self.moment = self.first_moment(case)
        return case.cut(self.moment)

    def is_illegal_with_any(self, case, moment):
        """Whether a case is illegal by the calls from a moment on, whatever value the state has then."""
        return all(self.is_illegal(case.after(moment, value)) for value in case.values())

    def may_have(self, case, moment, value):
        """Whether the state may have a value at a moment."""
        look = {"by": "at the moment", "call": "value", "begin": moment, "end": moment, "answer": {"value": value}}
        return not self.is_over() and self.verdict(case.flow, (*case.before(moment), look))[0] == LEGAL

    def without_front(self, case):
        """The case without the calls before the last moment that it stays illegal without."""
        moments = case.quiet_moments()
        if not moments or len(case.values()) > MOST_VALUES:
            return case
        low, high = 0, len(moments)
        while low < high:
            middle = (low + high) // 2
            if self.is_illegal_with_any(case, moments[middle]):
                low = middle + 1
            else:
                high = middle
        values = case.values() if low else []
        rests = [case.after(moments[low - 1], value) for value in values if self.may_have(case, moments[low - 1], value)]
        return next((rest for rest in rests if self.stays_wrong(rest)), case)

    def without_values(self, case, values):
        """The case without the values that it stays illegal without, of these; first it tries to leave out all at once."""
        smaller = case
        for value in values:
            smaller = smaller and smaller.without_value(value)
        if self.stays_wrong(smaller):
            return smaller
        half = len(values) // 2
        if half == 0 or self.is_over():
            return case
        return self.without_values(self.without_values(case, values[:half]), values[half:])

    def without_units(self, case, count):
        """The case without the groups of so many parts that it stays illegal without."""
        at = 0
        while at < len(units := case.units()) and not self.is_over():
            smaller = case.without(set().union(*units[at : at + count]))
            if self.stays_wrong(smaller):
                case = smaller
            else:
                at += count
        return case

    def smallest(self, case):
        """The case without any part that it stays illegal without."""
        before = None
        while case != before and not self.is_over():
            before = case
            if not case.is_shared:
                case = self.without_values(case, sorted(set().union(*map(values_of, case.calls))))
            count = max(1, len(case.units()) // 2)
            while count:
                case = self.without_units(case, count)
                count //= 2
        return case


def shrink(judge, text, seconds=None):
    """The status of a record, words on it, and the small record; None for that if the record is not illegal."""
    begin, most = time.monotonic(), seconds or SECONDS
    status, words = judge(text, most)
    took = time.monotonic() - begin
    if status != ILLEGAL:
        return status, words, None
    flow, calls = remedies.record_of(text)
    search = Search(judge, begin + most, words)
    case = search.without_front(search.cut(Case(flow, tuple(calls))))
    small = search.smallest(case)
    # A smaller record takes about as long as the whole one, at most.
    kept = next((each for each in (small, case) if search.is_wrong(*judge(text_of(each.flow, each.calls), took + 1))), None)
    if kept is None:
        return status, "no smaller record was found", text
    late = ": the time was up, and --seconds sets more" if search.is_over() else ""
    return status, f"{len(kept.calls)} of {len(calls)} calls are left{late}", text_of(kept.flow, kept.calls)
