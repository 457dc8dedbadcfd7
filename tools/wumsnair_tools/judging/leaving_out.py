"""Smaller records, which are legal if the record that they come from is legal.

Leaving out a call can make the record of a correct flow illegal: without a `set`, a `value` that reads it has no explanation. So a record
is made smaller only in ways that explain no less than before:

- the calls after a moment are left out, and those that are not over by then become pending, except for an `emit` that is cancelled;
- a call that changed nothing is left out;
- a change becomes one that may have happened or not: it is `optional`, and judged with the rest, but not printed. A change that gives a
  value which another call found is kept, since without it the record would be illegal for another reason;
- a subscription is left out with all its calls, if the rest does not depend on how many subscribers there are and how slow they are;
- of a state flow, a value is left out with all calls that name it;
- the calls of a state flow before a moment at which no call and no subscription is open are left out, if the rest is illegal whatever
  value the state has then. One that it may have becomes the initial one.

tests/programs/test_shrinking.py tries each way on random legal records."""
from dataclasses import dataclass, field
from itertools import count
from math import inf

LOOKS = "value", "subscription_count", "replay_cache"
OF_SUBSCRIBERS = "subscribe", "next", "unsubscribe"


def changed_nothing(call):
    answer = call.get("answer")
    return call["call"] in LOOKS or answer is False or answer == "empty"


def is_of_subscriber(call):
    return call["call"] in OF_SUBSCRIBERS


def pending(call):
    """A call as it is before its end. A cancelled `emit` stays as it is: one that is pending could not withdraw its value."""
    if call.get("answer") == "cancelled":
        return call
    begun = {key: value for key, value in call.items() if key not in ("end", "answer")}
    if call["call"] == "update":
        begun |= {"call": "compare_and_set", "expect": call["answer"]["old"], "value": call["answer"]["value"]}
    return begun


def optional(call, name, is_shared):
    """A change as a call, of a caller of its own, that may have happened or not."""
    if is_shared and "end" in call and call["call"] in ("emit", "try_emit"):
        return {**call, "by": name, "call": "emit", "answer": "cancelled"}
    return {**pending(call), "by": name}


def given_by(call):
    """The values that a call may give the flow or its own subscription."""
    answer = call.get("answer")
    new = [answer["value"]] if call["call"] == "update" and answer else [call["value"]] if "value" in call and answer is not False else []
    return {*new, *call.get("first", ())}


def named_by(call):
    """The values that a call found in the flow."""
    answer = call.get("answer")
    found = answer if isinstance(answer, list) else [answer["old" if call["call"] == "update" else "value"]] if isinstance(answer, dict) else []
    return {*found, *([call["expect"]] if "expect" in call and answer is True else [])}


def values_of(call):
    """The values that a call has in it."""
    return given_by(call) | named_by(call) | {call[key] for key in ("value", "expect") if key in call}


@dataclass(frozen=True)
class Case:
    """A record that gets smaller: its flow, its calls, and the optional ones that it no longer has."""

    flow: dict
    calls: tuple
    optional: tuple = field(default=())

    @property
    def is_shared(self):
        return self.flow["kind"] == "shared"

    def cut(self, moment):
        """The calls that began by a moment."""
        begun = [call for call in self.calls if call["begin"] <= moment]
        is_over = [call.get("end", moment + 1) <= moment for call in begun]
        left = [call if over else pending(call) for call, over in zip(begun, is_over) if over or not changed_nothing(call)]
        return Case(self.flow, tuple(left), self.optional)

    def sessions(self):
        """The subscriptions, each as the places of its calls."""
        found, last = [], {}
        for place, call in enumerate(self.calls):
            if is_of_subscriber(call):
                if call["call"] == "subscribe" or call["by"] not in last:
                    last[call["by"]] = []
                    found.append(last[call["by"]])
                last[call["by"]].append(place)
                if call["call"] == "unsubscribe":
                    del last[call["by"]]
        return [set(session) for session in found]

    def units(self):
        """The parts that can be left out, as sets of the places of calls: all of a caller, a subscription, or one other call."""
        callers = {}
        for place, call in enumerate(self.calls):
            callers.setdefault(call["by"], set()).add(place)
        single = [{place} for place, call in enumerate(self.calls) if changed_nothing(call) or not is_of_subscriber(call)]
        return [*callers.values(), *self.ends_of_sessions(), *self.sessions(), *single]

    def ends_of_sessions(self):
        """The last calls of subscriptions, for flows in which a slow subscriber delays no other caller."""
        if self.is_shared and self.flow["overflow"] != "drop_oldest":
            return []
        own = [sorted(session) for session in self.sessions()]
        later = [{call["by"] for call in self.calls[session[-1] + 1 :] if call["call"] in ("subscribe", "first")} for session in own]
        ends = [session for session, callers in zip(own, later) if self.calls[session[0]]["by"] not in callers]
        return [set(session[at:]) for session in ends for at in range(1, len(session))]

    def depends_on_subscribers(self, calls):
        """Whether calls of this flow may have other answers if there are more or slower subscribers."""
        if any(call["call"] == "subscription_count" for call in calls):
            return True
        if not self.is_shared or self.flow["overflow"] == "drop_oldest":
            return False
        return self.flow["overflow"] == "drop_latest" or any(call["call"] == "try_emit" and call.get("answer") is False for call in calls)

    def keeps_subscriptions(self, places, left):
        """Whether these calls are looks and whole subscriptions or their ends, and the others do not depend on subscribers."""
        own = {place for place in places if is_of_subscriber(self.calls[place])}
        whole = [part for part in (*self.sessions(), *self.ends_of_sessions()) if part <= own]
        rest = own - set().union(*whole)
        changes = [*whole, *(place for place in places if self.calls[place]["call"] == "first")]
        return all(changed_nothing(self.calls[place]) for place in rest) and not (changes and self.depends_on_subscribers(left))

    def keeps_values(self, gone, left):
        """Whether each value that a call names is still given by another one, or is the initial one."""
        given = set().union({self.flow.get("initial")}, *map(given_by, left))
        lost = set().union(*map(given_by, gone)) - given
        return not any(lost & named_by(call) for call in left)

    def without(self, places):
        """The case without the calls of these places; None if they cannot be left out."""
        left = tuple(call for place, call in enumerate(self.calls) if place not in places)
        gone = [self.calls[place] for place in sorted(places)]
        if not self.keeps_subscriptions(places, left) or not self.keeps_values(gone, left):
            return None
        changes = [call for call in gone if not changed_nothing(call) and not is_of_subscriber(call)]
        names = (f"left out {len(self.optional) + number}" for number, _ in enumerate(changes))
        more = tuple(optional(call, name, self.is_shared) for call, name in zip(changes, names))
        return Case(self.flow, left, self.optional + more)

    def quiet_moments(self):
        """The moments at which no call of a state flow and no subscription is open, and before and after which there are calls."""
        if self.is_shared or self.optional or any(call["call"] == "first" for call in self.calls):
            return []
        spans = [(call["begin"], call.get("end", inf)) for call in self.calls if not is_of_subscriber(call)]
        for session in map(sorted, self.sessions()):
            first, last = self.calls[session[0]], self.calls[session[-1]]
            spans.append((first["begin"], last.get("end", inf) if last["call"] == "unsubscribe" else inf))
        found, over = [], -1
        for begin, end in sorted(spans):
            if -1 < over < begin:
                found.append(begin)
            over = max(over, end)
        return found

    def before(self, moment):
        return tuple(call for call in self.calls if call["begin"] < moment)

    def values(self):
        """All values that the state may have had, and one more."""
        known = set().union({self.flow["initial"]}, *map(values_of, self.calls))
        return [*sorted(known), next(value for value in count() if value not in known)]

    def after(self, moment, value):
        """The case without the calls before a moment at which the state has a value."""
        return Case({**self.flow, "initial": value}, tuple(call for call in self.calls if call["begin"] >= moment))

    def without_value(self, value):
        """The case of a state flow without the calls that name a value; None if they cannot be left out."""
        keep = [tuple(call for call in calls if value not in values_of(call)) for calls in (self.calls, self.optional)]
        gone = [call for call in (*self.calls, *self.optional) if value in values_of(call)]
        left = [call for calls in keep for call in calls]
        if self.is_shared or any(values_of(call) != {value} for call in gone) or any(call.get("answer") in (False, "empty") for call in left):
            return None
        if any(call["call"] == "first" for call in gone) and self.depends_on_subscribers(left):
            return None
        last = {}
        for call in left:
            if call["call"] == "next" and "answer" in call:
                if last.get(call["by"]) == call["answer"]:
                    return None
                last[call["by"]] = call["answer"]
        return Case(self.flow, *keep)
