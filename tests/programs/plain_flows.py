"""Shared and state flows for one thread, as they are documented, and a search that tries all orders of recorded calls.

No code of the library is used. A flow keeps every value that was ever emitted, and the search remembers no state."""
import copy


class Flow:
    def copied(self):
        other = copy.copy(self)
        for name, held in vars(self).items():
            if isinstance(held, (list, dict)):
                setattr(other, name, held.copy())
        return other


class State(Flow):
    """A state flow."""

    def __init__(self, flow):
        self.value = flow["initial"]
        # For each subscriber a list of the value that it received last, which is empty before the first value.
        self.received = {}

    def set(self, by, value):
        self.value = value
        return "done"

    def try_emit(self, by, value):
        self.value = value
        return True

    def compare_and_set(self, by, expect, value):
        if self.value != expect:
            return False
        self.value = value
        return True

    def get(self, by):
        return {"value": self.value}

    def replay_cache(self, by):
        return [self.value]

    def subscription_count(self, by):
        return len(self.received)

    def subscribe(self, by):
        if by in self.received:
            return None
        self.received[by] = []
        return "done"

    def next(self, by):
        if by not in self.received:
            return None
        if self.received[by] == [self.value]:
            return "empty"
        self.received[by] = [self.value]
        return {"value": self.value}

    def unsubscribe(self, by):
        return None if self.received.pop(by, None) is None else "done"

    def stay_away(self, by):
        return None if by in self.received else "done"


class Shared(Flow):
    """A shared flow. The name of a caller stands for its emission, since a caller makes one emission at a time."""

    def __init__(self, flow):
        self.replay, self.overflow = flow["replay"], flow["overflow"]
        self.capacity = flow["replay"] + flow["extra"]
        self.emitted, self.queue, self.reset = [], [], 0
        self.position, self.own = {}, {}

    def lags(self):
        return [len(self.emitted) - position for position in self.position.values()]

    def is_blocked(self):
        return any(lag >= max(self.capacity, 1) for lag in self.lags())

    def offered_by(self):
        """The caller whose value is offered, without a buffer."""
        return self.emitted[-1][0] if self.capacity == 0 and 1 in self.lags() else None

    def waits(self, by):
        return by == self.offered_by() or any(other == by for other, _ in self.queue)

    def settle(self):
        while self.queue and not self.is_blocked():
            self.append(*self.queue.pop(0))

    def append(self, by, value):
        self.emitted.append((by, value))

    def has_room(self):
        return not self.position or (self.capacity > 0 and not self.is_blocked())

    def drop_oldest(self, by, value):
        self.append(by, value)
        least = len(self.emitted) - self.capacity
        self.position = {u: max(position, least) for u, position in self.position.items()}

    def try_emit(self, by, value):
        if self.has_room():
            self.append(by, value)
            return True
        if not self.is_blocked() or self.overflow == "suspend":
            return False
        if self.overflow == "drop_oldest":
            self.drop_oldest(by, value)
        return True

    def emit(self, by, value):
        if self.waits(by):
            return None
        if self.has_room() or not self.is_blocked():
            self.append(by, value)
        elif self.overflow == "suspend":
            self.queue.append((by, value))
        elif self.overflow == "drop_oldest":
            self.drop_oldest(by, value)
        return "done"

    def returned(self, by):
        return None if self.waits(by) else "done"

    def cancelled(self, by):
        if by == self.offered_by():
            self.position = dict.fromkeys(self.position, len(self.emitted))
        self.queue = [held for held in self.queue if held[0] != by]
        self.settle()
        return "cancelled"

    def cache_start(self):
        return max(self.reset, len(self.emitted) - self.replay)

    def entry(self):
        return self.cache_start() if self.offered_by() is None else len(self.emitted) - 1

    def subscribe(self, by, first=()):
        if by in self.position:
            return None
        self.position[by], self.own[by] = self.entry(), list(first)
        return "done"

    def next(self, by):
        if by not in self.position:
            return None
        if self.own[by]:
            value, *self.own[by] = self.own[by]
            return {"value": value}
        at = self.position[by]
        if at >= len(self.emitted):
            return "empty"
        self.position[by] += 1
        value = self.emitted[at][1]
        self.settle()
        return {"value": value}

    def unsubscribe(self, by):
        if self.position.pop(by, None) is None:
            return None
        self.settle()
        return "done"

    def stay_away(self, by):
        """A `first` that was cancelled before it subscribed. Its caller has no subscription."""
        return None if by in self.position else "done"

    def replay_cache(self, by):
        return [value for _, value in self.emitted[self.cache_start() :]]

    def reset_replay_cache(self, by):
        self.reset = len(self.emitted)
        return "done"

    def subscription_count(self, by):
        return len(self.position)


def new_flow(flow):
    return State(flow) if flow["kind"] == "state" else Shared(flow)


# Instead of an answer: some value, which is not known.
SOME_VALUE = "some value"


def is_given(answer, given):
    """Whether a flow's answer is one that a part may have."""
    if answer == SOME_VALUE:
        return isinstance(given, dict)
    return given is not None and answer in (None, given)


def parts_of(call):
    """The parts of a call in order, each with its arguments and the answer that it must have; with None, any answer.

    A `first` leaves after it has received a value, so only a value may be the answer of its middle part, also if it is pending. Of a
    cancelled one the value is not known."""
    word, answer, by = call["call"], call.get("answer"), call["by"]
    if word == "first":
        received = answer if isinstance(answer, dict) else SOME_VALUE
        return [("subscribe", [by], "done"), ("next", [by], received), ("unsubscribe", [by], "done")]
    if word == "update":
        return [("compare_and_set", [by, answer["old"], answer["value"]], True)]
    arguments = [by] + [call[key] for key in ("expect", "value", "first") if key in call]
    if word == "emit":
        ends = {"done": [("returned", [by], "done")], "cancelled": [("cancelled", [by], "cancelled")], None: []}
        return [("emit", arguments, None), *ends[answer]]
    return [("get" if word == "value" else word, arguments, answer)]


def choices_of(call):
    """The ways in which a call that has ended may have happened: a cancelled one may not have begun, and a cancelled `first` may have
    left without a value."""
    parts = parts_of(call)
    if call.get("answer") != "cancelled":
        return [parts]
    if call["call"] == "emit":
        return [parts, []]
    subscribed, _, left = parts
    return [parts, [subscribed, left], [("stay_away", [call["by"]], "done")]]


def goes_on(flow, rows, begun):
    """Whether the calls that are left in the rows can happen. `begun` has the parts that are left of each caller's call."""
    left = [call for by in rows for call in rows[by]]
    ends = [call["end"] for call in left if "end" in call]
    if not ends:
        return True
    for by, row in rows.items():
        if not row or row[0]["begin"] > min(ends):
            continue
        for parts in [begun[by]] if begun[by] is not None else choices_of(row[0]):
            after, answer = flow, None
            if parts:
                (word, arguments, answer), *parts = parts
                after = flow.copied()
                if not is_given(answer, getattr(after, word)(*arguments)):
                    continue
            rest = rows if parts else {**rows, by: row[1:]}
            if goes_on(after, rest, {**begun, by: parts or None}):
                return True
    return False


def is_explained(flow, calls):
    """Whether the documented flow gives these answers for some order of the calls."""
    rows = {}
    for call in calls:
        rows.setdefault(call["by"], []).append(call)
    return goes_on(new_flow(flow), rows, dict.fromkeys(rows))
