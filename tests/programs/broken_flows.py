"""Plain flows with a planted error each, which the judge must find in records of them."""
from plain_flows import Shared, State


class Torn(State):
    """A state flow whose `compare_and_set` writes one call later, whatever the value is then."""

    late = None

    def settle(self):
        if self.late is not None:
            self.value, self.late = self.late, None

    def compare_and_set(self, by, expect, value):
        truth = self.value == expect
        self.settle()
        self.late = value if truth else None
        return truth

    def set(self, by, value):
        self.value = value
        self.settle()
        return "done"


class Forgetful(Shared):
    """A shared flow that does not keep a value for the subscriber that subscribed last."""

    def append(self, by, value):
        super().append(by, value)
        if len(self.position) > 1:
            self.position[list(self.position)[-1]] = len(self.emitted)


class Reordering(Shared):
    """A shared flow that gives the second of two pending values first."""

    def append(self, by, value):
        super().append(by, value)
        if len(self.emitted) > 1 and min(self.lags(), default=0) > 1:
            self.emitted[-2:] = reversed(self.emitted[-2:])


class ShortReplay(Shared):
    """A shared flow that replays one value too few to a new subscriber."""

    def entry(self):
        return min(self.cache_start() + 1, len(self.emitted))


class Losing(Shared):
    """A shared flow that loses subscribers which have nothing to receive when it counts them."""

    def subscription_count(self, by):
        count = super().subscription_count(by)
        for waiting in [other for other, position in self.position.items() if position == len(self.emitted)]:
            self.unsubscribe(waiting)
        return count


BROKEN = (Torn, Forgetful, Reordering, ShortReplay, Losing)
