"""Records the calls that threads or tasks make of a flow, for `judge`. Copy this file into your project.

Each caller has a buffer of its own. All callers raise one counter before and after each call.

    recording = Recording()
    caller = recording.caller("t1")
    with caller.call("set", value=3) as call:
        flow.set(3)
        call.answer = "done"
    recording.write({"kind": "state", "initial": 0}, sys.stdout)
"""
import contextlib
import json
import threading


class Clock:
    """A counter that all callers share."""

    def __init__(self):
        self._moment = 0
        self._lock = threading.Lock()

    def tick(self):
        with self._lock:
            self._moment += 1
            return self._moment


class Call:
    """A call of a flow. Without an `end` it is pending."""

    def __init__(self, name, keys, begin):
        self.name = name
        self.keys = keys
        self.begin = begin
        self.end = None
        self.answer = None
        self.is_left_out = False

    def leave_out(self):
        """Leaves out this call, since it changed nothing."""
        self.is_left_out = True

    def end_as(self, name, answer):
        """Ends this call as another one, which its answer showed it to be."""
        self.name = name
        self.answer = answer

    def line(self, by, cut):
        """The line of this call, as it was at the moment `cut`."""
        line = {"by": by, "call": self.name, **self.keys, "begin": self.begin}
        if self.end is not None and self.end < cut:
            line.update(end=self.end, answer=self.answer)
        return json.dumps(line)


class Caller:
    """A caller makes one call at a time, and has at most one subscription."""

    def __init__(self, name, clock):
        self.name = name
        self.calls = []
        self._clock = clock

    @contextlib.contextmanager
    def call(self, name, **keys):
        """Records the call that the block makes, with the answer that the block sets.

        If the block sets no answer and does not leave the call out, the call is pending, and its caller makes no other."""
        if self.calls and self.calls[-1].end is None and not self.calls[-1].is_left_out:
            raise RuntimeError(f"{self.calls[-1].line(self.name, 0)} has not ended: its block set no call.answer, or still runs")
        call = Call(name, keys, self._clock.tick())
        self.calls.append(call)
        try:
            yield call
        finally:
            end = self._clock.tick()
            if call.answer is not None:
                call.end = end


class Recording:
    """The calls of all callers of a flow."""

    def __init__(self):
        self._clock = Clock()
        self._callers = []

    def caller(self, name):
        caller = Caller(name, self._clock)
        self._callers.append(caller)
        return caller

    def write(self, flow, out):
        """Writes the flow and the calls up to now. Those that have not ended are pending; their callers may still wait."""
        cut = self._clock.tick()
        print(json.dumps({"flow": flow}), file=out)
        for caller in list(self._callers):
            for call in list(caller.calls):
                if call.begin < cut and not call.is_left_out:
                    print(call.line(caller.name, cut), file=out)
