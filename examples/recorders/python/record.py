#!/usr/bin/env python3
"""Records the calls of four threads: record.py queue|state [--fault]

`queue` is `queue.Queue` with one consumer, as a shared flow whose emitters wait for room. `state` is the state flow below. With
--fault one call answers a stale value."""
import queue
import random
import sys
import threading
import time

from recorder import Recording

ROOM = 2
ROUNDS = 350


class StateFlow:
    """A value that threads can wait for."""

    def __init__(self, initial):
        self._value = initial
        self._subscribers = 0
        self._changed = threading.Condition()

    @property
    def value(self):
        with self._changed:
            return self._value

    @value.setter
    def value(self, value):
        self.get_and_set(value)

    def get_and_set(self, value):
        with self._changed:
            old, self._value = self._value, value
            self._changed.notify_all()
            return old

    def compare_and_set(self, expect, value):
        with self._changed:
            is_equal = self._value == expect
            if is_equal:
                self._value = value
                self._changed.notify_all()
            return is_equal

    def subscribe(self):
        with self._changed:
            self._subscribers += 1
        return Subscription(self)

    @property
    def subscription_count(self):
        with self._changed:
            return self._subscribers


class Subscription:
    """Receives the newest value, and then each time a different one."""

    def __init__(self, flow):
        self._flow = flow
        self._last = None

    def next(self, timeout):
        """The value, once it differs from the last one; None if it stays the same."""
        flow = self._flow
        with flow._changed:
            if not flow._changed.wait_for(lambda: flow._value != self._last, timeout):
                return None
            self._last = flow._value
            return self._last

    def unsubscribe(self):
        with self._flow._changed:
            self._flow._subscribers -= 1


def put(caller, flow, values, dice):
    """Puts values into a queue. A `put` that ran out of time was cancelled."""
    for value in values:
        if dice.randrange(3) == 0:
            with caller.call("try_emit", value=value) as call:
                try:
                    flow.put_nowait(value)
                    call.answer = True
                except queue.Full:
                    call.answer = False
        else:
            with caller.call("emit", value=value) as call:
                try:
                    flow.put(value, timeout=dice.choice([None, 0.0005]))
                    call.answer = "done"
                except queue.Full:
                    call.answer = "cancelled"


def get(caller, flow, fault):
    """Gets values from a queue, fewer than are put: some emitters wait for ever."""
    last = None
    for number in range(2 * ROUNDS):
        with caller.call("next") as call:
            value = flow.get()
            call.answer = {"value": last if fault and number == ROUNDS else value}
        last = value
        if number % 50 == 0:
            time.sleep(0.002)


def change(caller, flow, values, fault):
    """Changes a state flow, to values that no other caller sets."""
    first = flow.value
    for number, value in enumerate(values):
        if number % 3 == 0:
            with caller.call("set", value=value) as call:
                flow.value = value
                call.answer = "done"
        elif number % 3 == 1:
            with caller.call("update") as call:
                call.answer = {"old": flow.get_and_set(value), "value": value}
        else:
            expect = flow.value
            with caller.call("compare_and_set", expect=expect, value=value) as call:
                call.answer = flow.compare_and_set(expect, value)
        with caller.call("value") as call:
            call.answer = {"value": first if fault and number == ROUNDS // 2 else flow.value}
        with caller.call("subscription_count") as call:
            call.answer = flow.subscription_count


def follow(caller, flow, is_over):
    """Receives the values of a state flow, and subscribes anew after each twentieth."""
    while not is_over.is_set():
        with caller.call("subscribe") as call:
            subscription = flow.subscribe()
            call.answer = "done"
        for _ in range(20):
            with caller.call("next") as call:
                value = subscription.next(timeout=0.002)
                call.answer = "empty" if value is None else {"value": value}
        with caller.call("unsubscribe") as call:
            subscription.unsubscribe()
            call.answer = "done"


def start(body, *arguments):
    thread = threading.Thread(target=body, args=arguments, daemon=True)
    thread.start()
    return thread


def of_queue(fault):
    recording = Recording()
    flow = queue.Queue(ROOM)
    consumer = recording.caller("consumer")
    # A queue keeps values for its consumer from the beginning.
    with consumer.call("subscribe") as call:
        call.answer = "done"
    getter = start(get, consumer, flow, fault)
    for number in range(3):
        values = range(1000 * number, 1000 * number + ROUNDS)
        start(put, recording.caller(f"producer{number}"), flow, values, random.Random(number))
    getter.join()
    time.sleep(0.05)
    recording.write({"kind": "shared", "replay": 0, "extra": ROOM, "overflow": "suspend"}, sys.stdout)


def of_state(fault):
    recording = Recording()
    flow = StateFlow(0)
    is_over = threading.Event()
    readers = [start(follow, recording.caller(f"reader{number}"), flow, is_over) for number in range(2)]
    writers = [
        start(change, recording.caller(f"writer{number}"), flow, range(first, first + ROUNDS), fault and number == 0)
        for number, first in enumerate((1000, 2000))
    ]
    for thread in writers:
        thread.join()
    is_over.set()
    for thread in readers:
        thread.join()
    recording.write({"kind": "state", "initial": 0}, sys.stdout)


def main():
    kinds = {"queue": of_queue, "state": of_state}
    if len(sys.argv) < 2 or sys.argv[1] not in kinds or sys.argv[2:] not in ([], ["--fault"]):
        sys.exit(__doc__)
    # Threads change places often, so that their calls overlap.
    sys.setswitchinterval(1e-5)
    kinds[sys.argv[1]]("--fault" in sys.argv)


main()
