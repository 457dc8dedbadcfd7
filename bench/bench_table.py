"""The table of the benchmarks: what is compared, the ratio to each peer, and the goal of the ratio."""
import dataclasses

import bench_collections

NEXT_LOCKS = ("ref_mutex", "ref_yielding", "ref_parking_lot")
DRAIN_LOCKS = tuple(f"{lock}_drain" for lock in NEXT_LOCKS)
# What sleeping threads are compared with: threads that never sleep at the same flow, and sleeping threads in plain Rust.
WAITING = ("gated", "ref_condvar")


@dataclasses.dataclass
class Row:
    """A workload in one of the ways of this library, which is compared with the fastest of some peers."""

    title: str
    workload: str
    sizes: dict
    ours: str
    peers: tuple
    # The greatest ratio that meets the goal. None if the row is only for comparison.
    goal: float | None = None
    # Whether its instructions are counted, which is useful only for one thread.
    counted: bool = True
    # What is measured: elapsed "nanoseconds", or those of all processors together.
    clock: str = "nanoseconds"

    def cases(self, peers):
        return [(self.workload, peer, self.sizes) for peer in (self.ours, *peers)]


def reading(subscribers):
    """The sizes for this number of subscribers, with so many values that all runs take about the same time."""
    return {"subscribers": subscribers, "count": max(160, 160_000 // subscribers // 16 * 16)}


def one_thread():
    for subscribers in (1, 8, 64, 1024):
        goal = 1.05 if subscribers == 1 else 0.75
        yield Row(f"emit and read, core, {subscribers}", "emit_read", reading(subscribers), "flow", ("ref",), goal)
    for subscribers in (1, 8, 1024):
        sizes = {"subscribers": subscribers, "count": 16_000}
        yield Row(f"emit over laggards, drop oldest, {subscribers}", "emit_unread", sizes, "flow", ("ref",), 0.95)
    for subscribers, goal in ((1, 1.1), (64, 0.8)):
        yield Row(f"suspend and admit, core, {subscribers}", "suspend_admit", reading(subscribers), "flow", ("ref",), goal)
    yield Row("drain of a core, 64, to its next", "emit_read", reading(64), "flow_drain", ("flow",), 0.5)
    yield Row("a sharing's turn over a core, and a next", "share_turn", {"count": 100_000}, "flow", ("ref",), 1.3)


def gated():
    for subscribers in (1, 8, 64, 1024):
        sizes = reading(subscribers)
        by_next, by_drain = f"gated next, {subscribers}", f"gated drain, {subscribers}"
        yield Row(by_next, "emit_read", sizes, "gated", ("ref_mutex",), 1.0)
        yield Row(by_next, "emit_read", sizes, "gated", ("tokio",), 0.8)
        yield Row(by_drain, "emit_read", sizes, "gated_drain", ("ref_mutex",), 0.5)
        yield Row(by_drain, "emit_read", sizes, "gated_drain", ("async_broadcast",), 0.65)
        yield Row(by_drain, "emit_read", sizes, "gated_drain", ("ref_mutex_drain",))
    yield Row("suspend and admit, gated, 1", "suspend_admit", reading(1), "gated", ("ref_mutex",))
    yield Row("suspend and admit, gated, 1", "suspend_admit", reading(1), "gated", ("async_broadcast",))


def words():
    """The rows of the shared flow that is read without a lock, beside those that take one, and beside the gate."""
    for subscribers in (1, 8, 64, 1024):
        sizes = reading(subscribers)
        for ours, way in (("word", "next"), ("word_drain", "drain")):
            for peer in ("ref_mutex", "tokio", "async_broadcast", "gated", "gated_drain"):
                yield Row(f"word flow {way}, {subscribers}", "emit_read", sizes, ours, (peer,))
    for subscribers in (1, 8, 1024):
        sizes = {"subscribers": subscribers, "count": 16_000}
        for peer in ("ref_mutex", "tokio", "gated"):
            yield Row(f"word flow, emit over laggards, {subscribers}", "emit_unread", sizes, "word", (peer,))
    for subscribers in (1, 8):
        yield Row(f"word flow, next with nothing to read, {subscribers}", "next_empty", reading(subscribers), "word", ("gated",))
    for threads in (1, 2, 4):
        sizes = {"threads": threads, "subscribers": threads, "count": 10_000, "room": 10_000 * threads}
        for ours, way, peers in (
            ("word", "next", NEXT_LOCKS),
            ("word_drain", "drain", DRAIN_LOCKS),
            ("word", "next", ("async_broadcast",)),
        ):
            yield Row(f"word crowd, {threads} and {threads}, by {way}", "crowd", sizes, ours, peers, counted=False)


def states():
    sizes = {"count": 1_000_000}
    for call in ("set", "value", "cas", "next"):
        yield Row(f"StateFlow {call}", f"state_{call}", sizes, "gated", ("ref_mutex",), 1.15)
        yield Row(f"StateFlow {call}", f"state_{call}", sizes, "gated", ("tokio",))
    for call in ("set", "value", "cas"):
        behind = {**sizes, "callers": 8}
        yield Row(f"WordState {call}", f"state_{call}", sizes, "flow", ("plain",), 1.1)
        yield Row(f"WordState {call}, behind a reference", f"state_{call}", behind, "flow", ("plain",), 1.1)
    threads = {"count": 250_000, "threads": 4}
    yield Row("WordState update, 4 threads", "state_update", threads, "flow", ("plain",), 1.1, counted=False)
    yield Row("WordState update, 4 threads", "state_update", threads, "flow", ("ref_parking_lot",), counted=False)


def crowds():
    for threads in (1, 2, 4, 8):
        sizes = {"threads": threads, "subscribers": threads, "count": 10_000}
        title = f"crowd, {threads} and {threads}, by"
        for ours, way, peers, goal in (
            ("gated", "next", NEXT_LOCKS, 1.1),
            ("gated_drain", "drain", NEXT_LOCKS, 0.8),
            ("gated_drain", "drain", DRAIN_LOCKS, 1.1),
            ("gated_drain", "drain", ("async_broadcast",), None),
        ):
            yield Row(f"{title} {way}", "crowd", sizes, ours, peers, goal, counted=False)


def sleepers():
    """The rows of threads that sleep while they wait. Their processor time is that of one repeat."""
    for emitters, readers, room in ((2, 3, 0), (2, 3, 4), (2, 2, 16), (8, 8, 16)):
        sizes = {"threads": emitters, "subscribers": readers, "room": room, "count": 10_000, "repeats": 1}
        title = f"asleep, {emitters} and {readers}, room {room}"
        yield Row(title, "crowd", sizes, "gated_asleep", WAITING, 1.1, counted=False)
        yield Row(f"{title}, processor", "crowd", sizes, "gated_asleep", WAITING, 1.0, counted=False, clock="processor")
        yield Row(title, "crowd", sizes, "gated_asleep", ("ref_yielding",), counted=False)
        if room:
            yield Row(title, "crowd", sizes, "gated_asleep", ("async_broadcast",), counted=False)
    many = {"threads": 1, "subscribers": 1000, "count": 500, "repeats": 1}
    yield Row("asleep, 1 and 1,000, room 16", "crowd", many, "gated_asleep", ("ref_condvar",), counted=False)
    idle = {"repeats": 1}
    yield Row("a reader waits for 1 s, processor", "idle", idle, "gated_asleep", ("ref_condvar",), counted=False, clock="processor")


def chains():
    yield Row("the script's chain", "script_chain", {"count": 1_000_000}, "flow", ("plain",), 1.1)
    yield Row("a chain of types", "generic_chain", {"count": 1_000_000}, "flow", ("plain",), 1.2)


def scripts():
    """The rows of whole programs, which `measured` runs by bench_collections."""
    return ()


PARTS = {
    "core": one_thread,
    "gated": gated,
    "word": words,
    "state": states,
    "crowd": crowds,
    "asleep": sleepers,
    "chain": chains,
    "script": scripts,
}


def head(first, second):
    print(f"{'':42}{'peer':24}{first:>8}{second:>8}{'ratio':>8}{'goal':>7}")


def line(row, peer, ours, theirs):
    """Prints a line, and returns whether its goal is met, if it has one."""
    ratio = ours / theirs
    is_met = None if row.goal is None else ratio <= row.goal
    goal = "" if row.goal is None else f"{row.goal:.2f}"
    mark = "  above its goal" if is_met is False else ""
    print(f"{row.title:42}{peer:24}{ours:8.1f}{theirs:8.1f}{ratio:8.2f}{goal:>7}{mark}", flush=True)
    return is_met


def rows(programs, parts):
    """Each row of these parts, with those of its peers that were built."""
    for part in parts:
        for row in PARTS[part]():
            peers = [peer for peer in row.peers if programs.has(row.workload, peer)]
            if peers:
                yield row, peers


def measured(programs, parts):
    """Each row, the fastest of its peers, and the nanoseconds per operation of both."""
    for row, peers in rows(programs, parts):
        ours, *theirs = programs.costs(row.cases(peers), row.clock)
        time, peer = min(zip(theirs, peers))
        yield row, peer, ours, time
    if "script" in parts:
        for title, script in bench_collections.SCRIPTS.items():
            row = Row(title, "collect", {}, "flow_play", ("plain Rust",), 1.2)
            yield row, "plain Rust", *bench_collections.costs(programs.peers, script)


def print_times(programs, parts):
    head("ours, ns", "ns")
    verdicts = [line(*each) for each in measured(programs, parts)]
    print(f"{verdicts.count(True)} of {len(verdicts) - verdicts.count(None)} goals are met")


def print_instructions(programs, parts):
    """Prints the instructions per operation, which do not depend on the other work of the machine. The goals are those for times."""
    head("ours", "peer's")
    for row, peers in rows(programs, parts):
        if row.counted:
            few = {**row.sizes, "count": min(row.sizes["count"], 16_000)}
            ours, *theirs = [programs.instructions(row.workload, peer, few) for peer in (row.ours, *peers)]
            count, peer = min(zip(theirs, peers))
            line(row, peer, ours, count)
