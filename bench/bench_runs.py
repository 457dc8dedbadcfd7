"""Runs the bench's programs: what an operation costs, in nanoseconds and in instructions."""
import json
import re
import resource
import shutil
import subprocess
import sys

OF_FLOWS = {"flow", "flow_drain", "gated", "gated_drain", "gated_asleep", "word", "word_drain", "plain"}
ROUNDS = 3


class Programs:
    """The two programs, each with the peers that it has."""

    def __init__(self, flow_bench, peers):
        self.flow_bench, self.peers = flow_bench, peers

    def command(self, workload, peer, sizes):
        program = self.flow_bench if peer in OF_FLOWS else self.peers
        return [str(program), workload, peer, *(f"{name}={size}" for name, size in sizes.items())]

    def run(self, workload, peer, sizes):
        """What the program prints, and its processor time; None if it was built without this peer."""
        before = processor_time()
        printed = answer(subprocess.run(self.command(workload, peer, sizes), capture_output=True, text=True, check=True).stdout)
        return printed and {**printed, "processor": processor_time() - before}

    def has(self, workload, peer):
        return self.run(workload, peer, {"count": 16, "repeats": 1}) is not None

    def cost(self, case, clock="nanoseconds"):
        """The nanoseconds per operation by this clock, and the sum."""
        printed = self.run(*case)
        if printed is None:
            sys.exit(f"there is no such case: {case}")
        return printed[clock] / max(printed["operations"], 1), printed["sum"]

    def costs(self, cases, clock):
        """The least cost of each case in some rounds through all cases. All cases must do the same work."""
        rounds = [[self.cost(case, clock) for case in cases] for _ in range(ROUNDS)]
        if len({total for costs in rounds for _, total in costs}) > 1:
            sys.exit(f"these do not do the same work: {cases}")
        return self.least(rounds)

    def growth_costs(self, cases):
        """The least cost of each of these cases, which do different work."""
        return self.least([[self.cost(case) for case in cases] for _ in range(ROUNDS)])

    @staticmethod
    def least(rounds):
        return [min(time for time, _ in costs) for costs in zip(*rounds)]

    def instructions(self, workload, peer, sizes):
        """The instructions per operation: those that twice as many operations take in addition."""
        few = self.count(workload, peer, {**sizes, "repeats": 1})
        many = self.count(workload, peer, {**sizes, "count": 2 * sizes["count"], "repeats": 1})
        return (many[0] - few[0]) / (many[1] - few[1])

    def count(self, workload, peer, sizes):
        """The number of instructions of a run, and the number of its operations."""
        words = ["valgrind", "--tool=callgrind", "--callgrind-out-file=/dev/null"]
        ran = subprocess.run([*words, *self.command(workload, peer, sizes)], capture_output=True, text=True)
        counted = re.search(r"Collected : (\d+)", ran.stderr)
        printed = answer(ran.stdout)
        if counted is None or printed is None:
            sys.exit(f"valgrind: {workload} {peer} {sizes}: {ran.stderr}")
        return int(counted[1]), printed["operations"]


def processor_time():
    """The nanoseconds that all programs that have ended took, on all processors."""
    used = resource.getrusage(resource.RUSAGE_CHILDREN)
    return (used.ru_utime + used.ru_stime) * 1e9


def answer(printed):
    """What a program printed; None if it has no such workload."""
    told = json.loads(printed)
    return None if "error" in told else told


def can_count():
    return shutil.which("valgrind") is not None
