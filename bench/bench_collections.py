"""Times scripts that collect chains, played by `flow_play` and in plain Rust: whole programs, from the text to the lines."""
import json
import subprocess
import sys
import time

from wumsnair_tools.built import programs as built_programs

ROUNDS = 9


def text_of(chain, count):
    """A script that collects the chain `count` times."""
    steps = [{"do": "collect", "chain": chain}] * count
    return json.dumps({"version": 2, "flows": {}, "steps": steps}).encode()


def long_script():
    """20 collections of the chain of the workload script_chain, and the number of items of their sources."""
    operators = [
        {"op": "map", "by": "add", "k": 1},
        {"op": "filter", "by": "even"},
        {"op": "scan", "from": 0, "by": "add"},
        {"op": "take", "n": 5_000},
    ]
    return text_of({"from": {"range": [1, 10_000]}, "ops": operators}, 20), 20 * 10_000


def short_script():
    """5,000 collections of a short chain, and their number."""
    chain = {"from": {"of": [1, 2, 3]}, "ops": [{"op": "map", "by": "add", "k": 1}]}
    return text_of(chain, 5_000), 5_000


SCRIPTS = {"20 long collections, an item": long_script, "5,000 short collections, a step": short_script}


def timed(command, text):
    """The time in nanoseconds, and what was printed."""
    start = time.perf_counter_ns()
    printed = subprocess.run(command, input=text, capture_output=True, check=True).stdout
    return time.perf_counter_ns() - start, printed


def costs(peers, script):
    """The nanoseconds per operation of `flow_play` and of the peer, which run in turn: the least of some rounds."""
    player = built_programs("flow_play")[0]
    text, operations = script()
    rounds = [[timed(command, text) for command in ([player], [peers, "collect"])] for _ in range(ROUNDS)]
    if len({printed for row in rounds for _, printed in row}) > 1:
        sys.exit("the collections differ")
    return [min(took for took, _ in times) / operations for times in zip(*rounds)]
