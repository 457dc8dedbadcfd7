"""Random scripts of each version, as strategies of hypothesis.

A script is drawn as its flows and as a list of choices, one for each step. A choice becomes a step that the flow allows, on a name that
an earlier step introduced, so that most scripts are played; some are spoiled. A script shrinks as its choices do."""
import itertools

from hypothesis import strategies as st

LEAST, MOST = -(2**63), 2**63 - 1
VALUES = (0, 1, 2, 3, -1, 7, LEAST, MOST)
OVERFLOWS = ("suspend", "drop_oldest", "drop_latest")
LIMITS = (*[{}] * 8, {"limit": 0}, {"limit": 1}, {"limit": 3}, {"limit": 2**64 - 1})
ROOMS = [*itertools.product((0, 1, 2, 4), (0, 1, 3)), (65_536, 1)]
# What a flow of each kind allows; the more often a word occurs, the more often it is chosen.
TOKENS = ("subscribe", "next", "next", "next", "unsubscribe", "cache", "count")
STEPS = {
    "shared": (*TOKENS, "try_emit", "try_emit", "emit", "emit", "emit", "poll", "poll", "cancel", "reset"),
    "state": (*TOKENS, "try_emit", "set", "set", "compare_and_set", "value", "reset"),
    "share": (*TOKENS, "turn", "turn", "turn", "turn", "turn", "turn"),
    "state_in": (*TOKENS, "turn", "turn", "turn", "turn", "turn", "turn", "value"),
}
# The word that introduces the name which another word needs.
NEEDS = {"next": "subscribe", "unsubscribe": "subscribe", "poll": "emit", "cancel": "emit"}
# How long after the last turn of a flow the next one comes.
WAITS = (0, 1, 10, 49, 50, 100, 101, -1)
NAMES = ("f", "prices", "s2", "_", "0")
MOST_STEPS = 30
TESTS = [{"by": "even"}, {"by": "odd"}, *({"by": by, "k": k} for by in ("lt", "gt", "ne") for k in (0, 1, 2, LEAST, MOST))]
RESULTS = [{"by": by, "k": k} for by in ("add", "mul") for k in (0, 1, 2, -1, LEAST, MOST)]
COUNTS = (0, 1, 2, 3, 1_000)


def ops_of(version):
    """The operators of a version, except `zip`."""
    ops = [{"op": "map", **result} for result in RESULTS]
    ops += [{"op": op, **test} for op in ("filter", "take_while") for test in TESTS]
    ops += [{"op": "transform", "add": add} for add in ([], [1], [0, 2, MOST])]
    ops += [{"op": op, "n": n} for op in ("take", "drop") for n in COUNTS]
    ops += [{"op": "scan", "from": start, "by": by} for start in (0, 3, MOST) for by in ("add", "mul")]
    ops += [{"op": "flat_map", "to": to, "n": n} for to in ("range", "repeat") for n in COUNTS]
    ops += [{"op": "distinct"}] * 4
    if version == 2:
        ops += [{"op": "drop_while", **test} for test in TESTS]
        ops += [{"op": "running_reduce", "by": by} for by in ("add", "mul", "add", "mul")]
    return ops


def chain_of(source, ops, others):
    """The chain of a source and operators. Each `zip` takes the next of the other chains, which are sources and operators, too."""
    built = []
    for op in ops:
        if op["op"] == "zip":
            op = {**op, "with": chain_of(*others[0], others[1:]) if others else {"from": {"of": [1, 2, 3]}, "ops": []}}
            others = others[1:]
        built.append(op)
    return {"from": source, "ops": built}


def lists(entries):
    """Short lists, with each of the first entries in each place."""
    return [list(items) for length in range(4) for items in itertools.product(entries, repeat=length)]


def chains(version):
    sources = [{"of": items} for items in lists(VALUES[:4]) + [[MOST, 1], [1, MOST, 2], [LEAST, -1], [3, 3, 7, 7, 3, 0, 1]]]
    sources += [{"range": bounds} for bounds in ([1, 5], [0, 0], [-2, 3], [3, 1], [MOST - 2, MOST], [LEAST, LEAST + 1])] * 4
    sources += [{"script": items} for items in lists((1, 2, "pending", {"fault": 7}))]
    zips = [{"op": "zip", "by": by} for by in ("add", "mul", "left", "right")] * 3
    parts = st.sampled_from(sources), st.lists(st.sampled_from(ops_of(version) + zips), max_size=6)
    return st.builds(chain_of, *parts, st.lists(st.tuples(*parts), max_size=2))


def started(version):
    """When a shared chain runs."""
    ends = [{"stop": stop} for stop in (0, 50, 100, 2**64 - 1)]
    if version == 2:
        ends += [{"stop": stop, "expire": expire} for stop in (0, 50) for expire in (0, 1, 50, 2**64 - 1)]
    return ["eagerly", "eagerly", "lazily", "lazily", *ends]


def flows(version):
    """Flows of each kind, some of which are refused."""
    shared = [
        {"kind": "shared", "replay": replay, "extra": extra, "overflow": overflow, **limit}
        for (replay, extra), overflow, limit in itertools.product(ROOMS, OVERFLOWS, LIMITS)
    ]
    states = [{"kind": "state", "initial": value, **limit} for value, limit in itertools.product(VALUES, LIMITS)]
    heads = list(itertools.product(started(version), LIMITS))
    shares = st.builds(
        lambda chain, head, replay: {"kind": "share", "chain": chain, "started": head[0], "replay": replay, **head[1]},
        chains(version), st.sampled_from(heads), st.sampled_from((0, 1, 3, 65_537)),
    )  # fmt: skip
    states_in = st.builds(
        lambda chain, head, value: {"kind": "state_in", "chain": chain, "started": head[0], "initial": value, **head[1]},
        chains(version), st.sampled_from(heads), st.sampled_from(VALUES),
    )  # fmt: skip
    return st.one_of(st.sampled_from(shared), st.sampled_from(states), shares, states_in)


class Writer:
    """Writes the steps of a script on these flows. In version 1 the name of the flow is left out."""

    def __init__(self, version, flows):
        self.version, self.flows, self.steps, self.introduced = version, flows, [], 0
        # For each flow the names that subscribe and emit introduced, and the moment of the last turn.
        self.names = {name: {"subscribe": [], "emit": []} for name in flows}
        self.moments = dict.fromkeys(flows, 0)

    def add(self, word, flow, **arguments):
        place = {"flow": flow} if self.version == 2 else {}
        self.steps.append({"do": word, **place, **arguments})

    def introduce(self, word, flow, values):
        self.introduced += 1
        name = f"{word[0]}{self.introduced}"
        first = {"first": values} if self.flows[flow]["kind"] == "shared" and self.version == 2 and values[0] == 1 else {}
        self.add(word, flow, name=name, **({"value": values[0]} if word == "emit" else first))
        self.names[flow][word].append(name)

    def write(self, flow, choice, values):
        """Writes the step that a choice stands for."""
        words = STEPS[self.flows[flow]["kind"]]
        word = words[choice % len(words)]
        known = self.names[flow].get(NEEDS.get(word))
        if known == [] or word in ("subscribe", "emit"):
            self.introduce(NEEDS.get(word, word), flow, values)
        elif known:
            self.add(word, flow, name=known[choice // len(words) % len(known)])
        elif word in ("try_emit", "set"):
            self.add(word, flow, value=values[0])
        elif word == "compare_and_set":
            self.add(word, flow, expect=values[0], update=values[1])
        elif word == "turn":
            self.moments[flow] = max(0, self.moments[flow] + WAITS[choice // len(words) % len(WAITS)])
            self.add(word, flow, at=self.moments[flow])
        else:
            self.add(word, flow)

    def spoil(self, how, place):
        """Spoils a step."""
        step = self.steps[place % len(self.steps)]
        step.update(SPOILED[how])


# Ways to spoil a step, by what is put into it. A name that is new is unknown, or is introduced; one that is known is taken. A chain of
# 64 operators is too deep.
DEEP = {"from": {"of": [1]}, "ops": [{"op": "distinct"}] * 64}
SPOILED = {
    "a_name": {"name": "b"},
    "a_subscriber": {"name": "s1"},
    "an_emission": {"name": "e1"},
    "a_key": {"at": 1},
    "a_word": {"do": "reset"},
    "another_word": {"do": "fly"},
    "a_flow": {"flow": "z"},
    "a_chain": {"chain": DEEP},
}
NO_FLOWS = "no_flows"
SPOILS = [None] * 24 + [NO_FLOWS, NO_FLOWS, *SPOILED]


def written(version, flows, chains, choices, spoil, place):
    """The script of these flows and choices. A choice is a number, a flow and two values. One in 17 collects a chain, and so does each
    if there is no flow; the number 0 stands for no step."""
    flows = {} if spoil == NO_FLOWS else flows
    writer, names = Writer(version, flows), list(flows)
    for number, (flow, *values) in choices:
        if number % 17 == 16 or number and not names:
            writer.steps.append({"do": "collect", "chain": chains[number % len(chains)]})
        elif number:
            writer.write(names[flow % len(names)], number, values)
    if spoil in SPOILED and writer.steps:
        writer.spoil(spoil, place)
    head = {"flows": flows} if version == 2 else {"flow": flows.get("f", {"kind": "none"})}
    return {"version": version, **head, "steps": writer.steps}


def scripts(version):
    """Scripts of a version."""
    names = st.sampled_from(NAMES) if version == 2 else st.just("f")
    choice = st.tuples(st.integers(0, 999), st.sampled_from(list(itertools.product(range(4), VALUES, VALUES[:4]))))
    return st.builds(
        written,
        st.just(version),
        st.dictionaries(names, flows(version), min_size=1, max_size=4 if version == 2 else 1),
        st.lists(chains(version), min_size=1, max_size=3),
        st.lists(choice, min_size=MOST_STEPS // 3, max_size=MOST_STEPS),
        st.sampled_from(SPOILS),
        st.integers(0, MOST_STEPS),
    )
