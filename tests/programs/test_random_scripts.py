"""Each player prints the same lines for random scripts as flow_play by LLVM, and ends with the same status.

`tools/programs -k random_scripts --hypothesis-profile=search` tries other and more scripts."""
import json
import re

import pytest
from hypothesis import given

from running import difference, program, run, tries
from scripts_strategy import OVERFLOWS, STEPS, scripts

# The other players, each with its arguments.
PLAYERS = {"by_rattle": ("flow_play.by-rattle",)}
# How often a test tries the number of examples of the profile.
TIMES = 40
# What the scripts of each version must have, and lines that they must print, with # for each number.
WORDS = {
    1: {
        *("shared", "state", "share", "state_in", "none", "limit", *OVERFLOWS, "eagerly", "lazily", "stop", "collect"),
        *(word for words in STEPS.values() for word in words),
        *("of", "range", "script", "pending", "fault", "map", "filter", "take_while", "transform", "take", "drop", "scan", "flat_map"),
        *("zip", "distinct", "add", "mul", "left", "right", "even", "odd", "lt", "gt", "ne", "repeat"),
    }
}
WORDS[2] = WORDS[1] - {"none"} | {"expire", "first", "drop_while", "running_reduce"}
LINES = {
    1: {
        *("true", "false", "done", "queued", "waiting", "subscribed", "value #", "empty", "gone", "reset", "set", "#", "[]", "[#]", "[#, #]"),
        *("refused # Exhausted", "refused # Unsupported", "refused # TooLarge", "refused # NeedsBuffer", "refused # NotPositive"),
        *("refused # Chain # NotPositive", "refused # Flow # TooLarge", "refused # Backwards #", "refused # Chain # Source #"),
        *("refused # Ended", "refused # Flow # Exhausted", "[] completed", "[#] completed", "[] failed # Overflow", "[#] failed # Source #"),
        *("start put", "start pending", "start completed", "stop idle", "keep put", "keep idle"),
        *("script refused # BadShape at step #", "script refused # UnknownName at step #", "script refused # DuplicateName at step #"),
    }
}
LINES[2] = LINES[1] | {"stop_and_reset idle", "no flow"}


def words_of(part):
    """The keys and the strings of a part of a script."""
    if isinstance(part, dict):
        return set(part).union(*map(words_of, part.values()))
    if isinstance(part, list):
        return set().union(*map(words_of, part))
    return {part} if isinstance(part, str) else set()


@pytest.mark.parametrize("version", WORDS)
@pytest.mark.parametrize("player", PLAYERS)
def test_random_scripts(player, version, request):
    first, (name, *arguments) = program("flow_play"), PLAYERS[player]
    other = program(name)
    words, lines = set(), set()

    @tries(TIMES, request.node.nodeid)
    @given(scripts(version))
    def play(script):
        text = json.dumps(script).encode()
        wanted, came = run(first, text=text), run(other, *arguments, text=text)
        words.update(words_of(script))
        lines.update(re.sub(r"-?\d+", "#", wanted.printed.decode()).splitlines())
        assert came == wanted, f"{text.decode()}\n{difference(came, wanted)}"

    play()
    assert WORDS[version] - words == set()
    assert {line for line in LINES[version] if line not in lines and f"f {line}" not in lines} == set()
