"""Finds the fastest way to play, to draw and to judge that this machine has.

It is the program that `rt ci` or `rt run` proved last; else wumsnair.mjs, which has the same code as a module, if there is Node; else a
program that is built without a proof, for records hundreds of times slower than both."""
import functools
import re
import shutil
import sys

from wumsnair_tools import launch
from wumsnair_tools.built import top

sys.path.insert(0, str(top / "page" / "make"))
from bundle_command import sum_of_sources

KEPT = top / "page" / "wumsnair.mjs"
# The commands of wumsnair.mjs for what the programs do.
COMMANDS = {"flow_judge": "judge", "flow_play": "play", "flow_draw": "draw"}
# The number of bytes of a record from which on the slowest way is worth a word.
LARGE = 50_000
SLOW = """this program was built without a proof, and is hundreds of times slower than the proved one, which `rt run` in
crates/flow_judge makes, and than wumsnair.mjs, which needs Node 18"""
# What ./judge says of each way that is not the proved program.
BY_NODE = "wumsnair.mjs judges: no proved program is as new as the code"
BY_UNPROVED = "a program without a proof judges: no proved one is as new as the code"
OTHER_CODE = "wumsnair.mjs was built from other code than crates/ has; page/build makes it anew"


@functools.cache
def is_kept_current():
    """Whether wumsnair.mjs was made from the code as it is."""
    found = re.search(r'^const SOURCES = "(\w+)";$', KEPT.read_text(), re.M)
    return bool(found) and found[1] == sum_of_sources()


def is_node(words):
    return len(words) > 1 and words[1] == str(KEPT)


def is_slow(words):
    return str(words[0]).endswith(".unproved")


def present(name, may_be_node=True, tells_way=False):
    """The words that begin a call of a program, by the fastest way that needs no build; None if there is none. If it is not the proved
    program, it can be told."""
    found = launch.fresh_program(name)
    if found is not None and not is_slow([found]):
        return [found]
    node = shutil.which("node") if may_be_node and KEPT.exists() else None
    if node and (is_kept_current() or found is None and not shutil.which("rt")):
        if tells_way or not is_kept_current():
            launch.say(BY_NODE if is_kept_current() else OTHER_CODE)
        return [node, str(KEPT), COMMANDS[name]]
    if found is not None and tells_way:
        launch.say(BY_UNPROVED)
    return found and [found]


def command(name, may_be_node=True, tells_way=False):
    """The words that begin a call of a program, which is built if there is no other way. If it is not the proved one, it can be told."""
    return present(name, may_be_node, tells_way) or [launch.program(name)]
