"""docs/pictures: each script of examples/ as it is drawn, and the picture of docs/RECORDS.md.

The programs are those that `rt ci` or `rt run` built last; if one is older than the code, `rt run` proves and builds it first. A picture
has the lines that are beside its script. A script that is refused has no picture: the program prints those lines."""
import subprocess
import sys

from wumsnair_tools.built import programs, top
from wumsnair_tools.titles import titled

PICTURES = top / "docs" / "pictures"
REFUSED = 2
# The picture of docs/RECORDS.md, and its record.
RECORD = top / "examples" / "records" / "illegal_state_torn_exchange.json"
OF_RECORD = PICTURES / "torn_exchange.svg"


def drawn(program, text, *words):
    """The status of a program, and what it prints."""
    ran = subprocess.run([program, *words], input=text, capture_output=True)
    return ran.returncode, ran.stdout


def picture_of(program, script):
    """The picture of a script, or None if it is refused. Exits if its lines are others than those beside it."""
    lines = script.with_suffix(".lines").read_bytes()
    status, printed = drawn(program, script.read_bytes())
    if status == REFUSED and printed == lines:
        return None
    if status != 0 or lines not in b"".join(line.split(b": ", 1)[-1] for line in printed.splitlines(True)):
        sys.exit(f"{script.name}: the program draws other lines than {script.stem}.lines has")
    return titled(printed, script)


def files():
    program = programs("flow_draw")[0]
    found = {PICTURES / f"{script.stem}.svg": picture_of(program, script) for script in sorted((top / "examples").glob("*.json"))}
    found[OF_RECORD] = drawn(programs("flow_judge")[0], RECORD.read_bytes(), "--draw")[1]
    return {file: picture for file, picture in found.items() if picture is not None}
