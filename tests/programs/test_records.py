"""The verdicts and pictures of the records of examples/records, the verdicts on the records of worked_records.py, and those on calls of
threads to this library's flows.

The verdict is the first word of the record's name. For an illegal or refused record the file .told beside it has what must be printed,
typed by hand. A picture must mark the calls that the verdict lists. docs/pictures has one picture, which `tools/made --write pictures`
draws. What flow_stress records of threads must be legal: no proof says that calls which do not overlap keep their order."""
import pytest

from wumsnair_tools.built import top
from hostile_records import whole
from record_pictures import bars_of, marked_in_text, words_of
from running import Outcome, case_id, expect, program, records, run
from worked_records import made, worked_records

RECORDS, WORKED = records(), worked_records()
# The picture of docs/RECORDS.md.
TORN = RECORDS["illegal_state_torn_exchange"]
PICTURE = top / "docs" / "pictures" / "torn_exchange.svg"

# Pictures as text, typed by hand. Each column is a moment at which a call began or ended.
DRAWN = {
    "illegal_state_goes_back": """illegal
|---------> ! 1  t1 set 3: done  [10, 30]
  |-|       ! 2  t2 value: 3  [12, 14]
      |-|   ! 3  t2 value: 0  [15, 17]
""",
    "illegal_state_stale_among_looks": """illegal
|-|               ! 1  t1 set 3: done  [10, 20]
    |---------|   ! 2  t2 value: 0  [21, 30]
      |-|           3  t3 value: 3  [22, 23]
          |-|       4  t3 subscription_count: 0  [24, 25]
""",
    "legal_shared_emit_never_returned": """legal
|-|           1  reader subscribe: done  [0, 1]
      |-|     3  reader next: empty  [4, 5]
    |----->   2  t1 emit 3 (pending)  [2, ..]
""",
}
STATUS = {"legal": 0, "illegal": 1, "refused": 2}
# The flows that flow_stress records, and the number of records of each.
KINDS = ("word", "state", "shared", "dropping", "rendezvous", "word-flow")
SEEDS = range(10)


def verdict_of(name):
    return name.partition("_")[0]


def wanted_of(name):
    """The outcome that is wanted for a record."""
    verdict = verdict_of(name)
    told = b"legal\n" if verdict == "legal" else RECORDS[name].with_suffix(".told").read_bytes()
    return Outcome(STATUS[verdict], told)


@pytest.mark.parametrize("what", WORKED, ids=case_id)
def test_worked_record(flow_judge, what):
    """An illegal record also has the first moment at which no order explains its calls."""
    record, moment = WORKED[what]
    came = run(flow_judge, text=record)
    verdict = "legal" if moment is None else "illegal"
    told = came.printed.decode().splitlines()[:2]
    wanted = [verdict] if moment is None else [verdict, f"by moment {moment} no order explains the calls"]
    assert (came.status, [line.partition(";")[0] for line in told]) == (STATUS[verdict], wanted)


# When a caller's first call ended, when its second one began and ended, and the key of the second call that is refused.
OF_ONE_CALLER = [(2, 1, 3, "begin"), (2, 5, 4, "end"), (2, 2, 3, None)]


@pytest.mark.parametrize("first_end, begin, end, key", OF_ONE_CALLER)
def test_calls_of_one_caller(flow_judge, first_end, begin, end, key):
    """A record is refused if the calls of one caller overlap, or if a call ends before it begins."""
    second = made("t1", "set", begin, end, value=2)
    came = run(flow_judge, text=whole(made("t1", "set", 0, first_end, value=1), second))
    told = came.printed.decode()
    if key is None:
        assert (came.status, told) == (STATUS["legal"], "legal\n")
    else:
        assert came.status == STATUS["refused"] and f'call 2: {second[key]} is no value of "{key}"' in told


def refused_ones(are_refused):
    return [name for name in RECORDS if (verdict_of(name) == "refused") == are_refused]


@pytest.mark.parametrize("name", RECORDS)
def test_verdict(flow_judge, name):
    expect(run(flow_judge, text=RECORDS[name].read_bytes()), wanted_of(name))


@pytest.mark.parametrize("words", [["--draw"], ["--draw", "--text"]], ids=["svg", "text"])
@pytest.mark.parametrize("name", refused_ones(True))
def test_refused_picture(flow_judge, name, words):
    expect(run(flow_judge, *words, text=RECORDS[name].read_bytes()), wanted_of(name))


@pytest.mark.parametrize("name", refused_ones(False))
def test_picture(flow_judge, name):
    record, wanted = RECORDS[name].read_bytes(), wanted_of(name)
    text, svg = run(flow_judge, "--draw", "--text", text=record), run(flow_judge, "--draw", text=record)
    assert (text.status, svg.status) == (wanted.status, wanted.status)
    drawn, told = (outcome.printed.decode().splitlines() for outcome in (text, wanted))
    listed = told[2:]
    assert drawn[0] == told[0]
    assert marked_in_text(drawn) == listed
    bars, marked = bars_of(svg.printed.decode())
    assert marked == [words_of(line) for line in listed]
    assert len(bars) == len(drawn) - 1


@pytest.mark.parametrize("name", DRAWN)
def test_picture_typed_by_hand(flow_judge, name):
    wanted = Outcome(STATUS[verdict_of(name)], DRAWN[name].encode())
    expect(run(flow_judge, "--draw", "--text", text=RECORDS[name].read_bytes()), wanted)


def test_picture_of_the_page(flow_judge):
    assert run(flow_judge, "--draw", text=TORN.read_bytes()).printed == PICTURE.read_bytes()


@pytest.mark.parametrize("kind", KINDS)
def test_calls_of_threads(flow_stress, kind, tmp_path):
    """What threads record is legal. The search may give up on one record in ten, if a thread was interrupted for long."""
    judge, told = program("flow_judge"), {}
    for seed in SEEDS:
        recorded = run(flow_stress, "--record", kind, str(seed), "4", "50")
        assert recorded.status == 0
        kept = tmp_path / f"{kind}_{seed}.jsonl"
        kept.write_bytes(recorded.printed)
        told[kept] = run(judge, text=recorded.printed).printed.decode()
    assert {kept: verdict for kept, verdict in told.items() if verdict not in ("legal\n", "gave up\n")} == {}
    assert list(told.values()).count("gave up\n") <= len(SEEDS) // 10
