"""Sessions of one user that go on side by side: what waits for a session that was started, and what does not."""
from dataclasses import dataclass
from typing import Iterator, Tuple

from dialogue_tables.worked import LOAD_B
from dialogue_tables.dialogues import LOAD, Dialogue, Ending
from schedule_tables.runs import MIX
from shared.loads import CHAIN
from shared.program import Quota

# Two atoms after two steps, and what is saved at the start.
BEGIN = LOAD + LOAD_B + "BRANCH a k\nSTART a 2\nSTART b 1\n"
BEGUN = "OK LOAD a 0 2\nOK LOAD b 0 2\nOK BRANCH a k 0\nOK START a 2\nOK START b 1\n"
DUMPED = "OK DUMP a 2 4\n2\nstep 2\nAr 0.000105 0.000000 0.000000\nAr 1.499894 0.000000 0.000000"

# The most sessions that a user may have.
MANY: Quota = (64, 65_536, 256)

# One atom that goes on by five units in each step, and has no task.
ALONE = "LOAD {} 256 1 1 pair 44\n1\np\nH -0.0000003 0 0\n1\nc\nH -0.000000001 0 0\n"


@dataclass(frozen=True)
class Row:
    """An item of a user of whom two sessions were started; its reply, and what LIST then says of the first session."""

    item: str
    reply: str
    listed: str = "a 2 2 1\n"


# Each of these waits, also where it is refused.
WAITING = (
    Row("SHOW a 0", "OK SHOW a 2 0 1774 0 0"),
    Row("MEASURE a", "OK MEASURE a 2 2 0 0 0 2808450 -5399727"),
    Row("DUMP a", DUMPED),
    Row("REVERSE a", "OK REVERSE a 1", "a 1 2 1\n"),
    Row("BRANCH a m", "OK BRANCH a m 2", "a 2 2 2\n"),
    Row("RESTORE a k", "OK RESTORE a k 0", "a 0 2 1\n"),
    Row("TUG a 0 5 0 0", "OK TUG a 0 2"),
    Row("ADVANCE a 0", "OK ADVANCE a 2"),
    Row("ADVANCE a 1", "OK ADVANCE a 3", "a 3 2 1\n"),
    Row("DROP a", "OK DROP a", ""),
    Row("SHOW a 2", "ERR 14 NO_ATOM"),
    Row("TUG a 2 1 1 1", "ERR 14 NO_ATOM"),
    Row("BRANCH a k", "ERR 13 BRANCH_EXISTS"),
    Row("RESTORE a m", "ERR 12 NO_BRANCH"),
    Row("ADVANCE a 1000001", "ERR 23 STEP_RANGE"),
)

# None of these does.
AT_ONCE = (
    Row("START a 0", "OK START a 2"),
    Row("START a 0000000000000000001", "OK START a 3", "a 3 2 1\n"),
    Row("START a 1000001", "ERR 23 STEP_RANGE"),
    Row("START a 9999999999999999999", "ERR 23 STEP_RANGE"),
    Row("START z 9999999999999999999", "ERR 10 NO_SESSION"),
    Row("LIST a", "OK LIST a 1\nk 0"),
    Row("FORGET a k", "OK FORGET a k", "a 2 2 0\n"),
    Row("FORGET a m", "ERR 12 NO_BRANCH"),
    Row("LOAD a x x x rest 0", "ERR 11 EXISTS"),
)


def of_row(row: Row) -> Dialogue:
    """The item, then the list and a look at the other session, and at last the list once more."""
    sessions = row.listed + "b 1 2 0\n"
    listed = f"OK LIST {sessions.count(chr(10))}\n{sessions}"
    stream = ((BEGIN, 1), (f"{row.item}\nLIST\nSHOW b 0\n", 1))
    replies = f"{BEGUN}{row.reply}\n{listed}OK SHOW b 1 0 589 0 0\n"
    return Dialogue(f"{row.item!r} of a session that was started", stream, replies, listed)


def many() -> Dialogue:
    """Each session that a user may have is started, and shown."""
    names = [f"s{number}" for number in range(MANY[0])]
    stream = "".join(LOAD.replace("LOAD a", f"LOAD {name}") for name in names)
    stream += "".join(f"START {name} 1\n" for name in names) + "".join(f"SHOW {name} 0\n" for name in reversed(names))
    replies = "".join(f"OK LOAD {name} 0 2\n" for name in names) + "".join(f"OK START {name} 1\n" for name in names)
    replies += "".join(f"OK SHOW {name} 1 0 589 0 0\n" for name in reversed(names))
    state = f"OK LIST {len(names)}\n" + "".join(f"{name} 1 2 0\n" for name in names)
    return Dialogue("as many sessions as there may be", ((stream, 1),), replies, state, MANY)


def alone(names: Tuple[str, ...]) -> Iterator[str]:
    return map(ALONE.format, names)


DIALOGUES = (
    Dialogue(
        "two sessions go on side by side",
        (
            (LOAD + LOAD_B, 1),
            ("START a 2\nSTART b 1\nSHOW b 0\nSHOW a 0\nSTART a 1\nLIST\nREVERSE a\nSHOW a 0\n", 1),
            ("START z 1\nSTART a 1000001\nSTART a 1\nBRANCH a k\n", 1),
        ),
        "OK LOAD a 0 2\nOK LOAD b 0 2\nOK START a 2\nOK START b 1\nOK SHOW b 1 0 589 0 0\nOK SHOW a 2 0 1774 0 0\n"
        "OK START a 3\nOK LIST 2\na 3 2 0\nb 1 2 0\nOK REVERSE a 2\nOK SHOW a 2 0 1774 0 0\nERR 10 NO_SESSION\n"
        "ERR 23 STEP_RANGE\nOK START a 1\nOK BRANCH a k 1\n",
        "OK LIST 2\na 1 2 1\nb 1 2 0\n",
    ),
    *map(of_row, (*WAITING, *AT_ONCE)),
    # A session may be loaded while another one goes on, and the place of one that is dropped is free then.
    Dialogue(
        "sessions are loaded and dropped beside one that goes on",
        ((LOAD, 1), ("START a 2\n", 1), (LOAD_B + LOAD.replace("LOAD a", "LOAD c"), 1), ("DROP a\nSTART b 1\n", 1), (LOAD, 1)),
        "OK LOAD a 0 2\nOK START a 2\nOK LOAD b 0 2\nERR 20 QUOTA_SESSIONS\nOK DROP a\nOK START b 1\nOK LOAD a 0 2\n",
        "OK LIST 2\nb 1 2 0\na 0 2 0\n",
        quota=(2, 4, 0),
    ),
    Dialogue(
        "a quota that is used up holds up no start",
        ((LOAD, 1), ("START a 1\nBRANCH a k\nSTART a 1\n", 1), (LOAD_B, 1), ("BRANCH a l\nSHOW a 0\n", 1)),
        "OK LOAD a 0 2\nOK START a 1\nOK BRANCH a k 1\nOK START a 2\nERR 20 QUOTA_SESSIONS\nERR 22 QUOTA_BRANCHES\n"
        "OK SHOW a 2 0 1774 0 0\n",
        "OK LIST 1\na 2 2 1\n",
        quota=(1, 2, 1),
    ),
    Dialogue(
        "a session is measured beside one that goes on",
        ((LOAD + LOAD_B, 1), ("START b 2\nMEASURE a\nADVANCE a 1\nMEASURE a\nSHOW b 0\n", 1)),
        "OK LOAD a 0 2\nOK LOAD b 0 2\nOK START b 2\nOK MEASURE a 0 2 0 0 0 0 -5349132\nOK ADVANCE a 1\n"
        "OK MEASURE a 1 2 0 0 0 693842 -5399727\nOK SHOW b 2 0 1774 0 0\n",
        "OK LIST 2\na 1 2 0\nb 2 2 0\n",
    ),
    Dialogue(
        "the way back is gone while the session goes on",
        ((LOAD, 1), ("START a 2\nREVERSE a\nSTART a 1\nSTART a 1\nLIST\nREVERSE a\nSHOW a 0\nSHOW a 1\n", 1)),
        "OK LOAD a 0 2\nOK START a 2\nOK REVERSE a 1\nOK START a 0\nOK START a -1\nOK LIST 1\na -1 2 0\nOK REVERSE a 0\n"
        "OK SHOW a 0 0 0 0 0\nOK SHOW a 0 1 25165824 0 0\n",
        "OK LIST 1\na 0 2 0\n",
    ),
    Dialogue(
        "a mixture goes on as atoms of one species do",
        (
            ("LOADMIX m 256 Na Cl 1 131072 256 1 262144 512 1 131072 256 rest 26\n" + MIX, 1),
            ("START m 1\nLIST\nSHOW m 1\n", 1),
        ),
        "OK LOADMIX m 0 2\nOK START m 1\nOK LIST 1\nm 1 2 0\nOK SHOW m 1 1 25164646 0 0\n",
        "OK LIST 1\nm 1 2 0\n",
    ),
    many(),
    # Three million steps would take longer than there is time.
    Dialogue(
        "a start and what waits for nothing are answered at once",
        ((LOAD, 1), ("START a 1000000\n", 3), ("LIST\nLIST a\nBYE\n", 1)),
        "OK LOAD a 0 2\nOK START a 1000000\nOK START a 2000000\nOK START a 3000000\nOK LIST 1\na 3000000 2 0\nOK LIST a 0\n" "OK BYE\n",
        "OK LIST 1\na 3000000 2 0\n",
        ending=Ending.BYE,
    ),
    # 65 atoms have two tasks in a step; an atom alone has none, and goes by five units.
    Dialogue(
        "single atoms that have far to go hold up no other session",
        (
            ("".join(alone(("x", "y"))), 1),
            ("LOAD c 256 1 131072 rest 651\n" + CHAIN, 1),
            ("START x 1000000\nSTART y 1000000\nSTART c 1\nSHOW c 0\nSHOW c 64\nSHOW x 0\nSHOW y 0\n", 1),
        ),
        "OK LOAD x 0 1\nOK LOAD y 0 1\nOK LOAD c 0 65\nOK START x 1000000\nOK START y 1000000\nOK START c 1\n"
        "OK SHOW c 1 0 589 0 0\nOK SHOW c 1 64 1610612147 0 0\n"
        "OK SHOW x 1000000 0 4999999 0 0\nOK SHOW y 1000000 0 4999999 0 0\n",
        "OK LIST 3\nx 1000000 1 0\ny 1000000 1 0\nc 1 65 0\n",
        sizes=(None,),
    ),
)
