"""Refusals, each of which leaves the user as it was."""
from dialogue_tables.dialogues import LOAD, Dialogue
from shared.program import Quota

# A user whose sessions and saved simulations fill the quota, and which has room for one atom more.
FULL: Quota = (2, 5, 1)

# The same, and room for a session more.
ROOM: Quota = (3, 5, 2)

BEGIN = LOAD + LOAD.replace("LOAD a", "LOAD b") + "ADVANCE a 1\nBRANCH a k\n"

BEGUN = "OK LOAD a 0 2\nOK LOAD b 0 2\nOK ADVANCE a 1\nOK BRANCH a k 1\n"

LOOK = "LIST\nLIST a\nLIST b\nSHOW a 0\nSHOW b 1\nMEASURE a\n"

SEEN = (
    "OK LIST 2\n"
    "a 1 2 1\n"
    "b 0 2 0\n"
    "OK LIST a 1\n"
    "k 1\n"
    "OK LIST b 0\n"
    "OK SHOW a 1 0 589 0 0\n"
    "OK SHOW b 0 1 25165824 0 0\n"
    "OK MEASURE a 1 2 0 0 0 693842 -5399727\n"
)

# Items, and their refusals where the quota is full.
WHERE_FULL = (
    ("LOAD c x x x rest 0\n", "ERR 20 QUOTA_SESSIONS\n"),
    ("LOADMIX c x X Y x x x x x x x x x rest 0\n", "ERR 20 QUOTA_SESSIONS\n"),
    ("BRANCH a m\n", "ERR 22 QUOTA_BRANCHES\n"),
    ("BRANCH a k\n", "ERR 13 BRANCH_EXISTS\n"),
)

# Items, and their refusals where it has room.
WHERE_ROOM = (
    ("\n", "ERR 03 SYNTAX\n"),
    ("REVERSE\n", "ERR 03 SYNTAX\n"),
    ("ADVANCE a 1 1\n", "ERR 03 SYNTAX\n"),
    ("TUG a 0 2147483648 0 0\n", "ERR 03 SYNTAX\n"),
    ("LOAD c! 256 1 1 rest 3\nBYE", "ERR 03 SYNTAX\n"),
    ("drop a\n", "ERR 06 COMMAND\n"),
    ("HELLO a b\n", "ERR 06 COMMAND\n"),
    ("STARTS a 1\n", "ERR 06 COMMAND\n"),
    ("START a\n", "ERR 03 SYNTAX\n"),
    ("START a 1 1\n", "ERR 03 SYNTAX\n"),
    ("START a! 1\n", "ERR 03 SYNTAX\n"),
    ("START a -1\n", "ERR 03 SYNTAX\n"),
    ("START z 1\n", "ERR 10 NO_SESSION\n"),
    ("START a 1000001\n", "ERR 23 STEP_RANGE\n"),
    ("ADVANCE z 1\n", "ERR 10 NO_SESSION\n"),
    ("REVERSE z\n", "ERR 10 NO_SESSION\n"),
    ("BRANCH z k\n", "ERR 10 NO_SESSION\n"),
    ("RESTORE z k\n", "ERR 10 NO_SESSION\n"),
    ("FORGET z k\n", "ERR 10 NO_SESSION\n"),
    ("TUG z 0 1 1 1\n", "ERR 10 NO_SESSION\n"),
    ("MEASURE z\nDUMP z\n", "ERR 10 NO_SESSION\nERR 10 NO_SESSION\n"),
    ("LIST z\nDROP z\n", "ERR 10 NO_SESSION\nERR 10 NO_SESSION\n"),
    ("LOAD a x x x rest 0\n", "ERR 11 EXISTS\n"),
    ("RESTORE a m\n", "ERR 12 NO_BRANCH\n"),
    ("FORGET b k\n", "ERR 12 NO_BRANCH\n"),
    ("SHOW a 2\n", "ERR 14 NO_ATOM\n"),
    ("TUG a 2 1 1 1\n", "ERR 14 NO_ATOM\n"),
    ("ADVANCE a 1000001\n", "ERR 23 STEP_RANGE\n"),
    ("LOAD c 256 1 1 rest 20\n2\nc\nX 0 0 0\nX 1 0 0\n", "ERR 21 QUOTA_ATOMS\n"),
    ("LOAD c 0 x x rest 0\n", "ERR 36 EDGE\n"),
    ("LOAD c 256 x x rest 0\n", "ERR 37 SIGMA\n"),
    ("LOAD c 256 1 0 rest 0\n", "ERR 38 STEP_FACTOR\n"),
    ("LOAD c 256 1 1 rest 0\n", "ERR 30 XYZ_COUNT line 1\n"),
    ("LOAD c 256 1 1 rest 4\n1\nc\n", "ERR 31 XYZ_SHORT line 3\n"),
    ("LOAD c 256 1 1 pair 12\n1\nc\nX 0 0 0\n", "ERR 35 XYZ_PAIR line 4\n"),
    ("LOADMIX c 3\nBYE", "ERR 03 SYNTAX\n"),
    ("LOADMIX c 256 X X 1 1 1 1 1 1 1 1 1 rest 0\n", "ERR 03 SYNTAX\n"),
    ("LOADMIX a x X Y x x x x x x x x x rest 0\n", "ERR 11 EXISTS\n"),
    ("LOADMIX c x X Y x x x x x x x x x rest 0\n", "ERR 36 EDGE\n"),
    ("LOADMIX c 256 X Y 1 1 1 1 1 1 1 x x rest 0\n", "ERR 38 STEP_FACTOR\n"),
    ("LOADMIX c 256 X Y 1 1 1 1 1 1 1 1 0 rest 0\n", "ERR 40 WEIGHT\n"),
    ("LOADMIX c 256 X Y 1 1 1 1 1 1 1 1 1 rest 20\n2\nc\nX 0 0 0\nZ 1 0 0\n", "ERR 39 XYZ_SPECIES line 4\n"),
    ("LOADMIX c 256 X Y 1 1 1 1 1 1 1 1 1 rest 20\n2\nc\nX 0 0 0\nY 1 0 0\n", "ERR 21 QUOTA_ATOMS\n"),
)


def refused(quota: Quota, item: str, refusal: str) -> Dialogue:
    """An item that is refused so to a user of this quota, and leaves the user as it was."""
    stream = ((BEGIN, 1), (item, 1), (LOOK, 1))
    name = f"{item!r} is refused with a quota of {quota[0]} sessions"
    return Dialogue(name, stream, BEGUN + refusal + SEEN, "OK LIST 2\na 1 2 1\nb 0 2 0\n", quota)


DIALOGUES = (
    *(refused(ROOM, item, refusal) for item, refusal in WHERE_ROOM),
    *(refused(FULL, item, refusal) for item, refusal in WHERE_FULL),
)
