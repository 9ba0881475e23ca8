"""Worked dialogues: motion and measures, saved simulations, quotas, and how a connection ends."""
from dialogue_tables.dialogues import LOAD, Dialogue, Ending
from shared.program import Quota

ONE_BRANCH: Quota = (8, 16384, 1)
ONE_SESSION: Quota = (1, 16384, 16)
NOTHING: Quota = (0, 0, 0)

LOAD_B = LOAD.replace("LOAD a", "LOAD b")

MOTION_AND_WHAT_IS_SAVED = (
    Dialogue(
        "two atoms are measured and walked back",
        (
            (LOAD, 1),
            ("ADVANCE a 1\nSHOW a 0\nSHOW a 1\n", 2),
            ("MEASURE a\nDUMP a\nREVERSE a\nSHOW a 0\n", 1),
            ("ADVANCE a 1\nSHOW a 0\n", 2),
            ("REVERSE a\nSHOW a 1\n", 1),
        ),
        "OK LOAD a 0 2\n"
        "OK ADVANCE a 1\nOK SHOW a 1 0 589 0 0\nOK SHOW a 1 1 25165235 0 0\n"
        "OK ADVANCE a 2\nOK SHOW a 2 0 1774 0 0\nOK SHOW a 2 1 25164050 0 0\n"
        "OK MEASURE a 2 2 0 0 0 2808450 -5399727\n"
        "OK DUMP a 2 4\n2\nstep 2\nAr 0.000105 0.000000 0.000000\nAr 1.499894 0.000000 0.000000\n"
        "OK REVERSE a 1\nOK SHOW a 1 0 589 0 0\nOK ADVANCE a 0\nOK SHOW a 0 0 0 0 0\n"
        "OK ADVANCE a -1\nOK SHOW a -1 0 0 0 0\nOK REVERSE a 0\nOK SHOW a 0 1 25165824 0 0\n",
        "OK LIST 1\na 0 2 0\n",
    ),
    Dialogue(
        "two frames are one step apart",
        (
            ("LOAD b 256 1 1 pair 44\n1\np\nH -0.0000003 0 0\n1\nc\nH -0.000000001 0 0\n", 1),
            ("SHOW b 0\nADVANCE b 1\nSHOW b 0\nMEASURE b\n", 1),
        ),
        "OK LOAD b 0 1\nOK SHOW b 0 0 4294967295 0 0\n" "OK ADVANCE b 1\nOK SHOW b 1 0 4 0 0\nOK MEASURE b 1 1 5 0 0 25 0\n",
        "OK LIST 1\nb 1 1 0\n",
    ),
    Dialogue(
        "atoms at one place stay there",
        (("LOAD c 256 1 131072 rest 20\n2\nz\nX 1 1 1\nX 1 1 1\n", 1), ("ADVANCE c 3\nSHOW c 0\nMEASURE c\n", 1)),
        "OK LOAD c 0 2\nOK ADVANCE c 3\nOK SHOW c 3 0 16777216 16777216 16777216\n" "OK MEASURE c 3 2 0 0 0 0 3574550947\n",
        "OK LIST 1\nc 3 2 0\n",
    ),
    Dialogue(
        "atoms half the box apart do not interact; in a smaller box sigma does not fit",
        (
            ("LOAD d 5 1 131072 rest 22\n2\nh\nX 0 0 0\nX 2.5 0 0\n", 1),
            ("ADVANCE d 1\nSHOW d 1\nMEASURE d\n", 1),
            ("LOAD e 4.99 1 131072 rest 22\n2\nh\nX 0 0 0\nX 2.5 0 0\n", 1),
        ),
        "OK LOAD d 0 2\nOK ADVANCE d 1\nOK SHOW d 1 1 2147483648 0 0\n" "OK MEASURE d 1 2 0 0 0 0 0\nERR 37 SIGMA\n",
        "OK LIST 1\nd 1 2 0\n",
    ),
    Dialogue(
        "a branch is gone back to, and stays",
        (
            (LOAD, 1),
            ("ADVANCE a 1\nBRANCH a k\nMEASURE a\nTUG a 0 5 0 0\n", 1),
            ("ADVANCE a 1\nSHOW a 0\nRESTORE a k\nMEASURE a\n", 1),
            ("BRANCH a m\nBRANCH a k\nRESTORE a k\nADVANCE a 0\n", 1),
            ("LIST a\nFORGET a k\nRESTORE a k\nBRANCH a m\n", 1),
        ),
        "OK LOAD a 0 2\nOK ADVANCE a 1\nOK BRANCH a k 1\n"
        "OK MEASURE a 1 2 0 0 0 693842 -5399727\nOK TUG a 0 1\n"
        "OK ADVANCE a 2\nOK SHOW a 2 0 1779 0 0\nOK RESTORE a k 1\n"
        "OK MEASURE a 1 2 0 0 0 693842 -5399727\n"
        "ERR 22 QUOTA_BRANCHES\nERR 13 BRANCH_EXISTS\nOK RESTORE a k 1\nOK ADVANCE a 1\n"
        "OK LIST a 1\nk 1\nOK FORGET a k\nERR 12 NO_BRANCH\nOK BRANCH a m 1\n",
        "OK LIST 1\na 1 2 1\n",
        quota=ONE_BRANCH,
    ),
    Dialogue(
        "names and numbers at their limits",
        (
            ("LOAD ABCDEFGHIJKLMNOP 256 1 1 rest 0000012\n1\nc\nX 0 0 0\n", 1),
            ("TUG ABCDEFGHIJKLMNOP 0 -2147483648 2147483647 -0\n", 1),
            ("TUG ABCDEFGHIJKLMNOP 000 2147483647 -2147483647 -0000000000000000000\n", 1),
            ("SHOW ABCDEFGHIJKLMNOP 0000000000000000001\n", 1),
            ("ADVANCE ABCDEFGHIJKLMNOP 9999999999999999999\n", 1),
            ("ADVANCE ABCDEFGHIJKLMNOP 1\nSHOW ABCDEFGHIJKLMNOP 0\n", 1),
        ),
        "OK LOAD ABCDEFGHIJKLMNOP 0 1\n"
        "OK TUG ABCDEFGHIJKLMNOP 0 0\nOK TUG ABCDEFGHIJKLMNOP 0 0\n"
        "ERR 14 NO_ATOM\nERR 23 STEP_RANGE\n"
        "OK ADVANCE ABCDEFGHIJKLMNOP 1\nOK SHOW ABCDEFGHIJKLMNOP 1 0 4294967295 0 0\n",
        "OK LIST 1\nABCDEFGHIJKLMNOP 1 1 0\n",
    ),
)

QUOTAS_AND_ENDS = (
    Dialogue(
        "a quota of one session",
        ((LOAD, 1), (LOAD_B, 1), (LOAD, 1), ("DROP a\n", 1), (LOAD_B, 1), ("LIST\n", 1)),
        "OK LOAD a 0 2\nERR 20 QUOTA_SESSIONS\nERR 11 EXISTS\n" "OK DROP a\nOK LOAD b 0 2\nOK LIST 1\nb 0 2 0\n",
        "OK LIST 1\nb 0 2 0\n",
        quota=ONE_SESSION,
    ),
    Dialogue(
        "a quota of nothing refuses the first session",
        (("LOAD c x x x rest 0\nLIST\n", 1),),
        "ERR 20 QUOTA_SESSIONS\nOK LIST 0\n",
        "OK LIST 0\n",
        quota=NOTHING,
    ),
    Dialogue(
        "each fault is answered, until BYE",
        (
            (LOAD, 1),
            ("SHOW a 2\nSHOW z 0\nadvance a 1\nADVANCE a\n", 1),
            ("ADVANCE a 1000001\nRESTORE a q\n\nBYE\nLIST\n", 1),
        ),
        "OK LOAD a 0 2\nERR 14 NO_ATOM\nERR 10 NO_SESSION\nERR 06 COMMAND\nERR 03 SYNTAX\n"
        "ERR 23 STEP_RANGE\nERR 12 NO_BRANCH\nERR 03 SYNTAX\nOK BYE\n",
        "OK LIST 1\na 0 2 0\n",
        ending=Ending.BYE,
    ),
    Dialogue(
        "an unfinished body is not answered",
        (("LIST\nLOAD a 256 1 1 rest 28\n2\ndimer\n", 1),),
        "OK LIST 0\n",
        "OK LIST 0\n",
    ),
    Dialogue(
        "an unfinished line is not answered",
        (("LIST\nLIST", 1),),
        "OK LIST 0\n",
        "OK LIST 0\n",
    ),
    Dialogue(
        "no input",
        (),
        "",
        "OK LIST 0\n",
    ),
    Dialogue(
        "a LOAD without a count ends the connection",
        (("LOAD a 256 1 1 rest\nLIST\n", 1),),
        "ERR 04 BODY\n",
        "OK LIST 0\n",
        ending=Ending.FAULT,
    ),
)

DIALOGUES = (*MOTION_AND_WHAT_IS_SAVED, *QUOTAS_AND_ENDS)
