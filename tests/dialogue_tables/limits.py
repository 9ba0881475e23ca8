"""Lines, bodies and streams at their limits."""
from typing import Tuple

from dialogue_tables.dialogues import Dialogue, Ending
from schedule_tables.runs import Part

# Streams that end well.
GO_ON = (
    (((" ", 251), ("LIST", 1), ("\n", 1), ("LIST\n", 1)), "OK LIST 0\nOK LIST 0\n"),
    (((" ", 250), ("LIST", 1), ("\r\n", 1), ("LIST\n", 1)), "OK LIST 0\nOK LIST 0\n"),
    (((" ", 252), ("LIST", 1), ("\n", 1), ("LIST\n", 1)), "OK LIST 0\nOK LIST 0\n"),
    (((" ", 251), ("LIST", 1), ("\r\n", 1), ("LIST\n", 1)), "OK LIST 0\nOK LIST 0\n"),
    (((" ", 253), ("LIST", 1), ("\n", 1), ("LIST\n", 1)), "ERR 02 LINE\nOK LIST 0\n"),
    (((" ", 252), ("LIST", 1), ("\r\n", 1), ("LIST\n", 1)), "ERR 02 LINE\nOK LIST 0\n"),
    (((" ", 65_531), ("LIST", 1), ("\n", 1), ("LIST\n", 1)), "ERR 02 LINE\nOK LIST 0\n"),
    (((" ", 65_530), ("LIST", 1), ("\r\n", 1), ("LIST\n", 1)), "ERR 02 LINE\nOK LIST 0\n"),
    ((("x", 257), ("\nLIST\n", 1)), "ERR 02 LINE\nOK LIST 0\n"),
    ((("x", 65_535), ("\nLIST\n", 1)), "ERR 02 LINE\nOK LIST 0\n"),
    ((("x", 255), ("\r\n", 1), ("x", 256), ("\r\n", 1)), "ERR 06 COMMAND\nERR 02 LINE\n"),
    ((("LOAD a 5\nLIST\nLIST\n", 1),), "ERR 03 SYNTAX\nOK LIST 0\n"),
)

# Streams with a fault that ends the connection.
END = (
    (((" ", 65_532), ("LIST", 1), ("\n", 1), ("LIST\n", 1)), "ERR 05 LONG\n"),
    (((" ", 65_531), ("LIST", 1), ("\r\n", 1), ("LIST\n", 1)), "ERR 05 LONG\n"),
    ((("x", 65_536), ("\nLIST\n", 1)), "ERR 05 LONG\n"),
    ((("LOAD a 256 1 1 rest 1048577\n", 1),), "ERR 04 BODY\n"),
    ((("LOAD a 256 1 1 rest 1048577\n", 1), ("LIST\n", 300_000)), "ERR 04 BODY\n"),
)


def without_sessions(stream: Tuple[Part, ...], replies: str, ending: Ending) -> Dialogue:
    """A stream that leaves the user without sessions."""
    return Dialogue(f"stream {stream}", stream, replies, "OK LIST 0\n", ending=ending)


def long_body(name: str, size: int) -> Dialogue:
    """A LOAD of one atom, whose body goes on up to this size."""
    atom = "1\nc\nX 1 0 0\n"
    stream = ((f"LOAD a 256 1 1 rest {size}\n{atom}", 1), ("#", size - len(atom)), ("SHOW a 0\n", 1))
    replies = "OK LOAD a 0 1\nOK SHOW a 0 0 16777216 0 0\n"
    return Dialogue(f"a LOAD of one atom with {name}", stream, replies, "OK LIST 1\na 0 1 0\n")


BODIES = (
    long_body("a body of 65,536 bytes", 65_536),
    long_body("a long body", 65_537),
    long_body("the longest body", 1_048_576),
    Dialogue(
        "a LOAD of 256 atoms",
        (
            ("LOAD a 256 1 1 rest 2054\n256\nc\n", 1),
            ("X 0 0 0\n", 255),
            ("X 1 0 0\n", 1),
            ("SHOW a 255\nSHOW a 256\nMEASURE a\n", 1),
        ),
        "OK LOAD a 0 256\nOK SHOW a 0 255 16777216 0 0\nERR 14 NO_ATOM\n" "OK MEASURE a 0 256 0 0 0 0 115761635748825\n",
        "OK LIST 1\na 0 256 0\n",
    ),
    Dialogue(
        "four LOADs of 4,096 atoms fill the usual quota of atoms",
        (
            ("LOAD s1 256 1 1 rest 32775\n4096\nc\n", 1),
            ("X 0 0 0\n", 4_096),
            ("LOAD s2 256 1 1 rest 32775\n4096\nc\n", 1),
            ("X 0 0 0\n", 4_096),
            ("LOAD s3 256 1 1 rest 32775\n4096\nc\n", 1),
            ("X 0 0 0\n", 4_096),
            ("LOAD s4 256 1 1 rest 32775\n4096\nc\n", 1),
            ("X 0 0 0\n", 4_096),
            ("LOAD s5 256 1 1 rest 12\n1\nc\nX 0 0 0\nSHOW s4 4095\n", 1),
        ),
        "OK LOAD s1 0 4096\nOK LOAD s2 0 4096\nOK LOAD s3 0 4096\nOK LOAD s4 0 4096\n" "ERR 21 QUOTA_ATOMS\nOK SHOW s4 0 4095 0 0 0\n",
        "OK LIST 4\ns1 0 4096 0\ns2 0 4096 0\ns3 0 4096 0\ns4 0 4096 0\n",
    ),
    Dialogue(
        "4,096 atoms are saved and restored",
        (("LOAD s 256 1 1 rest 32775\n4096\nc\n", 1), ("X 0 0 1\n", 4_096), ("BRANCH s b\nRESTORE s b\nLIST s\nSHOW s 4095\n", 1)),
        "OK LOAD s 0 4096\nOK BRANCH s b 0\nOK RESTORE s b 0\nOK LIST s 1\nb 0\nOK SHOW s 0 4095 0 0 16777216\n",
        "OK LIST 1\ns 0 4096 1\n",
    ),
    # The last row of a frame of 4,096 atoms is written.
    Dialogue(
        "a DUMP of 4,096 atoms",
        (("LOAD s 256 1 1 rest 32775\n4096\nc\n", 1), ("X 0 0 1\n", 4_096), ("DUMP s\n", 1)),
        "OK LOAD s 0 4096\nOK DUMP s 0 4098\n4096\nstep 0\n" + "X 0.000000 0.000000 1.000000\n" * 4_096,
        "OK LIST 1\ns 0 4096 0\n",
    ),
)

DIALOGUES = (
    *(without_sessions(stream, replies, Ending.INPUT) for stream, replies in GO_ON),
    *(without_sessions(stream, replies, Ending.FAULT) for stream, replies in END),
    *BODIES,
)

# Streams that are not read to their end. A server is not played these.
NOT_READ_ON = (
    *(
        Dialogue(
            "nothing is read after BYE",
            (("BYE\n", 1), ("LIST\n", 1_000)),
            "OK BYE\n",
            "OK LIST 0\n",
            ending=Ending.BYE,
            sizes=(size,),
            taken=4,
        )
        for size in (1, 4)
    ),
    Dialogue(
        "a line without an end is given up",
        (("x", 100_000),),
        "ERR 05 LONG\n",
        "OK LIST 0\n",
        ending=Ending.FAULT,
        sizes=(1,),
        taken=65_536,
    ),
    Dialogue(
        "a million items are enough",
        (("LIST\nLIST\nLIST\nLIST\nLIST\n", 1_000_000),),
        "OK LIST 0\n" * 1_000_000 + "ERR 08 ENOUGH\n",
        "OK LIST 0\n",
        ending=Ending.FAULT,
        sizes=(None,),
    ),
    Dialogue(
        "a million empty lines are enough",
        # No piece goes on after the end of a part.
        (("\n", 1_000_000), ("\n", 1_000_000)),
        "ERR 03 SYNTAX\n" * 1_000_000 + "ERR 08 ENOUGH\n",
        "OK LIST 0\n",
        ending=Ending.FAULT,
        sizes=(1,),
        taken=1_000_000,
    ),
)
