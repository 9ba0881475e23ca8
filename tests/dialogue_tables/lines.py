"""Lines of commands: what is wrong with one, and how many bytes of body follow it."""
from dialogue_tables.dialogues import Dialogue, Ending
from shared.loads import DIMER

# Lines that are refused; the connection goes on after them.
REFUSED = (
    # No word.
    ("", "ERR 03 SYNTAX\n"),
    ("\r", "ERR 03 SYNTAX\n"),
    (" \t \r", "ERR 03 SYNTAX\n"),
    # A first word that begins no command.
    ("bye", "ERR 06 COMMAND\n"),
    ("BYE\r\r", "ERR 06 COMMAND\n"),
    ("BYE\x0b", "ERR 06 COMMAND\n"),
    ("BYEBYE", "ERR 06 COMMAND\n"),
    ("UNLOAD a", "ERR 06 COMMAND\n"),
    ("HELLO a b", "ERR 06 COMMAND\n"),
    ("load a 256 1 1 rest 2", "ERR 06 COMMAND\n"),
    # A wrong number of words.
    ("BYE 1", "ERR 03 SYNTAX\n"),
    ("LIST a b", "ERR 03 SYNTAX\n"),
    ("REVERSE", "ERR 03 SYNTAX\n"),
    ("DROP a b", "ERR 03 SYNTAX\n"),
    ("FORGET a", "ERR 03 SYNTAX\n"),
    ("BRANCH a b c", "ERR 03 SYNTAX\n"),
    ("SHOW a 1 2", "ERR 03 SYNTAX\n"),
    ("TUG a 1 2 3", "ERR 03 SYNTAX\n"),
    ("LOAD a 256 1 1 rest 2 2", "ERR 03 SYNTAX\n"),
    ("LOAD 5", "ERR 03 SYNTAX\n"),
    # A word that is not of its shape.
    ("LIST a\r\r", "ERR 03 SYNTAX\n"),
    ("DUMP ABCDEFGHIJKLMNOPQ", "ERR 03 SYNTAX\n"),
    ("RESTORE a b.c", "ERR 03 SYNTAX\n"),
    ("ADVANCE a 00000000000000000001", "ERR 03 SYNTAX\n"),
    ("ADVANCE a -1", "ERR 03 SYNTAX\n"),
    ("TUG a 1 2147483648 0 0", "ERR 03 SYNTAX\n"),
    ("TUG a 1 0 0 -2147483649", "ERR 03 SYNTAX\n"),
    ("LOAD a 256 1 1 Rest 2", "ERR 03 SYNTAX\n"),
)

# The bodies of those of them that say how many bytes follow, which are passed over.
PASSED_OVER = {"LOAD a 256 1 1 rest 2 2": "12", "LOAD 5": "12345", "LOAD a 256 1 1 Rest 2": "12"}

# LOADs after which nothing is known of the bytes that follow.
WITHOUT_COUNT = (
    "LOAD",
    "LOAD x",
    "LOAD a 256 1 1 rest",
    "LOAD a 256 1 1 rest 00000028",
    "LOAD a 256 1 1 rest 1048577",
    "LOAD a 256 1 1 rest +2",
    "LOAD 2 \r\r",
)

# Lines, as many bytes as follow them, the reply, and the sessions after it.
BODIES = (
    ("LOAD a 256 1 1 rest 1048576", ("1\nc\nX 1 0 0\n" + "#" * 1_048_564), "OK LOAD a 0 1\n", "OK LIST 1\na 0 1 0\n"),
    ("LOAD a 256 1 1 rest 0000028\r", DIMER, "OK LOAD a 0 2\n", "OK LIST 1\na 0 2 0\n"),
    ("LOAD a 256 1 1 rest 2 ", "x\n", "ERR 30 XYZ_COUNT line 1\n", "OK LIST 0\n"),
    ("\tLOAD 5", "BYE\n\n", "ERR 03 SYNTAX\n", "OK LIST 0\n"),
    ("LOAD ! x y z 3 3 3 3", "BYE", "ERR 03 SYNTAX\n", "OK LIST 0\n"),
    ("ADVANCE a 5", "", "ERR 10 NO_SESSION\n", "OK LIST 0\n"),
    ("load a 256 1 1 rest 2", "", "ERR 06 COMMAND\n", "OK LIST 0\n"),
    ("", "", "ERR 03 SYNTAX\n", "OK LIST 0\n"),
)

# Lines of 256 bytes and of 257, of which a carriage return is one.
OF_256_BYTES = "LOAD 5" + " " * 250
OF_257_BYTES = (OF_256_BYTES + " ", OF_256_BYTES + "\r")


def of_line(line: str, body: str, reply: str, state: str = "OK LIST 0\n") -> Dialogue:
    """A line with the body that belongs to it, and LIST after it."""
    return Dialogue(f"line {line!r}", ((line + "\n", 1), (body, 1), ("LIST\n", 1)), reply + state, state)


def without_count(line: str) -> Dialogue:
    """A line that ends the connection, and is the last that is read where it comes in pieces."""
    stream = ((line + "\n", 1), ("LIST\n", 3))
    return Dialogue(f"line {line!r}", stream, "ERR 04 BODY\n", "OK LIST 0\n", ending=Ending.FAULT)


DIALOGUES = (
    *(of_line(line, PASSED_OVER.get(line, ""), refusal) for line, refusal in REFUSED),
    *map(without_count, WITHOUT_COUNT),
    *(of_line(*row) for row in BODIES),
    of_line(OF_256_BYTES, "12345", "ERR 03 SYNTAX\n"),
    *(of_line(line, "", "ERR 02 LINE\n") for line in OF_257_BYTES),
    # The first line ends at the first line feed, and the last one has none.
    Dialogue("lines are cut at line feeds", (("LIST\r\n\nBYE", 1),), "OK LIST 0\nERR 03 SYNTAX\n", "OK LIST 0\n"),
    Dialogue("a line without a line feed", (("LIST", 1),), "", "OK LIST 0\n"),
)
