"""Lines of schedules that are no event, no user, or good, and what comes of each."""
from typing import Tuple

from schedule_tables.runs import TOKEN_BYTES

USER = f"user A {'a' * TOKEN_BYTES} 4 100 4\n"

GREETING = f"hello 1 A {'a' * TOKEN_BYTES}\nenter 1\n"

USER_B = f"user B {'b' * TOKEN_BYTES} 1 2 3\n"

LOAD = "LOAD d 256 1 131072 rest 28\n2\ndimer\nAr 0 0 0\nAr 1.5 0 0\n"

# Lines that are no event.
BAD_LINES = (
    "enter",
    "enter 0",
    "enter 65",
    "enter 1 1",
    "enter x",
    "enter -1",
    "enter 1.0",
    "Enter 1",
    "enter 1\r",
    "enter1",
    "#",
    "# enter 1",
    "end",
    "next 0",
    "post 65",
    "turn",
    "turn s",
    "turn 0 s",
    "turn 1 s s",
    "turn 1 s!",
    "turn 1 seventeen_letters",
    "leave",
    "take 1",
    "take 0 0",
    "take 17 0",
    "take 1 -1",
    "take 1 0 0",
    "fetch 1",
    "fetch 65 0",
    "fetch 1 00000000000000000000",
    "compute 0",
    "give 17",
    "handback",
    "hello 1 A",
    "hello 1 A short",
    "hello 1 A. aaaaaaaaaaaaaaaaaaaaaaaaaaaaaaaa",
    "hello 0 A aaaaaaaaaaaaaaaaaaaaaaaaaaaaaaaa",
    "arrive 1",
    "arrive x LIST",
    "arrive 65 LIST",
    "lost",
    "lost 1",
    "lost 1 ",
    "lost LOAD a 256 1 1 rest 28",
    "lost 0 LOAD a 256 1 1 rest 28",
    "lost 65 LOAD a 256 1 1 rest 28",
    "lost x LOAD a 256 1 1 rest 28",
    "lost 1 1 LOAD a 256 1 1 rest 28",
    "lost 1 LIST",
    "lost 1 BYE",
    "lost 1 BRANCH a 28",
    "lost 1 load a 256 1 1 rest 28",
    "lost 1 LOADMIX",
    "lost 1 LOADMIX a 256 1 1 rest",
    "lost 1 LOADMIX a 256 1 1 rest 1048577",
    "lost 1 LOADMIX a 256 1 1 rest 00000028",
    "lost 1 loadmix a 256 1 1 rest 28",
    "lost 1 LOADMIXED a 256 1 1 rest 28",
    "lost 1 LOAD",
    "lost 1 LOAD a 256 1 1 rest",
    "lost 1 LOAD a 256 1 1 rest 1048577",
    "lost 1 LOAD a 256 1 1 rest 00000028",
)

# Lines that are no user.
BAD_USERS = (
    "user",
    "user B",
    "user B bbbbbbbbbbbbbbbbbbbbbbbbbbbbbbbb",
    "user B bbbbbbbbbbbbbbbbbbbbbbbbbbbbbbbb 1 2",
    "user B bbbbbbbbbbbbbbbbbbbbbbbbbbbbbbbb 1 2 3 4",
    "user B bbbbbbbbbbbbbbbbbbbbbbbbbbbbbbb 1 2 3",
    "user B bbbbbbbbbbbbbbbbbbbbbbbbbbbbbbb- 1 2 3",
    "user A bbbbbbbbbbbbbbbbbbbbbbbbbbbbbbbb 1 2 3",
    "user B. bbbbbbbbbbbbbbbbbbbbbbbbbbbbbbbb 1 2 3",
    "user B2345678901234567 bbbbbbbbbbbbbbbbbbbbbbbbbbbbbbbb 1 2 3",
    "user B bbbbbbbbbbbbbbbbbbbbbbbbbbbbbbbb 65 2 3",
    "user B bbbbbbbbbbbbbbbbbbbbbbbbbbbbbbbb 1 65537 3",
    "user B bbbbbbbbbbbbbbbbbbbbbbbbbbbbbbbb 1 2 257",
)

# Events after a user of which one is bad, and the number of its line in the schedule.
BAD_EVENTS = (
    ("enter 1\n" + USER_B, 3),
    ("arrive 1 LOAD a 256 1 1 rest 5\na\nb\n", 2),
    ("arrive 1 LOAD a 256 1 1 rest 1", 2),
    ("arrive 1 LOAD 1048576\na\nb\n", 2),
    ("arrive 1 LOAD a 256 1 1 rest 5\na\nb\ncenter\n", 5),
    ("arrive 1 LOAD a 256 1 1 rest 6\na\nb\nc\nenter\n", 6),
    ("arrive 1 LOAD a 256 1 1 rest 0\nenter", 3),
    ("arrive 1 LOAD a b c\nenter\n", 3),
    ("arrive 1 LOADMIX a 5\na\nb\n", 2),
    ("arrive 1 LOADMIX a 5\na\nb\ncenter\n", 5),
    ("arrive 1 LOADMIX\nenter\n", 3),
    ("arrive 1 LOADMIX a 256\nb 5\n", 2),
    # No body follows a lost one.
    ("lost 1 LOAD a 256 1 1 rest 6\nenter\n", 3),
    ("lost 1 LOADMIX a 256 1 1 rest 6\nenter\n", 3),
    # A lost line of 257 bytes.
    ("lost 1 LOAD a" + " " * 237 + "256 1 1 rest 5\n", 2),
    ("lost 1 LOADMIX a" + " " * 234 + "256 1 1 rest 5\n", 2),
)

# Schedules with a bad line at another place, and its number.
BAD_SCHEDULES = (
    ("", 1),
    ("\n \n", 3),
    ("\t", 2),
    ("enter 1\n", 1),
    ("\n\nenter 1\n" + USER, 3),
    ("lost 1 LOAD a 256 1 1 rest 6\n" + USER, 1),
    *((USER + events, number) for events, number in BAD_EVENTS),
    *((f"{USER}\nenter 1\n{line}\nenter\n", 4) for line in BAD_LINES),
    *((f"\n{USER}{line}", 3) for line in BAD_USERS),
)

# Lines that are taken, and tell nothing.
GOOD_LINES = (
    "",
    "\n\n",
    " \t",
    "enter 01",
    "enter\t1",
    " enter  1 ",
    "arrive 1 ",
    "arrive 64\t",
    "take 16 9999999999999999999",
    "turn 1 s",
    "turn 64\t1 ",
    "turn 01 sixteen_letters_",
    "arrive 1 LOAD a 256 1 1 rest 0",
    "arrive 1 LOAD a b c",
    "lost 1 LOAD a 256 1 1 rest 28",
    "lost 64\t LOAD a x y z pair 0",
    "lost 1 LOAD a 256 1 1 rest 1048576\r",
    "lost 1 LOAD 5",
    "lost 1 LOAD ! a b c d e f 5",
    "hello 64 B aaaaaaaaaaaaaaaaaaaaaaaaaaaaaaaa",
    "lost 1 LOAD a" + " " * 236 + "256 1 1 rest 5",
    "arrive 1 LOADMIX a 256 1 1 rest 0",
    "arrive 1 LOADMIX a b c",
    "lost 1 LOADMIX 5",
    "lost 64\t LOADMIX a 256 1 1 rest 1048576\r",
    "lost 1 LOADMIX a" + " " * 233 + "256 1 1 rest 5",
)

# LOADs whose bodies are lost, beside one that is loaded, and what they are told.
LOST_LOADS = (
    ("LOAD 5", "ERR 03 SYNTAX"),
    ("LOAD b! x x x rest 5", "ERR 03 SYNTAX"),
    ("LOAD d x x x rest 28", "ERR 11 EXISTS"),
    ("LOAD b x x x rest 28", "ERR 36 EDGE"),
    ("LOAD b 256 x x pair 28", "ERR 37 SIGMA"),
    ("LOAD b 256 1 x rest 0", "ERR 38 STEP_FACTOR"),
    ("LOAD b 256 1 1 rest 0", "ERR 90 MEMORY"),
    ("LOAD b 256 1 1 pair 1048576\r", "ERR 90 MEMORY"),
    ("LOADMIX 5", "ERR 03 SYNTAX"),
    ("LOADMIX b 256 1 1 rest 28", "ERR 03 SYNTAX"),
    (f"LOADMIX b x X X {'x ' * 9}rest 28", "ERR 03 SYNTAX"),
    (f"LOADMIX d x X Y {'x ' * 9}rest 28", "ERR 11 EXISTS"),
    (f"LOADMIX b x X Y {'x ' * 9}rest 28", "ERR 36 EDGE"),
    ("LOADMIX b 256 X Y x x x 1 1 1 1 1 1 pair 28", "ERR 37 SIGMA"),
    ("LOADMIX b 256 X Y 1 x x x 1 1 1 1 1 rest 28", "ERR 38 STEP_FACTOR"),
    ("LOADMIX b 256 X Y 1 1 x x 1 1 1 1 1 rest 28", "ERR 40 WEIGHT"),
    ("LOADMIX b 256 X Y 1 1 1 x 1 x x x x rest 28", "ERR 37 SIGMA"),
    ("LOADMIX b 256 X Y 1 1 1 1 1 x x x x rest 28", "ERR 40 WEIGHT"),
    ("LOADMIX b 256 X Y 1 1 1 1 1 1 1 x x rest 28", "ERR 38 STEP_FACTOR"),
    ("LOADMIX b 256 X Y 1 1 1 1 1 1 1 1 65537 rest 28", "ERR 40 WEIGHT"),
    ("LOADMIX b 256 X Y 1 1 1 1 1 1 1 1 65536 rest 0", "ERR 90 MEMORY"),
    ("LOADMIX b 256 X Y 1 1 1 1 1 1 1 1 1 pair 1048576\r", "ERR 90 MEMORY"),
)


# A schedule, and what is printed.
Printed = Tuple[str, str]


def of_user(events: str) -> str:
    return USER + GREETING + events


def lost_load(line: str, refusal: str) -> Printed:
    events = f"arrive 1 {LOAD}lost 1 {line}\narrive 1 LIST\nnext 1\nnext 1\nnext 1\n"
    return of_user(events), f"A 1 OK LOAD d 0 2\nA 1 {refusal}\nA 1 OK LIST 1\nA 1 d 0 2 0\n"


def long_line(length: int, told: str) -> Printed:
    return of_user(f"arrive 1 {'x' * length}\narrive 1 LIST\nnext 1\nnext 1\n"), told


# Schedules, and what is printed.
PRINTED = (
    *((USER + line, "") for line in GOOD_LINES),
    *(lost_load(line, refusal) for line, refusal in LOST_LOADS),
    long_line(256, "A 1 ERR 06 COMMAND\nA 1 OK LIST 0\n"),
    long_line(257, "A 1 ERR 02 LINE\nA 1 OK LIST 0\n"),
    long_line(65_535, "A 1 ERR 02 LINE\nA 1 OK LIST 0\n"),
    long_line(65_536, "A 1 ERR 05 LONG\n"),
    (
        of_user(
            "arrive 1 LIST\r\narrive 1\tLIST\narrive 1  LIST \narrive 1 \narrive 1 LIST x y\narrive 1 BYE\n" + "next 1\n" * 7 + "leave 1\n"
        ),
        "A 1 OK LIST 0\nA 1 OK LIST 0\nA 1 OK LIST 0\nA 1 ERR 03 SYNTAX\nA 1 ERR 03 SYNTAX\nA 1 OK BYE\n",
    ),
    # Each line of a reply is headed.
    (
        of_user(f"arrive 1 {LOAD}arrive 1 LIST\narrive 1 DUMP d\nnext 1\nnext 1\nnext 1\n"),
        "A 1 OK LOAD d 0 2\nA 1 OK LIST 1\nA 1 d 0 2 0\nA 1 OK DUMP d 0 4\nA 1 2\nA 1 step 0\n"
        "A 1 Ar 0.000000 0.000000 0.000000\nA 1 Ar 1.500000 0.000000 0.000000\n",
    ),
    # Lost bodies beside a full quota.
    (
        USER.replace("4 100 4", "1 2 0")
        + GREETING
        + f"arrive 1 {LOAD}lost 1 LOAD b 256 1 1 rest 28\nlost 1 LOADMIX b x X Y {'x ' * 9}rest 28\n"
        + "next 1\n" * 3,
        "A 1 OK LOAD d 0 2\nA 1 ERR 20 QUOTA_SESSIONS\nA 1 ERR 20 QUOTA_SESSIONS\n",
    ),
    # A LOADMIX that arrives has its body after it, whatever is wrong with it.
    (
        of_user("arrive 1 LOADMIX a 256 X Y 5\nend 1arrive 1 LOADMIX\narrive 1 LIST\nnext 1\nnext 1\nnext 1\n"),
        "A 1 ERR 03 SYNTAX\nA 1 ERR 04 BODY\n",
    ),
    (of_user("arrive 1 LIST\nnext 1\n" * 5_000), "A 1 OK LIST 0\n" * 5_000),
    ("".join(f"user u{number} {'a' * TOKEN_BYTES} 64 65536 256\n" for number in range(64)), ""),
)

# One user more than 64.
CROWDED = PRINTED[-1][0] + f"user one-more {'a' * TOKEN_BYTES} 64 65536 256"
