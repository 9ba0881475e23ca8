"""Schedules in short and what a replay of each prints.

Events stand between semicolons, as in `take 1 0; compute 1; give 1`. The body of a LOAD is named in brackets after its line, and a
token is the letters of the user's name, or of a word after it, over and over.
"""
from dataclasses import dataclass
from typing import Iterable, Iterator, Tuple

from shared.loads import CHAIN, DIMER

User = Tuple[str, Tuple[int, int, int]]
Part = Tuple[str, int]

TOKEN_BYTES = 32

# Two atoms that are out of reach of each other.
APART = "2\napart\nAr 0 0 0\nAr 9.5 0 0\n"

# An atom of each of two species, and both of one of them.
MIX = "2\nmix\nNa 0 0 0\nCl 1.5 0 0\n"
SODIUM = "2\nmix\nNa 0 0 0\nNa 1.5 0 0\n"

# 513 atoms at one place.
CROWD = "513\ncrowd\n" + "X 1 1 1\n" * 513

BODIES = {"(DIMER)": DIMER, "(MIX)": MIX, "(SODIUM)": SODIUM, "(APART)": APART, "(CHAIN)": CHAIN, "(CROWD)": CROWD}


@dataclass(frozen=True)
class Run:
    """Users with their quotas, events of which each part happens so many times over, and what is printed."""

    name: str
    users: Tuple[User, ...]
    parts: Tuple[Part, ...]
    told: str

    def schedule(self) -> bytes:
        return "".join([*map(user_line, self.users), *event_lines(self.parts)]).encode()


def token(word: str) -> str:
    return (word * TOKEN_BYTES)[:TOKEN_BYTES]


def user_line(user: User) -> str:
    name, quota = user
    return f"user {name} {token(name)} {' '.join(map(str, quota))}\n"


def event_line(event: str) -> str:
    """The line of an event, with the body after it."""
    words = event.split()
    if words[0] == "hello":
        return f"hello {words[1]} {words[2]} {token(words[-1])}\n"
    if words[-1] in BODIES:
        return f"{event[:event.rindex(' ')]}\n{BODIES[words[-1]]}"
    return f"{event}\n"


def event_lines(parts: Iterable[Part]) -> Iterator[str]:
    for events, times in parts:
        for _ in range(times):
            yield from (event_line(event.strip()) for event in events.split(";") if event.strip())


ONE_USER: Tuple[User, ...] = (("A", (4, 100, 4)),)
TWO_USERS: Tuple[User, ...] = (("A", (4, 100, 4)), ("B", (4, 64, 4)))
WIDE: Tuple[User, ...] = (("A", (4, 1000, 4)), ("B", (4, 1000, 4)))

# One task from its post until its result is fetched, by one worker.
ONE_TASK = "post 1; take 1 0; compute 1; give 1; fetch 1 0"

CHAIN_ARRIVES = """arrive 1 LOAD c 256 1 131072 rest 651 (CHAIN);
    arrive 1 ADVANCE c 1; arrive 1 SHOW c 0; arrive 1 SHOW c 64; arrive 1 MEASURE c; """

# Two users and six workers: results in any order, one that is given twice, and a task that is handed back.
UP_TO_THE_TURN = f"""hello 1 A; hello 2 B; enter 1; enter 2; {CHAIN_ARRIVES}
    arrive 2 LOAD c 256 1 131072 rest 651 (CHAIN);
    arrive 2 LOAD d 256 1 131072 rest 28 (DIMER); arrive 2 ADVANCE d 1;
    next 1; next 1; post 1; post 1; post 1; post 1; take 1 0; take 2 0; take 3 0; take 4 0;
    next 2; next 2; next 2; post 2; compute 4; give 4; give 4; handback 3;
    take 5 0; take 6 0; compute 5; give 5; compute 6; give 6; compute 3; give 3; compute 2; give 2; compute 1; give 1;
    fetch 1 3; fetch 1 2; fetch 1 1; fetch 1 0"""

FROM_THE_TURN = """turn 1; fetch 2 0; turn 2; next 1; next 1; next 1; post 1; post 1; post 1;
    take 1 0; compute 1; give 1; take 1 0; compute 1; give 1; take 1 0; compute 1; give 1;
    fetch 1 0; fetch 1 0; fetch 1 0; turn 1; end 1; leave 1"""

TOLD_UP_TO_THE_TURN = "A 1 OK LOAD c 0 65\nB 2 ERR 21 QUOTA_ATOMS\nB 2 OK LOAD d 0 2\n"

TOLD_FROM_THE_TURN = (
    "A 1 OK ADVANCE c 1\nB 2 OK ADVANCE d 1\nA 1 OK SHOW c 1 0 589 0 0\nA 1 OK SHOW c 1 64 1610612147 0 0\n"
    "A 1 OK MEASURE c 1 65 0 0 0 693842 -342445638\n"
)

SESSIONS = (
    Run("two users at once", TWO_USERS, ((UP_TO_THE_TURN, 1), (FROM_THE_TURN, 1)), TOLD_UP_TO_THE_TURN + TOLD_FROM_THE_TURN),
    Run("no reply comes before the turn", TWO_USERS, ((UP_TO_THE_TURN, 1),), TOLD_UP_TO_THE_TURN),
    Run(
        "one user and one worker",
        ONE_USER,
        (
            ("hello 1 A; enter 1; " + CHAIN_ARRIVES + "next 1; next 1", 1),
            (ONE_TASK, 4),
            ("turn 1; next 1; next 1; next 1", 1),
            (ONE_TASK, 3),
            ("turn 1; end 1; leave 1", 1),
        ),
        "A 1 OK LOAD c 0 65\nA 1 OK ADVANCE c 1\nA 1 OK SHOW c 1 0 589 0 0\nA 1 OK SHOW c 1 64 1610612147 0 0\n"
        "A 1 OK MEASURE c 1 65 0 0 0 693842 -342445638\n",
    ),
    # The atoms that another user holds are not counted.
    Run(
        "each user has a quota of its own",
        (("A", (1, 4, 1)), ("B", (2, 3, 1))),
        (
            (
                """hello 1 A; hello 2 B; enter 1; enter 2;
                arrive 1 LOAD a 256 1 131072 rest 28 (DIMER); arrive 2 LOAD a 256 1 131072 rest 28 (DIMER);
                arrive 1 LOAD b 256 1 131072 rest 28 (DIMER); arrive 2 LOAD b 256 1 131072 rest 28 (DIMER);
                arrive 1 BRANCH a k; arrive 2 BRANCH a k; arrive 1 BRANCH a l; arrive 2 BRANCH a l""",
                1,
            ),
            ("next 1; next 2", 4),
        ),
        "A 1 OK LOAD a 0 2\nB 2 OK LOAD a 0 2\nA 1 ERR 20 QUOTA_SESSIONS\nB 2 ERR 21 QUOTA_ATOMS\n"
        "A 1 OK BRANCH a k 0\nB 2 OK BRANCH a k 0\nA 1 ERR 22 QUOTA_BRANCHES\nB 2 ERR 22 QUOTA_BRANCHES\n",
    ),
)

# User A loads two atoms and goes on by a step, whose task worker 1 takes, hands back, and keeps a copy of. Worker 2 computes it, and
# gives it twice.
ONE_STEP = """hello 1 A; enter 1; arrive 1 LOAD a 256 1 131072 rest 28 (DIMER); arrive 1 ADVANCE a 1;
    next 1; next 1; post 1; take 1 0; handback 1; take 2 0; compute 2; give 2; give 2; fetch 1 0; turn 1"""

# The same task once more, which worker 3 takes. Worker 1 gives its result before that.
THE_STEP_AGAIN = """arrive 1 ADVANCE a 1; arrive 1 SHOW a 0; next 1; next 1; next 1;
    post 1; take 3 0; compute 1; give 1; compute 3; give 3; fetch 1 0; turn 1; next 1"""

TOLD_OF_TWO_STEPS = "A 1 OK LOAD a 0 2\nA 1 OK ADVANCE a 1\nA 1 OK DROP a\nA 1 OK LOAD a 0 2\nA 1 OK ADVANCE a 1\n"


def loaded_again(name: str, load: str, shown: str) -> Run:
    """What worker 1 kept comes late, for a session that is loaded again under its name."""
    parts = ((ONE_STEP, 1), (f"arrive 1 DROP a; arrive 1 {load}", 1), (THE_STEP_AGAIN, 1))
    return Run(name, WIDE, parts, TOLD_OF_TWO_STEPS + f"A 1 OK SHOW a 1 {shown}\n")


RESULTS = (
    loaded_again("a result of a session loaded again with equal blocks", "LOAD a 256 1 131072 rest 28 (DIMER)", "0 589 0 0"),
    loaded_again("a result of a session loaded again with another step factor", "LOAD a 256 1 1 rest 28 (DIMER)", "0 0 0 0"),
    loaded_again("a result of a session loaded again with other places", "LOAD a 256 1 131072 rest 28 (APART)", "0 0 0 0"),
    # The result that worker 1 kept is alone in what it gives, and the step awaits it.
    Run(
        "a kept result is the one that is fetched",
        WIDE,
        (
            (ONE_STEP, 1),
            (
                """arrive 1 DROP a; arrive 1 LOAD a 256 1 131072 rest 28 (DIMER);
                arrive 1 ADVANCE a 1; arrive 1 SHOW a 1; next 1; next 1; next 1;
                compute 1; give 1; fetch 1 0; post 1; give 1; fetch 1 0; take 3 0; give 1; handback 3; give 1;
                fetch 1 0; turn 1; next 1; compute 3; give 3""",
                1,
            ),
        ),
        TOLD_OF_TWO_STEPS + "A 1 OK SHOW a 1 1 25165235 0 0\n",
    ),
    # What worker 1 kept is of the first step, while the second one runs under the same key.
    Run(
        "a result of the step before",
        WIDE,
        (
            ("hello 1 A; enter 1; arrive 1 LOAD a 256 1 131072 rest 28 (DIMER)", 1),
            ("arrive 1 ADVANCE a 2; arrive 1 SHOW a 0; next 1; next 1", 1),
            ("post 1; take 1 0; handback 1; take 2 0; compute 2; give 2", 1),
            ("fetch 1 0; turn 1; post 1; take 3 0; compute 1; give 1", 1),
            ("fetch 1 0; turn 1; handback 1; take 4 0; turn 1", 1),
            ("compute 3; give 3; fetch 1 0; turn 1; next 1", 1),
        ),
        "A 1 OK LOAD a 0 2\nA 1 OK ADVANCE a 2\nA 1 OK SHOW a 2 0 1774 0 0\n",
    ),
    # Worker 1 gives what it kept after the connection has left: while nothing stands under the key, and while a task of another user
    # does. The user's next connection finds the state as it was left.
    Run(
        "a result that comes after its connection has left",
        WIDE,
        (
            (ONE_STEP, 1),
            (
                """end 1; leave 1; compute 1; give 1; handback 1;
                hello 2 B; enter 2; arrive 2 LOAD a 256 1 131072 rest 28 (DIMER);
                arrive 2 ADVANCE a 1; arrive 2 SHOW a 1; next 2; next 2; post 2; take 3 0;
                give 1; handback 1; take 4 0; fetch 2 0; turn 2; compute 3; give 3; give 1; fetch 2 0; turn 2; next 2;
                hello 3 A; enter 3; arrive 3 SHOW a 0; next 3""",
                1,
            ),
        ),
        "A 1 OK LOAD a 0 2\nA 1 OK ADVANCE a 1\nB 2 OK LOAD a 0 2\nB 2 OK ADVANCE a 1\nB 2 OK SHOW a 1 1 25165235 0 0\n"
        "A 3 OK SHOW a 1 0 589 0 0\n",
    ),
    # A step of 81 tasks, of which 64 are posted and not fetched at the most.
    Run(
        "the 65th task waits until one is fetched",
        WIDE,
        (
            ("hello 1 A; enter 1; arrive 1 LOAD c 256 1 131072 rest 4114 (CROWD)", 1),
            ("arrive 1 ADVANCE c 1; arrive 1 SHOW c 0; next 1; next 1", 1),
            ("post 1", 81),
            ("take 1 0; compute 1; give 1", 81),
            ("fetch 1 0", 81),
            ("turn 1; next 1; arrive 1 LIST", 1),
            ("post 1; take 1 0; compute 1; give 1", 17),
            ("fetch 1 0", 16),
            ("turn 1; next 1; arrive 1 BYE; fetch 1 0; turn 1", 1),
            ("next 1", 3),
        ),
        "A 1 OK LOAD c 0 513\nA 1 OK ADVANCE c 1\nA 1 OK SHOW c 1 0 16777216 16777216 16777216\n"
        "A 1 OK LIST 1\nA 1 c 1 513 0\nA 1 OK BYE\n",
    ),
)

# Events of workers that hold nothing, of connections that nobody was granted, of those whom the directory does not know, and a
# connection that is granted a second time.
OF_NOBODY = """hello 63 A B; hello 63 C; hello 63 a; hello 1 A; hello 1 B; arrive 63 BYE; end 63; enter 63; next 63; post 63;
    compute 16; give 16; handback 16; fetch 63 0; turn 63; leave 63"""


def with_others(events: str, others: str) -> Tuple[Part, ...]:
    """These events, with others after each."""
    return tuple(part for event in events.split(";") for part in ((event, 1), (others, 1)))


# What is not possible while tiles of a step are missing, and where all its tasks are posted and no result is given.
UNREADY = "turn 1; next 1; enter 1; enter 2; leave 1; leave 2; fetch 2 0; post 2"
UNGIVEN = "post 1; fetch 1 0; give 1; give 2; handback 16"

IMPOSSIBLE = (
    Run(
        "events of nobody",
        TWO_USERS,
        with_others(UP_TO_THE_TURN, OF_NOBODY) + with_others(FROM_THE_TURN, OF_NOBODY),
        TOLD_UP_TO_THE_TURN + TOLD_FROM_THE_TURN,
    ),
    # Connection 2 waits while connection 1 has the state of their user.
    Run(
        "a ticket that waits does nothing",
        ONE_USER,
        (
            (
                """hello 1 A; hello 2 A; enter 2; arrive 2 LIST; end 2;
                enter 2; next 2; post 2; fetch 2 0; turn 2; leave 2; enter 1; enter 2; next 2; leave 2;
                arrive 1 BYE; next 1; leave 2; enter 2; leave 1; leave 2; next 2; enter 2; leave 2; next 2; leave 2;
                hello 3 A; enter 3; arrive 3 LIST; next 3""",
                1,
            ),
        ),
        "A 1 OK BYE\nA 2 OK LIST 0\nA 3 OK LIST 0\n",
    ),
    Run(
        "a connection where nothing runs",
        ONE_USER,
        (
            (
                """hello 1 A; hello 2 A; next 1; post 1; fetch 1 0; turn 1; leave 1; enter 1;
                next 1; post 1; fetch 1 0; turn 1; leave 1; enter 1; take 1 0; compute 1; give 1; handback 1;
                arrive 1 LIST; leave 1; enter 2; end 1; leave 1; enter 2; arrive 1 BYE;
                post 1; fetch 1 0; turn 1; next 1; next 1; leave 1; leave 1; enter 1; next 1;
                arrive 2 LIST; enter 2; next 2""",
                1,
            ),
        ),
        "A 1 OK LIST 0\nA 2 OK LIST 0\n",
    ),
    # After BYE nothing is begun, and the items that wait keep nobody from leaving.
    Run(
        "a connection after its last item",
        ONE_USER,
        (
            (
                """hello 1 A; enter 1; arrive 1 BYE; arrive 1 LIST; next 1; next 1; arrive 1 LIST; next 1;
                post 1; fetch 1 0; turn 1; leave 1; enter 1; next 1; arrive 1 LIST; end 1; leave 1;
                hello 1 A; enter 1; next 1; hello 2 A; enter 2; arrive 2 LOAD x; arrive 2 LIST; next 2; next 2; leave 2;
                hello 3 A; enter 3; arrive 3 LIST; next 3""",
                1,
            ),
        ),
        "A 1 OK BYE\nA 2 ERR 04 BODY\nA 3 OK LIST 0\n",
    ),
    Run(
        "a step whose tiles are missing",
        ONE_USER,
        (
            ("hello 1 A; hello 2 A; enter 1; arrive 1 ADVANCE c 1", 1),
            ("arrive 1 LOAD c 256 1 131072 rest 651 (CHAIN); arrive 1 ADVANCE c 1", 1),
            ("arrive 1 SHOW c 64; end 1; next 1; next 1; next 1; fetch 1 0", 1),
            (UNREADY, 1),
            ("post 1", 4),
            (UNGIVEN, 1),
            ("take 1 0; take 2 0; take 3 3; take 4 0; compute 4; handback 2", 1),
            (UNREADY, 1),
            (UNGIVEN, 1),
            ("compute 1; give 1; give 1; handback 1; fetch 1 9; fetch 1 0", 1),
            ("give 1; turn 1; take 5 0; take 6 0; compute 5; give 5; give 6", 1),
            (UNREADY, 1),
            ("handback 4; compute 3; give 3; give 5", 1),
            ("fetch 1 0", 3),
            (UNREADY, 1),
            ("take 7 0; compute 7; give 7; give 4; fetch 1 0; fetch 1 0", 1),
            ("turn 1; turn 1; leave 1; next 1; next 1; turn 1; leave 1", 1),
            ("leave 1; enter 2; arrive 2 LIST; next 2", 1),
        ),
        "A 1 ERR 10 NO_SESSION\nA 1 OK LOAD c 0 65\nA 1 OK ADVANCE c 1\nA 1 OK SHOW c 1 64 1610612147 0 0\n"
        "A 2 OK LIST 1\nA 2 c 1 65 0\n",
    ),
)

NAMES = [*"abcdefghijklmnopqrstuvwxyzABCDEFGHIJKLMNOPQRSTUVWXYZ0123456789", "00", "11"]


def crowd() -> Run:
    """64 users at once, each of whom loads two atoms and goes on by a step; 16 workers do four tasks each, from the last key on."""
    begin = "hello {c} {name}; enter {c}; arrive {c} LOAD a 256 1 131072 rest 28 (DIMER); arrive {c} ADVANCE a 1;"
    begin += "arrive {c} SHOW a 0; next {c}; next {c}; post {c};"
    work = "take {w} {key}; compute {w}; give {w};"
    end = "fetch {c} 0; turn {c}; next {c}; end {c}; leave {c};"
    numbered = [*enumerate(NAMES, 1)]
    events = "".join(begin.format(c=c, name=name) for c, name in numbered)
    events += "".join(work.format(w=key % 16 + 1, key=key) for key in reversed(range(64)))
    events += "".join(end.format(c=c) for c, _ in numbered)
    told = "".join(f"{name} {c} OK LOAD a 0 2\n" for c, name in numbered)
    told += "".join(f"{name} {c} OK ADVANCE a 1\n{name} {c} OK SHOW a 1 0 589 0 0\n" for c, name in numbered)
    return Run("64 users at once", tuple((name, (1, 2, 0)) for name in NAMES), ((events, 1),), told)


# There and back in 1,999 steps, each of which is six events.
LONG = Run(
    "twelve thousand events",
    (("A", (1, 2, 0)),),
    (
        ("hello 1 A; enter 1; arrive 1 LOAD a 256 1 131072 rest 28 (DIMER)", 1),
        ("arrive 1 ADVANCE a 1000; arrive 1 REVERSE a; arrive 1 ADVANCE a 999", 1),
        ("arrive 1 SHOW a 0; arrive 1 SHOW a 1; next 1; next 1", 1),
        (ONE_TASK, 1),
        ("turn 1; " + ONE_TASK, 999),
        ("turn 1; next 1; next 1", 1),
        (ONE_TASK, 1),
        ("turn 1; " + ONE_TASK, 998),
        ("turn 1; next 1; next 1; end 1; leave 1", 1),
    ),
    "A 1 OK LOAD a 0 2\nA 1 OK ADVANCE a 1000\nA 1 OK REVERSE a 999\nA 1 OK ADVANCE a 0\n"
    "A 1 OK SHOW a 0 0 0 0 0\nA 1 OK SHOW a 0 1 25165824 0 0\n",
)

# More lines and events than any room of fixed size, and as many items that wait in one connection as no room of 1,000 has.
MANY = Run(
    "a hundred thousand events",
    (("A", (1, 2, 0)),),
    (("hello 1 A; enter 1", 1), ("arrive 1 LIST", 1_200), ("next 1", 1_200), ("arrive 1 LIST; next 1", 49_400)),
    "A 1 OK LIST 0\n" * 50_600,
)

# User A of the two users at once again, as the second of three users and over two connections, the second of which waits for the first.
AMONG_OTHERS = Run(
    "a user among others",
    (("B", (1, 65, 0)), ("A", (4, 100, 4)), ("C", (1, 1, 1))),
    (
        (
            """hello 5 B; hello 64 A; hello 7 A; hello 1 C; enter 5; enter 7; enter 64; enter 1;
            arrive 7 SHOW c 0; arrive 7 SHOW c 64; arrive 5 LOAD c 256 1 65536 rest 651 (CHAIN);
            arrive 64 LOAD c 256 1 131072 rest 651 (CHAIN); arrive 5 ADVANCE c 3; arrive 7 MEASURE c;
            arrive 64 ADVANCE c 1; arrive 1 LIST; arrive 1 BYE; end 64; next 1; next 1; leave 1;
            next 5; next 5; post 5; post 5; post 5; post 5; next 64; next 64; post 64; post 64; post 64; post 64;
            take 16 7; take 15 6; take 14 5; take 13 4; take 1 0; take 2 0;
            compute 2; give 2; fetch 5 0; compute 1; compute 16; compute 15; compute 14; compute 13;
            give 14; give 16; fetch 64 6; give 1; give 13; give 15; give 15; fetch 64 9; fetch 64 9; fetch 64 9;
            turn 5; turn 64; enter 7; leave 64; enter 7; next 7; next 7; next 7; post 7; post 7; post 7;
            take 3 4; take 4 4; take 5 4; fetch 5 0; compute 5; give 5; compute 4; give 4; compute 3; give 3;
            fetch 7 0; fetch 7 0; fetch 7 0; fetch 5 0; turn 7; end 7; leave 7; turn 5""",
            1,
        ),
    ),
    "",
)

# One user loses two bodies, while another one loads.
LOSSES = Run(
    "a lost body is told to its user alone",
    TWO_USERS,
    (
        (
            """hello 1 A; hello 2 B; enter 1; enter 2; arrive 1 LOAD a 256 1 131072 rest 28 (DIMER);
            lost 2 LOAD a 256 1 131072 rest 28; lost 2 LOAD a 4.99 1 1 rest 28; arrive 2 LIST; next 2; next 1; next 2; next 2""",
            1,
        ),
    ),
    "B 2 ERR 90 MEMORY\nA 1 OK LOAD a 0 2\nB 2 ERR 37 SIGMA\nB 2 OK LIST 0\n",
)

# The two users at once, where the second one's last LOAD loses its body.
ONE_LOSS = Run(
    "a lost body changes no reply to another user",
    TWO_USERS,
    (
        (UP_TO_THE_TURN.replace("arrive 2 LOAD d 256 1 131072 rest 28 (DIMER)", "lost 2 LOAD d 256 1 131072 rest 28"), 1),
        (FROM_THE_TURN, 1),
    ),
    "A 1 OK LOAD c 0 65\nB 2 ERR 21 QUOTA_ATOMS\nB 2 ERR 90 MEMORY\nB 2 ERR 10 NO_SESSION\n"
    "A 1 OK ADVANCE c 1\nA 1 OK SHOW c 1 0 589 0 0\nA 1 OK SHOW c 1 64 1610612147 0 0\n"
    "A 1 OK MEASURE c 1 65 0 0 0 693842 -342445638\n",
)

RUNS = (*SESSIONS, *RESULTS, *IMPOSSIBLE, crowd(), LONG, MANY, LOSSES, ONE_LOSS)
