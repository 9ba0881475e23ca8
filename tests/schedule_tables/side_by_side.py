"""Schedules of users with several sessions at work, and what a replay of each prints."""
from typing import Tuple

from schedule_tables.runs import ONE_USER, TWO_USERS, Part, Run, User

# A user who may have two sessions of 513 atoms.
WIDER: Tuple[User, ...] = (("A", (4, 2000, 4)),)

# Two sessions of two atoms, and the first items of the connection begun.
TWO_LOADED = """hello 1 A; enter 1; arrive 1 LOAD a 256 1 131072 rest 28 (DIMER); arrive 1 LOAD b 256 1 131072 rest 28 (DIMER);
    next 1; next 1"""
TOLD_OF_TWO = "A 1 OK LOAD a 0 2\nA 1 OK LOAD b 0 2\n"

# The task that is posted next, until its result is fetched; and the same by another worker.
TASK = "post 1; take 1 0; compute 1; give 1; fetch 1 0"
TASK_OF_3 = "post 1; take 3 0; compute 3; give 3; fetch 1 0"

# Both sessions are started, and the one task of each is done and fetched.
BOTH_WHOLE = f"{TWO_LOADED}; arrive 1 START a 1; arrive 1 START b 1; next 1; next 1; {TASK}; {TASK}"
TOLD_OF_BOTH = TOLD_OF_TWO + "A 1 OK START a 1\nA 1 OK START b 1\n"

TURNS = (
    # The task of b is given first, and b is shown while a has its whole way to go.
    Run(
        "a session is shown while another one goes on",
        ONE_USER,
        (
            (
                f"""{TWO_LOADED}; arrive 1 START a 2; arrive 1 START b 1; arrive 1 SHOW b 0; arrive 1 SHOW a 0; arrive 1 LIST;
                next 1; next 1; post 1; post 1; post 1; next 1; next 1; take 1 0; take 2 0; take 3 0;
                compute 2; give 2; fetch 1 0; turn 1 a; turn 1 b; next 1; turn 1 b; next 1;
                compute 1; give 1; fetch 1 0; turn 1 b; turn 1 a; next 1; {TASK}; turn 1; next 1""",
                1,
            ),
        ),
        TOLD_OF_TWO + "A 1 OK START a 2\nA 1 OK START b 1\nA 1 OK SHOW b 1 0 589 0 0\nA 1 OK SHOW a 2 0 1774 0 0\n"
        "A 1 OK LIST 2\nA 1 a 2 2 0\nA 1 b 1 2 0\n",
    ),
    # Where no session is named, the one that was loaded first is turned, and what waits for the other one waits on.
    Run(
        "the first of two sessions that are ready is turned first",
        ONE_USER,
        ((f"{BOTH_WHOLE}; arrive 1 SHOW b 0; next 1; turn 1; arrive 1 LIST; next 1", 1),),
        TOLD_OF_BOTH,
    ),
    Run(
        "then the second one",
        ONE_USER,
        ((f"{BOTH_WHOLE}; arrive 1 SHOW b 0; next 1; turn 1; turn 1; turn 1; arrive 1 LIST; next 1", 1),),
        TOLD_OF_BOTH + "A 1 OK SHOW b 1 0 589 0 0\nA 1 OK LIST 2\nA 1 a 1 2 0\nA 1 b 1 2 0\n",
    ),
    Run(
        "the one that is named is turned",
        ONE_USER,
        ((f"{BOTH_WHOLE}; arrive 1 SHOW b 0; next 1; turn 1 c; turn 1 b; turn 1 b; arrive 1 SHOW a 0; next 1; turn 1 a", 1),),
        TOLD_OF_BOTH + "A 1 OK SHOW b 1 0 589 0 0\nA 1 OK SHOW a 1 0 589 0 0\n",
    ),
    # Nothing waits while the steps are done, and then nothing is left to wait for.
    Run(
        "steps are done where nothing waits",
        ONE_USER,
        (
            (f"{BOTH_WHOLE}; turn 1; turn 1; post 1; fetch 1 0; turn 1", 1),
            ("arrive 1 SHOW a 0; next 1; arrive 1 SHOW b 0; next 1", 1),
        ),
        TOLD_OF_BOTH + "A 1 OK SHOW a 1 0 589 0 0\nA 1 OK SHOW b 1 0 589 0 0\n",
    ),
)

WAITS = (
    # The energies of a are summed while b goes on: no turn of b answers MEASURE, and b is not held up by it.
    Run(
        "a session is measured while another one goes on",
        ONE_USER,
        (
            (
                f"""{TWO_LOADED}; arrive 1 START b 2; arrive 1 MEASURE a; arrive 1 MEASURE b; next 1; next 1;
                post 1; post 1; post 1; take 1 0; take 2 0; compute 2; give 2; fetch 1 0; turn 1 a; turn 1 b; next 1;
                {TASK_OF_3}; turn 1 b; turn 1; next 1; compute 1; give 1; fetch 1 0; turn 1 b; turn 1 a; turn 1 a;
                next 1; {TASK}; turn 1 a; turn 1 b; turn 1 b""",
                1,
            ),
        ),
        TOLD_OF_TWO + "A 1 OK START b 2\nA 1 OK MEASURE a 0 2 0 0 0 0 -5349132\nA 1 OK MEASURE b 2 2 0 0 0 2808450 -5399727\n",
    ),
    # The steps of ADVANCE come after the pending ones, each once.
    Run(
        "an ADVANCE waits for the pending steps, and then for its own",
        ONE_USER,
        (
            (f"{TWO_LOADED}; arrive 1 START a 1; arrive 1 ADVANCE a 1; arrive 1 SHOW a 0; next 1; next 1; next 1", 1),
            (f"{TASK}; turn 1; next 1", 2),
            ("arrive 1 ADVANCE a 0; next 1; next 1", 1),
        ),
        TOLD_OF_TWO + "A 1 OK START a 1\nA 1 OK ADVANCE a 2\nA 1 OK SHOW a 2 0 1774 0 0\nA 1 OK ADVANCE a 2\n",
    ),
    Run(
        "refusals wait as well, and what needs no session does not",
        ONE_USER,
        (
            (
                f"""{TWO_LOADED}; arrive 1 START a 1; arrive 1 LIST a; arrive 1 FORGET a k; arrive 1 LIST;
                arrive 1 LOAD c 256 1 131072 rest 28 (DIMER); lost 1 LOAD d 256 1 131072 rest 28; arrive 1 START a 1;
                arrive 1 REVERSE z; arrive 1 SHOW a 2; arrive 1 DROP a; arrive 1 LIST""",
                1,
            ),
            ("next 1", 11),
            (f"{TASK}; next 1; turn 1", 1),
            (f"next 1; {TASK}; turn 1", 1),
            ("next 1; next 1; next 1", 1),
        ),
        TOLD_OF_TWO + "A 1 OK START a 1\nA 1 OK LIST a 0\nA 1 ERR 12 NO_BRANCH\nA 1 OK LIST 2\nA 1 a 1 2 0\nA 1 b 0 2 0\n"
        "A 1 OK LOAD c 0 2\nA 1 ERR 90 MEMORY\nA 1 OK START a 2\nA 1 ERR 10 NO_SESSION\nA 1 ERR 14 NO_ATOM\nA 1 OK DROP a\n"
        "A 1 OK LIST 2\nA 1 b 0 2 0\nA 1 c 0 2 0\n",
    ),
)

# A connection starts two steps and ends, with the task of the first one fetched. The next connection of the user enters.
LEFT_PENDING = """hello 1 A; hello 2 A; enter 1; arrive 1 LOAD a 256 1 131072 rest 28 (DIMER); arrive 1 START a 2; arrive 1 BYE;
    next 1; next 1; post 1; take 1 0; compute 1; give 1; fetch 1 0; next 1; enter 2; leave 1; enter 2"""
TOLD_OF_LEFT = "A 1 OK LOAD a 0 2\nA 1 OK START a 2\nA 1 OK BYE\n"
TASK_OF_NEXT = TASK.replace("post 1", "post 2").replace("fetch 1", "fetch 2")

LEAVES = (
    # What the first one fetched is not kept: the step begins anew, and no turn is possible before its task is done once more.
    Run(
        "pending steps are done for the next connection",
        ONE_USER,
        (
            (f"{LEFT_PENDING}; arrive 2 LIST; next 2; arrive 2 SHOW a 0; next 2; turn 2; turn 2 a; next 2", 1),
            (f"{TASK_OF_NEXT}; turn 2", 2),
        ),
        TOLD_OF_LEFT + "A 2 OK LIST 1\nA 2 a 2 2 0\nA 2 OK SHOW a 2 0 1774 0 0\n",
    ),
    Run(
        "one task of the pending steps is not enough",
        ONE_USER,
        ((f"{LEFT_PENDING}; arrive 2 SHOW a 0; next 2; {TASK_OF_NEXT}; turn 2; turn 2", 1),),
        TOLD_OF_LEFT,
    ),
    # A worker has the task of a connection that has left. It is that of the next one's first step, and its result is taken
    # once that task is out, and not before.
    Run(
        "a result of the connection before",
        ONE_USER,
        (
            (
                """hello 1 A; hello 2 A; enter 1; arrive 1 LOAD a 256 1 131072 rest 28 (DIMER); arrive 1 START a 1; end 1;
                next 1; next 1; post 1; take 1 0; leave 1; enter 2; arrive 2 SHOW a 0; next 2; compute 1; give 1;
                fetch 2 0; turn 2; post 2; give 1; fetch 2 0; turn 2; take 2 0; give 1; fetch 2 0; turn 2""",
                1,
            ),
        ),
        "A 1 OK LOAD a 0 2\nA 1 OK START a 1\nA 2 OK SHOW a 1 0 589 0 0\n",
    ),
    # The connection has ended, and its last item waits.
    Run(
        "nobody leaves while an item waits",
        ONE_USER,
        (
            (
                f"""hello 1 A; hello 2 A; enter 1; arrive 1 LOAD a 256 1 131072 rest 28 (DIMER); arrive 1 START a 1;
                arrive 1 SHOW a 0; end 1; next 1; next 1; leave 1; next 1; leave 1; enter 2; arrive 2 LIST; next 2; {TASK};
                leave 1; turn 1; leave 1; enter 2; next 2""",
                1,
            ),
        ),
        "A 1 OK LOAD a 0 2\nA 1 OK START a 1\nA 1 OK SHOW a 1 0 589 0 0\nA 2 OK LIST 1\nA 2 a 1 2 0\n",
    ),
)

# Two sessions whose step has 44 tasks each, of which 64 together are posted and not fetched at the most.
TWO_CROWDS = """hello 1 A; enter 1;
    arrive 1 LOAD c 256 1 131072 rest 4114 (CROWD); arrive 1 LOAD d 256 1 131072 rest 4114 (CROWD);
    arrive 1 START c 1; arrive 1 START d 1; arrive 1 SHOW d 0; next 1; next 1; next 1; next 1"""
TOLD_OF_CROWDS = "A 1 OK LOAD c 0 513\nA 1 OK LOAD d 0 513\nA 1 OK START c 1\nA 1 OK START d 1\n"
FIRST_TASKS: Tuple[Part, ...] = (
    (TWO_CROWDS, 1),
    ("post 1", 88),
    ("take 1 0; compute 1; give 1", 88),
    ("fetch 1 0", 88),
    ("next 1; turn 1 d; turn 1; turn 1", 1),
)

MANY_TASKS = (
    Run("64 tasks are posted for two sessions together", WIDER, FIRST_TASKS, TOLD_OF_CROWDS),
    Run(
        "the rest is posted once the first ones are fetched",
        WIDER,
        (*FIRST_TASKS, ("post 1; take 1 0; compute 1; give 1; fetch 1 0", 23), ("turn 1", 1), (TASK, 1), ("turn 1", 1)),
        TOLD_OF_CROWDS + "A 1 OK SHOW d 1 0 16777216 16777216 16777216\n",
    ),
    Run(
        "one task of the rest is missing",
        WIDER,
        (*FIRST_TASKS, ("post 1; take 1 0; compute 1; give 1; fetch 1 0", 23), ("turn 1 d; turn 1", 1)),
        TOLD_OF_CROWDS,
    ),
)

# Both users have a session of one name, and each of them another one at work; their results are fetched by turns.
TWO_AT_WORK = Run(
    "two users with two sessions each",
    TWO_USERS,
    (
        (
            """hello 1 A; hello 2 B; enter 1; enter 2; arrive 1 LOAD a 256 1 131072 rest 28 (DIMER);
            arrive 2 LOAD b 256 1 131072 rest 28 (DIMER); arrive 1 LOAD b 256 1 131072 rest 28 (APART);
            arrive 2 LOAD a 256 1 131072 rest 28 (APART); arrive 1 START a 1; arrive 2 START a 1; arrive 1 START b 1;
            arrive 2 START b 1; arrive 1 SHOW b 1; arrive 2 SHOW b 1; arrive 1 SHOW a 1; arrive 2 SHOW a 1""",
            1,
        ),
        ("next 1; next 2", 5),
        ("post 1; post 2", 2),
        ("take 1 3; take 2 2; take 3 1; take 4 0; compute 1; give 1; compute 2; give 2; compute 3; give 3", 1),
        ("compute 4; give 4; fetch 2 3; fetch 1 2; turn 2; turn 2 a; turn 1; turn 1 b; fetch 1 0; fetch 2 0", 1),
        ("turn 1; turn 2; next 2; next 1", 1),
    ),
    "A 1 OK LOAD a 0 2\nB 2 OK LOAD b 0 2\nA 1 OK LOAD b 0 2\nB 2 OK LOAD a 0 2\nA 1 OK START a 1\nB 2 OK START a 1\n"
    "A 1 OK START b 1\nB 2 OK START b 1\n"
    "A 1 OK SHOW b 1 1 159383552 0 0\nB 2 OK SHOW b 1 1 25165235 0 0\nB 2 OK SHOW a 1 1 159383552 0 0\n"
    "A 1 OK SHOW a 1 1 25165235 0 0\n",
)

RUNS = (*TURNS, *WAITS, *LEAVES, *MANY_TASKS, TWO_AT_WORK)
