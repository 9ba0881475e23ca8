"""A schedule of each kind of event, of which each and each of its numbers changes what is printed."""
from typing import Iterator, Tuple

from shared.loads import DIMER, load

TOKEN = "a" * 32
USERS = f"user A {TOKEN} 4 100 4\nuser B {TOKEN} 4 100 4\n"
LOAD = load("d", DIMER).decode()

# A line of each event, most of which are not possible, and two bodies: nothing is told, and no line is bad.
EACH_EVENT = (
    f"user A {TOKEN} 4 100 4\nhello 2 A {TOKEN}\narrive 3 ADVANCE d 7\narrive 4 LOAD d 1 2 3 pair 3\nx\n"
    "ylost 11 LOAD d 1 2 3 rest 3\narrive 4 LOADMIX d 3\nx\nylost 11 LOADMIX d 3\nend 5\nenter 6\nnext 7\npost 8\n"
    "take 16 3\ncompute 2\ngive 3\nhandback 4\nfetch 9 19\nturn 10\nturn 11 d\nleave 64\n"
)
EACH_EVENT_LINES = 21

# Two users step at once: worker 16 picks the task of B, which stands at key 1, and worker 2 hands that of A back.
EVENTS = (
    f"hello 9 A {TOKEN}\n",
    f"hello 64 B {TOKEN}\n",
    "enter 9\n",
    "enter 64\n",
    f"arrive 9 {LOAD}",
    "arrive 9 ADVANCE d 1\n",
    f"arrive 64 {LOAD}",
    "arrive 64 ADVANCE d 2\n",
    "next 9\n",
    "next 9\n",
    "next 64\n",
    "next 64\n",
    "post 9\n",
    "post 64\n",
    "take 16 1\n",
    "compute 16\n",
    "give 16\n",
    "fetch 64 19\n",
    "turn 64\n",
    "post 64\n",
    "take 1 1\n",
    "compute 1\n",
    "give 1\n",
    "fetch 64 0\n",
    "turn 64\n",
    "take 2 3\n",
    # Nothing is open while worker 2 has it.
    "take 3 0\nhandback 2\n",
    "take 4 0\n",
    "compute 4\n",
    "give 4\n",
    "fetch 9 1023\n",
    "turn 9\n",
    # A session is started, and what waits for it is answered at the turn that names it.
    "arrive 9 START d 1\n",
    "arrive 9 SHOW d 0\n",
    "next 9\n",
    "post 9\n",
    "take 5 0\n",
    "compute 5\n",
    "give 5\n",
    "fetch 9 0\n",
    "next 9\n",
    "turn 9 d\n",
    "arrive 9 LOAD e 256 1 1 pair 3\nx\ny",
    "lost 9 LOAD e 256 1 1 rest 3\n",
    "arrive 9 LOADMIX e 256 X Y 1 1 1 1 1 1 1 1 1 rest 3\n2\n3",
    "lost 9 LOADMIX e 256 X Y 1 1 1 1 1 1 1 1 0 rest 3\n",
    "next 9\n",
    "next 9\n",
    "next 9\n",
    "next 9\n",
    "end 9\n",
    f"hello 10 A {TOKEN}\n",
    "arrive 10 LIST\n",
    "leave 9\n",
    "enter 10\n",
    "next 10\n",
)
SCHEDULE = USERS + "".join(EVENTS)
TOLD = (
    "A 9 OK LOAD d 0 2\nB 64 OK LOAD d 0 2\nB 64 OK ADVANCE d 2\nA 9 OK ADVANCE d 1\n"
    "A 9 OK START d 2\nA 9 OK SHOW d 2 0 1774 0 0\nA 9 ERR 30 XYZ_COUNT line 1\n"
    "A 9 ERR 90 MEMORY\nA 9 ERR 31 XYZ_SHORT line 3\nA 9 ERR 40 WEIGHT\nA 10 OK LIST 1\nA 10 d 2 2 0\n"
)

# Events of the same form, of another connection, worker or pick.
OTHERS = (
    ("hello 9 A", "hello 8 A"),
    ("hello 64 B", "hello 64 A"),
    ("enter 64", "enter 63"),
    ("arrive 64 ADVANCE d 2", "arrive 64 ADVANCE d 3"),
    ("post 9", "post 8"),
    ("take 16 1", "take 15 1"),
    ("take 16 1", "take 16 0"),
    ("compute 16", "compute 15"),
    ("give 16", "give 15"),
    ("fetch 64 19", "fetch 19 64"),
    ("turn 9", "turn 10"),
    ("turn 9 d", "turn 9 e"),
    ("turn 9 d", "turn 64 d"),
    ("handback 2", "handback 3"),
    ("lost 9 LOAD e", "lost 8 LOAD e"),
    ("lost 9 LOADMIX", "lost 8 LOADMIX"),
    ("arrive 9 LOADMIX", "arrive 8 LOADMIX"),
    ("end 9", "end 8"),
    ("leave 9", "leave 8"),
    ("next 10", "next 1"),
)


def changed() -> Iterator[Tuple[str, str]]:
    """Schedules that lack one of the events, or have another one in its place, with what is changed in them."""
    for number, event in enumerate(EVENTS):
        yield f"without {event!r}", USERS + "".join(EVENTS[:number] + EVENTS[number + 1 :])
    for event, other in OTHERS:
        yield f"{other!r} in place of {event!r}", SCHEDULE.replace(event, other, 1)
