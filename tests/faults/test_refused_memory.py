"""Memory that is refused to the program, once in a run."""
from typing import Dict, List, Optional, Sequence, Set, Tuple

from schedule_tables import runs
from shared.loads import LOAD, LOADED
from shared.program import NO_MEMORY, Ended, Program, file_of
from shared.schedules import GREETING, STEP, USER
from shared.shims import refused_in_turn
from shared.texts import shown

PAIR = b"LOAD b 256 1 1 pair 44\n1\np\nH -0.0000003 0 0\n1\nc\nH -0.000000001 0 0\n"
MIX = b"LOADMIX m 256 Na Cl 1 1 1 1 1 1 1 1 1 rest 26\n" + runs.MIX.encode()
LISTS = [b"LIST\n", b"LIST a\n"]

TWICE = b"ERR 13 BRANCH_EXISTS\n"

# A command that takes memory, its reply, its reply once more, and those to LIST and to LIST a after it.
GROWTHS = [
    (LOAD, LOADED, b"ERR 11 EXISTS\n", [b"OK LIST 1\na 0 2 0\n", b"OK LIST a 0\n"]),
    (PAIR, b"OK LOAD b 0 1\n", b"ERR 11 EXISTS\n", [b"OK LIST 2\na 0 2 0\nb 0 1 0\n", b"OK LIST a 0\n"]),
    (b"BRANCH a k\n", b"OK BRANCH a k 1\n", TWICE, [b"OK LIST 2\na 1 2 1\nb 0 1 0\n", b"OK LIST a 1\nk 1\n"]),
    (b"BRANCH a l\n", b"OK BRANCH a l 2\n", TWICE, [b"OK LIST 2\na 2 2 2\nb 0 1 0\n", b"OK LIST a 2\nk 1\nl 2\n"]),
    (b"BRANCH b m\n", b"OK BRANCH b m 0\n", TWICE, [b"OK LIST 2\na 2 2 2\nb 0 1 1\n", b"OK LIST a 2\nk 1\nl 2\n"]),
    (MIX, b"OK LOADMIX m 0 2\n", b"ERR 11 EXISTS\n", [b"OK LIST 3\na 2 2 2\nb 0 1 1\nm 0 2 0\n", b"OK LIST a 2\nk 1\nl 2\n"]),
    (b"BRANCH m k\n", b"OK BRANCH m k 0\n", TWICE, [b"OK LIST 3\na 2 2 2\nb 0 1 1\nm 0 2 1\n", b"OK LIST a 2\nk 1\nl 2\n"]),
]

# A command that takes no memory comes ahead of one of these, with its reply and those to LIST and to LIST a after it. The BRANCH
# after START waits for the pending step.
AHEAD = {
    2: (b"ADVANCE a 1\n", b"OK ADVANCE a 1\n", [b"OK LIST 2\na 1 2 0\nb 0 1 0\n", b"OK LIST a 0\n"]),
    3: (b"START a 1\n", b"OK START a 2\n", [b"OK LIST 2\na 2 2 1\nb 0 1 0\n", b"OK LIST a 1\nk 1\n"]),
}


def growing(refused: Optional[int]) -> List[Tuple[bytes, bytes]]:
    """Items with their replies: each growth, the lists, the growth again and the lists, where memory is refused to one."""
    items: List[Tuple[bytes, bytes]] = []
    before = [b"OK LIST 0\n", b"ERR 10 NO_SESSION\n"]
    for number, (command, first, again, after) in enumerate(GROWTHS):
        if number in AHEAD:
            ahead, reply, before = AHEAD[number]
            items.append((ahead, reply))
        if number == refused:
            items += [(command, b"ERR 90 MEMORY\n"), *zip(LISTS, before), (command, first), *zip(LISTS, after)]
        else:
            items += [(command, first), *zip(LISTS, after), (command, again), *zip(LISTS, after)]
        before = after
    return items


def test_each_allocation_of_a_run_is_refused(program: Program, refuse_memory: str) -> None:
    """To the program, and to each growth."""
    data = b"".join(item for item, _ in growing(None))
    wanted: Dict[Ended, object] = {
        (0, b"".join(reply for _, reply in growing(refused)), b""): refused for refused in [None, *range(len(GROWTHS))]
    }
    wanted[NO_MEMORY] = "program"
    whole, seen = program.run(["run"], data), set()
    for number, ended in refused_in_turn(refuse_memory, lambda env: program.run(["run"], data, env=env), whole):
        assert ended in wanted, f"allocation {number}: {shown(ended)}"
        seen.add(wanted[ended])
    assert seen == set(wanted.values())


def two_growing(refused: Tuple[Optional[bytes], Optional[int]]) -> Tuple[bytes, bytes]:
    """A schedule in which two users grow by turns, and what it prints where memory is refused to one growth of one."""
    schedule = USER + USER.replace(b"A", b"B") + GREETING + GREETING.replace(b"1 A", b"2 B").replace(b"enter 1", b"enter 2")
    printed = b""
    dialogues = [growing(number if user == name else None) for user in (b"A", b"B") for name, number in [refused]]
    befores = [[b"", *(item for item, _ in dialogue)] for dialogue in dialogues]
    for before, turn in zip(zip(*befores), zip(*dialogues)):
        for connection, (name, last, (item, reply)) in enumerate(zip((b"A", b"B"), before, turn), 1):
            schedule += b"arrive %d %s" % (connection, item) + b"next %d\n" % connection
            if item.startswith(b"ADVANCE") or last.startswith(b"START"):
                schedule += STEP % (connection, connection, connection)
            printed += b"".join(b"%s %d %s" % (name, connection, line) for line in reply.splitlines(True))
    return schedule, printed


def test_each_allocation_of_a_replay_is_refused(program: Program, refuse_memory: str) -> None:
    """To the replay, and to each growth of one user alone."""
    cases = [(None, None), *((name, number) for name in (b"A", b"B") for number in range(len(GROWTHS)))]
    wanted: Dict[Ended, object] = {(0, two_growing(refused)[1], b""): refused for refused in cases}
    wanted[NO_MEMORY] = "program"
    schedule = two_growing((None, None))[0]
    whole, seen = program.replay_of(schedule), set()
    for number, ended in refused_in_turn(refuse_memory, lambda env: program.replay_of(schedule, env=env), whole):
        assert ended in wanted, f"allocation {number}: {shown(ended)}"
        seen.add(wanted[ended])
    assert seen == set(wanted.values())


def must_end_known(program: Program, library: str, words: Sequence[str], known: Sequence[bytes]) -> None:
    """A program of these words tells the first of these texts with all memory, and otherwise any, or that there is none."""
    ends: List[Ended] = [(0, told, b"") for told in known]
    allowed: Set[Ended] = {*ends, NO_MEMORY}
    for number, seen in refused_in_turn(library, lambda env: program.run(words, env=env), ends[0]):
        assert seen in allowed, f"allocation {number}: {shown(seen)}"


def test_nothing_is_written_where_there_is_no_memory_for_a_run(program: Program, refuse_memory: str) -> None:
    must_end_known(program, refuse_memory, ["run"], [b""])


def test_nothing_is_written_where_there_is_no_memory_for_a_replay(program: Program, refuse_memory: str) -> None:
    """Two items of it grow."""
    grows = USER + GREETING + b"arrive 1 " + LOAD + b"arrive 1 BRANCH a k\narrive 1 LIST\nnext 1\nnext 1\nnext 1\n"
    grown = [
        b"A 1 OK LOAD a 0 2\nA 1 OK BRANCH a k 0\nA 1 OK LIST 1\nA 1 a 0 2 1\n",
        b"A 1 OK LOAD a 0 2\nA 1 ERR 90 MEMORY\nA 1 OK LIST 1\nA 1 a 0 2 0\n",
        b"A 1 ERR 90 MEMORY\nA 1 ERR 10 NO_SESSION\nA 1 OK LIST 0\n",
    ]
    with file_of(grows) as path:
        must_end_known(program, refuse_memory, ["replay", path], grown)
