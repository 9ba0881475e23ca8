"""Replays of schedules: what is known of each, what is refused, and how much memory one takes."""
import os
from operator import attrgetter
from typing import Dict, List, Tuple

import pytest
from schedule_tables import lines, mixtures, runs, side_by_side
from schedule_tables.runs import Run
from shared.loads import LOAD
from shared.program import TOP, Program, contents, file_of
from shared.schedules import GREETING, STEP, USER
from shared.texts import must_be

TWO_USERS = os.path.join(TOP, "examples", "two_users.schedule")


@pytest.mark.parametrize("name", ["side_by_side", "two_users"])
def test_the_examples(program: Program, name: str) -> None:
    path = os.path.join(TOP, "examples", f"{name}.schedule")
    assert program.run(["replay", path]) == (0, contents("examples", f"{name}.replies"), b"")


def test_a_replay_reads_no_input(program: Program) -> None:
    seen = program.run(["replay", TWO_USERS], b"LIST\n", stdin=None, preexec_fn=lambda: os.close(0))
    assert seen == (0, contents("examples", "two_users.replies"), b"")


def test_a_schedule_without_events(program: Program) -> None:
    assert program.replay_of(USER) == (0, b"", b"")


@pytest.mark.parametrize("words", [[], [TWO_USERS, TWO_USERS], ["--sessions", "3", TWO_USERS]], ids=["none", "two", "an option"])
def test_usage_faults(program: Program, words: List[str]) -> None:
    status, out, err = program.run(["replay", *words])
    assert (status, out) == (2, b"") and err.startswith(b"error: "), (status, out, err)


def test_help_names_the_file(program: Program) -> None:
    assert b"<FILE>" in program.run(["replay", "--help"])[1]


@pytest.mark.parametrize("each", [*runs.RUNS, *mixtures.RUNS, *side_by_side.RUNS], ids=attrgetter("name"))
def test_runs(program: Program, each: Run) -> None:
    status, told, err = program.replay_of(each.schedule())
    must_be(told, each.told.encode())
    assert (status, err) == (0, b"")


def case_of(schedule: str) -> str:
    """The name of a case: the last words of a schedule that is short, or the first of a long one."""
    return repr(schedule[-60:] if len(schedule) < 400 else schedule[:60])


@pytest.mark.parametrize("schedule, told", [pytest.param(*each, id=case_of(each[0])) for each in lines.PRINTED])
def test_lines(program: Program, schedule: str, told: str) -> None:
    status, seen, err = program.replay_of(schedule.encode())
    must_be(seen, told.encode())
    assert (status, err) == (0, b"")


def told_to(name: bytes, printed: bytes) -> List[bytes]:
    """What a user of this name was told, without the numbers of its connections."""
    lines = (line.split(b" ", 2) for line in printed.splitlines())
    return [line for user, _, line in lines if user == name]


def test_a_user_is_told_the_same_among_others(program: Program) -> None:
    alone = runs.SESSIONS[0].told.encode()
    status, printed, _ = program.replay_of(runs.AMONG_OTHERS.schedule())
    assert (status, told_to(b"A", printed)) == (0, told_to(b"A", alone))


def test_a_run_that_is_cut_tells_the_first_replies(program: Program) -> None:
    status, printed, _ = program.replay_of(runs.AMONG_OTHERS.schedule())
    seen, first = told_to(b"A", printed), told_to(b"A", runs.SESSIONS[1].told.encode())
    assert status == 0 and first and seen[: len(first)] == first


@pytest.mark.parametrize("name", ["/none/such", TOP, ""])
def test_files_that_cannot_be_read(program: Program, name: str) -> None:
    assert program.run(["replay", name]) == (2, b"", f"ljserve: cannot read {name}\n".encode())


REFUSED = [
    *((schedule.encode(), number) for schedule, number in (*lines.BAD_SCHEDULES, (lines.CROWDED, 65))),
    *[(USER + b"enter 65\n", 2), (USER * 2, 2), (USER + b"\n\xff", 3)],
]


@pytest.mark.parametrize("schedule, number", [pytest.param(*each, id=case_of(repr(each[0])[2:-1])) for each in REFUSED])
def test_lines_that_are_refused(program: Program, schedule: bytes, number: int) -> None:
    assert program.replay_of(schedule) == (2, b"", f"ljserve: schedule line {number}\n".encode())


def most_memory_of_replay(program: Program, rounds: int) -> Tuple[int, int]:
    """How a replay of so many steps of two atoms ends, and the most memory that it takes at once, in kilobytes."""
    schedule = USER + GREETING + b"arrive 1 " + LOAD + b"arrive 1 ADVANCE a 1000000\nnext 1\nnext 1\n" + STEP % (1, 1, 1) * rounds
    with file_of(schedule) as path:
        silent = [(os.POSIX_SPAWN_OPEN, 1, os.devnull, os.O_WRONLY, 0)]
        environment: Dict[str, str] = {}
        child = os.posix_spawn(program.path, [program.path, "replay", path], environment, file_actions=silent)
        _, status, usage = os.wait4(child, 0)
    return status, usage.ru_maxrss


def test_a_step_of_a_replay_leaves_nothing_behind(program: Program) -> None:
    few, many = most_memory_of_replay(program, 100), most_memory_of_replay(program, 10_100)
    assert (few[0], many[0]) == (0, 0)
    assert (many[1] - few[1]) * 1024 / 60_000 < 400, "bytes per event"
