"""Several threads that use one user: none is told what another one asked for, and what each asks for is whole."""
import pathlib
import random
import signal
import threading
from concurrent.futures import ThreadPoolExecutor
from typing import Any, List

import pytest

from ljclient import run
from support import PROGRAM, SECONDS, dimer, interruptible, listed, present

ROUNDS = 30
NAMES = "abcd"


def in_threads(*works: Any) -> List[Any]:
    """What each of these returns, each in a thread of its own."""
    with ThreadPoolExecutor(len(works)) as pool:
        return [work.result(SECONDS) for work in [pool.submit(work) for work in works]]


def crystal(user: Any, name: str = "a", **words: Any) -> Any:
    """A session of 125 atoms in any order, in motion."""
    rows = [("Ar", 1.2 * (at % 5), 1.2 * (at // 5 % 5), 1.2 * (at // 25)) for at in range(125)]
    random.Random(7).shuffle(rows)
    session = user.load(name, rows, edge=8, sigma=1, h=65536, **words)
    session.heat(0.5, seed=3)
    return session


def look(session: Any) -> Any:
    """What a session is like at each of some steps."""
    seen = []
    for _ in range(ROUNDS):
        seen.append((session.advance(2), session.measure(), session.place(1), listed(session.places()), session.dump()))
    return seen


def test_four_threads_are_told_what_each_asks_for(user: Any) -> None:
    for number, name in enumerate(NAMES):
        dimer(user, name).tug(0, (number << 10, 0, 0))
    seen = in_threads(*[lambda name=name: look(user.session(name, edge=256, sigma=1, h=131072)) for name in NAMES])
    assert [row.step for row in user.sessions()] == [2 * ROUNDS] * 4
    with run(PROGRAM) as alone:
        for number, name in enumerate(NAMES):
            dimer(alone, name).tug(0, (number << 10, 0, 0))
        assert seen == [look(alone.session(name, edge=256, sigma=1, h=131072)) for name in NAMES]


def test_both_frames_are_read_while_another_thread_asks(user: Any) -> None:
    crystal(user, epsilon=1, mass=1)
    a = user.session("a")
    start, measured = listed(a.places()), a.measure()
    states, places, _ = in_threads(
        lambda: [user._state_of("a") for _ in range(ROUNDS)],
        lambda: [listed(a.places()) for _ in range(ROUNDS)],
        lambda: [a.place(0) for _ in range(10 * ROUNDS)],
    )
    assert all(listed(state.places) == start and state.step == 0 for state in states)
    assert places == [start] * ROUNDS
    assert a.measure() == measured


def test_atoms_are_sorted_anew_while_another_thread_reads_them(user: Any) -> None:
    a = crystal(user, order="space")
    start = listed(a.places())
    _, places, atoms = in_threads(
        lambda: [a.resort() for _ in range(ROUNDS)],
        lambda: [listed(a.places()) for _ in range(ROUNDS)],
        lambda: [a.place(3) for _ in range(ROUNDS)],
    )
    assert places == [start] * ROUNDS
    assert atoms == [start[3]] * ROUNDS


def is_free(user: Any) -> Any:
    """Whether another thread could use the user now."""

    def try_it() -> Any:
        if got := user.lock.acquire(blocking=False):
            user.lock.release()
        return got

    return in_threads(try_it)[0]


@pytest.mark.parametrize(
    "ask",
    [
        lambda a, _: a.heat(0.3),
        lambda a, _: a.resort(),
        lambda a, _: a.restore("there"),
        lambda a, _: a.tug(1, (1, 2, 3)),
        lambda a, _: a.advance(600),
        lambda a, _: a.positions(),
        lambda a, _: list(a.thermo(every=3, rows=2)),
        lambda a, folder: a.save(folder / "a.saved"),
        lambda a, _: a.saved(),
    ],
    ids=["heat", "resort", "restore", "tug", "advance", "positions", "thermo", "save", "saved"],
)
def test_what_takes_several_commands_is_whole(user: Any, monkeypatch: pytest.MonkeyPatch, tmp_path: pathlib.Path, ask: Any) -> None:
    a = crystal(user, order="space", epsilon=1, mass=1)
    a.branch("there")
    if "resort" in ask.__code__.co_names:
        a.forget("there")
    seen = []
    for name in ("_ask_commands", "_ask_text", "_ask_rows"):
        asked = getattr(user, name)

        def ask_and_see(words: Any, asked: Any = asked) -> Any:
            seen.append(is_free(user))
            return asked(words)

        monkeypatch.setattr(user, name, ask_and_see)
    ask(a, tmp_path)
    assert set(seen) == {False}


def test_a_long_run_leaves_the_user_to_others(user: Any) -> None:
    a, b = dimer(user), dimer(user, "b")
    begun, measured = threading.Event(), threading.Event()

    class Enough(Exception):
        pass

    def report(done: Any, total: Any) -> None:
        begun.set()
        if measured.is_set():
            raise Enough

    def measure() -> None:
        assert begun.wait(SECONDS)
        b.measure()
        measured.set()

    def go_on() -> None:
        with pytest.raises(Enough):
            a.advance(10**9, progress=report)

    in_threads(go_on, measure)


def test_several_calls_are_whole_under_the_lock(user: Any) -> None:
    a = dimer(user)

    def forth_and_back() -> None:
        for _ in range(ROUNDS):
            with user.lock:
                a.advance(3)
                a.reverse()
                a.advance(3)
                a.reverse()

    _, steps = in_threads(forth_and_back, lambda: [a.get_step() for _ in range(ROUNDS)])
    assert set(steps) == {0}


def test_an_interrupt_ends_the_wait_for_another_thread(user: Any) -> None:
    a = dimer(user)
    begun, over = threading.Event(), threading.Event()

    def hold() -> None:
        with user.lock:
            begun.set()
            assert over.wait(SECONDS)

    def press() -> None:
        assert begun.wait(SECONDS)
        signal.pthread_kill(present(threading.main_thread().ident), signal.SIGINT)

    threads = [threading.Thread(target=target) for target in (hold, press)]
    try:
        with interruptible(), pytest.raises(KeyboardInterrupt):
            for thread in threads:
                thread.start()
            assert begun.wait(SECONDS)
            a.advance(1)
    finally:
        over.set()
        for thread in threads:
            thread.join(SECONDS)
    assert a.advance(1) == 1
