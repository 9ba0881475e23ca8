"""Jobs for the tests of ensembles, and a program that prints what is noted of them over an executor: mpi, dask or dask-lost.

usage: ensemble_jobs.py mpi|dask|dask-lost [FOLDER]
"""
import functools
import importlib
import os
import pathlib
import signal
import sys
from typing import Any, Dict, List, Tuple

from ljclient import Job, ensemble
from support import dimer


def begin(tug: Any, user: Any) -> Any:
    """Two atoms 1.5 sigma apart, the first of which is tugged."""
    session = dimer(user)
    session.tug(0, (tug, 0, 0))
    return session


def look(session: Any) -> Tuple[Any, Any]:
    return session.get_step(), tuple(map(int, session.place(0)))


def begin_two(user: Any) -> List[Any]:
    return [dimer(user, "a"), begin_named(user)]


def begin_named(user: Any) -> Any:
    session = dimer(user, "b")
    session.tug(1, (7, 0, 0))
    return session


def look_at_two(first: Any, second: Any) -> Tuple[Any, Any, Any]:
    return first.get_step(), second.get_step(), int(second.place(1)[0]) - int(first.place(1)[0])


def noted_begin(file: Any, tug: Any, user: Any) -> Any:
    """Begins, and adds a line to a file."""
    with open(file, "a") as lines:
        lines.write("begun\n")
    return begin(tug, user)


def look_and_die(marker: Any, step: Any, session: Any) -> Any:
    """Looks, and the first time that a session is at this step kills the process without a word."""
    if session.get_step() == step and not os.path.exists(marker):
        pathlib.Path(marker).touch()
        os.kill(os.getpid(), signal.SIGKILL)
    return look(session)


def look_and_fail(session: Any) -> Any:
    if session.get_step() == 20:
        raise ValueError("nothing to see here")
    return look(session)


def jobs(count: int = 6, steps: int = 30, every: int = 10) -> List[Any]:
    return [Job(functools.partial(begin, number), look, steps, every) for number in range(count)]


def jobs_that_lose(folder: Any, count: int = 4) -> Any:
    """Jobs of which the second one loses its worker at step 20, once."""
    made = [Job(functools.partial(noted_begin, os.path.join(folder, f"begun_{number}"), number), look, 30, 10) for number in range(count)]
    die = functools.partial(look_and_die, os.path.join(folder, "died"), 20)
    made[1] = Job(made[1].begin, die, 30, 10)
    return made


def over_dask(made: Any, **words: Any) -> Any:
    distributed: Any = importlib.import_module("distributed")
    local: Dict[str, Any] = {"n_workers": 2, "threads_per_worker": 1, "dashboard_address": None, "host": "127.0.0.1"}
    with distributed.Client(**local) as client:
        return ensemble(made, client.get_executor(), **words)


def main(kind: Any, folder: Any = None) -> None:
    if kind == "mpi":
        from mpi4py.futures import MPIPoolExecutor

        with MPIPoolExecutor() as pool:
            told = ensemble(jobs(), pool)
    elif kind == "dask":
        told = over_dask(jobs())
    else:
        told = over_dask(jobs_that_lose(folder), folder=folder, seconds=0)
    print(repr(told))


if __name__ == "__main__":
    main(*sys.argv[1:])
