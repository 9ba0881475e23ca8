"""Many independent runs on any executor of `concurrent.futures`: threads, processes, MPI, Dask.

A run is a `Job`. It has its own program wherever it runs, so its results are the same to the byte. If a worker is lost, its job
starts again from its last checkpoint.
"""
from __future__ import annotations

import contextlib
import functools
import math
import os
import pathlib
import tempfile
import time
from dataclasses import dataclass
from typing import TYPE_CHECKING, Any, Callable, ContextManager, Dict, Iterator, List, NamedTuple, Optional, Sequence, Tuple, Union

from . import notes, progress as bars
from .errors import ConnectionLost, Damaged
from .files import Path, write_whole
from .notes import Noted
from .session import Session
from .connecting import Program, run
from .user import User

# Executors and pickle are imported where an ensemble runs, since this takes a tenth of the time of all other imports.
if TYPE_CHECKING:
    from concurrent.futures import Executor, Future

# Names of Dask's errors for a lost worker. Dask need not be installed.
LOST_NAMES = ("KilledWorker", "CommClosedError")
OLD_NOTES = "delete it, so that its job is computed again, or use another folder="
# An executor, a function that returns one, or None.
Pool = Union["Executor", Callable[[], "Executor"], None]
# The notes of each finished job, by its number.
Results = Dict[int, List[Any]]


@dataclass(frozen=True)
class Job:
    """One run of `ensemble`: how it begins, what is measured, and how many steps it has.

    `begin` and `look` must be functions of a module, or a `functools.partial` of one, since they are sent to other processes. With a
    `folder`, `look` may return None, numbers, strings, and lists, tuples, dicts and numpy arrays of them. Checkpoints do not contain
    branches, so `look` must not need one.

    Attributes
    ----------
    begin : callable
        A function that gets a user of a program of its own, loads atoms, and returns the session, or a list of sessions, which then
        advance at the same time.
    look : callable
        A function that gets these sessions as arguments, at the beginning and after each `every` steps. Its results are collected.
    steps : int
        The number of steps.
    every : int
        The number of steps from one call of `look` to the next.
    """

    begin: Callable[[User], Union[Session, Sequence[Session]]]
    look: Callable[..., Any]
    steps: int
    every: int

    def __post_init__(self) -> None:
        if self.steps < 0 or self.every < 1:
            raise ValueError(f"steps must be 0 or more, and every at least 1, got {self.steps} and {self.every}")


class Task(NamedTuple):
    """A job with the place of its checkpoints, the seconds between two of them, its program, and whether the folder is kept."""

    job: Job
    place: str
    seconds: float
    program: Optional[str]
    is_kept: bool


def ensemble(
    jobs: Sequence[Job],
    executor: Pool = None,
    *,
    folder: Optional[Path] = None,
    seconds: float = 10.0,
    tries: int = 3,
    program: Optional[Program] = None,
    progress: Union[bool, bars.Report, None] = None,
) -> List[List[Any]]:
    """Runs jobs, and returns for each job the list of the results of its `look`, in the order of the jobs.

    `executor` is an executor of `concurrent.futures`, or a function that returns one, such as `ProcessPoolExecutor`: then `ensemble`
    can make a new executor after a lost worker has broken the old one. Without an executor the jobs run here, one after the other. A
    job whose worker is lost starts again from its last checkpoint, and is tried `tries` times at most. If a job raises an error,
    `ensemble` raises it immediately.

    Checkpoints are written into `folder`, for each job at most one every `seconds` seconds, and a later call with the same jobs
    continues from them. Workers on other machines need access to the folder. Without `folder` a temporary folder is used. `program` is
    as in `run`. `progress=True` shows a progress bar of tqdm at a terminal or in a notebook; a function is called with the number of
    jobs that are done and the number of all jobs.

    With `folder`, the results of `look` are stored there as JSON. Other types raise a TypeError at the first call of `look`. If the
    folder has pickles of an old version, a ValueError is raised, and they are not read.
    """
    named = None if program is None else os.fspath(program)
    results: Results = {}
    if tries < 1:
        raise ValueError(f"tries must be at least 1, got {tries}")
    with _made(folder) as place, bars.reporter(progress or False, "jobs", unit="job") as report:
        names = [f"job_{number}" + (f"_{_key_of(job)}" if folder is not None else "") for number, job in enumerate(jobs)]
        is_kept = folder is not None
        tasks = {number: Task(job, str(place / names[number]), seconds, named, is_kept) for number, job in enumerate(jobs)}
        for turn in range(tries):
            lost = _round(executor, tasks, results, report)
            if lost is None:
                break
            if turn == tries - 1 or _has_broken(executor, lost):
                raise lost
    return [results[number] for number in range(len(tasks))]


def _has_broken(executor: Pool, lost: BaseException) -> bool:
    """Whether a lost worker has broken an executor that the caller made."""
    from concurrent.futures import BrokenExecutor, Executor

    return isinstance(executor, Executor) and isinstance(lost, BrokenExecutor)


def _round(executor: Pool, tasks: Dict[int, Task], results: Results, report: Optional[bars.Report]) -> Optional[BaseException]:
    """Runs the jobs that have no results yet. Returns the error of a lost worker, if there was one."""
    lost: Optional[BaseException] = None
    with _opened(executor) as pool:
        for number, told in _told_by(pool, {number: task for number, task in tasks.items() if number not in results}):
            if isinstance(told, BaseException):
                lost = told
                continue
            results[number] = told
            if report is not None:
                report(len(results), len(tasks))
    return lost


@contextlib.contextmanager
def _made(folder: Optional[Path]) -> Iterator[pathlib.Path]:
    """The folder of checkpoints. A temporary folder is removed at the end."""
    if folder is None:
        with tempfile.TemporaryDirectory() as temporary:
            yield pathlib.Path(temporary)
    else:
        try:
            os.makedirs(folder, exist_ok=True)
        except FileExistsError:
            raise ValueError(f"folder must be one for the checkpoints, got the file {os.fspath(folder)}; use another name") from None
        yield pathlib.Path(folder).resolve()


def perform(task: Task) -> List[Any]:
    """Runs a job from its last checkpoint, or from its beginning."""
    job, kept = task.job, _kept_at(task)
    if kept is not None and kept.done == job.steps:
        return kept.notes
    with run(task.program) as user:
        done, noted, sessions = _resumed(user, task, kept) or _begun(user, task)
        saved_at = time.monotonic()
        while done < job.steps:
            piece = min(job.every, job.steps - done)
            user.advance(sessions, piece)
            noted.append(_look(task, sessions))
            done += piece
            if done == job.steps or time.monotonic() - saved_at >= task.seconds:
                _keep(task, done, noted, sessions if done < job.steps else [])
                saved_at = time.monotonic()
        return noted


def _look(task: Task, sessions: Sequence[Session]) -> Any:
    """The result of `look` now. Raises TypeError if the folder is kept and the result cannot be stored there."""
    note = task.job.look(*sessions)
    if task.is_kept:
        notes.to_json(note)
    return note


def _begun(user: User, task: Task) -> Tuple[int, List[Any], List[Session]]:
    loaded = task.job.begin(user)
    sessions = [loaded] if isinstance(loaded, Session) else list(loaded)
    return 0, [_look(task, sessions)], sessions


def _resumed(user: User, task: Task, kept: Optional[Noted]) -> Optional[Tuple[int, List[Any], List[Session]]]:
    """Continues from a checkpoint. One with damaged or missing files is ignored: the same notes are computed again."""
    if kept is None:
        return None
    sessions = []
    try:
        for file in _files_of(task, kept.done, kept.sessions):
            sessions.append(user.load_saved(file))
    except (OSError, Damaged):
        for session in sessions:
            session.drop()
        return None
    return kept.done, kept.notes, sessions


def _files_of(task: Task, done: int, sessions: int) -> List[str]:
    """The names of the files of a job's sessions. They are not read from a file, so no file can cause others to be read or removed."""
    return [f"{task.place}.{done}.{number}.saved" for number in range(sessions)]


def _keep(task: Task, done: int, noted: List[Any], sessions: Sequence[Session]) -> None:
    """Writes a checkpoint. The previous one stays until this one is complete. In a folder that is not kept, notes of other types get
    no checkpoint: their job begins again if its worker is lost."""
    try:
        text = notes.text_of(Noted(done, len(sessions), noted))
    except TypeError:
        if task.is_kept:
            raise
        return
    before, files = _kept_at(task), _files_of(task, done, len(sessions))
    for session, file in zip(sessions, files):
        session.save(file)
    write_whole(f"{task.place}.notes", text)
    for file in _files_of(task, before.done, before.sessions) if before is not None else []:
        if file not in files:
            pathlib.Path(file).unlink(missing_ok=True)


def _kept_at(task: Task) -> Optional[Noted]:
    """The last checkpoint of a job. None if there is none that can be read and fits the job.

    Raises ValueError for a pickle of an earlier version.
    """
    path = f"{task.place}.notes"
    try:
        with open(path, "rb") as stream:
            data = stream.read()
    except OSError:
        return None
    if data.startswith(notes.PICKLE):
        raise ValueError(f"cannot read {path}: it is a pickle of an earlier ljclient, which could run anything; {OLD_NOTES}")
    try:
        kept = notes.read(data)
    except ValueError:
        return None
    looks = 1 + math.ceil(kept.done / task.job.every)
    is_whole = kept.done <= task.job.steps and len(kept.notes) == looks and (kept.sessions > 0 or kept.done == task.job.steps)
    return kept if is_whole else None


def _key_of(job: Job) -> str:
    """A hash of a job. In a folder that is kept it separates the files of jobs with the same number."""
    import hashlib
    import pickle

    return hashlib.sha256(pickle.dumps(job)).hexdigest()[:16]


def _told_by(pool: Optional[Executor], tasks: Dict[int, Task]) -> Iterator[Tuple[int, Union[List[Any], BaseException]]]:
    """The number of each task, with its notes or the error of its lost worker."""
    from concurrent.futures import BrokenExecutor

    if pool is None:
        for number, task in tasks.items():
            yield number, _result_of(functools.partial(perform, task))
        return
    futures: Dict[int, "Future[List[Any]]"] = {}
    try:
        for number, task in tasks.items():
            futures[number] = pool.submit(perform, task)
        for number, future in futures.items():
            yield number, _result_of(future.result)
    except BrokenExecutor as error:
        yield -1, error
    finally:
        for future in futures.values():
            future.cancel()


def _result_of(job: Callable[[], List[Any]]) -> Union[List[Any], BaseException]:
    """The notes of a job, or the error that shows the loss of its worker. Any other error is raised."""
    from concurrent.futures import BrokenExecutor, CancelledError

    try:
        return job()
    except (BrokenExecutor, CancelledError, ConnectionLost) as error:
        return error
    except Exception as error:
        if type(error).__name__ in LOST_NAMES:
            return error
        raise


def _opened(executor: Pool) -> ContextManager[Optional[Executor]]:
    """An executor, which is shut down at the end only if it was made here."""
    from concurrent.futures import Executor

    if executor is None or isinstance(executor, Executor):
        return contextlib.nullcontext(executor)
    return executor()
