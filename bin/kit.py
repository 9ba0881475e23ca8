"""Makes the kit's gate and the first build faster: another order of tasks, edits by named functions, libraries in parallel.

`rt ci` is the judge, until it has words for these. Each proof, edit and test is checked by the kit's own functions. CALLED lists those
that are called here. If one of them is missing or takes other arguments, bin/gate runs a plain `rt ci`, and bin/build runs `rt lib`.
"""

import inspect
import os
import shutil
import subprocess
import sys
import threading
from functools import partial
from importlib.machinery import SourceFileLoader
from operator import attrgetter
from pathlib import Path
from queue import SimpleQueue
from types import ModuleType
from typing import Any, Callable, Dict, List, Optional, Sequence, Tuple

from edits import use_edits

TOP = Path(__file__).resolve().parent.parent
Key = Tuple[Any, ...]  # the name of a crate, the kind of task, and the number of an edit
# The keys that a task waits for, its work in lines, its memory in bytes, and a call that takes the results so far and a number of jobs.
Task = Tuple[List[Key], int, float, Callable[[Dict[Key, Any], int], Any]]

# The kit's functions that each command calls, with their arguments. A bar separates the arguments of two kits.
LANES = ["processors()", "free()", "in_lanes(tasks)"]
EDITS = ["edits_of(crate)", "checked(crate,texts,flags,kept)", "must_fail(crate,edit,flags,kept)"]
CRATES = ["rtlib.guarded()", "rtlib.crates_below(top)", "rtlib.lock(crates)", "rtlib.Crate.below(self)", "rtlib.Crate.count(self,pattern)"]
MADE = ["rtlib.Crate.words(self,flags,tests,keeps,as_source)", "rtlib.Crate.call(self,words)", "rtlib.Crate.stamp(self|crate,made)"]
KEPT = ["rtlib.Crate.is_built(self)", "rtlib.Crate.has_kept(self)", "rtlib.Crate.build_rlib(self,flags,anew)"]
ONE = ["handles_of(root)", "Crate.compile(self,flags,to,tests)", "Crate.link(self,made,program)"]
CALLED = {"gate": ["main(words)", *LANES, *EDITS], "planted": ["edits_alone(names)", *EDITS], "seen": ["read_edit(edit,folder)"]}
CALLED |= {"build": [*LANES, "need(crate)", *CRATES, *MADE, *KEPT], "compile": ["processors()", *CRATES, *ONE]}


def load(asker: str) -> Any:
    """The kit's command `rt` as a module. If it is not on the PATH, ends the calling command with status 69."""
    found = shutil.which("rt")
    if found is None:
        print(f"{asker}: the Rattle toolchain (the command rt) is not on the PATH", file=sys.stderr)
        sys.exit(69)
    kit = ModuleType("rt")
    kit.__file__ = os.path.realpath(found)
    SourceFileLoader("rt", kit.__file__).exec_module(kit)
    return kit


def has(rt: Any, call: str) -> bool:  # a function of this name with these arguments
    name, _, arguments = call.rstrip(")").partition("(")
    try:
        return ",".join(inspect.signature(attrgetter(name)(rt)).parameters) in arguments.split("|")
    except (AttributeError, TypeError, ValueError):
        return False


def lacking(rt: Any, asker: str) -> List[str]:
    """The functions that a command calls and the kit lacks, or has with other arguments."""
    return [call for call in CALLED[asker] if not has(rt, call)]


def usable(asker: str, instead: str) -> Optional[Any]:
    """The kit's command, or None if it lacks something that is called. Then a line names it, and what is done instead."""
    try:
        rt = load(asker)
        missing = ", ".join(lacking(rt, asker))
    except Exception as error:
        rt, missing = None, f"command that Python can load ({type(error).__name__})"
    if missing:
        print(f"{asker}: warning: this kit has no {missing}: {instead}", file=sys.stderr)
    return None if missing else rt


FILLS = ("seed", "edits", "sound", "again")  # the tasks that fill the processors which proofs and tests leave free
NICENESS = 10  # the niceness of each task except the first one
JOB_SHARE = 0.6  # the part of a check's memory that each further job takes, as in the kit
MEMORY_SHARE = 1.3  # the part of the free memory for running tasks, by the kit's estimates: checks here take 35 to 65 % of these


def lines_of(name: str) -> int:
    """The number of lines of a crate's sources, definitions and proofs. With more lines, its proof takes longer."""
    parts = ((TOP / "crates" / name / part).glob("**/*") for part in ("src", "specs", "proofs"))
    return sum(path.read_bytes().count(b"\n") for part in parts for path in part if path.suffix in (".rt", ".antt"))


class Lanes:
    """Running and waiting tasks, in place of the kit's `in_lanes`. Those on the longest chain are begun first. The first of these has half
    of the processors, or all that nothing else could use. More jobs than processors would slow the others by the memory's bandwidth.
    Tasks of FILLS run at a lower priority, so a proof begins as if they were not running."""

    def __init__(self, rt: Any, tasks: Dict[Key, Task]) -> None:
        # For each task, the lines of the longest chain of tasks that wait for it, with its own. A task comes after those that it waits for.
        self.tasks, self.behind = tasks, {key: 0 for key in tasks}
        for key in reversed(list(tasks)):
            self.behind[key] += lines_of(key[0]) if key[1] == "proof" else tasks[key][1]
            for below in tasks[key][0]:
                self.behind[below] = max(self.behind[below], self.behind[key])
        self.left = sorted(tasks, key=lambda key: (key[1] in FILLS, -self.behind[key]))
        self.running: Dict[Key, Tuple[int, float]] = {}  # the jobs and the memory of each task that runs
        self.given: Dict[Key, Any] = {}
        self.ended: "SimpleQueue[Tuple[Key, Any]]" = SimpleQueue()
        self.processors, self.memory = int(rt.processors()), MEMORY_SHARE * rt.free()

    def run(self) -> Dict[Key, Any]:
        """The result of each task. An error that a task raises is raised when no task is running."""
        self.begin_all()
        while self.running:
            key, gives = self.ended.get()
            del self.running[key]
            self.given[key] = gives
            if not isinstance(gives, BaseException):
                self.begin_all()
        for error in (gives for gives in self.given.values() if isinstance(gives, BaseException)):
            raise error
        return self.given

    def begin_all(self) -> None:
        """Begins the tasks that are ready and fit. If there is no memory yet for the first one, the others wait too."""
        for key in list(self.left):
            if self.given.keys() >= set(self.tasks[key][0]):
                is_first = all(self.behind[other] < self.behind[key] for other in self.running)
                if not self.begin(key, is_first) and is_first:
                    return

    def begin(self, key: Key, is_first: bool) -> bool:
        """Begins a task, if it fits."""
        jobs = self.jobs(key, is_first)
        need = self.tasks[key][2] * (1 + JOB_SHARE * (jobs - 1))
        used = sum(others for other, (others, _) in self.running.items() if key[1] in FILLS or other[1] not in FILLS)
        taken = sum(memory for _, memory in self.running.values())
        if self.running and taken + need > self.memory or not is_first and used + jobs > self.processors:
            return False
        self.left.remove(key)
        self.running[key] = jobs, need
        threading.Thread(target=self.call, args=(key, jobs, is_first)).start()
        return True

    def jobs(self, key: Key, is_first: bool) -> int:
        """The first proof has half of the processors, or all that nothing else could use now. Other tasks have one."""
        if not is_first or key[1] != "proof":
            return 1
        ready = sum(other != key and self.given.keys() >= set(self.tasks[other][0]) for other in self.left)
        return max(1, self.processors // 2, self.processors - len(self.running) - ready)

    def call(self, key: Key, jobs: int, is_first: bool) -> None:
        """Calls a task in a thread of its own, whose niceness the processes that it begins inherit."""
        try:
            if not is_first:
                os.setpriority(os.PRIO_PROCESS, threading.get_native_id(), NICENESS)
            gives = self.tasks[key][3](self.given, jobs)
        except BaseException as error:
            gives = error
        self.ended.put((key, gives))


def gate(words: Sequence[str]) -> int:
    """Runs the kit's gate with these words, and returns its status."""
    os.chdir(TOP)
    rt = usable("gate", "a plain `rt ci` is run")
    if rt is None:
        return subprocess.run(["rt", "ci", *words]).returncode
    use_edits(rt)
    rt.in_lanes = lambda tasks: Lanes(rt, tasks).run()
    return int(rt.main(["ci", *words]))


def show(text: str) -> None:  # only on a terminal, in place of the last line
    if sys.stderr.isatty():
        print(f"\r\033[K{text}", end="", file=sys.stderr, flush=True)


class Libraries:
    """The libraries of the program. If no proof is kept, as in a new clone, their rlibs are made from nothing, and from statements alone,
    as for a verdict, so that crates above read less. The kit writes no stamp for these; a mark records what they were made from."""

    def __init__(self, rattle: str, libraries: Sequence[Any]) -> None:
        self.rattle, self.all, self.anew = rattle, libraries, set[str]()
        self.of_statements = not any(crate.is_built() or crate.has_kept() for crate in libraries)

    def task(self, crate: Any, given: Dict[Key, Any], jobs: int) -> bool:  # builds one, if those below it are built
        below = {dep.name for dep in crate.below()}
        if not all(given[name, "proof"] for name in below):
            return False
        show(f"ljserve: {len(given)} of {len(self.all)} libraries are proved; {crate.name} is next")
        if not self.of_statements:
            return not crate.build_rlib(["--jobs", str(jobs)], anew=False)
        mark, made_of = Path(crate.folder, "out", "rlib", "statements"), crate.stamp()
        if mark.is_file() and mark.read_text() == made_of and self.anew.isdisjoint(below):
            return True
        self.anew.add(crate.name)
        shutil.rmtree(mark.parent, ignore_errors=True)
        mark.parent.mkdir(parents=True)
        words = crate.words(["--jobs", str(jobs), "--statements"], keeps=False)
        if not crate.call(self.rattle, "build", *words, "-o", crate.rlib):
            mark.write_text(made_of)
        return mark.is_file()


def build(log: str) -> int:
    """Builds the libraries of the program side by side, as `rt lib` does in turn. The output of each is appended to a file."""
    os.chdir(TOP)
    rt = usable("build", "the libraries are built in turn by `rt lib`")
    os.dup2(os.open(log, os.O_WRONLY | os.O_APPEND | os.O_CREAT), sys.stdout.fileno())
    if rt is None:
        return subprocess.run(["rt", "lib"], cwd=TOP / "crates" / "lj_program").returncode
    rt.rtlib.guarded()
    crates = rt.rtlib.crates_below(os.getcwd())
    libraries = Libraries(
        rt.rtlib.RATTLE, [it for it in crates if any(it.name in {dep.name for dep in top.below()} for top in crates if top.is_program)]
    )
    held = rt.rtlib.lock(libraries.all)
    tasks: Dict[Key, Task] = {
        (it.name, "proof"): ([(dep.name, "proof") for dep in it.below()], it.count(rb"\n"), rt.need(it), partial(libraries.task, it))
        for it in libraries.all
    }
    given = Lanes(rt, tasks).run()
    list(map(os.close, held))
    show("")
    if lost := sorted(name for (name, _), is_built in given.items() if not is_built):
        print(f"build: not proved: {' '.join(lost)}", file=sys.stderr)
    return int(bool(lost))
