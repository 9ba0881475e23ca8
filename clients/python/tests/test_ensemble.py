"""Independent runs over executors: their order, their results, lost workers and kept checkpoints."""
import ast
import contextlib
import importlib.util
import io
import math
import os
import pathlib
import shutil
import subprocess
import sys
import unittest
from concurrent.futures import BrokenExecutor, ProcessPoolExecutor, ThreadPoolExecutor
from functools import partial
from typing import Any, Dict
from unittest import mock

import ensemble_jobs
from ensemble_jobs import begin, begin_two, jobs, jobs_that_lose, look, look_and_die, look_and_fail, look_at_two
from ljclient import ConnectionLost, Job, ensemble, progress
from support import EXAMPLES, PROGRAM, SECONDS, TOP, folder_of


def has(name: Any) -> bool:
    return importlib.util.find_spec(name) is not None


class Ensembles(unittest.TestCase):
    def setUp(self) -> None:
        self.folder = folder_of(self)

    def ensemble(self, made: Any, *words: Any, **options: Any) -> Any:
        return ensemble(made, *words, program=PROGRAM, **options)

    def begun(self, number: Any) -> Any:
        """How often a job was begun from its beginning."""
        return (self.folder / f"begun_{number}").read_text().count("begun")


class Results(Ensembles):
    def test_what_is_noted(self) -> None:
        # After a tug by n the first step ends at 589 + n and the second one at 1774 + 2 n: the push is the same for 0 and for 5.
        made = [Job(partial(begin, tug), look, 2, 1) for tug in (0, 5)]
        wanted = [[(step, (place + step * tug, 0, 0)) for step, place in enumerate((0, 589, 1774))] for tug in (0, 5)]
        self.assertEqual(self.ensemble(made), wanted)

    def test_the_last_piece_is_what_is_left(self) -> None:
        told = self.ensemble([Job(partial(begin, 0), look, 5, 2), Job(partial(begin, 0), look, 0, 9)])
        self.assertEqual([[step for step, _ in notes] for notes in told], [[0, 2, 4, 5], [0]])

    def test_two_sessions_go_on_side_by_side(self) -> None:
        self.assertEqual(self.ensemble([Job(begin_two, look_at_two, 2, 1)]), [[(0, 0, 0), (1, 1, 7), (2, 2, 14)]])

    def test_the_same_over_each_executor_and_in_order(self) -> None:
        made = [Job(partial(begin, tug), look, steps, 50) for tug, steps in enumerate((3000, 2000, 1000, 100, 0))]
        here = self.ensemble(made)
        self.assertEqual([notes[-1][0] for notes in here], [3000, 2000, 1000, 100, 0])
        with ThreadPoolExecutor(3) as threads:
            self.assertEqual(self.ensemble(made, threads), here)
            self.assertEqual(self.ensemble(made, threads), here)
        self.assertEqual(self.ensemble(made, partial(ProcessPoolExecutor, 2)), here)

    def test_progress(self) -> None:
        seen = []
        self.ensemble(jobs(3), progress=lambda *counts: seen.append(counts))
        self.assertEqual(seen, [(1, 3), (2, 3), (3, 3)])

    def test_a_bar(self) -> None:
        text = io.StringIO()
        with mock.patch.object(progress, "_is_seen", return_value=True), contextlib.redirect_stderr(text):
            self.assertEqual(len(self.ensemble(jobs(3), progress=True)), 3)
        if importlib.util.find_spec("tqdm") is None:
            self.assertIn("tqdm is not installed", text.getvalue())
        else:
            self.assertRegex(text.getvalue(), r"jobs: 100%\|.*\| 3/3 \[.*job")

    def test_without_a_bar(self) -> None:
        text = io.StringIO()
        with contextlib.redirect_stderr(text):
            for wanted in (None, False, True):
                self.assertEqual(len(self.ensemble(jobs(1), progress=wanted)), 1)
        self.assertEqual(text.getvalue(), "")

    def test_functions_that_cannot_be_sent(self) -> None:
        made = [Job(lambda user: begin(0, user), lambda session: session.get_step(), 2, 1)]  # type: ignore[no-any-return]
        self.assertEqual(self.ensemble(made), [[0, 1, 2]])
        self.assertEqual(self.ensemble(made, ThreadPoolExecutor), [[0, 1, 2]])
        with self.assertRaisesRegex(Exception, "pickle"):
            self.ensemble(made, partial(ProcessPoolExecutor, 1))

    def test_no_jobs_and_bad_ones(self) -> None:
        self.assertEqual(self.ensemble([]), [])
        with self.assertRaises(ValueError):
            self.ensemble(jobs(1), tries=0)
        for steps, every in ((-1, 1), (1, 0)):
            with self.assertRaises(ValueError):
                Job(begin_two, look_at_two, steps, every)

    def test_an_error_of_a_job_is_raised_at_once(self) -> None:
        made = jobs(2)
        made[1] = Job(made[1].begin, look_and_fail, 30, 10)
        for executor in (None, ThreadPoolExecutor, partial(ProcessPoolExecutor, 2)):
            with self.assertRaisesRegex(ValueError, "nothing to see"):
                self.ensemble(made, executor)


class Losses(Ensembles):
    def test_a_lost_worker_costs_nothing_but_time(self) -> None:
        made = jobs_that_lose(str(self.folder))
        told = self.ensemble(made, partial(ProcessPoolExecutor, 2), folder=self.folder, seconds=0)
        self.assertTrue((self.folder / "died").exists())
        self.assertEqual(told, self.ensemble(jobs(4)))
        self.assertEqual(self.begun(1), 1)

    def test_without_a_checkpoint_it_begins_again(self) -> None:
        made = jobs_that_lose(str(self.folder))
        told = self.ensemble(made, partial(ProcessPoolExecutor, 1), folder=self.folder, seconds=3600)
        self.assertEqual((told, self.begun(1)), (self.ensemble(jobs(4)), 2))

    def test_an_executor_that_is_broken_is_not_tried_again(self) -> None:
        made = [Job(partial(begin, 0), partial(look_and_die, str(self.folder / "died"), 10), 30, 10)]
        with ProcessPoolExecutor(1) as pool, self.assertRaises(BrokenExecutor):
            self.ensemble(made, pool)

    def test_a_program_that_ends(self) -> None:
        once = self.folder / "program"
        died = self.folder / "died"
        once.write_text(f'#!/bin/sh\n[ -e "{died}" ] || {{ touch "{died}"; read line; echo OK LIST 0; exit 3; }}\nexec "{PROGRAM}" "$@"\n')
        once.chmod(0o755)
        self.assertEqual(ensemble(jobs(2), program=once), self.ensemble(jobs(2)))
        once.write_text("#!/bin/sh\nread line; echo OK LIST 0; exit 3\n")
        for executor in (None, ThreadPoolExecutor):
            with self.assertRaises(ConnectionLost):
                ensemble(jobs(1), executor, program=once)


class Kept(Ensembles):
    def test_a_later_call_goes_on(self) -> None:
        made = jobs_that_lose(str(self.folder))
        with ProcessPoolExecutor(1) as pool, self.assertRaises(BrokenExecutor):
            self.ensemble(made, pool, folder=self.folder, seconds=0)
        self.assertEqual(self.ensemble(made, folder=self.folder), self.ensemble(jobs(4)))
        self.assertEqual(self.begun(1), 1)
        for _ in range(2):
            self.ensemble(made, folder=self.folder)
        self.assertEqual([self.begun(number) for number in range(4)], [1, 1, 1, 1])

    def test_other_jobs_have_other_files(self) -> None:
        self.ensemble(jobs(1, 30), folder=self.folder)
        self.assertEqual(self.ensemble(jobs(1, 40), folder=self.folder), self.ensemble(jobs(1, 40)))

    def test_a_damaged_checkpoint_is_computed_again(self) -> None:
        made = jobs_that_lose(str(self.folder))[:2]
        with ProcessPoolExecutor(1) as pool, self.assertRaises(BrokenExecutor):
            self.ensemble(made, pool, folder=self.folder, seconds=0)
        (saved,) = self.folder.glob("*.saved")
        text = saved.read_text()
        saved.write_text(text[: len(text) // 2])
        self.assertEqual(self.ensemble(made, folder=self.folder), self.ensemble(jobs(2)))
        for notes in self.folder.glob("*.notes"):
            notes.write_bytes(notes.read_bytes()[:20])
        self.assertEqual(self.ensemble(made, folder=self.folder), self.ensemble(jobs(2)))
        self.assertEqual(list(self.folder.glob("*.part")) + list(self.folder.glob("*.saved")), [])


class Clusters(Ensembles):
    def told(self, *words: Any) -> Any:
        """What the program of the jobs prints."""
        path = os.pathsep.join([str(TOP / "clients" / "python"), str(pathlib.Path(__file__).parent)])
        allowed: Dict[str, Any] = {
            "OMPI_ALLOW_RUN_AS_ROOT": "1",
            "OMPI_ALLOW_RUN_AS_ROOT_CONFIRM": "1",
            "OMPI_MCA_rmaps_base_oversubscribe": "1",
        }
        environment: Dict[str, Any] = {**os.environ, **allowed, "LJSERVE": PROGRAM, "PYTHONPATH": path, "PYTHONDONTWRITEBYTECODE": "1"}
        done = subprocess.run(list(map(str, words)), env=environment, capture_output=True, text=True, timeout=4 * SECONDS)
        self.assertEqual(done.returncode, 0, done.stderr)
        return ast.literal_eval(done.stdout.splitlines()[-1])

    @unittest.skipUnless(has("mpi4py") and shutil.which("mpiexec"), "mpi4py or mpiexec is not installed")
    def test_mpi(self) -> None:
        told = self.told("mpiexec", "-n", 3, sys.executable, "-m", "mpi4py.futures", ensemble_jobs.__file__, "mpi")
        self.assertEqual(told, self.ensemble(jobs()))

    @unittest.skipUnless(has("distributed"), "distributed is not installed")
    def test_dask(self) -> None:
        self.assertEqual(self.told(sys.executable, ensemble_jobs.__file__, "dask"), self.ensemble(jobs()))

    @unittest.skipUnless(has("distributed"), "distributed is not installed")
    def test_dask_that_loses_a_worker(self) -> None:
        told = self.told(sys.executable, ensemble_jobs.__file__, "dask-lost", self.folder)
        self.assertEqual(told, self.ensemble(jobs(4)))
        self.assertTrue((self.folder / "died").exists())
        self.assertEqual(self.begun(1), 1)


class Example(Ensembles):
    """examples/lyapunov.py: what it computes of distances, and a short run of it."""

    def told(self, *words: Any) -> Any:
        """What a Python prints in the folder of the examples."""
        environment: Dict[str, Any] = {**os.environ, "LJSERVE": PROGRAM, "PYTHONDONTWRITEBYTECODE": "1"}
        line = [sys.executable, *map(str, words)]
        done = subprocess.run(line, cwd=EXAMPLES, env=environment, capture_output=True, text=True, timeout=4 * SECONDS)
        self.assertEqual(done.returncode, 0, done.stderr)
        return done.stdout

    def test_the_exponent_of_an_exponential(self) -> None:
        step = 20 * 0.0055242717280199  # the root of 131072 / 2^32, twenty times
        runs = [[start * math.exp(rate * number * step) for number in range(80)] for start, rate in ((1e-9, 3), (3e-9, 2))]
        text = "from lyapunov import *; slopes = exponent_of({})[0]; print([round(each, 9) for each in slopes]); print(told_of(slopes))"
        # Half the difference is the standard error of two.
        slopes, told = self.told("-c", text.format(runs)).splitlines()
        self.assertEqual(ast.literal_eval(slopes), [3, 2])
        self.assertIn("2.50 +- 0.50", told)
        self.assertIn("too few", self.told("-c", text.format([[1e-9] * 80])))

    def test_a_run_is_fitted_from_the_width_of_a_bin_on(self) -> None:
        """Runs that part by exp(10 t) up to 1/256 of sigma and by exp(3 t) from there on, each at its own time."""
        step, width = 20 * math.sqrt(131072 / 2**32), 1 / 256
        growths = [[(number - passed) * step for number in range(80)] for passed in (15, 30, 45)]
        runs = [[width * math.exp((10 if time < 0 else 3) * time) for time in times] for times in growths]
        text = "from lyapunov import exponent_of; print([round(each, 9) for each in exponent_of({})[0]])"
        self.assertEqual(self.told("-c", text.format(runs)), "[3.0, 3.0, 3.0]\n")

    def test_a_short_run(self) -> None:
        words = ["lyapunov.py", "--runs", 3, "--steps", 60, "--melting", 200, "--folder", self.folder]
        told = [self.told(*words, "--processes", number) for number in (2, 1)]
        self.assertEqual(told[0], told[1])
        # A unit of one of 256 atoms is edge / 2^32 / 16 = 9.8e-11 sigma away after one step, and 20 times that after 20 steps.
        first = told[0].splitlines()[1].split()
        self.assertEqual(first[0], "20")
        self.assertTrue(1e-9 < float(first[1]) < 4e-9, first)


if __name__ == "__main__":
    unittest.main()
