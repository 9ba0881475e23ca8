"""A PostgreSQL for trials only. It ends with this process, however the process ends."""
import contextlib
import ctypes
import glob
import importlib.util
import itertools
import os
import pathlib
import pwd
import shutil
import signal
import subprocess
import tempfile
from typing import Any, Dict, List, Optional, Sequence

from keep_trials.keeper import SECONDS, until

SET_PDEATHSIG = 1
# Data need not survive a crash of the machine.
SETTINGS = {"fsync": "off", "full_page_writes": "off", "listen_addresses": "", "max_connections": "100", "shared_buffers": "32MB"}


def missing() -> str:
    """Why there can be no cluster, or an empty string."""
    if importlib.util.find_spec("psycopg2") is None:
        return "psycopg2 is not installed"
    return "" if folder_of_programs() else "PostgreSQL is not installed"


def folder_of_programs() -> Optional[str]:
    """The folder with the latest PostgreSQL's programs."""
    found = sorted(glob.glob("/usr/lib/postgresql/*/bin/initdb"), key=lambda path: float(path.split("/")[4]))
    path = found[-1] if found else shutil.which("initdb")
    return path and os.path.dirname(path)


def user_of_cluster() -> Dict[str, Any]:
    """The user to run it as, since root may not."""
    if os.getuid():
        return {}
    for name in ("postgres", "nobody"):
        with contextlib.suppress(KeyError):
            found = pwd.getpwnam(name)
            return {"user": found.pw_uid, "group": found.pw_gid, "extra_groups": []}
    return {}


class Cluster:
    """A PostgreSQL with many databases, reached by a socket in its folder."""

    def __init__(self, of: "Optional[Cluster]" = None):
        """A new cluster, or the standby of another one."""
        self._programs = folder_of_programs()
        self._as = user_of_cluster()
        self._numbers = itertools.count(1)
        self.folder = pathlib.Path(tempfile.mkdtemp(prefix="ljserve-", dir="/tmp"))
        if self._as:
            os.chown(self.folder, self._as["user"], self._as["group"])
        if of is not None:
            self.follow(of)
        else:
            self._run("initdb", "-k", "-D", str(self.folder / "data"), "-U", "keep", "-A", "trust", "-N", "--locale=C", "-E", "UTF8")
            self.begin()

    def follow(self, other: "Cluster") -> None:
        """Drops its data, and becomes the standby of another cluster, which commits nothing without it from then on."""
        shutil.rmtree(self.folder / "data", ignore_errors=True)
        way = f"host={other.folder} user=keep application_name=standby"
        self._run("pg_basebackup", "-D", str(self.folder / "data"), "-R", "-c", "fast", "-d", way)
        self.begin()
        other.ask("postgres", "alter system set synchronous_standby_names = standby")
        other.ask("postgres", "select pg_reload_conf()")
        until(lambda: other.ask("postgres", "select sync_state from pg_stat_replication") == [("sync",)])

    def promote(self) -> None:
        """Takes over from the cluster that it follows, and waits for no standby."""
        assert self.ask("postgres", "select pg_promote()") == [(True,)]

    def _run(self, program: str, *words: str) -> None:
        subprocess.run([f"{self._programs}/{program}", *words], stdout=subprocess.DEVNULL, check=True, timeout=SECONDS, cwd="/", **self._as)

    def begin(self) -> None:
        """Starts it, and waits until it answers."""
        words = [f"--{name}={value}" for name, value in SETTINGS.items()]
        with open(self.folder / "log", "ab") as log:
            self.child = subprocess.Popen(
                [f"{self._programs}/postgres", "-D", str(self.folder / "data"), "-k", str(self.folder), *words],
                stdin=subprocess.DEVNULL, stdout=log, stderr=log, cwd="/", preexec_fn=die_with_parent, **self._as,
            )  # fmt: skip
        until(self._answers)

    def _answers(self) -> bool:
        with contextlib.suppress(RuntimeError):
            self.ask("postgres", "select 1")
            return True
        return False

    def address(self, database: str, *others: "Cluster") -> str:
        """The address of a database, here or at others."""
        return f"postgresql://keep@/{database}?host={','.join(str(each.folder) for each in (self, *others))}"

    def new(self, *others: "Cluster") -> str:
        """The address of a new database."""
        name = f"kept{next(self._numbers)}"
        self.ask("postgres", f"create database {name}")
        return self.address(name, *others)

    def ask(self, database: str, words: str, values: Sequence[Any] = ()) -> List[Any]:
        """The result of a query in a database of this name or address. Raises RuntimeError if it does not answer."""
        import psycopg2

        address = database if "://" in database else self.address(database)
        try:
            connection = psycopg2.connect(address)
        except psycopg2.OperationalError as error:
            raise RuntimeError(str(error)) from error
        with contextlib.closing(connection), connection.cursor() as cursor:
            connection.autocommit = True
            cursor.execute(words, values or None)
            found: List[Any] = cursor.fetchall() if cursor.description else [cursor.rowcount]
            return found

    def end(self, how: int = signal.SIGINT) -> None:
        """Ends it, at once or by another signal."""
        self.child.send_signal(how)
        self.child.wait(SECONDS)

    def close(self) -> None:
        if self.child.poll() is None:
            self.end(signal.SIGQUIT)
        shutil.rmtree(self.folder, ignore_errors=True)


def die_with_parent() -> None:
    """Makes the system end the process as soon as its parent has ended."""
    ctypes.CDLL(None).prctl(SET_PDEATHSIG, signal.SIGQUIT)
