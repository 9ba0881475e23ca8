"""Records that the client has written of runs of all kinds, from which forgeries are made."""
import contextlib
import io
import os
import pathlib
import re
import signal
from unittest import mock
from typing import Any, Callable, Dict, List, Tuple

import support
from ljclient import ClientError, Refused, recording, refusals, run, user as users, verify
from record_texts import with_checks, without_checks
from support import PROGRAM, Server, dimer, joined, process_of

SUM_OF_COMMANDS = re.compile(r"; its commands have the SHA-256 \w+")
MIX: Dict[str, Any] = {"edge": 256, "species": ("Na", "Cl"), "classes": [(1, 131072, 256), (1, 262144, 512), (1, 131072, 256)]}


def plain(path: Any) -> None:
    """It was begun behind another one, and tugged; several steps are started at once."""
    path.with_name("before.lj").write_text(with_checks("ljserve record 2\nend\n"))
    with run(PROGRAM) as user:
        dimer(user).save(path.with_name("a.saved"))
        a = user.load_saved(path.with_name("a.saved"), replace=True, record=path, continues=path.with_name("before.lj"))
        a.advance(1)
        a.tug(0, (5, 0, -7))
        a.start(3)
        a.places()
        a.measure()
        a.dump()


def branched(path: Any) -> None:
    """What others have saved leaves no room at first, and a branch that is not there is refused."""
    with run(PROGRAM, branches=1) as user:
        a, b = dimer(user, record=path), dimer(user, "b")
        b.branch("k")
        with contextlib.suppress(refusals.QuotaBranches):
            a.branch("k")
        b.drop()
        a.branch("k")
        a.advance(2)
        a.place(1)
        a.restore("k")
        a.saved()
        for refused in ("RESTORE a z", "SHOW a 2", "ADVANCE a x", "TUG a 0 1 1 1 " + 300 * "0"):
            with contextlib.suppress(Refused):
                user.ask(refused)
        a.reverse()
        a.place(1)


def sorted_in_space(path: Any) -> None:
    """The session is dropped and loaded as it was, and its record goes on, as those of earlier clients did."""
    with run(PROGRAM) as user:
        a = dimer(user, record=path)
        a.advance(3)
        user.ask_all(["SHOW a 0", "SHOW a 1", "REVERSE a", "SHOW a 0", "SHOW a 1", "REVERSE a"])
        with mock.patch.object(recording.Record, "close", lambda record: None):
            user._ask_commands([("DROP a", b""), at_step_3("a")])
        a.advance(1)
        user.ask("DUMP a")
        a.drop()


def at_step_3(name: str, first: int = 0) -> Any:
    """The load of the dimer as it is after three steps, with this atom first."""
    with run(PROGRAM) as user:
        a = dimer(user)
        a.advance(3)
        places = [(now, before) for now, before in zip(*([a.place(atom) for atom in (first, 1 - first)] for _ in both(a)))]
    rows = [[f"Ar {x}e-6 {y}e-6 {z}e-6\n" for x, y, z in frame] for frame in zip(*places)]
    body = "".join("2\n\n" + "".join(frame) for frame in reversed(rows)).encode()
    return f"LOAD {name} 4294.967296 16777216e-6 131072 pair {len(body)}", body


def both(session: Any) -> Any:
    """The two times at which a session stands at its frame and at the one before."""
    yield
    session.reverse()
    yield
    session.reverse()


def moved(path: Any) -> None:
    """The session goes on in a new program, with what is saved in it."""
    with mock.patch.object(users, "MAX_ITEMS", 60), run(PROGRAM) as user:
        a = dimer(user, record=path)
        a.advance(2)
        a.branch("k")
        for _ in range(30):
            a.advance(1)
        a.places()
        a.restore("k")
        a.place(0)


def mixed(path: Any) -> None:
    with run(PROGRAM) as user:
        m = user.load_mix("m", "2\nmix\nNa 0 0 0\nCl 1.5 0 0\n", record=path, watch=False, **MIX)
        m.advance(2)
        m.places()
        m.measure()
        m.dump()


def lost(path: Any) -> None:
    """The program is gone before its reply has come."""
    with run(PROGRAM) as user:
        a = dimer(user, record=path)
        a.advance(1)
        a.place(0)
        os.kill(process_of(user), signal.SIGKILL)
        with contextlib.suppress(ClientError):
            user.ask_all(["ADVANCE a 1", "SHOW a 0"])


def gone(path: Any) -> None:
    """A new connection finds that the server was begun anew."""
    with Server() as server, mock.patch.object(users, "MAX_ITEMS", 30), joined(server.port) as user:
        a = dimer(user, record=path)
        a.advance(1)
        for _ in range(30):
            a.advance(1)
        a.place(0)
        user.ask_all(["LIST"] * (users.MAX_ITEMS - 1 - user._wire.asked))
        server.end()
        with mock.patch.object(support, "free_port", lambda: server.port), Server():
            with contextlib.suppress(refusals.NoSession):
                a.measure()


def unread(path: Any) -> None:
    """What its last commands have changed is not read."""
    with run(PROGRAM) as user:
        a = dimer(user, record=path)
        a.branch("k")
        a.tug(0, (5, 0, -7))
        a.restore("k")
        a.advance(1)
        a.tug(1, (0, 3, 0))
        a.reverse()


RUNS: Dict[str, Callable[[Any], None]] = {
    each.__name__: each for each in (plain, branched, sorted_in_space, moved, mixed, lost, gone, unread)
}


def loaded_again(folder: pathlib.Path) -> str:
    """What another client may write: a session that was gone is loaded as it was, behind loads for which there was no room."""
    sorted_in_space(folder / "sorted.lj")
    text = "\n".join([*without_checks(folder / "sorted.lj"), ""])
    load = text[text.index("> LOAD a 4294") : text.index("< OK LOAD a 0 2", text.index("> LOAD a 4294"))]
    refused = "".join(f"{load}! ERR {name}\n" for name in ("20 QUOTA_SESSIONS", "21 QUOTA_ATOMS", "90 MEMORY"))
    lost = "> ADVANCE a 1\n! ERR 08 ENOUGH\nconnection\n> MEASURE a\n! ERR 10 NO_SESSION\n> SHOW a 0\n! ERR 10 NO_SESSION\n"
    return text.replace("> DROP a\n< OK DROP a\n", lost + refused, 1)


def text_of(name: str, folder: pathlib.Path) -> str:
    """The lines of a true record, without checks, and without what the version of the program is."""
    if name == "loaded_again":
        return loaded_again(folder)
    path = folder / f"{name}.lj"
    RUNS[name](path)
    return "\n".join([*without_checks(path), ""])


NAMES = [*RUNS, "loaded_again"]


def judged(path: pathlib.Path, text: str) -> Tuple[int, List[str]]:
    """The status, and what is told of a record, without its path, its sums and the numbers of its lines."""
    status, told, _ = judged_with_sum(path, text)
    return status, told


def judged_with_sum(path: pathlib.Path, text: str) -> Tuple[int, List[str], List[str]]:
    """Beside what `judged` has, the sum of the commands that were played, if it came to that."""
    path.write_text(with_checks(text))
    told = io.StringIO()
    with contextlib.redirect_stdout(told), contextlib.redirect_stderr(io.StringIO()):
        status = verify.main(["--quiet", str(path), "--program", PROGRAM])
    text = told.getvalue().replace(str(path), "")
    without = SUM_OF_COMMANDS.sub("", text)
    return status, re.sub(r"; SHA-256 \w+$|(?<=line )\d+", "", without, flags=re.MULTILINE).splitlines(), SUM_OF_COMMANDS.findall(text)
