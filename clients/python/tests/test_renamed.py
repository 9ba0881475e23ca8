"""Names of version 1.1.0 that have another one now: a script that uses them does what it did, and is told what to write."""
import os
import pathlib
import re
import subprocess
import sys
import warnings
from typing import Any

import pytest

from ljclient import Motion, Order, Refused, Session, User, units
from support import DIMER_SCALE, EXAMPLES, PROGRAM, SECONDS, dimer

CLIENT = pathlib.Path(__file__).resolve().parents[1]
OLD_NAMES = [f"error:{kind}.:DeprecationWarning" for kind in ("ClientError", "Motion", "Order", "Session", "User", "units")]
# What a user of 1.1.0 may have written of the two atoms whose replies the README tells, and what it gives.
SCRIPT = """\
from ljclient import ClientError, Motion, Order, run, units
with run() as user:
    a = user.load("a", "2\\ndimer\\nAr 0 0 0\\nAr 1.5 0 0\\n", edge=256, sigma=1, h=131072)
    a.start(2)
    print(a.target)
    print(a.step)
    print(a.atoms)
    print(a.measured(user.ask("MEASURE a").words).step)
    print(user.ask_commands([("SHOW a 0", b"")])[0].words)
    print(user.ask_rows(["SHOW a 0"]))
    print(user.ask_text("DUMP a")[0])
    print(user.row("a").branches)
    print(a.branch("k"), user.restore("a", "k"))
    print(user.known("a").scale.h)
    print(tuple(user.state_of("a").places[0]))
    a.forget("k")
    print(user.resort("a"))
    print(user.has_dropped("b"))
print(Order((1, 0)).for_user(["B", "A"]))
print(Order((1, 0)).for_server(["A", "B"]))
print(ClientError("x").rescued)
print(Motion(1.0, 0.0, ((1, 0, 0), (0, 0, 0))).tugs("a"))
print(units.nano("1.5"))
print(units.word(1.5))
print(units.plain_float("2d1"))
print(units.checked_positive("a mass", 3))
"""
WARNED = {
    "a.target": "Session.target is deprecated: use Session.get_target()",
    "a.step": "Session.step is deprecated: use Session.get_step()",
    "a.atoms": "Session.atoms is deprecated: use Session.n_atoms",
    "a.measured": "Session.measured is deprecated: use Session.measure()",
    "user.ask_commands": "User.ask_commands is deprecated: use User.ask(line, body)",
    "user.ask_rows": "User.ask_rows is deprecated: use User.ask_all(lines)",
    "user.ask_text": "User.ask_text is deprecated: use User.ask(line)",
    "user.row": "User.row is deprecated: use User.sessions()",
    "user.restore": "User.restore is deprecated: use Session.restore(name)",
    "user.known": "User.known is deprecated: use Session.scale, Session.mixture and Session.order",
    "user.state_of": "User.state_of is deprecated: use Session.save(path)",
    "user.resort": "User.resort is deprecated: use Session.resort()",
    "user.has_dropped": "User.has_dropped is deprecated",
    ".for_user": "Order.for_user is deprecated: use Order.number_of(atom)",
    ".for_server": "Order.for_server is deprecated: use Order.number_of(atom)",
    ".rescued": "ClientError.rescued is deprecated",
    ".tugs": "Motion.tugs is deprecated: use Session.tug(atom, displacement)",
    "units.nano": "units.nano is deprecated",
    "units.word": "units.word is deprecated",
    "units.plain_float": "units.plain_float is deprecated",
    "units.checked_positive": "units.checked_positive is deprecated",
}
PRINTED = """\
2
2
2
2
['SHOW', 'a', '2', '0', '1774', '0', '0']
b'OK SHOW a 2 0 1774 0 0\\n'
['DUMP', 'a', '2', '4']
0
2 2
131072
(1774, 0, 0)
None
None
['A', 'B']
['B', 'A']
None
['TUG a 0 1 0 0']
1500000000
1.5
20.0
3.0
"""


def test_a_script_of_before_does_what_it_did(tmp_path: pathlib.Path) -> None:
    """Each old name is told by its own line of the script."""
    (tmp_path / "script.py").write_text(SCRIPT)
    environment = {**os.environ, "LJSERVE": PROGRAM, "PYTHONPATH": str(CLIENT), "PYTHONWARNINGS": "always::DeprecationWarning"}
    command = [sys.executable, "-B", "script.py"]
    done = subprocess.run(command, cwd=tmp_path, env=environment, capture_output=True, text=True, timeout=SECONDS)
    assert (done.returncode, done.stdout) == (0, PRINTED), done.stderr
    told = re.findall(r"^.*script\.py:(\d+): DeprecationWarning: (.*)$", done.stderr, re.M)
    lines = SCRIPT.splitlines()
    wanted = [(lines.index(line) + 1, text) for line in lines for old, text in WARNED.items() if f"{old}(" in line or f"{old})" in line]
    assert [(int(number), text) for number, text in told] == wanted and len(wanted) == len(WARNED)
    assert done.stderr.count("Warning") == len(WARNED)


@pytest.mark.parametrize("kind, name", [(Session, "step"), (Session, "atoms"), (User, "known"), (Order, "for_user"), (Motion, "tugs")])
def test_a_class_shows_its_old_names_without_a_warning(kind: Any, name: str) -> None:
    with warnings.catch_warnings():
        warnings.simplefilter("error")
        assert name in dir(kind) and getattr(kind, name) is not None


def test_units_have_no_other_names_of_before() -> None:
    with pytest.raises(AttributeError, match="module 'ljclient.units' has no attribute 'kelvins'"):
        getattr(units, "kelvins")


def test_the_number_of_atoms_is_known_since_the_load(user: Any) -> None:
    """Of a session that was loaded, taken up, or loaded anew, without a command."""
    a = dimer(user)
    taken_up = user.session("a")
    before = user._wire.asked
    assert (a.n_atoms, taken_up.n_atoms, user._wire.asked) == (2, 2, before)
    user.load("a", [("Ar", 2.0 * number, 0, 0) for number in range(3)], replace=True, **DIMER_SCALE)
    assert (a.n_atoms, taken_up.n_atoms) == (3, 3)
    assert a.copy("b").n_atoms == 3
    with pytest.raises(AttributeError):
        setattr(a, "n_atoms", 4)


def test_the_number_of_atoms_of_another_connection_is_asked_for_once(user: Any) -> None:
    dimer(user)
    user._forget("a")
    a = user.session("a")
    before = user._wire.asked
    assert (a.n_atoms, a.n_atoms, user._wire.asked) == (2, 2, before)


def test_a_session_that_is_gone_has_no_number_of_atoms(user: Any) -> None:
    a = dimer(user)
    a.drop()
    with pytest.raises(Refused):
        a.n_atoms


USING = """\
import os, sys
from ljclient import run, state_points, units
with run() as user:
    fluid = user.load("fluid", state_points.lattice("fcc", density=0.6, atoms=108), sigma=1, h=4295, order="space", record="run.lj")
    fluid.heat(1.0, seed=1)
    fluid.equilibrate(1.0, 40, every=20)
    fluid.rescale(1.0)
    fluid.advance(20, save="fluid.saved", piece=5)
    fluid.start(3)
    fluid.branch("k")
    fluid.tug(0, (1, 0, 0))
    fluid.restore("k")
    fluid.forget("k")
    print(fluid.get_target() == fluid.get_step(), fluid.n_atoms, len(fluid.saved()), len(user.sessions()))
    fluid.resort()
    fluid.sample(2, 3, exact=True, unwrap=True)
    fluid.places(), fluid.positions(), fluid.velocities(), fluid.forces(), fluid.displacements(), fluid.symbols(), fluid.dump()
    [row.total for row in fluid.thermo(2, 3)] + [frame.positions[0][0] + frame.displacements[0][0] for frame in fluid.frames([0, 1, 4])]
    fluid.write("frame.xyz")
    fluid.write_trajectory("way.xyz", 2, 3)
    fluid.copy("twin").drop()
    again = user.load_saved("fluid.saved", "again", watch=False)
    user.advance([fluid, again], [10, 20])
    taken_up = user.session("again", edge=again.edge, sigma=1, h=4295, order=again.order)
    assert (taken_up.positions() == again.positions()).all() if hasattr(again.positions(), "all") else True
"""


def run_with_errors(folder: pathlib.Path, *words: str) -> str:
    """The output of a Python to which any DeprecationWarning of the client is an error."""
    environment = {**os.environ, "LJSERVE": PROGRAM, "PYTHONPATH": str(CLIENT), "PYTHONWARNINGS": ",".join(OLD_NAMES)}
    command = [sys.executable, "-B", *words]
    done = subprocess.run(command, cwd=folder, env=environment, capture_output=True, text=True, timeout=4 * SECONDS)
    assert done.returncode == 0, done.stderr
    return done.stdout


def test_the_package_itself_uses_no_old_name(tmp_path: pathlib.Path) -> None:
    (tmp_path / "script.py").write_text(USING)
    assert run_with_errors(tmp_path, "script.py") == "True 108 0 1\n"
    assert "played" in run_with_errors(tmp_path, "-m", "ljclient", "verify", "run.lj")


EXAMPLE_STEPS = {"there_and_back.py": "40", "butterfly.py": "20", "energy.py": "100", "temperatures.py": "20", "unmixing.py": "300"}


@pytest.mark.parametrize("name", EXAMPLE_STEPS)
def test_an_example_uses_no_old_name(tmp_path: pathlib.Path, name: str) -> None:
    assert run_with_errors(tmp_path, str(EXAMPLES / name), "--steps", EXAMPLE_STEPS[name])


def test_an_old_name_is_found_so(tmp_path: pathlib.Path) -> None:
    with pytest.raises(AssertionError, match="DeprecationWarning: units.nano is deprecated"):
        run_with_errors(tmp_path, "-c", "from ljclient import units; units.nano(1)")
