"""The conversation of the static page beside that of the view that Python serves: the same messages have the same answers, and ask the
same of the program. So a change on one side is seen."""
from __future__ import annotations

import dataclasses
import json
import os
import random
import re
import shutil
import subprocess
import sys
from pathlib import Path
from typing import Any, Dict, List, Tuple

import pytest

from ljclient import Scale, heating, refusals, run, units, xyz
from ljclient.errors import Refused
from ljclient.view import scenes
from ljclient.view.talk import Choice, Talk

TOP = Path(__file__).resolve().parents[2]
SECONDS = 300
NODE = shutil.which("node")
pytestmark = pytest.mark.skipif(NODE is None, reason="no node")
H, HEAT, THIN = 131072, 1.5, 0.2
PAGE = TOP / "packaging/page"
# What changes the sessions of the page. How often they are read, and how one is loaded in place of another, is no part of the conversation.
CHANGING = re.compile(r"(LOAD view-1(-2)? 4294\.967296|(ADVANCE|START|REVERSE|TUG|BRANCH|RESTORE|FORGET) view-1)")
ADVANCED = [{"do": "frame", "steps": 3}, {"do": "reverse"}, {"do": "frame", "steps": 2}, {"do": "exact"}]
SAVED = [{"do": "save"}, {"do": "frame", "steps": 1}, {"do": "tug", "atom": 3, "by": [1000, -7, 0]}, {"do": "exact"}, {"do": "restore"}]
SECOND = [{"do": "second", "on": True}, {"do": "frame", "steps": 2}, {"do": "reverse"}, {"do": "second", "on": False}, {"do": "speeds"}]
FAULTS: List[Any] = [
    {"do": "dance"},
    {"do": "frame"},
    {"do": "frame", "steps": 1001},
    {"do": "tug", "atom": 32, "by": [0, 0, 0]},
    {"do": "tug", "atom": 1, "by": [0, 0]},
    {"do": "load", "scene": 3},
    {"do": "load", "session": "mine"},
    {"do": "load", "scene": 0, "atoms": 257},
    {"do": "load", "scene": 0, "dt": 0},
    {"do": "load", "scene": 0, "dt": 1e9},
    {"do": "load", "scene": 0, "temperature": -1},
    {"do": "load", "scene": 0, "temperature": 1e9},
    {"do": "frame", "steps": 0},
]


def gas() -> scenes.Scene:
    """The lattice of 32 atoms that is a gas at once, which only the static page has."""
    edge = round((32 / THIN) ** (1 / 3), 6)
    corners = [(i, j, k) for i in range(2) for j in range(2) for k in range(2)]
    sites = [[(i + part) * edge / 2 for i, part in zip(corner, face)] for corner in corners for face in scenes.FACES]
    body = xyz.text_of((("Ar", site) for site in sites), "face-centred cubic")
    return scenes.Scene("A gas of 32 atoms", body, Scale.of(edge, 1, H), HEAT)


def ready() -> List[scenes.Scene]:
    """The ready scenes of the static page, as Python makes them."""
    small = dataclasses.replace(scenes.crystal(H, HEAT, 1, 3), title="A small crystal that melts")
    return [scenes.crystal(H, HEAT, 1), small, gas()]


def from_python(messages: List[Any], choice: List[scenes.Scene]) -> Tuple[List[Any], List[Any]]:
    """The answers of the view that Python serves, and what it asks of the program."""
    asked: List[Any] = []
    with run(os.environ["LJSERVE"]) as user:
        wire: Any = user._wire
        ask_all = wire.ask_all

        def noted(commands: Any) -> Any:
            asked.extend([line, body.decode()] for line, body in commands)
            return ask_all(commands)

        wire.ask_all = noted
        talk = Talk(Choice(choice), 1)
        answers = [json.loads(talk.begin(user))]
        return [*answers, *(json.loads(talk.answer(user, json.dumps(message))) for message in messages)], asked


def from_node(messages: List[Any], *most: int) -> Tuple[List[Any], List[Any]]:
    """The same of the static page, whose program may answer so many commands."""
    command = [str(NODE), str(TOP / "tests/wasm/talk.mjs"), os.environ["LJSERVE"], *map(str, most)]
    done = subprocess.run(command, input=json.dumps(messages), capture_output=True, text=True, timeout=SECONDS)
    assert done.returncode == 0, done.stderr
    told: Dict[str, Any] = json.loads(done.stdout)
    return told["answers"], told["asked"]


def in_node(script: str) -> Any:
    """What a script prints, as JSON."""
    done = subprocess.run([str(NODE), "--input-type=module", "-e", script], capture_output=True, text=True, timeout=SECONDS)
    assert done.returncode == 0, done.stderr
    return json.loads(done.stdout)


def changing(asked: List[Any]) -> List[Any]:
    """The commands that change the page's sessions, each with its body."""
    return [each for each in asked if CHANGING.match(each[0])]


@pytest.mark.parametrize("messages", [ADVANCED, SAVED, SECOND, FAULTS], ids=["advanced", "saved", "second", "faults"])
def test_answers_are_those_of_the_view_that_python_serves(messages: List[Any]) -> None:
    """Of the gas, which is loaded in place of the crystal."""
    messages = [{"do": "load", "scene": 2}, *messages]
    assert from_node(messages)[0] == from_python(messages, ready())[0]


def test_the_same_is_asked_of_the_program() -> None:
    """Byte by byte: how atoms are loaded, and all that changes a session."""
    messages = [*ADVANCED, *SAVED, *SECOND]
    (_, mine), (_, theirs) = from_node([{"do": "load", "scene": 2}, *messages]), from_python(messages, [gas()])
    rounding = [line.replace("view-load", "view-1") for line, body in mine if body == gas().body.decode()]
    assert rounding == [line for line, body in theirs if body == gas().body.decode() and "ljclient-new" not in line]
    exact = changing(theirs)
    assert len(exact) > len(messages) + gas().atoms
    assert changing(mine)[-len(exact) :] == exact


@pytest.mark.parametrize("wish", [{"scene": 1}, {"scene": 0, "temperature": 0.7, "dt": 0.004}, {"scene": 1, "atoms": 256}])
def test_scenes_are_those_of_the_view_that_python_serves(wish: Dict[str, Any]) -> None:
    messages = [{"do": "load", **wish}, {"do": "frame", "steps": 1}]
    (mine, _), (theirs, _) = from_node(messages), from_python(messages, ready())
    assert mine == theirs


def test_velocities_are_those_of_python() -> None:
    """Of seeds of one word, of two and of none, and of numbers of atoms that leave a sum behind."""
    cases = [(atoms, temperature, seed) for atoms, temperature in ((2, 0.1), (33, 1.0), (256, 3.5)) for seed in (0, 1, 7, 2**40 + 5)]
    scale = Scale.of(12.5, 1, H)
    script = f"""import {{ displacements }} from {str(PAGE / 'heating.js')!r};
    import {{ Scale }} from {str(PAGE / 'scale.js')!r};
    const scale = Scale.of(12.5, 1, {{ h: {H} }});
    console.log(JSON.stringify({json.dumps(cases)}.map(([atoms, temperature, seed]) => displacements(atoms, temperature, scale, seed))));"""
    assert in_node(script) == [[list(each) for each in heating.displacements(n, t, scale, seed)] for n, t, seed in cases]


def test_numbers_are_written_as_python_writes_them() -> None:
    chance = random.Random(1)
    numbers = [
        0.0,
        1.0,
        1.5,
        1e-5,
        1e16,
        1e22,
        5e-324,
        0.1,
        123456789012345680.0,
        *(chance.gauss(0, 1) * 10.0 ** chance.randint(-20, 20) for _ in range(200)),
    ]
    script = f"""import {{ general, quotient, repr }} from {str(PAGE / 'numbers.js')!r};
    const numbers = {json.dumps(numbers)};
    const parts = numbers.slice(9).map((number) => BigInt(Math.round(number * 1e20)));
    const quotients = parts.map((part) => quotient(part, 10n ** 25n + 1n));
    console.log(JSON.stringify([numbers.map(repr), numbers.map((each) => general(each, 3)), parts.map(String), quotients]));"""
    told, short, parts, quotients = in_node(script)
    assert told == [repr(number) for number in numbers]
    assert short == [f"{number:.3g}" for number in numbers]
    assert quotients == [int(part) / (10**25 + 1) for part in parts]


def test_refusals_mean_what_they_mean_in_python() -> None:
    script = f"import {{ MEANINGS }} from {str(PAGE / 'refusals.js')!r}; console.log(JSON.stringify(MEANINGS));"
    known = [getattr(refusals, name) for name in dir(refusals)]
    kinds = [kind for kind in known if isinstance(kind, type) and issubclass(kind, Refused) and kind is not Refused]
    assert in_node(script) == {str(kind.number): kind.meaning for kind in kinds}


FILE = 'Lattice="20.0 0 0 0 20.0 0 0 0 20.0" Properties=species:S:1:pos:R:3:vel:R:3 Time=0'
ROWS = "".join(f"Ar {3.8 * (k % 3):.2f} {3.8 * (k // 3 % 3):.2f} {3.8 * (k // 9):.2f} 0.1 0 0\n" for k in range(27))
TEXT = f"27\n{FILE}\n{ROWS}"
SAID = {"sigma": "3.4", "epsilon": "119.8", "mass": "39.948", "dt": "2", "temperature": "94.4"}


def test_a_file_is_loaded_as_python_loads_it(tmp_path: Path) -> None:
    """First its edge is found, then it is asked for what its atoms are, and a field that does not fit is told."""
    wrong = {"do": "load", "file": "a.xyz", "edge": "20", **SAID, "dt": "1e9"}
    messages = [{"do": "load", "file": "a.xyz", "text": TEXT}, wrong, {**wrong, "dt": "2"}, {"do": "frame", "steps": 2}]
    _, asks, again, begun, frame = from_node(messages)[0]
    assert (asks["asks"], asks["known"]["edge"], asks["known"]["epsilon"]) == ("file", 20, 119.8)
    assert "fs for these atoms, got 1e+09 fs" in again["why"]
    path = tmp_path / "a.xyz"
    path.write_text(TEXT)
    scene = scenes.of_file(str(path), None, lambda edge: Scale.of(edge, 3.4, epsilon=119.8 * units.kelvin, mass=39.948, dt=2), 94.4, 1)
    first, theirs = from_python([{"do": "frame", "steps": 2}], [scene])[0]
    assert frame == theirs
    assert begun["scene"]["title"] == "a.xyz" and begun["scene"]["titles"][3:] == ["a.xyz"]
    left = ("number", "titles")
    assert {**begun, "scene": {k: v for k, v in begun["scene"].items() if k not in left}} == {
        **first,
        "scene": {k: v for k, v in first["scene"].items() if k not in left},
    }


def test_a_file_that_the_program_refuses_changes_nothing() -> None:
    messages = [
        {"do": "load", "scene": 2},
        {"do": "load", "file": "b.xyz", "text": TEXT.replace("Ar 3.80 0.00", "Ar 3.8O 0.00")},
        {"do": "load", "file": "b.xyz", "edge": "20", **SAID},
        {"do": "frame", "steps": 1},
    ]
    _, begun, _, refused, frame = from_node(messages)[0]
    assert refused["asks"] == "file" and refused["why"].startswith("ERR 33 XYZ_NUMBER line 4: a coordinate is no decimal number")
    assert len(begun["scene"]["titles"]) == 3 and (frame["step"], frame["direction"]) == (1, 1)


def test_a_file_that_is_too_long_is_told() -> None:
    limit = 1048576
    body = f"27\n{'x' * limit}\n{ROWS}"
    messages = [{"do": "load", "file": "c.xyz", "size": limit + 1}, {"do": "load", "file": "c.xyz", "text": body}]
    _, told, _, again = from_node([*messages, {"do": "load", "file": "c.xyz", "edge": "20", **SAID}])[0]
    assert told == {"error": f"the XYZ text must have at most {limit} bytes, got {limit + 1}"}
    assert again["why"] == f"the XYZ text must have at most {limit} bytes, got {len(body)}"


def played(path: Path) -> Tuple[int, str]:
    """What verify says of a record, at last."""
    command = [sys.executable, "-m", "ljclient", "verify", "--program", os.environ["LJSERVE"], "--quiet", str(path)]
    done = subprocess.run(
        command, env={**os.environ, "PYTHONPATH": str(TOP / "clients/python")}, capture_output=True, text=True, timeout=SECONDS
    )
    return done.returncode, done.stdout + done.stderr


def test_its_record_is_played_by_verify(tmp_path: Path) -> None:
    """With commands that were typed, one of which is refused. A record that was changed is found out."""
    typed = {
        "do": "commands",
        "commands": [["TUG view-1 31 5 5 5", ""], ["TUG view-1 32 5 5 5", ""], ["LIST", ""], ["LOAD view-1 x 1 1 rest 1", "1"]],
    }
    messages = [{"do": "load", "scene": 2}, *ADVANCED, *SAVED, typed, *SECOND, *[{"do": "frame", "steps": 1}] * 70, {"do": "record"}]
    answers = from_node(messages)[0]
    told = next(answer["told"] for answer in answers if "told" in answer)
    assert [lines[0][:6] for lines in told] == ["OK TUG", "ERR 14", "OK LIS", "ERR 11"]
    text = answers[-1]["record"]
    path = tmp_path / "page.lj"
    path.write_text(text)
    status, said = played(path)
    assert status == 0 and "0 commands were not played; 1 trajectory" in said
    frames = [line for line in text.splitlines() if line.split(" ")[1:3] == ["<", "OK"] and line.split(" ")[3] == "ADVANCE"]
    assert len(frames) >= 72 and "quota sessions 1 atoms 32 branches 2" in text
    path.write_text(text.replace("TUG view-1 31 5 5 5", "TUG view-1 31 5 5 6"))
    assert played(path)[0] == 2


def test_atoms_that_were_dropped_by_a_command_are_told_as_lost() -> None:
    typed = {"do": "commands", "commands": [["DROP view-1", ""]]}
    _, _, told, lost, begun = from_node([{"do": "load", "scene": 2}, typed, {"do": "frame", "steps": 0}, {"do": "load", "scene": 2}])[0]
    assert told == {"told": [["OK DROP view-1"]]}
    assert (lost["lost"], lost["error"]) == (True, "cannot go on with view-1: the program no longer has it; choose other atoms")
    assert begun["scene"]["title"] == "A gas of 32 atoms"


def test_a_command_that_would_have_the_program_wait_or_end_is_not_sent() -> None:
    lines = ["LOAD a 9 1 1 rest 15", "\tLOAD  a 9 1 1 rest 5 ", "LOADMIX a", "LOAD a 9 1 1 rest 1048577"]
    typed = {"do": "commands", "commands": [[line, "1\n"] for line in lines]}
    _, told, frame = from_node([typed, {"do": "frame", "steps": 1}])[0]
    assert [each[0][:30] for each in told["told"]] == ["not sent: the body must have t"] * 2 + [
        "not sent: LOADMIX must end wit",
        "not sent: LOAD must end with a",
    ]
    assert frame["step"] == 1


def test_a_program_that_has_ended_is_told() -> None:
    typed = {"do": "commands", "commands": [["BYE", ""]]}
    answers = from_node([{"do": "load", "scene": 2}, typed, {"do": "frame", "steps": 1}])[0]
    assert answers[-1]["ended"] is True
    assert answers[-1]["error"].startswith("The program has ended. Load this page again (")


MOVING = [{"do": "load", "scene": 2}, *ADVANCED, *SAVED, *SECOND[:2], *[{"do": "frame", "steps": 1}] * 3, {"do": "exact"}]
BACK = [{"do": "restore"}, {"do": "frame", "steps": 1}, {"do": "exact"}, {"do": "restart"}, {"do": "frame", "steps": 4}, {"do": "reverse"}]


@pytest.mark.parametrize("most", [440, 700, 740])
def test_it_goes_on_in_a_new_program(most: int, tmp_path: Path) -> None:
    """Nobody sees that but its record, which is of one trajectory still."""
    messages = [*MOVING, *BACK, {"do": "frame", "steps": 2}, {"do": "exact"}]
    stays, asked = from_node(messages)
    moves, again = from_node([*messages, {"do": "record"}], most)
    assert moves[:-1] == stays
    loads = [line for line, _ in again if line.startswith("LOAD view-1 ")]
    assert len(loads) > len([line for line, _ in asked if line.startswith("LOAD view-1 ")])
    path = tmp_path / "moved.lj"
    path.write_text(moves[-1]["record"])
    status, said = played(path)
    assert status == 0 and "1 trajectory" in said, said
    assert " moved" in moves[-1]["record"]


def test_it_stays_where_something_else_is_in_the_program() -> None:
    """Until hardly any commands are left: then it says so, and what is there can still be saved."""
    typed = {"do": "commands", "commands": [["LOAD a 9 1 1 rest 15", "1\n\nAr 0 0 0   \n"]]}
    frames = [{"do": "frame", "steps": 1}] * 30
    answers, asked = from_node([{"do": "load", "scene": 2}, typed, *frames, {"do": "record"}], 700)
    assert len([line for line, _ in asked if line.startswith("LOAD view-1 ")]) == 2
    assert "error" not in answers[3] and answers[-2]["error"].startswith("this program has answered nearly 1,000,000 commands")
    assert answers[-1]["record"].endswith("end\n")
