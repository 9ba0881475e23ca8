"""Where a session of a record is loaded again: it goes on as it was, bit for bit, or the verdict tells of another trajectory."""
import pathlib
import re
from typing import Any, Callable, Tuple
from unittest import mock

import pytest

from ljclient import exact, record_playing, run, user as users
from record_texts import DIMER_TEXT, verified, with_checks, without_checks
from support import ARGON, EXAMPLES, PROGRAM, TOKEN, Server, dimer
from true_records import judged, text_of

ON = "again - line : the session goes on as it was"
OTHER = "again - line : another trajectory begins"
UNCOMPARED = "again - line : it was not compared whether the session goes on as it was"
# The load of the dimer as it is after three steps, by hand as in PROTOCOL.
ATOMS = ("Ar 1774e-6 0e-6 0e-6", "Ar 25164050e-6 0e-6 0e-6", "Ar 3555e-6 0e-6 0e-6", "Ar 25162269e-6 0e-6 0e-6")
LOAD = "LOAD a 4294.967296 16777216e-6 131072 pair "


def body_of(*rows: str) -> str:
    """The lines of a body of two frames of two atoms."""
    return "".join(f": {line}\n" for line in ("2", "", *rows[:2], "2", "", *rows[2:]))


@pytest.fixture(scope="module")
def text(tmp_path_factory: pytest.TempPathFactory) -> str:
    """The record of a dimer that is dropped after three steps, and loaded again."""
    text = text_of("sorted_in_space", tmp_path_factory.mktemp("true"))
    assert f"> {LOAD}98\n{body_of(*ATOMS)}< OK LOAD a 0 2\n" in text
    # What follows depends on what was loaded. It is left out, so that each reply is the same.
    return text.split("> ADVANCE a 1\n")[0] + "end\n"


def loaded_as(text: str, line: str, *rows: str) -> str:
    """The record in which this is loaded in place of what was there, with a body of these atoms."""
    body = body_of(*(rows or ATOMS))
    count = len(body.replace(": ", ""))
    return text.replace(f"> {LOAD}98\n{body_of(*ATOMS)}", f"> {line}{count}\n{body}")


A, B, C, D = ATOMS


@pytest.mark.parametrize(
    ("line", "rows", "told"),
    [
        (LOAD, ATOMS, ON),
        (LOAD, (B, A, D, C), ON),
        (LOAD, (B, A, C, D), OTHER),
        (LOAD, (C, D, A, B), OTHER),
        (LOAD, (C, D, C, D), OTHER),
        (LOAD, (A, B, C, D.replace("269", "268")), OTHER),
        (LOAD, (A, B.replace("050", "051"), C, D), OTHER),
        (LOAD, (A, B, C, D.replace("Ar", "Kr")), ON),
        (LOAD, (A, B.replace("Ar", "Kr"), C, D), OTHER),
        (LOAD.replace("131072", "131073"), ATOMS, OTHER),
        (LOAD.replace("16777216", "16777217"), ATOMS, OTHER),
        (LOAD.replace("16777216e-6", "16.777216D0"), ATOMS, ON),
        (LOAD.replace("16777216e-6", "16.7772160004"), ATOMS, ON),
        (LOAD.replace("pair", "rest"), ATOMS, OTHER),
    ],
)
def test_what_is_loaded_again(text: str, tmp_path: pathlib.Path, line: str, rows: Any, told: str) -> None:
    """In what order the atoms are is no matter, and neither are the symbols of the second frame, which no reply tells."""
    status, lines = judged(tmp_path / "run.lj", loaded_as(text, line, *rows))
    count = "1 trajectory" if told == ON else "2 trajectories"
    assert (status, lines[-2], lines[-1].split("; ")[-1]) == (0, told, count)


def test_a_box_of_another_edge(text: str, tmp_path: pathlib.Path) -> None:
    """The places are the same in ring units where all is half as wide, and so is sigma."""
    half = [f"Ar {x // 2}.{x % 2 * 5}e-6 0 0" for x in (1774, 25164050, 3555, 25162269)]
    line = "LOAD a 2147.483648 8388608e-6 131072 pair "
    assert judged(tmp_path / "run.lj", loaded_as(text, line, *half))[1][-2] == ON
    assert judged(tmp_path / "run.lj", loaded_as(text, line, *ATOMS))[1][-2] == OTHER


@pytest.mark.parametrize(("room", "told"), [(7 + 4, ON), (7 + 3, UNCOMPARED), (6, UNCOMPARED)])
def test_commands_that_a_program_has_no_room_for(text: str, tmp_path: pathlib.Path, room: int, told: str) -> None:
    """It takes 7 to read the dimer in its box before it is dropped, and 4 in the box of ring units."""
    commands = text.count("\n> ")
    with mock.patch.object(record_playing, "MAX_ITEMS", record_playing.SPARE_ITEMS + commands + room):
        status, lines = judged(tmp_path / "run.lj", text)
    count = "1 trajectory" if told == ON else "at most 2 trajectories, since 1 load was not compared with the session before"
    assert (status, lines[-2], lines[-1].split("; ")[-1]) == (0, told, count)


def test_over_a_server(text: str, tmp_path: pathlib.Path) -> None:
    path = tmp_path / "run.lj"
    path.write_text(with_checks(text))
    with Server() as server:
        status, told, faults = verified("--quiet", path, "--server", f"127.0.0.1:{server.port}", "ann", LJSERVE_TOKEN=TOKEN)
    assert (status, faults) == (0, [])
    assert "; at most 2 trajectories, since 1 load was not compared with the session before; " in told[-1]


def test_a_new_program_that_is_told_what_was_saved(tmp_path: pathlib.Path) -> None:
    """It goes on from there by tugs, as one trajectory. What was never so is another one."""
    text = text_of("moved", tmp_path)
    above, _, below = text.partition("moved\n")
    assert "> BRANCH a k\n" in below
    told = [judged(tmp_path / "run.lj", each)[1] for each in (text, f"{above}moved\n{below.replace('Ar 1774e-6', 'Ar 1775e-6', 1)}")]
    assert [ON in lines for lines in told] == [True, False]
    assert [OTHER in lines for lines in told] == [False, True]
    assert ["; 1 trajectory" in lines[-1] for lines in told] == [True, False]


@pytest.fixture(scope="module")
def parts(tmp_path_factory: pytest.TempPathFactory) -> Tuple[str, str]:
    """The record of a dimer that goes on in a new program with two saved states, above that and up to where it is as it was."""
    path = tmp_path_factory.mktemp("true") / "run.lj"
    with mock.patch.object(users, "MAX_ITEMS", 100), run(PROGRAM) as user:
        a = dimer(user, record=path)
        for name in ("k", "m"):
            a.advance(2)
            a.branch(name)
        for _ in range(80):
            a.advance(1)
    above, _, below = "\n".join([*without_checks(path), ""]).partition("moved\n")
    moved = re.match(r"(?:> (?!ADVANCE).*\n(?:[:<].*\n)+)+", below)
    assert moved and moved[0].count("> BRANCH") == 2 and moved[0].count("> REVERSE") == 4
    return above, moved[0]


def less(pattern: str) -> Callable[[str], str]:
    """What leaves out the last text of this pattern."""
    return lambda moved: re.sub(rf"(?s)(.*){pattern}", r"\1", moved, count=1)


TUG, TURN = r"> TUG[^\n]*\n<[^\n]*\n", r"> REVERSE[^\n]*\n<[^\n]*\n"
FIRST_TURN = r"(> REVERSE a\n)"


@pytest.mark.parametrize(
    ("change", "told"),
    [
        (str, ON),
        (lambda moved: f"{moved}> TUG a 0 0 7 0\n< OK TUG a 0 0\n> REVERSE a\n< OK REVERSE a -1\n", ON),
        (lambda moved: re.sub(FIRST_TURN, r"> TUG a 0 0 0 0\n< OK TUG a 0 0\n\1", moved, count=1), ON),
        (lambda moved: re.sub(FIRST_TURN, r"> TUG a 0 0 0 1\n< OK TUG a 0 0\n\1", moved, count=1), OTHER),
        (lambda moved: re.sub(FIRST_TURN, r"> ADVANCE a 0\n< OK ADVANCE a 0\n\1", moved, count=1), OTHER),
        (lambda moved: re.sub(FIRST_TURN, r"> BRANCH a q\n! ERR 90 MEMORY\n\1", moved, count=1), OTHER),
        (lambda moved: re.sub(FIRST_TURN, r"connection\n\1", moved, count=1), OTHER),
        (less(TUG), OTHER),
        (lambda moved: f"{less(TURN)(moved)}> SHOW a 5\n< ERR 14 NO_ATOM\n", OTHER),
        (less(TURN), UNCOMPARED),
        (lambda moved: moved[: moved.index("> BRANCH")], UNCOMPARED),
        (lambda moved: moved[: moved.index("> BRANCH")] + "> ADVANCE a 1\n< OK ADVANCE a 1\n", OTHER),
        (lambda moved: re.sub(r"(BRANCH a )([km])", lambda found: str(found[1]) + "km"[found[2] == "k"], moved), OTHER),
        (lambda moved: re.sub(r"(BRANCH a )m", r"\1z", moved), OTHER),
        (lambda moved: moved.replace("Ar 1774e-6", "Ar 1775e-6", 1), OTHER),
    ],
)
def test_what_was_saved_is_saved_anew(parts: Tuple[str, str], tmp_path: pathlib.Path, change: Callable[[str], str], told: str) -> None:
    """Each state is compared where it is saved again, and at the end that in which the session was."""
    above, moved = parts
    status, lines = judged(tmp_path / "run.lj", f"{above}moved\n{change(moved)}end\n")
    count = {ON: "1 trajectory", OTHER: "2 trajectories"}.get(told, "at most 2 trajectories, since 1 load was not compared")
    assert (status, [line for line in lines if line.startswith("again")]) == (0, [told])
    assert f"; {count}" in lines[-1]


@pytest.mark.parametrize("put_in", ["> ADVANCE a 1\n< OK ADVANCE a 5\n", "> TUG a 0 0 0 0\n< OK TUG a 0 4\n"])
def test_steps_that_are_lost(parts: Tuple[str, str], tmp_path: pathlib.Path, put_in: str) -> None:
    """The session is to be as it was before what is saved is restored only if nothing but reading it is between."""
    above, moved = parts
    assert above.endswith("> REVERSE a\n< OK REVERSE a 4\n")
    assert judged(tmp_path / "run.lj", f"{above}{put_in}moved\n{moved}end\n")[1][-2] == OTHER


SHORT = "> LOAD a 256 1 131072 rest 8\n: 2\n: dimer\n< ERR 31 XYZ_SHORT line 3\n"
MEASURED = "> MEASURE a\n! ERR 10 NO_SESSION\n"
DIMER_LOAD = DIMER_TEXT[DIMER_TEXT.index("> LOAD") : DIMER_TEXT.index("> ADVANCE")]
NO_ROOM = f"{DIMER_LOAD.rpartition('< ')[0]}! ERR 21 QUOTA_ATOMS\n"


@pytest.mark.parametrize(
    ("put_in", "left_out", "trajectories"),
    [
        (f"> SHOW a x\n< ERR 03 SYNTAX\n{DIMER_LOAD}", 0, "2 trajectories"),
        (f"> SHOW a x\n< ERR 03 SYNTAX\n{SHORT}{DIMER_LOAD}", 0, "2 trajectories"),
        (f"{SHORT}{DIMER_LOAD}", 0, "2 trajectories"),
        (f"{SHORT}{SHORT}", 0, "1 trajectory"),
        (f"{NO_ROOM}{SHORT}{DIMER_LOAD}", 1, "2 trajectories"),
        (f"{NO_ROOM}{DIMER_LOAD}", 1, "2 trajectories"),
        (NO_ROOM, 1, "1 trajectory"),
        (f"{SHORT}{NO_ROOM}{MEASURED}{DIMER_LOAD}", 2, "2 trajectories"),
        (f"{MEASURED}{SHORT}", 1, "1 trajectory"),
        (f"{DIMER_LOAD.rpartition('< ')[0]}< ERR 11 EXISTS\n", 0, "1 trajectory"),
    ],
)
def test_a_server_that_was_begun_anew(tmp_path: pathlib.Path, put_in: str, left_out: int, trajectories: str) -> None:
    """Its refusal of a load tells so too, if a load is refused for its name before that."""
    status, lines = judged(tmp_path / "run.lj", DIMER_TEXT.replace("end\n", f"connection\n{put_in}end\n"))
    told = f"{left_out} command{'s were' if left_out != 1 else ' was'} not played; {trajectories}; 1 new connection"
    assert (status, told in lines[-1]) == (0, True), lines
    if put_in[:6] == SHORT[:6] and "EXISTS" not in put_in:
        assert judged(tmp_path / "run.lj", DIMER_TEXT.replace("end\n", f"{put_in}end\n"))[0] in (1, 2)


TURNED = "> REVERSE a\n< OK REVERSE a -1\n> REVERSE a\n< OK REVERSE a 0\n"
SPLICED = "quota sessions 1 atoms 2 branches 1\n> BRANCH a k\n< OK BRANCH a k 0\n> ADVANCE a 100000\n< OK ADVANCE a 100000\nmoved\n"


@pytest.mark.parametrize("following", ["", "> BRANCH a k\n< OK BRANCH a k 0\n", f"> BRANCH a k\n< OK BRANCH a k 0\n{TURNED}"])
def test_a_run_that_is_rewound(tmp_path: pathlib.Path, following: str) -> None:
    """What was saved is loaded in the new program, and nothing makes it the session as it was."""
    head = "ljserve record 2\nquota sessions 1 atoms 2 branches 0\n"
    text = f"{head}{DIMER_LOAD}{SPLICED}{DIMER_LOAD}{following}> ADVANCE a 1\n< OK ADVANCE a 1\nend\n"
    status, lines = judged(tmp_path / "run.lj", text)
    assert (status, lines[-2], lines[-1].split("; ")[-1]) == (0, OTHER, "2 trajectories")


def test_atoms_in_the_order_of_space(tmp_path: pathlib.Path) -> None:
    """They are sorted anew by the client while the session goes on, which is one trajectory."""
    path = tmp_path / "run.lj"
    with run(PROGRAM) as user:
        argon = user.load("argon", EXAMPLES / "argon_256.xyz", order="space", record=path, **ARGON)
        argon.advance(600)
        argon.dump()
    status, told, faults = verified("--quiet", path)
    assert (status, faults) == (0, [])
    assert "; 0 commands were not played; 1 trajectory; " in told[-1]


@pytest.mark.parametrize(
    ("word", "nanos"),
    [
        ("1", 10**9),
        ("1.", 10**9),
        (".5", 5 * 10**8),
        ("15D-1", 15 * 10**8),
        ("-0.0000000005", -1),
        ("0.00000000049", 0),
        ("+2e3", 2 * 10**12),
    ],
)
def test_decimal_numbers(word: str, nanos: int) -> None:
    """They are rounded to 10^-9, halves away from zero."""
    assert exact.nano_of(word.encode()) == nanos


@pytest.mark.parametrize("word", ["", ".", "1e", "1.2.3", "NaN", "0x1", "1/0", "1_0", "1e1000", 41 * "1", "1e99999999"])
def test_words_that_are_no_decimal_numbers(word: str) -> None:
    with pytest.raises(ValueError):
        exact.nano_of(word.encode())
