"""`python3 -m ljclient diff`: where two records part, by the command, the step and the atom."""
import contextlib
import pathlib
import subprocess
import sys
from typing import Any, Callable, Dict, List, Tuple

import pytest

from ljclient import record_diff, run
from record_texts import DIMER_TEXT, twisted, with_checks
from study_folders import told_by
from support import DIMER, PROGRAM, SECONDS, dimer
from terminals import environment

Acts = Callable[[Any], object]


@pytest.fixture
def recorded(tmp_path: pathlib.Path) -> Any:
    """What writes a record of two atoms, to which something is done."""

    def record(name: str, acts: Acts, **words: Any) -> pathlib.Path:
        path = tmp_path / f"{name}.lj"
        session, body = words.pop("session", "a"), words.pop("body", DIMER)
        with run(PROGRAM) as user:
            given: Dict[str, Any] = {"edge": 256, "sigma": 1, "h": 131072, **words}
            acts(user.load(session, body, record=path, **given))
        return path

    return record


def differs(*words: Any) -> Tuple[int, List[str]]:
    """The status of diff, and the lines that it writes. It says nothing on standard error."""
    status, told, faults = told_by(record_diff.main, *words)
    assert not faults, faults
    return status, told


def go(*pieces: int) -> Acts:
    return lambda a: [a.advance(piece, piece=piece) for piece in pieces]


def both(*several: Acts) -> Acts:
    return lambda a: [acts(a) for acts in several]


def line_of(path: pathlib.Path, command: str) -> int:
    """The line of the first command that is so."""
    return next(number for number, line in enumerate(path.read_text().splitlines(), 1) if line[9:] == f"> {command}")


def test_a_record_and_itself(recorded: Any) -> None:
    path = recorded("a", both(go(3, 4), lambda a: a.places(), lambda a: a.reverse(), go(2)))
    assert differs(path, path) == (0, ["both have the same trajectory: 9 steps made"])


def test_other_pieces_reads_and_names(recorded: Any) -> None:
    """They make no other trajectory, and nothing has to be played for it."""
    one = recorded("a", both(go(3, 4), lambda a: a.measure(), lambda a: a.reverse(), go(2)))
    other = recorded("b", both(go(1, 6), lambda a: a.places(), lambda a: a.reverse(), go(1, 1)), session="other")
    status, told = differs(one, other, "--program", "/nowhere")
    first = f"line {line_of(one, 'ADVANCE a 3')}, `ADVANCE a 3`, and line {line_of(other, 'ADVANCE other 1')}, `ADVANCE other 1`"
    assert (status, told) == (0, ["both have the same trajectory: 9 steps made", f"the first commands that are not the same: {first}"])
    started = recorded("c", both(lambda a: a.start(7), lambda a: a.reverse(), lambda a: a.start(2), lambda a: a.place(0)))
    assert differs(one, started)[0] == 0


@pytest.mark.parametrize(
    ("acts", "command", "atom"),
    [
        (lambda a: a.tug(1, (3, 0, 0)), "TUG a 1 3 0 0", "atom 1, Ar at {1} from {0}, and Ar at {1} from {2}"),
        (lambda a: a.reverse(), "REVERSE a", ""),
    ],
)
def test_a_command_that_only_one_has(recorded: Any, acts: Acts, command: str, atom: str) -> None:
    """The atom that was tugged has the place of before, but came from elsewhere: from 3 units farther back."""
    one, other = recorded("a", go(4, 5)), recorded("b", both(go(4), acts, go(5)))
    status, told = differs(one, other)
    assert status == 1
    assert told[0].startswith("the first command that differs, after 4 steps made: ")
    assert told[0].endswith(f"{one}: nothing of the kind there; {other}, line {line_of(other, command)}: `{command}`")
    if atom:
        with run(PROGRAM) as user:
            a = dimer(user)
            a.advance(3)
            before = a.place(1)
            a.advance(1)
            now = a.place(1)
        words = [" ".join(map(str, place)) for place in (before, now, (before[0] - 3, *before[1:]))]
        assert told[1:] == [f"the first atom that differs, at step 4: {atom.format(*words)}"]
    else:
        assert told[1:] == ["step 4 and direction 1, and step 3 and direction -1"]


def test_commands_that_do_the_same(recorded: Any) -> None:
    """A tug and the one that undoes it; a branch that is restored at once; atoms in other words."""
    plain = recorded("a", go(4, 5))
    undone = recorded("b", both(go(4), lambda a: a.tug(1, (3, 0, 0)), lambda a: a.tug(1, (-3, 0, 0)), go(5)))
    restored = recorded("c", both(go(4), lambda a: a.branch("k"), lambda a: a.restore("k"), go(5)))
    worded = recorded("d", go(9), body=DIMER.replace("1.5", "15d-1"))
    for other in (undone, restored, worded):
        status, told = differs(plain, other)
        assert status == 0
        assert told[1:3] == ["they do the same all the same", "both have the same trajectory: 9 steps made"], told


def test_what_was_saved_elsewhere_is_restored(recorded: Any) -> None:
    """Both restore `k`, which one has saved two steps later."""
    one = recorded("a", both(go(2), lambda a: a.branch("k"), go(2, 4), lambda a: a.restore("k"), go(1)))
    other = recorded("b", both(go(4), lambda a: a.branch("k"), go(4), lambda a: a.restore("k"), go(1)))
    status, told = differs(one, other)
    assert status == 1
    assert told[0].startswith("the first command that differs, after 2 steps made: ")
    assert told[-1] == "step 2 and direction 1, and step 4 and direction 1"


@pytest.mark.parametrize(
    ("words", "told"),
    [
        (
            {"body": DIMER.replace("1.5", "1.6")},
            "the first atom that differs, at step 0: atom 1, Ar at 25165824 0 0 from 25165824 0 0, and Ar at 2684",
        ),
        ({"body": "1\n\nAr 0 0 0\n"}, "step 0: {one} has 2 atoms, and {other} 1"),
        ({"body": DIMER.replace("Ar", "Kr")}, "the first atom that differs, at step 0: atom 0, Ar at 0 0 0 from 0 0 0, and Kr at 0 0 0"),
    ],
)
def test_other_atoms(recorded: Any, words: Dict[str, Any], told: str) -> None:
    one, other = recorded("a", go(3)), recorded("b", go(3), **words)
    status, lines = differs(one, other)
    assert status == 1 and lines[0].startswith("the first command that differs, after 0 steps made: ")
    assert lines[1].startswith(told.format(one=one, other=other)), lines


def test_atoms_that_interact_otherwise(recorded: Any) -> None:
    """With half as much again of the step factor the first step is as much farther: 589.5 ring units by hand, and 884.2."""
    one, other = recorded("a", go(3)), recorded("b", go(3), h=196608)
    status, told = differs(one, other)
    assert status == 1
    assert told[1:] == [
        "their atoms interact otherwise: sigma 16777216 ring units, h 131072, weight 256, and sigma 16777216 ring units, h 196608, "
        "weight 256",
        "the first atom that differs, at step 1: atom 0, Ar at 589 0 0 from 0 0 0, and Ar at 884 0 0 from 0 0 0",
    ]


@pytest.mark.parametrize(
    "acts", [go(3, 4), both(go(7), lambda a: a.tug(0, (1, 0, 0))), both(go(7), lambda a: a.reverse(), go(2)), go(7, 1)]
)
def test_one_that_is_longer(recorded: Any, acts: Acts) -> None:
    for short in (go(3), go(2, 1)):
        one, other = recorded("a", short), recorded("b", acts)
        status, told = differs(one, other)
        assert status == 1 and told[-1] == f"they agree up to the end of {one}: 3 steps made; {other} goes on"
        assert differs(other, one)[1][-1] == f"they agree up to the end of {one}: 3 steps made; {other} goes on"


def test_one_that_ends_with_a_part_of_the_commands(recorded: Any) -> None:
    one, other = recorded("a", go(3)), recorded("b", both(go(3), lambda a: a.tug(0, (1, 0, 0))))
    assert differs(one, other) == (1, [f"they agree up to the end of {one}: 3 steps made; {other} goes on"])
    assert differs(other, one) == (1, [f"they agree up to the end of {one}: 3 steps made; {other} goes on"])


@pytest.mark.parametrize(
    ("wanted", "other", "told"),
    [
        (
            "< OK SHOW a 1 0 589 0 0",
            "< OK SHOW a 1 0 590 0 0",
            "reply of atom 0 that differs, after 1 step made, {}, line 12 and {}, line 12: `SHOW a 0`: ",
        ),
        ("< OK ADVANCE a 2", "< OK ADVANCE a 3", "reply that differs, after 2 steps made, {}, line 17 and {}, line 17: `ADVANCE a 1`: "),
        ("< OK BRANCH a k 1", "< OK BRANCH a k 2", "reply that differs, after 1 step made, {}, line 15 and {}, line 15: `BRANCH a k`: "),
    ],
)
def test_a_reply_that_was_edited(tmp_path: pathlib.Path, wanted: str, other: str, told: str) -> None:
    one, two = tmp_path / "one.lj", tmp_path / "two.lj"
    one.write_text(with_checks(DIMER_TEXT))
    two.write_text(with_checks(DIMER_TEXT.replace(wanted, other)))
    status, lines = differs(one, two, "--program", "/nowhere")
    replies = f"`{wanted[2:]}` and `{other[2:]}`; `verify` tells which is false"
    assert (status, lines) == (1, [f"the first {told.format(one, two)}{replies}"])


def test_lines_below_a_reply(tmp_path: pathlib.Path) -> None:
    one, two = tmp_path / "one.lj", tmp_path / "two.lj"
    one.write_text(with_checks(DIMER_TEXT))
    (line,) = [line for line in DIMER_TEXT.splitlines() if line.startswith("+ ") and "OK DUMP" in DIMER_TEXT.split(line)[0][-20:]]
    two.write_text(with_checks(DIMER_TEXT.replace(line, f"+ {64 * '0'}")))
    status, (told,) = differs(one, two, "--program", "/nowhere")
    assert status == 1 and "`DUMP a`: `OK DUMP a 2 4` in both, and the lines below it are others" in told


def test_a_session_that_is_gone(recorded: Any) -> None:
    one, other = recorded("a", both(go(3), lambda a: a.drop())), recorded("b", both(go(3), lambda a: a.tug(0, (1, 0, 0)), go(1)))
    status, told = differs(one, other)
    assert (status, told[-1]) == (1, f"the session is gone in {one} alone")


def test_files_that_cannot_be_compared(recorded: Any, tmp_path: pathlib.Path) -> None:
    one = recorded("a", go(3))
    spoilt, empty = tmp_path / "spoilt.lj", tmp_path / "empty.lj"
    spoilt.write_text(one.read_text().replace("ADVANCE", "ADVANCF"))
    empty.write_text("ljserve record 2\n")
    for pair in ((one, spoilt), (spoilt, one)):
        status, told, (fault,) = told_by(record_diff.main, *pair)
        assert (status, told) == (2, []) and fault.endswith("the line was changed, or one above it is missing")
    assert told_by(record_diff.main, one, tmp_path / "none") == (
        2,
        [],
        [f"ljclient: cannot read {tmp_path}/none: No such file or directory"],
    )
    assert told_by(record_diff.main, one, tmp_path)[0] == 2
    assert told_by(record_diff.main, one, empty)[2] == [f"ljclient: cannot compare {empty}: it has no command with a reply"]
    other = recorded("b", both(go(3), lambda a: a.tug(0, (1, 0, 0)), go(1)))
    third = recorded("c", both(go(3), lambda a: a.tug(0, (2, 0, 0)), go(1)))
    status, _, (fault,) = told_by(record_diff.main, other, third, "--program", tmp_path / "no program")
    assert status == 2 and "no program" in fault


def test_a_record_that_is_cut_short(recorded: Any, tmp_path: pathlib.Path) -> None:
    one, cut = recorded("a", go(3, 4)), tmp_path / "cut.lj"
    cut.write_text(one.read_text()[:-30])
    status, told = differs(one, cut)
    assert (status, told[-1]) == (1, f"they agree up to the end of {cut}: 3 steps made; {one} goes on")


def test_what_is_not_the_programs(recorded: Any, tmp_path: pathlib.Path) -> None:
    """A program that replies otherwise refuses what the record was granted: this is told, and not taken for a difference."""
    other = recorded("b", both(go(3), lambda a: a.tug(0, (1, 0, 0)), go(1)))
    third = recorded("c", both(go(3), lambda a: a.tug(0, (2, 0, 0)), go(1)))
    program = twisted(tmp_path, "OK TUG a 0 3", "ERR 14 NO_ATOM")
    status, told, (fault,) = told_by(record_diff.main, other, third, "--program", program)
    assert (status, told) == (2, []) and "NO_ATOM" in fault


@pytest.mark.parametrize(
    ("words", "told"),
    [
        ([], "the following arguments are required: A, B"),
        (["a", "b", "c"], "there is a word too many; use quotes around the name of a file with blanks"),
        (["a", "b", "--no=x"], "there is no option --no; use --help to list the options"),
        (["a", "b", "--program", ""], "--program must be the path of a program, got an empty one"),
    ],
)
def test_words_of_the_command_line(words: List[str], told: str) -> None:
    command = [sys.executable, "-m", "ljclient", "diff", *words]
    done = subprocess.run(command, env=environment(), capture_output=True, text=True, timeout=SECONDS)
    assert (done.returncode, done.stdout) == (2, "")
    assert done.stderr.splitlines()[-1] == f"ljclient: {told}"


def test_it_is_a_command_of_the_client(recorded: Any) -> None:
    path = recorded("a", go(3))
    command = [sys.executable, "-m", "ljclient", "diff", str(path), str(path)]
    with contextlib.suppress(OSError):
        done = subprocess.run(command, env=environment(), capture_output=True, text=True, timeout=SECONDS)
    assert (done.returncode, done.stdout) == (0, "both have the same trajectory: 3 steps made\n")
