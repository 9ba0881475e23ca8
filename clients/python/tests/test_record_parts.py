"""Records that are played in parts: what a part that begins at a checkpoint replies is what the whole replies."""
import contextlib
import pathlib
import random
from unittest import mock
from typing import Any, Callable, Dict, List, Tuple

import pytest

from ljclient import Refused, record_parts, recording, state_points, study, units
from ljclient.record import Answer
from ljclient.state import State
from study_folders import begun, verified
from support import DIMER, PROGRAM, dimer

MIX: Dict[str, Any] = {"edge": 256, "species": ("Na", "Cl"), "classes": [(1, 131072, 256), (1, 262144, 512), (1, 131072, 256)]}


def parts_told(folder: pathlib.Path, jobs: int = 4) -> List[str]:
    """In how many parts, and with how many checkpoints, each record of a study was played, which fits."""
    status, told, faults = verified(folder, jobs=jobs)
    assert (status, faults) == (0, []), (told, faults)
    return [line.split("; played in ")[1] for line in told if "; played in " in line]


ACTS: Tuple[Callable[[Any, Any], object], ...] = (
    lambda a, pick: a.advance(1 + pick(9)),
    lambda a, pick: a.start(1 + pick(9)),
    lambda a, pick: a.reverse(),
    lambda a, pick: a.tug(pick(2), (pick(10**6), -pick(10**6), 3)),
    lambda a, pick: a.branch(f"b{pick(2)}"),
    lambda a, pick: a.restore(f"b{pick(2)}"),
    lambda a, pick: a.forget(f"b{pick(2)}"),
    lambda a, pick: a.measure(),
    lambda a, pick: a.places(),
    lambda a, pick: a.dump(),
    lambda a, pick: a.saved(),
    lambda a, pick: a.resort(),
    lambda a, pick: list(a.thermo(2, 2)),
    lambda a, pick: a.place(pick(3)),
)


def at_random(folder: pathlib.Path, seed: int) -> int:
    """A session to which anything is done, with checkpoints anywhere: also backward, with pending steps, and where something is
    saved, from which no part begins. Returns how many checkpoints there are."""
    chance = random.Random(seed)
    with begun(folder) as (s, user):
        a = dimer(user)
        for _ in range(50):
            with contextlib.suppress(ValueError, Refused):
                chance.choice(ACTS)(a, chance.randrange)
            if chance.random() < 0.3:
                s.checkpoint(a)
    return len(s.manifest.of_kind("checkpoint"))


def test_sessions_at_random(tmp_path: pathlib.Path) -> None:
    counts = []
    for seed in range(5):
        points = at_random(tmp_path / str(seed), seed)
        assert parts_told(tmp_path / str(seed), 1) == [f"1 part, with {points} checkpoints"]
        (told,) = parts_told(tmp_path / str(seed), 4)
        count, rest = told.split(" ", 1)
        assert rest in (f"part, with {points} checkpoints", f"parts, with {points} checkpoints")
        counts.append(int(count))
    assert sorted(counts)[2] > 2


def test_no_part_begins_where_something_is_saved(tmp_path: pathlib.Path) -> None:
    with begun(tmp_path / "x") as (s, user):
        a = dimer(user)
        a.advance(5)
        a.branch("k")
        s.checkpoint(a)
        a.advance(5)
        a.restore("k")
        a.forget("k")
        s.checkpoint(a)
        a.advance(5)
    assert parts_told(tmp_path / "x") == ["2 parts, with 2 checkpoints"]


def test_a_small_box_is_played_whole(tmp_path: pathlib.Path) -> None:
    """Not each place has a coordinate there. Its checkpoints are compared all the same."""
    with begun(tmp_path / "x") as (s, user):
        a = user.load("a", DIMER.replace("1.5", "0.2"), edge=3, sigma=0.13, h=1000)
        s.advance(a, 6, 2)
    assert parts_told(tmp_path / "x") == ["1 part, with 3 checkpoints"]


@pytest.mark.parametrize("edge", ["4.294967296", "4.294967297", "5.0000001", "999.999999999", "1e6"])
def test_boxes_at_the_limit(tmp_path: pathlib.Path, edge: str) -> None:
    """Each place is loaded again bit for bit, and DUMP shows the same."""
    with begun(tmp_path / "x") as (s, user):
        sigma = 0.2 * float(edge) / 1.7
        a = user.load("a", f"2\n\nAr 0 0 0\nAr {1.2 * sigma} 1e-9 0\n", edge=edge, sigma=round(sigma, 9), h=70_000)
        a.tug(0, (12345, -6789, 2**31 - 1))
        for _ in range(3):
            s.advance(a, 3, 3)
            a.dump()
            a.places()
    assert parts_told(tmp_path / "x") == ["4 parts, with 3 checkpoints"]


def test_two_species_in_the_order_of_space(tmp_path: pathlib.Path) -> None:
    with begun(tmp_path / "x") as (s, user):
        a = user.load_mix("m", "3\nmix\nNa 0 0 0\nCl 1.5 0 0\nNa 0 1.5 0\n", order="space", watch=False, **MIX)
        s.advance(a, 6, 2)
        a.resort()
        a.dump()
        a.measure()
        s.checkpoint(a)
        a.reverse()
        s.advance(a, 6, 3)
    assert parts_told(tmp_path / "x") == ["6 parts, with 6 checkpoints"]


def test_a_session_that_is_loaded_again(tmp_path: pathlib.Path) -> None:
    """Step numbers begin anew there, within a part."""
    with begun(tmp_path / "x") as (s, user):
        a = dimer(user)
        s.advance(a, 4, 2)
        with pytest.raises(Refused):
            user.ask("ADVANCE a 1000001")
        line = f"LOAD a 256 1 131072 rest {len(DIMER)}"
        with mock.patch.object(recording.Record, "close", lambda record: None):
            user._ask_commands([("DROP a", b""), (line, DIMER.encode())])
        a = user.session("a", edge=256, sigma=1, h=131072)
        user._ask_commands(
            [("ADVANCE a 3", b""), ("MEASURE a", b""), ("BRANCH a k", b""), ("LIST a", b""), ("DUMP a", b""), ("FORGET a k", b"")]
        )
        s.checkpoint(a)
        user.ask("ADVANCE a 3")
    status, told, faults = verified(tmp_path / "x", jobs=8)
    assert (status, faults) == (0, [])
    assert any("; 2 trajectories; " in line and line.endswith("; played in 4 parts, with 3 checkpoints") for line in told), told


def test_argon_in_motion(tmp_path: pathlib.Path) -> None:
    """Atoms in a liquid, whose places have all bits."""
    pytest.importorskip("numpy", reason="numpy is not installed")
    with study(tmp_path / "x") as s:
        user = s.run(PROGRAM)
        fluid = user.load("fluid", state_points.lattice("fcc", density=0.2, atoms=32), sigma=1, h=70_000, order="space")
        fluid.heat(1.5, seed=3)
        s.advance(fluid, 12, 4)
        fluid.velocities()
        fluid.reverse()
        s.advance(fluid, 8, 4)
    assert parts_told(tmp_path / "x") == ["6 parts, with 5 checkpoints"]


def state(step: int, direction: int) -> Any:
    return State("a", units.Scale.of(256, 1, 1), None, step, direction, (), (), ())


@pytest.mark.parametrize(
    ("line", "first", "rest", "wanted", "below"),
    [
        ("ADVANCE a 3", "OK ADVANCE a 3", [], "OK ADVANCE a 97", []),
        ("START a 3", "OK START a 3", [], "OK START a 97", []),
        ("REVERSE a", "OK REVERSE a -1", [], "OK REVERSE a 101", []),
        ("BRANCH a k", "OK BRANCH a k 2", [], "OK BRANCH a k 98", []),
        ("RESTORE a 7", "OK RESTORE a 7 2", [], "OK RESTORE a 7 98", []),
        ("FORGET a 7", "OK FORGET a 7", [], "OK FORGET a 7", []),
        ("TUG a 1 5 0 0", "OK TUG a 1 2", [], "OK TUG a 1 98", []),
        ("MEASURE a", "OK MEASURE a 2 2 5 0 0 6 -7", [], "OK MEASURE a 98 2 5 0 0 6 -7", []),
        ("SHOW a 1", "OK SHOW a 2 1 3 4 5", [], "OK SHOW a 98 1 3 4 5", []),
        ("DUMP a", "OK DUMP a 2 3", ["1", "step 2", "Ar 0.0 0.0 0.0"], "OK DUMP a 98 3", ["1", "step 98", "Ar 0.0 0.0 0.0"]),
        ("LIST a", "OK LIST a 2", ["5 0", "k -3"], "OK LIST a 2", ["5 100", "k 103"]),
        ("DROP a", "OK DROP a", [], "OK DROP a", []),
    ],
)
def test_step_numbers_of_replies(line: str, first: str, rest: List[str], wanted: str, below: List[str]) -> None:
    """From step 100, which is step 0 here, backward."""
    answer = Answer(line.encode(), b"", first.encode(), [each.encode() for each in rest])
    told = record_parts.shifted(answer, line.split()[0].encode(), state(100, -1))
    assert (told.first.decode(), [each.decode() for each in told.rest]) == (wanted, below)
