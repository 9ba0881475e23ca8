"""Warnings of a session whose energy changes, and what is measured for them.

A wire that stands for a server notes each command. The energies that it tells are functions of the step, of one atom in a box
of 256: there a kinetic number of 2^34 is a kinetic energy of one epsilon with h = 2^17, and 2^24 of potential are one epsilon.
"""
import contextlib
import dataclasses
import pathlib
import warnings
from unittest import mock
from typing import Any, Callable, Dict, Iterator, List, Tuple

import pytest

from ljclient import EnergyWarning, User, refusals, run, snapshots, trajectories, units, user as users
from ljclient.wire import Reply
from support import ARGON, DIMER, DIMER_SCALE, EXAMPLES, PROGRAM, dimer, present

ATOM = [("Ar", 0, 0, 0)]
CHECKS = [1000, 2000, 4000, 8000, 16_000, 20_000, 40_000]
MEASURED = [0, 1, *(step for check in CHECKS for step in (check - 1, check))]
UP_TO_20000 = MEASURED[:-2]


class StandIn:
    """A wire to a server whose sessions have energies that two functions tell of each step."""

    def __init__(self, potential: Any, kinetic: Any) -> None:
        self.potential, self.kinetic = potential, kinetic
        self.asked, self.closed, self.atoms = 0, False, 1
        self.lines: List[Any] = []
        self.steps: Dict[Any, int] = {}
        self.measured: List[Any] = []

    def ask_all(self, commands: Any) -> List[Any]:
        return [self.reply(line) for line, _ in commands]

    def reply(self, line: Any) -> Any:
        """The step stands last in a reply; of MEASURE, atoms, momentum and both energies follow it."""
        self.lines.append(line)
        verb, name, *words = line.split()
        step = self.steps.get(name, 0)
        if verb in ("ADVANCE", "START"):
            step = self.steps[name] = step + int(words[0])
        told = [verb, name, *(words[:1] if verb in ("TUG", "RESTORE", "BRANCH") else []), str(step)]
        if verb == "MEASURE":
            self.measured.append(step)
            energies = round(self.kinetic(step) * 2**34), round(self.potential(step) * 2**24)
            told += [str(number) for number in (self.atoms, 0, 0, 0, *energies)]
        if verb == "LOAD":
            told.append(str(self.atoms))
        return Reply(told, [])

    def close(self) -> None:
        self.closed = True


def user_over(wire: Any) -> User:
    """A user over a stand-in."""
    return User(wire)


def nothing(step: Any) -> int:
    return 0


def opened(potential: Any = nothing, kinetic: Any = nothing, h: int = 131072) -> Tuple[Any, Any]:
    """A session of a stand-in, and the stand-in."""
    wire = StandIn(potential, kinetic)
    return user_over(wire).load("a", ATOM, edge=256, sigma=1, h=h), wire


@contextlib.contextmanager
def told() -> Iterator[Any]:
    """What is warned of the energy within."""
    texts: List[Any] = []
    with warnings.catch_warnings(record=True) as caught:
        warnings.simplefilter("always")
        yield texts
    texts += [str(each.message) for each in caught if each.category is EnergyWarning]
    assert {each.filename for each in caught} <= {__file__}


def rising(step: Any) -> Any:
    """In epsilon: 0.025 at step 999, 0.4 at step 15,999 and 0.5 at step 19,999, so it is told of at step 20,000, of one atom at rest."""
    return 0.5 * step / 19_999


# When it is measured.


def test_the_start_is_measured_and_then_at_doubled_distances_up_to_20000() -> None:
    a, wire = opened()
    assert a.advance(61_000) == 61_000
    assert wire.measured == [*MEASURED, 59_999, 60_000]


def test_steps_are_counted_over_calls() -> None:
    a, wire = opened()
    a.advance(600)
    for _ in range(400):
        a.advance(100)
    assert wire.measured == MEASURED


@pytest.mark.parametrize("pieces", [[100], [500], [100, 400], [1] * 30])
def test_a_short_run_takes_no_command_more(pieces: Any) -> None:
    a, wire = opened()
    loaded = len(wire.lines)
    for steps in pieces:
        a.advance(steps, piece=1000)
    assert wire.lines[loaded:] == [f"ADVANCE a {steps}" for steps in pieces]


def test_many_short_runs_are_measured_from_the_501st_step_on() -> None:
    a, wire = opened()
    for _ in range(20):
        a.advance(100)
    assert wire.measured == [500, 501, 1499, 1500]


def test_start_is_sent_alone_and_its_steps_count() -> None:
    a, wire = opened()
    a.advance(501)
    before = len(wire.lines)
    assert a.start(30_000) == 30_501
    assert wire.lines[before:] == ["START a 30000"]
    a.advance(10_000)
    assert wire.measured == [0, 1, 30_501, 30_502, 39_999, 40_000]


WAITS: List[Callable[[Any], object]] = [
    lambda a: a.get_step(),
    lambda a: a.measure(),
    lambda a: a.reverse(),
    lambda a: a.branch("k"),
    lambda a: a.restore("k"),
    lambda a: a.tug(0, (1, 0, 0)),
    lambda a: a._user.ask("ADVANCE a 0"),
    lambda a: a._user.ask_all(["LIST a", "MEASURE a"]),
]


@pytest.mark.parametrize("wait", WAITS)
def test_after_a_start_it_is_told_by_the_next_call_that_waits(wait: Any) -> None:
    a, wire = opened(rising)
    with told() as texts:
        assert a.start(30_000) == 30_000
        assert a.saved() == []
        assert wire.lines[1:] == ["MEASURE a", "ADVANCE a 1", "MEASURE a", "START a 29999", "LIST a"]
    assert texts == []
    before = len(wire.lines)
    with told() as texts:
        wait(a)
    assert len(texts) == 1 and "risen by 0.75 epsilon an atom from step 0 to step 30000" in texts[0]
    assert wire.lines[before] == "MEASURE a"
    with told() as texts:
        wait(a)
    assert (texts, wire.measured[:3]) == ([], [0, 1, 30_000])


def test_after_a_start_one_measurement_is_made_if_it_is_due() -> None:
    a, wire = opened()
    for steps, measured in [(400, 0), (200, 0), (500, 0), (5000, 1), (100, 0), (9000, 1)]:
        a.start(steps)
        before = len(wire.lines)
        assert (a.get_step(), a.get_step()) == (wire.steps["a"],) * 2
        assert wire.lines[before:] == ["MEASURE a"] * measured + ["ADVANCE a 0"] * 2
    assert wire.lines[1:8] == ["START a 400", "ADVANCE a 0", "ADVANCE a 0", "MEASURE a", "ADVANCE a 1", "MEASURE a", "START a 199"]


def test_what_was_started_before_is_not_waited_for_by_a_start() -> None:
    a, wire = opened(rising)
    a.start(300)
    before = len(wire.lines)
    a.start(300)
    a.start(20_000)
    assert wire.lines[before:] == ["START a 300", "START a 20000"]
    assert (a.get_step(), wire.measured) == (20_600, [20_600])
    a.start(30_000)
    with told() as texts:
        a.advance(1)
    assert len(texts) == 1 and "risen by 0.75 epsilon an atom from step 20600 to step 50600" in texts[0]


def test_a_session_that_was_started_and_is_gone_is_passed_over(user: Any) -> None:
    a = dimer(user)
    a.start(2000)
    user.ask("DROP a")
    b = dimer(user)
    b.start(2000)
    user._wire.ask("DROP a")
    with pytest.raises(refusals.NoSession) as caught:
        b.place(0)
    assert caught.value.command == "SHOW a 0"


def test_no_start_of_a_session_that_is_not_watched_is_measured() -> None:
    wire = StandIn(rising, nothing)
    a = user_over(wire).load("a", ATOM, edge=256, sigma=1, h=131072, watch=False)
    a.start(30_000)
    assert (a.get_step(), wire.measured) == (30_000, [])


def test_pieces_that_are_given_stay_whole() -> None:
    a, wire = opened(lambda step: step / 1000)
    seen, loaded = [], len(wire.lines)
    assert a.advance(1200, progress=lambda *words: seen.append(words), piece=400) == 1200
    assert seen == [(done, 1200) for done in (0, 400, 800, 1200)]
    assert wire.lines[loaded:] == ["MEASURE a", *["ADVANCE a 400"] * 3]
    with told() as texts:
        a.advance(100, piece=100)
    assert wire.measured == [0, 1200]
    assert len(texts) == 1 and "risen by 1.2 epsilon an atom from step 0 to step 1200" in texts[0]


def test_an_interrupted_run_goes_on_and_is_measured() -> None:
    a, wire = opened(rising)

    def interrupt(done: Any, _: Any) -> None:
        if done >= 3000:
            raise KeyboardInterrupt

    with pytest.raises(KeyboardInterrupt):
        a.advance(20_000, progress=interrupt)
    made = wire.steps["a"]
    with told() as texts:
        assert a.advance(20_000) == made + 20_000
    assert 3000 <= made < 20_000
    assert (len(texts), wire.measured) == (1, UP_TO_20000)


# What is told.


def test_it_is_told_once_what_has_changed_and_what_helps() -> None:
    a, wire = opened(rising)
    with told() as texts:
        a.advance(100_000)
        a.advance(100_000)
    (text,) = texts
    assert "the energy of a has risen by 0.475 epsilon an atom from step 999 to step 19999" in text
    for advice in ("smaller time step", "h is 131072", "units of sigma and epsilon", "'What is computed' in the README"):
        assert advice in text
    assert wire.measured == UP_TO_20000


# 5 % of the kinetic energy of an atom, where that is more than 0.4 / sqrt(atoms) epsilon; and half an epsilon down.
CHANGES = [
    (1, 10, 0.499, 0),
    (1, 10, 0.501, 1),
    (1, 10, -0.499, 0),
    (1, 10, -0.501, 1),
    (256, 1.1, 0.0549, 0),
    (256, 1.1, 0.0551, 1),
    (256, 1.1, -0.499, 0),
    (256, 1.1, -0.501, 1),
    (4096, 0.2, 0.0099, 0),
    (4096, 0.2, 0.0101, 1),
    # At rest, or nearly.
    (1, 0, 0.399, 0),
    (1, 0, 0.401, 1),
    (1, 7.9, 0.399, 0),
    (4, 0, 0.199, 0),
    (4, 0, 0.201, 1),
    (256, 0.3, 0.0249, 0),
    (256, 0.3, 0.0251, 1),
    (1, 0, 1e9, 1),
]


def texts_of(atoms: Any, kinetic: Any, energy: Any) -> Any:
    """What is told in 2,000 steps of so many atoms, of which each has this kinetic energy and, at a step, this energy."""
    a, wire = opened(lambda step: atoms * (energy(step) - kinetic), lambda step: atoms * kinetic)
    wire.atoms = atoms
    with told() as texts:
        a.advance(2000)
    return texts


@pytest.mark.parametrize("atoms, kinetic, change, count", CHANGES)
def test_a_twentieth_of_the_kinetic_energy_counts(atoms: Any, kinetic: Any, change: Any, count: Any) -> None:
    texts = texts_of(atoms, kinetic, lambda step: change if step > 1500 else 0)
    assert len(texts) == count
    assert all(("fallen" if change < 0 else "risen") in text and "from step 999 to step 1999" in text for text in texts)


@pytest.mark.parametrize("atoms, kinetic, change, count", CHANGES)
def test_in_the_first_steps_it_may_rise_by_a_tenth_of_epsilon_more(atoms: Any, kinetic: Any, change: Any, count: Any) -> None:
    first = change + (0.1 if change > 0 else 0)
    texts = texts_of(atoms, kinetic, lambda step: first if step > 20 else 0)
    assert len(texts) == count
    assert all("from step 0 to step 999" in text for text in texts)


def test_what_a_crystal_has_gained_in_the_first_steps_is_not_counted_later() -> None:
    for change, count in [(0.054, 0), (0.056, 1)]:
        texts = texts_of(256, 1.1, lambda step: 0.09 * (step > 20) + change * (step > 1500))
        assert len(texts) == count
        assert all("risen by 0.056 epsilon an atom (5.1 % of its kinetic energy) from step 999" in text for text in texts)


def test_the_kinetic_energy_is_that_of_the_step_where_it_is_told() -> None:
    # What begins at rest, and has 2 epsilon of kinetic energy later, may rise by 0.1.
    for change, count in [(0.099, 0), (0.101, 1)]:
        a, wire = opened(lambda step: 256 * (change - 2 if step > 1500 else 0), lambda step: 256 * (2 if step > 1500 else 0))
        wire.atoms = 256
        with told() as texts:
            a.advance(2000)
        assert len(texts) == count
        assert all("risen by 0.101 epsilon an atom (5.1 % of its kinetic energy)" in text for text in texts)


def test_a_start_at_rest_with_close_atoms_has_the_energy_that_it_keeps() -> None:
    # The push of the first step is 8 epsilon of kinetic energy, of which the mean of both half steps is the half.
    kinetic, potential = {1: 8, 2: 8}, {0: -4, 1: -8, 2: -4}
    a, _ = opened(lambda step: potential.get(step, 0), lambda step: kinetic.get(step, 0))
    with told() as texts:
        a.advance(30_000)
    assert texts == []


def test_each_of_several_sessions_is_told_of() -> None:
    wire = StandIn(rising, nothing)
    user = user_over(wire)
    sessions = [user.load(name, ATOM, edge=256, sigma=1, h=131072) for name in ("a", "b", "c")]
    with told() as texts:
        assert user.advance(sessions, [25_000, 1000, 20_000]) == [25_000, 1000, 20_000]
    assert sorted(text.split()[3] for text in texts) == ["a", "c"]
    assert sorted(wire.measured) == sorted(2 * UP_TO_20000 + MEASURED[:4])


def test_samples_and_trajectories_are_watched(tmp_path: pathlib.Path) -> None:
    ways: List[Callable[[Any], object]] = [lambda a: a.sample(5000, 6), lambda a: a.write_trajectory(tmp_path / "way.xyz", 5000, 6)]
    for go_on in ways:
        a, _ = opened(rising)
        with told() as texts, mock.patch.object(type(a), "_positions_of_frame", lambda _: (0, [])):
            with mock.patch.object(snapshots, "_taken"), mock.patch.multiple(trajectories, opened=mock.DEFAULT, _in_box=mock.DEFAULT):
                go_on(a)
        assert len(texts) == 1


def test_rows_of_thermo_are_looked_at_and_nothing_else_is_measured() -> None:
    a, wire = opened(lambda step: step / 2000)
    with told() as texts:
        rows = list(a.thermo(every=500, rows=4))
    assert [row.total for row in rows] == [0, 0.25, 0.5, 0.75]
    assert len(texts) == 1 and "risen by 0.5 epsilon an atom from step 0 to step 1000" in texts[0]
    assert wire.measured == [0, 1, 500, 501, 1000, 1001, 1500, 1501]


def test_frequent_rows_of_thermo_lead_to_no_earlier_check() -> None:
    a, wire = opened()
    rows = list(a.thermo(every=10, rows=50))
    assert len(wire.measured) == 2 * len(rows)
    before = len(wire.measured)
    a.advance(400)
    assert len(wire.measured) == before


def test_a_warning_that_is_an_error_leaves_the_session_as_it_is() -> None:
    a, wire = opened(rising)
    with warnings.catch_warnings():
        warnings.simplefilter("error")
        with pytest.raises(EnergyWarning):
            a.advance(30_000)
        assert wire.steps == {"a": 20_000}
        assert a.advance(1000) == 21_000


# What sets the start anew, and what does not.


def told_of_another_energy(act: Any, steps: int) -> Tuple[List[Any], Any]:
    """What is told of so many steps after the first 1000, and the stand-in. Between both something is done, and the energy rises."""
    energies = [0.0]
    a, wire = opened(lambda step: energies[0])
    a.advance(1000)
    energies[0] = 7.0
    act(a)
    with told() as texts:
        a.advance(steps)
    return texts, wire


@pytest.mark.parametrize(
    "change",
    [
        lambda a: a.tug(0, (1, 0, 0)),
        lambda a: a._user.ask("TUG a 0 1 0 0"),
        lambda a: a._user.ask_all(["TUG a 0 1 0 0"]),
        lambda a: a.restore("k"),
        lambda a: a._user.ask("RESTORE a k"),
        lambda a: a._user.session("a"),
        lambda a: a._user.load("a", ATOM, edge=256, sigma=1, h=131072),
    ],
)
def test_what_sets_the_start_anew(change: Any) -> None:
    texts, wire = told_of_another_energy(change, 1000)
    assert texts == []
    assert wire.measured == [0, 1, 999, 1000, 1000, 1001, 1999, 2000]


def test_heat_sets_the_start_anew() -> None:
    with run(PROGRAM) as user, told() as texts:
        a = user.load("argon", EXAMPLES / "argon_256.xyz", **ARGON)
        a.advance(600)
        a.heat(200)
        a.advance(1000)
    assert texts == []


@pytest.mark.parametrize("keep", [lambda a: a.reverse(), lambda a: a.branch("k"), lambda a: a.measure(), lambda a: a.get_step()])
def test_what_keeps_the_start(keep: Any) -> None:
    texts, _ = told_of_another_energy(keep, 20_000)
    assert len(texts) == 1 and "risen by 7 epsilon" in texts[0]


def test_atoms_that_are_sorted_on_the_way_keep_their_start() -> None:
    asked: List[Any] = []
    sites = [(x, y, z) for x in range(5) for y in range(5) for z in range(5)]
    rows = [("Ar", *(1.1 * part for part in sites[number * 32 % 125])) for number in range(125)]
    with run(PROGRAM) as user:
        a = user.load("a", rows, edge=20, sigma=1, h=4096)
        user._known_of("a").is_sorted = True
        with spied(user, asked):
            a.advance(1100)
        assert a.order.numbers is not None
        assert sum(line.startswith("MEASURE") for line in asked) == 4
        assert present(user._known_of("a").watch.start)[0] == 0


@contextlib.contextmanager
def spied(user: Any, asked: Any) -> Iterator[Any]:
    """Notes each command line that goes to the program."""
    ask_all = user._wire.ask_all

    def note(commands: Any) -> Any:
        asked.extend(line for line, _ in commands)
        return ask_all(commands)

    with mock.patch.object(user._wire, "ask_all", note):
        yield


def test_a_move_to_another_program_keeps_the_start() -> None:
    with mock.patch.object(users, "MAX_ITEMS", 1000), run(PROGRAM) as user:
        a = dimer(user)
        a.advance(10)
        a.branch("k")
        a.advance(600)
        watch, wire = dataclasses.replace(user._known_of("a").watch), user._wire
        user.ask_all(["LIST"] * 500)
        assert user._wire is not wire
        assert user._known_of("a").watch == watch and present(watch.start)[0] == 10


# Sessions that are not watched.


def test_nothing_is_measured_without_a_watch(tmp_path: pathlib.Path) -> None:
    saved = tmp_path / "a.saved"
    with run(PROGRAM) as user, told() as texts:
        words: Dict[str, Any] = {"edge": 256, "watch": False}
        dimer(user).save(saved)
        loads = [
            user.load("b", DIMER, sigma=1, h=300_000, **words),
            user.load_mix("c", DIMER, species=("Ar", "Kr"), classes=[(1, 300_000, 256)] * 3, **words),
            user.load_saved(saved, "d", watch=False),
            user.session("a", watch=False),
        ]
        asked: List[Any] = []
        with spied(user, asked):
            for session in loads:
                session.advance(1200)
    assert texts == [] and not [line for line in asked if line.startswith("MEASURE")]


def test_a_session_whose_scale_is_not_known_is_not_watched() -> None:
    with run(PROGRAM) as user:
        user.ask(f"LOAD a 256 1 131072 rest {len(DIMER)}", DIMER.encode())
        scales: List[Dict[str, Any]] = [{}, {"edge": "256", "sigma": "x", "h": 1}, {"edge": 256, "sigma": 1, "h": 0}]
        for words in scales:
            asked: List[Any] = []
            with spied(user, asked):
                user.session("a", **words).advance(600)
            assert not [line for line in asked if line.startswith("MEASURE")]


# Large step factors.


@pytest.mark.parametrize("h, count", [(131_072, 0), (200_000, 0), (200_001, 1), (1 << 24, 1)])
def test_a_large_step_factor_is_told_at_once(h: Any, count: Any) -> None:
    with told() as texts:
        opened(h=h)
    assert len(texts) == count
    assert all(f"h is {h}, above 200000" in text and "smaller h" in text and "unit of the epsilon" in text for text in texts)


def test_an_epsilon_in_kilojoule_per_mole_is_told() -> None:
    # 0.996 kJ/mol are 0.01032 eV. Taken for electronvolt it makes h 96.5 times as large.
    wrong: Dict[str, Any] = {**ARGON, "epsilon": units.ARGON["epsilon"] / units.kilojoule_per_mole}
    with run(PROGRAM) as user, told() as texts:
        a = user.load("argon", EXAMPLES / "argon_256.xyz", **wrong)
        a.heat(94)
        a.advance(5000)
    at_once, later = texts
    assert f"h is {a.h}, above 200000" in at_once and "epsilon=0.9961 is in electronvolt" in at_once
    # 0.8 times the time step with h = 200,000 is that with 128,000: 10 fs * sqrt(128000 / 8938443).
    assert "(dt=1.2)" in at_once
    assert "the energy of argon has risen by" in later and "from step 0" in later


@pytest.mark.parametrize("place", range(3))
def test_the_step_factor_of_each_class_counts(place: Any) -> None:
    classes = [(1, 131_072, 256), (1, 131_072, 256), (1, 131_072, 256)]
    classes[place] = (1, 300_000, 256)
    with told() as texts:
        user_over(StandIn(nothing, nothing)).load_mix("a", ATOM, edge=256, species=("Ar", "Kr"), classes=classes)
    assert len(texts) == 1 and "h is 300000" in texts[0]


def test_a_saved_session_with_a_large_step_factor(tmp_path: pathlib.Path) -> None:
    saved = tmp_path / "a.saved"
    words: Dict[str, Any] = {**DIMER_SCALE, "h": 300_000}
    with run(PROGRAM) as user, told() as texts:
        user.load("a", DIMER, watch=False, **words).save(saved)
        user.load_saved(saved, "b")
    assert len(texts) == 1 and "h is 300000" in texts[0]


def test_nothing_is_loaded_where_such_a_warning_is_an_error() -> None:
    wire = StandIn(nothing, nothing)
    with warnings.catch_warnings():
        warnings.simplefilter("error")
        with pytest.raises(EnergyWarning):
            user_over(wire).load("a", ATOM, edge=256, sigma=1, h=300_000)
    assert wire.lines == []


def test_a_start_that_heats_is_told_of() -> None:
    wrong: Dict[str, Any] = {**ARGON, "epsilon": units.ARGON["epsilon"] / units.kilojoule_per_mole, "dt": 5}
    with run(PROGRAM) as user:
        with told():
            a = user.load("argon", EXAMPLES / "argon_256.xyz", **wrong)
        a.heat(94)
        a.start(5000)
        with told() as texts:
            a.place(0)
            a.places()
    assert len(texts) == 1 and "the energy of argon has risen by" in texts[0] and "from step 0 to step 5000" in texts[0]


def test_there_and_back_from_a_hot_crystal_is_not_told_of() -> None:
    with run(PROGRAM) as user, told() as texts:
        a = user.load("argon", EXAMPLES / "argon_256.xyz", **ARGON)
        a.heat(180)
        for _ in range(2):
            a.advance(1500)
            a.reverse()
        assert list(a.thermo(every=100, rows=2))
    assert texts == []


def test_a_start_by_no_step_makes_none() -> None:
    with run(PROGRAM) as user:
        a = dimer(user)
        a._user._known_of("a").watch.gone = 1000
        assert (a.start(0), a.get_target(), a.get_step()) == (0, 0, 0)
