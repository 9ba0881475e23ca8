"""The words of physics at the prompt: the commands that they send, what they tell, and how motions are taken back."""
import pathlib
import re
from typing import Any, Dict, Iterator, List

import pytest
from hypothesis import HealthCheck, given, settings
from hypothesis import strategies as st

from ljclient import ClientError, connect, refusals, run
from ljclient.prompt import loading
from ljclient.prompt.sessions import asked
from ljclient.prompt.words import Words, shown
from support import DIMER, PROGRAM, RING, TOKEN, present
from terminals import PROMPT, Terminal, environment

SCALE: Dict[str, Any] = {"edge": 256, "sigma": 1, "h": 131072}
IN_KELVIN: Dict[str, Any] = {"edge": 256, "sigma": 3.4, "h": 3706, "epsilon": 0.0103, "mass": 39.948}


class Heard:
    """A dialogue that keeps what it is told, and takes each run."""

    def __init__(self, user: Any) -> None:
        self.told: List[str] = []
        self.words = Words(self)
        self.user = user
        self.words.listen(user)

    def tell(self, *lines: str) -> None:
        self.told += lines

    def answer(self, user: Any, line: str, body: bytes, is_plan: bool = False) -> List[str]:
        return ["OK " + " ".join(asked(user, line, body).words)]

    def may_take(self, name: str, steps: int) -> bool:
        return True

    def says(self, line: str, body: bytes = b"") -> List[str]:
        """Does what a line says, and returns what is shown."""
        self.told = []
        self.told += self.words.begin(self.user, line)
        deed = self.words.deed_of(line)
        self.told += deed(self.user) if deed else self.answer(self.user, line, body)
        self.words.end(self.user, line)
        return self.told

    def load(self, name: str = "a", **scale: Any) -> Any:
        """A session of two atoms whose load is heard of."""
        self.words.begin(self.user, f"LOAD {name}")
        return self.user.load(name, DIMER, **(scale or SCALE))


@pytest.fixture
def talk(user: Any) -> Heard:
    return Heard(user)


def state(user: Any, name: str = "a") -> Any:
    """All that there is of a session, which is left as it is and unheard of."""
    with user.unrecorded(name):
        return user._state_of(name)


def test_heat_sends_a_plain_sequence_of_commands(talk: Heard) -> None:
    talk.load(**IN_KELVIN)
    talk.user.load("b", DIMER, **IN_KELVIN)
    told = talk.says("heat a 60K 7")
    sent = talk.words.pasts["a"].lines
    assert told[: len(shown(sent))] == shown(sent)
    for line in sent:
        talk.user.ask(line.replace(" a", " b", 1))
    one, other = state(talk.user), state(talk.user, "b")
    assert (one.places, one.before, one.step) == (other.places, other.before, other.step)
    # The kinetic number of MEASURE by hand: K 2^32 / (2 sigma^2 h) in epsilon, sigma in ring units; two atoms.
    words = talk.user.ask("MEASURE a").words
    sigma, epsilon_in_kelvin = 3_400_000_000 * RING // 256_000_000_000, 0.0103 / 8.617333262e-5
    energy = int(words[7]) * RING / (2 * sigma**2 * 3706)
    reached = 2 * energy / (3 * 2) * epsilon_in_kelvin
    assert reached == pytest.approx(60, rel=1e-4) and f"{reached:.7g} K" in told[-1]
    assert words[4:7] == ["0", "0", "0"]


def test_kelvin_need_epsilon(talk: Heard) -> None:
    before = state_of_loaded(talk)
    with pytest.raises(loading.Fault, match="cannot take `60K`: epsilon is not known; use `60`"):
        talk.says("heat a 60K")
    assert state(talk.user) == before
    assert "since epsilon= was not given" in talk.says("heat a 0.5")[-1]


def state_of_loaded(talk: Heard) -> Any:
    talk.load()
    return state(talk.user)


def test_the_measurement_of_a_step_is_undone(talk: Heard) -> None:
    """The row is that of the numbers of docs/PROTOCOL.md: at step 0 the kinetic energy is the mean of 0 and of that of step 1."""
    before = state_of_loaded(talk)
    *sent, row, _ = talk.says("thermo a")
    assert [line.split()[1] for line in sent] == ["MEASURE", "ADVANCE", "MEASURE", "REVERSE", "ADVANCE", "REVERSE"]
    kinetic, potential = 693842 * RING / (2 * 2**48 * 2**17) / 2, -5349132 / 2**24
    told = f"kinetic {kinetic:.6g}, potential {potential:.6g} and total energy {kinetic + potential:.6g} epsilon"
    assert row == f"  step 0: temperature {kinetic / 3:.6g} epsilon / k_B; {told}"
    assert state(talk.user) == before and not talk.words.pasts["a"].done


def test_the_distance_from_the_load(talk: Heard) -> None:
    """After two steps the atoms are 1774 ring units nearer to each other, each: docs/PROTOCOL.md."""
    talk.load()
    assert talk.says("distance a")[-1] == "  each atom is at the place where it was loaded, bit for bit"
    talk.says("ADVANCE a 2")
    apart = 1774 * 256 / RING
    assert f"the atoms are {apart:.6g} of the unit of the file ({apart:.6g} sigma)" in talk.says("distance a")[-1]


def test_the_places_of_a_load_are_those_of_its_text(talk: Heard) -> None:
    text = b"1\nbefore\nAr 0 0 0\n\n1\nnow\nAr 1.25D0 -1 256.5\n"
    talk.says(f"LOAD p 256 1 131072 pair {len(text)}", text)
    quarter = RING // 1024
    assert talk.words.pasts["p"].now().origin.places() == [(5 * quarter, RING - 4 * quarter, 2 * quarter)]
    shown_place = talk.user.ask("SHOW p 0").words[-3:]
    assert list(map(int, shown_place)) == [5 * quarter, RING - 4 * quarter, 2 * quarter]


@pytest.mark.parametrize(
    "scale, stretch, steps",
    [
        # sqrt(131072 / 2^32) is 2^-7.5, so 0.05 is 9.05 steps.
        (SCALE, "0.05", 9),
        (SCALE, "3steps", 3),
        # A step of 2.0001 fs.
        (IN_KELVIN, "0.02ps", 10),
        (IN_KELVIN, "21fs", 10),
        (IN_KELVIN, "0.00002ns", 10),
    ],
)
def test_a_stretch_is_a_number_of_steps(talk: Heard, scale: Any, stretch: str, steps: int) -> None:
    talk.load(**scale)
    assert talk.says(f"go a {stretch}")[:2] == [f"  > ADVANCE a {steps}", f"OK ADVANCE a {steps}"]


@pytest.mark.parametrize(
    "scale, line, why",
    [
        (SCALE, "go a 2ps", "cannot take a time in ps: epsilon and mass are not known of a; use `go a 0.5`"),
        ({**SCALE, "epsilon": 0.01}, "go a 2ps", "mass is not known of a"),
        (IN_KELVIN, "go a 2", "a stretch must be in fs, ps, ns or steps, got `2`; use `go a 2ps`"),
        (IN_KELVIN, "go a 0.5fs", "a stretch must be at least half a step of 2.0"),
        (SCALE, "go a 1.5steps", "steps must be a whole number, got `1.5steps`"),
        (SCALE, "go a 9e9steps", "a stretch must be at most 1000000000 steps, got `9e9steps`, which is 9000000000"),
        (SCALE, "go a -2steps", "STRETCH must be a time such as 2ps"),
        (SCALE, "go a 2weeks", "got `2weeks`"),
        (SCALE, "heat a warm", "T must be a temperature, such as 60K, or 0.5 in epsilon / k_B, got `warm`"),
        (SCALE, "heat a -1", "got `-1`"),
        (SCALE, "heat a 1 0.5", "SEED must be a whole number, the seed of the random velocities, got `0.5`"),
        (SCALE, "heat a 1e30", "an atom would move by half the box or more in a step"),
        (SCALE, "thermo a b", "`b` is a word too many"),
        (SCALE, "back a 1steps", "a was loaded 0 steps ago"),
        (SCALE, "undo", "nothing that moves atoms was done here"),
        (SCALE, "undo b", "nothing that moves atoms was done here"),
        (SCALE, "scale a edge=20 sigma=1 h=131072", "at the server, got 20.0"),
    ],
)
def test_what_is_said_wrongly_changes_nothing(talk: Heard, scale: Any, line: str, why: str) -> None:
    talk.load(**scale)
    before = state(talk.user)
    with pytest.raises(loading.Fault, match=re.escape(why)):
        talk.says(line)
    assert state(talk.user) == before


def test_a_session_whose_scale_is_not_known(talk: Heard) -> None:
    talk.user.ask(f"LOAD a 256 1 131072 rest {len(DIMER)}", DIMER.encode())
    for line in ("heat a 1", "thermo a", "distance a", "go a 1", "scale a"):
        with pytest.raises(loading.Fault, match="the scale of a must be known here; use `scale a edge="):
            talk.says(line)
    assert talk.says("go a 2steps")[-1] == "OK ADVANCE a 2"
    told = talk.says("scale a edge=256 dt=2fs argon")
    assert told == ["  edge 256, sigma 3.4, h 3706, epsilon 0.01032357 eV, mass 39.948 u, and the time step 2.000109 fs"]
    assert talk.says("thermo a")[-1].startswith("  step 2: temperature ")
    with pytest.raises(refusals.NoSession):
        talk.says("thermo none")


LINES = st.one_of(
    st.integers(0, 6).map(lambda n: f"ADVANCE a {n}"),
    st.integers(1, 6).map(lambda n: f"START a {n}"),
    st.sampled_from(["REVERSE a", "heat a 0.5", "RESTORE a k", "back a", "undo", "go a 0.02", "thermo a"]),
    st.tuples(st.integers(0, 1), st.sampled_from([-(2**31), -7, 0, 5, 2**31 - 1])).map(lambda tug: f"TUG a {tug[0]} {tug[1]} 0 3"),
)


@given(st.lists(LINES, max_size=8))
@settings(max_examples=30, deadline=None, suppress_health_check=list(HealthCheck))
def test_any_lines_are_taken_back_one_after_the_other(lines: List[str]) -> None:
    with run(PROGRAM) as user:
        talk = Heard(user)
        talk.load()
        talk.says("BRANCH a k")
        states = [state(user)]
        for line in lines:
            if line == "undo":
                if len(states) > 1:
                    talk.says(line)
                    states.pop()
            else:
                talk.says(line)
                states += [state(user)] if state(user) != states[-1] else []
            assert state(user) == states[-1]
        while len(states) > 1:
            talk.says("undo")
            states.pop()
            assert state(user) == states[-1]
        with pytest.raises(loading.Fault):
            talk.says("undo")


@given(st.lists(LINES.filter(lambda line: line != "undo"), max_size=8))
@settings(max_examples=30, deadline=None, suppress_health_check=list(HealthCheck))
def test_any_way_leads_back_to_the_load(lines: List[str]) -> None:
    with run(PROGRAM) as user:
        talk = Heard(user)
        talk.load()
        start = state(user)
        for line in ["BRANCH a k", *lines]:
            talk.says(line)
        talk.says("back a")
        assert state(user) == start


def test_back_by_a_stretch_passes_a_tug(talk: Heard) -> None:
    talk.load()
    talk.says("ADVANCE a 4")
    wanted = state(talk.user)
    for line in ("ADVANCE a 1", "TUG a 0 70000 0 0", "ADVANCE a 3"):
        talk.says(line)
    talk.says("back a 4steps")
    assert state(talk.user) == wanted
    assert talk.says("back a")[-1] == "  a is where it was loaded"
    talk.says("undo")
    assert state(talk.user) == wanted


def test_what_another_connection_did_is_not_taken_back(server: Any) -> None:
    with connect("127.0.0.1", server.port, "ann", TOKEN) as user:
        session = user.load("a", DIMER, **SCALE)
        session.branch("k")
        session.advance(5)
    with connect("127.0.0.1", server.port, "ann", TOKEN) as user:
        talk = Heard(user)
        talk.says("LIST")
        for line, why in [
            ("undo", "nothing that moves atoms was done here"),
            ("back a", "cannot go back to where a was loaded: a was loaded over another connection; use `back a 2ps`"),
        ]:
            with pytest.raises(loading.Fault, match=why):
                talk.says(line)
        talk.says("scale a edge=256 sigma=1 h=131072")
        told = talk.says("back a 5steps")
        assert "if nothing but steps was done there (a was loaded over another connection)" in told[-2]
        assert user.ask("SHOW a 1").words[2:] == ["0", "1", "25165824", "0", "0"]
        talk.says("RESTORE a k")
        with pytest.raises(loading.Fault, match="`RESTORE a k` has led to what another connection has saved"):
            talk.says("undo")
        with pytest.raises(loading.Fault, match="cannot tell how far a is from where it was loaded"):
            talk.says("distance a")


def test_a_connection_that_is_lost_among_steps(server: Any) -> None:
    """Where it has come to is seen by LIST, so that no step is taken back that was not made."""
    with connect("127.0.0.1", server.port, "ann", TOKEN) as user:
        talk = Heard(user)
        session = talk.load()
        start = state(user)
        talk.says("ADVANCE a 3")
        past = talk.words.pasts["a"]
        user._listen("a", None)
        session.advance(4)
    past.unanswered(b"ADVANCE a 6")
    with connect("127.0.0.1", server.port, "ann", TOKEN) as user:
        user.session("a", **SCALE)
        talk.user = user
        talk.words.listen(user)
        assert talk.says("back a 2steps")[1:6:2] == ["OK REVERSE a 6", "OK ADVANCE a 4", "OK REVERSE a 5"]
        talk.says("back a")
        assert state(user) == start


class Cut(Heard):
    """A dialogue whose connection is lost before the command of this number that a plan sends."""

    number = 99

    def answer(self, user: Any, line: str, body: bytes, is_plan: bool = False) -> List[str]:
        self.number -= is_plan
        if self.number < 0:
            user._wire.close("the link is lost")
        return super().answer(user, line, body)


@pytest.mark.parametrize("number", range(5))
def test_a_link_that_is_lost_within_a_word(server: Any, number: int) -> None:
    """The session is where the commands before that have led, and the way back from there is known."""
    lines = ["ADVANCE a 3", "REVERSE a", "ADVANCE a 5", "TUG a 1 7 0 0", "ADVANCE a 2"]
    plan = ["  > REVERSE a", "  > ADVANCE a 2", "  > REVERSE a", "  > TUG a 1 -7 0 0", "  > REVERSE a", "  > ADVANCE a 2"]
    with connect("127.0.0.1", server.port, "ann", TOKEN) as user:
        talk = Cut(user)
        talk.load()
        start = state(user)
        for line in lines:
            talk.says(line)
        talk.number = number
        with pytest.raises(ClientError):
            talk.says("back a")
        assert [line for line in talk.told if line.startswith("  > ")] == plan[: number + 1 + (number > 2)]
    with connect("127.0.0.1", server.port, "ann", TOKEN) as user:
        user.session("a", **SCALE)
        talk.user, talk.number = user, 99
        talk.words.listen(user)
        talk.says("back a")
        assert state(user) == start


@pytest.mark.parametrize("line", [b"TUG a 0 5 0 0", b"REVERSE a", b"RESTORE a k"])
def test_after_a_reply_that_did_not_come_nothing_is_taken_back(talk: Heard, line: bytes) -> None:
    talk.load()
    talk.says("ADVANCE a 3")
    talk.words.pasts["a"].unanswered(line)
    for said in ("undo", "back a"):
        with pytest.raises(loading.Fault, match=f"the reply to `{line.decode()}` did not come"):
            talk.says(said)


def test_a_session_that_another_connection_has_moved(talk: Heard) -> None:
    talk.load()
    past = talk.words.pasts["a"]
    talk.says("ADVANCE a 3")
    past.renew(9, 2)
    with pytest.raises(loading.Fault, match="a was at the server's step 3 when this prompt saw it last, and is at 9 now"):
        talk.says("undo")
    talk.load("b")
    talk.words.pasts["b"].renew(0, 3)
    with pytest.raises(loading.Fault, match="b had 2 atoms when this prompt saw it last, and has 3 now"):
        talk.says("back b")


def test_a_session_that_is_given_up_has_no_past(talk: Heard) -> None:
    talk.load()
    for line in ("ADVANCE a 3", "DROP a"):
        talk.says(line)
    with pytest.raises(loading.Fault, match="a was given up"):
        talk.says("undo")
    talk.load()
    with pytest.raises(loading.Fault, match="nothing that moves atoms was done here$"):
        talk.says("undo")


def test_the_scale_of_two_species_is_that_of_its_load(talk: Heard) -> None:
    text = b"2\nmix\nNa 0 0 0\nCl 1.5 0 0\n"
    talk.says(f"LOADMIX m 256 Na Cl 1 131072 256 1 262144 512 1 131072 256 rest {len(text)}", text)
    with pytest.raises(loading.Fault, match="cannot set the scale of m: it has two species, and its LOADMIX has set it"):
        talk.says("scale m edge=256 sigma=2 h=131072")
    assert talk.says("scale m")[0] == "  edge 256, sigma 1, h 131072"


def test_many_commands_of_a_kind_are_shown_as_two() -> None:
    lines = [f"SHOW a {number}" for number in range(256)]
    assert shown(["REVERSE a", *lines]) == ["  > REVERSE a", "  > SHOW a 0 .. SHOW a 255 (256 commands)"]
    assert shown(lines[:3]) == [f"  > {line}" for line in lines[:3]]


@pytest.fixture
def terminal(tmp_path: pathlib.Path) -> Iterator[Any]:
    (tmp_path / "dimer.xyz").write_text(DIMER)
    terminal = Terminal(PROMPT, environment(), cwd=tmp_path)
    terminal.until("ljserve> ")
    yield terminal
    terminal.close()


def types(terminal: Any, line: str, wanted: str = "ljserve> ") -> Any:
    """Types a line, and returns what is shown up to what is wanted, without the line itself."""
    terminal.type(line + "\r")
    terminal.until(re.escape(line) + "\n")
    return terminal.until(wanted)


def test_a_run_that_is_interrupted_says_where_it_is_and_is_taken_back(terminal: Any) -> None:
    types(terminal, "LOAD a dimer.xyz 256 1 131072")
    types(terminal, "go a 900000000steps", "  > ADVANCE a 1000000\n")
    terminal.interrupt()
    told = terminal.until("ljserve> ")
    broken_off = "  `go a 900000000steps` is broken off: the commands above were done, as far as they were answered\n"
    assert broken_off in told and told.count("OK ADVANCE") <= 1
    step = present(re.match(r"OK LIST 1\na (\d+) 2 0\n", types(terminal, "LIST")))[1]
    assert f"OK ADVANCE a {step}\n" in told or "OK ADVANCE" not in told
    assert int(step) < 1000000
    if step == "0":
        return
    types(terminal, "undo")
    assert types(terminal, "SHOW a 0..1") == "OK SHOW a 0 0 0 0 0\nOK SHOW a 0 1 25165824 0 0\nljserve> "


def test_a_word_that_is_broken_off_says_what_was_done(talk: Heard, monkeypatch: pytest.MonkeyPatch) -> None:
    session = type(talk.load())
    monkeypatch.setattr(session, "measure", lambda session: interrupt())
    with pytest.raises(KeyboardInterrupt):
        talk.says("heat a 0.5")
    talk.told = []
    talk.words.broken_off("heat a 0.5", KeyboardInterrupt())
    assert [line.split()[1] for line in talk.told[:-1]] == [*"SHOW SHOW REVERSE SHOW SHOW REVERSE TUG TUG".split()]
    assert talk.told[-1] == "  `heat a 0.5` is broken off: the commands above were done, as far as they were answered"
    assert talk.user.ask("MEASURE a").words[7] != "0"
    talk.says("undo")
    assert talk.user.ask("MEASURE a").words[7] == "0"


def interrupt() -> None:
    raise KeyboardInterrupt
