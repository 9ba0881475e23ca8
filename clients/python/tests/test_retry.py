"""Links that are lost and made again: at each byte of what is asked and of what is told, a script ends as one without a loss.

The server is the reference of conformance/, in this process. What it had at the end, what it has granted and what was told are compared
with those of a run over a link that holds.
"""
from typing import Any, Callable, Dict, List, Sequence, Tuple
from unittest import mock

import pytest

from cut_links import Cut, NEVER, Server, copied, no_waits, outcome
from ljclient import Closed, ConnectionLost, Undecided, connect, retrying
from support import DIMER, DIMER_SCALE, TOKEN

pytestmark = pytest.mark.usefixtures("state")

BODY = DIMER.encode()
LOAD = f"LOAD new 256 1 131072 rest {len(BODY)}"
MIX_BODY = b"2\nmix\nNa 0 0 0\nCl 1.5 0 0\n"
LOADMIX = f"LOADMIX new 256 Na Cl 1 131072 256 1 262144 512 1 131072 256 rest {len(MIX_BODY)}"
Commands = List[Tuple[str, bytes]]
# Each command of the protocol, granted, refused, and where it changes nothing.
ALONE: Dict[str, Tuple[str, bytes]] = {
    line if not body else f"{line} {number}": (line, body)
    for number, (line, body) in enumerate(
        [
            (LOAD, BODY),
            (LOADMIX, MIX_BODY),
            (LOAD.replace("new", "a"), BODY),
            (LOAD.replace("rest", "pair"), BODY),
            (LOAD.replace("256", "0"), BODY),
            *((line, b"") for line in (
                "ADVANCE a 3", "ADVANCE a 0", "ADVANCE a 1000001", "ADVANCE x 1", "START a 2", "START a 0", "REVERSE a", "REVERSE x",
                "TUG a 0 5 0 0", "TUG a 0 0 0 0", "TUG a 2 5 0 0", "TUG a 1 -2147483648 2147483647 -1", "TUG a 01 00 -0 7",
                "BRANCH a k", "BRANCH a saved", "RESTORE a saved", "RESTORE a here", "RESTORE a k", "FORGET a saved", "FORGET a k",
                "MEASURE a", "MEASURE x", "SHOW a 0", "SHOW a 2", "DUMP a", "DUMP x", "LIST", "LIST a", "LIST x", "DROP a", "DROP x",
                "HELLO ann x", "WHAT", "", "ADVANCE a", "ADVANCE a -1", " ADVANCE\ta  02 ", "advance a 1", "SHOW a 0 0",
            )),
        ]
    )
}  # fmt: skip
# Many commands at once.
TOGETHER: Dict[str, Commands] = {
    "|".join(lines): [(line, BODY if line == LOAD else b"") for line in lines]
    for lines in (
        ["TUG a 0 5 0 0", "TUG a 1 -5 0 0", "TUG a 0 0 7 0", "ADVANCE a 1"],
        ["REVERSE a", "REVERSE a"],
        ["ADVANCE a 2", "REVERSE a", "ADVANCE a 2", "REVERSE a"],
        ["TUG a 0 5 0 0", "TUG a 0 -5 0 0", "TUG a 1 5 0 0", "TUG a 1 -5 0 0"],
        ["SHOW a 0", "ADVANCE a 1", "SHOW a 0", "REVERSE a", "SHOW a 0"],
        ["ADVANCE a 1", "RESTORE a here", "ADVANCE a 1", "RESTORE a saved", "FORGET a saved"],
        ["START b 2", "START a 1", "ADVANCE a 0", "ADVANCE b 0", "MEASURE b"],
        ["DROP a", "LIST", LOAD.replace("new", "a")],
        ["BRANCH a k", "TUG a 0 1 0 0", "RESTORE a k", "FORGET a k", "LIST a"],
        ["ADVANCE x 1", "ADVANCE a 1", "TUG a 9 1 1 1", "TUG a 0 1 1 1"],
        ["FORGET a saved", "FORGET a here", "BRANCH a saved"],
        ["REVERSE b", "REVERSE a", "ADVANCE b 1", "REVERSE b", "RESTORE a here"],
    )
}
TOGETHER[list(TOGETHER)[7]][2] = (LOAD.replace("new", "a"), BODY)


def prepared() -> Server:
    """Two sessions of two atoms: a is at step 2, with something saved at steps 1 and 2, and b goes back."""
    server = Server()
    lines = ["TUG a 0 9 0 0", "ADVANCE a 1", "BRANCH a saved", "ADVANCE a 1", "TUG a 0 0 0 3", "BRANCH a here", "TUG a 1 0 4 0"]
    lines += ["ADVANCE b 3", "REVERSE b"]
    for name in "ab":
        server.answers(LOAD.replace("new", name).encode() + b"\n" + BODY)
    told, _ = server.answers("".join(f"{line}\n" for line in lines).encode())
    assert told.count(b"OK") == len(lines)
    server.granted.clear()
    return server


# What is done over a link that is not cut yet, so that more or less is known of the sessions.
KNOWN: Dict[str, Callable[[Any], Any]] = {
    "nothing": lambda user: None,
    "all": lambda user: user.ask_all(["REVERSE a", "REVERSE a", "REVERSE b", "REVERSE b", "MEASURE a", "MEASURE b", "LIST a"]),
}


def done(server: Server, known: str, call: Callable[[Any], Any], cuts: Sequence[Cut] = ()) -> Tuple[Any, ...]:
    """What a call over links that are cut so tells, and what the server has at the end; and how many bytes went each way."""
    with server.connected() as user:
        KNOWN[known](user)
        server.granted.clear()
        link = server.links[-1]
        heard, said = link.heard, link.said
        server.cuts = list(cuts[1:])
        if cuts:
            server.cut_next(cuts[0])
        told = outcome(lambda: call(user))
        sizes = link.heard - heard, link.said - said
    return (told, server.state(), list(server.granted)), sizes


def cuts_of(sizes: Tuple[int, int]) -> List[Cut]:
    """All cuts of what is asked, with the replies lost or not, and of what is told."""
    asked, told = sizes
    return [Cut(count, lost) for count in range(1, asked + 1) for lost in (0, NEVER)] + [Cut(NEVER, count) for count in range(1, told)]


def hold_alike(known: str, call: Callable[[Any], Any], most: int = NEVER) -> None:
    """Holds that a call over a link that is cut at each of its bytes, or at so many, ends as one over a link that holds."""
    start = prepared()
    wanted, sizes = done(copied(start), known, call)
    cuts = cuts_of(sizes)
    with no_waits():
        for cut in cuts[:: len(cuts) // most + 1]:
            found, _ = done(copied(start), known, call, [cut])
            assert found == wanted, f"{cut} of {sizes}"


@pytest.mark.parametrize("known, most", [("all", NEVER), ("nothing", 40)])
@pytest.mark.parametrize("command", ALONE)
def test_a_command_is_done_once(command: str, known: str, most: int) -> None:
    hold_alike(known, lambda user: user.ask(*ALONE[command]), most)


@pytest.mark.parametrize("known, most", [("all", NEVER), ("nothing", 60)])
@pytest.mark.parametrize("commands", TOGETHER)
def test_commands_together_are_done_once(commands: str, known: str, most: int) -> None:
    hold_alike(known, lambda user: user._ask_commands(TOGETHER[commands]), most)


@pytest.mark.parametrize("commands", TOGETHER)
def test_links_that_are_lost_again_and_again(commands: str) -> None:
    """Each of five links ends after a few bytes more than the HELLO, and what a link has found is asked by the next one."""

    def call(user: Any) -> Any:
        return user._ask_commands(TOGETHER[commands])

    start = prepared()
    wanted, (asked, _) = done(copied(start), "all", call)
    with no_waits():
        for count in range(1, asked, 19):
            for more in (0, 3, 30, 60):
                cuts = [Cut(count, 0), Cut(20), Cut(44 + more), Cut(50 + more, 13), Cut(52 + more, 40 + more), Cut(100, 60 + more)]
                found, _ = done(copied(start), "all", call, cuts)
                assert found == wanted, cuts


def session_of(user: Any, name: str = "a") -> Any:
    return user.session(name, watch=False, **DIMER_SCALE)


def rows_told(user: Any) -> Any:
    return list(session_of(user).thermo(every=2, rows=2))


def started_and_waited(user: Any) -> Any:
    one, other = session_of(user), session_of(user, "b")
    return one.start(3), other.start(2), one.get_target(), user.advance([one, other], 2), one.place(0), other.get_step()


def branched(user: Any) -> Any:
    one = session_of(user)
    told = [one.branch("k"), one.tug(1, (3, 3, 3)), one.advance(2, piece=1), one.measure(), one.restore("k")]
    one.forget("k")
    return told, one.saved()


def replaced(user: Any) -> Any:
    user.load("a", DIMER, replace=True, watch=False, **DIMER_SCALE).advance(1)
    return user.sessions()


CALLS: Dict[str, Callable[[Any], Any]] = {
    "places": lambda user: session_of(user).places(),
    "velocities": lambda user: session_of(user).velocities(),
    "forces": lambda user: session_of(user, "b").forces(),
    "heat": lambda user: session_of(user).heat(1.0),
    "rescale": lambda user: session_of(user).rescale(0.5),
    "sample": lambda user: session_of(user).sample(1, 2),
    "frames": lambda user: [shot.step for shot in session_of(user).frames(1, 2)],
    "thermo": rows_told,
    "start": started_and_waited,
    "branch": branched,
    "copy": lambda user: session_of(user).copy("c").places(),
    "replace": replaced,
}


@pytest.mark.parametrize("name", CALLS)
def test_a_call_of_the_client_is_as_without_a_loss(name: str) -> None:
    hold_alike("nothing", CALLS[name], 80)


def changed_by_another(server: Server, *lines: str) -> None:
    """Another connection of the user, before the next one of the client."""
    server.answers("".join(f"{line}\n" for line in lines).encode())


FOUND: Dict[Tuple[str, str], str] = {
    ("ADVANCE a 5", "ADVANCE a 1"): "a is at step 3 with 2 saved, and would be at step 2 with 2 saved or at step 7 with 2 saved",
    ("REVERSE a", "ADVANCE a 2"): "a is at step 4 with 2 saved, and would be at step 2 with 2 saved or at step 1 with 2 saved",
    ("TUG a 0 5 0 0", "TUG a 0 1 0 0"): "a is at step 2 with 2 saved (saved at 1, here at 2), changed otherwise",
    ("MEASURE a", "TUG a 0 1 0 0"): "a is at step 2 with 2 saved (saved at 1, here at 2), changed otherwise",
    ("BRANCH a k", "FORGET a here"): "a is at step 2 with 1 saved, and would be at step 2 with 2 saved or at step 2 with 3 saved",
    ("FORGET a here", "FORGET a saved"): "a is at step 2 with 1 saved (here at 2), changed otherwise",
    ("SHOW a 0", "DROP a"): "a is gone, and would be at step 2 with 2 saved",
    ("ADVANCE a 5", "DROP b"): "b is gone, and would be at step 2 with 0 saved",
    ("ADVANCE a 5", "ADVANCE b 1"): "b is at step 1 with 0 saved, and would be at step 2 with 0 saved",
    ("DROP b", "DROP a"): "a is gone, and would be at step 2 with 2 saved",
    (LOAD, LOAD.replace("rest 28", "rest 11") + "\n1\n\nAr 0 0 0"): "new is of 1 atoms",
}


@pytest.mark.parametrize("line, other", FOUND)
def test_what_another_connection_has_done_is_an_error_that_tells_it(line: str, other: str) -> None:
    server = prepared()
    with no_waits(), server.connected() as user:
        KNOWN["all"](user)
        server.granted.clear()
        server.cut_next(Cut(0))
        server.answers(f"{other}\n".encode())
        with pytest.raises(Undecided) as caught:
            user.ask(line, BODY if line == LOAD else b"")
        assert user.closed
        with pytest.raises(Closed):
            user.ask("LIST")
    is_gone = other.startswith("DROP")
    assert (caught.value.command, caught.value.states, caught.value.is_gone) == (line, (FOUND[line, other],), is_gone)
    assert ("started again" in str(caught.value)) == is_gone and line in str(caught.value) and FOUND[line, other] in str(caught.value)
    assert server.granted == [other.split("\n")[0].encode()]


def test_a_server_that_was_begun_anew_is_told() -> None:
    server = prepared()
    with no_waits(), server.connected() as user:
        server.user.sessions.clear()
        server.cut_next(Cut(3))
        with pytest.raises(ConnectionLost, match="a is gone.*b is gone.*the server was started again"):
            user.ask("ADVANCE a 1")
    assert server.user.sessions == {} and server.granted == []


def test_without_retry_a_loss_is_an_error() -> None:
    server = prepared()
    with server.connected(0) as user:
        server.cut_next(Cut(3))
        with pytest.raises(ConnectionLost, match="`ADVANCE a 1` was not answered"):
            user.ask("ADVANCE a 1")
        assert user.closed and len(server.links) == 1


def test_links_that_are_refused_are_tried_with_growing_waits_until_the_time_is_over() -> None:
    server, clock = prepared(), Clock()
    with mock.patch.object(retrying, "time", clock), server.connected(20) as user:
        server.cut_next(Cut(3))
        server.refuses = 6
        assert user.ask("ADVANCE a 1").words == ["ADVANCE", "a", "3"]
        assert clock.now == pytest.approx(0.05 + 0.1 + 0.2 + 0.4 + 0.8 + 1.6)
        assert server.allowed[1:3] + server.allowed[-1:] == pytest.approx([20 / 3, 19.95 / 3, (20 - 3.15) / 3])
        server.cut_next(Cut(0))
        server.refuses = NEVER
        with pytest.raises(ConnectionLost, match=r"`MEASURE a` was not answered; no other connection in 20 s \(cannot connect: refused\)"):
            user.ask("MEASURE a")
        assert clock.now == pytest.approx(3.15 + 20) and user.closed


class Clock:
    """A clock that goes on by what is slept."""

    def __init__(self) -> None:
        self.now = 0.0

    def monotonic(self) -> float:
        return self.now

    def sleep(self, seconds: float) -> None:
        self.now += seconds


@pytest.mark.parametrize("others", [Cut(43 + 5 + 3), Cut(43 + 2), Cut(NEVER, 20)])
def test_a_server_that_ends_each_link_is_given_up(others: Cut) -> None:
    """In the command that is sent again, or in the LIST before it, or in its reply."""
    server = prepared()
    with mock.patch.object(retrying, "time", Clock()), server.connected(30) as user:
        server.cut_next(Cut(0))
        server.others = others
        with pytest.raises(ConnectionLost, match="`ADVANCE a 1` was not answered"):
            user.ask("ADVANCE a 1")
    assert server.granted == [] and 8 < len(server.links) <= 22


@pytest.mark.parametrize("retry", [-1, float("inf"), float("nan"), "soon"])
def test_retry_is_a_number_of_seconds(retry: Any) -> None:
    with pytest.raises(ValueError, match="retry must be"):
        connect("127.0.0.1", 1, "ann", TOKEN, retry=retry)


def test_an_interrupt_while_there_is_no_link_leaves_what_was_sent_to_the_next_call() -> None:
    server = prepared()
    with no_waits(), server.connected() as user:
        KNOWN["all"](user)
        server.cut_next(Cut(NEVER, 0))
        server.refuses = 1
        with mock.patch.object(retrying, "_pause", side_effect=KeyboardInterrupt), pytest.raises(KeyboardInterrupt):
            user.ask_all(["ADVANCE a 2", "ADVANCE a 1"])
        assert not user.closed and user.unanswered == ["ADVANCE a 2", "ADVANCE a 1"]
        assert user.ask("ADVANCE a 0").words == ["ADVANCE", "a", "5"]
    assert server.granted[-2:] == [b"ADVANCE a 2", b"ADVANCE a 1"]


def test_steps_that_were_started_are_waited_for_over_the_next_link() -> None:
    server = prepared()
    with no_waits(), server.connected() as user:
        one = session_of(user)
        assert one.start(4) == 6
        server.cut_next(Cut(1))
        assert (one.get_target(), one.get_step()) == (6, 6)
