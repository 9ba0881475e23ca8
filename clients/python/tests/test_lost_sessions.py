"""Sessions that are gone when a connection is begun anew: the server was started again, or another connection has dropped them."""
import functools
import pickle
import re
from unittest import mock
from typing import Any, Iterator

import pytest

import support
from ljclient import ConnectionLost, refusals, user as users
from ljclient.prompt.link import Link
from support import TOKEN, Server, dimer, joined
from terminals import ARGON, PROMPT, Terminal, environment

LOST = "the server no longer has it: the server was started again, or another connection has dropped it"
NEVER = "there is no session of that name"


def started_again(server: Any) -> Any:
    """Another server on the port of one that is ended."""
    server.end()
    with mock.patch.object(support, "free_port", lambda: server.port):
        return Server()


def before_the_last(user: Any) -> None:
    """Asks until the next command is the last of the connection, which begins a new one."""
    user.ask_all(["LIST"] * (users.MAX_ITEMS - 1 - user._wire.asked))


@pytest.fixture
def few_commands() -> Iterator[Any]:
    with mock.patch.object(users, "MAX_ITEMS", 100):
        yield


def after_a_list(session: Any) -> None:
    session._user.sessions()
    session.measure()


@pytest.mark.parametrize(
    "ask",
    [
        lambda session: session.measure(),
        lambda session: session.advance(1),
        lambda session: session.place(0),
        lambda session: session.places(),
        lambda session: session.dump(),
        lambda session: session.sample(1, 1),
        lambda session: session._user.session("a"),
        after_a_list,
    ],
)
def test_a_server_that_was_started_again(server: Any, few_commands: Any, ask: Any) -> None:
    with joined(server.port) as user:
        session = dimer(user)
        before_the_last(user)
        with started_again(server):
            with pytest.raises(refusals.NoSession) as caught:
                ask(session)
            assert caught.value.meaning == LOST
            assert str(caught.value).startswith(f"ERR 10 NO_SESSION: {LOST} (asked: ")
            dimer(user)
            assert session.advance(2) == 2


def test_a_session_that_another_connection_has_dropped(server: Any, few_commands: Any) -> None:
    with joined(server.port) as user:
        session = dimer(user)
        before_the_last(user)
        reopen = user._reopen

        def after_another() -> Any:
            with joined(server.port) as other:
                other.session("a").drop()
            return reopen()

        with mock.patch.object(user, "_reopen", after_another), pytest.raises(refusals.NoSession, match=LOST):
            session.measure()


def test_sessions_that_are_there_after_a_new_connection(server: Any, few_commands: Any) -> None:
    with joined(server.port) as user:
        session = dimer(user)
        for _ in range(3):
            before_the_last(user)
            assert session.place(1) == (25165824, 0, 0)


def test_what_never_was_there_or_was_dropped_here(server: Any) -> None:
    with joined(server.port) as user:
        dimer(user, "a").drop()
        dimer(user, "b")
        user.ask("DROP b")
        dimer(user, "c")
        dimer(user, "d")
        with pytest.raises(refusals.NoAtom):
            user.ask_all(["DROP c", "SHOW d 7"])
        with pytest.raises(refusals.NoSession, match=NEVER):
            user.ask_all(["DROP d", "SHOW d 0"])
        for name in "abcde":
            with pytest.raises(refusals.NoSession, match=NEVER):
                user.session(name)
            with pytest.raises(refusals.NoSession, match=NEVER):
                user.ask(f"ADVANCE {name} 1")


def test_a_refusal_in_words_of_its_own_is_the_same_when_it_was_sent() -> None:
    refusal = pickle.loads(pickle.dumps(refusals.NoSession("LIST a", meaning=LOST)))
    assert (type(refusal), refusal.meaning, refusal.command) == (refusals.NoSession, LOST, "LIST a")
    assert str(refusal) == f"ERR 10 NO_SESSION: {LOST} (asked: LIST a)"
    assert refusals.NoSession("LIST a").meaning == NEVER


def test_a_link_tells_once_what_is_lost(server: Any) -> None:
    link = Link(functools.partial(joined, server.port), "")
    for name in "abc":
        dimer(link.ready(), name)
    link.user.session("c").drop()
    link.user.close()
    assert (link.ready().closed, link.lost()) == (False, [])
    link.user.sessions()
    with started_again(server):
        link.user.close()
        link.ready()
        assert (link.lost(), link.lost()) == (["a", "b"], [])
        dimer(link.ready(), "a")
        link.user.close()
        with joined(server.port) as other:
            dimer(other, "d")
        assert [row.name for row in link.ready().sessions()] == ["a", "d"]
        assert link.lost() == []
        link.close()


def test_a_link_whose_server_is_away_for_some_time(server: Any) -> None:
    link = Link(functools.partial(joined, server.port), "")
    dimer(link.ready())
    server.end()
    with pytest.raises(ConnectionLost):
        link.ready().sessions()
    for _ in range(2):
        with pytest.raises(ConnectionLost):
            link.ready()
    with started_again(server):
        link.ready()
        assert link.lost() == ["a"]
        link.close()


@pytest.fixture
def terminal(server: Any) -> Iterator[Any]:
    terminal = Terminal([*PROMPT, f"127.0.0.1:{server.port}", "ann"], environment(LJSERVE_TOKEN=TOKEN))
    yield terminal
    terminal.close()


def says(terminal: Any, line: Any) -> Any:
    """What is shown for a line, up to the next prompt."""
    terminal.type(line + "\r")
    terminal.until(re.escape(line) + "\n")
    return terminal.until("ann> ")


def test_a_prompt_promises_no_more_than_it_knows(server: Any, terminal: Any) -> None:
    terminal.until("ann> ")
    says(terminal, f"LOAD a {ARGON} 21.04 3.4 131072")
    says(terminal, f"LOAD b {ARGON} 21.04 3.4 131072")
    server.end()
    told = says(terminal, "MEASURE a")
    assert told.endswith("The next command begins a new connection. If the server still runs, it still has the sessions.\nann> ")
    assert "are still at the server" not in told
    with started_again(server):
        wanted = "  no longer at the server: a, b\n"
        wanted += "  the server was started again, or another connection has dropped them\n"
        assert says(terminal, "LIST") == f"{wanted}OK LIST 0\nann> "
        assert says(terminal, "LIST") == "OK LIST 0\nann> "


def test_a_prompt_says_so_before_what_is_refused(server: Any, terminal: Any) -> None:
    terminal.until("ann> ")
    says(terminal, f"LOAD a {ARGON} 21.04 3.4 131072")
    server.end()
    says(terminal, "LIST")
    with started_again(server):
        told = says(terminal, "ADVANCE a 10")
        why = "the server was started again, or another connection has dropped it"
        assert told.startswith(f"  no longer at the server: a\n  {why}\n")
        assert f"\nERR 10 NO_SESSION\n  {NEVER}\n  sessions: none\n" in told
