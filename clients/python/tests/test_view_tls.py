"""The live view of a user's sessions over TLS, through a relay that decrypts in front of a server."""
import contextlib
import pathlib
import shutil
import socket
import subprocess
from typing import Any, Dict, Iterator, Tuple

import pytest

from browsing import CHROMIUM, Browser
from relays import ENDED, NO_TLS, UNKNOWN, Relay, certificate, denies, of_another_issuer
from support import SECONDS, TOKEN, dimer, free_port, joined, peer
from viewing import View, command

pytestmark = pytest.mark.skipif(shutil.which("openssl") is None, reason="openssl is not installed")
SCALE = ["--edge", 256, "--sigma", 1, "--h", 131072]
WAITS = "ann is in by another connection, such as a prompt or a notebook. This page goes on when that one has ended."


@pytest.fixture
def ann(server: Any) -> Any:
    """Opens a connection of the user, as a prompt does, at the server itself."""
    return lambda: joined(server.port)


@pytest.fixture
def token_file(tmp_path: pathlib.Path) -> Any:
    path = tmp_path / "token"
    path.write_text(TOKEN)
    return path


def ended_well(view: Any) -> None:
    """Ends a view, which is to have told of no fault."""
    assert view.end()[1] == ""


@pytest.fixture
def view(token_file: Any) -> Iterator[Any]:
    """Opens the view of this user at a port of this machine, with a token from a file if nothing else is said."""
    with contextlib.ExitStack() as opened:

        def open_view(port: Any, *words: Any, said: Any = ("--token-file", token_file)) -> Any:
            one = View(f"127.0.0.1:{port}", "ann", "--tls", *said, *words, *SCALE)
            opened.callback(ended_well, one)
            return one

        yield open_view


def listener(port: int = 0) -> Any:
    """What listens at a port, and accepts nothing as yet."""
    return socket.create_server(("127.0.0.1", port))


def not_answered(port: Any) -> Dict[Any, Any]:
    return {"waits": f"127.0.0.1:{port} has not answered yet. This page goes on when it has, or says what is wrong."}


def cannot_connect(port: Any, why: Any) -> str:
    return f"cannot connect to 127.0.0.1:{port}: {why}"


def answer(page: Any) -> Any:
    """What a page is told next, without that it waits, which it is told if this takes longer than a second."""
    while "waits" in (told := page.receive()):
        pass
    return told


def asked(page: Any, what: Any, **words: Any) -> Any:
    page.send(what, **words)
    return answer(page)


def first(page: Any) -> Any:
    """What a page is told first but that it waits."""
    return answer(page) if "waits" in page.first else page.first


def test_it_shows_and_plays_a_session(view: Any, relay: Any, good: Any, ann: Any) -> None:
    with ann() as user:
        dimer(user).advance(2)
    with view(relay.port, "--ca", good[0]).page() as page:
        told = first(page)
        assert (told["scene"]["session"], told["step"]) == ("a", 2)
        assert page.ask("frame", steps=1)["step"] == 3
    assert relay.heard.startswith(f"HELLO ann {TOKEN}\n".encode())
    with ann() as user:
        assert user.session("a").get_step() == 3


def test_the_token_is_typed_into_the_page(view: Any, relay: Any, good: Any, ann: Any) -> None:
    with ann() as user:
        dimer(user)
    with view(relay.port, "--ca", good[0], said=()).page() as page:
        assert (page.first["asks"], relay.heard) == ("token", b"")
        assert "no user ann with this token" in asked(page, "token", token="b" * 32)["why"]
        assert asked(page, "token", token=TOKEN)["scene"]["session"] == "a"


def refused(*words: Any) -> Tuple[Any, Any]:
    """The status of a view that does not begin, and what it says."""
    done = subprocess.run(**command(*words), capture_output=True, timeout=SECONDS)
    assert done.stdout == ""
    return done.returncode, done.stderr


@pytest.mark.parametrize("is_token_said", [True, False])
def test_a_server_that_is_not_trusted_is_told_before_a_page(
    relay: Any, server: Any, other: Any, token_file: Any, tmp_path: pathlib.Path, is_token_said: Any
) -> None:
    said = ["--tls", *(["--token-file", token_file] if is_token_said else [])]
    (tmp_path / "bad.pem").write_text("no certificate\n")
    elsewhere = certificate(tmp_path, "elsewhere", "DNS:md.example.org,IP:192.0.2.1")
    name = "its certificate is of another name than 127.0.0.1; use the name that its operator gives, or ask for a new certificate"
    issuer = of_another_issuer(other[0])
    with Relay(server.port, elsewhere) as far:
        cases = [
            (relay.port, [], cannot_connect(relay.port, UNKNOWN)),
            (relay.port, ["--ca", other[0]], cannot_connect(relay.port, issuer)),
            (far.port, ["--ca", elsewhere[0]], cannot_connect(far.port, name)),
            (
                relay.port,
                ["--ca", tmp_path / "bad.pem"],
                f"cannot use {tmp_path}/bad.pem: it has no certificate; use a file in PEM with that of the server's issuer",
            ),
            (relay.port, ["--ca", tmp_path / "none.pem"], f"cannot read {tmp_path}/none.pem: No such file or directory"),
        ]
        for port, words, why in cases:
            assert refused(f"127.0.0.1:{port}", "ann", *said, *words) == (1, f"view: {why}\n")
        assert far.heard + relay.heard == b""


def test_a_server_without_tls_is_told_before_a_page(token_file: Any) -> None:
    with peer(denies) as port:
        told = refused(f"127.0.0.1:{port}", "ann", "--token-file", token_file, "--tls")
    assert told == (1, f"view: {cannot_connect(port, NO_TLS)}\n")


def test_options_that_do_not_fit(good: Any) -> None:
    for words, why in (
        (["--tls"], "--tls must come with HOST:PORT NAME"),
        (["127.0.0.1:1", "ann", "--ca", good[0]], "--ca must come with --tls"),
    ):
        status, told = refused(*words)
        assert (status, told.splitlines()[-1]) == (2, f"view: error: {why}")


def test_a_page_says_what_it_waits_for(view: Any, server: Any, good: Any, ann: Any) -> None:
    """At first that its server answers, and then that the user is let in, who is in by another connection."""
    with Relay(server.port, good) as relay:
        shown = view(relay.port, "--ca", good[0])
        port = relay.port
    with ann() as user, contextlib.ExitStack() as stack:
        dimer(user).advance(4)
        waiting = listener(port)
        page = stack.enter_context(shown.page())
        assert page.first == not_answered(port)
        stack.enter_context(Relay(server.port, good, waiting))
        assert page.receive() == {"waits": WAITS}
        user.close()
        assert page.receive()["step"] == 4


def test_a_page_that_connects_again_says_why_it_cannot(view: Any, server: Any, good: Any, other: Any, ann: Any) -> None:
    """Its server's certificate is exchanged for that of another issuer, and then the server for one without TLS, that says nothing
    for a while. When the first is there again, the page goes on."""
    port = free_port()
    issuer = of_another_issuer(good[0])
    with ann() as user:
        dimer(user)
    with contextlib.ExitStack() as stack:
        with Relay(server.port, good, listener(port)) as relay:
            page = stack.enter_context(view(port, "--ca", good[0]).page())
            assert first(page)["step"] == 0
            assert page.ask("frame", steps=1)["step"] == 1
            relay.cut()
            assert "error" in page.ask("frame", steps=1)
        with Relay(server.port, other, listener(port)) as relay:
            assert asked(page, "frame", steps=1) == {"error": cannot_connect(port, issuer)}
            assert relay.heard == b""
        with peer(lambda connection, stop: stop.wait(SECONDS), port):
            page.send("frame", steps=1)
            assert page.receive() == not_answered(port)
        assert cannot_connect(port, ENDED) in page.receive()["error"]
        with Relay(server.port, good, listener(port)):
            told = asked(page, "frame", steps=1)
            assert (told["step"], told["jumped"]) == (2, True)


def test_what_was_saved_is_given_up_after_a_lost_link(view: Any, relay: Any, good: Any, ann: Any) -> None:
    """The link is cut, and then the page is closed: the view connects once more before it ends."""
    with ann() as user:
        dimer(user)
    shown = view(relay.port, "--ca", good[0])
    with shown.page() as page:
        assert first(page)["step"] == 0
        page.ask("save")
        page.ask("second", on=True)
        relay.cut()
    assert shown.child.wait(SECONDS) == 0
    with ann() as user:
        assert [row.name for row in user.sessions()] == ["a"]
        assert user.session("a").saved() == []


@pytest.mark.skipif(not CHROMIUM, reason="Chromium is not installed")
def test_the_page_shows_why_it_cannot_connect_and_what_it_waits_for(view: Any, server: Any, good: Any, other: Any, ann: Any) -> None:
    port = free_port()
    with ann() as user:
        dimer(user)
    with Browser() as page:
        with Relay(server.port, good, listener(port)) as relay:
            page.open(view(port, "--ca", good[0]).link)
            page.wait_for("document.getElementById('about')?.textContent.startsWith('2 atoms')")
            relay.cut()
            page.click("one")
            page.wait_for("document.getElementById('message').className.includes('bad')")
        with Relay(server.port, other, listener(port)):
            page.click("one")
            page.wait_for("document.getElementById('message').textContent.includes('its certificate is of another issuer than the one in')")
        waiting = listener(port)
        page.click("one")
        page.wait_for(f"document.getElementById('waits').textContent === {not_answered(port)['waits']!r}")
        with Relay(server.port, good, waiting):
            page.wait_for("document.getElementById('step').textContent === '1'")
            assert page.text("waits") == ""
        assert page.faults == []
