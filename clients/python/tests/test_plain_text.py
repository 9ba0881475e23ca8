"""A connection to another machine that is not encrypted: it is warned of once, before the token is sent."""
import contextlib
import socket
import subprocess
import sys
import warnings
from typing import Any, Iterator, List

import pytest

from ljclient import PlainTextWarning, connect, transport
from support import SECONDS, TOKEN, joined, peer, says, stays
from terminals import environment

ELSEWHERE = "192.0.2.10"
# A prompt whose connections all seem to come to another machine.
PROMPT = f"import sys; from ljclient import transport; transport.SocketTransport.peer = lambda self: {ELSEWHERE!r}; "
PROMPT += "from ljclient.__main__ import main; sys.exit(main(sys.argv[1:]))"


@pytest.fixture
def elsewhere(monkeypatch: pytest.MonkeyPatch) -> None:
    """All connections seem to come to another machine, of which nothing was warned yet."""
    monkeypatch.setattr(transport.SocketTransport, "peer", lambda self: ELSEWHERE)
    monkeypatch.setattr(transport, "warned", set())


@contextlib.contextmanager
def warned() -> Iterator[List[str]]:
    """The texts of the warnings of plain text that come within the block, each as often as it comes."""
    told: List[str] = []
    with warnings.catch_warnings(record=True) as caught:
        warnings.simplefilter("always")
        yield told
    told += [str(each.message) for each in caught if each.category is PlainTextWarning]


def test_it_is_warned_of_once(elsewhere: None) -> None:
    with warned() as told:
        for _ in range(3):
            with peer(says()) as port:
                joined(port).close()
    (text,) = told
    assert text.startswith("the connection to 127.0.0.1 is not encrypted") and "use tls=True" in text and TOKEN not in text


def test_a_warning_that_is_an_error_comes_before_the_token(elsewhere: None) -> None:
    for _ in range(2):
        heard: List[bytes] = []
        with peer(lambda connection, stop: heard.append(connection.recv(1 << 10))) as port, warnings.catch_warnings():
            warnings.simplefilter("error", PlainTextWarning)
            with pytest.raises(PlainTextWarning):
                joined(port)
        assert heard == [b""]


def test_it_can_be_silenced(elsewhere: None) -> None:
    with peer(says()) as port, warnings.catch_warnings(record=True) as caught:
        warnings.simplefilter("ignore", PlainTextWarning)
        joined(port).close()
    assert caught == []


@pytest.mark.parametrize("host", ["127.0.0.1", "localhost"])
def test_this_machine_is_not_warned_of(monkeypatch: pytest.MonkeyPatch, host: str) -> None:
    monkeypatch.setattr(transport, "warned", set())
    with warned() as told, peer(says()) as port:
        connect(host, port, "ann", TOKEN, timeout=SECONDS).close()
    assert told == []


def test_tls_is_not_warned_of(elsewhere: None, relay: Any, good: Any) -> None:
    with warned() as told:
        connect("127.0.0.1", relay.port, "ann", TOKEN, timeout=SECONDS, tls=True, ca=good[0]).close()
    assert told == []


def test_another_address_of_this_machine_is_warned_of(monkeypatch: pytest.MonkeyPatch) -> None:
    """Loopback alone is known to stay here."""
    monkeypatch.setattr(transport, "warned", set())
    with socket.socket(socket.AF_INET, socket.SOCK_DGRAM) as probe:
        try:
            probe.connect((ELSEWHERE, 9))
        except OSError:
            pytest.skip("this machine is in no network")
        own = probe.getsockname()[0]
    with peer(stays, host=own) as port, warned() as told:
        transport.opened_plainly(own, port, SECONDS).close()
    assert len(told) == 1 and told[0].startswith(f"the connection to {own} is not encrypted")


@pytest.mark.parametrize("host, address, wanted", [
    ("localhost", "127.0.0.1", True),
    ("LOCALHOST.", "::1", True),
    ("127.0.0.1", "127.0.0.1", True),
    ("mine", "127.0.1.1", True),
    ("::1", "::1", True),
    ("mine", "::ffff:127.0.0.1", True),
    ("mine", "", True),
    ("192.0.2.10", "192.0.2.10", False),
    ("server.example", "2001:db8::1", False),
    ("mine", "::ffff:192.0.2.10", False),
    ("fe80::1%eth0", "fe80::1%eth0", False),
    ("localhost.example", "192.0.2.10", False),
])  # fmt: skip
def test_what_this_machine_is(host: str, address: str, wanted: bool) -> None:
    assert transport.is_this_machine(host, address) == wanted


def said_by_a_prompt(**variables: str) -> str:
    """What a prompt says beside its replies, whose connection comes to another machine."""
    with peer(says(b"OK LIST 0\n")) as port:
        words = [sys.executable, "-c", PROMPT, f"127.0.0.1:{port}", "ann"]
        env = environment(LJSERVE_TOKEN=TOKEN, **variables)
        done = subprocess.run(words, input="LIST\n", capture_output=True, text=True, env=env, timeout=SECONDS)
    assert (done.returncode, done.stdout) == (0, "OK LIST 0\n")
    return done.stderr


def test_the_prompt_says_it_in_one_line() -> None:
    said = said_by_a_prompt()
    assert said.startswith("ljclient: warning: the connection to 127.0.0.1 is not encrypted, so the network sees the token; use tls=True")
    assert said.count("\n") == 1 and said.endswith("\n")


def test_the_prompt_can_be_silenced() -> None:
    assert said_by_a_prompt(PYTHONWARNINGS="ignore") == ""
