"""Connections over TLS, through a relay that decrypts in front of a server, with certificates that openssl makes."""
import pathlib
import shutil
import ssl
import subprocess
import sys
from unittest import mock
from typing import Any, Dict, Tuple

import pytest

from ljclient import BadReply, ClientError, ConnectionLost, connect, refusals, tls, user as users
from record_texts import DIMER_TEXT, verified, with_checks
from relays import ENDED, NO_TLS, UNKNOWN, Relay, certificate, denies, expired, of_another_issuer
from support import EXAMPLES, SECONDS, TOKEN, dimer, free_port, listed, peer
from terminals import environment

pytestmark = pytest.mark.skipif(shutil.which("openssl") is None, reason="openssl is not installed")


def joined(relay: Any, host: str = "127.0.0.1", **words: Any) -> Any:
    usual: Dict[str, Any] = {"timeout": SECONDS, "tls": True}
    return connect(host, relay.port, "ann", TOKEN, **{**usual, **words})


def why(relay: Any, host: str = "127.0.0.1", **words: Any) -> Any:
    """What is told where there is no connection."""
    with pytest.raises(ConnectionLost) as caught:
        joined(relay, host, **words)
    text = str(caught.value)
    assert "\n" not in text
    start = f"cannot connect to {host}:{relay.port}: "
    assert text.startswith(start)
    return text[len(start) :]


@pytest.mark.parametrize("host", ["127.0.0.1", "localhost"])
def test_a_user(relay: Any, good: Any, host: Any) -> None:
    with joined(relay, host, ca=good[0]) as user:
        a = dimer(user, replace=True)
        assert (a.advance(2), a.place(0)) == (2, (1774, 0, 0))
        a.drop()
    assert relay.heard.startswith(f"HELLO ann {TOKEN}\n".encode()) and relay.heard.endswith(b"BYE\n")


def test_long_replies_and_many_commands(server: Any, relay: Any, good: Any) -> None:
    """They are those that come without TLS, however they are cut into records."""
    scale: Dict[str, Any] = {"edge": 52.6, "sigma": 3.4, "h": 3706, "replace": True, "watch": False}
    with joined(relay, ca=str(good[0])) as user:
        big = user.load("big", EXAMPLES / "argon_4000.xyz", **scale)
        told = [big.dump() for _ in range(5)], listed(big.places()), user.ask_all(["LIST big", "MEASURE big"] * 3000)
    with connect("127.0.0.1", server.port, "ann", TOKEN, timeout=SECONDS) as user:
        big = user.session("big", edge=52.6, sigma=3.4, h=3706)
        assert told[0] == [big.dump()] * 5
        assert told[1] == listed(big.places())
        assert told[2] == user.ask_all(["LIST big", "MEASURE big"] * 3000)
        big.drop()


def test_an_issuer_that_is_not_known(relay: Any, other: Any) -> None:
    assert why(relay) == UNKNOWN
    assert why(relay, ca=other[0]) == of_another_issuer(other[0])
    assert relay.heard == b""


def test_another_name(server: Any, tmp_path: pathlib.Path) -> None:
    elsewhere = certificate(tmp_path, "elsewhere", "DNS:md.example.org,IP:192.0.2.1")
    with Relay(server.port, elsewhere) as relay:
        for host in ("127.0.0.1", "localhost"):
            text = f"its certificate is of another name than {host}; use the name that its operator gives, or ask for a new certificate"
            assert why(relay, host, ca=elsewhere[0]) == text
        assert relay.heard == b""


def test_a_certificate_of_another_time(server: Any, tmp_path: pathlib.Path) -> None:
    old = expired(tmp_path)
    with Relay(server.port, old) as relay:
        text = "its certificate is not valid now (certificate has expired); ask its operator for a new one, or set the clock"
        assert why(relay, ca=old[0]) == text
        assert relay.heard == b""


def test_a_plain_server(good: Any) -> None:
    with peer(denies) as port:
        assert why(mock.Mock(port=port), ca=good[0]) == NO_TLS


def test_a_plain_server_that_waits_for_the_end_of_a_line(server: Any, good: Any) -> None:
    with mock.patch.object(tls, "HANDSHAKE_SECONDS", 0.5):
        text = why(server, ca=good[0])
    assert text in (NO_TLS, "it does not answer in TLS: does it speak TLS at this port?")


def test_what_ends_the_connection_at_once(good: Any) -> None:
    with peer(lambda connection, stop: None) as port:
        assert why(mock.Mock(port=port), ca=good[0]) == ENDED


@pytest.mark.parametrize("kind", [ssl.SSLEOFError, ssl.SSLZeroReturnError, ConnectionResetError, BrokenPipeError])
def test_each_way_in_which_a_handshake_ends(good: Any, kind: Any) -> None:
    assert tls.Trust(good[0]).fault(kind(1, "no"), "here") == ENDED


def test_no_server(good: Any) -> None:
    assert why(mock.Mock(port=free_port()), ca=good[0]) == "Connection refused"


def test_files_that_are_no_certificates(relay: Any, tmp_path: pathlib.Path) -> None:
    (tmp_path / "bad.pem").write_text("no certificate\n")
    with pytest.raises(ClientError, match="bad.pem: it has no certificate; use a file in PEM with that of the server's issuer"):
        joined(relay, ca=tmp_path / "bad.pem")
    with pytest.raises(ClientError, match="cannot read .*none.pem: No such file or directory"):
        joined(relay, ca=tmp_path / "none.pem")
    with pytest.raises(ValueError, match="cannot use ca= without TLS: it is for a server's certificate; use tls=True too"):
        joined(relay, tls=False, ca=tmp_path / "bad.pem")


def test_a_wrong_token(relay: Any, good: Any) -> None:
    with pytest.raises(refusals.Denied):
        connect("127.0.0.1", relay.port, "ann", "b" * 32, timeout=SECONDS, tls=True, ca=good[0])


def test_a_plain_client_is_told_of_tls(relay: Any) -> None:
    with pytest.raises((BadReply, ConnectionLost), match=r"or does it want tls=True or --tls\?\)$"):
        joined(relay, tls=False)


def test_connections_that_are_begun_anew(relay: Any, good: Any) -> None:
    with mock.patch.object(users, "MAX_ITEMS", 100), joined(relay, ca=good[0]) as user:
        a = dimer(user, replace=True)
        for step in range(1, 150):
            assert a.advance(1) == step
        a.drop()
    assert relay.heard.count(b"HELLO ann ") == 2


def test_a_connection_that_is_lost(relay: Any, good: Any) -> None:
    with joined(relay, ca=good[0]) as user:
        a = dimer(user, replace=True)
        relay.cut()
        with pytest.raises(ConnectionLost):
            for _ in range(1000):
                a.measure()
        assert user.closed


def prompt(*words: Any) -> Tuple[Any, Any, Any]:
    """The status of a prompt that is asked for a list, and what it writes."""
    command = [sys.executable, "-m", "ljclient", *map(str, words)]
    env = environment(LJSERVE_TOKEN=TOKEN)
    done = subprocess.run(command, input="LIST\n", env=env, capture_output=True, text=True, timeout=SECONDS)
    return done.returncode, done.stdout, done.stderr


def test_a_prompt(relay: Any, good: Any) -> None:
    where = f"127.0.0.1:{relay.port}", "ann"
    assert prompt(*where, "--tls", "--ca", good[0]) == (0, "OK LIST 0\n", "")
    status, told, fault = prompt(*where, "--tls")
    assert (status, told) == (1, "")
    assert fault.startswith(f"ljclient: cannot connect to {where[0]}: the issuer of its certificate is not known here; ")
    assert fault.count("\n") == 1
    assert prompt(*where, "--ca", good[0])[2].endswith("ljclient: --ca must come with --tls\n")
    assert prompt("--tls")[2].endswith("ljclient: --tls must come with HOST:PORT NAME\n")


def test_a_record_that_is_verified(relay: Any, good: Any, tmp_path: pathlib.Path) -> None:
    path = tmp_path / "run.lj"
    path.write_text(with_checks(DIMER_TEXT))
    over = "--server", f"127.0.0.1:{relay.port}", "ann"
    assert verified(path, *over, "--tls", "--ca", good[0], LJSERVE_TOKEN=TOKEN)[0] == 0
    status, _, (fault,) = verified("--quiet", path, *over, "--tls", LJSERVE_TOKEN=TOKEN)
    assert (status, "use ca=FILE" in fault) == (2, True)
