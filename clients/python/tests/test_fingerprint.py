"""Connections to the one server whose certificate has a fingerprint: nothing is said to another one."""
import hashlib
import pathlib
import shutil
import ssl
from typing import Any
from unittest import mock

import pytest

from ljclient import ConnectionLost, connect
from ljclient.tokens import checked_fingerprint
from ljclient.view.addresses import Address
from ljclient.view.users import Account
from record_texts import DIMER_TEXT, verified, with_checks
from relays import ENDED, NO_TLS, Relay, certificate, denies, expired
from support import SECONDS, TOKEN, dimer, peer
from test_tls import prompt

pytestmark = pytest.mark.skipif(shutil.which("openssl") is None, reason="openssl is not installed")


def fingerprint_of(files: Any) -> str:
    """The SHA-256 of a certificate, from its text."""
    return hashlib.sha256(ssl.PEM_cert_to_DER_cert(files[0].read_text())).hexdigest()


def joined(relay: Any, fingerprint: Any, **words: Any) -> Any:
    return connect("127.0.0.1", relay.port, "ann", TOKEN, timeout=SECONDS, fingerprint=fingerprint, **words)


def grouped(text: str, between: str = ":") -> str:
    return between.join(text[at : at + 4] for at in range(0, len(text), 4))


def test_each_way_to_write_it(relay: Any, good: Any) -> None:
    whole = fingerprint_of(good)
    for text in (whole, whole.upper(), whole[:32], whole[:33], grouped(whole), grouped(whole[:32]), f" {grouped(whole, ' ')}\n"):
        with joined(relay, text) as user:
            a = dimer(user, replace=True)
            assert (a.advance(2), a.place(0)) == (2, (1774, 0, 0))
            a.drop()
    with joined(relay, whole, tls=True) as user:
        assert user.sessions() == []


def test_another_certificate_hears_nothing(relay: Any, good: Any) -> None:
    """Also one that begins alike, but for the last digit that was said."""
    whole = fingerprint_of(good)
    for wrong in ("0" * 64, whole[:31] + format(int(whole[31], 16) ^ 1, "x"), whole[:63] + format(int(whole[63], 16) ^ 1, "x")):
        with pytest.raises(ConnectionLost) as caught:
            joined(relay, wrong)
        told = f"its certificate must have the fingerprint {wrong}, got {whole[: len(wrong)]} (nothing was sent)"
        assert str(caught.value) == f"cannot connect to 127.0.0.1:{relay.port}: {told}; compare it with the slip, and ask its operator"
    assert relay.heard == b""


def test_it_counts_whatever_else_the_certificate_says(server: Any, tmp_path: pathlib.Path) -> None:
    """Its name and its time are not looked at, and an issuer that is known does not count."""
    elsewhere = certificate(tmp_path, "elsewhere", "DNS:md.example.org")
    for files in (elsewhere, expired(tmp_path)):
        with Relay(server.port, files) as relay, joined(relay, fingerprint_of(files)) as user:
            assert user.sessions() == []
    with Relay(server.port, elsewhere) as relay:
        with pytest.raises(ConnectionLost, match="its certificate must have the fingerprint"):
            joined(relay, "0" * 32, tls=True)
        assert relay.heard == b""


def test_servers_without_tls(good: Any) -> None:
    whole = fingerprint_of(good)
    with peer(denies) as port, pytest.raises(ConnectionLost, match=NO_TLS):
        joined(mock.Mock(port=port), whole)
    with peer(lambda connection, stop: None) as port, pytest.raises(ConnectionLost) as caught:
        joined(mock.Mock(port=port), whole)
    assert str(caught.value).endswith(ENDED)


@pytest.mark.parametrize(
    "wrong, found",
    [
        ("", "0 digits"),
        ("12", "2 digits"),
        ("a" * 31, "31 digits"),
        ("a" * 65, "65 digits"),
        ("g" * 32, "other characters"),
        ("a" * 31 + "-", "other characters"),
        (12, "int"),
        (b"a" * 32, "bytes"),
    ],
)
def test_what_is_no_fingerprint(wrong: Any, found: str) -> None:
    """It is not shown, since a token may be given in its place."""
    told = "a fingerprint must be the SHA-256 of the server's certificate, or its first 32 hexadecimal digits or more, got "
    with pytest.raises(ValueError) as caught:
        joined(mock.Mock(port=1), wrong)
    assert str(caught.value) == f"{told}{found}"


def test_a_fingerprint_and_an_issuer(good: Any) -> None:
    with pytest.raises(
        ValueError, match="cannot use fingerprint= with ca=: a fingerprint names the one certificate that is trusted; use one of them"
    ):
        joined(mock.Mock(port=1), "a" * 32, tls=True, ca=good[0])


def test_digits_alone_are_left() -> None:
    assert checked_fingerprint("AB:cd " * 8) == "abcd" * 8


def test_the_live_view(relay: Any, good: Any) -> None:
    whole, heard = fingerprint_of(good), relay.heard
    account = Account(Address("127.0.0.1", relay.port), "ann", TOKEN, fingerprint=whole)
    account.check()
    with account.open() as user:
        assert user.sessions() == []
    heard = relay.heard
    status, told, fault = prompt("view", f"127.0.0.1:{relay.port}", "ann", "--no-browser", "--fingerprint", "0" * 32)
    assert (status, told) == (1, "") and "view: cannot connect" in fault and "its certificate must have the fingerprint " in fault
    assert relay.heard == heard


def test_a_record_that_is_verified(relay: Any, good: Any, tmp_path: pathlib.Path) -> None:
    path = tmp_path / "run.lj"
    path.write_text(with_checks(DIMER_TEXT))
    over = "--server", f"127.0.0.1:{relay.port}", "ann"
    assert verified(path, *over, "--fingerprint", fingerprint_of(good), LJSERVE_TOKEN=TOKEN)[0] == 0
    status, _, (fault,) = verified("--quiet", path, *over, "--fingerprint", "0" * 32, LJSERVE_TOKEN=TOKEN)
    assert (status, "its certificate must have the fingerprint" in fault) == (2, True)


def test_a_prompt(relay: Any, good: Any) -> None:
    whole, where = fingerprint_of(good), (f"127.0.0.1:{relay.port}", "ann")
    assert prompt(*where, "--fingerprint", grouped(whole[:32])) == (0, "OK LIST 0\n", "")
    heard = relay.heard
    status, told, fault = prompt(*where, "--fingerprint", "0" * 32)
    assert (status, told, fault.count("\n")) == (1, "", 1) and "its certificate must have the fingerprint " in fault
    assert relay.heard == heard
    assert prompt("--fingerprint", whole)[2].endswith("ljclient: --fingerprint must come with HOST:PORT NAME\n")
    leave_out = "ljclient: --ca cannot be used with --fingerprint: a fingerprint names the one certificate that is trusted\n"
    assert prompt(*where, "--tls", "--ca", good[0], "--fingerprint", whole)[2].endswith(leave_out)
    assert prompt(*where, "--fingerprint", "12")[2].endswith("or its first 32 hexadecimal digits or more, got 2 digits\n")
