"""Connections over TLS: the certificate of the server is checked before anything is sent."""
from __future__ import annotations

import hashlib
import os
import socket
import ssl
from typing import Optional

from .errors import ClientError, ConnectionLost
from .files import Path
from .tokens import checked_fingerprint
from .transport import SocketTransport

HANDSHAKE_SECONDS = 15.0
# Codes of OpenSSL: the certificate is for another name or address; its issuer is not known.
OTHER_NAME = (62, 64)
UNKNOWN_ISSUER = (18, 19, 20, 21)
EXPIRED = (9, 10)
NOT_TLS = ("WRONG_VERSION_NUMBER", "PACKET_LENGTH_TOO_LONG", "RECORD_LAYER_FAILURE")


class Trust:
    """Which servers are trusted: those whose certificate has an issuer that the system knows, or that a file names; or the one whose
    certificate has a fingerprint. With a fingerprint, the issuer, name and time of the certificate are not checked."""

    def __init__(self, ca: Optional[Path], fingerprint: Optional[str] = None):
        self.ca = None if ca is None else os.fspath(ca)
        self.fingerprint = None if fingerprint is None else checked_fingerprint(fingerprint)
        if self.fingerprint is not None:
            self.context = ssl.SSLContext(ssl.PROTOCOL_TLS_CLIENT)
            self.context.check_hostname, self.context.verify_mode = False, ssl.CERT_NONE
            return
        try:
            self.context = ssl.create_default_context(cafile=self.ca)
        except ssl.SSLError:
            raise ClientError(f"cannot use {self.ca}: it has no certificate; use a file in PEM with that of the server's issuer") from None
        except OSError as error:
            raise ClientError(f"cannot read {self.ca}: {error.strerror or error}") from error

    def transport(self, host: str, port: int, timeout: float) -> "TlsTransport":
        """A connection to a trusted server. Raises `ConnectionLost`, which says what to do, if the server is not trusted."""
        return TlsTransport(host, port, timeout, self)

    def check(self, stream: ssl.SSLSocket) -> None:
        """Raises OSError if the certificate of a connection does not have the fingerprint. Nothing is sent before this check."""
        if self.fingerprint is None:
            return
        found = hashlib.sha256(stream.getpeercert(binary_form=True) or b"").hexdigest()
        if not found.startswith(self.fingerprint):
            told = f"its certificate must have the fingerprint {self.fingerprint}, got {found[: len(self.fingerprint)]}"
            raise OSError(f"{told} (nothing was sent); compare it with the slip, and ask its operator")

    def fault(self, error: OSError, host: str) -> str:
        """Why there is no connection, and what to do."""
        if isinstance(error, ssl.SSLCertVerificationError):
            return self._fault_of_certificate(error, host)
        if isinstance(error, (ssl.SSLEOFError, ssl.SSLZeroReturnError, ConnectionError)):
            return "it has ended the connection before it was encrypted: does it speak TLS at this port?"
        if isinstance(error, ssl.SSLError) and error.reason in NOT_TLS:
            return "it does not speak TLS there; use the port that does, or leave TLS out if the network may see the token"
        if isinstance(error, TimeoutError):
            return "it does not answer in TLS: does it speak TLS at this port?"
        return f"no TLS with it ({error.strerror or error})" if isinstance(error, ssl.SSLError) or error.errno else str(error)

    def _fault_of_certificate(self, error: ssl.SSLCertVerificationError, host: str) -> str:
        if error.verify_code in OTHER_NAME:
            return f"its certificate is of another name than {host}; use the name that its operator gives, or ask for a new certificate"
        if error.verify_code in EXPIRED:
            return f"its certificate is not valid now ({error.verify_message}); ask its operator for a new one, or set the clock"
        if error.verify_code not in UNKNOWN_ISSUER:
            return f"its certificate is not valid ({error.verify_message}); ask its operator for a new one"
        if self.ca is None:
            return "the issuer of its certificate is not known here; use ca=FILE or --ca FILE, the issuer's certificate from its operator"
        return f"its certificate is of another issuer than the one in {self.ca}; ask its operator for the right file"


class TlsTransport(SocketTransport):
    """A TCP connection in TLS."""

    _socket: ssl.SSLSocket

    def __init__(self, host: str, port: int, timeout: float, trust: Trust):
        self._trust = trust
        self._host = host
        super().__init__(host, port, timeout)

    def _opened(self, plain: socket.socket, timeout: float) -> socket.socket:
        plain.settimeout(min(timeout, HANDSHAKE_SECONDS))
        encrypted = None
        try:
            encrypted = self._trust.context.wrap_socket(plain, server_hostname=self._host)
            self._trust.check(encrypted)
            return encrypted
        except OSError as error:
            (encrypted or plain).close()
            why = self._trust.fault(error, self._host)
            raise ConnectionLost(f"cannot connect to {self._where}: {why}") from error

    def read(self, size: int) -> bytes:
        """All decrypted bytes that are there, because waiting for the socket does not report them."""
        data = self._part(size)
        while more := self._socket.pending():
            data += self._part(more)
        return data

    def write(self, data: bytes) -> int:
        try:
            return self._socket.send(data)
        except (ssl.SSLWantWriteError, ssl.SSLWantReadError):
            raise BlockingIOError from None

    def _part(self, size: int) -> bytes:
        try:
            return self._socket.recv(size)
        except (ssl.SSLWantReadError, ssl.SSLWantWriteError):
            raise BlockingIOError from None
