"""The header of the PROXY protocol, versions 1 and 2, in which a balancer sends the address of the client.

https://www.haproxy.org/download/2.6/doc/proxy-protocol.txt
"""
import ipaddress
import re
import struct
import time
from typing import Optional, Protocol, Tuple

SECONDS_FOR_HEADER = 10.0
SIGNATURE = b"\r\n\r\n\0\r\nQUIT\n"
MAX_TEXT = 107
TEXT = re.compile(rb"PROXY (?:UNKNOWN(?: [^\r\n]*)?|TCP[46] ([0-9A-Fa-f.:]+) [0-9A-Fa-f.:]+ ([0-9]{1,5}) [0-9]{1,5})\r\n")
LOCAL, PROXY = 0x20, 0x21
# Bytes of an address, for each TCP family of version 2.
SIZES = {0x11: 4, 0x21: 16}


class NotWhole(Exception):
    """More bytes are needed."""


class Stream(Protocol):
    """A stream with a header: a socket, or received bytes."""

    def settimeout(self, seconds: Optional[float], /) -> None:
        """Sets how long to wait."""

    def recv(self, count: int, /) -> bytes:
        """At most so many bytes."""


class Held:
    """Received bytes, read like a socket."""

    def __init__(self, data: bytes):
        self.data = data

    def settimeout(self, _: Optional[float], /) -> None:
        """Nothing is waited for."""

    def recv(self, count: int, /) -> bytes:
        piece, self.data = self.data[:count], self.data[count:]
        if not piece:
            raise NotWhole
        return piece


def source_of_bytes(data: bytes) -> Tuple[Optional[str], bytes]:
    """The source in the header at the start of some bytes, as by `source_of`, and the bytes after the header. Raises `NotWhole` if
    more are needed, and ValueError if there is no header."""
    held = Held(data)
    return source_of(held), held.data


def source_of(stream: Stream) -> Optional[str]:
    """Reads the header at the start of a connection, and no byte more. Returns the source in it as HOST:PORT, or None if it names
    none, as in a balancer's own checks. Raises ValueError if there is no header, and OSError if it does not come."""
    until = time.monotonic() + SECONDS_FOR_HEADER
    head = received(stream, len(SIGNATURE), until)
    source = source_of_version_2(stream, until) if head == SIGNATURE else source_of_version_1(stream, head, until)
    stream.settimeout(None)
    return source


def source_of_version_1(stream: Stream, head: bytes, until: float) -> Optional[str]:
    """The source that a line of text names."""
    while head.startswith(b"PROXY ") and not head.endswith(b"\r\n") and len(head) < MAX_TEXT:
        head += received(stream, 1, until)
    found = TEXT.fullmatch(head)
    if not found:
        raise ValueError("the first bytes must be a header")
    return joined(found[1].decode(), int(found[2])) if found[1] else None


def source_of_version_2(stream: Stream, until: float) -> Optional[str]:
    """The source that a binary header names. Further fields are skipped."""
    command, family, size = struct.unpack("!BBH", received(stream, 4, until))
    body = received(stream, size, until)
    if command not in (LOCAL, PROXY):
        raise ValueError("it is of another version")
    bytes_each = SIZES.get(family)
    if command == LOCAL or bytes_each is None:
        return None
    if size < 2 * bytes_each + 4:
        raise ValueError("it is too short for its addresses")
    (port,) = struct.unpack_from("!H", body, 2 * bytes_each)
    return joined(str(ipaddress.ip_address(body[:bytes_each])), port)


def joined(host: str, port: int) -> str:
    """An address as HOST:PORT. Raises ValueError if it is not one."""
    address = ipaddress.ip_address(host)
    if port > 65535:
        raise ValueError(f"there is no port {port}")
    return f"[{address}]:{port}" if address.version == 6 else f"{address}:{port}"


def received(stream: Stream, count: int, until: float) -> bytes:
    """Exactly `count` bytes, received before `until`. Raises ValueError if the connection ends first."""
    data = b""
    while len(data) < count:
        stream.settimeout(max(until - time.monotonic(), 0.001))
        piece = stream.recv(count - len(data))
        if not piece:
            raise ValueError("the connection has ended within it")
        data += piece
    return data
