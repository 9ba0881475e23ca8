"""Addresses HOST:PORT of a command line."""
from __future__ import annotations

import re
from typing import NamedTuple, Optional

HOST_OF_ORIGIN = r"[A-Za-z0-9](?:[A-Za-z0-9.-]{0,252}[A-Za-z0-9])?|\[[0-9A-Fa-f:.]{2,45}\]"
ORIGIN = re.compile(rf"https?://(?:{HOST_OF_ORIGIN})(?::([0-9]{{1,5}}))?")


class Address(NamedTuple):
    """A host, without brackets, and a port."""

    host: str
    port: int


def address_in(word: str) -> Optional[Address]:
    """The address in a word, such as `127.0.0.1:4000` or `[::1]:4000`. None if the word is not an address."""
    host, _, port = word.rpartition(":")
    if not (host and port.isascii() and port.isdecimal() and int(port) < 65536):
        return None
    return Address(host.strip("[]"), int(port))


def is_origin(word: str) -> bool:
    """Whether a word is the origin of pages: a scheme, a host and perhaps a port, such as `https://course.example`."""
    found = ORIGIN.fullmatch(word)
    return found is not None and int(found[1] or 0) < 65536
