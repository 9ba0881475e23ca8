"""The token of a user: from a file, the environment, or a terminal, and never from a command line, where others see it.

A token may have blanks, as on a slip, where they separate groups that are easier to type. Blanks are removed.
"""
from __future__ import annotations

import getpass
import os
import re
import sys
from typing import Dict, Mapping, Optional

from .errors import ClientError

VARIABLE = "LJSERVE_TOKEN"
MAX_BYTES = 65_536
LENGTH = 32
# The hexadecimal digits of a fingerprint, a SHA-256, and the fewest that are enough: no other certificate with these can be found.
DIGITS, FEWEST_DIGITS = 64, 32
NOT_IN_COMMANDS = f"a token must not be on the command line, where others can see it; use --token-file FILE or {VARIABLE}"


def environment_without_token(environment: Optional[Mapping[str, str]] = None) -> Dict[str, str]:
    """The environment of a child process, by default the environment of this process, without the token.

    No program of `run` needs the token, and others may read a child's environment, such as the processes that the child starts.
    """
    return {name: value for name, value in (os.environ if environment is None else environment).items() if name != VARIABLE}


def forget_variable() -> None:
    """Removes the token from the environment of this process, after it was read: a browser or an editor would inherit it."""
    os.environ.pop(VARIABLE, None)


def without_blanks(token: str) -> str:
    return "".join(token.split())


def checked_fingerprint(fingerprint: str) -> str:
    """The hexadecimal digits of a fingerprint, or of its beginning, without blanks and colons. Raises ValueError if it is not one."""
    digits = re.sub("[\\s:]", "", fingerprint).lower() if isinstance(fingerprint, str) else ""
    if not re.fullmatch("[0-9a-f]*", digits) or not FEWEST_DIGITS <= len(digits) <= DIGITS:
        what = f"the SHA-256 of the server's certificate, or its first {FEWEST_DIGITS} hexadecimal digits or more"
        # The digits are not shown: a token may have been given in their place.
        found = f"{len(digits)} digits" if re.fullmatch("[0-9a-f]*", digits) else "other characters"
        found = found if isinstance(fingerprint, str) else type(fingerprint).__name__
        raise ValueError(f"a fingerprint must be {what}, got {found}")
    return digits


def fault_of(token: str) -> Optional[str]:
    """What is wrong with a token, or None. The text does not show it."""
    if token and not (token.isascii() and token.isalnum()):
        return "a token must be letters and digits only"
    return None if len(token) == LENGTH else f"a token must be {LENGTH} letters and digits, got {len(token)}"


def token_of(name: str, path: Optional[str], is_terminal: bool) -> str:
    """The token of a user: from a file, from the environment, or typed at the terminal. Raises ClientError if there is none."""
    token = stored_token(name, path)
    if token is None and is_terminal:
        return typed_token(name)
    if token is None:
        raise ClientError(f"cannot connect: there is no token; use --token-file FILE, or set {VARIABLE}")
    return token


def stored_token(name: str, path: Optional[str]) -> Optional[str]:
    """The token of a user from a file, or without a path from the environment, if there is one. ClientError if it is no token."""
    token = without_blanks(os.environ.get(VARIABLE, "")) if path is None else token_in(path, name)
    if path is None and not token:
        return None
    if fault := fault_of(token):
        raise ClientError(f"{VARIABLE if path is None else path}: {fault}")
    return token


def typed_token(name: str) -> str:
    """The token that is typed at the terminal. The prompt is repeated until the token has the right form."""
    while True:
        try:
            token = without_blanks(getpass.getpass(f"token of {name}: "))
        except EOFError:
            print(file=sys.stderr)
            raise ClientError("cannot connect: no token was typed") from None
        fault = fault_of(token)
        if fault is None:
            return token
        print(f"{fault}; type it again", file=sys.stderr, flush=True)


def token_in(path: str, name: str) -> str:
    """The token in a file: alone on a line, or the second word of the line that begins with this name."""
    try:
        with open(os.path.expanduser(path), encoding="utf-8", errors="replace") as file:
            lines = [line.split() for line in file.read(MAX_BYTES).splitlines() if not line.startswith("#")]
    except OSError as error:
        raise ClientError(f"cannot read {path}: {error.strerror or error}") from error
    alone = [words for words in lines if len(words) == 1 or fault_of("".join(words)) is None]
    found = [words[1] for words in lines if len(words) > 1 and words[0] == name and words not in alone]
    found = found or ["".join(words) for words in alone]
    if not found:
        raise ClientError(f"cannot find a token of {name} in {path}; use a file with the token alone, or a file of users")
    return found[0]
