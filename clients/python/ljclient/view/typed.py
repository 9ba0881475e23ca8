"""Commands that are typed into a page, and the program's replies to them."""
from __future__ import annotations

from typing import Any, Callable, List, Optional

from .. import User
from ..errors import Refused, reply_of

LOADS = ("LOAD", "LOADMIX")
MAX_BODY = 1 << 20
MAX_LINE = 256
MAX_COMMANDS = 1000


def typed(commands: Any, replied: Callable[[str, str], List[str]]) -> List[List[str]]:
    """The lines of the reply to each command (a line and its body), or why it was not sent. Raises ValueError for other values."""
    if not (isinstance(commands, list) and len(commands) <= MAX_COMMANDS and all(is_command(each) for each in commands)):
        raise ValueError(f"commands must be at most {MAX_COMMANDS} lines, each with the text of its body")
    return [replied(line, body) for line, body in commands]


def is_command(command: Any) -> bool:
    """Whether this is a line and a body."""
    return isinstance(command, list) and len(command) == 2 and all(isinstance(each, str) for each in command) and "\n" not in command[0]


def replied(user: User, line: str, body: bytes) -> List[str]:
    """The lines of the reply to a command, or why it was not sent. Raises ClientError if there is no reply."""
    if (fault := fault_of(line, body)) is not None:
        return [fault]
    try:
        reply = user.ask(line, body)
    except Refused as refusal:
        return [reply_of(refusal)]
    return [" ".join(["OK", *reply.words]), *reply.lines]


def fault_of(line: str, body: bytes) -> Optional[str]:
    """Why a command is not sent: it would end the connection, or the server would wait for the rest of a body."""
    words = line.replace("\t", " ").split(" ")
    words = [word for word in words if word]
    if len(line.encode()) > MAX_LINE or not line.isascii():
        return f"not sent: a line has at most {MAX_LINE} characters of ASCII"
    if words[:1] == ["BYE"]:
        return "not sent: BYE would end the connection of this page"
    if words[:1] and words[0] in LOADS:
        count = words[-1]
        if len(words) == 1 or not (count.isdigit() and len(count) < 8 and int(count) <= MAX_BODY):
            return f"not sent: {words[0]} must end with a count of bytes, at most {MAX_BODY:,}, else the connection ends"
        if len(body) != int(count):
            return f"not sent: the body must have the {int(count)} bytes that the line announces, got {len(body)}"
    elif body:
        return "not sent: only LOAD and LOADMIX have a body"
    return None
