"""Users of a server, their first lines and the replies to these."""
from shared.program import SLOWNESS, USUAL, Quota
from shared.serving import user_line

# The number of seconds that is at once.
AT_ONCE = 5 * SLOWNESS


def token(name: str) -> str:
    return ("".join(filter(str.isalnum, name)) + "0" * 32)[:32]


def hello(name: str) -> bytes:
    return f"HELLO {name} {token(name)}\n".encode()


def welcome(name: str) -> bytes:
    return f"OK HELLO {name}\n".encode()


def user(name: str, quota: Quota = USUAL) -> bytes:
    """The line of a user in the file of users."""
    return user_line(name, token(name), quota)


def measured(momentum: int) -> bytes:
    """The reply to MEASURE of the session that LOAD loads, after atom 0 was tugged by `momentum` along x."""
    return f"OK MEASURE a 0 2 {momentum} 0 0 {momentum * momentum} -5349132\n".encode()
