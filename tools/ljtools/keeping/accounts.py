"""Who may connect: the users of a file or a store, and the first line of a connection."""
import hmac
import pathlib
from typing import Dict, Iterable, NamedTuple, Optional, Sequence

from ..user_files import MAX_USERS, rows_of
from .items import MAX_LINE, words_of
from .store import Base, Row

DENIED = b"ERR 01 DENIED\n"


class Account(NamedTuple):
    token: bytes
    quota: str


Accounts = Dict[str, Account]


def accounts_at(path: pathlib.Path, most: int = MAX_USERS) -> Accounts:
    """The users of a file, at most `most`. Raises Fault if the file cannot be read or is faulty."""
    return {row[0].decode(): Account(row[1], b" ".join(row[2:]).decode()) for row in rows_of(str(path), most)}


class Changes(NamedTuple):
    """The changes of a store's users up to change `number`: new and changed users, removed users, and users with data to put
    aside, who may have been added again."""

    number: int
    accounts: Accounts
    gone: Sequence[str]
    aside: Sequence[str]


def changes_behind(base: Base, number: int) -> Changes:
    """The changes of a store's users after change `number`. A store that never had users has none."""
    rows = base.rows("select name, token, quota, removed, changed from account where changed > ? order by changed", (number,))
    gone, aside = [row[0] for row in rows if not row[1]], [row[0] for row in rows if row[3]]
    return Changes(rows[-1][4] if rows else number, accounts_of(rows), gone, aside)


def accounts_of(rows: Iterable[Row]) -> Accounts:
    return {name: Account(token.encode(), quota) for name, token, quota, *_ in rows if token}


def accounts_in(base: Base) -> Accounts:
    """The users of a store, by name."""
    return accounts_of(base.rows("select name, token, quota from account order by name"))


def is_one(base: Base, name: str, account: Account) -> bool:
    """Whether a store has this user."""
    return accounts_of(base.rows("select name, token, quota from account where name = ?", (name,))) == {name: account}


def user_of(line: bytes, accounts: Accounts) -> Optional[str]:
    """The user named by a first line without line feed, if its token fits."""
    words = words_of(line)
    if len(line) > MAX_LINE or len(words) != 3 or words[0] != b"HELLO":
        return None
    name = words[1].decode(errors="replace")
    token = accounts[name].token if name in accounts else b""
    return name if hmac.compare_digest(token, words[2]) and token else None
