"""The users of a store, which `users --store` changes. If a store has users, only these may connect."""
import contextlib
import os
import pathlib
import sys
from datetime import datetime, timezone
from typing import Iterator, List, Optional, Sequence

from ..user_files import MAX_STORED, Fault, Files, User, Way, new_users, slip_of, warn_of_output, write_secrets
from .accounts import Account, Accounts, accounts_at, accounts_in
from .maintenance import opened
from .place import is_address, shown_place
from .store import Row, Store, StoreFault

ROWS_OF_A_STATEMENT = 500
# Replaces a user of the same name. A removed user keeps its date until its data are put aside, even if it is added again.
IN_PLACE = """on conflict (name) do update set token = excluded.token, quota = excluded.quota, changed = excluded.changed,
removed = case account.removed when '' then excluded.removed else account.removed end"""
ROW = "(?, ?, ?, (select coalesce(max(changed), 0) + 1 from account), ?)"


@contextlib.contextmanager
def opened_roll(place: str, is_made: bool) -> "Iterator[Roll]":
    """The users of a place, which a front may use at the same time. If it raises Fault, nothing is changed."""
    os.umask(0o077)
    try:
        with opened(place, is_made or is_address(place)) as store:
            yield Roll(store, shown_place(place))
    except StoreFault as fault:
        raise Fault(str(fault)) from fault


def users_of(accounts: Accounts) -> List[User]:
    return [User(name, each.token.decode()) for name, each in accounts.items()]


class Roll:
    """The users of a store."""

    def __init__(self, store: Store, place: str):
        self._store, self._place = store, place
        self._there = accounts_in(store.base)

    def lines(self) -> List[str]:
        """Each user with its quota, and what was put aside."""
        aside = [f"{name} is put aside" for name in self._store.names() if "." in name]
        return [*(f"{name} {each.quota}" for name, each in self._there.items()), *aside] or [f"{self._place} has no users"]

    def make(self, names: Sequence[str], quota: Optional[Sequence[int]], way: Way, files: Files) -> None:
        """Adds users with a quota, or without one gives users new tokens. Writes or prints their slips."""
        accounts = self._new(names, quota)
        slips = "\n".join(slip_of(user, way) for user in users_of(accounts))
        write_secrets({files.slips: slips} if files.slips else {}, files.may_replace, lambda: self._put(accounts))
        if not files.slips:
            print(slips, end="", flush=True)
            warn_of_output(sys.stdout, "--slips")

    def add(self, names: Sequence[str], quota: Optional[Sequence[int]]) -> None:
        """Does the same without slips."""
        self._put(self._new(names, quota))

    def _new(self, names: Sequence[str], quota: Optional[Sequence[int]]) -> Accounts:
        self._check(names, quota is None)
        quotas = {name: self._there[name].quota if quota is None else " ".join(map(str, quota)) for name in names}
        return {user.name: Account(user.token.encode(), quotas[user.name]) for user in new_users(names)}

    def users(self) -> List[User]:
        """The users by name, with their tokens, as they were when the store was opened."""
        return users_of(self._there)

    def put(self, file: str) -> None:
        """Adds the users of a file, which replace users of the same names."""
        self._put(accounts_at(pathlib.Path(file), MAX_STORED))

    def change(self, names: Sequence[str], quota: Sequence[int]) -> None:
        """Gives users another quota."""
        self._check(names, True)
        self._put({name: self._there[name]._replace(quota=" ".join(map(str, quota))) for name in names})

    def remove(self, names: Sequence[str]) -> None:
        """Removes users. The fronts that have them put their data aside."""
        self._check(names, True)
        self._write([(name, "", "", f"{datetime.now(timezone.utc):%Y-%m-%dT%H:%M:%S.%f}") for name in names])

    def _check(self, names: Sequence[str], are_there: bool) -> None:
        """Raises Fault unless all users exist, or unless none does if `are_there` is False."""
        for name in names:
            if (name in self._there) != are_there:
                raise Fault(f"{self._place} has {'no user' if are_there else 'a user'} {name}{'' if are_there else ' already'}")

    def _put(self, accounts: Accounts) -> None:
        if len({*self._there, *accounts}) > MAX_STORED:
            raise Fault(f"{self._place} has {len(self._there)} users, and may have {MAX_STORED}: remove some first")
        self._write([(name, each.token.decode(), each.quota, "") for name, each in accounts.items()])

    def _write(self, rows: Sequence[Row]) -> None:
        """Writes names, tokens, quotas and dates, all or none."""
        statements = []
        for first in range(0, len(rows), ROWS_OF_A_STATEMENT):
            some = rows[first : first + ROWS_OF_A_STATEMENT]
            words = f"insert into account values {', '.join([ROW] * len(some))} {IN_PLACE}"
            statements.append((words, tuple(value for row in some for value in row)))
        self._store.base.write(statements)
