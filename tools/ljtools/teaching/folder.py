"""The folder of a class: its users, its certificate, and the command line that began it."""
import contextlib
import hashlib
import json
import os
import pathlib
import ssl
from typing import Any, Dict, Iterator, List, Optional, Sequence

from ..certificates import certificate_in, fingerprint_of, made_certificate
from ..keeping.accounts import accounts_at
from ..keeping.place import FILE, Place, place_of
from ..keeping.roll import opened_roll
from ..keeping.store import StoreFault
from ..user_files import MAX_STORED, Fault, User, counted, write_secrets

NOTE, CERTIFICATE, PUBLIC = "class.json", "class.pem", "class.crt"
ANOTHER = "use another folder by --keep FOLDER"


class Asked:
    """The users that a command line asks for: names and a quota, or a file. Files are compared by a hash of their users."""

    def __init__(self, names: Sequence[str], quota: Sequence[int], file: Optional[str]):
        """Raises Fault if the file cannot be read or something is wrong with it."""
        self.file = file
        accounts = accounts_at(pathlib.Path(file), MAX_STORED) if file is not None else {}
        rows = "".join(f"{name} {each.token.decode()} {each.quota}\n" for name, each in sorted(accounts.items()))
        self.names = [*names, *accounts]
        self.quota = list(quota)
        self.known = {"names": self.names, "quota": self.quota, "file": file and hashlib.sha256(rows.encode()).hexdigest()}

    def is_none(self) -> bool:
        return not self.names


def shown_users(known: Dict[str, Any]) -> str:
    """The users of a note, in a few words."""
    names = known["names"]
    listed = ", ".join(names) if len(names) < 4 else f"{names[0]}, {names[1]}, .., {names[-1]}"
    return f"{counted(len(names), 'user')}{' of a file' if known['file'] else ''} ({listed})"


class Kept:
    """The folder of a class, which one class uses at a time."""

    def __init__(self, path: pathlib.Path):
        self.path = path
        self._note = path / NOTE

    def note(self) -> Optional[Dict[str, Any]]:
        """The users that the class was begun with, or None if it is new. Raises Fault if the folder has something else."""
        try:
            known = json.loads(self._note.read_text())
            if {"names", "quota", "file"} <= set(known):
                return dict(known)
            raise self._no_class()
        except FileNotFoundError:
            is_new = not self.path.exists() or self.path.is_dir() and not any(self.path.iterdir())
            if is_new:
                return None
            raise self._no_class() from None
        except OSError as error:
            raise Fault(f"cannot read {self._note}: {error.strerror}") from error
        except (ValueError, TypeError):
            raise self._no_class() from None

    def _no_class(self) -> Fault:
        what = "what `tools/keep` keeps for other users" if (self.path / FILE).exists() else "something else"
        return Fault(f"cannot use {self.path}: it has {what}, and no class; {ANOTHER}")

    def check(self, asked: Asked) -> bool:
        """Whether the class is new. Changes nothing. Raises Fault if the folder has a class of other users."""
        known = self.note()
        if known is None and asked.is_none():
            raise Fault(f"cannot begin: {self.path} has no class yet; use COUNT, NAME.. or --users FILE")
        if known is None or asked.is_none():
            return known is None
        if any(known[word] != asked.known[word] for word in asked.known if not (word == "quota" and asked.file)):
            has, wants = shown_users(known), shown_users(asked.known)
            cure = f"use `tools/class --keep {self.path}` to go on with it (`a NAME` adds a user there)"
            if has == wants and asked.file:
                wants = f"the users of {asked.file} as they are now"
            elif has == wants:
                has, wants = (f"the quota {' '.join(map(str, each['quota']))}" for each in (known, asked.known))
            raise Fault(f"cannot begin with {wants}: {self.path} has a class of {has}; {cure}, or {ANOTHER}")
        return False

    def begin(self, asked: Asked) -> Place:
        """Takes the folder for this class alone, after `check`. Raises Fault if another class uses it."""
        try:
            self.path.mkdir(mode=0o700, parents=True, exist_ok=True)
        except OSError as error:
            raise Fault(f"cannot make {self.path}: {error.strerror}") from error
        if not self._note.exists():
            write_secrets({str(self._note): json.dumps(asked.known) + "\n"}, False)
        try:
            return place_of(str(self.path.resolve()), True)
        except StoreFault as fault:
            raise Fault(str(fault)) from fault
        except Fault as fault:
            in_use = f"cannot use {self.path}: another class runs there; end that one, or {ANOTHER}"
            raise Fault(in_use if str(fault).endswith("in use") else str(fault)) from fault

    @contextlib.contextmanager
    def _roll(self) -> Iterator[Any]:
        with opened_roll(str(self.path), False) as roll:
            yield roll

    def users(self) -> List[User]:
        """The users with their tokens. Raises Fault."""
        with self._roll() as roll:
            return list(roll.users())

    def put_users(self, asked: Asked) -> None:
        """Stores the users of a new class, unless there are users already."""
        if self.users():
            return
        with self._roll() as roll:
            if asked.file is not None:
                roll.put(asked.file)
            else:
                roll.add(asked.names, asked.quota)

    def add(self, name: str) -> None:
        """Adds a user with the quota of the class. Raises Fault if the name is taken."""
        with self._roll() as roll:
            roll.add([name], (self.note() or {})["quota"])

    def renew(self, name: str) -> None:
        """Gives a user a new token. Raises Fault if there is no such user."""
        with self._roll() as roll:
            roll.add([name], None)

    # Its certificate.

    def make_certificate(self, host: str) -> None:
        """Makes a certificate, whose fingerprint is on the slips, unless there is one. Raises Fault."""
        if not (self.path / CERTIFICATE).exists():
            try:
                made = made_certificate([host])
            except Fault as fault:
                raise Fault(f"{fault}, or --plain, with which the network sees the tokens") from fault
            write_secrets({str(self.path / CERTIFICATE): made, str(self.path / PUBLIC): certificate_in(made)}, True)

    def fingerprint(self) -> str:
        """The fingerprint of the certificate. Raises Fault if the file has none."""
        try:
            return fingerprint_of((self.path / CERTIFICATE).read_text())
        except (OSError, ValueError) as error:
            raise self._certificate_fault(error) from error

    def context(self) -> ssl.SSLContext:
        """The TLS context of connections. Raises Fault if the certificate cannot be used."""
        context = ssl.SSLContext(ssl.PROTOCOL_TLS_SERVER)
        context.minimum_version = ssl.TLSVersion.TLSv1_2
        try:
            context.load_cert_chain(self.path / CERTIFICATE)
        except (OSError, ValueError) as error:
            raise self._certificate_fault(error) from error
        return context

    def _certificate_fault(self, error: Exception) -> Fault:
        file = self.path / CERTIFICATE
        return Fault(f"cannot use {file} ({error}): remove it, and another one is made, for which new slips have to be handed out")


def folder_beside(slips: str) -> pathlib.Path:
    """The default folder of a class."""
    return pathlib.Path(os.path.dirname(slips) or ".") / "class-kept"
