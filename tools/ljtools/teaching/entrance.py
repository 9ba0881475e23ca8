"""Access to the pages of a class: for students by the tokens of their slips, and for the wall by its token. A browser that has sent a
token gets a cookie in its place. Only this class makes such cookies, and they are invalid once the token has changed."""
import base64
import hashlib
import hmac
import pathlib
import secrets
from typing import Callable, Mapping, Optional

from ..keeping.accounts import Account
from ..user_files import Fault, write_secrets

KEY, KEY_BYTES, WALL_BYTES = "page.key", 32, 18
# Browsers accept this prefix only from this address, over TLS.
STUDENT, WALL = "__Host-ljserve", "__Host-ljserve-wall"
ATTRIBUTES = "Path=/; Secure; HttpOnly; SameSite=Strict"
NOBODY = Account(b"", "0 0 0")


def key_in(folder: pathlib.Path) -> bytes:
    """The key of a class' cookies, which is made if there is none. Raises Fault if it cannot be read or written."""
    file = folder / KEY
    try:
        return bytes.fromhex(file.read_text())
    except FileNotFoundError:
        key = secrets.token_bytes(KEY_BYTES)
        write_secrets({str(file): key.hex()}, False)
        return key
    except (OSError, ValueError) as error:
        raise Fault(f"cannot use {file} ({error}): remove it, and another one is made") from error


class Entrance:
    """Checks tokens, and makes and checks cookies."""

    def __init__(self, key: bytes, accounts: Callable[[], Mapping[str, Account]]):
        self._key, self._accounts = key, accounts

    @property
    def wall_token(self) -> str:
        """The token of the wall."""
        return base64.urlsafe_b64encode(self._sealed("token of the wall")[:WALL_BYTES]).decode()

    def is_student(self, name: object, token: object) -> bool:
        """Whether there is a student with this token."""
        account = self._accounts().get(str(name), NOBODY)
        return bool(account.token) and hmac.compare_digest(account.token, str(token).encode("utf-8", "replace"))

    def is_wall(self, token: object) -> bool:
        return hmac.compare_digest(self.wall_token.encode(), str(token).encode("utf-8", "replace"))

    def cookie_of(self, name: str) -> str:
        """The cookie for a student's browser."""
        return f"{STUDENT}={self._value_of(name)}; {ATTRIBUTES}"

    def wall_cookie(self) -> str:
        """The cookie for the browser of the wall."""
        return f"{WALL}={self._sealed('wall').hex()}; {ATTRIBUTES}"

    @staticmethod
    def no_cookie() -> str:
        """The cookie that removes a student's cookie."""
        return f"{STUDENT}=; Max-Age=0; {ATTRIBUTES}"

    def student_of(self, cookies: Mapping[str, str]) -> Optional[str]:
        """The student to whom the cookie belongs, if it is valid."""
        value = cookies.get(STUDENT, "")
        name = value.partition(".")[0]
        if name not in self._accounts() or not hmac.compare_digest(value.encode("utf-8", "replace"), self._value_of(name).encode()):
            return None
        return name

    def has_wall(self, cookies: Mapping[str, str]) -> bool:
        """Whether the cookie of the wall is valid."""
        return hmac.compare_digest(cookies.get(WALL, "").encode("utf-8", "replace"), self._sealed("wall").hex().encode())

    def _value_of(self, name: str) -> str:
        token = self._accounts()[name].token.decode()
        return f"{name}.{self._sealed(f'student {name} {token}').hex()}"

    def _sealed(self, text: str) -> bytes:
        return hmac.new(self._key, text.encode(), hashlib.sha256).digest()
