"""The connection of a prompt, which is opened again if it has ended."""
from __future__ import annotations

from typing import TYPE_CHECKING, Callable, List, Optional, Set

from ..user import User

if TYPE_CHECKING:
    from .class_page import ClassPage


class Link:
    """A user's connection to a server, or to a program of its own; and the page of the class, if the server belongs to one."""

    def __init__(self, open_user: Callable[[], User], after_end: str, page: Optional[ClassPage] = None):
        self._open = open_user
        self.user = open_user()
        self.after_end, self.page = after_end, page
        self._had: Set[str] = set()
        self._lost: List[str] = []

    def ready(self) -> User:
        """The user, over a new connection if the last one has ended."""
        if self.user.closed:
            self._had |= self.user.session_names if self.user.name is not None else set()
            self.user = self._open()
        if self._had:
            self._lost += sorted(self._had - {row.name for row in self.user.sessions()})
            self._had = set()
        return self.user

    def lost(self) -> List[str]:
        """The sessions that the server no longer had when a new connection began, each returned once."""
        lost, self._lost = self._lost, []
        return lost

    def settled_user(self) -> Optional[User]:
        """The user, if no command is under way, so that it can be asked without a wait; else None."""
        return self.user if self.user._is_free else None

    def news(self) -> List[str]:
        """The new messages of the page of the class."""
        return [] if self.page is None else self.page.news()

    def line(self) -> str:
        """The text of the teacher that is shown now."""
        return "" if self.page is None else self.page.line

    def close(self) -> None:
        """Closes the connection."""
        self.user.close()
