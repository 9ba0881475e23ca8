"""The conversation with a page, message by message: who is let in, what is asked, and what the page waits for."""
from __future__ import annotations

import asyncio
import json
from typing import Any, Callable, Optional, Protocol

from .. import ClientError, User
from ..refusals import Denied
from .connection import Connection
from .talk import Talk
from .users import AtServer, Beside, NoToken

SECONDS_UNTIL_WORD = 1.0


class Page(Protocol):
    """The messages of a page."""

    async def tell(self, text: str) -> None:
        """Sends a message."""

    async def heard(self) -> Optional[str]:
        """The next message, or None at the end."""


async def converse(page: Page, connection: Connection, talk: Talk, users: Beside) -> None:
    """Answers a page until it is gone. If its user cannot be connected, it sends the error and returns."""
    try:
        first = await begun(page, connection, talk, users)
    except ClientError as error:
        return await page.tell(json.dumps({"error": str(error)}))
    if first is None:
        return
    await page.tell(await with_end(first, connection, users))
    while (message := await page.heard()) is not None:
        told = await answered(page, connection, users, lambda user: talk.answer(user, str(message)))
        await page.tell(await with_end(told, connection, users))


async def begun(page: Page, connection: Connection, talk: Talk, users: Beside) -> Optional[str]:
    """The first message to the page, after it was asked for a missing or denied token. None if the page is gone meanwhile."""
    while True:
        try:
            return await done(page, connection, users, talk.begin)
        except (NoToken, Denied) as refusal:
            if not isinstance(users, AtServer) or not await token_is_said(page, users, isinstance(refusal, Denied)):
                return None


async def token_is_said(page: Page, users: AtServer, is_denied: bool) -> bool:
    """Asks a page for the token until it sends one. False if the page is gone meanwhile."""
    account = users.account
    account.token = None
    why: Optional[str] = f"the server has no user {account.name} with this token: type it again" if is_denied else ""
    while why is not None:
        await page.tell(json.dumps(account.asks(why)))
        if (message := await page.heard()) is None:
            return False
        why = None if account.token else account.take(token_in(message))
    return True


def token_in(message: str) -> Any:
    """The token in a message, or None."""
    try:
        wish = json.loads(message)
    except (ValueError, RecursionError):
        return None
    return wish.get("token") if isinstance(wish, dict) else None


async def answered(page: Page, connection: Connection, users: Beside, act: Callable[[User], str]) -> str:
    """The answer to a message. A ClientError becomes an answer, too."""
    try:
        return await done(page, connection, users, act)
    except ClientError as error:
        return json.dumps({"error": str(error)})


async def with_end(told: str, connection: Connection, users: Beside) -> str:
    """An answer. If it is an error and the server or the program has ended, the answer says so."""
    if connection.is_open or "error" not in (answer := json.loads(told)) or (end := await users.end()) is None:
        return told
    return json.dumps({**answer, "error": f"{end} ({answer['error']}).", "ended": True})


async def done(page: Page, connection: Connection, users: Beside, act: Callable[[User], str]) -> str:
    """The result of a call with the user. If it takes long because the user is not connected yet, the page gets a message that says
    what it waits for."""
    task = asyncio.ensure_future(connection.do(act))
    try:
        await tell_waits(page, task, users)
        return await task
    finally:
        task.cancel()


async def tell_waits(page: Page, task: "asyncio.Future[str]", users: Beside) -> None:
    """Sends a page what it waits for until the task is done: after a moment, and again if it waits for something else."""
    told: Optional[str] = None
    while not (await asyncio.wait([task], timeout=SECONDS_UNTIL_WORD))[0]:
        if (text := users.waits()) not in (None, told):
            told = text
            await page.tell(json.dumps({"waits": text}))
