"""The HTTPS address of a class, which a prompt uses beside its connection. Answers and scales are sent there, and a text of the teacher
is read there. The certificate must have the fingerprint of the server.

Separate threads make the requests. The prompt waits only for scales that it reads, for a moment.
"""
from __future__ import annotations

import http.client
import json
import queue
import ssl
import threading
import time
from typing import Any, Dict, List, Optional, Tuple

from ..errors import ClientError
from ..tls import Trust

SECONDS = 3.0
# The class answers a wait for a text of the teacher after 25 s at the latest.
SECONDS_OF_A_WAIT = 40.0
SECONDS_BETWEEN_TRIES = 3.0
SECONDS_AT_THE_END = 2.0
MAX_ANSWER = 1 << 18
# Tried again: too many wrong tokens from this address, or a fault of the class.
LATER = (429, 500, 502, 503)


class NotReached(ClientError):
    """Why the address does not answer."""


def cause_of(error: Exception) -> str:
    """Why there is no answer, in few words."""
    if isinstance(error, (http.client.HTTPException, ssl.SSLEOFError, ConnectionResetError, BrokenPipeError)):
        return "it has ended the connection"
    if isinstance(error, TimeoutError):
        return "nothing is heard of it"
    return str(getattr(error, "strerror", None) or error)


class ClassPage:
    """The address of a class, for a student with a token."""

    def __init__(self, host: str, port: int, name: str, token: str, fingerprint: str):
        self._where, self._trust = (host, port), Trust(None, fingerprint)
        self._who = {"name": name, "token": token}
        self._sends: "queue.Queue[Tuple[str, Dict[str, Any]]]" = queue.Queue()
        self._scales: Optional[Dict[str, str]] = None
        self.line = ""
        self._line_told = ""
        self._troubles: List[str] = []
        self._is_down = False
        for work in (self._send_on, self._listen_on):
            threading.Thread(target=work, daemon=True).start()

    # What the prompt calls.

    def news(self) -> List[str]:
        """The messages that were not returned before."""
        told, self._troubles = self._troubles, []
        line = self.line
        if line != self._line_told:
            self._line_told = line
            told = [*told, f"the teacher: {line}"] if line else told
        return told

    def answer(self, lesson: str, step: str, text: str) -> None:
        """Queues an answer to a question for sending."""
        self._sends.put(("answer", {"lesson": lesson, "step": step, "answer": text}))

    def keep_scale(self, session: str, text: str) -> None:
        """Queues the scale of a session, for the class to store."""
        self._sends.put(("scale", {"session": session, "scale": text}))

    def scale_of(self, session: str) -> Optional[str]:
        """The scale that the class has stored for a session. All are read once per connection."""
        if self._scales is None:
            self._scales = {}
            try:
                told = self._post("scales", {})[1].get("scales")
                self._scales = {str(name): str(text) for name, text in told.items()} if isinstance(told, dict) else {}
            except NotReached as error:
                self._note_down(error)
        return self._scales.get(session)

    def renew(self) -> None:
        """Discards the scales, which may differ over a new connection."""
        self._scales = None

    def close(self) -> List[str]:
        """Waits a moment until everything is sent. Returns a message if it is not."""
        until = time.monotonic() + SECONDS_AT_THE_END
        while self._sends.unfinished_tasks and not self._is_down and time.monotonic() < until:
            time.sleep(0.02)
        left = self._sends.unfinished_tasks
        return ["the page of the class has not answered: not all answers were sent"] if left else []

    # What the threads do.

    def _send_on(self) -> None:
        """Sends the queue in order, each entry until it is taken."""
        while True:
            path, words = self._sends.get()
            while not self._is_taken(path, words):
                time.sleep(SECONDS_BETWEEN_TRIES)
            self._sends.task_done()

    def _is_taken(self, path: str, words: Dict[str, Any]) -> bool:
        """Whether an entry is accepted, or refused for good, which adds a message."""
        try:
            status, told = self._post(path, words)
        except NotReached as error:
            self._note_down(error)
            return False
        if status != 200 and told.get("why") not in self._troubles:
            self._troubles.append(told["why"])
        return True

    def _listen_on(self) -> None:
        """Waits for texts of the teacher, until they are refused, for example to a wrong token."""
        status = 200
        while status == 200:
            try:
                status, told = self._post("line", {"known": self.line}, SECONDS_OF_A_WAIT)
                self.line = str(told.get("teacher", self.line))
            except NotReached as error:
                self._note_down(error)
                time.sleep(SECONDS_BETWEEN_TRIES)

    def _note_down(self, error: NotReached) -> None:
        """Adds a message that there is no answer, once until there is one."""
        if not self._is_down:
            self._troubles.append(f"the page of the class does not answer ({error}); the lesson goes on, and answers are sent later")
        self._is_down = True

    def _post(self, path: str, words: Dict[str, Any], seconds: float = SECONDS) -> Tuple[int, Dict[str, Any]]:
        """The status and the fields of an answer; of a refusal the field `why`. Raises `NotReached`."""
        connection = http.client.HTTPSConnection(*self._where, timeout=SECONDS, context=self._trust.context)
        try:
            connection.connect()
            self._trust.check(connection.sock)
            connection.sock.settimeout(seconds)
            host, port = self._where
            origin = f"https://[{host}]:{port}" if ":" in host else f"https://{host}:{port}"
            connection.request(
                "POST", f"/{path}", json.dumps({**self._who, **words}), {"Origin": origin, "Host": origin[len("https://") :]}
            )
            answer = connection.getresponse()
            status, text = answer.status, answer.read(MAX_ANSWER).decode("utf-8", "replace")
            if status in LATER:
                raise NotReached(text[:200] or f"status {status}")
            told = json.loads(text) if status == 200 else {"why": f"the page of the class: {text[:200]}"}
            self._is_down = False
            return status, told if isinstance(told, dict) else {}
        except (OSError, http.client.HTTPException, ValueError) as error:
            raise NotReached(cause_of(error)) from error
        finally:
            connection.close()
