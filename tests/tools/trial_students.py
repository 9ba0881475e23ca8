"""Students for the trials of a class: each has a lesson of its own, and uses a connection of bytes, a prompt or a page.

A student whose connection ends comes back until it has a reply. The step of the session shows whether a command without reply was done.
"""
import contextlib
import re
import select
import socket
import subprocess
import threading
import time
from typing import Any, Callable, List, Optional, Protocol, Tuple

from browsing import Browser
from class_pages import PagedLesson, link_of
from lessons import Lesson
from support import PROGRAM, SECONDS
from terminals import PROMPT, Terminal, environment

SECONDS_BETWEEN_TRIES = SECONDS_BETWEEN_COMMANDS = 0.02
FLOOD, SECONDS_OF_FLOOD = 2000, 0.5
MORE_LINES = re.compile(rb"OK (?:DUMP|LIST) .*?(\d+)\n")
FIRST_OF_REPLY = re.compile(r"(?:.*> )?((?:OK|ERR) .*)")
# In a page: the replies that it shows, and whether it does not wait for the class.
REPLIES, IS_IN = "document.getElementById('replies').textContent", "document.getElementById('waits').textContent === ''"


def commands_of(number: int, rounds: int = 6) -> List[bytes]:
    """The lesson of a student: 2 to 32 atoms and its own numbers of steps, there and back."""
    count = 2 + number * 7 % 31
    rows = [f"Ar {1.5 * (atom % 4)} {1.5 * (atom // 4 % 4)} {1.5 * (atom // 16)}\n" for atom in range(count)]
    body = f"{count}\ntrial\n{''.join(rows)}"
    steps = [number * (at + 2) % 9 + 1 for at in range(rounds)]
    turns = [line for n in steps for line in (f"ADVANCE a {n}\n", f"SHOW a {n % count}\n", "MEASURE a\n", "REVERSE a\n")]
    return [f"LOAD a 16 1 131072 rest {len(body)}\n{body}".encode(), *(line.encode() for line in turns)]


def replies_alone(commands: List[bytes]) -> List[bytes]:
    """The replies of a program to these commands alone. Only the last one may have more lines."""
    done = subprocess.run([PROGRAM, "run"], input=b"".join(commands), capture_output=True, timeout=SECONDS, check=True)
    lines = done.stdout.splitlines(keepends=True)
    before = len(commands) - 1
    return [*lines[:before], b"".join(lines[before:])]


def step_in(reply: bytes) -> Optional[int]:
    """The step in the reply to a command that changes it, or None."""
    verb, *words = reply.split()[1:]
    return int(words[1]) if verb in (b"LOAD", b"ADVANCE", b"REVERSE") else None


class Way(Protocol):
    """How a student reaches the class.

    asked  when the last command was sent
    """

    asked: float

    def ask(self, command: bytes) -> bytes:
        """The reply to a command. Raises OSError if there is no connection, or it has ended. The next call uses another one."""

    def close(self) -> None:
        ...


class Raw:
    """A connection of bytes over TLS."""

    def __init__(self, lesson: Lesson, name: str):
        self.lesson, self.name = lesson, name
        self.hello = f"HELLO {name} {lesson.tokens()[name]}\n".encode()
        self.stream: Any = None
        self.asked = 0.0

    def ask(self, command: bytes) -> bytes:
        try:
            self._begin()
            self.asked = time.monotonic()
            self.stream.sendall(command)
            return self.reply()
        except OSError:
            self.close()
            raise

    def _begin(self) -> None:
        if self.stream is None:
            self.stream = self.lesson.raw(self.hello)
            if self.reply() != f"OK HELLO {self.name}\n".encode():
                raise ConnectionError("not let in")

    def reply(self) -> bytes:
        """The next reply, with all of its lines."""
        lines, left = [], 1
        while left:
            lines.append(self._line())
            found = MORE_LINES.fullmatch(lines[0]) if len(lines) == 1 else None
            left += int(found[1]) - 1 if found else -1
        return b"".join(lines)

    def _line(self) -> bytes:
        line = b""
        while not line.endswith(b"\n"):
            if not (byte := self.stream.recv(1)):
                raise ConnectionError("it has ended")
            line += byte
        return line

    def close(self) -> None:
        if self.stream is not None:
            self.stream.close()
            self.stream = None


class AtPrompt:
    """The prompt of the client at a terminal."""

    def __init__(self, lesson: Lesson, name: str):
        self._prompt = f"\n{name}> "
        words = [*PROMPT, f"127.0.0.1:{lesson.port}", name, "--fingerprint", lesson.fingerprint()]
        self._terminal = Terminal(words, environment(LJSERVE_TOKEN=lesson.tokens()[name]), cwd=lesson.folder)
        self._terminal.until(self._prompt)
        self.asked = 0.0

    def ask(self, command: bytes) -> bytes:
        self.asked = time.monotonic()
        self._terminal.type(command.decode().replace("\n", "\r"))
        lines = self._terminal.until(self._prompt).split("\n")[:-1]
        first = next((at for at, line in enumerate(lines) if FIRST_OF_REPLY.fullmatch(line)), None)
        if first is None:
            raise ConnectionError(lines)
        more = [line for line in lines[first + 1 :] if not line.startswith("  ")]
        found = FIRST_OF_REPLY.fullmatch(lines[first])
        return "".join(f"{line}\n" for line in [found[1] if found else "", *more]).encode()

    def close(self) -> None:
        self._terminal.close()


class OnPage:
    """The page of the slip's link in a browser of some width. Commands are typed into its box."""

    def __init__(self, lesson: PagedLesson, name: str, width: int):
        self.browser = Browser(width, 900, "--ignore-certificate-errors")
        self.asked = 0.0
        with contextlib.ExitStack() as undo:
            undo.callback(self.close)
            metrics = {"width": width, "height": 900, "deviceScaleFactor": 1, "mobile": width < 500}
            self.browser.ask("Emulation.setDeviceMetricsOverride", **metrics)
            self.browser.open("#".join(link_of(lesson.slips(), name)))
            self.browser.wait_for("document.getElementById('about')?.textContent.includes(' atoms, ')")
            undo.pop_all()

    def ask(self, command: bytes) -> bytes:
        browser, text = self.browser, command.decode()
        browser.wait_for(f"{IS_IN} && !document.getElementById('send').disabled")
        browser.value("document.getElementById('replies').replaceChildren()")
        browser.value("document.getElementById('state').textContent = ''")
        browser.value(f"document.getElementById('commands').value = {text!r}")
        self.asked = time.monotonic()
        browser.value("document.getElementById('send').click()")
        browser.wait_for("document.getElementById('state').textContent.includes('answered in')")
        line, _, reply = browser.value(REPLIES).partition("\n")
        assert line == text.partition("\n")[0]
        if not reply.startswith(("OK ", "ERR ")):
            raise ConnectionError(reply)
        return "".join(line for line in reply.splitlines(keepends=True) if not line.startswith("  ")).encode()

    def close(self) -> None:
        self.browser.end()


class Student:
    """A student whose commands are done one after the other, over as many connections as that takes."""

    def __init__(self, name: str, number: int, begin: Callable[[], Way], before: Callable[["Student", int], None]):
        """`before` is called before each command."""
        self.name, self._begin, self._before = name, begin, before
        self.commands = commands_of(number)
        self.alone = replies_alone([*self.commands, b"DUMP a\n"])
        self.replies: List[Optional[bytes]] = []
        # When each command was sent last, and when its reply was there.
        self.times: List[Tuple[float, float]] = []
        self.end = b""
        self.fault: Optional[BaseException] = None
        self.way: Optional[Way] = None
        self.thread = threading.Thread(target=self._run, daemon=True)
        self.thread.start()

    def _run(self) -> None:
        try:
            self.way = self._begin()
            for at, command in enumerate(self.commands):
                self._before(self, at)
                self.replies.append(self._replied(at, command))
                self.times.append((self.way.asked, time.monotonic()))
                time.sleep(SECONDS_BETWEEN_COMMANDS)
            self.end = self._asked_again(b"DUMP a\n")
        except BaseException as fault:
            self.fault = fault

    def _replied(self, at: int, command: bytes) -> Optional[bytes]:
        """The reply to a command, or None if it was done and the reply was lost."""
        assert self.way is not None
        steps = [step for reply in self.alone[:at] if (step := step_in(reply)) is not None]
        before, after = steps[-1] if steps else None, step_in(self.alone[at])
        while True:
            try:
                return self.way.ask(command)
            except OSError:
                if after is not None and (step := self._step()) != before:
                    assert step == after, (self.name, command, step)
                    return None

    def _step(self) -> Optional[int]:
        """The step of the session, or None if there is no session."""
        found = re.search(rb"^a (-?\d+) ", self._asked_again(b"LIST\n"), re.M)
        return int(found[1]) if found else None

    def _asked_again(self, command: bytes) -> bytes:
        assert self.way is not None
        while True:
            try:
                return self.way.ask(command)
            except OSError:
                time.sleep(SECONDS_BETWEEN_TRIES)

    def check(self) -> int:
        """Compares all replies with those of a program to these commands alone. Returns how many were lost."""
        self.thread.join(SECONDS)
        assert self.fault is None and not self.thread.is_alive(), (self.name, self.replies, self.fault)
        assert len(self.replies) == len(self.commands)
        assert [told for told in self.replies if told] == [one for one, told in zip(self.alone, self.replies) if told]
        assert self.end == self.alone[-1]
        return self.replies.count(None)

    def seconds_after(self, moment: float) -> float:
        """The seconds from a moment to the first reply to a command that was sent after it."""
        return next((replied for asked, replied in self.times if asked > moment), float("inf")) - moment

    def close(self) -> None:
        if self.way is not None:
            self.way.close()


# Students who misbehave.


class Floods(Raw):
    """Opens more connections than may wait, and sends thousands of commands without reading the replies for a while."""

    def misbehave(self) -> None:
        self.left = []
        for _ in range(30):
            with contextlib.suppress(OSError):
                self.left.append(self.lesson.raw(self.hello))
        sender = threading.Thread(target=self.stream.sendall, args=(b"SHOW a 0\n" * FLOOD,), daemon=True)
        sender.start()
        time.sleep(SECONDS_OF_FLOOD)
        replies = {self.reply() for _ in range(FLOOD)}
        assert len(replies) == 1 and replies.pop().startswith(b"OK SHOW a ")


class Stops(Raw):
    """Stops in the middle of a line. Its connection stays open."""

    def misbehave(self) -> None:
        self.stream.sendall(b"ADVANCE a 10")
        self.left, self.stream = self.stream, None


class Vanishes(Raw):
    """Connects through a relay that stops, without an end to either side."""

    def misbehave(self) -> None:
        self.close()
        self._has_stopped = threading.Event()
        with socket.create_server(("127.0.0.1", 0)) as listener:
            port = listener.getsockname()[1]
            threading.Thread(target=self._pass_on, args=(listener,), daemon=True).start()
            self.stream = self.lesson.raw(self.hello, port=port)
            self.reply()
        self.stream.sendall(b"MEASURE a\n")
        self._has_stopped.set()
        self.left, self.stream = self.stream, None

    def _pass_on(self, listener: socket.socket) -> None:
        """Passes on what both sides send until it stops."""
        here, _ = listener.accept()
        there = socket.create_connection(("127.0.0.1", self.lesson.port), SECONDS)
        self.sides = here, there
        while not self._has_stopped.is_set():
            for source in select.select(self.sides, [], [], SECONDS_BETWEEN_TRIES)[0]:
                (there if source is here else here).sendall(source.recv(1 << 16))
