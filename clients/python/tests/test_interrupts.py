"""Interrupts from the keyboard that come at a bad moment: just before a wait, and while another one is told."""
import io
import os
import signal
import sys
import threading
import time
from typing import Any, Iterator

import pytest

from ljclient import connect, run
from ljclient.prompt.dialogue import TerminalTalk
from ljclient.prompt.link import Link
from ljclient.prompt.reading import PlainReader, TerminalInput
from support import PROGRAM, SECONDS, TOKEN, interruptible, peer, read_line, says, stays


@pytest.fixture(autouse=True)
def interrupts() -> Iterator[Any]:
    with interruptible():
        yield


def interrupt_beside() -> None:
    """Interrupts this process by the thread that calls. A wait of the main thread does not end by that, just as if the interrupt
    had come before it."""
    signal.pthread_kill(threading.get_ident(), signal.SIGINT)


def test_one_before_a_wait_for_a_reply() -> None:
    def interrupt(connection: Any, stop: Any) -> None:
        read_line(connection)
        interrupt_beside()
        stays(connection, stop)

    with peer(says(then=interrupt)) as port:
        user, begun = connect("127.0.0.1", port, "ann", TOKEN, timeout=SECONDS), time.monotonic()
        with pytest.raises(KeyboardInterrupt):
            user.sessions()
        assert time.monotonic() - begun < SECONDS / 2
        user._wire.close()


class Shown(io.StringIO):
    """What is shown. Something is done when all that is written is to be seen."""

    def __init__(self, then: Any) -> None:
        super().__init__()
        self.then = then

    def flush(self) -> None:
        self.then(self.getvalue())


def test_one_before_a_line_is_read(monkeypatch: pytest.MonkeyPatch) -> None:
    prompted = threading.Event()

    def interrupt() -> None:
        if prompted.wait(SECONDS):
            interrupt_beside()

    threading.Thread(target=interrupt, daemon=True).start()
    source, sink = os.pipe()
    end = threading.Timer(SECONDS, os.write, [sink, b"\n"])
    with open(source) as stdin, open(sink, "w"):
        monkeypatch.setattr(sys, "stdin", stdin)
        monkeypatch.setattr(sys, "stdout", Shown(lambda text: prompted.set()))
        end.start()
        with pytest.raises(KeyboardInterrupt):
            PlainReader().command("> ")
        assert end.is_alive()
        end.cancel()


class Typed(PlainReader):
    """Lines as if they were typed. None is an interrupt."""

    def __init__(self, *lines: Any) -> None:
        self._lines = list(lines)

    def command(self, prompt: Any) -> Any:
        if not self._lines:
            raise EOFError
        line = self._lines.pop(0)
        if line is None:
            raise KeyboardInterrupt
        return line


def test_one_while_another_is_told_ends_nothing() -> None:
    left = [signal.SIGINT]

    def interrupt_once(text: Any) -> None:
        if text == "\n" and left:
            signal.raise_signal(left.pop())

    with run(PROGRAM) as user:
        out = Shown(interrupt_once)
        reader = Typed(None, "LIST")
        assert TerminalTalk(Link(lambda: user, ""), out).run(TerminalInput("> ", reader, print)) == 0
        assert out.getvalue() == "\nOK LIST 0\n"
