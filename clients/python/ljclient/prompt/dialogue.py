"""The dialogue: each line of the input is sent, and its reply is written unchanged."""
from __future__ import annotations

import contextlib
import os
import re
import time
import warnings
from typing import Callable, Iterator, List, Optional, TextIO, Tuple

from ..errors import ClientError, Refused, printable, reply_of
from ..stepping import MAX_STEPS
from ..interrupts import held
from ..progress import reporter
from ..refusals import Syntax
from ..user import User
from ..wire import Reply
from . import loading
from .commands import names
from .explaining import explained, lost
from .helping import WIDTH, help_on, wrapped
from .link import Link
from .loading import Fault, without_comment, words_of
from .own import checked, deed_of
from .physical import file_of
from .reading import PipeInput, TerminalInput
from .sessions import asked, in_words, session_of
from .shapes import usage_for, usages, wrong_words
from .teaching import VERBS, Teaching
from .waiting import SURE, Waits
from .words import Words

PATIENCE = 0.5
STEPS = re.compile(r"[A-Za-z0-9_-]{1,16} [0-9]{1,7}\Z")
# A START of more than FEW_STEPS steps waits for FIRST_STEPS of them at first.
FEW_STEPS = 1000
FIRST_STEPS = 16
# The user confirms runs of more seconds than these.
LONG = 30.0
ROWS = 24


class Talk:
    """The part that both dialogues share."""

    def __init__(self, link: Link, out: TextIO):
        self.link = link
        self.out = out

    def tell(self, *lines: str) -> None:
        """Writes lines at once. Bytes of a server or of a file that a terminal would obey are written as in `printable`."""
        self.out.write("".join(printable(line) + "\n" for line in lines))
        self.out.flush()

    def show_refusal(self, refusal: Refused) -> None:
        """Writes a refusal as it came."""
        self.tell(reply_of(refusal))

    def ask(self, line: str, body: bytes) -> Reply:
        """The reply to a command. Raises Fault if it cannot be sent."""
        try:
            return self.link.ready().ask(line, body)
        except ValueError as error:
            raise Fault(str(error)) from error


class PipeTalk(Talk):
    """A dialogue of replies only, for programs."""

    def run(self, lines: PipeInput) -> int:
        """Sends each line up to the end of the input, BYE, or a refusal that ends the connection."""
        while (line := lines.line()) is not None:
            self.perform(line, lines)
            if words_of(line) == ["BYE"]:
                return 0
            if self.link.user.closed:
                return 1
        return 0

    def perform(self, line: str, lines: PipeInput) -> None:
        """Sends a line with its body, and writes the reply."""
        sent, body, path = with_file(line)
        if not path:
            body = lines.body(loading.size_of_body(line))
        try:
            self.tell(*lines_of(self.ask(sent, body)))
        except Refused as refusal:
            self.show_refusal(refusal)


class TerminalTalk(Talk):
    """A dialogue of replies with explanations, and bars for long commands."""

    def __init__(self, link: Link, out: TextIO):
        super().__init__(link, out)
        self.waits = Waits(self.note)
        self.words = Words(self)
        self.lesson: Optional[Teaching] = None
        self._lines: Optional[TerminalInput] = None
        self._user: Optional[User] = None

    def note(self, *texts: str) -> None:
        """Writes texts other than replies, in lines that fit the terminal."""
        self.tell(*(line for text in texts for line in wrapped(printable(text.strip()), "  ", "  ", columns_of(self.out))))

    def run(self, lines: TerminalInput) -> int:
        """Carries out each line until the end. Interrupts do not end it, even while another one is reported."""
        goes_on, self._lines = True, lines
        while goes_on:
            with contextlib.suppress(KeyboardInterrupt):
                goes_on = self.take_line(lines)
        return 0

    def take_line(self, lines: TerminalInput) -> bool:
        """Carries out the next line, and reports its errors. Returns whether the prompt continues."""
        line = None
        try:
            self.note(*self.link.news())
            line = lines.line()
            return line is not None and self.perform(line, lines)
        except Fault as fault:
            self.note(f"not sent: {fault}", *lines.stop_files())
        except ClientError as error:
            self.note(as_typed(error, self.waits.awaited), *lines.stop_files())
            self.tell_end()
        except KeyboardInterrupt:
            with held():
                lines.forget()
                self.tell("")
                self.note(*(self.waits.interrupted(self.link.user) if line else []), *lines.stop_files())
        return True

    def perform(self, typed: str, lines: TerminalInput) -> bool:
        """Carries out a line. Returns whether the prompt continues."""
        line = in_capitals(without_comment(typed))
        words = words_of(line)
        verb = words[0].lower() if words else ""
        if verb in ("exit", "quit"):
            return False
        if verb == "help":
            self.page(help_on(" ".join(words[1:]), min(WIDTH, columns_of(self.out))), lines)
        elif verb == ".read":
            lines.read_file(checked(loading.quoted_words(line), ".read FILE")[1])
        elif verb in VERBS:
            self.teach(verb, loading.quoted_words(line))
        elif verb:
            self.send(line, lines)
            self.note(*(self.lesson.after() if self.lesson else []))
        return words != ["BYE"]

    def teach(self, verb: str, words: List[str]) -> None:
        """Begins a lesson, shows its step, or takes an answer to its question."""
        if verb == ".lesson" and len(words) > 1:
            checked(words, ".lesson FILE [RECORD]")
            self.lesson = Teaching(words[1], words[2] if len(words) > 2 else None, self.link.page)
            self.words.hears(self.ready(), self.lesson.session, self.lesson)
        if self.lesson is None:
            raise Fault("cannot do that: no lesson is begun; use `.lesson FILE`, such as examples/lessons/two_atoms.en")
        if verb == ".answer":
            self.note(*self.lesson.answer(" ".join(words[1:])))
        else:
            self.note(*(self.lesson.hint() if verb == ".hint" else self.lesson.shown()))

    def send(self, line: str, lines: TerminalInput) -> None:
        """Sends a command, and shows the reply."""
        deed, path, body = deed_of(line) or self.words.deed_of(line), "", b""
        sent = line
        if deed is None:
            sent, body, path = with_file(line, lambda named: self.lesson.path_of(named) if self.lesson else named)
            if loading.is_load(line) and not path:
                body = typed_body(line, lines)
        user = self.ready()
        with self.warnings_told():
            try:
                with self.waits.during(user, line, is_one=deed is None), self.followed(user, line):
                    told = deed(user) if deed else self.answer(user, sent, body)
                for text in told:
                    (self.note if text.startswith("  ") else self.tell)(text)
            except Refused as refusal:
                if deed:
                    path, body = file_of(line)
                self.refused(refusal, explained(refusal, user, path, body))
                self.note(*lines.stop_files())
                self.tell_end()

    def ready(self) -> User:
        """The user, over a new connection if the last one has ended. The prompt keeps what it knows of the sessions."""
        user = self.link.ready()
        if user is not self._user:
            self._user = user
            if self.link.page is not None:
                self.link.page.renew()
            self.words.listen(user, self.link.page)
            if self.lesson is not None:
                self.words.hears(user, self.lesson.session, self.lesson)
        self.note(*lost(self.link.lost()))
        return user

    @contextlib.contextmanager
    def followed(self, user: User, line: str) -> Iterator[None]:
        """Follows what a line does to sessions. If one of `Words` is broken off in the block, shows what it sent."""
        self.note(*self.words.begin(user, line))
        try:
            yield
        except BaseException as error:
            self.words.broken_off(line, error)
            if not user.unanswered:
                self.words.end(user, line)
            raise
        self.words.end(user, line)

    def refused(self, refusal: Refused, words: List[str]) -> None:
        """Writes a refusal and explains it. If the line itself is wrong, the explanation comes first."""
        if isinstance(refusal, Syntax):
            self.note(*words)
        self.show_refusal(refusal)
        if not isinstance(refusal, Syntax):
            self.note(*words)

    def page(self, told: List[str], lines: TerminalInput) -> None:
        """Writes lines, one screen at a time."""
        rows = max(rows_of(self.out) - 2, 1)
        pages = [told] if lines.is_script or len(told) <= rows + 1 else [told[at : at + rows] for at in range(0, len(told), rows)]
        for number, page in enumerate(pages):
            if number and lines.asked("-- more: Enter goes on, q ends it -- ") in ("q", "quit"):
                return
            self.tell(*page)

    def may_take(self, name: str, steps: int) -> bool:
        """Whether to make so many steps. If they take long, by the rate seen so far, the user at the terminal is asked."""
        seconds = self.waits.seconds_of(name, steps)
        if seconds > LONG and self._lines is not None and not self._lines.is_script:
            self.note(f"{steps} steps of {name} take about {duration(seconds)}, by the rate seen so far")
            if self._lines.asked("  go on? (y/n) ") not in ("y", "yes"):
                self.note("not begun")
                return False
        if self._user is not None:
            self.words.goes(self._user, name, steps)
        return True

    @contextlib.contextmanager
    def warnings_told(self) -> Iterator[None]:
        """Writes the warnings of the client within the block, at its end."""
        with warnings.catch_warnings(record=True) as caught:
            warnings.simplefilter("always")
            yield
        self.note(*(f"warning: {warning.message}" for warning in caught))

    def answer(self, user: User, line: str, body: bytes, is_plan: bool = False) -> List[str]:
        """Sends a command, and returns the lines of the reply. In a plan of several, nobody is asked if an ADVANCE takes long."""
        words = words_of(line)
        if are_steps("ADVANCE", words):
            return self.advance(user, words[1], words[2], is_plan) if is_plan or self.may_take(words[1], int(words[2])) else []
        if are_steps("START", words):
            return self.start(user, *words[1:]) if self.may_take(words[1], int(words[2])) else []
        try:
            reply = asked(user, line, body)
        except ValueError as error:
            raise Fault(str(error)) from error
        self.waits.note_answer(line)
        return [*lines_of(reply), *(in_words(user, reply) if words[:1] == ["MEASURE"] else [])]

    def tell_end(self) -> None:
        """Writes what happens next if the connection has ended."""
        if self.link.user.closed:
            self.note(self.link.after_end)

    def advance(self, user: User, name: str, steps: str, is_plan: bool = False) -> List[str]:
        """Advances by some steps, with a bar if it takes a while. An interrupt from the keyboard ends it after a piece, unless
        steps were started before: these are waited for first. It also ends a plan of several commands."""
        before, told = time.monotonic(), []
        try:
            with reporter(True, name, delay=PATIENCE) as report:
                step = session_of(user, name).advance(int(steps), progress=report or False)
            self.waits.note_pace(name, int(steps), time.monotonic() - before)
        except KeyboardInterrupt:
            if user.unanswered and self.waits.are_started(name):
                raise
            told = ["", "  interrupted: this is where it has come to"]
            step = session_of(user, name).get_step()
        self.waits.note_answer(f"ADVANCE {name}")
        if told and is_plan:
            self.tell(*told, f"OK ADVANCE {name} {step}")
            raise KeyboardInterrupt
        return [*told, f"OK ADVANCE {name} {step}"]

    def start(self, user: User, name: str, steps: str) -> List[str]:
        """Starts some steps. If they are many, waits for the first ones, to measure the time of a step."""
        total, made = int(steps), 0
        if total > FEW_STEPS and not self.waits.knows_pace(name):
            made = self.tried(user, name, total)
            if not self.may_take(name, total - made):
                self.note(f"{made} steps were made to see how long a step takes: `undo` takes them back")
                return []
        target = session_of(user, name).start(total - made)
        self.waits.note_start(name, total - made, target)
        return [f"OK START {name} {target}"]

    def tried(self, user: User, name: str, total: int) -> int:
        """Makes the first of so many steps, until the rest takes less than LONG or their time is sure. Returns how many were made."""
        made, piece, is_known = 0, FIRST_STEPS, False
        while not is_known and made + piece < total:
            before = time.monotonic()
            session_of(user, name).advance(piece, progress=False)
            seconds = time.monotonic() - before
            self.waits.note_pace(name, piece, seconds)
            made += piece
            is_known = seconds >= SURE or seconds / piece * (total - made) < LONG
            piece *= 4
        return made


def lines_of(reply: Reply) -> List[str]:
    """The lines of a reply as they came."""
    return ["OK " + " ".join(reply.words), *reply.lines]


def as_typed(error: ClientError, typed: str) -> str:
    """The text of an error, with the typed command in place of a piece of it."""
    return str(error).replace(f"`{error.unanswered}`", f"`{typed}`") if error.unanswered else str(error)


def are_steps(verb: str, words: List[str]) -> bool:
    """Whether these words are this command, with no more steps than the server accepts."""
    return words[:1] == [verb] and STEPS.match(" ".join(words[1:])) is not None and int(words[-1]) <= MAX_STEPS


def with_file(line: str, path_of: Callable[[str], str] = str) -> Tuple[str, bytes, str]:
    """The command of the protocol for a line that loads a file, the body, and the path; any other line without them. `path_of` gives
    the path for a file in the line."""
    load = loading.from_file(line)
    if load is None:
        return line, b"", ""
    path = path_of(load.path)
    body = loading.read_body(path)
    return loading.line_of(load, body), body, path


def typed_body(line: str, lines: TerminalInput) -> bytes:
    """The body that follows a LOAD. Raises Fault if the line is wrong: the server would end the connection."""
    if not loading.is_whole(line):
        words = loading.quoted_words(line)
        wrong = [str(each) for each in wrong_words(words, usage_for(words))[:1]]
        use = f"use {' or '.join(f'`{usage}`' for usage in usages(words[0]))}"
        raise Fault("; ".join([*wrong, use]))
    return lines.body(loading.size_of_body(line))


def in_capitals(line: str) -> str:
    """A line with its command in capital letters, as in the protocol."""
    words = words_of(line)
    if not words or words[0].upper() not in names():
        return line
    return line.replace(words[0], words[0].upper(), 1)


def duration(seconds: float) -> str:
    """A duration as text, in h, min or s."""
    unit, name = next((size, name) for size, name in ((3600, "h"), (60, "min"), (1, "s")) if seconds >= 2 * size or size == 1)
    return f"{seconds / unit:.0f} {name}"


def rows_of(out: TextIO) -> int:
    """How many rows the terminal has."""
    try:
        return os.get_terminal_size(out.fileno()).lines or ROWS
    except (OSError, ValueError):
        return ROWS


def columns_of(out: TextIO) -> int:
    """How many columns the terminal has."""
    try:
        return os.get_terminal_size(out.fileno()).columns or WIDTH
    except (OSError, ValueError):
        return WIDTH
