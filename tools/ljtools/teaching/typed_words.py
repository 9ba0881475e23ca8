"""Lines typed into the page of a class: commands, and the prompt's words of physics. A LOAD may name a file of the class' lesson."""
from __future__ import annotations

import re
from decimal import Decimal
from typing import Callable, Dict, List, Optional

from ljclient import Refused, User
from ljclient.errors import reply_of
from ljclient.prompt.dialogue import in_capitals, lines_of
from ljclient.prompt.loading import Fault, from_file, is_load, line_of, words_of
from ljclient.prompt.sessions import asked, in_words, note_scale
from ljclient.prompt.words import Words
from ljclient.stepping import MAX_STEPS
from ljclient.view.typed import fault_of

# The bytes of a file that a LOAD may name, or None if there is no such file.
BodyOf = Callable[[str], Optional[bytes]]
LENGTH = re.compile(rb"[0-9]+e-9\Z")
# A word of the prompt that reads a file of its machine.
OF_A_FILE = "load_saved"
NO_FILE = "a page loads no file of this name; use LOAD with the count of the bytes that follow, or load the file at a prompt"


def number_in(word: bytes) -> str:
    """A number of a load, written without an exponent."""
    return format(Decimal(word.decode()).normalize(), "f")


def words_of_load(text: bytes) -> List[str]:
    """The words of the load of a session, with lengths in the form of a LOAD, and a count."""
    return [number_in(word) if LENGTH.match(word) else word.decode() for word in text.split()] + ["0"]


class TypedWords:
    """The words that are typed into the pages of a student, over one connection."""

    def __init__(self, user: User, loads: Callable[[], Dict[bytes, bytes]], body_of: BodyOf):
        """`loads` returns the lines by which the sessions were loaded."""
        self._user, self._loads, self._body_of = user, loads, body_of
        self._words = Words(self)
        self._told: List[str] = []

    def typed(self, line: str, body: str) -> List[str]:
        """The lines of the reply to a line, or why it is not sent."""
        self._told = []
        try:
            return self._done(in_capitals(line), body.encode())
        except Refused as refusal:
            return [*self._told, reply_of(refusal), *([f"  {refusal.meaning}"] if refusal.meaning else [])]
        except Fault as fault:
            return [*self._told, f"not sent: {fault}"]

    def _done(self, line: str, body: bytes) -> List[str]:
        load = from_file(line)
        if load is not None:
            found = self._body_of(load.path)
            if found is None:
                raise Fault(NO_FILE)
            line, body = line_of(load, found), found
        if (fault := fault_of(line, body)) is not None:
            return [fault]
        deed = self._words.deed_of(line)
        self._know(words_of(line)[1:2])
        if words_of(line)[:1] != [OF_A_FILE]:
            self._words.begin(self._user, line)
        told = deed(self._user) if deed else self.answer(self._user, line, body)
        return [*self._told, *told]

    def _know(self, names: List[str]) -> None:
        """Notes the scales of sessions that were loaded over another connection."""
        for name in names:
            text = self._loads().get(name.encode("utf-8", "replace"))
            if text is not None and self._user._known_of(name).scale is None:
                note_scale(self._user, words_of_load(text))

    # What the words need of a dialogue.

    def tell(self, *lines: str) -> None:
        self._told += lines

    def answer(self, user: User, line: str, body: bytes, is_plan: bool = False) -> List[str]:
        """The lines of the answer to a command."""
        reply = user.ask(line, body) if is_load(line) else asked(user, line, body)
        if is_load(line):
            note_scale(user, words_of(line))
        return [*lines_of(reply), *(in_words(user, reply) if words_of(line)[:1] == ["MEASURE"] else [])]

    def may_take(self, name: str, steps: int) -> bool:
        """Whether so many steps are to be made. Nobody is asked here."""
        if steps > MAX_STEPS:
            raise Fault(f"a page goes by at most {MAX_STEPS:,} steps at once, got {steps:,}")
        return True
