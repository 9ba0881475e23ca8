"""What the help of the prompt says: each of its examples is played, and each of its statements that a program can hold is held."""
import io
import pathlib
import re
from typing import Any, Iterator, List

import pytest

from ljclient import refusals, run
from ljclient.prompt import commands, helping
from ljclient.prompt.dialogue import PipeTalk
from ljclient.prompt.link import Link
from ljclient.prompt.reading import PipeInput
from support import DIMER, PROGRAM, dimer, listed
from terminals import ARGON, PROMPT, Terminal, environment

WITH_SESSION = "  Example, with the session of `help LOAD`:"
# What is said at a terminal alone.
HERE = {own.usage: own.example for own in commands.OWN}
LOADS = {form.usage for form in commands.COMMANDS if form.with_file}


def shown_examples() -> Iterator[Any]:
    """Of each form of each command its usage, how its example begins, and the lines of it, as the help shows them."""
    for name in commands.names():
        for shown in "\n".join(helping.help_on(name)).split("\n\n"):
            lines = shown.splitlines()
            if lines[0] in HERE:
                continue
            (start,) = [number for number, line in enumerate(lines) if line.startswith("  Example")]
            yield lines[0], lines[start], [line[4:] for line in lines[start + 1 :]]


EXAMPLES = {usage: (begin, lines) for usage, begin, lines in shown_examples()}


def typed(lines: Any) -> List[Any]:
    return [line[2:] for line in lines if line.startswith("> ")]


def played(lines: Any) -> Any:
    """What the prompt shows: each line, and what it is replied. A body is typed after its line."""
    link = Link(lambda: run(PROGRAM), "")
    try:
        out = io.StringIO()
        PipeTalk(link, out).run(EchoedInput(lines, out))
        return out.getvalue().splitlines()
    finally:
        link.close()


class EchoedInput(PipeInput):
    """Lines that are shown when they are read."""

    def __init__(self, lines: Any, out: Any) -> None:
        super().__init__(io.BytesIO("".join(line + "\n" for line in lines).encode()))
        self.out = out

    def line(self) -> Any:
        line = super().line()
        if line is not None:
            self.out.write(f"> {line}\n")
        return line

    def body(self, size: Any) -> Any:
        body = super().body(size)
        self.out.write("".join(f"> {line}\n" for line in body.decode().splitlines()))
        return body


def test_each_form_has_an_example() -> None:
    assert list(EXAMPLES) == [form.usage for form in commands.COMMANDS]


@pytest.mark.parametrize("usage", EXAMPLES)
def test_an_example_is_replied_as_it_is_shown(usage: Any) -> None:
    begin, lines = EXAMPLES[usage]
    _, load = EXAMPLES[commands.COMMANDS[0].usage]
    before = [] if usage in LOADS else load
    assert begin == ("  Example:" if usage in LOADS else WITH_SESSION)
    assert any(line.split()[0] == usage.split()[0] for line in typed(lines))
    assert played(typed(before + lines)) == before + lines


@pytest.mark.parametrize("usage", [usage for usage, example in HERE.items() if example])
def test_an_example_of_what_is_said_at_a_terminal(tmp_path: pathlib.Path, usage: Any) -> None:
    (tmp_path / "dimer.xyz").write_text(DIMER)
    (tmp_path / "argon_256.xyz").write_bytes(ARGON.read_bytes())
    terminal = Terminal(PROMPT, environment(), cwd=tmp_path)
    terminal.until("ljserve> ")
    shown = []
    for line in ["LOAD a dimer.xyz 256 1 131072", *typed(HERE[usage])]:
        terminal.type(line + "\r")
        terminal.until(re.escape(line) + "\n")
        shown += [f"> {line}", *terminal.until("ljserve> ").splitlines()[:-1]]
    terminal.close()
    assert shown[2:] == list(HERE[usage])


def moving(user: Any) -> Any:
    """A session of two atoms that is in motion at its start."""
    session = dimer(user)
    session.tug(1, (70_000, -3, 11))
    session.advance(3)
    return session


@pytest.mark.parametrize("n", [1, 2, 5])
def test_what_the_help_says_of_reverse(n: Any) -> None:
    told = " ".join(" ".join(helping.help_on("REVERSE")).split())
    assert "n steps, REVERSE and n - 1 steps lead to the places of the start" in told
    assert "n steps, REVERSE, n steps and REVERSE restore the start exactly." in told
    with run(PROGRAM) as user:
        session = moving(user)
        start = user._state_of("a")
        session.advance(n)
        session.reverse()
        session.advance(n - 1)
        assert (session.get_step(), listed(session.places())) == (start.step, listed(start.places))
        session.advance(1)
        assert listed(session.places()) != listed(start.places)
        session.reverse()
        assert user._state_of("a") == start


def test_of_two_faults_in_a_text_the_first_is_answered() -> None:
    for name in ("LOAD", "LOADMIX"):
        assert "the reply is the first in the text" in " ".join(" ".join(helping.help_on(name)).split())
    with run(PROGRAM) as user, pytest.raises(refusals.XyzNumber) as refused:
        user.load("a", "2\nfaults\nAr 0 x 0\nAr 1\n", edge=256, sigma=1, h=131072)
    assert refused.value.line == 3


def test_classes_are_tested_in_turn() -> None:
    assert "37, 38 and 40 are tested for each class in turn" in " ".join(helping.help_on("LOADMIX"))
    classes = [(1, 131072, 0), (200, 131072, 256), (1, 131072, 256)]
    with run(PROGRAM) as user, pytest.raises(refusals.Weight):
        user.load_mix("m", DIMER, edge=256, species=("Ar", "Kr"), classes=classes)


def test_one_symbol_for_both_species_is_told() -> None:
    with run(PROGRAM) as user, pytest.raises(refusals.Syntax, match="one symbol for both species"):
        user.ask("LOADMIX m 256 Ar Ar 1 1 1 1 1 1 1 1 1 rest 28", DIMER.encode())
