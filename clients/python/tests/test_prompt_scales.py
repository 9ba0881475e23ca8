"""Scales that a prompt remembers for the next connection to a server, and long runs that it asks about."""
import contextlib
import io
import json
import pathlib
import re
import sys
from typing import Any, Callable, Iterator, List

import pytest

from ljclient import Session, connect
from ljclient.prompt.dialogue import TerminalTalk
from ljclient.prompt.link import Link
from support import DIMER, TOKEN
from terminals import PROMPT, Terminal, environment

ARGON = "edge=20 dt=2fs sigma=3.4 epsilon=119.8K mass=39.948"
# A program whose session `a` takes a quarter of a second for each ADVANCE of two steps or more.
SLOW = """\
import sys, time
step = 0
for line in sys.stdin:
    verb, *words = line.split()
    if verb in ("ADVANCE", "START"):
        step += int(words[1])
        time.sleep(0.25 if int(words[1]) > 1 else 0)
    told = {"LIST": "LIST 1\\na %d 2 0" % step, "BYE": "BYE"}
    print("OK", told.get(verb, "%s a %d" % (verb, step)), flush=True)
"""
Prompt = Callable[[], "contextlib.AbstractContextManager[Any]"]


@pytest.fixture
def prompt(server: Any, tmp_path: pathlib.Path, state: pathlib.Path) -> Prompt:
    """Begins prompts of the user `ann`, one after the other, whose notes are those of the test."""
    (tmp_path / "dimer.xyz").write_text(DIMER.replace("1.5", "4"))
    (tmp_path / "one.xyz").write_text("1\none\nAr 0 0 0\n")

    @contextlib.contextmanager
    def begun() -> Iterator[Any]:
        words = environment(LJSERVE_TOKEN=TOKEN, XDG_STATE_HOME=str(state.parent))
        with contextlib.closing(Terminal([*PROMPT, f"127.0.0.1:{server.port}", "ann"], words, cwd=tmp_path)) as terminal:
            terminal.until("ann> ")
            yield lambda line: said(terminal, line, "ann> ")
            terminal.type("exit\r")
            assert terminal.ended()[0] == 0

    return begun


def said(terminal: Any, line: str, wanted: str = "ljserve> ") -> str:
    """What is shown for a line, as one line."""
    terminal.type(line + "\r")
    terminal.until(re.escape(line) + "\n")
    return " ".join(str(terminal.until(wanted)).split())


def test_the_next_connection_knows_the_scale(prompt: Prompt, tmp_path: pathlib.Path) -> None:
    with prompt() as says:
        assert "OK LOAD a 0 2" in says(f"LOAD a dimer.xyz {ARGON}")
        says("heat a 60K")
        says("ADVANCE a 10")
    with prompt() as says:
        assert re.search(r"OK MEASURE a 10 .* temperature [0-9.]+ K", says("MEASURE a"))
        assert "a at step 10 is in a.saved" in says("save a a.saved")
        assert "  OK ADVANCE a 11 ".strip() in says("go a 2fs")
    with prompt() as says:
        assert "mass 39.948 u, and the time step 2.000109 fs" in says("scale a")
    assert (tmp_path / "a.saved").read_text().startswith("ljserve checkpoint 1\n")


def test_a_mixture_and_a_saved_session_are_known_too(prompt: Prompt) -> None:
    (text,) = ["LOADMIX m dimer.xyz 256 Ar Kr 1 131072 256 1 262144 512 1 131072 256"]
    with prompt() as says:
        says(text)
        says("ADVANCE m 2")
        says("save m m.saved")
        says("load_saved m.saved n")
        says("ADVANCE n 3")
    with prompt() as says:
        assert "m at step 2 is in again.saved" in says("save m again.saved")
        assert says("SHOW n 0").startswith("OK SHOW n 5 0 ")
        assert "n at step 5 is in n.saved" in says("save n n.saved")


def with_python(server: Any, act: Callable[[Any], object]) -> None:
    """Another client of the same user does something."""
    with connect("127.0.0.1", server.port, "ann", TOKEN) as user:
        act(user)


def load_anew(user: Any, source: Any, **words: Any) -> Any:
    return user.load("a", source, **{"edge": 20, "sigma": 3.0, "h": 562, "replace": True, **words})


@pytest.mark.parametrize(
    "act, why",
    [
        (lambda user: load_anew(user, "1\none\nAr 0 0 0\n"), "a has 1 atoms and had 2"),
        (lambda user: load_anew(user, DIMER.replace("1.5", "4")), "a is at the server's step 0 and was left at 10"),
        (lambda user: load_anew(user, DIMER.replace("1.5", "4")).advance(10), "a was loaded after b"),
        (lambda user: user.session("a").advance(1), "a is at the server's step 11 and was left at 10"),
    ],
    ids=["other atoms", "another step", "another place in the list", "gone on"],
)
def test_a_session_that_may_be_another_one_has_no_scale(prompt: Prompt, server: Any, state: pathlib.Path, act: Any, why: str) -> None:
    with prompt() as says:
        says(f"LOAD a dimer.xyz {ARGON}")
        says("LOAD b one.xyz edge=20 sigma=3.4 h=3706")
        says("ADVANCE a 10")
    with_python(server, act)
    with prompt() as says:
        told = says("MEASURE a")
        assert f"{why}" in told and "so its scale is not taken from the last time" in told
        assert "use `scale a edge=20.0 sigma=3.4 h=3706 epsilon=" in told and "temperature" not in told
        assert "temperature" not in says("MEASURE a")
        says(f"scale a {ARGON}")
        assert "temperature" in says("MEASURE a")
    with prompt() as says:
        assert "temperature" in says("MEASURE a")


def test_a_box_of_another_edge_has_no_scale(prompt: Prompt, server: Any) -> None:
    with prompt() as says:
        says(f"LOAD a dimer.xyz {ARGON}")
    with_python(server, lambda user: load_anew(user, DIMER, edge=30))
    with prompt() as says:
        assert "about 30 at the server, got 20.0" in says("MEASURE a")


def test_the_scale_that_is_told_to_be_said_is_the_one_that_was(prompt: Prompt, server: Any) -> None:
    with prompt() as says:
        says(f"LOAD a dimer.xyz {ARGON}")
        scale = says("scale a")
    with_python(server, lambda user: user.session("a").advance(3))
    with prompt() as says:
        (line,) = re.findall(r"use `(scale a [^`]*)`", says("SHOW a 0"))
        assert says(line) == scale


@pytest.mark.parametrize("text", ["", "{}", "[]", "not json", '{"format": "ljclient scale 1"}', None])
def test_a_note_that_is_damaged_is_none(prompt: Prompt, state: pathlib.Path, text: Any) -> None:
    with prompt() as says:
        says(f"LOAD a dimer.xyz {ARGON}")
    (note,) = state.glob("*.scale")
    whole = json.loads(note.read_text())
    whole["scale"]["h"] = -1
    note.write_text(json.dumps(whole) if text is None else text)
    with prompt() as says:
        assert re.fullmatch(r"OK MEASURE a 0 2 0 0 0 0 -?\d+ ann>", says("MEASURE a"))


def test_a_session_that_is_given_up_has_no_note(prompt: Prompt, state: pathlib.Path) -> None:
    with prompt() as says:
        says(f"LOAD a dimer.xyz {ARGON}")
        assert len(list(state.glob("*.scale"))) == 1
        says("DROP a")
        assert list(state.glob("*.scale")) == []


def test_without_a_disk_there_are_no_notes(prompt: Prompt, state: pathlib.Path) -> None:
    state.parent.write_text("no folder")
    with prompt() as says:
        assert "OK LOAD a 0 2" in says(f"LOAD a dimer.xyz {ARGON}")
        assert "temperature" in says("MEASURE a")


class Script:
    """Lines that nobody types."""

    is_script = True

    def stop_files(self) -> List[str]:
        return []


@pytest.mark.parametrize("line", ["go a 100steps", "ADVANCE a 100"])
def test_a_run_that_is_broken_off_is_noted_where_it_stands(
    server: Any, state: pathlib.Path, monkeypatch: pytest.MonkeyPatch, tmp_path: pathlib.Path, line: str
) -> None:
    """So a session that is loaded anew at its start is not taken for it."""
    (tmp_path / "dimer.xyz").write_text(DIMER)
    link = Link(lambda: connect("127.0.0.1", server.port, "ann", TOKEN), "")
    with contextlib.closing(link):
        talk, script = TerminalTalk(link, io.StringIO()), Script()
        talk.perform(f"LOAD a {tmp_path}/dimer.xyz 256 1 131072", script)  # type: ignore[arg-type]
        advance = Session.advance
        monkeypatch.setattr(Session, "advance", lambda session, n, **words: [advance(session, 3), interrupt()])
        with contextlib.suppress(KeyboardInterrupt):
            talk.perform(line, script)  # type: ignore[arg-type]
        (note,) = state.glob("*.scale")
        assert json.loads(note.read_text())["left"] == [2, 3, 3]


def interrupt() -> Any:
    raise KeyboardInterrupt


@pytest.fixture
def slow(tmp_path: pathlib.Path) -> Iterator[Any]:
    path = tmp_path / "ljserve"
    path.write_text(f"#!{sys.executable}\n{SLOW}")
    path.chmod(0o755)
    terminal = Terminal(PROMPT, environment(LJSERVE=str(path)), cwd=tmp_path)
    terminal.until("ljserve> ")
    yield terminal
    terminal.close()


def test_a_long_run_is_asked_about(slow: Any, tmp_path: pathlib.Path) -> None:
    said(slow, "ADVANCE a 10")
    for line in ("ADVANCE a 100000", "START a 100000", "go a 100000steps"):
        told = said(slow, line, r"\(y/n\) ")
        assert re.search(r"100000 steps of a take about \d+ (min|h), by the rate seen so far go on\? \(y/n\)", told)
        slow.type("n\r")
        assert "  not begun\n" in slow.until("ljserve> ")
    assert said(slow, "LIST") == "OK LIST 1 a 10 2 0 ljserve>"
    said(slow, "START a 100000", r"\(y/n\) ")
    slow.type("y\r")
    assert "OK START a 100010\n" in slow.until("ljserve> ")
    (tmp_path / "script").write_text("START a 100000\n")
    assert "OK START a 200010" in said(slow, ".read script", "ljserve> .*ljserve> ")


def test_a_long_start_is_asked_about_though_no_step_was_made_before(slow: Any) -> None:
    """Its first steps tell how long it takes."""
    said(slow, "START a 100000", r"\(y/n\) ")
    slow.type("n\r")
    assert "16 steps were made to see how long a step takes: `undo` takes them back" in slow.until("ljserve> ")
    assert said(slow, "LIST") == "OK LIST 1 a 16 2 0 ljserve>"
    said(slow, "START a 100000", r"\(y/n\) ")
    slow.type("y\r")
    assert "OK START a 100016\n" in slow.until("ljserve> ")


def test_an_interrupt_at_the_question_begins_nothing(slow: Any) -> None:
    said(slow, "ADVANCE a 10")
    said(slow, "ADVANCE a 100000", r"\(y/n\) ")
    slow.interrupt()
    slow.until("ljserve> ")
    assert said(slow, "LIST") == "OK LIST 1 a 10 2 0 ljserve>"


def test_a_short_run_is_not_asked_about(slow: Any) -> None:
    said(slow, "ADVANCE a 10")
    assert said(slow, "START a 100") == "OK START a 110 ljserve>"


def test_help_is_shown_page_by_page(slow: Any, tmp_path: pathlib.Path) -> None:
    first = said(slow, "help", "ends it -- ")
    assert first.startswith("Load and save LOAD s FILE") and "Tab completes" not in first
    slow.type("\r")
    assert "Tab completes" in slow.until("ljserve> ")
    said(slow, "help", "ends it -- ")
    slow.type("q\r")
    assert "Tab completes" not in slow.until("ljserve> ")
    (tmp_path / "script").write_text("help\n")
    assert "Tab completes" in said(slow, ".read script", "ljserve> .*ljserve> ")
