"""What the live view says, in Chromium: each message is of a moment, and goes when it is no longer true."""
import os
import pathlib
import signal
from typing import Any, Iterator

import pytest

from browsing import CHROMIUM
from support import PROGRAM, children_of
from viewing import View

pytestmark = pytest.mark.skipif(not CHROMIUM, reason="Chromium is not installed")

PICTURES = os.environ.get("LJVIEW_PICTURES")  # a folder to put what the page looks like into, where somebody wants to look
SCALE = ["--edge", 20, "--sigma", 1, "--h", 131072]
# Two atoms that move, and in the second file one more in the middle, which feels neither of them and stays.
FILES = {"two.xyz": "2\n\nAr 0 0 0\nAr 1.5 0 0\n", "three.xyz": "3\n\nAr 0 0 0\nAr 1.5 0 0\nAr 10 10 0\n"}
TWO, THREE = 0, 1
# What asks the server for nothing stays: the language, the list of keys, and what is copied and saved.
STAYING = ["language", "shows-keys", "link", "picture", "csv"]
ENABLED = "[...document.querySelectorAll('button, select')].filter(each => !each.disabled).map(each => each.id)"


class Shown:
    """The page of a view, and what it says."""

    def __init__(self, browser: Any, view: Any) -> None:
        self.browser = browser
        self.view = view
        browser.open(view.link)
        browser.wait_for("document.getElementById('about')?.textContent.startsWith('2 atoms')")

    @property
    def message(self) -> Any:
        return self.browser.text("message")

    @property
    def kind(self) -> Any:
        return self.browser.value("document.getElementById('message').className").split()[1:]

    @property
    def step(self) -> int:
        return int(self.browser.text("step"))

    def click(self, *names: Any) -> None:
        for name in names:
            self.browser.click(name)

    def waits_for(self, name: Any, sign: Any, value: Any) -> None:
        """Waits until the text of an element compares so with a value."""
        text = f"document.getElementById('{name}').textContent"
        self.browser.wait_for(f"Number({text}) {sign} {value}" if isinstance(value, int) else f"{text} {sign} '{value}'")

    def says(self, text: Any) -> Any:
        """Waits until the message begins so. Returns it whole."""
        self.browser.wait_for(f"document.getElementById('message').textContent.startsWith('{text}')")
        return self.message

    def says_nothing(self) -> None:
        self.browser.wait_for("document.getElementById('message').textContent === ''")
        assert self.kind == []

    def go(self, *steps: Any) -> None:
        """Presses One step, and waits for these steps one after the other."""
        for step in steps:
            self.click("one")
            self.waits_for("step", "===", step)

    def play_until(self, sign: Any, step: Any) -> None:
        self.click("play")
        self.waits_for("step", sign, step)
        self.click("play")
        self.waits_for("play", "===", "Play")

    def choose(self, number: Any, then: str = "") -> None:
        """Chooses a file, and does something more before the page is answered."""
        select = "document.getElementById('scene')"
        self.browser.value(f"{select}.value = {number}; {select}.dispatchEvent(new Event('change')); {then}")

    def loads(self, number: Any) -> None:
        self.choose(number)
        self.browser.wait_for(f"document.getElementById('about').textContent.startsWith('{number + 2} atoms')")

    def pull(self, right: Any) -> None:
        """Pulls the atom in the middle of the box by so many pixels."""
        x, y = self.browser.take(lambda box: (box["x"] + box["width"] / 2, box["y"] + box["height"] / 2))
        self.browser.mouse("mouseMoved", x + right, y)
        self.browser.mouse("mouseReleased", x + right, y)

    def picture(self, name: Any) -> None:
        if PICTURES:
            (pathlib.Path(PICTURES) / f"{name}.png").write_bytes(self.browser.picture())


@pytest.fixture
def shown(browser: Any, tmp_path: pathlib.Path) -> Iterator[Any]:
    """The page with both files, of which the first is shown."""
    for name, text in FILES.items():
        (tmp_path / name).write_text(text)
    browser.leave()
    with View(*(tmp_path / name for name in FILES), *SCALE) as view:
        yield Shown(browser, view)
        assert browser.faults == []


def test_press_play_goes_when_it_plays(shown: Any) -> None:
    assert shown.message == "Press Play."
    shown.click("play")
    shown.waits_for("step", ">=", 8)
    shown.says_nothing()
    shown.picture("plays")


def test_press_play_goes_with_one_step(shown: Any) -> None:
    shown.go(1)
    shown.says_nothing()


def test_a_verdict_goes_with_its_step(shown: Any) -> None:
    shown.play_until(">=", 20)
    shown.click("reverse")
    shown.waits_for("direction", "===", "backward")
    shown.click("play")
    assert shown.says("Back at step 0") == "Back at step 0. Is each atom where it began? Press Exact?"
    shown.click("exact")
    assert shown.says("2 of 2") == "2 of 2, bit for bit: each atom is where it was at the start, with its motion turned back."
    assert shown.kind == ["good"]
    shown.picture("verdict")
    shown.play_until("<=", -40)
    assert shown.browser.text("distance") != "0"
    shown.says_nothing()
    shown.picture("verdict_gone")


def test_a_verdict_goes_with_one_step_and_with_a_turn(shown: Any) -> None:
    for act, step in (("one", "1"), ("reverse", "-1")):
        shown.click("restart", "exact")
        shown.says("2 of 2, bit for bit")
        shown.click(act)
        shown.waits_for("step", "===", step)
        assert "bit for bit" not in shown.message
        assert shown.kind == []


def test_exact_pauses_so_that_its_verdict_is_of_the_step_shown(shown: Any) -> None:
    shown.click("play")
    shown.waits_for("step", ">=", 20)
    shown.click("exact")
    message = shown.says("0 of 2 atoms")
    shown.waits_for("play", "===", "Play")
    assert message == f"0 of 2 atoms have the place that they had at the start. This is step {shown.step}."


def test_a_verdict_says_which_places_it_counts(shown: Any) -> None:
    """The third atom is pulled away and stopped. Saved there, it is where it was saved, and not where it was at the start."""
    shown.loads(THREE)
    shown.pull(60)
    shown.says("Atom 2 was tugged")
    shown.go(1)
    shown.pull(-60)
    shown.says("Atom 2 was tugged at step 1,")
    shown.click("save")
    shown.says("Saved at step 1.")
    shown.go(2)
    shown.click("exact")
    assert shown.says("1 of 3") == "1 of 3 atoms have the place that they had when it was saved. This is step 2."


def test_a_verdict_is_of_the_motion_too(shown: Any) -> None:
    """A tug at the start changes no place. Saved after it, and restored, the atoms are where they were and move as they did then."""
    shown.loads(THREE)
    shown.pull(60)
    shown.says("Atom 2 was tugged at step 0,")
    shown.click("exact")
    assert shown.says("3 of 3") == "3 of 3 atoms have the place that they had at the start, but 1 moves differently. This is step 0."
    assert shown.kind == []
    shown.picture("moves_differently")
    shown.click("save")
    shown.says("Saved at step 0.")
    shown.click("exact")
    assert shown.says("3 of 3, bit for bit") == "3 of 3, bit for bit: each atom is where it was when it was saved, and moves as it did."
    assert shown.kind == ["good"]


def test_escape_gives_a_pull_up(shown: Any) -> None:
    shown.loads(THREE)
    x, y = shown.browser.take(lambda box: (box["x"] + box["width"] / 2, box["y"] + box["height"] / 2))
    shown.browser.mouse("mouseMoved", x + 60, y)
    for kind in ("rawKeyDown", "keyUp"):
        shown.browser.ask("Input.dispatchKeyEvent", type=kind, key="Escape", code="Escape", windowsVirtualKeyCode=27)
    shown.browser.wait_for("!document.getElementById('box').classList.contains('holding')")
    shown.browser.mouse("mouseReleased", x + 60, y)
    assert shown.message == "Press Play."
    shown.click("exact")
    assert shown.says("3 of 3") == "3 of 3, bit for bit: each atom is where it was at the start, and moves as it did."


def test_before_the_start_it_says_so(shown: Any) -> None:
    """By Reverse time at the start, on the way further back, and on the way forward until the start."""
    text = "This is before the start, step 0: the motion that would have led to it."
    assert shown.browser.text("before") == ""
    for _ in range(2):
        shown.click("reverse")
        shown.waits_for("before", "===", text)
        shown.go(-2)
        assert shown.browser.text("before") == text
        shown.picture("before_the_start")
        shown.click("reverse")
        shown.waits_for("step", "===", -1)
        shown.go(0)
        shown.waits_for("before", "===", "")
    shown.go(1)
    assert shown.browser.text("before") == ""


def test_time_has_turned_for_as_long_as_it_runs_back(shown: Any) -> None:
    shown.play_until(">=", 400)
    shown.click("reverse")
    message = shown.says("Time has turned")
    step = shown.step
    shown.play_until("<=", step - 10)
    assert shown.message == message
    shown.click("reverse")
    message = shown.says("Time runs forward again")
    shown.play_until(">=", step)
    assert shown.message == message
    shown.click("restart")
    assert shown.says("Back at the start") == "Back at the start: step 0."
    shown.go(1)
    shown.says_nothing()


def test_nothing_is_said_to_be_undone_that_was_not_done(shown: Any) -> None:
    shown.click("reverse")
    shown.says("Time has turned")
    shown.go(-2)
    assert "undone" not in shown.message


def test_a_tug_is_of_its_step(shown: Any) -> None:
    shown.loads(THREE)
    shown.click("exact")
    shown.says("3 of 3, bit for bit")
    shown.pull(60)
    message = shown.says("Atom 2 was tugged at step 0, by ")
    assert shown.kind == []
    shown.play_until(">=", 20)
    assert shown.message == message
    shown.picture("tugged")
    shown.loads(TWO)
    shown.waits_for("message", "===", "Press Play.")


def test_saved_is_of_the_file_shown(shown: Any) -> None:
    shown.go(1, 2)
    shown.click("save")
    shown.says("Saved at step 2.")
    shown.play_until(">=", 20)
    assert shown.message == "Saved at step 2."
    assert shown.browser.text("restore") == "Restore step 2"
    shown.loads(THREE)
    shown.waits_for("message", "===", "Press Play.")
    assert shown.browser.text("restore") == "Restore"
    assert shown.browser.value("document.getElementById('restore').disabled")
    shown.picture("another_file")


def test_restored_goes_with_its_step(shown: Any) -> None:
    shown.go(1, 2)
    shown.click("save")
    shown.go(3)
    shown.click("restore")
    shown.says("Restored, as saved at step 2.")
    shown.go(3)
    shown.says_nothing()


def test_another_file_begins_paused(shown: Any) -> None:
    """Play is pressed while the other file is loaded."""
    assert shown.message == "Press Play."
    shown.choose(THREE, "document.getElementById('play').click()")
    shown.waits_for("message", "===", "Press Play.")
    assert shown.browser.text("about").startswith("3 atoms")
    assert (shown.browser.text("play"), shown.step) == ("Play", 0)


def test_an_error_goes_when_something_is_done(shown: Any) -> None:
    shown.browser.value("(restore => { restore.disabled = false; restore.click(); })(document.getElementById('restore'))")
    shown.says("cannot restore: nothing is saved yet; use Save first")
    assert shown.kind == ["bad"]
    shown.picture("error")
    shown.go(1)
    shown.says_nothing()


def test_frames_a_second_are_of_what_plays(shown: Any) -> None:
    shown.click("play")
    shown.browser.wait_for("document.getElementById('rate').textContent.endsWith(' frames a second')")
    shown.click("play")
    shown.waits_for("rate", "===", "")


def test_an_end_is_said_for_good(shown: Any) -> None:
    """What was saved is gone with the program, and a slider that is moved brings no button back."""
    shown.click("save")
    shown.says("Saved at step 0.")
    shown.view.end()
    message = shown.says("The live view")
    assert message == "The live view has ended. Start it again, and open its new link."
    slab = "document.getElementById('depth')"
    shown.browser.value(f"{slab}.value = 0.2; {slab}.dispatchEvent(new Event('input'))")
    shown.browser.value("new Promise(done => requestAnimationFrame(() => requestAnimationFrame(done))).then(() => true)")
    assert shown.browser.value(ENABLED) == STAYING
    assert (shown.message, shown.kind) == (message, ["bad"])
    shown.picture("ended")


def test_an_end_of_the_program_is_said_for_good(shown: Any) -> None:
    """It plays, and no button is left to be pressed. A file that cannot be loaded any more is not the one that is chosen."""
    (program,) = children_of(shown.view.child.pid)
    shown.click("play")
    shown.waits_for("step", ">=", 8)
    os.kill(program, signal.SIGKILL)
    message = shown.says("The program has ended. Load this page again (")
    assert "has ended with status -9" in message
    assert (shown.browser.value(ENABLED), shown.browser.text("play"), shown.kind) == (STAYING, "Play", ["bad"])
    shown.picture("program_ended")
    shown.choose(THREE)
    shown.browser.wait_for(f"document.getElementById('scene').value === '{TWO}'")
    assert shown.message.startswith("The program has ended. ")
    assert shown.browser.text("about").startswith("2 atoms")


def test_a_page_that_is_not_let_in_says_why(browser: Any) -> None:
    browser.leave()
    with View("--listen", "127.0.0.1:0", "--pages-of-an-address", "1") as view, view.page():
        browser.open(view.link)
        browser.wait_for("document.getElementById('play')?.disabled")
        why = "1 page is open already from your address, 127.0.0.1, and no more may be. Close one, and load this page again."
        assert (browser.text("message"), browser.value(ENABLED)) == (why, STAYING)
        if PICTURES:
            (pathlib.Path(PICTURES) / "not_let_in.png").write_bytes(browser.picture())
        browser.leave()


def test_why_there_are_no_atoms_is_said_for_good(browser: Any, tmp_path: pathlib.Path) -> None:
    """A program that begins once, when the view tries its atoms, and not for the page."""
    program = tmp_path / "once"
    program.write_text(f'#!/bin/sh\nmkdir "{tmp_path}/begun" 2>/dev/null || exit 7\nexec "{PROGRAM}" "$@"\n')
    program.chmod(0o755)
    with View("--program", program) as view:
        browser.open(view.link)
        browser.wait_for("document.getElementById('play')?.disabled")
        assert "has ended with status 7" in browser.text("message")
