"""The keys of the live view, in Chromium: each presses its button once, wherever the focus is."""
import pathlib
from typing import Any, Dict, Iterator

import pytest

from browsing import CHROMIUM
from viewing import View

pytestmark = pytest.mark.skipif(not CHROMIUM, reason="Chromium is not installed")

SPACE = {"key": " ", "code": "Space", "windowsVirtualKeyCode": 32, "text": " "}
POINT = {"key": ".", "code": "Period", "windowsVirtualKeyCode": 190, "text": "."}
QUESTION = {"key": "?", "code": "Slash", "windowsVirtualKeyCode": 191, "text": "?", "modifiers": 8}
ESCAPE = {"key": "Escape", "code": "Escape", "windowsVirtualKeyCode": 27}
ENTER = {"key": "Enter", "code": "Enter", "windowsVirtualKeyCode": 13, "text": "\r"}
HOME = {"key": "Home", "code": "Home", "windowsVirtualKeyCode": 36}
LIST_IS_OPEN = "document.getElementById('keys').matches(':popover-open')"
# Notes the buttons of the page that are pressed, by their names.
COUNT = "window.pressed = []; document.addEventListener('click', event => pressed.push(event.target.id), true)"


def letter(key: Any) -> Dict[Any, Any]:
    code, shift = ord(key.upper()), 8 * key.isupper()
    return {"key": key, "code": f"Key{key.upper()}", "windowsVirtualKeyCode": code, "text": key, "modifiers": shift}


class Keyboard:
    """The page of a view, its keyboard, and which buttons were pressed."""

    def __init__(self, browser: Any) -> None:
        self.browser = browser
        browser.value(COUNT)

    def down(self, key: Any, **words: Any) -> None:
        self.browser.ask("Input.dispatchKeyEvent", type="keyDown" if "text" in key else "rawKeyDown", **key, **words)

    def up(self, key: Any) -> None:
        self.browser.ask("Input.dispatchKeyEvent", type="keyUp", **{name: part for name, part in key.items() if name != "text"})

    def press(self, key: Any) -> None:
        self.down(key)
        self.up(key)

    def focus(self, name: Any) -> None:
        self.browser.value(f"document.getElementById('{name}').focus()")
        assert self.browser.value("document.activeElement.id") == name

    def pressed(self) -> Any:
        """The buttons that were pressed since this was asked last."""
        return self.browser.value("pressed.splice(0)")


@pytest.fixture
def keyboard(browser: Any, tmp_path: pathlib.Path) -> Iterator[Any]:
    """The keyboard of a page that has a choice of two files."""
    paths = [tmp_path / name for name in ("one.xyz", "two.xyz")]
    for path in paths:
        path.write_text("2\n\nAr 0 0 0\nAr 1.5 0 0\n")
    browser.leave()
    with View(*paths, "--edge", 20, "--h", 131072) as view:
        browser.open(view.link)
        browser.wait_for("!window.pressed && document.getElementById('message')?.textContent === 'Press Play.'")
        yield Keyboard(browser)
        assert browser.faults == []


def test_space_after_a_click_plays_and_does_not_turn_time_again(keyboard: Any) -> None:
    keyboard.browser.click("reverse")
    assert keyboard.pressed() == ["reverse"]
    keyboard.press(SPACE)
    assert keyboard.pressed() == ["play"]


@pytest.mark.parametrize("focus", ["reverse", "depth", "scene"])
def test_each_key_presses_its_button_once_wherever_the_focus_is(keyboard: Any, focus: Any) -> None:
    """A button, a slider and the choice of a file."""
    keyboard.browser.click("save")
    keyboard.browser.wait_for("!document.getElementById('restore').disabled")
    keyboard.pressed()
    keys = [SPACE, POINT, letter("r"), letter("e"), letter("s"), letter("b"), letter("d"), HOME]
    for key, name in zip(keys, ["play", "one", "reverse", "exact", "save", "restore", "second", "restart"]):
        keyboard.focus(focus)
        keyboard.press(key)
        assert keyboard.pressed() == [name]


def test_letters_count_with_shift_too(keyboard: Any) -> None:
    keyboard.press(letter("R"))
    keyboard.press(letter("E"))
    assert keyboard.pressed() == ["reverse", "exact"]


def test_a_key_that_is_held_counts_once(keyboard: Any) -> None:
    keyboard.down(SPACE)
    for _ in range(3):
        keyboard.down(SPACE, autoRepeat=True)
    keyboard.up(SPACE)
    assert keyboard.pressed() == ["play"]


def test_the_key_of_one_step_may_be_held(keyboard: Any) -> None:
    keyboard.down(POINT)
    keyboard.browser.wait_for("document.getElementById('step').textContent === '1'")
    keyboard.down(POINT, autoRepeat=True)
    keyboard.browser.wait_for("document.getElementById('step').textContent === '2'")
    keyboard.up(POINT)


def test_keys_do_nothing_while_text_is_typed(keyboard: Any) -> None:
    keyboard.browser.value("document.body.append(Object.assign(document.createElement('input'), { id: 'field' }))")
    keyboard.focus("field")
    for key in (letter("r"), SPACE, POINT, QUESTION):
        keyboard.press(key)
    assert keyboard.browser.value("document.getElementById('field').value") == "r .?"
    assert keyboard.pressed() == []
    assert not keyboard.browser.value(LIST_IS_OPEN)


def test_a_key_with_control_is_left_to_the_browser(keyboard: Any) -> None:
    keyboard.press({**letter("e"), "modifiers": 2, "text": ""})
    assert keyboard.pressed() == []


def test_enter_presses_the_button_that_has_the_focus(keyboard: Any) -> None:
    keyboard.focus("exact")
    keyboard.press(ENTER)
    assert keyboard.pressed() == ["exact"]


@pytest.mark.parametrize("closes", [QUESTION, ESCAPE], ids=["question", "escape"])
def test_a_question_mark_shows_the_keys(keyboard: Any, closes: Any) -> None:
    assert "? shows the keys" in keyboard.browser.value("document.body.innerText")
    keyboard.press(QUESTION)
    assert keyboard.browser.value(LIST_IS_OPEN)
    names = keyboard.browser.value("[...document.querySelectorAll('#keys dt')].map(each => each.textContent)")
    assert names == ["Space", ".", "R", "E", "S", "B", "D", "Home", "Enter", "Escape", "Arrows", "?"]
    keyboard.press(closes)
    keyboard.browser.wait_for(f"!{LIST_IS_OPEN}")
    assert keyboard.pressed() == []


def test_the_keys_are_shown_without_a_keyboard_too(keyboard: Any) -> None:
    keyboard.browser.value("document.querySelector('[popovertarget=keys]').click()")
    assert keyboard.browser.value(LIST_IS_OPEN)
