"""The page of a student and the wall in Chromium, on a screen and on a phone."""
import contextlib
import os
import pathlib
import time
from typing import Any, Iterator, List

import pytest

from browsing import CHROMIUM, Browser
from class_pages import PagedLesson, begun, link_of
from ljclient import Refused
from support import DIMER, EXAMPLES, dimer

pytestmark = pytest.mark.skipif(not CHROMIUM, reason="Chromium is not installed")

PICTURES = os.environ.get("LJVIEW_PICTURES")  # a folder for pictures of the page, if somebody wants to look
WIDE, PHONE = (850, 900), (390, 844)
SIZES = pytest.mark.parametrize("size", [WIDE, PHONE], ids=["850", "390"])
FITS = "document.documentElement.scrollWidth <= innerWidth"


@pytest.fixture(scope="module")
def lesson(tmp_path_factory: pytest.TempPathFactory) -> Iterator[PagedLesson]:
    """A class with pages and a lesson."""
    words = ["ann", "ben", "cleo", "--lesson", str(EXAMPLES / "lessons" / "two_atoms.en")]
    with begun(tmp_path_factory.mktemp("class"), *words) as lesson:
        yield lesson


@pytest.fixture
def browser(request: pytest.FixtureRequest) -> Iterator[Any]:
    """A browser of a size, which accepts the certificate of the class."""
    width, height = request.getfixturevalue("size") if "size" in request.fixturenames else WIDE
    with Browser(width, height, "--ignore-certificate-errors") as browser:
        browser.ask("Emulation.setDeviceMetricsOverride", width=width, height=height, deviceScaleFactor=1, mobile=width < 500)
        yield browser


def opened(browser: Any, lesson: PagedLesson, name: str) -> None:
    """Opens the link on a student's slip."""
    browser.open("#".join(link_of(lesson.slips(), name)))
    browser.wait_for("document.getElementById('about')?.textContent.includes(' atoms, ')")


def shows(browser: Any, name: str, text: str) -> None:
    """Waits until an element has this text."""
    browser.wait_for(f"document.getElementById('{name}')?.textContent.includes({text!r})")


def types(browser: Any, text: str) -> None:
    """Sends commands from the box, and waits for their replies."""
    browser.value(f"document.getElementById('commands').value = {text!r}")
    browser.value("document.getElementById('state').textContent = ''")
    browser.value("document.getElementById('send').click()")
    shows(browser, "state", "answered in")


def keep(browser: Any, name: str) -> None:
    if PICTURES:
        pathlib.Path(PICTURES, f"{name}.png").write_bytes(browser.picture())


@SIZES
def test_a_student_comes_by_the_link_and_types_commands(lesson: PagedLesson, browser: Any, size: Any) -> None:
    opened(browser, lesson, "ann")
    assert browser.value("location.href") == f"{lesson.origin}/" and browser.value("document.cookie") == ""
    assert browser.text("student") == "ann"
    types(browser, f"LOAD two 256 1 131072 rest {len(DIMER)}\n{DIMER}ADVANCE two 2\nSHOW two 9\nSHOW two 0\n")
    replies = browser.text("replies")
    assert replies.endswith(
        "OK LOAD two 0 2\nADVANCE two 2\nOK ADVANCE two 2\nSHOW two 9\nERR 14 NO_ATOM\n"
        "  there is no atom of that number; atoms are numbered from 0\nSHOW two 0\nOK SHOW two 2 0 1774 0 0\n"
    )
    browser.wait_for("[...document.getElementById('scene').options].some(({ value }) => value === 'session two')")
    browser.value("document.getElementById('scene').value = 'session two'")
    browser.value("document.getElementById('scene').dispatchEvent(new Event('change'))")
    shows(browser, "about", "2 atoms, the box is 256.00 σ wide, a step is 0.0055 τ")
    browser.value("document.getElementById('one').click()")
    browser.wait_for("document.getElementById('step').textContent === '3'")
    assert browser.value(FITS) and browser.value("document.getElementById('send').getBoundingClientRect().right <= innerWidth")
    keep(browser, f"class-{size[0]}")
    types(browser, "DROP two\n")
    shows(browser, "message", "the server no longer has it; choose other atoms")
    assert not browser.faults


def test_the_page_follows_the_prompt(lesson: PagedLesson, browser: Any) -> None:
    with lesson.student("ben") as user:
        dimer(user)
        opened(browser, lesson, "ben")
        shows(browser, "about", "2 atoms, ")
        user.ask("ADVANCE a 7")
        browser.wait_for("document.getElementById('step').textContent === '7'")
        user.ask("REVERSE a")
        browser.wait_for("document.getElementById('direction').textContent === 'backward'")
        browser.value("document.getElementById('play').click()")
        shows(browser, "message", "Back at step 0. Is each atom where it began?")
        assert user.ask("SHOW a 1").words == ["SHOW", "a", "0", "1", "25165824", "0", "0"]
        user.ask("ADVANCE a 3")
        dimer(user, "b")
        browser.wait_for("[...document.getElementById('scene').options].map(({ text }) => text).join().startsWith('a,b,')")
        assert not browser.faults


@SIZES
def test_a_student_may_type_name_and_token(lesson: PagedLesson, browser: Any, size: Any) -> None:
    browser.open(f"{lesson.origin}/")
    browser.wait_for("document.querySelector('#question [name=token]') !== null")
    assert browser.value("document.activeElement.name") == "name"
    browser.type(f"cleo\t{'x' * 32}\r")
    browser.wait_for("document.querySelector('#question [role=alert]').textContent !== ''")
    assert browser.value("document.querySelector('#question [role=alert]').textContent") == (
        "The class knows no student of this name and token"
    )
    keep(browser, f"class-asks-{size[0]}")
    assert browser.value(FITS)
    browser.value("document.querySelector('#question [name=token]').focus()")
    browser.type(f"{lesson.tokens()['cleo']}\r")
    shows(browser, "student", "cleo")
    shows(browser, "about", "256 atoms, ")
    browser.value("document.getElementById('leave').click()")
    browser.wait_for("document.querySelector('#question [name=token]') !== null")


@SIZES
def test_what_the_teacher_says_and_the_wall(lesson: PagedLesson, browser: Any, size: Any) -> None:
    opened(browser, lesson, "ann")
    lesson.types("m Now press <b>Reverse time</b>.")
    shows(browser, "teacher", "Now press <b>Reverse time</b>.")
    keep(browser, f"class-teacher-{size[0]}")
    with lesson.student("ben") as user:
        user.load("argon", EXAMPLES / "argon_256.xyz", edge=21.04, sigma=3.4, h=3706, replace=True)
        browser.open(lesson.wall_link())
        browser.wait_for("document.querySelectorAll('.student').length === 3")
        browser.wait_for("document.getElementById('students').innerText.includes('argon · 256 atoms')")
        assert browser.value("location.href") == f"{lesson.origin}/wall"
        shows(browser, "teacher", "Now press <b>Reverse time</b>.")
        shows(browser, "about", "of 3 students are in")
        assert not any(token in browser.value("document.documentElement.outerHTML") for token in lesson.tokens().values())
        browser.wait_for("document.querySelectorAll('.picture:not([hidden])').length > 0")
        assert browser.value(FITS) and browser.value("document.querySelectorAll('input, textarea, select').length") == 0
        keep(browser, f"class-wall-{size[0]}")
    assert not browser.faults


# Whether a picture has more than eight colours.
IS_DRAWN = """((canvas) => {
  const { width, height } = canvas;
  const words = new Uint32Array(canvas.getContext("2d").getImageData(0, 0, width, height).data.buffer);
  return width > 0 && new Set(words).size > 8;
})"""


def described(browser: Any) -> List[str]:
    """The role and the name of each part of the accessibility tree that is not ignored."""
    nodes = browser.ask("Accessibility.getFullAXTree")["nodes"]
    return [f"{node['role']['value']} {node.get('name', {}).get('value', '')}" for node in nodes if not node["ignored"]]


def escape(browser: Any) -> None:
    """Presses the Escape key."""
    for what in ("keyDown", "keyUp"):
        browser.ask("Input.dispatchKeyEvent", type=what, key="Escape", code="Escape", windowsVirtualKeyCode=27)


@SIZES
def test_a_look_on_at_a_student_by_the_keyboard(lesson: PagedLesson, browser: Any, size: Any) -> None:
    """Tab reaches the students, Enter opens the look, and Escape closes it."""
    with lesson.student("cleo") as user:
        user.ask_all(f"DROP {line.split()[0]}" for line in user.ask("LIST").lines)
        dimer(user, "near").advance(2)
        browser.open(lesson.wall_link())
        browser.wait_for("document.querySelectorAll('.student:last-child .picture:not([hidden])').length === 1")
        browser.type("\t\t\t")
        assert browser.value("document.activeElement.textContent") == "cleo"
        browser.type("\r")
        browser.wait_for("document.getElementById('look').open && document.querySelectorAll('#look canvas').length === 1")
        shows(browser, "look-talk", "ADVANCE near 2")
        browser.wait_for(f"[...document.querySelectorAll('.small, .large')].some((each) => each.clientWidth > 200 && {IS_DRAWN}(each))")
        user.ask("ADVANCE near 3")
        shows(browser, "look-talk", "OK ADVANCE near 5")
        shows(browser, "look-sessions", "near · 2 atomsstep 5 →forward")
        told = described(browser)
        assert "dialog cleo" in told and "button Close" in told
        browser.wait_for("document.querySelector('#look canvas').ariaLabel === 'A slab of the atoms of near of cleo at step 5'")
        assert "image A slab of the atoms of near of cleo at step 5" in described(browser)
        assert browser.value(FITS) and browser.value("document.getElementById('look').scrollWidth <= innerWidth")
        keep(browser, f"class-look-{size[0]}")
        escape(browser)
        browser.wait_for("!document.getElementById('look').open")
        assert browser.value("document.activeElement.textContent") == "cleo"
        assert "button cleo" in described(browser)
    assert not browser.faults


# The least contrast of a text with its background, by WCAG 2.1, and that text.
CONTRAST = """(() => {
  const pen = document.createElement("canvas").getContext("2d", { willReadFrequently: true });
  const rgb = (colour) => {
    pen.clearRect(0, 0, 1, 1);
    pen.fillStyle = colour;
    pen.fillRect(0, 0, 1, 1);
    return [...pen.getImageData(0, 0, 1, 1).data];
  };
  const part = (value) => (value / 255 <= 0.03928 ? value / 255 / 12.92 : ((value / 255 + 0.055) / 1.055) ** 2.4);
  const light = ([red, green, blue]) => 0.2126 * part(red) + 0.7152 * part(green) + 0.0722 * part(blue);
  const ground = (element) => {
    for (let at = element; at; at = at.parentElement) {
      const colour = rgb(getComputedStyle(at).backgroundColor);
      if (colour[3] === 255) return colour;
    }
    return [255, 255, 255];
  };
  const has = (element) => [...element.childNodes].some((node) => node.nodeType === 3 && node.data.trim()) && element.checkVisibility();
  const found = [...document.body.querySelectorAll("*")].filter(has).map((element) => {
    const [one, other] = [light(rgb(getComputedStyle(element).color)), light(ground(element))].sort((a, b) => b - a);
    return [(one + 0.05) / (other + 0.05), element.textContent];
  });
  return found.sort(([one], [other]) => one - other)[0];
})()"""


@pytest.mark.parametrize("scheme", ["light", "dark"])
def test_texts_of_the_wall_have_contrast(lesson: PagedLesson, browser: Any, scheme: str) -> None:
    with lesson.student("ben") as user:
        dimer(user, scheme)
        with contextlib.suppress(Refused):
            user.ask(f"SHOW {scheme} 7")
        browser.in_scheme(scheme)
        browser.open(lesson.wall_link())
        browser.wait_for("document.querySelectorAll('.student').length === 3")
        browser.wait_for("document.querySelectorAll('.picture:not([hidden])').length > 0")
        shows(browser, "students", "last refusal: ERR 14 NO_ATOM")
        least, text = browser.value(CONTRAST)
        assert least >= 4.5, text
        browser.value("document.querySelectorAll('.name')[1].click()")
        shows(browser, "look-talk", "ERR 14 NO_ATOM")
        least, text = browser.value(CONTRAST)
        assert least >= 4.5, text


def test_the_focus_stays_when_the_wall_changes(lesson: PagedLesson, browser: Any) -> None:
    with lesson.student("ben") as user:
        session = dimer(user, "here")
        browser.open(lesson.wall_link())
        browser.wait_for("document.querySelectorAll('.student').length === 3")
        browser.type("\t\t")
        session.advance(7)
        browser.wait_for("document.getElementById('students').innerText.includes('ADVANCE here 7')")
        assert browser.value("document.activeElement.textContent") == "ben"
        browser.wait_for("[...document.querySelectorAll('.age')].some((each) => /^[2-9] s ago/.test(each.textContent))")


@SIZES
def test_a_page_goes_on_when_the_class_does(lesson: PagedLesson, browser: Any, size: Any) -> None:
    """It is as at the last command, with what was typed, and is not loaded again."""
    with lesson.student("ann") as user:
        user.ask_all(f"DROP {line.split()[0]}" for line in user.ask("LIST").lines)
        dimer(user, "a").advance(4)
    opened(browser, lesson, "ann")
    types(browser, "ADVANCE a 3\n")
    browser.value("window.isTheSame = true")
    lesson.kill()
    shows(browser, "waits", "The class cannot be reached. This page goes on when it can.")
    keep(browser, f"class-lost-{size[0]}")
    browser.value("document.getElementById('one').click()")
    lesson.begin()
    browser.wait_for("document.getElementById('waits').textContent === ''")
    browser.wait_for("document.getElementById('step').textContent === '7'")
    types(browser, "ADVANCE a 2\n")
    assert browser.text("replies").endswith("ADVANCE a 3\nOK ADVANCE a 7\nADVANCE a 2\nOK ADVANCE a 9\n")
    browser.value("document.getElementById('one').click()")
    browser.wait_for("document.getElementById('step').textContent === '10'")
    assert browser.value("isTheSame") and browser.text("student") == "ann"


def test_a_page_that_the_teacher_ends_stays_ended(lesson: PagedLesson, browser: Any) -> None:
    opened(browser, lesson, "ben")
    lesson.types("k ben")
    shows(browser, "message", "The teacher has ended this page")
    time.sleep(1)
    shows(browser, "message", "The teacher has ended this page")
    assert browser.value("document.getElementById('play').disabled") and browser.text("waits") == ""


def test_the_wall_goes_on_when_the_class_does(lesson: PagedLesson, browser: Any) -> None:
    browser.open(lesson.wall_link())
    browser.wait_for("document.querySelectorAll('.student').length === 3")
    lesson.kill()
    shows(browser, "about", "The class cannot be reached")
    lesson.begin()
    shows(browser, "about", "of 3 students are in")
