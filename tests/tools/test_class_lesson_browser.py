"""The lesson of a class in Chromium, on a screen and on a phone: it is done by keys alone, in the language of the browser or another."""
import json
import os
import pathlib
from typing import Any, Dict, Iterator, List

import pytest

from browsing import CHROMIUM, Browser
from class_pages import PagedLesson, begun, link_of
from lesson_solutions import SOLUTIONS, wrong_answer
from ljclient import lesson as lessons
from support import EXAMPLES

pytestmark = pytest.mark.skipif(not CHROMIUM, reason="Chromium is not installed")

PICTURES = os.environ.get("LJVIEW_PICTURES")  # a folder for pictures of the page, if somebody wants to look
LESSONS = EXAMPLES / "lessons"
# The control for the language of the page, or else of the lesson.
LANGUAGE = "(document.getElementById('language') ?? document.getElementById('lesson-language'))"
SENT = "document.querySelectorAll('#replies .sent')"
SIZES = {"ann": (1280, 900), "ben": (850, 900), "cleo": (390, 844)}


@pytest.fixture(scope="module")
def lesson(tmp_path_factory: pytest.TempPathFactory) -> Iterator[PagedLesson]:
    with begun(tmp_path_factory.mktemp("class"), *SIZES, "--lesson", LESSONS / "two_atoms.en") as lesson:
        yield lesson


@pytest.fixture(params=SIZES)
def browser(request: pytest.FixtureRequest, lesson: PagedLesson) -> Iterator[Any]:
    """A German browser that has opened the page of a student. Each size has its own student."""
    width, height = SIZES[request.param]
    with Browser(width, height, "--ignore-certificate-errors") as browser:
        browser.ask("Emulation.setDeviceMetricsOverride", width=width, height=height, deviceScaleFactor=1, mobile=width < 500)
        browser.ask("Emulation.setUserAgentOverride", userAgent="test", acceptLanguage="de-DE,de")
        browser.open("#".join(link_of(lesson.slips(), request.param)))
        browser.wait_for("document.getElementById('lesson')?.hidden === false")
        browser.name, browser.width = request.param, width
        yield browser
        assert not browser.faults


def keep(browser: Any, name: str) -> None:
    if PICTURES:
        pathlib.Path(PICTURES, f"lesson-{name}-{browser.width}.png").write_bytes(browser.picture())


def says(browser: Any, line: str) -> None:
    """Types a command by keys, and waits for its reply."""
    sent = browser.value(f"{SENT}.length")
    browser.value("document.getElementById('commands').focus()")
    browser.value("document.getElementById('commands').select()")
    browser.ask("Input.insertText", text=line)
    browser.type("\r")
    browser.wait_for(f"{SENT}.length === {sent + 1} && !document.getElementById('send').disabled")


def answers(browser: Any, text: str) -> None:
    """Answers by keys: a choice by its box, or a number."""
    browser.wait_for("!document.getElementById('lesson-question').hidden")
    if browser.value("document.querySelector('#answers fieldset') !== null"):
        browser.value(f"document.querySelector('#answers [value=\"{text}\"]').click()")
        browser.value("document.querySelector('#answers :checked').focus()")
        browser.type("\r")
    else:
        browser.value("document.querySelector('#answers input').focus()")
        browser.value("document.querySelector('#answers input').select()")
        browser.ask("Input.insertText", text=text)
        browser.type("\r")


def told(browser: Any, text: str) -> None:
    browser.wait_for(f"document.getElementById('lesson-told').textContent.includes({json.dumps(text)})")


def texts_of(language: str) -> Dict[str, str]:
    return lessons.read(LESSONS / f"two_atoms.{language}").texts


def shown(text: str) -> str:
    """A text without its backquotes."""
    return text.replace("`", "")


def test_a_lesson_can_be_told_aloud(browser: Any) -> None:
    """Each control has a role and a name, messages are in live regions, and keys reach all of it."""
    nodes = browser.ask("Accessibility.getFullAXTree")["nodes"]
    seen = [(node["role"]["value"], node.get("name", {}).get("value", "")) for node in nodes if not node.get("ignored")]
    assert not [role for role, name in seen if role in ("button", "combobox", "textbox", "radio") and not name]
    german = texts_of("de")
    assert ("heading", german["title"]) in seen and ("list", "Schritte der Lektion") in seen
    assert ("button", "Hinweis zeigen") in seen and ("combobox", "Sprache") in seen and ("textbox", "Commands") in seen
    reached: List[str] = []
    browser.value(f"{LANGUAGE}.focus()")
    for _ in range(12):
        browser.type("\t")
        reached.append(browser.value("document.activeElement.id"))
    assert [each for each in reached if each in ("hint", "commands", "send")] == ["hint", "commands", "send"]
    browser.value("document.getElementById('hint').focus()")
    browser.type("\r")
    assert browser.value("document.getElementById('hint').getAttribute('aria-expanded')") == "true"
    assert browser.text("hint-text") == shown(german["load hint"])
    assert [browser.value(f"document.getElementById('{name}').ariaLive") for name in ("lesson-text", "lesson-told")] == ["polite", "polite"]
    assert min(contrasts(browser)) >= 4.5


def contrasts(browser: Any) -> List[float]:
    """The contrast of each text of the lesson with its background, by WCAG."""
    found: List[float] = browser.value(CONTRASTS)
    assert found
    return found


CONTRASTS = """
(() => {
  const partOf = (part) => (part <= 0.04045 ? part / 12.92 : ((part + 0.055) / 1.055) ** 2.4);
  const light = (colour) => {
    const [r, g, b] = colour.match(/[\\d.]+/g).map((part) => partOf(part / 255));
    return 0.2126 * r + 0.7152 * g + 0.0722 * b;
  };
  const ground = (element) => {
    const colour = getComputedStyle(element).backgroundColor;
    return /, 0\\)$/.test(colour) && element.parentElement ? ground(element.parentElement) : colour;
  };
  const hasText = (element) => [...element.childNodes].some((node) => node.nodeType === 3 && node.data.trim());
  const texts = [...document.querySelectorAll("#lesson *")].filter(hasText);
  const pairs = texts.map((each) => [light(getComputedStyle(each).color), light(ground(each))].sort((a, b) => b - a));
  return pairs.map(([high, low]) => (high + 0.05) / (low + 0.05));
})()
"""


def test_a_lesson_is_done_by_keys(browser: Any) -> None:
    german, english = texts_of("de"), texts_of("en")
    assert browser.text("lesson-title") == german["title"] and browser.text("lesson-at") == "Schritt 1 von 5"
    assert (
        browser.value("document.getElementById('lesson').lang") == "de" and browser.value("document.getElementById('commands').value") == ""
    )
    keep(browser, "begin")
    for line in SOLUTIONS["two_atoms"]:
        verb, *words = line.split()
        if verb == ".answer":
            answers(browser, wrong_answer(words[0]))
            told(browser, "ist nicht richtig")
            keep(browser, f"wrong-{words[0]}")
            answers(browser, words[0])
            told(browser, "Das ist richtig.")
        else:
            says(browser, line)
    browser.wait_for("document.getElementById('lesson-at').textContent === 'Alle Schritte sind gemacht'")
    keep(browser, "end")
    assert (
        browser.text("lesson-text") == "Die Lektion ist zu Ende." and browser.value("document.querySelectorAll('#ticks .done').length") == 5
    )
    assert browser.value("document.documentElement.scrollWidth <= innerWidth")
    browser.value(f"{LANGUAGE}.value = 'en'")
    browser.value(f"{LANGUAGE}.dispatchEvent(new Event('change'))")
    browser.wait_for("document.getElementById('lesson').lang === 'en'")
    assert browser.text("lesson-title") == english["title"] and browser.text("lesson-text") == "The lesson is done."
