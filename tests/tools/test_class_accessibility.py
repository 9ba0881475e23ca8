"""The page of a student in Chromium, for those who use no mouse or cannot see it, and in another language."""
import pathlib
from typing import Any

import pytest

from accessibility import misnamed, too_pale, way_of_focus
from browsing import CHROMIUM, Browser
from class_pages import begun, link_of

pytestmark = pytest.mark.skipif(not CHROMIUM, reason="Chromium is not installed")

READY = "document.getElementById('settings')?.elements.atoms.options.length && document.getElementById('send')?.disabled === false"
CATCH = "navigator.clipboard.writeText = (text) => ((window.copied = text), Promise.resolve())"


def test_names_contrast_focus_language_and_link(tmp_path: pathlib.Path) -> None:
    """The link of the slip may have a language. The link of a scene has neither the token nor this language."""
    with begun(tmp_path, "ann") as lesson, Browser(1280, 900, "--ignore-certificate-errors") as browser:
        before, behind = link_of(lesson.slips(), "ann")
        browser.open(f"{before}?lang=de#{behind}")
        browser.wait_for(READY)
        assert (browser.value("document.documentElement.lang"), browser.text("play")) == ("de", "Abspielen")
        assert {each.id for each in misnamed(browser)} <= {"replies"} and too_pale(browser) == []
        names = [name for name, _ in way_of_focus(browser)]
        assert names[:4] == ["leave", "language", "play", "one"] and {"send", "commands", "link"} <= set(names)
        link = copied(browser)
        assert link.startswith(f"{before}#scene=") and lesson.tokens()["ann"] not in link and "lang" not in link
        browser.leave()
        browser.open(link)
        browser.wait_for("document.getElementById('message')?.textContent.startsWith('This is step 1 of the link, bit for bit: ')")
        assert browser.faults == []


def copied(browser: Any) -> str:
    """The link to the scene after one step."""
    browser.value(f"{CATCH}; document.getElementById('one').click()")
    browser.wait_for("document.getElementById('step').textContent === '1'")
    browser.value("document.getElementById('link').click()")
    browser.wait_for("window.copied")
    return str(browser.value("copied"))
