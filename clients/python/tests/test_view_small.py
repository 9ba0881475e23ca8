"""The live view on small screens and by touch, in Chromium."""
import os
import pathlib
from typing import Any, Iterator, Tuple

import pytest

from browsing import CHROMIUM
from viewing import View

pytestmark = pytest.mark.skipif(not CHROMIUM, reason="Chromium is not installed")

PICTURES = os.environ.get("LJVIEW_PICTURES")  # a folder to put what the page looks like into, where somebody wants to look
# The third atom stands in the middle of the box, and feels neither of the others.
ATOMS = "3\n\nAr 0 0 0\nAr 1.5 0 0\nAr 10 10 0\n"
WIDTHS = [320, 360, 390, 400, 600, 821, 850, 880, 1280]
FRAME_IS_DRAWN = "new Promise(done => requestAnimationFrame(() => requestAnimationFrame(done))).then(() => true)"


@pytest.fixture
def page(browser: Any, tmp_path: pathlib.Path) -> Iterator[Any]:
    """A page of three atoms, which is as wide as a test says by `resize`."""
    path = tmp_path / "three.xyz"
    path.write_text(ATOMS)
    browser.leave()
    with View(path, "--edge", 20, "--h", 131072) as view:
        browser.open(view.link)
        browser.wait_for("document.getElementById('about')?.textContent.includes('3 atoms')")
        yield browser
        browser.ask("Emulation.clearDeviceMetricsOverride")
        browser.ask("Emulation.setTouchEmulationEnabled", enabled=False)
        assert browser.faults == []


def resize(browser: Any, width: Any, height: Any) -> None:
    browser.ask("Emulation.setDeviceMetricsOverride", width=width, height=height, deviceScaleFactor=1, mobile=False)
    browser.wait_for(f"innerWidth === {width}")
    browser.value(FRAME_IS_DRAWN)


def picture(browser: Any, name: Any) -> None:
    if PICTURES:
        (pathlib.Path(PICTURES) / f"{name}.png").write_bytes(browser.picture())


def place(browser: Any, name: Any) -> Any:
    return browser.value(f"document.getElementById('{name}').getBoundingClientRect().toJSON()")


def test_no_width_overflows(page: Any) -> None:
    """With the longest texts that its parts can have: time runs backward, and a step is saved that has six digits."""
    page.value("document.getElementById('direction').textContent = 'backward'")
    page.value("document.getElementById('restore').textContent = 'Restore step 123,456'")
    overflows = {}
    for width in WIDTHS:
        resize(page, width, 844)
        shown = page.value("document.documentElement.scrollWidth")
        if shown > width:
            overflows[width] = shown
    assert overflows == {}


def test_a_phone_shows_the_box_the_buttons_the_message_and_a_chart(page: Any) -> None:
    resize(page, 390, 844)
    for name in ("box", "play", "one", "reverse", "exact", "save", "restore", "restart", "message", "distances"):
        shown = place(page, name)
        assert 0 <= shown["top"] and shown["bottom"] <= 844, name
    assert place(page, "box")["width"] >= 300


def test_on_a_phone_the_box_stays_in_sight_with_the_last_slider(page: Any) -> None:
    resize(page, 390, 844)
    page.value("document.getElementById('speed').scrollIntoView({ block: 'end' })")
    assert place(page, "box")["top"] >= 0
    assert place(page, "box")["bottom"] <= place(page, "speed")["top"]


def touch(browser: Any, *events: Any) -> None:
    """Touches the page: each event has its kind and the points of the fingers."""
    each = [{"type": kind, "touchPoints": [{"x": x, "y": y} for x, y in points]} for kind, *points in events]
    browser.ask_all("Input.dispatchTouchEvent", each)


def middle_of_the_box(browser: Any) -> Tuple[Any, Any]:
    resize(browser, 390, 600)
    browser.ask("Emulation.setTouchEmulationEnabled", enabled=True)
    shown = place(browser, "box")
    return shown["left"] + shown["width"] / 2, shown["top"] + shown["height"] / 2


# Timers of the page that run when `passTime` is called, however slow the machine is.
TIMERS = """{
  const timers = new Map();
  window.setTimeout = (act) => timers.set(timers.size + 1, act).size;
  window.clearTimeout = (timer) => timers.set(timer, () => {});
  window.passTime = () => timers.forEach((act) => act());
}"""


def test_a_swipe_over_an_atom_scrolls_and_tugs_nothing(page: Any) -> None:
    x, y = middle_of_the_box(page)
    page.value(TIMERS)
    touch(page, ["touchStart", (x, y)], *(["touchMove", (x, y - moved)] for moved in range(20, 101, 20)), ["touchEnd"])
    page.wait_for("scrollY > 0")
    page.value("passTime()")
    assert not page.value("document.getElementById('box').classList.contains('holding')")
    assert page.text("message") == "Press Play."


def test_a_long_press_takes_an_atom(page: Any) -> None:
    x, y = middle_of_the_box(page)
    touch(page, ["touchStart", (x, y)])
    page.wait_for("document.getElementById('box').classList.contains('holding')")
    touch(page, ["touchMove", (x, y - 20)], ["touchMove", (x, y - 40)])
    picture(page, "touch")
    touch(page, ["touchEnd"])
    page.wait_for("document.getElementById('message').textContent.startsWith('Atom 2 was tugged')")
    assert page.value("scrollY") == 0


def test_a_tap_tugs_nothing(page: Any) -> None:
    x, y = middle_of_the_box(page)
    page.value(TIMERS)
    touch(page, ["touchStart", (x, y)], ["touchEnd"])
    page.value("passTime()")
    assert not page.value("document.getElementById('box').classList.contains('holding')")
    assert page.text("message") == "Press Play."


@pytest.mark.parametrize("scheme", ["light", "dark"])
def test_what_it_looks_like(browser: Any, scheme: Any) -> None:
    """For somebody who looks: what is tested is that nothing complains, and that nothing overflows while all is shown."""
    browser.leave()
    with View() as view:
        browser.in_scheme(scheme)
        browser.open(view.link)
        browser.wait_for("document.getElementById('message')?.textContent === 'Press Play.'")
        browser.click("second")
        browser.value("document.getElementById('play').click()")
        browser.wait_for("Number(document.getElementById('step').textContent.replaceAll(',', '')) >= 600")
        browser.value("document.getElementById('play').click()")
        for width, height in ((320, 700), (390, 844), (850, 800), (1280, 800)):
            resize(browser, width, height)
            picture(browser, f"{width}_{scheme}")
        browser.value("document.querySelectorAll('#charts input').forEach(box => box.checked || box.click())")
        for width, height in ((320, 2600), (390, 2400), (850, 1400), (1280, 1300)):
            resize(browser, width, height)
            picture(browser, f"{width}_{scheme}_all")
            assert browser.value("document.documentElement.scrollWidth") <= width
        browser.ask("Emulation.clearDeviceMetricsOverride")
        browser.in_scheme("light")
        assert browser.faults == []
