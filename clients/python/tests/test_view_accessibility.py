"""The live view for those who use no mouse, or do not see it, in Chromium: the accessibility tree, the focus, contrasts, and numbers."""
import json
import re
from typing import Any, Iterator

import pytest

from accessibility import contrast, misnamed, press, too_pale, way_of_focus
from browsing import CHROMIUM, Browser
from viewing import View

pytestmark = pytest.mark.skipif(not CHROMIUM, reason="Chromium is not installed")

ALL_CHARTS = "document.querySelectorAll('#charts input').forEach((each) => each.checked || each.click())"
# What has the focus in turn while the numbers are shown, before anything is saved.
FIRST = ["language", "play", "one", "reverse", "exact", "save", "restart", "second"]
CHARTS = ["of-distance", "of-energy", "of-second", "of-speeds", "of-radial", "axis", "distances", "energies"]
SLIDERS = ["depth", "thickness", "speed", "atoms", "temperature", "dt", "begin-anew", "shows-keys"]
NUMBERS = ["In numbers, and a tug by keys", "which", "atom", "right", "up", "tug"]
LAST = ["link", "picture", "csv"]
# Counts what a screen reader is told while it plays.
COUNT_TOLD = """window.told = [];
const live = document.querySelectorAll('[role=status], [role=alert], [aria-live=polite], output:not([aria-live=off], [aria-hidden])');
const observer = new MutationObserver((all) => told.push(...all.map(({ target }) => target.id || target.parentElement?.id)));
live.forEach((each) => observer.observe(each, { childList: true, characterData: true, subtree: true })); live.length"""


@pytest.fixture(scope="module")
def browser() -> Iterator[Any]:
    with Browser(1280, 900) as one:
        yield one


@pytest.fixture
def page(browser: Any) -> Iterator[Any]:
    """A page of the crystal, with its numbers."""
    browser.leave()
    with View() as view:
        browser.open(view.link)
        browser.wait_for("document.getElementById('message')?.textContent === 'Press Play.'")
        browser.value("document.getElementById('numbers').open = true")
        browser.wait_for("document.querySelectorAll('#places-now tr').length === 5")
        yield browser
        assert browser.faults == []


def step_to(page: Any, step: int) -> None:
    page.value("document.getElementById('one').click()")
    page.wait_for(f"document.getElementById('step').textContent === '{step}'")


def test_each_control_has_a_name_and_a_role(page: Any) -> None:
    page.value(ALL_CHARTS)
    page.wait_for("!document.getElementById('of-second').hidden")
    assert misnamed(page) == []
    page.value("document.getElementById('shows-keys').click()")
    boxes = [node for node in page.ask("Accessibility.getFullAXTree")["nodes"] if node.get("role", {}).get("value") == "checkbox"]
    assert "These keys press buttons" in [box["name"]["value"] for box in boxes]


def test_the_box_has_a_name_and_a_text(page: Any) -> None:
    step_to(page, 1)
    nodes = page.ask("Accessibility.getFullAXTree")["nodes"]
    (box,) = [node for node in nodes if node.get("name", {}).get("value") == "A thin slab of the atoms in their periodic box"]
    told = box["description"]["value"]
    assert re.fullmatch(r"256 atoms at step 1, time runs forward\. Temperature 1\.50 ε/k, distance from the start 0\.01\d σ\.", told)
    landmarks = {node["role"]["value"] for node in nodes if not node["ignored"]}
    assert {"banner", "main", "contentinfo", "region", "table", "heading"} <= landmarks


def test_the_focus_goes_through_all_in_order_and_is_seen(page: Any) -> None:
    way = way_of_focus(page)
    names = [name if name != "Restart" else "begin-anew" for name, _ in way]
    assert names == [*FIRST, *CHARTS, *SLIDERS, *NUMBERS, *LAST]
    for name, (style, width, colour, below) in way:
        assert style == "solid" and width >= 2 and contrast(colour, below) >= 3, name


def test_on_a_phone_the_focus_goes_down_the_page(page: Any) -> None:
    page.ask("Emulation.setDeviceMetricsOverride", width=390, height=844, deviceScaleFactor=1, mobile=False)
    try:
        top = "document.activeElement.getBoundingClientRect().bottom + scrollY"
        page.value("document.activeElement.blur(); getSelection().collapse(document.body, 0); 0")
        places = []
        for _ in [*FIRST, *CHARTS, *SLIDERS, *NUMBERS, *LAST]:
            press(page, "Tab", 9)
            places.append(page.value(top))
        assert all(one <= other + 12 for one, other in zip(places, places[1:])), places
        assert page.value("document.documentElement.scrollWidth") <= 390
    finally:
        page.ask("Emulation.clearDeviceMetricsOverride")


@pytest.mark.parametrize("scheme", ["light", "dark"])
def test_texts_and_controls_have_contrast(page: Any, scheme: str) -> None:
    """The lines of the charts too, at their strongest."""
    page.in_scheme(scheme)
    try:
        page.value(ALL_CHARTS)
        page.value("document.getElementById('exact').click()")
        page.wait_for("document.getElementById('message').textContent.startsWith('256 of 256')")
        assert too_pale(page) == []
        style = "getComputedStyle(document.documentElement).getPropertyValue('--%s')"
        card = page.value(style % "card")
        assert contrast(page.value(style % "soft"), card) >= 4.5
        for name in ("forward", "backward", "kinetic", "potential", "total", "speeds", "radial", "ink"):
            assert contrast(page.value(style % name), card) >= 3, name
    finally:
        page.in_scheme("light")


def test_a_tug_by_keys(page: Any) -> None:
    """By 1 sigma to the right, which is 2 sigma per unit of time."""
    before = page.text("kinetic")
    page.value("document.querySelector('#pull [name=atom]').focus(); document.activeElement.select()")
    page.type("7\t1\t0\r")
    page.wait_for("document.getElementById('message').textContent.startsWith('Atom 7 was tugged at step 0, by 2.0 σ per unit of time')")
    step_to(page, 1)
    assert page.text("kinetic") != before


def test_the_numbers_are_those_that_are_shown(page: Any) -> None:
    step_to(page, 1)
    page.wait_for("document.querySelector('#state-now td').textContent === '1'")
    rows = dict(
        page.value("[...document.querySelectorAll('#state-now tr')].map((row) => [...row.children].map((each) => each.textContent))")
    )
    assert (rows["step"], rows["direction of time"], rows["number of atoms"]) == ("1", "forward", "256")
    for name, shown in (
        ("kinetic", "kinetic"),
        ("total", "total"),
        ("Temperature", "temperature"),
        ("Distance from the start", "distance"),
    ):
        assert rows[name].split(" ")[0] == page.text(shown).split(" ")[0]
    assert page.value("document.querySelectorAll('#places-now tr').length") == 5


def test_the_places_of_the_atoms_that_are_named(page: Any) -> None:
    """Atom 2 of the crystal begins half a cell along x and z, and of 256 atoms the edge is four cells: (256 / 0.8442)^(1/3) sigma."""
    name = "document.getElementById('which')"
    page.value(f"{name}.value = '2, 250-252'; {name}.dispatchEvent(new Event('input'))")
    rows = page.value("[...document.querySelectorAll('#places-now tr')].map((row) => [...row.children].map((each) => each.textContent))")
    half = f"{(256 / 0.8442) ** (1 / 3) / 8:.4f}"
    assert rows[0] == ["2", half, "0.0000", half, "0.0000"]
    assert [row[0] for row in rows] == ["2", "250", "251", "252"]
    for wrong in ("256", "0-99", "two", "", "3-1", "1,,2", "<b>"):
        page.value(f"{name}.value = {json.dumps(wrong)}; {name}.dispatchEvent(new Event('input'))")
        fault = f"Atoms must be numbers from 0 to 255, such as 0-4, 17, and at most 64, got {wrong}."
        assert (page.text("which-fault"), page.value(f"{name}.ariaInvalid")) == (fault, "true")
    page.value(f"{name}.value = '0-63'; {name}.dispatchEvent(new Event('input'))")
    assert page.text("which-fault") == "" and page.value("document.querySelectorAll('#places-now tr').length") == 64


def test_frames_are_not_told_one_by_one(page: Any) -> None:
    page.value(COUNT_TOLD)
    page.click("play")
    page.wait_for("Number(document.getElementById('step').textContent) >= 60")
    page.click("play")
    page.wait_for("document.getElementById('play').textContent === 'Play'")
    assert page.value("told") == ["message"]


def test_a_chart_is_read_by_keys(page: Any) -> None:
    step_to(page, 1)
    step_to(page, 2)
    page.value("document.getElementById('distances').focus()")
    at = "document.getElementById('distances').parentElement.querySelector('.at').textContent"
    press(page, "ArrowLeft", 37)
    page.wait_for(f"{at}.startsWith('step 1 · 0.005524 τ: 0.01')")
    assert page.value("document.getElementById('distances').ariaValueText") == page.value(at)
    press(page, "PageUp", 33)
    page.wait_for(f"{at}.startsWith('step 2 · ')")
    press(page, "Tab", 9)
    page.wait_for(f"{at} === ''")


def test_the_keys_of_the_page_can_be_turned_off(page: Any) -> None:
    """Then Space presses the button that has the focus."""
    page.value("document.getElementById('keys-press').click(); document.getElementById('save').focus()")
    press(page, "r", 82, "r")
    press(page, " ", 32, " ")
    page.wait_for("document.getElementById('message').textContent === 'Saved at step 0.'")
    assert (page.text("direction"), page.text("play")) == ("forward", "Play")


def test_nothing_moves_for_those_who_ask_for_that(page: Any) -> None:
    moves = "[...document.querySelectorAll('*')].filter((each) => parseFloat(getComputedStyle(each).transitionDuration) > 0).length"
    assert page.value(moves) > 0
    page.ask("Emulation.setEmulatedMedia", features=[{"name": "prefers-reduced-motion", "value": "reduce"}])
    assert page.value(moves) == 0
    page.ask("Emulation.setEmulatedMedia", features=[])
    assert page.value("document.documentElement.lang") == "en"
