"""The live view of a simulation that has burst, in Chromium: what the page says of it, and labels of large numbers."""
import json
import os
import pathlib
from typing import Any, Iterator

import pytest

from browsing import CHROMIUM
from viewing import View

pytestmark = pytest.mark.skipif(not CHROMIUM, reason="Chromium is not installed")

PICTURES = os.environ.get("LJVIEW_PICTURES")  # a folder to put what the page looks like into, where somebody wants to look
BURST = "The simulation has burst: the energy of an atom is more than 10 ε off its start, not counting tugs."
FRAME_IS_DRAWN = "new Promise(done => requestAnimationFrame(() => requestAnimationFrame(done))).then(() => true)"
# A chart of its own, which tells what it writes and where: text, first and last pixel, and whether it is of a step.
WRITTEN = """import('./charts.js').then(script => {
  const canvas = document.body.appendChild(document.createElement('canvas'));
  canvas.style = 'width: 260px; height: 110px';
  const chart = new script.Chart(canvas, [{ value: 'energy', colour: () => '--total' }], [0, 0]);
  const history = new script.History(), written = [], pen = chart.pen;
  pen.fillText = (text, x) => {
    const width = pen.measureText(text).width, left = x - width * { right: 1, center: 0.5 }[pen.textAlign];
    written.push({ text, left, right: left + width, ofStep: pen.textAlign === 'center' });
  };
  for (const [step, energy] of ROWS) history.add({ step, energy, direction: 1, follows: step > 0 });
  chart.draw(history);
  canvas.remove();
  return written;
})"""


@pytest.fixture
def opened(browser: Any, tmp_path: pathlib.Path) -> Iterator[Any]:
    """Opens a page of these atoms with these options, until the test ends. Without atoms it is the crystal."""
    views = []

    def open_page(atoms: Any, *options: Any) -> Any:
        path = tmp_path / "atoms.xyz"
        path.write_text(atoms)
        views.append(View(*([path, "--edge", 20] if atoms else []), *options))
        browser.open(views[0].link)
        browser.wait_for("document.getElementById('message')?.textContent === 'Press Play.'")
        browser.value(FRAME_IS_DRAWN)  # an atom can be taken where it was drawn
        return browser

    browser.leave()
    yield open_page
    faults = list(browser.faults)
    for view in views:
        view.end()
    assert faults == []


# In units of sigma. The potential energy of 0.6 sigma is 4 (0.6^-12 - 0.6^-6) = 1,751 epsilon.
CLOSE = "2\n\nAr 0 0 0\nAr 0.6 0 0\n"
APART = "2\n\nAr 10 10 0\nAr 3 3 0\n"
# With this step factor the crystal of 256 atoms bursts after some 60 steps.
LARGE = ["--h", 5000000]


def warning_is(browser: Any, text: Any) -> Any:
    browser.wait_for(f"document.getElementById('warning').textContent.startsWith({json.dumps(text)})")
    return browser.text("warning")


def play_until(browser: Any, condition: Any) -> None:
    browser.click("play")
    browser.wait_for(condition)
    browser.click("play")


def test_a_burst_is_said_with_what_helps_for_as_long_as_it_is_true(opened: Any) -> None:
    page = opened("", *LARGE)
    assert page.text("warning") == ""
    page.click("play")
    told = warning_is(page, BURST)
    page.click("play")
    assert told == f"{BURST} Restart with a smaller step than 0.03412 τ."
    page.click("exact")
    page.wait_for("document.getElementById('message').textContent.startsWith('0 of 256')")
    assert page.text("warning") == told
    if PICTURES:
        (pathlib.Path(PICTURES) / "burst.png").write_bytes(page.picture())
    page.click("save")
    page.wait_for("document.getElementById('message').textContent.startsWith('Saved')")
    page.click("restart")
    page.wait_for("document.getElementById('warning').textContent === ''")
    page.click("restore")
    assert warning_is(page, BURST) == told
    page.click("reverse")
    page.wait_for("document.getElementById('direction').textContent === 'backward'")
    page.click("play")
    page.wait_for("document.getElementById('step').textContent === '0'")
    assert page.text("warning") == ""


def test_femtoseconds_are_named_where_they_were_said(opened: Any) -> None:
    page = opened(CLOSE, "--sigma", 1, "--dt", 30)
    page.click("play")
    assert warning_is(page, BURST) == f"{BURST} Restart with a smaller step than 30 fs."


def test_a_tug_is_no_burst(opened: Any) -> None:
    """By 10 sigma per unit of time one of two atoms is given 50 epsilon, which is 25 an atom."""
    page = opened(APART, "--h", 131072)
    box = page.value("document.getElementById('box').getBoundingClientRect().toJSON()")
    x, y = page.take(lambda shown: (shown["x"] + shown["width"] / 2, shown["y"] + shown["height"] / 2))
    page.mouse("mouseMoved", x, y + box["height"] / 2.5)
    page.mouse("mouseReleased", x, y + box["height"] / 2.5)
    page.wait_for("document.getElementById('message').textContent.includes('by 10 σ')")
    assert float(page.text("kinetic")) == 25
    play_until(page, "Number(document.getElementById('step').textContent) >= 40")
    assert page.text("warning") == ""


@pytest.mark.parametrize(
    "rows",
    [
        [[0, 0], [12345, 12345]],
        [[0, -6], [123456, 123456]],
        [[-200000, -98765], [987654, 876543]],
        [[0, 0], [12345678, 8e11]],
    ],
)
def test_labels_are_whole_and_apart(opened: Any, rows: Any) -> None:
    page = opened(APART, "--h", 131072)
    written = page.value(WRITTEN.replace("ROWS", json.dumps(rows)))
    assert [label for label in written if label["left"] < 0 or label["right"] > 260] == []
    steps = [label for label in written if label["ofStep"]]
    assert len(steps) >= 2
    assert all(one["right"] < other["left"] for one, other in zip(steps, steps[1:])), steps


@pytest.mark.parametrize(
    "value, text",
    [
        (0, "0"),
        (-0.05, "−0.05"),
        (0.00002, "2e−5"),
        (12000, "12,000"),
        (-250000, "−250,000"),
        (1200000, "1.2e6"),
        (-8e11, "−8e11"),
    ],
)
def test_a_label_has_few_letters(opened: Any, value: Any, text: Any) -> None:
    page = opened(APART, "--h", 131072)
    assert page.value(f"import('./charts.js').then(script => script.label({value}))") == text
