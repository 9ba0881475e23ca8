"""What a page of the live view has beside play and reverse, in Chromium: what it begins with, and what it shows and saves."""
import csv
import math
import os
import pathlib
import re
import time
from typing import Any, Dict, Iterator

import pytest

from browsing import CHROMIUM, Browser
from support import SECONDS, present
from viewing import View

pytestmark = pytest.mark.skipif(not CHROMIUM, reason="Chromium is not installed")

PICTURES = os.environ.get("LJVIEW_PICTURES")  # a folder to put what the page looks like into, where somebody wants to look
FRAME_IS_DRAWN = "new Promise(done => requestAnimationFrame(() => requestAnimationFrame(done))).then(() => true)"


@pytest.fixture(scope="module")
def browser() -> Iterator[Any]:
    with Browser(1280, 800) as one:
        yield one


@pytest.fixture
def page(browser: Any) -> Iterator[Any]:
    """A page of the crystal."""
    browser.leave()
    browser.ask("Emulation.setDeviceMetricsOverride", width=1280, height=800, deviceScaleFactor=1, mobile=False)
    with View() as view:
        browser.open(view.link)
        browser.wait_for("document.getElementById('message')?.textContent === 'Press Play.'")
        yield browser
        assert browser.faults == []


def picture(page: Any, name: Any) -> None:
    page.value(FRAME_IS_DRAWN)
    if PICTURES:
        (pathlib.Path(PICTURES) / f"{name}.png").write_bytes(page.picture())


def fill(page: Any, form: Any, **values: Any) -> None:
    """Types these values into the fields of a form, and presses its button."""
    fields = f"document.getElementById('{form}').elements"
    for name, value in values.items():
        page.value(f"{fields}.{name}.value = '{value}'")
    page.value(f"document.querySelector('#{form} button').click()")


def play_to(page: Any, step: Any) -> None:
    page.click("play")
    page.wait_for(f"Number(document.getElementById('step').textContent.replaceAll(',', '')) >= {step}")
    page.click("play")
    page.wait_for("document.getElementById('play').textContent === 'Play'")


def test_the_crystal_is_begun_anew_from_the_page(page: Any) -> None:
    fill(page, "settings", atoms=108, temperature=0.7, dt=0.001)
    page.wait_for("document.getElementById('about').textContent.includes('108 atoms')")
    assert page.text("about").endswith("a step is 0.0010 τ")
    page.click("one")
    page.wait_for("document.getElementById('step').textContent === '1'")
    assert page.text("temperature") == "0.70 ε/k"
    fill(page, "settings", dt=5)
    page.wait_for("document.getElementById('message').textContent.startsWith('dt must be from ')")
    assert page.text("step") == "1"
    picture(page, "begun_anew")


def test_a_second_run_is_drawn_with_its_distance(page: Any) -> None:
    page.click("second")
    page.wait_for("document.getElementById('message').textContent.startsWith('A second run from step 0')")
    play_to(page, 800)
    assert float(page.text("apart").replace("\u2212", "-")) > 1e-8
    assert page.value("document.getElementById('second').getAttribute('aria-pressed')") == "true"
    picture(page, "second")
    page.click("reverse")
    page.wait_for("document.getElementById('direction').textContent === 'backward'")
    page.click("play")
    page.wait_for("Number(document.getElementById('step').textContent) <= 400")
    page.click("play")
    show(page, "of-distance", "of-second")
    page.wait_for("getComputedStyle(document.getElementById('arrow')).transform.startsWith('matrix(-1, ')")
    picture(page, "view")
    page.click("play")
    page.wait_for("document.getElementById('step').textContent === '0'")
    assert page.text("apart") == "0"
    picture(page, "second_back")
    page.click("second")
    page.wait_for("document.getElementById('of-second').hidden")


def of_script(page: Any, name: Any, text: Any) -> Any:
    """The value of an expression over what a script of the page exports."""
    return page.value(f"import('./{name}').then(script => {text})")


def show(page: Any, *charts: Any) -> None:
    """Ticks the boxes of these charts, and of no other."""
    page.value(
        f"""document.querySelectorAll('#charts input').forEach(box => {{
      if (box.checked !== {list(charts)}.includes(box.value)) box.click();
    }})"""
    )


def test_speeds_and_distances_are_shown_of_the_frame(page: Any) -> None:
    """At the sites of a crystal the first twelve neighbours are half the diagonal of a face away, and no pair is nearer."""
    show(page, "of-speeds", "of-radial")
    page.click("one")
    page.wait_for("document.getElementById('step').textContent === '1'")
    picture(page, "speeds_at_first")
    play_to(page, 300)
    assert page.text("unit-of-speeds") == "σ/τ"
    picture(page, "speeds")


def test_the_radial_distribution_of_a_crystal(page: Any) -> None:
    """Each of 256 atoms has 12 neighbours at 0.5^0.5 of a fourth of the edge: in that bin g is their number beside that of atoms
    which lie anywhere."""
    sites = [
        [(cell + part) * 2**30 for cell, part in zip((i, j, k), face)]
        for i in range(4)
        for j in range(4)
        for k in range(4)
        for face in ((0, 0, 0), (0.5, 0.5, 0), (0.5, 0, 0.5), (0, 0.5, 0.5))
    ]
    flat = [part for site in sites for part in site]
    found = of_script(page, "measures.js", f"[...script.radial(new Float64Array({flat}), 6.72, 0.05)]")
    first = int(6.72 / 4 * 0.5**0.5 / 0.05)
    anywhere = 255 / 6.72**3 * 4 / 3 * math.pi * 0.05**3 * ((first + 1) ** 3 - first**3)
    assert len(found) == 67
    assert found[:first] == [0] * first
    assert abs(found[first] - 12 / anywhere) < 1e-9


def test_speeds_of_atoms(page: Any) -> None:
    """One is 3, 4 and 12 units further, round the box: 13 units. With sigma 100 units and a step of 0.01 it is 13 sigma a unit."""
    places = "new Float64Array([1, 4, 12, 7, 7, 7]), new Float64Array([2 ** 32 - 2, 0, 0, 7, 7, 7])"
    assert of_script(page, "measures.js", f"[...script.speeds({places}, {{ sigma: 100, reduced_dt: 0.01 }})]") == [13, 0]
    assert of_script(page, "measures.js", "[...script.shares([0.1, 0.3, 0.4, 9], 0.25, 3)]") == [1, 2, 0]
    curve = "Array.from({ length: 1000 }, (_, k) => script.maxwell(k / 100, 1.5) / 100)"
    whole = of_script(page, "measures.js", f"{curve}.reduce((a, b) => a + b)")
    assert abs(whole - 1) < 1e-6
    mean = of_script(page, "measures.js", f"{curve}.map((share, k) => share * k / 100).reduce((a, b) => a + b)")
    assert abs(mean - (8 * 1.5 / math.pi) ** 0.5) < 1e-4


# A chart of speeds of its own, which tells the labels along its bottom each time that it is drawn.
DRAWN_TWICE = """script => {
  const canvas = document.body.appendChild(document.createElement('canvas'));
  canvas.style = 'width: 400px; height: 110px';
  const chart = new script.Speeds(canvas);
  const labels = () => {
    const written = [];
    chart.pen.fillText = (text) => chart.pen.textAlign === 'center' && written.push(text);
    chart.draw();
    return written;
  };
  chart.take(new Float64Array(6), new Float64Array(6), { sigma: 100, reduced_dt: 0.01, speed: SPEED }, 1, true);
  const drawn = [labels(), labels()];
  canvas.remove();
  return drawn;
}"""


@pytest.mark.parametrize("speed, labels", [("null", ["0", "1", "2", "3", "4", "5"]), ("200", ["0", "200", "400", "600", "800", "1,000"])])
def test_an_axis_of_speeds_stays_when_it_is_drawn_again(page: Any, speed: Any, labels: Any) -> None:
    """It reaches five times the root of the temperature, which is 1 here: 5 in sigma / tau, or with 200 m/s for each of these 1,000."""
    drawn = page.value(f"import('./profiles.js').then({DRAWN_TWICE.replace('SPEED', speed)})")
    assert drawn == [labels, labels]


def test_the_axis_of_speeds_stays_while_it_plays(page: Any) -> None:
    """The crystal begins at a temperature of 1.5, and is not above 3 later: the axis reaches 5 times the root of that at most."""
    page.value(
        """{
      const write = CanvasRenderingContext2D.prototype.fillText;
      window.labels = [];
      CanvasRenderingContext2D.prototype.fillText = function (text, ...where) {
        if (this.canvas.id === 'speeds' && this.textAlign === 'center') labels.push(Number(text.replaceAll(',', '')));
        return write.call(this, text, ...where);
      };
    }"""
    )
    show(page, "of-speeds")
    page.click("play")
    page.wait_for("labels.length > 100")
    page.click("play")
    assert page.value("Math.max(...labels)") <= 5 * 3**0.5
    picture(page, "speeds_while_it_plays")


def hover(page: Any, chart: Any, share: Any) -> None:
    """Moves the mouse over a chart, at a share of its width."""
    at = page.value(f"document.getElementById('{chart}').getBoundingClientRect().toJSON()")
    page.ask("Input.dispatchMouseEvent", type="mouseMoved", x=at["x"] + share * at["width"], y=at["y"] + at["height"] / 2)
    page.value(FRAME_IS_DRAWN)


def told_at(page: Any, chart: Any) -> Any:
    return page.value(f"document.getElementById('{chart}').parentElement.querySelector('.at').textContent")


def test_time_and_the_values_at_the_pointer(page: Any) -> None:
    """131072 / 2^32 is the square of the time step. Exact? is answered after each frame that was asked for."""
    play_to(page, 300)
    page.click("exact")
    page.wait_for("document.getElementById('message').textContent.startsWith('0 of 256')")
    step = int(page.text("step"))
    shown = float(page.text("clock").split()[0])
    assert abs(shown - step * (131072 / 2**32) ** 0.5) < 0.001
    hover(page, "distances", 0.99)
    told = re.fullmatch(r"step (\d+) · ([\d.]+) τ: ([\d.]+) σ", told_at(page, "distances"))
    assert (int(present(told)[1]), float(present(told)[2])) == (step, shown)
    assert abs(float(present(told)[3]) - float(page.text("distance"))) < 0.001
    hover(page, "energies", 0.5)
    picture(page, "hover")
    assert told_at(page, "distances") == ""
    told = re.fullmatch(r"step (\d+) · ([\d.]+) τ: ([\d.]+), −([\d.]+), −([\d.]+)", told_at(page, "energies"))
    assert 0 < int(present(told)[1]) < step
    kinetic, total, potential = (sign * float(present(told)[k]) for sign, k in ((1, 3), (-1, 4), (-1, 5)))
    assert abs(kinetic + potential - total) < 0.002
    page.value("(axis => { axis.value = 'time'; axis.dispatchEvent(new Event('change')); })(document.getElementById('axis'))")
    assert page.value("document.getElementById('axis').selectedOptions[0].textContent") == "time in τ"
    picture(page, "in_time")


def test_time_in_picoseconds(page: Any) -> None:
    text = "[new script.Clock({ dt: 10.0005, reduced_dt: 0.0046 }).text(250), script.stepText(-1200, null)]"
    assert of_script(page, "clock.js", text) == ["2.5 ps", "step −1,200"]


def saved_files(page: Any, folder: Any, *buttons: Any) -> Dict[Any, Any]:
    """The files that the browser saves by these buttons, by their endings."""
    page.ask("Browser.setDownloadBehavior", behavior="allow", downloadPath=str(folder))
    for button in buttons:
        page.value(f"document.getElementById('{button}').click()")
    end = time.monotonic() + SECONDS
    while len(found := [path for path in folder.iterdir() if path.suffix in (".png", ".csv")]) < len(buttons):
        assert time.monotonic() < end, list(folder.iterdir())
        time.sleep(0.05)
    return {path.suffix: path for path in found}


def test_a_picture_and_the_rows_are_saved(page: Any, tmp_path: pathlib.Path) -> None:
    for step in (1, 2):
        page.click("one")
        page.wait_for(f"document.getElementById('step').textContent === '{step}'")
    files = saved_files(page, tmp_path, "picture", "csv")
    assert files[".png"].name == "A_crystal_that_melts_step_2.png"
    shown = files[".png"].read_bytes()
    assert shown.startswith(b"\x89PNG\r\n\x1a\n") and len(shown) > 20000
    if PICTURES:
        (pathlib.Path(PICTURES) / "saved.png").write_bytes(shown)
    with files[".csv"].open(newline="") as file:
        rows = list(csv.reader(file))
    assert rows[0] == [
        "step",
        "time (tau)",
        "direction",
        "distance (sigma)",
        "kinetic (epsilon)",
        "potential (epsilon)",
        "total (epsilon)",
        "temperature (epsilon/k)",
        "apart (sigma)",
    ]
    assert [row[0] for row in rows[1:]] == ["0", "1", "2"]
    assert abs(float(rows[3][1]) - 2 * (131072 / 2**32) ** 0.5) < 1e-12
    assert (rows[1][3], rows[1][8]) == ("0", "")
    assert abs(float(rows[3][4]) + float(rows[3][5]) - float(rows[3][6])) < 1e-12
    assert abs(float(rows[3][4]) * 2 / 3 - float(rows[3][7])) < 1e-12
