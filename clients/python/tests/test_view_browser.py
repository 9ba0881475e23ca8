"""The live view in Chromium: play, turn back to distance 0, tug, save and restore, and what it looks like."""
import os
import pathlib
import unittest
from typing import Any

from browsing import CHROMIUM, Browser
from support import SECONDS
from viewing import View

PICTURES = os.environ.get("LJVIEW_PICTURES")  # a folder to put what the page looks like into, where somebody wants to look
PNG = b"\x89PNG\r\n\x1a\n"


@unittest.skipUnless(CHROMIUM, "Chromium is not installed")
class InABrowser(unittest.TestCase):
    browser: Any

    @classmethod
    def setUpClass(cls) -> None:
        cls.browser = Browser()
        cls.addClassCleanup(cls.browser.end)

    def setUp(self) -> None:
        self.view = View("--port", "0")
        self.addCleanup(self.view.end)
        self.browser.leave()
        self.browser.open(self.view.link)
        self.browser.wait_for("document.getElementById('about')?.textContent.includes('256 atoms')")

    def tearDown(self) -> None:
        self.assertEqual(self.browser.faults, [])

    def step(self) -> int:
        return int(self.browser.text("step").replace(",", ""))

    def play_to(self, step: Any, sign: str = ">=") -> None:
        """Plays until this step is reached or passed, and pauses."""
        self.browser.click("play")
        self.browser.wait_for(f"Number(document.getElementById('step').textContent.replaceAll(',', '')) {sign} {step}")
        self.browser.click("play")
        self.browser.wait_for("document.getElementById('play').textContent === 'Play'")

    def picture(self, name: Any) -> None:
        shown = self.browser.picture()
        self.assertTrue(shown.startswith(PNG))
        self.assertGreater(len(shown), 20000)
        if PICTURES:
            (pathlib.Path(PICTURES) / f"{name}.png").write_bytes(shown)

    def angle(self) -> Any:
        """By how far the arrow of time is turned."""
        text = "new DOMMatrix(getComputedStyle(document.getElementById('arrow')).transform)"
        return self.browser.value(f"(m => Math.round(Math.atan2(m.b, m.a) * 180 / Math.PI))({text})") % 360

    def test_there_and_back(self) -> None:
        self.play_to(400)
        self.assertGreater(float(self.browser.text("distance")), 0.1)
        self.assertEqual(self.angle(), 0)
        self.browser.click("exact")
        self.browser.wait_for("document.getElementById('message').textContent.startsWith('0 of 256 atoms')")
        self.picture("there")
        self.browser.click("reverse")
        self.browser.wait_for("document.getElementById('direction').textContent === 'backward'")
        self.play_to(300, "<=")
        self.browser.wait_for("getComputedStyle(document.getElementById('arrow')).transform.startsWith('matrix(-1, ')")
        self.assertEqual(self.angle(), 180)
        self.picture("on_the_way_back")
        self.browser.click("play")
        self.browser.wait_for("document.getElementById('step').textContent === '0'")
        self.browser.wait_for("document.getElementById('play').textContent === 'Play'")
        self.assertEqual(self.browser.text("distance"), "0")
        self.browser.click("exact")
        self.browser.wait_for("document.getElementById('message').textContent.startsWith('256 of 256, bit for bit')")
        self.picture("back")

    def test_the_arrow_that_turns_hides_no_button(self) -> None:
        """On its way round the arrow lies over Play, which is to have the click all the same."""
        turned = "arrow.style = `transition: none; transform: rotate(${angle}deg)`"
        at = "document.elementFromPoint(play.left + play.width / 2, play.top + play.height / 2).id"
        told = self.browser.value(
            "(() => { const arrow = document.getElementById('arrow'), play = document.getElementById('play').getBoundingClientRect();"
            f" return [0, 45, 90, 135, 180].map((angle) => {{ {turned}; return {at}; }}); }})()"
        )
        self.assertEqual(told, ["play"] * 5)

    def test_one_step(self) -> None:
        for step in (1, 2, 3):
            self.browser.click("one")
            self.browser.wait_for(f"document.getElementById('step').textContent === '{step}'")

    def test_a_tug_by_the_mouse(self) -> None:
        """Atom 0 stands at the corner of the box: it is pulled to the right. The same steps without a tug lead elsewhere."""
        self.browser.click("one")
        self.browser.wait_for("document.getElementById('step').textContent === '1'")
        untugged = self.browser.text("kinetic")
        slab = "document.getElementById('depth')"
        self.browser.value(f"{slab}.value = 0; {slab}.dispatchEvent(new Event('input'))")
        left, bottom = self.browser.take(lambda box: (box["x"] + 3, box["y"] + box["height"] - 3))
        self.browser.mouse("mouseMoved", left + 60, bottom - 40)
        self.picture("tug")
        self.browser.mouse("mouseReleased", left + 200, bottom - 40)
        self.browser.wait_for("document.getElementById('message').textContent.startsWith('Atom 0 was tugged')")
        self.assertNotEqual(self.browser.text("kinetic"), untugged)
        self.assertEqual(self.step(), 1)

    def test_save_and_restore(self) -> None:
        self.assertTrue(self.browser.value("document.getElementById('restore').disabled"))
        self.play_to(50)
        self.browser.click("save")
        self.browser.wait_for("document.getElementById('message').textContent.startsWith('Saved at step')")
        saved, far = self.step(), self.browser.text("distance")
        self.play_to(saved + 50)
        self.assertNotEqual(self.browser.text("distance"), far)
        self.browser.click("restore")
        self.browser.wait_for(f"Number(document.getElementById('step').textContent) === {saved}")
        self.assertEqual(self.browser.text("distance"), far)
        self.browser.click("exact")
        self.browser.wait_for("document.getElementById('message').textContent.startsWith('256 of 256, bit for bit')")
        self.browser.click("restart")
        self.browser.wait_for("document.getElementById('step').textContent === '0'")
        self.assertEqual(self.browser.text("distance"), "0")

    def test_a_dark_scheme(self) -> None:
        light = self.browser.value("getComputedStyle(document.body).backgroundColor")
        self.browser.in_scheme("dark")
        self.addCleanup(self.browser.in_scheme, "light")
        self.play_to(200)
        self.assertNotEqual(self.browser.value("getComputedStyle(document.body).backgroundColor"), light)
        self.picture("dark")

    def of_script(self, name: Any, text: Any) -> Any:
        """The value of an expression over what a script of the page exports."""
        return self.browser.value(f"import('./{name}').then(script => {text})")

    def test_distances_are_round_the_box(self) -> None:
        places, others = "new Float64Array([0, 5, 2 ** 32 - 1, 7, 7, 7])", "new Float64Array([2 ** 32 - 3, 5, 1, 7, 7, 7])"
        self.assertEqual(self.of_script("box.js", f"script.distance({places}, {others})"), ((9 + 4) / 2) ** 0.5)
        self.assertEqual(self.of_script("box.js", f"script.distance({places}, {places})"), 0)

    def test_places_are_read_to_the_unit(self) -> None:
        read = self.of_script("box.js", "[...script.placesOf('Ar 0.000000 4294.967295 1234.567891\\nX 0.000001 0.1 2')]")
        self.assertEqual(read, [0, 2**32 - 1, 1234567891, 1, 100000, 2000000])

    def test_round_numbers_of_an_axis(self) -> None:
        for low, high, wanted in ((0, 100, [0, 50, 100]), (-6.7, 2.1, [-5, 0]), (0, 0.2, [0, 0.1, 0.2]), (-3, 3, [-2, 0, 2])):
            self.assertEqual(self.of_script("charts.js", f"script.ticks({low}, {high}, 3)"), wanted)

    def test_a_long_history_keeps_its_turns(self) -> None:
        """Ten thousand steps there and back: all rows may be left out but the first, those of the turn and the last."""
        rows = "h = new script.History(); for (let k = 0; k < 20001; k++) h.add({step: k <= 10001 ? k : 20002 - k"
        rows += ", direction: k <= 10001 ? 1 : -1, follows: k > 0})"
        steps = self.of_script("charts.js", f"{{ let {rows}; return h.rows.map(row => row.step); }}")
        self.assertLess(len(steps), 4001)
        self.assertEqual((steps[0], max(steps), steps[-1]), (0, 10001, 2))
        self.assertLess(max(abs(one - other) for one, other in zip(steps, steps[1:])), 20)

    def test_lines_begin_at_the_first_frame(self) -> None:
        """Of a session at a server that may be any step. At least a hundred steps are shown, and earlier ones if they are there."""
        chart = "new script.Chart(document.createElement('canvas'), [], [0, 1])"
        for steps, per, wanted in (
            ([0], 1, [0, 100]),
            ([0, 400, 8], 1, [0, 400]),
            ([101000], 1, [101000, 101100]),
            ([101000, 102384], 1, [101000, 102384]),
            ([2000, 1500], 1, [1500, 2100]),
            ([2000, 2400], 0.5, [1000, 1200]),
        ):
            rows = str([{"step": step} for step in steps])
            shown = self.of_script("charts.js", f"{{ const chart = {chart}; chart.per = {per}; return chart.stepsOf({rows}); }}")
            self.assertEqual(shown, wanted)

    def test_no_time_is_told_before_there_is_one(self) -> None:
        told = "getComputedStyle(document.getElementById('clock'), '::before').content"
        self.assertEqual(self.browser.value(told), '"\u00b7 "')
        was = self.browser.text("clock")
        self.addCleanup(self.browser.value, f"document.getElementById('clock').textContent = '{was}'")
        self.browser.value("document.getElementById('clock').textContent = ''")
        self.assertEqual(self.browser.value(told), "none")

    def test_the_program_ends_with_the_page(self) -> None:
        self.browser.open("about:blank")
        self.assertEqual(self.view.child.wait(SECONDS), 0)


if __name__ == "__main__":
    unittest.main()
