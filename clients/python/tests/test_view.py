"""The live view without a browser: who may ask, and what a page is told."""
import json
import re
import unittest
from typing import Any, Iterator, List

import pytest

from web_sockets import Refused  # first, since without aiohttp these tests are skipped
from ljclient import run, units
from ljclient.view import server
from support import DIMER, EXAMPLES, PROGRAM, RING
from viewing import Page, Stream, View, file_of, places_of

ARGON = [EXAMPLES / "argon_256.xyz", "--edge", "21.04"]
SCALE = ["--edge", "256", "--sigma", "1", "--h", "131072"]


@pytest.fixture(scope="module")
def view() -> Iterator[Any]:
    """A view with a page that stays, since it ends with its last page."""
    with View() as one, one.page():
        yield one


def test_the_files_of_the_page(view: Any) -> None:
    for path, (name, kind) in server.FILES.items():
        status, headers, body = view.get(f"{view.path}{path}")
        assert (status, headers["Content-Type"]) == (200, f"{kind}; charset=utf-8")
        assert body == (server.FOLDER / name).read_bytes()


def test_the_page_names_no_other_file() -> None:
    named = re.findall(r'(?:src|href)="([^"]+)"', (server.FOLDER / "page.html").read_text())
    for script in server.FOLDER.glob("*.js"):
        named += re.findall(r'from "\./([^"]+)"', script.read_text())
    assert {*named, ""} == set(server.FILES)


@pytest.mark.parametrize("path", ["server.py", "../server.py", "%2e%2e/server.py", "/etc/passwd", "page.html/", "%ff", "%ed%a0%80"])
def test_no_other_file(view: Any, path: Any) -> None:
    assert view.get(f"{view.path}{path}")[0] == 404


@pytest.mark.parametrize("wrong", ["/", f"/{'A' * 16}/", f"/{'%ff' * 16}/", "cut", "swapped"])
def test_without_the_secret_nothing_is_answered(view: Any, wrong: Any) -> None:
    """Neither a file of the page nor a session: another account of this machine may name any Host and any Origin."""
    begin = {"cut": view.path[:-1], "swapped": view.path.swapcase()}.get(wrong, wrong)
    for name in ("", "page.html", "page.js", "session"):
        status, _, body = view.get(f"{begin}{name}", Origin=f"http://{view.url}")
        assert (status, body[:22]) == (404, b"there is no such page:")
    with pytest.raises(Refused, match="404"):
        Page(view.port, {"Origin": f"http://{view.url}"}, begin)


def test_only_this_address_is_answered(view: Any) -> None:
    for host in ("example.org", f"example.org:{view.port}", "127.0.0.1", "127.0.0.1:1", ""):
        assert view.get(view.path, Host=host)[::2] == (403, b"Host is not the address of this page")
    for host in (view.url, f"localhost:{view.port}"):
        assert view.get(view.path, Host=host)[0] == 200


def test_no_other_page_is_answered(view: Any) -> None:
    for origin in ("http://example.org", "null", f"https://{view.url}", "http://127.0.0.1:1"):
        assert view.get(view.path, Origin=origin)[::2] == (403, b"Origin is another page")
        with pytest.raises(Refused, match="403"):
            view.page(Origin=origin)


def test_a_session_is_for_a_page(view: Any) -> None:
    with pytest.raises(Refused, match="403"):
        Page(view.port, {}, view.path)
    with pytest.raises(Refused, match="403"):
        view.page(Host="example.org")
    assert view.get(f"{view.path}session", Origin=f"http://{view.url}")[0] == 400


def test_nothing_may_frame_the_page_or_be_asked_by_it(view: Any) -> None:
    _, headers, _ = view.get(view.path)
    policy = headers["Content-Security-Policy"]
    assert "default-src 'none'" in policy
    assert "frame-ancestors 'none'" in policy


def test_a_page_has_a_session_of_its_own(view: Any) -> None:
    with view.page() as one, view.page() as other:
        assert one.first == other.first
        tugged = one.ask("tug", atom=0, by=[1000, 0, 0])
        assert places_of(one.ask("frame", steps=1)) != places_of(other.ask("frame", steps=1))
        assert places_of(tugged) == places_of(other.ask("restart"))


def test_messages_as_a_browser_may_send_them(view: Any) -> None:
    """In two frames with a ping between, which is answered first; a pong that nobody asked for; a close, which is answered."""
    with Stream(view) as stream:
        assert stream.ACCEPTED in stream.head
        stream.send(0x01, b'{"do": "frame",')
        stream.send(0x89, b"Hello")
        stream.send(0x80, b' "steps": 1}')
        assert stream.receive() == (0x8A, b"Hello")
        assert json.loads(stream.receive()[1])["step"] == 1
        stream.send(0x8A, b"")
        stream.send(0x81, b'{"do": "frame", "steps": 1}')
        assert json.loads(stream.receive()[1])["step"] == 2
        stream.send(0x88, b"\x03\xe8")
        assert stream.receive()[0] == 0x88


def test_what_is_no_message(view: Any) -> None:
    """Bytes that are no text, a message that goes on and has not begun, text that is no UTF-8, and a kind that is none."""
    for first, data in ((0x82, b"abcd"), (0x80, b"abcd"), (0x81, b"\xff"), (0x83, b"")):
        with Stream(view) as stream:
            stream.send(first, data)
            answer = stream.receive()
            assert answer is None or answer[0] == 0x88
            assert stream.receive() is None
    with view.page() as page:
        assert page.ask("frame", steps=1)["step"] == 1


def test_a_message_is_not_too_long(view: Any) -> None:
    with view.page() as page:
        page.channel.send("x" * (server.MAX_MESSAGE + 1))
        assert page.channel.receive() is None
    with view.page() as page:
        page.channel.send("x" * (server.MAX_MESSAGE - 1))
        assert list(json.loads(page.channel.receive())) == ["error"]


class Told(unittest.TestCase):
    """What a page is told, of two atoms whose motion is known by hand and of a crystal."""

    def page(self, *words: Any) -> Any:
        shown = View(*words)
        self.addCleanup(shown.end)
        page = shown.page()
        self.addCleanup(page.close)
        return page

    def dimer(self) -> Any:
        return self.page(file_of(self, DIMER), *SCALE)

    def test_two_atoms(self) -> None:
        page = self.dimer()
        self.assertEqual(places_of(page.first), [(0, 0, 0), (3 << 23, 0, 0)])
        told = page.ask("frame", steps=1)
        self.assertEqual(places_of(told), [(589, 0, 0), ((3 << 23) - 589, 0, 0)])
        self.assertEqual((told["step"], told["direction"], told["saved"]), (1, 1, None))
        self.assertEqual(told["kinetic"], 2 * 589**2 * RING / (2 * 2**48 * 131072) / 2)
        self.assertEqual(told["potential"], -5399727 / 2**24 / 2)
        self.assertAlmostEqual(told["temperature"], told["kinetic"] * 2 / 3)

    def test_a_crystal_begins_at_its_temperature(self) -> None:
        """No force acts at the sites of a crystal, so the first step is that of the velocities alone."""
        told = self.page("--temperature", "0.7").ask("frame", steps=1)
        self.assertAlmostEqual(told["temperature"], 0.7, places=3)

    def test_a_tug(self) -> None:
        page = self.dimer()
        page.ask("frame", steps=1)
        page.ask("tug", atom=0, by=[5, 0, -7])
        self.assertEqual(places_of(page.ask("frame", steps=1))[0], (2 * 589 + 5 + 596, 0, RING - 7))

    def test_reverse(self) -> None:
        page = self.dimer()
        page.ask("frame", steps=2)
        back = page.ask("reverse")
        self.assertEqual((back["step"], back["direction"], places_of(back)[0]), (1, -1, (589, 0, 0)))
        self.assertEqual(page.ask("frame", steps=1)["atoms"], page.first["atoms"])
        self.assertEqual(page.ask("frame", steps=3)["step"], -3)
        again = page.ask("reverse")
        self.assertEqual((again["step"], again["direction"]), (-2, 1))

    def test_exact_compares_the_motion_too(self) -> None:
        """A tug changes where an atom was one step before, and not where it is. Taken back, nothing is changed."""
        page = self.dimer()
        page.ask("tug", atom=1, by=[0, 0, 1])
        told = page.ask("exact")
        self.assertEqual((told["same"], told["moves"], told["turned"]), ({"start": 2}, {"start": 1}, {"start": False}))
        page.ask("save")
        page.ask("tug", atom=1, by=[0, 0, -1])
        told = page.ask("exact")
        self.assertEqual((told["same"], told["moves"]), ({"start": 2, "kept": 2}, {"start": 2, "kept": 1}))
        self.assertEqual((told["step"], page.ask("frame", steps=1)["step"]), (0, 1))

    def test_exact_compares_the_motion_turned_back(self) -> None:
        """At step 0 on the way back, with the step that was made from there. A tug on the way back leads to another place."""
        page = self.dimer()
        for tugged, moves in ((0, 2), (1, 1)):
            page.ask("restart")
            page.ask("frame", steps=1)
            page.ask("reverse")
            page.ask("tug", atom=0, by=[0, tugged, 0])
            told = page.ask("exact")
            self.assertEqual((told["step"], told["same"], told["turned"]), (0, {"start": 2}, {"start": True}))
            self.assertEqual(told["moves"], {"start": moves})
        self.assertEqual(page.ask("frame", steps=1)["step"], -1)

    def test_steps_before_the_start_are_told(self) -> None:
        page = self.dimer()
        self.assertFalse(page.first["before"])
        self.assertTrue(page.ask("reverse")["before"])
        self.assertTrue(page.ask("frame", steps=3)["before"])
        self.assertTrue(page.ask("reverse")["before"])
        self.assertEqual([page.ask("frame", steps=steps)["before"] for steps in (2, 1)], [True, False])

    def test_there_and_back(self) -> None:
        page = self.page()
        away = page.ask("frame", steps=300)
        self.assertEqual(page.ask("exact")["same"], {"start": 0})
        self.assertNotEqual(away["atoms"], page.first["atoms"])
        page.ask("reverse")
        back = page.ask("frame", steps=299)
        self.assertEqual((back["step"], back["atoms"]), (0, page.first["atoms"]))
        told = page.ask("exact")
        self.assertEqual((told["same"], told["moves"], told["atoms"]), ({"start": 256}, {"start": 256}, 256))

    def test_save_and_restore(self) -> None:
        page = self.page()
        self.assertEqual(page.ask("restore"), {"error": "cannot restore: nothing is saved yet; use Save first"})
        for steps in (40, 20):
            saved = page.ask("frame", steps=steps)
            self.assertEqual(page.ask("save")["saved"], saved["step"])
        page.ask("tug", atom=3, by=[0, 1, 0])
        self.assertNotEqual(page.ask("frame", steps=200)["atoms"], saved["atoms"])
        restored = page.ask("restore")
        self.assertEqual((restored["atoms"], restored["step"], restored["jumped"]), (saved["atoms"], 60, True))
        self.assertEqual(page.ask("exact")["same"], {"start": 0, "kept": 256})
        page.ask("reverse")
        self.assertEqual(page.ask("restart")["atoms"], page.first["atoms"])
        self.assertEqual(page.ask("frame", steps=1)["step"], 1)

    def test_the_places_of_a_step_and_of_the_one_before(self) -> None:
        page = self.dimer()
        page.ask("frame", steps=1)
        told = page.ask("speeds")
        self.assertEqual([places_of(told, frame)[0] for frame in ("before", "now")], [(0, 0, 0), (589, 0, 0)])
        self.assertEqual(page.ask("frame", steps=1)["step"], 2)

    def test_a_second_run_of_two_atoms(self) -> None:
        """Atom 0 goes one unit further. A step later that unit is doubled, and the push is that of the same bin."""
        page = self.dimer()
        told = page.ask("second", on=True)
        self.assertEqual(told["second"], told["atoms"])
        told = page.ask("frame", steps=1)
        self.assertEqual([places_of(told, run)[0][0] for run in ("atoms", "second")], [589, 590])
        told = page.ask("reverse")
        self.assertEqual(told["second"], told["atoms"])
        self.assertNotIn("second", page.ask("second", on=False))
        page.ask("second", on=True)
        self.assertNotIn("second", page.ask("restart"))

    def test_a_second_run_comes_back(self) -> None:
        """It begins on the way and goes far away, and time turned back leads both to where it began."""
        page = self.page()
        begun = page.ask("frame", steps=100)
        page.ask("second", on=True)
        away = page.ask("frame", steps=600)
        apart = [a != b for a, b in zip(places_of(away), places_of(away, "second"))]
        self.assertTrue(all(apart))
        page.ask("reverse")
        back = page.ask("frame", steps=599)
        self.assertEqual((back["step"], back["atoms"], back["second"]), (100, begun["atoms"], begun["atoms"]))

    def test_it_is_the_trajectory_of_the_file(self) -> None:
        page = self.page(*ARGON)
        told = page.ask("frame", steps=150)
        with run(PROGRAM) as user:
            argon = user.load("argon", ARGON[0], edge=21.04, dt=10, **units.ARGON)
            argon.advance(150)
            self.assertEqual(places_of(told), [tuple(map(int, place)) for place in argon.places()])
            measured = argon.measure()
        self.assertAlmostEqual(told["temperature"], measured.temperature)
        self.assertAlmostEqual(told["potential"], measured.potential_energy / 256)

    def test_the_crystal_is_begun_anew(self) -> None:
        """4 atoms for each of 3 cells along each axis. A step of 0.001 has the step factor 4295, and 4295 stands for 0.00100001."""
        page = self.page()
        self.assertEqual(page.first["scene"]["settings"]["sizes"], [108, 256, 500, 864, 1372, 2048, 2916, 4000])
        told = page.ask("load", scene=0, atoms=108, temperature=0.7, dt=0.001)
        self.assertEqual((len(places_of(told)), told["scene"]["settings"]["atoms"]), (108, 108))
        self.assertEqual(told["scene"]["reduced_dt"], (4295 / RING) ** 0.5)
        self.assertAlmostEqual(page.ask("frame", steps=1)["temperature"], 0.7, places=3)
        for words in (
            *({"atoms": atoms} for atoms in (0, 107, 32, 5324, 108.5, "108", True, None)),
            *({"dt": dt} for dt in (0, -1, 1, 1e-9, "x", None)),
            *({"temperature": temperature} for temperature in (-1, 1e11, "x", None, True)),
        ):
            self.assertEqual(list(page.ask("load", scene=0, **words)), ["error"], words)
        self.assertEqual((page.ask("frame", steps=1)["step"], len(places_of(page.ask("frame", steps=0)))), (2, 108))

    def test_a_file_is_begun_anew(self) -> None:
        page = self.page(*ARGON)
        self.assertEqual(page.first["scene"]["settings"]["sizes"], [256])
        told = page.ask("load", scene=0, temperature=90, dt=2)
        self.assertAlmostEqual(told["scene"]["dt"], 2.000109, places=6)
        self.assertAlmostEqual(told["temperature"], 90, places=3)

    def test_a_file_says_its_edge(self) -> None:
        """By its Lattice: the same as where the edge is said."""
        page, said = self.page(EXAMPLES / "argon_256.xyz"), self.page(*ARGON)
        self.assertEqual(page.first["atoms"], said.first["atoms"])
        self.assertEqual(len(places_of(page.ask("frame", steps=0))), 256)

    def test_several_files(self) -> None:
        page = self.page(*ARGON, EXAMPLES / "argon_4000.xyz")
        self.assertEqual(page.first["scene"]["titles"], ["argon_256.xyz", "argon_4000.xyz"])
        self.assertEqual(len(places_of(page.ask("load", scene=1))), 4000)
        again = page.ask("load", scene=0)
        self.assertEqual((again["atoms"], again["scene"]["number"]), (page.first["atoms"], 0))

    def test_what_cannot_be_asked(self) -> None:
        page = self.dimer()
        cases: List[Any] = [
            *(("frame", {"steps": steps}) for steps in (-1, 1001, True, 1.0, "1", None)),
            *(("tug", {"atom": 0, "by": by}) for by in ([0, 0], "abc", [2**31, 0, 0], [0, 0, 0.5], None)),
            ("tug", {"atom": 2, "by": [0, 0, 0]}),
            ("load", {"scene": 1}),
            ("frame", {}),
            ("exit", {}),
            (None, {}),
            ([], {}),
        ]
        for what, words in cases:
            self.assertEqual(list(page.ask(what, **words)), ["error"])
        for message in ("", "{", "[]", "1", "[" * 60000):
            page.channel.send(message)
            self.assertEqual(list(json.loads(page.channel.receive())), ["error"])
        self.assertEqual(page.ask("frame", steps=0)["step"], 0)


if __name__ == "__main__":
    unittest.main()
