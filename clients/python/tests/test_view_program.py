"""The program of the live view: its options, what it says of a file that is wrong, and when it ends."""
import contextlib
import pathlib
import shutil
import signal
import subprocess
import sys
import tempfile
import time
import unittest
from importlib import metadata
from typing import Any

import web_sockets  # noqa: F401  first, since without aiohttp these tests are skipped
from ljclient.view import command, pages, scenes, server
from support import EXAMPLES, SECONDS, TOP, children_of, interruptible, is_running
from viewing import View, command as command_of, file_of


def packs() -> bool:
    """Whether packages can be built here as pyproject.toml says."""
    with contextlib.suppress(metadata.PackageNotFoundError):
        return int(metadata.version("setuptools").split(".")[0]) >= 61
    return False


class Ends(unittest.TestCase):
    def view(self) -> Any:
        shown = View()
        self.addCleanup(shown.end)
        return shown

    def test_it_ends_when_the_page_is_gone(self) -> None:
        shown = self.view()
        with shown.page() as page:
            page.ask("frame", steps=1)
            (program,) = children_of(shown.child.pid)
        self.assertEqual(shown.child.wait(SECONDS), 0)
        self.assertFalse(is_running(program))

    def test_a_page_may_be_loaded_anew(self) -> None:
        shown = self.view()
        shown.page().close()
        with shown.page():
            time.sleep(pages.GRACE_SECONDS + 0.5)
            self.assertIsNone(shown.child.poll())
        self.assertEqual(shown.child.wait(SECONDS), 0)

    def test_of_two_pages_one_may_go(self) -> None:
        shown = self.view()
        with shown.page() as one:
            with shown.page():
                self.assertEqual(len(children_of(shown.child.pid)), 2)
            time.sleep(pages.GRACE_SECONDS + 0.5)
            self.assertEqual(one.ask("frame", steps=1)["step"], 1)
            self.assertEqual(len(children_of(shown.child.pid)), 1)

    def test_not_too_many_pages(self) -> None:
        shown = self.view()
        opened = [shown.page() for _ in range(pages.MAX_PAGES)]
        with shown.page() as refused:
            why = "8 pages are open already, and no more may be. Close one, and load this page again."
            self.assertEqual((refused.first, refused.channel.receive()), ({"error": why}, None))
        self.assertEqual(opened[0].ask("frame", steps=1)["step"], 1)
        for page in opened:
            page.close()
        self.assertEqual(shown.child.wait(SECONDS), 0)

    def test_it_waits_for_its_first_page(self) -> None:
        shown = self.view()
        time.sleep(pages.GRACE_SECONDS + 0.5)
        self.assertIsNone(shown.child.poll())

    @interruptible()
    def test_an_interrupt_ends_it(self) -> None:
        shown = self.view()
        with shown.page() as page:
            (program,) = children_of(shown.child.pid)
            shown.child.send_signal(signal.SIGINT)
            self.assertIsNone(page.channel.receive())
            self.assertEqual(shown.child.wait(SECONDS), 0)
        self.assertFalse(is_running(program))
        self.assertEqual(shown.end(), (0, ""))

    def test_a_program_that_dies_is_told(self) -> None:
        shown = self.view()
        with shown.page() as page:
            (program,) = children_of(shown.child.pid)
            subprocess.run(["kill", "-9", str(program)], check=True)
            for _ in range(2):
                told = page.ask("frame", steps=1)
                self.assertRegex(told["error"], r"^The program has ended\. Load this page again \(.* status -9.*\)\.$")
                self.assertTrue(told["ended"])


class Options(unittest.TestCase):
    def refused(self, *words: Any, status: int = 1) -> Any:
        done = subprocess.run(**command_of(*words), capture_output=True, timeout=SECONDS)
        self.assertEqual((done.returncode, done.stdout), (status, ""))
        return done.stderr

    def test_no_file(self) -> None:
        self.assertIn("none.xyz", self.refused("none.xyz", "--edge", 10))

    def test_no_edge(self) -> None:
        told = self.refused(file_of(self, "1\nof no box\nAr 0 0 0\n", "plain.xyz"))
        self.assertRegex(told, r"^view: .*plain.xyz: edge must be given for a file without a cubic Lattice, got none; use --edge")

    def test_a_file_that_the_program_refuses(self) -> None:
        path = file_of(self, "2\n\nAr 0 0 0\nAr 1 2\n", "short.xyz")
        self.assertIn("view: short.xyz: ERR 31 XYZ_SHORT line 4", self.refused(path, "--edge", 20))

    def test_a_scale_that_does_not_fit(self) -> None:
        argon = EXAMPLES / "argon_256.xyz"
        self.assertIn("argon_256.xyz: ERR 37 SIGMA", self.refused(argon, "--edge", 21.04, "--sigma", 5))
        self.assertIn("argon_256.xyz: dt must be from", self.refused(argon, "--edge", 21.04, "--dt", 1000))
        self.assertIn("ERR 38 STEP_FACTOR", self.refused("--h", 0))

    def test_a_temperature_that_is_too_high(self) -> None:
        self.assertIn(
            "A crystal that melts: cannot set a temperature of 1e+12: an atom would move by half", self.refused("--temperature", 1e12)
        )

    def test_options_that_do_not_fit(self) -> None:
        self.assertIn("--h cannot be used with --epsilon, --mass or --dt", self.refused("x.xyz", "--h", 1, "--dt", 10, status=2))
        self.assertIn("must come with FILE.xyz or HOST:PORT NAME", self.refused("--edge", 10, status=2))
        self.assertIn("--temperature must be a finite number from 0 on, got -1.0", self.refused("--temperature", -1, status=2))
        self.assertIn("--port must be from 0 to 65535, got 65536", self.refused("--port", 65536, status=2))

    def test_without_aiohttp_it_is_told_what_to_install(self) -> None:
        with tempfile.TemporaryDirectory() as folder:
            pathlib.Path(folder, "aiohttp.py").write_text("raise ModuleNotFoundError('No module', name='aiohttp')\n")
            words = command_of()
            words["env"]["PYTHONPATH"] += f":{folder}"
            words["env"]["PYTHONPATH"] = ":".join(reversed(words["env"]["PYTHONPATH"].split(":")))
            done = subprocess.run(**words, capture_output=True, timeout=SECONDS)
        self.assertEqual((done.returncode, done.stdout), (1, ""))
        self.assertEqual(done.stderr, f"view: {command.MISSING}\n")

    def test_a_port_that_is_taken(self) -> None:
        with View() as shown:
            self.assertIn("Address already in use", self.refused("--port", shown.port))


class Scenes(unittest.TestCase):
    def test_the_crystal(self) -> None:
        """Each atom of a face-centred cubic crystal has twelve nearest neighbours, half the diagonal of a face away."""
        scene = scenes.crystal(131072, 1.5, 1)
        edge = (256 / 0.8442) ** (1 / 3)
        sites = [[float(word) / edge for word in line.split()[1:]] for line in scene.body.decode().splitlines()[2:]]
        self.assertEqual(len(sites), 256)
        away = [sum(((a - b + 0.5) % 1 - 0.5) ** 2 for a, b in zip(sites[5], site)) ** 0.5 for site in sites]
        self.assertEqual(sum(abs(far - 0.5**0.5 / 4) < 1e-6 for far in away), 12)


class Packed(unittest.TestCase):
    @unittest.skipUnless(packs(), "setuptools 61 is not installed")
    def test_an_installation_has_the_page(self) -> None:
        """The packages are built as `pip install` builds them, without a network."""
        with tempfile.TemporaryDirectory() as folder:
            shutil.copytree(TOP / "clients" / "python", f"{folder}/source")
            words = ["-W", "ignore", "-c", "import setuptools; setuptools.setup()", "build_py", "-d", f"{folder}/built"]
            subprocess.run([sys.executable, *words], cwd=f"{folder}/source", check=True, capture_output=True, timeout=SECONDS)
            built = pathlib.Path(folder) / "built" / "ljclient" / "view"
            self.assertEqual({path.name for path in (built / "page").iterdir()}, {name for name, _ in server.FILES.values()})
            self.assertTrue((built / "__main__.py").exists())


if __name__ == "__main__":
    unittest.main()
