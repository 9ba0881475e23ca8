"""The examples: what they say of the Python that they run under, and a file that is run on a server."""
import json
import os
import platform
import subprocess
import sys
import unittest
from typing import Any, Dict, List, Tuple

from support import EXAMPLES, PROGRAM, SECONDS, TOKEN, TOP, Server, folder_of

MISSING = "raise ModuleNotFoundError(\"No module named '{0}'\", name='{0}')\n"
NOTEBOOK = json.loads((EXAMPLES / "ljserve.ipynb").read_text())


class WithoutModules(unittest.TestCase):
    def setUp(self) -> None:
        self.folder = folder_of(self)

    def lacks(self, name: Any, text: Any = None) -> None:
        """Has an import of a module fail, or do what this text does."""
        (self.folder / f"{name}.py").write_text(text or MISSING.format(name))

    def told(self, *words: Any) -> Tuple[Any, Any]:
        """The status and the standard error of a Python that lacks what is said."""
        environment: Dict[str, Any] = {**os.environ, "LJSERVE": PROGRAM, "PYTHONPATH": str(self.folder), "PYTHONDONTWRITEBYTECODE": "1"}
        command = [sys.executable, *words]
        done = subprocess.run(command, cwd=EXAMPLES, env=environment, capture_output=True, text=True, timeout=2 * SECONDS)
        return done.returncode, done.stderr

    def test_a_picture_without_matplotlib(self) -> None:
        self.lacks("matplotlib")
        for name in ["there_and_back.py", "butterfly.py", "energy.py", "temperatures.py", "unmixing.py"]:
            status, told = self.told(name, "--plot", str(self.folder / "x.png"))
            wanted = f"--plot needs matplotlib: No module named 'matplotlib'; try `{sys.executable} -m pip install matplotlib`"
            self.assertEqual((status, told), (1, f"{wanted}, or leave out --plot\n"))

    def test_a_picture_without_numpy(self) -> None:
        self.lacks("matplotlib", "import numpy\n")
        self.lacks("numpy")
        status, told = self.told("energy.py", "--plot", str(self.folder / "x.png"))
        self.assertIn(f"No module named 'numpy'; try `{sys.executable} -m pip install numpy`, or leave", told)
        self.assertEqual(status, 1)

    def test_a_notebook_without_matplotlib(self) -> None:
        self.lacks("matplotlib")
        cell = next(each for each in NOTEBOOK["cells"] if each["cell_type"] == "code")
        status, told = self.told("-c", "".join(line for line in cell["source"] if not line.startswith("%")))
        wanted = f"ImportError: No module named 'matplotlib'; try `{sys.executable} -m pip install matplotlib`"
        self.assertEqual((status, told.splitlines()[-1]), (1, wanted))

    def test_what_the_notebook_needs_is_told(self) -> None:
        needs = "".join(NOTEBOOK["cells"][0]["source"])
        self.assertIn("python3 -m pip install ipykernel matplotlib", needs)
        self.assertIn("python3 -m pip install ipykernel matplotlib", (TOP / "docs" / "api" / "examples.md").read_text())

    def test_the_python_of_these_tests_is_told(self) -> None:
        links = TOP / "tests" / "documents" / "test_links.py"
        words: List[Any] = [sys.executable, "-m", "pytest", "--collect-only", "-p", "no:cacheprovider", links]
        told = subprocess.run(words, cwd=TOP, capture_output=True, text=True, timeout=2 * SECONDS).stdout.splitlines()
        self.assertIn(f"Python {platform.python_version()}: {sys.executable}", told)


class OnAServer(unittest.TestCase):
    def setUp(self) -> None:
        self.server = Server()
        self.addCleanup(self.server.end)

    def ran(self, token: Any) -> Any:
        """What `examples/session` does with 256 atoms in 100 steps."""
        words = [f"127.0.0.1:{self.server.port}", "ann", str(EXAMPLES / "argon_256.xyz"), "21.04", "3.4", "3706", "100"]
        command, environment = [sys.executable, str(EXAMPLES / "session"), *words], {**os.environ, "LJSERVE_TOKEN": token}
        return subprocess.run(command, env=environment, capture_output=True, text=True, timeout=2 * SECONDS)

    def test_a_file_is_run(self) -> None:
        done = self.ran(TOKEN)
        self.assertEqual((done.returncode, done.stdout.splitlines()[:2]), (0, ["256", "step 100"]))
        place = "638484 804537 4294921034"
        self.assertIn(f"step 100: atom 0 at {place}\nmomentum 0 0 0, ", done.stderr)
        self.assertIn(f"`OK SHOW a 100 0 {place}`", (TOP / "docs" / "api" / "examples.md").read_text())

    def test_a_wrong_token(self) -> None:
        done = self.ran("w" * 32)
        self.assertEqual((done.returncode, done.stdout), (1, ""))
        self.assertIn("session: ERR 01 DENIED", done.stderr)


if __name__ == "__main__":
    unittest.main()
