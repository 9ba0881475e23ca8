"""The prompt at a terminal of plain lines: explanations, bars, and interrupts."""
import importlib.util
import os
import re
import signal
import unittest
from typing import Any

from support import EXAMPLES, TOKEN, Server, children_of, present
from terminals import ARGON, PROMPT, Terminal, environment


class AtATerminal(unittest.TestCase):
    def begin(self, *words: Any, **env: Any) -> Any:
        terminal = Terminal([*PROMPT, *words], environment(**env))
        self.addCleanup(terminal.close)
        return terminal

    def at_its_prompt(self) -> Any:
        """A terminal whose program waits for the first line."""
        terminal = self.begin()
        terminal.until("ljserve> ")
        return terminal

    def says(self, terminal: Any, line: Any, wanted: Any = "ljserve> ") -> Any:
        """Types a line, and returns what is shown up to what is wanted, without the line itself."""
        terminal.type(line + "\r")
        terminal.until(re.escape(line) + "\n")
        return terminal.until(wanted)

    def test_a_dialogue(self) -> None:
        terminal = self.begin()
        terminal.until("A program of its own: what is loaded is gone when it ends.\n.*ljserve> ")
        told = self.says(terminal, f"load a {ARGON} 21.04 3.4 131072")
        self.assertEqual(told, "OK LOAD a 0 256\nljserve> ")
        self.assertEqual(self.says(terminal, "LIST"), "OK LIST 1\na 0 256 0\nljserve> ")
        self.assertEqual(self.says(terminal, ""), "ljserve> ")
        self.assertIn("OK TUG s i step", self.says(terminal, "help tug"))
        terminal.type("BYE\r")
        self.assertEqual(terminal.ended(), (0, "BYE\nOK BYE\n"))

    def test_a_text_that_is_typed(self) -> None:
        terminal = self.at_its_prompt()
        terminal.type("LOAD a 256 1 131072 rest 27\r")
        for line in ("2", "dimer", "Ar 0 0 0", "Ar 1.5 0 0"):
            terminal.until("bytes more> ")
            terminal.type(line + "\r")
        self.assertIn("OK LOAD a 0 2\n", terminal.until("ljserve> "))
        self.assertEqual(self.says(terminal, "ADVANCE a 2"), "OK ADVANCE a 2\nljserve> ")
        self.assertEqual(self.says(terminal, "SHOW a 0"), "OK SHOW a 2 0 1774 0 0\nljserve> ")

    def test_a_load_that_is_not_as_it_should_be_is_not_sent(self) -> None:
        terminal = self.at_its_prompt()
        for line in ("LOAD a", "LOAD a 256 1 131072", "LOADMIX m 256 A B 1 1 1 rest 28", "LOAD a 1 1 1 rest 1048577"):
            told = self.says(terminal, line)
            self.assertIn(f"use `{line.split()[0]} s FILE edge", told)
        self.assertIn("not sent: cannot read no.xyz", self.says(terminal, "LOAD a no.xyz 256 1 131072"))
        self.assertEqual(self.says(terminal, "LIST"), "OK LIST 0\nljserve> ")

    def test_refusals_in_words(self) -> None:
        terminal = self.at_its_prompt()
        self.says(terminal, f"LOAD argon {ARGON} 21.04 3.4 131072")
        self.says(terminal, "BRANCH argon k")
        for line, reply, words in [
            ("SHOW argn 0", "ERR 10 NO_SESSION", "sessions: argon"),
            ("SHOW argon 256", "ERR 14 NO_ATOM", "argon has the atoms 0 to 255"),
            ("RESTORE argon m", "ERR 12 NO_BRANCH", "saved in argon: k"),
            ("ADVNCE argon 1", "ERR 06 COMMAND", "is ADVANCE meant?"),
            ("ADVANCE argon 2000000", "ERR 23 STEP_RANGE", "more than 1,000,000 steps at once"),
            (f"LOAD b {EXAMPLES / 'users'} 9 1 1", "ERR 30 XYZ_COUNT line 1", "users, line 1: # Two users of a server"),
            ("LOAD b /dev/null 9 1 1", "ERR 30 XYZ_COUNT line 1", "/dev/null, line 1: the text has ended before"),
        ]:
            told = self.says(terminal, line)
            self.assertTrue(told.startswith(f"{reply}\n  "), told)
            self.assertIn(words, told)
        missing = "  missing: n, the number of steps, from 0 to 1000000\n  use `ADVANCE s n`\nERR 03 SYNTAX\nljserve> "
        self.assertEqual(self.says(terminal, "ADVANCE argon"), missing)

    @unittest.skipUnless(importlib.util.find_spec("tqdm"), "tqdm is not installed")
    def test_an_advance_that_is_long(self) -> None:
        terminal = self.at_its_prompt()
        self.says(terminal, f"LOAD a {ARGON} 21.04 3.4 131072")
        terminal.type("ADVANCE a 900000\r")
        terminal.until(r"a: +\d+%\|.*\| \d+/900000 \[")
        terminal.interrupt()
        shown = terminal.until("ljserve> ")
        found = re.search(r"OK ADVANCE a (\d+)\n", shown)
        self.assertTrue(found, shown)
        step = int(present(found)[1])
        self.assertTrue(0 < step < 900000)
        self.assertEqual(self.says(terminal, "LIST"), f"OK LIST 1\na {step} 256 0\nljserve> ")
        terminal.type("\x04")
        self.assertEqual(terminal.ended()[0], 0)

    def test_an_interrupt_at_the_prompt_and_in_a_text(self) -> None:
        terminal = self.at_its_prompt()
        terminal.type("LIS")
        terminal.interrupt()
        terminal.until("\n.*ljserve> ")
        terminal.type("LOAD a 256 1 131072 rest 28\r")
        terminal.until("28 bytes more> ")
        terminal.interrupt()
        terminal.until("ljserve> ")
        self.assertEqual(self.says(terminal, "LIST"), "OK LIST 0\nljserve> ")

    def test_an_interrupt_of_a_wait(self) -> None:
        terminal = self.at_its_prompt()
        self.says(terminal, f"LOAD a {ARGON} 21.04 3.4 131072")
        self.says(terminal, "START a 20", "OK START a 20\nljserve> ")
        (program,) = children_of(terminal.child.pid)
        os.kill(program, signal.SIGSTOP)  # so that the wait lasts until the interrupt
        try:
            self.says(terminal, "SHOW a 0", "waiting for the reply to `SHOW a 0`")
            terminal.interrupt()
            self.assertIn("  interrupted: `SHOW a 0` is still to be answered", terminal.until("ljserve> "))
        finally:
            os.kill(program, signal.SIGCONT)
        self.assertIn("OK LIST 1\na 20 256 0\n", self.says(terminal, "LIST"))

    def test_a_server_and_a_token_that_is_typed(self) -> None:
        with Server(users=("ann",)) as server:
            terminal = self.begin(f"127.0.0.1:{server.port}", "ann")
            terminal.until("token of ann: ")
            terminal.type(TOKEN + "\r")
            told = terminal.until("ann> ")
            self.assertIn(f"Connected to 127.0.0.1:{server.port} as ann. Sessions: none.", told)
            self.assertNotIn(TOKEN, told)
            self.says(terminal, "LIST", "OK LIST 0\nann> ")

    def test_a_connection_that_has_ended_begins_anew(self) -> None:
        with Server(users=("ann",)) as server:
            terminal = self.begin(f"127.0.0.1:{server.port}", "ann", LJSERVE_TOKEN=TOKEN)
            terminal.until("ann> ")
            self.says(terminal, f"LOAD a {ARGON} 21.04 3.4 131072", "ann> ")
            server.end()
            told = self.says(terminal, "MEASURE a", "ann> ")
            self.assertIn("The next command begins a new connection. If the server still runs, it still has the sessions.", told)
            self.assertIn("cannot connect", self.says(terminal, "LIST", "ann> "))

    def test_a_second_connection_is_told_what_it_waits_for(self) -> None:
        with Server(users=("ann",)) as server:
            words = [f"127.0.0.1:{server.port}", "ann"]
            first = self.begin(*words, LJSERVE_TOKEN=TOKEN)
            first.until("ann> ")
            second = self.begin(*words, LJSERVE_TOKEN=TOKEN)
            second.until("waiting: another connection of ann is open")
            first.type("exit\r")
            second.until("ann> ")


if __name__ == "__main__":
    unittest.main()
