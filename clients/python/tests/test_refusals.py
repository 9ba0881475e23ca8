"""Each refusal of the protocol: its class, and a command that the program refuses with it."""
import os
import re
import subprocess
import tempfile
import unittest
from typing import Any, Set

from ljclient import Closed, Refused, connect, refusals, run
from support import DIMER, DIMER_SCALE, PROGRAM, TOKEN, TOP, Server, dimer, process_of

X = "1\nc\nX 0 0 0\n"


class Classes(unittest.TestCase):
    def test_the_tables_of_the_documents(self) -> None:
        with open(TOP / "docs" / "PROTOCOL.md") as file:
            table = file.read().split("## Refusals")[1].split("## Limits")[0]
        listed = {int(number): name for number, name in re.findall(r"\| (\d\d) \| ([A-Z_]+) ", table)}
        self.assertIn("Only a server sends 01.", table)
        self.assertGreater(len(listed), 24)
        self.assertEqual({number: kind.name for number, kind in Refused.by_number.items()}, listed)

    def test_names_are_those_of_the_protocol(self) -> None:
        for kind in Refused.by_number.values():
            self.assertEqual(kind.__name__, "".join(part.capitalize() for part in kind.name.split("_")))
            self.assertIs(getattr(refusals, kind.__name__), kind)
            self.assertTrue(kind.meaning)


class Refusals(unittest.TestCase):
    def setUp(self) -> None:
        self.user = run(PROGRAM, sessions=3, atoms=10, branches=1)
        self.addCleanup(self.user.close)
        self.a = dimer(self.user)

    def refused(self, kind: Any, ask: Any, line: Any = None) -> None:
        """A refusal of this class, which leaves the sessions as they were."""
        before = self.user.sessions()
        with self.assertRaises(kind) as caught:
            ask()
        self.assertIs(type(caught.exception), kind)
        self.assertEqual(caught.exception.line, line)
        self.assertEqual(self.user.sessions(), before)

    def load(self, body: Any, name: str = "b", **words: Any) -> Any:
        return lambda: self.user.load(name, body, **{**DIMER_SCALE, **words})

    def test_lines(self) -> None:
        self.refused(refusals.Line, lambda: self.user.ask("x" * 257))
        self.refused(refusals.Syntax, lambda: self.user.ask("ADVANCE a"))
        self.refused(refusals.Syntax, lambda: self.user.ask(""))
        self.refused(refusals.Syntax, lambda: self.a.tug(0, (2**31, 0, 0)))
        self.refused(refusals.Command, lambda: self.user.ask("advance a 1"))
        self.refused(refusals.Command, lambda: self.user.ask("HELLO a b"))

    def test_a_body_after_a_line_that_is_too_long(self) -> None:
        """The program reads such a body as commands, so it is not sent."""
        with self.assertRaisesRegex(ValueError, "256 bytes"):
            self.load(X, edge="0" * 240 + "256")()
        self.assertEqual(self.user.sessions(), [("a", 0, 2, 0)])
        with self.assertRaises(refusals.Edge):
            self.load(X, edge="0" * 200 + "256")()
        replies = self.user.ask_all(["LIST a", "LIST"])
        self.assertEqual([reply.words[-1] for reply in replies], ["0", "1"])
        stream = b"LOAD " + b"x" * 252 + b" 256 1 1 rest 10\nLIST\nBYE\n\n\n"
        told = subprocess.run([PROGRAM, "run"], input=stream, capture_output=True, timeout=60).stdout
        self.assertEqual(told, b"ERR 02 LINE\nOK LIST 0\nOK BYE\n")

    def test_sessions(self) -> None:
        self.refused(refusals.NoSession, lambda: self.user.session("z"))
        self.refused(refusals.Exists, self.load(X, "a"))
        dimer(self.user, "b")
        dimer(self.user, "c")
        self.refused(refusals.QuotaSessions, self.load(X, "d"))

    def test_saved(self) -> None:
        self.refused(refusals.NoBranch, lambda: self.a.restore("q"))
        self.refused(refusals.NoBranch, lambda: self.a.forget("q"))
        self.a.branch("k")
        self.refused(refusals.BranchExists, lambda: self.a.branch("k"))
        self.refused(refusals.QuotaBranches, lambda: self.a.branch("m"))

    def test_atoms_and_steps(self) -> None:
        self.refused(refusals.NoAtom, lambda: self.a.place(2))
        self.refused(refusals.NoAtom, lambda: self.a.tug(2, (0, 0, 0)))
        self.refused(refusals.StepRange, lambda: self.a.advance(2_000_000, piece=1_000_001))
        self.refused(refusals.QuotaAtoms, self.load([("X", number, 0, 0) for number in range(9)]))

    def test_scales(self) -> None:
        for edge in (0, 0.0009, 1_000_001, -5, "x", "nan"):
            self.refused(refusals.Edge, self.load(X, edge=edge))
        for sigma in (0, 52, "x", 1e-4, -1):
            self.refused(refusals.Sigma, self.load(X, sigma=sigma))
        for h in (0, 2**24 + 1, -1):
            self.refused(refusals.StepFactor, self.load(X, h=h))

    def test_xyz(self) -> None:
        self.refused(refusals.XyzCount, self.load(b""), 1)
        self.refused(refusals.XyzCount, self.load("0\nc\n"), 1)
        self.refused(refusals.XyzCount, self.load("\n\n4097\nc\n"), 3)
        self.refused(refusals.XyzShort, self.load("2\nc\nNa 0 0 0\n"), 4)
        self.refused(refusals.XyzShort, self.load("1\nc\nNa 0 0\n"), 3)
        self.refused(refusals.XyzSymbol, self.load("1\nc\nabcdefghijklmnopq 0 0 0\n"), 3)
        self.refused(refusals.XyzNumber, self.load("1\nc\nX 0 NaN 0\n"), 3)
        self.refused(refusals.XyzNumber, self.load([("X", 0, 0, float("inf"))]), 3)
        self.refused(refusals.XyzRange, self.load([("X", 0, 0, 1e7)]), 3)
        self.refused(refusals.XyzPair, self.load(X, before=DIMER), 5)
        self.refused(refusals.XyzPair, lambda: self.user.ask("LOAD b 256 1 1 pair 12", X.encode()), 4)

    def test_memory(self) -> None:
        """The library of the program's own tests refuses one allocation: sooner or later that is one of LOAD or BRANCH."""
        with tempfile.TemporaryDirectory() as folder:
            library = f"{folder}/refuse_memory.so"
            source = TOP / "tests" / "refuse_memory.c"
            try:
                subprocess.run(["cc", "-shared", "-fPIC", "-o", library, source, "-ldl"], check=True, capture_output=True)
            except (OSError, subprocess.CalledProcessError):
                self.skipTest("cc is not installed")
            seen: Set[Any] = set()
            for number in range(1, 200):
                if {"answered", "LOAD", "BRANCH"} <= seen:
                    break
                try:
                    with run(PROGRAM, env={"LD_PRELOAD": library, "REFUSED": str(number)}) as user:
                        dimer(user).branch("k")
                        seen.add("answered")
                except refusals.Memory as refusal:
                    seen.add(refusal.command.split()[0])
                except Exception as fault:
                    seen.add(type(fault).__name__)
        self.assertEqual(seen, {"answered", "LOAD", "BRANCH", "CannotStart"})


class Endings(unittest.TestCase):
    def ends(self, kind: Any, ask: Any) -> None:
        """A refusal that ends the connection, which is told to whoever asks again."""
        with run(PROGRAM) as user:
            pid = process_of(user)
            with self.assertRaises(kind):
                ask(user)
            self.assertTrue(user.closed)
            with self.assertRaisesRegex(Closed, kind.name):
                user.sessions()
            with self.assertRaises(ProcessLookupError):
                os.kill(pid, 0)

    def test_a_body_without_its_count(self) -> None:
        self.ends(refusals.Body, lambda user: user.ask("LOAD a 256 1 1 rest"))

    def test_a_line_that_is_too_long(self) -> None:
        self.ends(refusals.Long, lambda user: user.ask("x" * 65536))

    def test_a_million_commands(self) -> None:
        self.ends(refusals.Enough, spend)

    def test_no_more_follows_what_ends_the_connection(self) -> None:
        self.ends(refusals.Body, lambda user: user.ask_all(["LIST", "LOAD a", "LIST", "LIST"]))


def spend(user: Any) -> None:
    """Asks until the connection's commands are spent. With a session that `ask` has loaded there is no going on elsewhere."""
    user.ask(f"LOAD a 256 1 131072 rest {len(DIMER)}", DIMER.encode())
    for _ in range(101):
        user.ask_all(["LIST"] * 10_000)


class Denials(unittest.TestCase):
    def test_denied(self) -> None:
        with Server() as server:
            for name, token in [("ann", "b" * 32), ("bob", TOKEN), ("ann", "short")]:
                with self.assertRaises(refusals.Denied) as caught:
                    connect("127.0.0.1", server.port, name, token)
                self.assertEqual((caught.exception.number, caught.exception.name), (1, "DENIED"))
                self.assertNotIn(token, str(caught.exception) + repr(caught.exception.args) + caught.exception.command)


if __name__ == "__main__":
    unittest.main()
