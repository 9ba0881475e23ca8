"""Sessions that are saved to files and go on from them, bit for bit: in another program, over a server, and backward.

What is expected is what a session does that was never saved.
"""
import os
import re
import unittest
import zlib
from unittest import mock
from typing import Any, Dict

from ljclient import Damaged, connect, refusals, run, units
from support import ARGON, DIMER, EXAMPLES, PROGRAM, RING, TOKEN, TOP, Server, dimer, folder_of, go_on_alike, listed

MIX: Dict[str, Any] = {"species": ("Ar", "Kr"), "edge": 21.04, "first": (3.4, 119.8 * units.kelvin), "second": (3.65, 164 * units.kelvin)}
# The dimer after one step, by hand: each atom has moved by the push of the other, 589 units.
DIMER_FILE = """\
ljserve checkpoint 1
session a
step 1 direction 1
edge 256.0
sigma 1.0 ring 16777216 h 131072 weight 256
atoms 2
Ar 589 0 0 0 0 0
Ar 25165235 0 0 25165824 0 0
end
"""


def with_checks(text: Any) -> str:
    """A file of these lines, each below the first with the CRC-32 of all text up to its end."""
    head, *lines = text.splitlines()
    done, told = head + "\n", [head]
    for line in lines:
        done += line + "\n"
        told.append(f"{zlib.crc32(done.encode()):08x} {line}")
    return "\n".join(told) + "\n"


class Saves(unittest.TestCase):
    def setUp(self) -> None:
        self.path = folder_of(self) / "a.saved"
        self.user = run(PROGRAM, atoms=40_000)
        self.addCleanup(self.user.close)

    def argon(self, name: str = "argon", **words: Any) -> Any:
        return self.user.load(name, EXAMPLES / "argon_256.xyz", **{**ARGON, **words})

    def same(self, one: Any, other: Any) -> None:
        go_on_alike(self, one, other)


class Files(Saves):
    def test_the_file_of_a_dimer(self) -> None:
        a = dimer(self.user)
        a.advance(1)
        a.save(self.path)
        self.assertEqual(self.path.read_text(), with_checks(DIMER_FILE))
        self.assertEqual(os.listdir(self.path.parent), ["a.saved"])

    def test_a_file_from_elsewhere(self) -> None:
        self.path.write_text(with_checks(DIMER_FILE))
        a = self.user.load_saved(self.path)
        self.assertEqual((a.get_step(), a.n_atoms, a.symbols()), (1, 2, ["Ar", "Ar"]))
        self.assertEqual(listed(a.places()), [(589, 0, 0), (25165235, 0, 0)])
        self.assertEqual((a.advance(1), a.place(0)), (2, (1774, 0, 0)))
        self.assertEqual((a.edge, a.h, a.scale.sigma, a.dt), (256, 131072, 1, None))
        # A place of 1774 units is 1774 * 256 / 2^32 = 0.000105.. in the unit of the file.
        self.assertEqual(a.dump(), "2\nstep 2\nAr 0.000105 0.000000 0.000000\nAr 1.499894 0.000000 0.000000\n")

    def test_names(self) -> None:
        self.path.write_text(with_checks(DIMER_FILE))
        self.user.load_saved(self.path)
        with self.assertRaises(refusals.Exists):
            self.user.load_saved(self.path)
        self.user.load_saved(self.path, "b").advance(1)
        self.user.load_saved(self.path, "b", replace=True)
        self.assertEqual(self.user.sessions(), [("a", 1, 2, 0), ("b", 1, 2, 0)])
        with self.assertRaisesRegex(ValueError, "a name must be"):
            self.user.load_saved(self.path, "a b")

    def test_each_damaged_byte_is_found_in_its_line(self) -> None:
        dimer(self.user).save(self.path)
        whole = self.path.read_bytes()
        for at, byte in enumerate(whole):
            line = whole.count(b"\n", 0, at) + 1
            for other in {byte ^ 1, byte ^ 0x80, 10} - {byte}:
                with self.subTest(at=at, other=other):
                    self.path.write_bytes(whole[:at] + bytes([other]) + whole[at + 1 :])
                    with self.assertRaises(Damaged) as caught:
                        self.user.load_saved(self.path, "b")
                    self.assertIn(caught.exception.line, {line, line + 1} if byte == 10 else {line})
        self.assertEqual([row.name for row in self.user.sessions()], ["a"])

    def test_files_that_are_cut_short_or_too_long(self) -> None:
        dimer(self.user).save(self.path)
        whole = self.path.read_bytes()
        for size in range(len(whole)):
            self.path.write_bytes(whole[:size])
            with self.assertRaises(Damaged) as caught:
                self.user.load_saved(self.path, "b")
            self.assertEqual(caught.exception.line, whole.count(b"\n", 0, size) + 1)
        for more in (b"\n", b"x", whole, b"0" * 2**20):
            self.path.write_bytes(whole + more)
            with self.assertRaisesRegex(Damaged, "line 10: "):
                self.user.load_saved(self.path, "b")

    def test_lines_that_are_lost_or_change_places(self) -> None:
        self.argon().save(self.path)
        lines = self.path.read_bytes().splitlines(keepends=True)
        for at in (1, 7, 100, 200):
            for changed in (lines[:at] + lines[at + 1 :], lines[:at] + [lines[at + 1], lines[at]] + lines[at + 2 :]):
                self.path.write_bytes(b"".join(changed))
                with self.assertRaises(Damaged) as caught:
                    self.user.load_saved(self.path, "b")
                self.assertEqual(caught.exception.line, at + 1)

    def test_what_another_program_may_have_written(self) -> None:
        for before, after, line in [
            ("checkpoint 1", "checkpoint 2", 1),
            ("session a", "session a b", 2),
            ("session a", "session a/b", 2),
            ("step 1", "step 1.5", 3),
            ("direction 1", "direction 0", 3),
            ("edge 256.0", "edge nan", 4),
            ("ring 16777216", "ring 65535", 5),
            ("h 131072", "h 0", 5),
            ("weight 256", "weight 0", 5),
            ("sigma 1.0", "sigma one", 5),
            ("atoms 2", "atoms 0", 6),
            ("atoms 2", "atoms 4097", 6),
            ("atoms 2", "atoms 3", 9),
            ("atoms 2", "atoms 1", 8),
            ("Ar 589 0", f"Ar {RING} 0", 7),
            ("Ar 589 0", "Ar -1 0", 7),
            ("Ar 589 0", "Ar 589 0 0", 7),
            ("atoms 2", "order space\natoms 2\nA\tr 0 0 0 0 0 0", 8),
        ]:
            with self.subTest(after):
                self.path.write_text(with_checks(DIMER_FILE.replace(before, after)))
                with self.assertRaises(Damaged) as caught:
                    self.user.load_saved(self.path)
                self.assertEqual((caught.exception.line, caught.exception.path), (line, str(self.path)))
                self.assertIn(f"line {line}: ", str(caught.exception))
        self.assertEqual(self.user.sessions(), [])

    def test_files_that_cannot_be_read_or_written(self) -> None:
        a = dimer(self.user)
        with self.assertRaises(FileNotFoundError):
            self.user.load_saved(self.path)
        with self.assertRaises(FileNotFoundError):
            a.save(self.path / "none")
        a.save(self.path)
        whole = self.path.read_bytes()
        with mock.patch.object(os, "replace", side_effect=OSError("no")), self.assertRaises(OSError):
            a.save(self.path)
        self.assertEqual((self.path.read_bytes(), os.listdir(self.path.parent)), (whole, ["a.saved"]))


class Runs(Saves):
    def test_it_goes_on_as_if_it_was_never_saved(self) -> None:
        direct = self.argon()
        direct.advance(300)
        direct.save(self.path)
        with run(PROGRAM) as other:
            back = other.load_saved(self.path)
            self.assertEqual((back.get_step(), back.dt, back.scale), (300, direct.dt, direct.scale))
            self.same(direct, back)
            back.advance(200)
            direct.advance(200)
            back.save(self.path)
            again = self.user.load_saved(self.path, "again")
        self.same(direct, again)

    def test_what_is_saved_is_left_as_it_was(self) -> None:
        saved, direct = self.argon("saved"), self.argon("direct")
        for _ in range(2):
            saved.save(self.path)
            self.assertEqual((saved.advance(7), saved.reverse()), (direct.advance(7), direct.reverse()))
            self.same(saved, direct)
        self.same(self.user.load_saved(self.path, "back"), self.user.load_saved(self.path, "forth"))

    def test_a_run_back_to_its_start(self) -> None:
        a = self.argon()
        start = listed(a.places())
        a.advance(100)
        self.assertEqual(a.reverse(), 99)
        a.save(self.path)
        back = self.user.load_saved(self.path, "back")
        self.assertEqual((back.advance(99), listed(back.places())), (0, start))
        # REVERSE once more shows the direction: from step 0 on the way down the frame before is that of step 1.
        self.assertEqual((back.reverse(), back.advance(99)), (1, 100))
        self.assertEqual((a.reverse(), a.advance(0)), (100, 100))
        self.assertEqual(listed(back.places()), listed(a.places()))

    def test_pending_steps_are_made_first(self) -> None:
        a, direct = self.argon(), self.argon("direct")
        a.start(500)
        a.save(self.path)
        direct.advance(500)
        self.same(self.user.load_saved(self.path, "back"), direct)

    def test_two_species(self) -> None:
        symbols = ["Ar", "Ar", "Ar", "Kr"] * 64
        positions = self.argon().positions()
        mix = self.user.load_mix("mix", positions, symbols=symbols, mass=48, dt=10, **MIX)
        mix.advance(100)
        mix.save(self.path)
        back = self.user.load_saved(self.path, "back")
        self.assertEqual((str(back.mixture), back.mixture), (str(mix.mixture), mix.mixture))
        self.assertEqual(back.symbols(), symbols)
        self.same(mix, back)
        classes = [(3.4, 1000, 256), (3.5, 2000, 300), (3.6, 3000, 65536)]
        raw = self.user.load_mix("raw", positions, symbols=symbols, species=("Ar", "Kr"), edge=21.04, classes=classes)
        raw.advance(10)
        raw.save(self.path)
        self.same(raw, self.user.load_saved(self.path, "rawback"))

    def test_symbols_and_many_atoms(self) -> None:
        many = self.user.load("many", EXAMPLES / "argon_4000.xyz", edge=52.6, sigma=3.4, h=131072)
        many.tug(1234, (5, -6, 7))
        many.advance(3)
        many.save(self.path)
        back = self.user.load_saved(self.path, "back")
        self.assertEqual(listed(back.places()), listed(many.places()))
        self.assertEqual(back.measure(), many.measure())
        odd = self.user.load("odd", [(0, 0, 0), (1.5, 0, 0)], symbols=["Ar.1", "!~"], edge=256, sigma=1, h=131072)
        odd.save(self.path)
        self.assertEqual(self.user.load_saved(self.path, "evenodd").symbols(), ["Ar.1", "!~"])

    def test_what_is_done_with_a_loaded_one(self) -> None:
        a, direct = self.argon(), self.argon("direct")
        for each in (a, direct):
            each.advance(50)
        a.save(self.path)
        a = self.user.load_saved(self.path, "back")
        for each in (a, direct):
            self.assertEqual(each.tug(7, (1000, 0, -1000)), 50)
            self.assertEqual((each.branch("k"), each.start(5), each.get_target(), each.restore("k")), (50, 55, 55, 50))
            self.assertEqual(each.saved(), [("k", 50)])
        self.assertEqual([row[1:] for row in self.user.sessions()[1:]], [(50, 256, 1)] * 2)
        self.same(a, direct)

    def test_too_little_is_known(self) -> None:
        self.user.ask(f"LOAD a 256 1 131072 rest {len(DIMER)}", DIMER.encode())
        with self.assertRaisesRegex(ValueError, "scale of a must be known"):
            self.user.session("a").save(self.path)
        with self.assertRaisesRegex(ValueError, "two species"):
            self.user.session("a", edge=256, sigma=1, h=131072, weight=300).save(self.path)
        self.assertFalse(self.path.exists())
        self.user.session("a", edge=256, sigma=1, h=131072).save(self.path)
        self.same(self.user.session("a"), self.user.load_saved(self.path, "b"))

    def test_a_session_that_is_gone(self) -> None:
        a = dimer(self.user)
        self.user.ask("DROP a")
        with self.assertRaises(refusals.NoSession):
            a.save(self.path)


class Restarts(Saves):
    def test_a_server_that_was_started_again(self) -> None:
        direct = self.argon()
        with Server() as server, connect("127.0.0.1", server.port, "ann", TOKEN) as user:
            a = user.load("argon", EXAMPLES / "argon_256.xyz", **ARGON)
            a.advance(100)
            a.save(self.path)
        direct.advance(100)
        with Server() as server, connect("127.0.0.1", server.port, "ann", TOKEN) as user:
            self.same(direct, user.load_saved(self.path))


class Document(unittest.TestCase):
    """What docs/api/files.md shows; tests/documents runs its code and its commands."""

    def test_the_file(self) -> None:
        (file,) = re.findall(r"```\n(ljserve checkpoint.*?)```", (TOP / "docs" / "api" / "files.md").read_text(), re.S)
        self.assertEqual(file, with_checks(DIMER_FILE))


if __name__ == "__main__":
    unittest.main()
