"""Atoms in the order of space: the server has other numbers than the user, and each atom moves as it would without.

What is expected is what the same atoms do in the order of their file.
"""
import random
import signal
import subprocess
import sys
import unittest
from unittest import mock
from typing import Any, Dict, List, Tuple

from ljclient import Order, connect, xyz
from ljclient.order import by_halves, sorted_anew
from support import TOKEN, TOP, Alone, Server, dimer, folder_of, interruptible, listed, present

SCALE: Dict[str, Any] = {"edge": 8.4, "sigma": 1, "h": 131072}
CLASSES = [(1, 131072, 256), (0.9, 150000, 300), (0.95, 140000, 200)]
MIX: Dict[str, Any] = {"edge": 8.4, "species": ("Ar", "Kr"), "classes": CLASSES}


def liquid(count: int = 500, seed: int = 1) -> Any:
    """A jittered lattice, 8 wide in a box of 8.4, in a shuffled order: rows of a symbol and a position."""
    drawn = random.Random(seed)
    sites = drawn.sample(range(8**3), count)
    rows = []
    for number, site in enumerate(sites):
        position = [(part + 0.3 + 0.1 * drawn.random()) * 1.05 for part in (site % 8, site // 8 % 8, site // 64)]
        rows.append(("Kr" if number % 3 == 0 else "Ar", *position))
    return rows


# Two symbols of atoms that are all alike.
ALIKE: Dict[str, Any] = {**SCALE, "symbols": [row[0] for row in liquid()]}


class Halves(unittest.TestCase):
    def test_a_line_of_atoms(self) -> None:
        # 256 atoms along x, numbered from the other end: four blocks, split along x and then along y, where all are alike.
        numbers = by_halves([(255 - atom, 0, 0) for atom in range(256)])
        self.assertEqual(sorted(numbers), list(range(256)))
        self.assertTrue(all(number // 128 == (255 - atom) // 128 for atom, number in enumerate(numbers)))

    def test_blocks_lie_in_space(self) -> None:
        # 4,096 atoms on a lattice of 16 x 16 x 16, shuffled: each block is a cube of 4 x 4 x 4.
        sites = [(x, y, z) for x in range(16) for y in range(16) for z in range(16)]
        random.Random(1).shuffle(sites)
        placed = Order(by_halves(sites))._for_server(sites)
        for first in range(0, 4096, 64):
            block = set(placed[first : first + 64])
            corner = tuple(min(axis) for axis in zip(*block))
            self.assertEqual(block, {tuple(c + d for c, d in zip(corner, each)) for each in sites if max(each) < 4})

    def test_halves_are_whole_blocks(self) -> None:
        for count in (1, 2, 63, 64, 65, 127, 128, 129, 191, 500, 4095):
            places = [(number * 7919 % 104729, number * 31 % 97, number % 11) for number in range(count)]
            numbers = by_halves(places)
            self.assertEqual(sorted(numbers), list(range(count)))
            if count > 128:
                # The first split is along x, at half of the blocks rounded down.
                first = -(-count // 64) // 2 * 64
                left = sorted(range(count), key=lambda atom: places[atom][0])[:first]
                self.assertEqual({atom for atom in range(count) if numbers[atom] < first}, set(left))

    def test_blocks_of_atoms_that_are_sorted_anew(self) -> None:
        # Alike atoms come into the blocks that halves give them, and who is in its block already keeps its number.
        drawn = random.Random(3)
        for count in (1, 64, 65, 128, 500, 1000):
            places = [(drawn.randrange(2**32), drawn.randrange(2**32), drawn.randrange(2**32)) for _ in range(count)]
            before = drawn.sample(range(count), count)
            new = sorted_anew(places, ["Ar"] * count, Order(tuple(before)))
            self.assertEqual(sorted(new), list(range(count)))
            self.assertEqual([number // 64 for number in new], [number // 64 for number in by_halves(places)])
            self.assertTrue(all(now == then for now, then in zip(new, before) if now // 64 == then // 64))

    def test_symbols_stay_at_the_numbers_of_the_server(self) -> None:
        drawn = random.Random(4)
        places = [(drawn.randrange(2**32), drawn.randrange(2**32), drawn.randrange(2**32)) for _ in range(700)]
        symbols = [drawn.choice(("A", "A", "B")) for _ in places]
        order = Order(tuple(drawn.sample(range(700), 700)))
        new = Order(sorted_anew(places, symbols, order))
        self.assertEqual(new._for_server(symbols), order._for_server(symbols))
        # Atoms of one symbol are sorted by halves among themselves: the first half of the blocks has those with the smaller x.
        for symbol in "AB":
            alike = [atom for atom, each in enumerate(symbols) if each == symbol]
            left = [places[atom][0] for atom in alike if new.number_of(atom) < 5 * 64]
            self.assertLess(max(left), min(places[atom][0] for atom in alike if new.number_of(atom) >= 5 * 64))

    def test_orders(self) -> None:
        order = Order((2, 0, 1), step=10, direction=-1)
        self.assertEqual((order._for_server("abc"), order._for_user("bca")), (["b", "c", "a"], ["a", "b", "c"]))
        self.assertEqual([order.number_of(atom) for atom in range(4)], [2, 0, 1, 3])
        self.assertEqual((order.step_of(3), Order().step_of(3), Order()._for_user("abc")), (7, 3, "abc"))
        for wrong in ((0, 0), (1, 2), (0, 2)):
            with self.assertRaisesRegex(ValueError, "each number from 0"):
                Order(wrong)
        with self.assertRaisesRegex(ValueError, "direction"):
            Order(direction=0)
        with self.assertRaisesRegex(ValueError, "an order must have a number for each of the 2 atoms"):
            order._for_user("ab")


class Sessions(Alone):
    def setUp(self) -> None:
        super().setUp()
        self.rows = liquid()
        self.folder = folder_of(self)

    def both(self) -> Tuple[Any, Any]:
        """The same atoms in the order of their list, and in that of space."""
        plain = self.user.load("plain", self.rows, **ALIKE)
        return plain, self.user.load("sorted", self.rows, order="space", **ALIKE)

    def same(self, one: Any, other: Any) -> None:
        self.assertEqual(listed(one.places()), listed(other.places()))
        self.assertEqual(one.measure(), other.measure())
        self.assertEqual((one.get_step(), one.get_target(), one.n_atoms), (other.get_step(), other.get_target(), other.n_atoms))


class Motion(Sessions):
    def moves_alike(self, plain: Any, ordered: Any) -> None:
        orders = [ordered.order.numbers]
        self.same(plain, ordered)
        for session in (plain, ordered):
            session.tug(17, (40_000, -50_000, 60_000))
            self.assertEqual(session.advance(1000), 1000)
        self.same(plain, ordered)
        orders.append(ordered.order.numbers)
        for session in (plain, ordered):
            self.assertEqual((session.reverse(), session.advance(600)), (999, 399))
            session.tug(499, (1, 2, 3))
            session.tug(0, (-3, -2, -1))
            self.assertEqual((session.advance(700, piece=33), session.reverse()), (-301, -300))
        self.same(plain, ordered)
        orders.append(ordered.order.numbers)
        self.assertEqual([sorted(order) for order in orders], [list(range(500))] * 3)
        self.assertEqual(len({*orders, tuple(range(500))}), 4)

    def test_atoms_of_one_species(self) -> None:
        self.moves_alike(*self.both())

    def test_atoms_of_two_species(self) -> None:
        plain = self.user.load_mix("plain", self.rows, **MIX)
        ordered = self.user.load_mix("sorted", self.rows, order="space", **MIX)
        self.moves_alike(plain, ordered)
        self.assertEqual((ordered.mixture, ordered.symbols()), (plain.mixture, plain.symbols()))

    def test_they_go_back_to_their_start(self) -> None:
        _, ordered = self.both()
        start = listed(ordered.places())
        for _ in range(2):
            ordered.advance(600)
            ordered.reverse()
        self.assertEqual((ordered.get_step(), listed(ordered.places())), (0, start))

    def test_several_at_once(self) -> None:
        plain, ordered = self.both()
        told = []
        self.assertEqual(self.user.advance([ordered, plain], [700, 300], progress=lambda *each: told.append(each)), [700, 300])
        self.assertEqual((told[-1], plain.advance(400)), (("sorted", 700, 700), 700))
        self.same(plain, ordered)
        ordered.start(300)
        plain.start(300)
        self.assertEqual((ordered.get_target(), plain.get_target()), (1000, 1000))
        self.assertEqual(self.user.advance([plain, ordered], 10), [1010, 1010])
        self.same(plain, ordered)

    def test_atoms_in_motion_from_the_start(self) -> None:
        before = [(symbol, x - 0.001, y + 0.002, z) for symbol, x, y, z in self.rows]
        plain = self.user.load("plain", self.rows, before=before, **ALIKE)
        ordered = self.user.load("sorted", self.rows, before=before, order="space", **ALIKE)
        self.same(plain, ordered)
        self.assertEqual(plain.advance(300), ordered.advance(300))
        self.same(plain, ordered)


class Numbers(Sessions):
    def test_everything_has_the_numbers_of_the_user(self) -> None:
        plain, ordered = self.both()
        for session in (plain, ordered):
            session.advance(300)
        self.assertEqual(ordered.dump(), plain.dump())
        self.assertEqual(ordered.symbols(), [row[0] for row in self.rows])
        self.assertEqual([ordered.place(atom) for atom in (0, 250, 499)], [plain.place(atom) for atom in (0, 250, 499)])
        self.assertEqual([list(each) for each in ordered.positions()], [list(each) for each in plain.positions()])
        self.assertEqual(list(self.user.sessions()), [("plain", 300, 500, 0), ("sorted", 300, 500, 0)])
        for atom in (500, 10**18):
            with self.assertRaisesRegex(Exception, "NO_ATOM"):
                ordered.place(atom)

    def test_the_server_has_its_own(self) -> None:
        plain, ordered = self.both()
        for session in (plain, ordered):
            session.advance(260)
        order = ordered.order
        words = self.user.ask(f"SHOW sorted {order.numbers[123]}").words
        self.assertEqual(tuple(map(int, words[4:])), plain.place(123))
        self.assertEqual((order.step_of(int(words[2])), order.step, int(words[2])), (260, 0, 260))

    def test_another_connection_takes_an_order(self) -> None:
        with Server() as server:
            with connect("127.0.0.1", server.port, "ann", TOKEN) as user:
                ordered = user.load("s", self.rows, order="space", **ALIKE)
                ordered.advance(300)
                order, places, dumped = ordered.order, listed(ordered.places()), ordered.dump()
                symbols = ordered.symbols()
            with connect("127.0.0.1", server.port, "ann", TOKEN) as user:
                self.assertEqual(listed(user.session("s").places()), list(order._for_server(places)))
                self.assertEqual(user.session("s").symbols(), order._for_server(symbols))
                other = user.session("s", order=order, **SCALE)
                self.assertEqual((listed(other.places()), other.dump(), other.get_step()), (places, dumped, 300))
                self.assertEqual(other.symbols(), symbols)
                numbers = user.session("s", order=list(present(order.numbers)))
                self.assertEqual((listed(numbers.places()), numbers.place(7)), (places, places[7]))
                for wrong in (present(order.numbers)[:-1], [0] * 500):
                    with self.assertRaises(ValueError):
                        user.session("s", order=wrong).places()

    def test_saved_files(self) -> None:
        plain, ordered = self.both()
        for session in (plain, ordered):
            session.advance(300)
            session.save(self.folder / session.name)
        texts = [(self.folder / name).read_text() for name in ("plain", "sorted")]
        rows = [[line.split(" ")[1:] for line in text.splitlines() if line.count(" ") == 7] for text in texts]
        self.assertEqual((rows[0], len(rows[0])), (rows[1], 500))
        back = self.user.load_saved(self.folder / "sorted", "back")
        self.assertNotEqual(back.order.numbers, None)
        self.same(plain, back)
        plain.advance(300)
        back.advance(300)
        self.same(plain, back)
        now = self.user.load_saved(self.folder / "plain", "now", order="space")
        self.assertEqual(now.order, Order(now.order.numbers, 300, 1, True))
        self.assertEqual(now.advance(300), 600)
        self.same(plain, now)


class Renewals(Sessions):
    def test_each_250_steps(self) -> None:
        _, ordered = self.both()
        with mock.patch.object(self.user, "_resort", wraps=self.user._resort) as resort:
            for n, done in [(249, 0), (1, 0), (1, 1), (600, 3), (0, 3), (148, 3), (2, 4)]:
                ordered.advance(n)
                self.assertEqual(resort.call_count, done, n)

    def test_not_while_something_is_saved(self) -> None:
        plain, ordered = self.both()
        ordered.branch("k")
        ordered.branch("l")
        order = ordered.order
        self.assertEqual((ordered.advance(600), ordered.order), (600, order))
        with self.assertRaisesRegex(ValueError, "cannot sort sorted again: .* would be lost .k, l"):
            ordered.resort()
        self.assertEqual((ordered.restore("k"), ordered.saved(), ordered.advance(600)), (0, [("k", 0), ("l", 0)], 600))
        ordered.forget("k")
        ordered.forget("l")
        ordered.resort()
        self.assertNotEqual(ordered.order, order)
        self.assertEqual(plain.advance(600), 600)
        self.same(plain, ordered)

    def test_any_session_can_be_sorted(self) -> None:
        plain, _ = self.both()
        places = listed(plain.places())
        plain.resort()
        self.assertEqual(plain.order, Order(sorted_anew(places, [row[0] for row in self.rows], Order())))
        self.assertEqual((listed(plain.places()), plain.symbols()), (places, [row[0] for row in self.rows]))
        order = plain.order
        self.assertEqual((plain.advance(600), plain.order), (600, order))
        a = dimer(self.user)
        a.resort()
        self.assertEqual((a.advance(2), a.place(0)), (2, (1774, 0, 0)))

    def test_what_is_no_order(self) -> None:
        for wrong in ("time", "", [0, 1]):
            with self.assertRaisesRegex(ValueError, "order must be 'space'"):
                dimer(self.user, order=wrong)
        self.assertEqual(self.user.sessions(), [])

    def test_a_session_that_is_replaced(self) -> None:
        self.both()
        again = self.user.load("sorted", self.rows, replace=True, **ALIKE)
        self.assertEqual((again.order, listed(again.places())), (Order(), listed(self.user.session("plain").places())))

    def test_a_load_that_is_refused(self) -> None:
        _, ordered = self.both()
        places = listed(ordered.places())
        with self.assertRaisesRegex(Exception, "EXISTS"):
            self.user.load("sorted", self.rows, order="space", **ALIKE)
        with self.assertRaisesRegex(Exception, "XYZ_NUMBER line 4"):
            self.user.load("new", "2\n\nAr 0 0 0\nAr 0 0 x\n", order="space", **SCALE)
        self.assertEqual((listed(ordered.places()), len(self.user.sessions())), (places, 2))

    def test_interrupts_lose_nothing(self) -> None:
        """An interrupt comes while the motion is turned back to be read, and while atoms change places."""
        plain, ordered = self.both()
        asked = {"ask_all": 0, "_ask_rows": 0}
        for name in asked:
            ask = getattr(self.user, name)

            def interrupted(lines: Any) -> Any:
                half = len(lines) // 2
                if not any(line.startswith("REVERSE") for line in lines):
                    return ask(lines)
                asked[name] += 1
                first = ask(lines[:half])
                signal.raise_signal(signal.SIGINT)
                return first + ask(lines[half:])

            ordered.advance(250)
            with mock.patch.object(self.user, name, side_effect=interrupted), interruptible():
                with self.assertRaises(KeyboardInterrupt):
                    ordered.advance(10)
            plain.advance(ordered.get_step() - plain.get_step())
            self.same(plain, ordered)
        self.assertEqual(asked, {"ask_all": 1, "_ask_rows": 1})


class Script(Sessions):
    """`examples/load --sorted`, for those without the client."""

    def printed(self, text: Any, *words: Any, status: int = 0) -> Any:
        """What the script prints for a file with this text."""
        (self.folder / "atoms.xyz").write_text(text)
        command = [sys.executable, TOP / "examples" / "load", *words, self.folder / "atoms.xyz", "sorted", "8.4", "1", "131072"]
        done = subprocess.run(command, capture_output=True, timeout=60)
        self.assertEqual(done.returncode, status, done.stderr)
        return done.stdout if status == 0 else done.stderr.decode()

    def test_a_file_in_the_order_of_space(self) -> None:
        text = xyz.text_of((row[0], row[1:]) for row in self.rows).decode()
        plain = self.user.load("plain", text, **ALIKE)
        line, _, body = self.printed("\n" + text, f"--sorted={self.folder / 'order'}").partition(b"\n")
        self.user.ask(line.decode(), body)
        numbers = [int(word) for word in (self.folder / "order").read_text().splitlines()]
        self.assertEqual(tuple(numbers), by_halves(listed(plain.places())))
        ordered = self.user.session("sorted", order=numbers, **SCALE)
        for session in (plain, ordered):
            session.tug(400, (9, 9, 9))
            session.advance(20)
        self.same(plain, ordered)
        self.assertEqual(ordered.dump(), plain.dump())

    def test_two_frames(self) -> None:
        frames = [xyz.text_of(((row[0], [part + moved for part in row[1:]]) for row in self.rows)) for moved in (0.1, 0)]
        plain = self.user.load("plain", frames[1], before=frames[0], **ALIKE)
        (self.folder / "pair").write_bytes(b"".join(frames))
        words: List[Any] = [sys.executable, TOP / "examples" / "load", "--sorted"]
        words += [self.folder / "pair", "sorted", "8.4", "1", "131072", "pair"]
        line, _, body = subprocess.run(words, capture_output=True, check=True, timeout=60).stdout.partition(b"\n")
        self.user.ask(line.decode(), body)
        numbers = by_halves(listed(plain.places()))
        self.same(plain, self.user.session("sorted", order=numbers, **SCALE))

    def test_files_without_a_frame(self) -> None:
        for text, line in [("", 0), ("2\n\nAr 0 0 0\n", 4), ("1\n\nAr 0 0\n", 3), ("1\n\nAr 0 0 x\n", 3), ("x\n", 1)]:
            self.assertIn(f"atoms.xyz has no whole frame: line {line}", self.printed(text, "--sorted", status=1))
        self.assertEqual("load: unrecognized arguments: --shuffled\n", self.printed("", "--shuffled", status=2))


if __name__ == "__main__":
    unittest.main()
