"""Places and frames that are read all at once, with peers that show something else too, and with and without numpy."""
import random
import re
import threading
import unittest
from unittest import mock
from typing import Any, List

from ljclient import BadReply, Closed, ConnectionLost, arrays, reading, refusals, run
from ljclient.wire import Reply
from support import PROGRAM, RING, SECONDS, dimer, interrupted_when, joined, listed, peer, read_line, says, stays

LISTED = b"OK LIST 1\na 7 2 0\n"
SHOWN = [b"OK SHOW a 7 0 589 0 4294967295\n", b"OK SHOW a 7 1 25165235 1 2\n"]
PLACES = [(589, 0, 4294967295), (25165235, 1, 2)]
KINDS = [arrays.numpy, None] if arrays.numpy else [None]


def by(kind: Any) -> Any:
    """Has the client read by numpy, or by lists alone."""
    return mock.patch.object(arrays, "numpy", kind)


class ByEither(unittest.TestCase):
    """What is the same with numpy, if it is there, and without."""

    def test_places(self) -> None:
        rng = random.Random(5)
        atoms = range(4096)
        wanted = [tuple(rng.randrange(RING) for _ in range(3)) for _ in atoms]
        text = b"".join(b"OK SHOW 5-7 -12 %d %d %d %d\n" % (atom, *place) for atom, place in enumerate(wanted))
        for kind in KINDS:
            with by(kind):
                step, places = reading.places_of("5-7", 4096, text)
            self.assertEqual((step, listed(places)), (-12, wanted))
            self.assertEqual(isinstance(places, list), kind is None)

    def test_places_of_each_length(self) -> None:
        rng = random.Random(7)
        for count in (1, 2, 11, 4096):
            wanted = [tuple(min(rng.randrange(10 ** rng.randint(1, 10)), RING - 1) for _ in range(3)) for _ in range(count)]
            text = b"".join(b"OK SHOW a 0 %d %d %d %d\n" % (atom, *place) for atom, place in enumerate(wanted))
            for kind in KINDS:
                with by(kind):
                    self.assertEqual(listed(reading.places_of("a", count, text).places), wanted)

    def test_both_ways_refuse_the_same(self) -> None:
        """Texts with one byte put in the place of another, taken out, or put in."""
        if not arrays.numpy:
            self.skipTest("numpy is not installed")
        rng, head = random.Random(8), b"OK SHOW a 7 "
        right = b"".join(b"%b%d %d 4294967295 %d\n" % (head, atom, rng.randrange(RING), rng.randrange(10)) for atom in range(12))
        taken = 0
        for _ in range(4000):
            at, byte, kind = rng.randrange(len(right)), rng.choice(b"0123456789 \n\t-.A\x00\xff"), rng.randrange(3)
            text = right[:at] + bytes([byte]) * (kind > 0) + right[at + (kind < 2) :]
            by_numpy, alone = (read(text, head, 12) for read in (reading._arrayed_places, reading._listed_places))
            self.assertEqual(by_numpy if by_numpy is None else listed(by_numpy), alone, text)
            taken += alone is not None
        self.assertTrue(500 < taken < 3500)

    def test_other_bytes_of_long_texts(self) -> None:
        text = b"OK SHOW a 7 0 589 0 4294967295\n" * 500
        plain = b"\n" + bytes(range(0x20, 0x7F))
        for kind in KINDS:
            with by(kind):
                found = [byte for byte in range(256) if not arrays.has_others(text[:9999] + bytes([byte]) + text[9999:], plain)]
            self.assertEqual(bytes(found), plain)

    def test_positions(self) -> None:
        rng = random.Random(6)
        words = [f"{rng.uniform(0, 10 ** rng.randint(-6, 6)):.6f}" for _ in range(3000)]
        symbols = ["Ar", "1.5", "-"] * 334
        rows = [f"{symbol} {' '.join(words[at : at + 3])}" for at, symbol in zip(range(0, 3000, 3), symbols)]
        for kind in KINDS:
            with by(kind):
                positions = reading.Frame.of(3, rows).positions()
            self.assertEqual([float(part) for position in positions for part in position], [float(word) for word in words])
            self.assertEqual(isinstance(positions, list), kind is None)

    def test_a_peer_that_shows_what_was_asked_for(self) -> None:
        for kind in KINDS:
            with by(kind), peer(says(LISTED, *SHOWN)) as port, joined(port) as user:
                self.assertEqual(listed(unasked(user).places()), PLACES)
                user._wire.close()

    def test_a_peer_that_shows_something_else(self) -> None:
        first, second = SHOWN
        for wrong, told in [
            (b"OK SHOW b 7 1 0 0 0\n", "`SHOW a 1` was answered"),
            (b"OK SHOW a 7 0 0 0 0\n", "`SHOW a 1` was answered"),
            (b"OK SHOW a 7 1 4294967296 0 0\n", "`SHOW a 1` was answered"),
            (b"OK SHOW a 7 1 -1 0 0\n", "`SHOW a 1` was answered"),
            (b"OK SHOW a 7 1 0 0\n", "`SHOW a 1` was answered"),
            (b"OK SHOW a 7 1 0 0 0 0\n", "`SHOW a 1` was answered"),
            (b"OK SHOW a 7 1 0  0 0\n", "`SHOW a 1` was answered"),
            (b"OK SHOW a 7 1 0 0 0x1\n", "`SHOW a 1` was answered"),
            (b"OK SHOW a 7 1 0 0 \xb2\n", "is not text of the protocol"),
            (b"OK SHOW a 8 1 0 0 0\n", "2 atoms of session a were not shown at one step"),
            (b"HTTP/1.1 400\n", "is not a reply to `SHOW a 1`"),
            (b"OK STEP a 7\n", "`SHOW a 1` was answered"),
        ]:
            for kind in KINDS:
                with self.subTest(wrong), by(kind), peer(says(LISTED, first, wrong)) as port, joined(port) as user:
                    with self.assertRaisesRegex(BadReply, re.escape(told)):
                        unasked(user).places()
                    user._wire.close()

    def test_frames_that_are_none(self) -> None:
        words = ["DUMP", "a", "7", "3"]
        frames: List[List[str]] = [["2", "step 7", "Ar 0"], ["1", "step 8", "Ar 0"], ["1", "Step 7", "Ar 0"], [], ["-1", "step 7"]]
        for lines in frames:
            with self.subTest(lines), self.assertRaises(BadReply):
                reading.frame_of("a", Reply(words, lines))
            with self.subTest(lines), self.assertRaises(BadReply):
                reading.positions_of("a", words, "\n".join([*lines, ""]).encode())
        one = "0.000000"
        for parts in [(one, "0.0", "0.0"), (one, one), (one, "-" + one, one), (one, one, one, "1"), (".000000", one, one)]:
            row = " ".join(["Ar", *parts])
            for kind in KINDS:
                with self.subTest(row), by(kind), self.assertRaisesRegex(BadReply, re.escape(repr(row))):
                    reading.frame_of("a", Reply(words, ["1", "step 7", row])).positions()
                with self.subTest(row), by(kind), self.assertRaisesRegex(BadReply, re.escape(repr(row))):
                    reading.positions_of("a", words, f"1\nstep 7\n{row}\n".encode())


def unasked(user: Any) -> Any:
    """The session a of a user, of which nothing was asked yet."""
    with mock.patch.object(user, "ask"), mock.patch.object(user, "_row"):
        return user.session("a")


class Refusals(unittest.TestCase):
    def test_a_refusal_among_rows_is_raised_when_all_are_answered(self) -> None:
        replies = [LISTED, SHOWN[0], b"ERR 14 NO_ATOM\n", b"OK LIST 0\n"]
        with peer(says(*replies)) as port, joined(port) as user:
            with self.assertRaises(refusals.NoAtom) as caught:
                unasked(user).places()
            self.assertEqual(caught.exception.command, "SHOW a 1")
            self.assertEqual(user.sessions(), [])
            user._wire.close()

    def test_a_refusal_that_ends_the_connection(self) -> None:
        with peer(says(LISTED, SHOWN[0], b"ERR 08 ENOUGH\n")) as port, joined(port) as user:
            with self.assertRaises(refusals.Enough):
                unasked(user).places()
            with self.assertRaises(Closed):
                user.sessions()

    def test_gone_among_rows(self) -> None:
        for last in (b"", b"OK SHOW a 7 1 2"):
            with peer(says(LISTED, SHOWN[0] + last)) as port, joined(port) as user:
                with self.assertRaisesRegex(ConnectionLost, "`SHOW a 1` was not answered"):
                    unasked(user).places()

    def test_no_rows(self) -> None:
        with run(PROGRAM) as user:
            self.assertEqual(user._ask_rows([]), b"")
            self.assertEqual(user.sessions(), [])


class Interrupts(unittest.TestCase):
    def test_rows_that_nobody_came_for_are_passed_over(self) -> None:
        caught = threading.Event()

        def slowly(connection: Any, stop: Any) -> None:
            read_line(connection)
            connection.sendall(SHOWN[0])
            caught.wait(SECONDS)
            read_line(connection)
            connection.sendall(SHOWN[1])
            read_line(connection)
            connection.sendall(b"OK LIST 0\n")
            stays(connection, stop)

        with peer(says(LISTED, then=slowly)) as port, joined(port) as user:
            with interrupted_when(lambda: len(user.unanswered) == 2 and user._wire._unsplit):
                unasked(user).places()
            caught.set()
            self.assertEqual(user.sessions(), [])
            user._wire.close()


class Both(unittest.TestCase):
    def test_the_frame_before_is_read_and_nothing_is_changed(self) -> None:
        with run(PROGRAM) as user:
            a = dimer(user)
            a.advance(2)
            seen = a.measure()
            now, before = a._frames_of_places(both=True)
            self.assertEqual((now.step, listed(now.places)), (2, [(1774, 0, 0), (25164050, 0, 0)]))
            self.assertEqual((before.step, listed(before.places)), (1, [(589, 0, 0), (25165235, 0, 0)]))
            self.assertEqual(a.measure(), seen)


if __name__ == "__main__":
    unittest.main()
