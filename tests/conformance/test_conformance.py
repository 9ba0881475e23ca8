"""The program against the streams of conformance/ and its reference, and the reference against copies that are wrong."""
import subprocess
import sys
import unittest
from typing import Any

from support import EXAMPLES, PROGRAM, TOP, present

FOLDER = TOP / "conformance"
sys.path.append(str(FOLDER))

from chance import Chance  # noqa: E402
from playing import Stream, difference, folded, numbers_of_replies, referred, stored, told_by  # noqa: E402
from wrong_copies import WRONG, copy_with, is_caught, quick_streams  # noqa: E402

SECONDS = 600


class Program(unittest.TestCase):
    def played(self, command: Any, *words: Any) -> Any:
        """The last line of a command of the folder, which must succeed. All lines are shown if it fails."""
        line = [sys.executable, str(FOLDER / command), *words, PROGRAM, "run"]
        done = subprocess.run(line, stdout=subprocess.PIPE, stderr=subprocess.STDOUT, text=True, timeout=SECONDS)
        self.assertEqual(done.returncode, 0, done.stdout)
        return done.stdout.splitlines()[-1]

    def test_the_stored_streams(self) -> None:
        count = len(list(stored()))
        self.assertGreater(count, 120)
        self.assertEqual(self.played("run", "--seconds", str(SECONDS)), f"{count} streams agree, 0 differ")

    def test_random_streams(self) -> None:
        self.assertRegex(self.played("random", "--streams", "300", "--seed", "33"), r"^300 streams of seed 33, .*: 0 differ$")


class Reference(unittest.TestCase):
    def test_replies_that_were_worked_out_elsewhere(self) -> None:
        told = {stream.name: stream.replies for stream in stored("examples/")}
        for name in ("dimer", "every_command", "two_species"):
            self.assertEqual(told[f"examples/{name}"], (EXAMPLES / f"{name}.replies").read_bytes())

    def test_the_stored_replies_are_its_own(self) -> None:
        for stream in quick_streams():
            replies = referred(stream.sent, stream.quota)
            self.assertEqual(folded(replies) if stream.is_folded else replies, stream.replies, stream.name)

    def test_each_wrong_copy_is_caught(self) -> None:
        streams = quick_streams()
        for what, old, new in WRONG:
            with self.subTest(what):
                copy = copy_with(old, new)
                self.assertTrue(any(is_caught(copy, stream) for stream in streams))

    def test_the_right_copy_is_not_caught(self) -> None:
        copy = copy_with("2 cur - prev + push on the ring", "the same")
        self.assertEqual([stream.name for stream in quick_streams() if is_caught(copy, stream)], [])

    def test_a_seed_tells_the_stream(self) -> None:
        self.assertEqual(Chance("1 5").stream("x"), Chance("1 5").stream("x"))
        self.assertNotEqual(Chance("1 5").stream("x").sent, Chance("1 6").stream("x").sent)


class Differences(unittest.TestCase):
    SENT = b"LIST\nLOAD a 256 1 1 rest 12\n1\nc\nX 0 0 0\nLIST\nDUMP a\nSHOW a 0\n"
    REPLIES = b"OK LIST 0\nOK LOAD a 0 1\nOK LIST 1\na 0 1 0\nOK DUMP a 0 3\n1\nstep 0\nX 0.000000 0.000000 0.000000\nOK SHOW a 0 0 0 0 0\n"

    def test_the_first_byte_and_its_command(self) -> None:
        stream = Stream("s", self.SENT, self.REPLIES)
        self.assertIsNone(difference(stream, self.REPLIES))
        found = difference(stream, self.REPLIES.replace(b"step 0", b"step 1"))
        wanted = ["s: the replies differ at byte 63, in line 7", "command : 'DUMP a'", "expected: 'step 0'", "told    : 'step 1'"]
        self.assertEqual([line.strip() for line in present(found).splitlines()], wanted)

    def test_replies_that_are_missing(self) -> None:
        found = difference(Stream("s", self.SENT, self.REPLIES), self.REPLIES[:10], "ended with status 3")
        self.assertIn("differ at byte 10, in line 2; the program ended with status 3", present(found))
        self.assertIn("'LOAD a 256 1 1 rest 12'", present(found))
        self.assertIn(
            "but the program ended with status 3",
            present(difference(Stream("s", self.SENT, self.REPLIES), self.REPLIES, "ended with status 3")),
        )

    def test_lines_and_their_replies(self) -> None:
        self.assertEqual(list(numbers_of_replies(self.REPLIES))[:9], [0, 1, 2, 2, 3, 3, 3, 3, 4])
        places = b"OK SHOW a 0 0 0 0 0\n" * 20
        told = b"OK LIST 0\n" + folded(places) + b"OK BYE\n"
        # The hash was computed by sha256sum from these 400 bytes.
        self.assertEqual(folded(places), b"sha256 6e5297e498bffffa793d832fda371cdcfa95faf85c31c31e22ad6c4bfdcf673d of 20 lines\n")
        self.assertEqual(list(numbers_of_replies(told))[:3], [0, 1, 21])
        self.assertEqual(folded(places[:300]), places[:300])

    def test_a_program_that_does_not_end(self) -> None:
        command = [sys.executable, "-c", "import time; print('OK LIST 0', flush=True); time.sleep(60)"]
        told, ended = told_by(command, Stream("s", b"LIST\n", b"OK LIST 0\n"), 2)
        self.assertEqual((told, ended), (b"OK LIST 0\n", "did not end within 2 seconds"))

    def test_a_command_of_no_program(self) -> None:
        for command in ("run", "random"):
            words = [sys.executable, str(FOLDER / command), "/no/such/program", "run"]
            done = subprocess.run(words, capture_output=True, text=True, timeout=SECONDS)
            told = f"{command}: /no/such/program cannot be started: No such file or directory\n"
            self.assertEqual((done.returncode, done.stderr), (1, told))

    def test_a_quota_is_told_to_the_program(self) -> None:
        command = [sys.executable, "-c", "import sys; print(*sys.argv[1:])"]
        told, _ = told_by(command, Stream("s", b"", b"", (1, 2, 3)), SECONDS)
        self.assertEqual(told, b"--sessions 1 --atoms 2 --branches 3\n")


if __name__ == "__main__":
    unittest.main()
