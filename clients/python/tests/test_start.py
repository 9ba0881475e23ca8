"""How `run` finds and starts a program, with programs that are none of ours."""
import os
import stat
import unittest
from unittest import mock
from typing import Any

from ljclient import BadReply, CannotStart, TimedOut, locate, run
from support import PROGRAM, SECONDS, TOP, folder_of, process_of


class Starts(unittest.TestCase):
    def setUp(self) -> None:
        self.folder = folder_of(self)

    def program(self, text: Any, name: str = "ljserve") -> Any:
        path = self.folder / name
        path.write_text("#!/bin/sh\n" + text)
        path.chmod(path.stat().st_mode | stat.S_IXUSR)
        return path

    def test_a_program_that_is_not_there(self) -> None:
        with self.assertRaisesRegex(CannotStart, "cannot start .*none: No such file"):
            run(self.folder / "none")

    def test_a_program_that_may_not_be_run(self) -> None:
        path = self.program("")
        path.chmod(0o644)
        with self.assertRaisesRegex(CannotStart, "Permission denied"):
            run(path)

    def test_a_program_that_ends_with_a_text(self) -> None:
        with self.assertRaisesRegex(CannotStart, r"has ended with status 3 \(ljserve: no memory\)"):
            run(self.program("echo 'ljserve: no memory' >&2\nexit 3\n"))

    def test_words_that_the_program_refuses(self) -> None:
        with self.assertRaisesRegex(CannotStart, "has ended with status 2 .*65"):
            run(PROGRAM, sessions=65)

    def test_a_program_that_speaks_otherwise(self) -> None:
        with self.assertRaisesRegex(CannotStart, "is not a reply to `LIST`"):
            run(self.program("echo hello\nexec cat\n"))

    def test_a_program_that_says_nothing(self) -> None:
        with self.assertRaises(TimedOut):
            run(self.program("exec sleep 60\n"), timeout=0.3)

    def test_a_program_that_will_not_end(self) -> None:
        path = self.program("trap '' TERM\nread line\necho 'OK LIST 0'\nwhile :; do sleep 1; done\n")
        stubborn = run(path, timeout=SECONDS)
        pid = process_of(stubborn)
        stubborn._wire.timeout = 0.2
        stubborn.close()
        self.assertFalse(os.path.exists(f"/proc/{pid}"))

    def test_much_on_standard_error_holds_nothing_up(self) -> None:
        path = self.program("head -c 1000000 /dev/zero >&2\nread line\necho 'OK LIST 0'\nread line\necho 'OK BYE'\n")
        with run(path, timeout=SECONDS) as quiet:
            self.assertFalse(quiet.closed)

    def test_bad_replies_after_the_start(self) -> None:
        with run(self.program("read line\necho 'OK LIST 0'\nread line\necho 'OK?'\nread line\n"), timeout=SECONDS) as odd:
            with self.assertRaises(BadReply):
                odd.sessions()

    def test_where_the_program_is_looked_for(self) -> None:
        with mock.patch.dict(os.environ, {"LJSERVE": "/some/where"}):
            self.assertEqual(locate.find_program(), "/some/where")
        with mock.patch.dict(os.environ, {"LJSERVE": ""}), mock.patch.object(locate, "_build") as build:
            self.assertEqual(locate.find_program(), str(TOP / "bin" / "ljserve"))
            build.assert_called_once_with(TOP / "bin" / "ljserve")
        with mock.patch.dict(os.environ, {"LJSERVE": "", "PATH": str(self.folder)}):
            of_no_wheel = mock.patch.object(locate, "_of_wheel", return_value=None)
            with of_no_wheel, mock.patch.object(locate, "__file__", str(self.folder / "locate.py")):
                with self.assertRaisesRegex(CannotStart, "cannot find ljserve"):
                    locate.find_program()
                path = self.program("")
                self.assertEqual(locate.find_program(), str(path))

    def test_a_build_that_fails(self) -> None:
        with self.assertRaisesRegex(CannotStart, "cannot build by .*: it ended with status 70"):
            locate._build(self.program("exit 70\n"))
        locate._build(self.program("exit 0\n"))
        with self.assertRaisesRegex(CannotStart, "cannot start .*none"):
            locate._build(self.folder / "none")


if __name__ == "__main__":
    unittest.main()
