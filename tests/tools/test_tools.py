"""Files of users: made with a slip for each user, and checked for faults."""
import contextlib
import io
import os
import re
import socket
import subprocess
import sys
import tempfile
import unittest
from typing import Any, Dict, Iterator, List, Tuple

from ljclient import connect, refusals
from support import EXAMPLES, PROGRAM, SECONDS, TOKEN, TOP, Server, dimer, present

USERS = TOP / "tools" / "users"
sys.path.append(str(USERS.parent))
TOOL: Dict[str, Any] = {"__name__": "users"}
exec(compile(USERS.read_text(), str(USERS), "exec"), TOOL)
GOOD = f"ann {TOKEN} 8 16384 16\n"


def many(count: int) -> str:
    """Lines of `count` users, each with a token of its own."""
    return "".join(f"u{number} {number:032} 8 16384 16\n" for number in range(count))


def told(*words: Any) -> Tuple[Any, Any, Any]:
    """The status and outputs of `users` with these words."""
    out, err = io.StringIO(), io.StringIO()
    with contextlib.redirect_stdout(out), contextlib.redirect_stderr(err):
        try:
            status = TOOL["main"](words)
        except SystemExit as end:
            status = end.code
    return status, out.getvalue(), err.getvalue()


@contextlib.contextmanager
def file_of(text: Any) -> Iterator[Any]:
    with tempfile.NamedTemporaryFile() as file:
        file.write(text if isinstance(text, bytes) else text.encode())
        file.flush()
        yield file.name


class Users(unittest.TestCase):
    def test_so_many_students(self) -> None:
        status, out, err = told("20", "--server", "10.0.0.5:4000")
        lines = [line.split(" ") for line in out.splitlines() if not line.startswith("#")]
        self.assertEqual((status, err, len(lines)), (0, "", 20))
        self.assertEqual([name for name, *_ in lines], [f"student{number:02}" for number in range(1, 21)])
        self.assertEqual({tuple(quota) for _, _, *quota in lines}, {("8", "16384", "16")})
        tokens = [token for _, token, *_ in lines]
        self.assertEqual(len(set(tokens)), 20)
        for name, token, *_ in lines:
            self.assertRegex(token, r"\A[A-Za-z0-9]{32}\Z")
            self.assertNotRegex(token, "[0O1lI]")
            slip = out[out.index(f"# {name} at 10.0.0.5:4000\n#\n#     token   ") :]
            groups = " ".join(re.findall("....", token))
            self.assertIn(f"#     token   {groups}\n", slip)
            self.assertIn(f'connect("10.0.0.5", 4000, "{name}",\n#                    "{groups}")', slip)

    def test_another_time_there_are_other_tokens(self) -> None:
        self.assertFalse(set(re.findall(r"\b\w{32}\b", told("3")[1])) & set(re.findall(r"\b\w{32}\b", told("3")[1])))

    def test_names_quota_and_slips_in_a_file(self) -> None:
        with tempfile.TemporaryDirectory() as folder:
            slips = os.path.join(folder, "slips")
            words = ["ann", "ben-2", "--quota", "2", "4096", "0", "--slips", slips]
            status, out, _ = told(*words)
            ann, ben = [line.split() for line in out.splitlines()[1:]]
            self.assertEqual((status, ann[0], ben[0], ann[2:]), (0, "ann", "ben-2", ["2", "4096", "0"]))
            with open(slips) as file:
                tokens = re.findall("token   (.*)", file.read())
            self.assertEqual([token.replace(" ", "") for token in tokens], [ann[1], ben[1]])
            self.assertEqual(os.stat(slips).st_mode & 0o777, 0o600)
            status, out, err = told(*words)
            self.assertEqual((status, out), (1, ""))
            self.assertIn(f"users: cannot write {slips}: it exists already", err)

    def test_words_that_say_no_users(self) -> None:
        cases: List[Any] = [
            ([], "the users must be given once"),
            (["0"], "from 1 to 64, got 0"),
            (["65"], "from 1 to 64, got 65"),
            (["a b"], "a name must be 1 to 16"),
            (["ann", "ann"], "twice"),
            (["x" * 17], "a name must be 1 to 16"),
            (["3", "--quota", "65", "1", "1"], "0 to 64"),
            (["3", "--server", "x"], "HOST:PORT"),
            (["3", "--check", "x"], "the users must be given once"),
            (["--quota"], "expected 3"),
        ]
        for words, why in cases:
            status, out, err = told(*words)
            self.assertEqual((status, out), (2, ""), words)
            self.assertIn(why, err)

    def test_a_server_takes_them(self) -> None:
        _, out, _ = told("3", "--quota", "1", "2", "0")
        name, token = present(re.search(r"^(student03) (\w+) ", out, re.M)).groups()
        with Server(lines=out) as server, connect("127.0.0.1", server.port, name, token) as user:
            dimer(user)
            with self.assertRaises(refusals.QuotaSessions):
                dimer(user, "b")


class Checks(unittest.TestCase):
    """Each fault is reported with its line and its cause, and the first line is the one that the program refuses."""

    CASES = [
        (GOOD.replace("\n", "\r\n"), 1, "must end with LF, got CR LF"),
        ("# class\r\n\n" + GOOD + "\r\n", 4, "must end with LF, got CR LF"),
        (b"\xef\xbb\xbf# class\n" + GOOD.encode(), 1, "byte order mark"),
        (GOOD + f"ben {TOKEN[1:]} 8 16384 16\n", 2, "a token must have 32 characters, got 31"),
        (GOOD + f"ben {TOKEN}a 8 16384 16\n", 2, "a token must have 32 characters, got 33"),
        (f"ann {TOKEN[1:]}! 8 16384 16\n", 1, "a token must be letters and digits, got other characters"),
        (f"ann {TOKEN} 8 16384\n", 1, "a line must have 5 words (name, token, sessions, atoms, branches), got 4"),
        (f"ann {TOKEN} 8 16384 16 # ann\n", 1, "must have 5 words (name, token, sessions, atoms, branches), got 7"),
        ("ann\n", 1, "a line must have 5 words (name, token, sessions, atoms, branches), got 1"),
        (" # class\n", 1, "must have 5 words (name, token, sessions, atoms, branches), got 2"),
        (f"an.n {TOKEN} 8 16384 16\n", 1, "a name must be 1 to 16 of"),
        (f"{'n' * 17} {TOKEN} 8 16384 16\n", 1, "a name must be 1 to 16 of"),
        (GOOD + "\n" + GOOD, 3, "each name must come once, got ann, which line 1 has too"),
        (f"ann {TOKEN} 65 16384 16\n", 1, "the sessions of a user must be at most 64, got 65"),
        (f"ann {TOKEN} 8 65537 16\n", 1, "the atoms of a user must be at most 65536, got 65537"),
        (f"ann {TOKEN} 8 16384 257\n", 1, "the branches of a user must be at most 256, got 257"),
        (f"ann {TOKEN} -1 16384 16\n", 1, "the number of sessions must be a whole number"),
        (f"ann {TOKEN} 8 {'0' * 20} 16\n", 1, "the number of atoms must be a whole number"),
        (many(65), 65, "a server must have at most 64 users, got more"),
        ("", 1, "a file must have at least one user, got none"),
        ("# class\n\n", 3, "a file must have at least one user, got none"),
        ("# class", 2, "a file must have at least one user, got none"),
    ]

    def test_each_fault(self) -> None:
        for text, line, cause in self.CASES:
            with self.subTest(text), file_of(text) as path:
                status, out, err = told("--check", path)
                self.assertEqual((status, err), (1, ""))
                self.assertTrue(out.startswith(f"{path}: line {line}: "), out)
                self.assertIn(cause, out)
                self.assertNotIn(TOKEN[1:], out)
                self.assertEqual(self.begins(path), (2, f"ljserve: users line {line}\n"))

    def test_several_faults(self) -> None:
        with file_of(f"ann\n{GOOD}\nben {TOKEN} x 1 1\n") as path:
            status, out, _ = told("--check", path)
        self.assertEqual((status, re.findall(r"line (\d+)", out)), (1, ["1", "4"]))

    def test_a_token_of_two_users(self) -> None:
        """Each of them could come in as the other. The program accepts such a file."""
        with file_of(f"{GOOD}# a comment\nben {'b' * 32} 1 1 1\ncleo {TOKEN} 8 16384 16\ndan {TOKEN} 1 1 1\n") as path:
            why = "each user must have a token of its own, got the one of line 1"
            self.assertEqual(told("--check", path), (1, f"{path}: line 4: {why}\n{path}: line 5: {why}\n", ""))
            self.assertEqual(self.begins(path), (1, "ljserve: cannot listen\n"))

    def test_good_files(self) -> None:
        for text, count in [
            (GOOD, "1 user"),
            (GOOD.rstrip() + "\n\n# end", "1 user"),
            (f"\tann  {TOKEN}\t0 0 0 ", "1 user"),
            (many(64), "64 users"),
            (told("9")[1], "9 users"),
            ((EXAMPLES / "users").read_text(), "2 users"),
            (f"ann {TOKEN} 0000000000000000064 65536 256\n", "1 user"),
        ]:
            with self.subTest(text), file_of(text) as path:
                self.assertEqual(told("--check", path), (0, f"{count}\n", ""))
                self.assertEqual(self.begins(path), (1, "ljserve: cannot listen\n"))

    def test_a_file_that_is_not_there(self) -> None:
        self.assertEqual(told("--check", "/no/such"), (1, "", "users: cannot read /no/such: No such file or directory\n"))

    def begins(self, path: Any) -> Tuple[Any, Any]:
        """How the program ends when it should serve these users at a port that is taken."""
        with socket.create_server(("127.0.0.1", 0)) as taken:
            words = ["--listen", f"127.0.0.1:{taken.getsockname()[1]}", "--users", path, "--workers", "1", "--connections", "1"]
            done = subprocess.run([PROGRAM, "serve", *words], capture_output=True, text=True, timeout=SECONDS)
        return done.returncode, done.stderr

    def test_a_run(self) -> None:
        for word, status, part in (("--help", 0, "usage: users "), ("2", 0, "student02"), ("0", 2, "")):
            done = subprocess.run([USERS, word], capture_output=True, text=True, timeout=SECONDS)
            self.assertEqual((done.returncode, bool(done.stderr)), (status, status != 0))
            self.assertIn(part, done.stdout)


if __name__ == "__main__":
    unittest.main()
