"""The prompt as a filter: its replies, its words, and what it tells of commands."""
import contextlib
import io
import os
import re
import subprocess
import sys
import tempfile
import unittest
from itertools import chain
from unittest import mock
from typing import Any, List, Tuple

import pytest

from ljclient import Refused, run
from ljclient.prompt import commands, completion, helping, loading
from ljclient.prompt.dialogue import PipeTalk
from ljclient.prompt.link import Link
from ljclient.prompt.reading import PipeInput
from support import EXAMPLES, PROGRAM, SECONDS, TOKEN, TOP, Server, dimer, free_port, present
from terminals import ARGON, PROMPT, environment

sys.path.append(str(TOP / "tests"))
import dialogue_tables  # noqa: E402

WRONG = "w" * 32


def filtered(stream: Any, *words: Any, **env: Any) -> Tuple[Any, str, str]:
    """The status of a prompt whose input is this, and what it writes."""
    data = stream if isinstance(stream, bytes) else stream.encode()
    done = subprocess.run([*PROMPT, *words], input=data, capture_output=True, timeout=SECONDS, env=environment(**env))
    return done.returncode, done.stdout.decode(), done.stderr.decode()


class Tables(unittest.TestCase):
    def test_the_table_of_the_protocol(self) -> None:
        """The commands are those of docs/PROTOCOL.md, with their words, their replies and the order of their refusals."""
        text = (TOP / "docs" / "PROTOCOL.md").read_text().split("\n## Commands\n")[1].split("\n### ")[0]
        rows = [line.strip("| ").split(" | ") for line in text.splitlines() if line.startswith("| `")]
        self.assertGreater(len(rows), 15)
        listed = [tuple(re.findall("`(.*?)`", cell)[0] for cell in row[:2]) + (self.numbers(row[2]),) for row in rows]
        self.assertEqual([(each.usage, each.reply, each.refusals) for each in commands.COMMANDS], listed)

    def numbers(self, cell: Any) -> Any:
        """The numbers of a cell such as `11, 30 to 32 and 39`."""
        found: List[Any] = []
        for first, last in re.findall(r"(\d\d)(?: to (\d\d))?", cell):
            found += range(int(first), int(last or first) + 1)
        return tuple(found)

    def test_each_word_has_a_meaning(self) -> None:
        for command in commands.COMMANDS:
            told = [word for words, _ in commands.words_of(command.usage) for word in words.split()]
            self.assertEqual(told, command.usage.split()[1:])
            self.assertTrue(command.does.endswith("."))

    def test_help_on_each_command(self) -> None:
        for command in commands.COMMANDS:
            for word in (command.name, command.name.lower()):
                told = " ".join(" ".join(helping.help_on(word)).split())
                for part in (command.usage, command.reply, command.does):
                    self.assertIn(part, told)
                for number in command.refusals:
                    self.assertIn(Refused.by_number[number].meaning, told)
        overview = "\n".join(helping.help_on(""))
        self.assertTrue(all(f"{name} " in overview for name in commands.names()))

    def test_help_on_a_refusal(self) -> None:
        for word in ("10", "NO_SESSION", "no_session"):
            self.assertEqual(helping.help_on(word), ["ERR 10 NO_SESSION: there is no session of that name"])
        self.assertIn("There is no command and no refusal 99", helping.help_on("99")[0])


@pytest.mark.parametrize(
    "line, load",
    [
        ("LOAD a x.xyz 21.04 3.4 131072", ("LOAD a 21.04 3.4 131072 rest 5", "x.xyz")),
        ("LOAD a x.xyz 21.04 3.4 131072 pair", ("LOAD a 21.04 3.4 131072 pair 5", "x.xyz")),
        ("LOAD a 21.04 3.4 131072 pair x.xyz", ("LOAD a 21.04 3.4 131072 pair 5", "x.xyz")),
        ('LOAD\ta "my x.xyz"  21.04 3.4 131072 ', ("LOAD a 21.04 3.4 131072 rest 5", "my x.xyz")),
        ("LOADMIX m y 9 A B 1 2 3 1 2 3 1 2 3", ("LOADMIX m 9 A B 1 2 3 1 2 3 1 2 3 rest 5", "y")),
        ("LOADMIX m 9 A B 1 2 3 1 2 3 1 2 3 rest ./y", ("LOADMIX m 9 A B 1 2 3 1 2 3 1 2 3 rest 5", "./y")),
    ],
)
def test_a_line_with_a_file(line: Any, load: Any) -> None:
    """What it becomes, and the file that it names."""
    found = present(loading.from_file(line))
    assert (loading.line_of(found, b"12345"), found.path) == load


@pytest.mark.parametrize(
    "line, size",
    [
        ("LOAD a 256 1 131072 rest 28", 28),
        ("LOAD a x 1 131072 rest 28", 28),
        ("LOAD a .5 1 131072 28", 28),
        ("LOADMIX m x A B 1 2 3 1 2 3 1 2 3 pair 007\r", 7),
        ("LOAD a x 1 28", 28),
        ("LOAD a 1 1 1 rest rest", 0),
        ("LOAD a x.xyz 1 1 1 1 1", 1),
        ("LIST 9\r\r", 0),
        ("LOAD a 256 1 1 rest 28\r\r", 0),
        ("LOAD 9", 9),
        ("LOAD", 0),
        ("LOAD a 256 1 1 rest", 0),
        ("LOAD a 1 1 1 rest 1048576", 1048576),
        ("LOAD a 1 1 1 rest 1048577", 0),
        ("LOAD a 1 1 1 rest 00000028", 0),
        ("LOAD " + "a" * 252 + " 28", 0),
        ("load a 256 1 131072 rest 28", 0),
        ("LIST 28", 0),
        ("", 0),
    ],
)
def test_a_line_of_the_protocol(line: Any, size: Any) -> None:
    """It names no file, and announces a body of so many bytes."""
    assert (loading.from_file(line), loading.size_of_body(line)) == (None, size)


class Dialogues(unittest.TestCase):
    """The dialogues of the program's own tests, through the prompt: all but those in which a file would be looked for, or
    whose last line has no end."""

    def test_replies(self) -> None:
        played = 0
        for dialogue in chain.from_iterable(dialogue_tables.TABLES.values()):
            text = dialogue.text()
            if len(text) < 300_000 and text.endswith(b"\n") and not any(map(names_a_file, text.split(b"\n"))):
                with self.subTest(dialogue.name):
                    self.assertEqual(self.replies(text, dialogue.quota), dialogue.replies)
                played += 1
        self.assertGreater(played, 250)

    def replies(self, text: Any, quota: Any) -> Any:
        """What a stream is replied by the prompt over a program with this quota."""
        out, (sessions, atoms, branches) = io.StringIO(), quota
        link = Link(lambda: run(PROGRAM, sessions=sessions, atoms=atoms, branches=branches), "")
        with contextlib.closing(link), contextlib.suppress(loading.Fault):
            PipeTalk(link, out).run(PipeInput(io.BytesIO(text)))
        return out.getvalue()


def names_a_file(line: Any) -> bool:
    return loading.from_file(line.decode()) is not None


class Filters(unittest.TestCase):
    """What is piped in is answered as the program answers it."""

    def test_streams_of_the_examples(self) -> None:
        for name in ("dimer", "every_command"):
            stream, replies = (EXAMPLES / f"{name}.txt").read_bytes(), (EXAMPLES / f"{name}.replies").read_text()
            self.assertEqual(filtered(stream), (0, replies, ""))

    def test_a_file_in_place_of_the_count(self) -> None:
        stream = f"LOAD a {ARGON} 21.04 3.4 3706\nADVANCE a 100\nSHOW a 0\n"
        # The place that docs/api/examples.md tells of the same run without the client.
        place = "OK SHOW a 100 0 638484 804537 4294921034"
        self.assertIn(place, (TOP / "docs" / "api" / "examples.md").read_text())
        self.assertEqual(filtered(stream), (0, f"OK LOAD a 0 256\nOK ADVANCE a 100\n{place}\n", ""))

    def test_refusals_are_replies(self) -> None:
        stream = "SHOW a 0\n\nhelp\nLOAD a 1 1 1 rest 3\n9\n\nLIST"
        replies = "ERR 10 NO_SESSION\nERR 03 SYNTAX\nERR 06 COMMAND\nERR 37 SIGMA\nOK LIST 0\n"
        self.assertEqual(filtered(stream), (0, replies, ""))
        self.assertIn("ERR 31 XYZ_SHORT line 3\n", filtered("LOAD a 256 1 1 rest 4\n2\nc\n")[1])

    def test_what_ends_the_connection_ends_it(self) -> None:
        self.assertEqual(filtered("BYE\nLIST\n"), (0, "OK BYE\n", ""))
        self.assertEqual(filtered("LOAD a\nLIST\n"), (1, "ERR 04 BODY\n", ""))
        self.assertEqual(filtered(b"x" * 70_000), (1, "ERR 05 LONG\n", ""))
        self.assertEqual(filtered(b"x" * 65_535 + b"\n"), (0, "ERR 02 LINE\n", ""))

    def test_what_cannot_be_sent(self) -> None:
        for stream, why in [
            ("LIST\nLOAD a /no/such 9 1 1\nLIST\n", "cannot read /no/such: No such file"),
            ("LIST\nLOAD a 9 1 1 rest 9\n1\n", "the text after a LOAD must have 9 bytes, got 2 before the end of the input"),
            (b"LIST\n\xff\xfe\n", "a line must be UTF-8 text, got"),
            (f"LIST\nLOAD a {TOP} 9 1 1\n", "Is a directory"),
        ]:
            status, out, err = filtered(stream)
            self.assertEqual((status, out), (1, "OK LIST 0\n"))
            self.assertIn(why, err)
            self.assertEqual(err.count("\n"), 1)

    def test_a_reader_that_is_gone(self) -> None:
        words = f"{sys.executable} -m ljclient | head -n 1"
        stream = (EXAMPLES / "every_command.txt").read_bytes() * 300
        done = subprocess.run(words, shell=True, input=stream, capture_output=True, timeout=SECONDS, env=environment())
        self.assertEqual((done.stdout, done.stderr), (b"OK LOAD a 0 2\n", b""))

    def test_no_program(self) -> None:
        status, out, err = filtered("LIST\n", LJSERVE="/no/such")
        self.assertEqual((status, out, err), (1, "", "ljclient: cannot start /no/such: No such file or directory\n"))


class Words(unittest.TestCase):
    """Words of the command line, and the token."""

    def test_a_server(self) -> None:
        with Server() as server, tempfile.TemporaryDirectory() as folder:
            address = f"127.0.0.1:{server.port}"
            self.assertEqual(filtered("LIST\n", address, "ann", LJSERVE_TOKEN=TOKEN), (0, "OK LIST 0\n", ""))
            for text in (TOKEN, f"{TOKEN}\r\n", f"# of ann\n\n  {TOKEN}\n", f"# users\nben {WRONG} 1 1 1\nann {TOKEN} 1 1 1\n"):
                path = os.path.join(folder, "token")
                with open(path, "w", newline="") as file:
                    file.write(text)
                told = filtered("LIST\n", address, "ann", "--token-file", path, LJSERVE_TOKEN=WRONG)
                self.assertEqual(told, (0, "OK LIST 0\n", ""))
            status, out, err = filtered("LIST\n", address, "ann", LJSERVE_TOKEN=WRONG)
            self.assertEqual((status, out), (1, ""))
            self.assertIn("ERR 01 DENIED: the server knows no user of that name and token", err)
            self.assertNotIn(WRONG, err)

    def test_no_token(self) -> None:
        self.assertIn("use --token-file FILE, or set LJSERVE_TOKEN", filtered("", "127.0.0.1:1", "ann")[2])
        self.assertIn("cannot read /no/such", filtered("", "127.0.0.1:1", "ann", "--token-file", "/no/such")[2])
        self.assertIn("cannot find a token of cleo in", filtered("", "127.0.0.1:1", "cleo", "--token-file", str(EXAMPLES / "users"))[2])

    def test_a_token_on_the_command_line_is_not_taken_and_not_shown(self) -> None:
        for words in ([TOKEN], ["--token", TOKEN], [f"--token={TOKEN}"], ["--tok", TOKEN]):
            status, out, err = filtered("", "127.0.0.1:1", "ann", *words)
            self.assertEqual((status, out), (2, ""))
            self.assertNotIn(TOKEN, err)
        self.assertIn("a token must not be on the command line", filtered("", "127.0.0.1:1", "ann", TOKEN)[2])

    def test_words_that_are_none(self) -> None:
        for words, why in [
            (["127.0.0.1:1"], "HOST:PORT must be followed by NAME"),
            (["127.0.0.1", "ann"], "the first word must be HOST:PORT"),
            (["h:0", "ann"], "the first word must be HOST:PORT"),
            (["h:65536", "ann"], "the first word must be HOST:PORT"),
            (["--frob"], "no option --frob"),
            (["--timeout", "0"], "above 0"),
            (["--timeout", "nan"], "above 0"),
            (["--timeout", "x"], "invalid"),
        ]:
            status, out, err = filtered("", *words)
            self.assertEqual((status, out), (2, ""))
            self.assertIn(why, err)

    def test_no_server(self) -> None:
        status, out, err = filtered("", f"127.0.0.1:{free_port()}", "ann", LJSERVE_TOKEN=TOKEN)
        self.assertEqual((status, out), (1, ""))
        self.assertIn("Connection refused", err)

    def test_help(self) -> None:
        status, out, err = filtered("", "--help")
        self.assertEqual((status, err), (0, ""))
        for part in ("[HOST:PORT NAME]", "--token-file FILE", "LJSERVE_TOKEN", "ljclient view"):
            self.assertIn(part, out)


class Completion(unittest.TestCase):
    def test_words(self) -> None:
        with run(PROGRAM) as user:
            dimer(user, "alpha").branch("k1")
            dimer(user, "beta")
            cases: List[Any] = [
                ([], "AD", ["ADVANCE "]),
                ([], "ad", ["advance "]),
                ([], "h", ["heat ", "help "]),
                (["heat"], "be", ["beta "]),
                (["undo"], "", ["alpha ", "beta "]),
                (["help"], "LOADM", ["LOADMIX "]),
                (["ADVANCE"], "", ["alpha ", "beta "]),
                (["ADVANCE"], "b", ["beta "]),
                (["ADVANCE", "alpha"], "", []),
                (["FORGET", "alpha"], "", ["k1 "]),
                (["BRANCH", "alpha"], "", []),
                (["RESTORE", "none"], "", []),
                (["LIST"], "a", ["alpha "]),
                (["LOAD", "x"], f"{ARGON}"[:-5], [f"{ARGON} "]),
                (["LOAD", "x"], f"{EXAMPLES}", [f"{EXAMPLES}/"]),
                (["LOAD"], "", []),
                (["BYE"], "", []),
                (["NONE"], "", []),
                (["LOAD", "x", "y", "9", "1", "1"], "p", ["pair "]),
                (["DUMP", "alpha", "more"], "", []),
            ]
            for before, word, wanted in cases:
                self.assertEqual(completion.candidates(before, word, user), wanted, (before, word))
        self.assertEqual(completion.candidates(["ADVANCE"], "", user), [])
        self.assertEqual(completion.candidates(["ADVANCE"], "", None), [])

    def test_home(self) -> None:
        with tempfile.TemporaryDirectory() as home, mock.patch.dict(os.environ, {"HOME": home}):
            open(os.path.join(home, "x.xyz"), "w").close()
            self.assertEqual(completion.files("~/x"), ["~/x.xyz "])


if __name__ == "__main__":
    unittest.main()
