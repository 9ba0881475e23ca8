"""`tools/watch` in front of a server: it passes on each byte, and shows who is connected."""
import contextlib
import hashlib
import os
import re
import socket
import struct
import subprocess
import sys
import threading
import time
import unittest
from typing import Any, Iterator, List

from ljclient import connect, refusals
from support import EXAMPLES, SECONDS, TOKEN, TOP, Server, peer, present, read_line
from terminals import Terminal

TOOL = TOP / "tools" / "watch"
WATCH = [sys.executable, str(TOOL)]


class Watcher:
    """`watch` on a free port, in front of a server, with options."""

    def __init__(self, port: Any, *options: Any) -> None:
        words = [*WATCH, *map(str, options), "127.0.0.1:0", f"127.0.0.1:{port}"]
        self.child = subprocess.Popen(words, stdin=subprocess.DEVNULL, stdout=subprocess.PIPE, text=True)
        self.port = int(present(re.search(r"listens on 127\.0\.0\.1:(\d+), for", present(self.child.stdout).readline()))[1])

    def lines(self, count: Any) -> List[Any]:
        """The next lines that it writes, without the times."""
        lines = [present(self.child.stdout).readline() for _ in range(count)]
        return [re.sub(r"\d\d:\d\d:\d\d", "TIME", " ".join(line.split())) for line in lines]

    def connected(self) -> Any:
        return socket.create_connection(("127.0.0.1", self.port), SECONDS)

    def __enter__(self) -> Any:
        return self

    def __exit__(self, *_: Any) -> None:
        self.child.terminate()
        self.child.communicate(timeout=SECONDS)


@contextlib.contextmanager
def many_peers(talk: Any) -> Iterator[Any]:
    """The port of a peer that runs `talk` for each of many connections at once."""
    listener = socket.create_server(("127.0.0.1", 0), backlog=300)

    def serve() -> None:
        with contextlib.suppress(OSError):
            while True:
                connection, _ = listener.accept()
                threading.Thread(target=talk, args=(connection,), daemon=True).start()

    threading.Thread(target=serve, daemon=True).start()
    try:
        yield listener.getsockname()[1]
    finally:
        listener.shutdown(socket.SHUT_RDWR)
        listener.close()


def read_all(stream: Any) -> bytes:
    pieces = []
    while piece := stream.recv(1 << 16):
        pieces.append(piece)
    return b"".join(pieces)


def reset(stream: Any) -> None:
    """Closes a connection with a reset."""
    stream.setsockopt(socket.SOL_SOCKET, socket.SO_LINGER, struct.pack("ii", 1, 0))
    stream.close()


class Bytes(unittest.TestCase):
    """What is passed on, byte for byte."""

    def test_both_ways_after_a_half_close(self) -> None:
        sent = os.urandom(3_000_000)

        def talk(connection: Any, stop: Any) -> None:
            connection.sendall(hashlib.sha256(read_all(connection)).digest() + sent[::-1])

        with peer(talk) as port, Watcher(port) as watcher, watcher.connected() as stream:
            stream.sendall(sent)
            stream.shutdown(socket.SHUT_WR)
            self.assertEqual(read_all(stream), hashlib.sha256(sent).digest() + sent[::-1])

    def test_a_reader_who_is_slow_holds_the_server_back(self) -> None:
        told, size = [], 40_000_000

        def talk(connection: Any, stop: Any) -> None:
            read_line(connection)
            connection.sendall(bytes(size))
            told.append("all is sent")

        with peer(talk) as port, Watcher(port) as watcher, watcher.connected() as stream:
            stream.sendall(b"LIST\n")
            time.sleep(0.5)
            self.assertEqual(told, [])
            self.assertEqual(len(read_all(stream)), size)
        self.assertEqual(told, ["all is sent"])

    def test_many_at_once(self) -> None:
        def talk(connection: Any) -> None:
            with connection:
                connection.sendall(read_all(connection)[::-1])

        with many_peers(talk) as port, Watcher(port, "--of-an-address", 200) as watcher, contextlib.ExitStack() as streams:
            opened = [streams.enter_context(watcher.connected()) for _ in range(200)]
            for number, stream in enumerate(opened):
                stream.sendall(b"%d" % number * 1000)
            for stream in opened:
                stream.shutdown(socket.SHUT_WR)
            for number, stream in enumerate(opened):
                self.assertEqual(read_all(stream), (b"%d" % number * 1000)[::-1])
            self.assertEqual(len(watcher.lines(200)), 200)

    def test_the_last_reply_comes_though_the_client_is_still_sending(self) -> None:
        def talk(connection: Any, stop: Any) -> None:
            read_line(connection)
            connection.sendall(b"ERR 04 BODY\n")
            connection.shutdown(socket.SHUT_RDWR)

        with peer(talk) as port, Watcher(port) as watcher, watcher.connected() as stream:
            with contextlib.suppress(OSError):
                stream.sendall(b"LOAD a\n" + bytes(5_000_000))
            self.assertEqual(stream.recv(100), b"ERR 04 BODY\n")

    def test_a_client_that_is_gone(self) -> None:
        ended = threading.Event()

        def talk(connection: Any, stop: Any) -> None:
            read_all(connection)
            ended.set()

        for leave in (reset, socket.socket.close):
            ended.clear()
            with peer(talk) as port, Watcher(port) as watcher:
                stream = watcher.connected()
                stream.sendall(b"LIST\n")
                leave(stream)
                self.assertTrue(ended.wait(SECONDS))
                self.assertEqual(len(watcher.lines(1)), 1)

    def test_a_server_that_is_gone(self) -> None:
        with peer(lambda connection, stop: reset(connection)) as port, Watcher(port) as watcher, watcher.connected() as stream:
            stream.sendall(b"LIST\n")
            self.assertEqual(stream.recv(1), b"")
        with Watcher(port) as watcher, watcher.connected() as stream:
            stream.sendall(b"LIST\n")
            self.assertEqual(stream.recv(1), b"")
            self.assertIn("the server cannot be reached", watcher.lines(1)[0])


class Lines(unittest.TestCase):
    """The lines about each connection."""

    def setUp(self) -> None:
        self.server = Server(users=("ann", "ben"))
        self.addCleanup(self.server.end)
        self.watcher = Watcher(self.server.port)
        self.addCleanup(self.watcher.__exit__)

    def join(self, name: str = "ann", token: Any = TOKEN) -> Any:
        return connect("127.0.0.1", self.watcher.port, name, token, timeout=SECONDS)

    def test_a_user(self) -> None:
        with self.join() as user:
            origin = "127.0.0.1:{}".format(user._wire._transport._socket.getsockname()[1])
            self.assertEqual(self.watcher.lines(1), [f"TIME in ann {origin} since TIME 0 commands"])
            a = user.load("a", EXAMPLES / "argon_4000.xyz", edge=55, sigma=3.4, h=1000)
            self.assertEqual(len(a.dump().splitlines()), 4002)
            for line in ("SHOW a 4000", "LIST", "LIST a", "DUMP b"):
                with contextlib.suppress(refusals.NoAtom, refusals.NoSession):
                    user.ask(line)
        # The LIST of `connect`, LOAD, DUMP, the four and BYE
        self.assertEqual(self.watcher.lines(1), [f"TIME ended ann {origin} since TIME 8 commands ERR 10 NO_SESSION"])

    def test_the_line_of_a_text_that_is_refused(self) -> None:
        with self.join() as user, contextlib.suppress(refusals.XyzNumber):
            user.load("a", "1\nERR 01 DENIED\nX x 0 0\n", edge=256, sigma=1, h=1)
        self.assertRegex(self.watcher.lines(2)[1], "3 commands ERR 33 XYZ_NUMBER line 3$")

    def test_no_token_is_shown(self) -> None:
        wrong = "b" * 32
        for words in (f"ann {wrong}", f"{wrong} ann", f"{TOKEN} ann", wrong, f"cleo  {TOKEN}"):
            with self.watcher.connected() as stream:
                stream.sendall(f"HELLO {words}\n".encode())
                self.assertEqual(read_all(stream), b"ERR 01 DENIED\n")
        with self.watcher.connected() as stream:
            stream.sendall(f"{TOKEN}\n".encode())
            self.assertEqual(read_all(stream), b"ERR 01 DENIED\n")
        lines = self.watcher.lines(6)
        told = sorted(line.split()[1:3] for line in lines)
        self.assertEqual(told, [["denied", name] for name in ["-", "-", "-", "-", "ann", "cleo"]])
        self.assertNotRegex("".join(lines), f"{wrong}|{TOKEN}")

    def test_who_says_nothing(self) -> None:
        self.watcher.connected().close()
        self.assertRegex(self.watcher.lines(1)[0], "^TIME not in - 127.0.0.1:[0-9]+ since TIME 0 commands$")

    def test_a_screen(self) -> None:
        words = [*WATCH, "127.0.0.1:0", f"127.0.0.1:{self.server.port}"]
        terminal = Terminal(words)
        self.addCleanup(terminal.close)
        port = int(present(re.search(r":(\d+), for", terminal.until(r"listens on 127\.0\.0\.1:\d+, for")))[1])
        terminal.until(rf"\n127\.0\.0\.1:{port}  0 open\n")
        with connect("127.0.0.1", port, "ann", TOKEN):
            terminal.until(r"1 open\nin +ann +127\.0\.0\.1:\d+ +since [0-9:]+ +1 command\n")
            with socket.create_connection(("127.0.0.1", port), SECONDS) as second:
                second.sendall(f"HELLO ann {TOKEN}\n".encode())
                terminal.until(r"2 open\nin +ann [^\n]*\nwaits +ann [^\n]*\n")
        terminal.until(r"ended +ann [^\n]* 2 commands\n")
        terminal.until("0 open\n")
        terminal.interrupt()
        self.assertEqual(terminal.ended()[0], 0)


class Words(unittest.TestCase):
    def test_words_that_are_none(self) -> None:
        wrong: List[List[str]] = [[], ["127.0.0.1:1"], ["x", "127.0.0.1:1"], ["127.0.0.1:1", "127.0.0.1:99999"], ["a:1", "b:2", "c:3"]]
        for words in wrong:
            done = subprocess.run([*WATCH, *words], capture_output=True, text=True, timeout=SECONDS)
            self.assertEqual((done.returncode, done.stdout), (2, ""))
            self.assertIn("HOST:PORT", done.stderr)

    def test_a_port_that_is_taken(self) -> None:
        with socket.create_server(("127.0.0.1", 0)) as taken:
            address = f"127.0.0.1:{taken.getsockname()[1]}"
            done = subprocess.run([*WATCH, address, address], capture_output=True, text=True, timeout=SECONDS)
        self.assertEqual((done.returncode, done.stdout), (1, ""))
        self.assertIn(f"watch: cannot listen on {address}", done.stderr)

    def test_help(self) -> None:
        done = subprocess.run([TOOL, "--help"], capture_output=True, text=True, timeout=SECONDS)
        self.assertEqual((done.returncode, done.stderr), (0, ""))
        self.assertIn("usage: watch ", done.stdout)


if __name__ == "__main__":
    unittest.main()
