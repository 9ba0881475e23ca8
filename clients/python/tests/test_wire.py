"""The dialogue itself, with peers that are slow, silent, gone, or no server at all."""
import socket
import threading
import time
import unittest
from typing import Any

import ljclient
from ljclient import BadReply, Closed, ConnectionLost, Refused, TimedOut, connect, refusals
from support import SECONDS, TOKEN, interrupted_when, joined, peer, read_line, says, stays


def read_whole_line(connection: Any) -> Any:
    """The next line of a connection, which is the last that was sent before its answer or is followed by others."""
    line = connection.recv(1 << 14, socket.MSG_PEEK)
    while b"\n" not in line:
        connection.recv(len(line), socket.MSG_WAITALL)
        line = connection.recv(1 << 14, socket.MSG_PEEK)
    return connection.recv(line.index(b"\n") + 1, socket.MSG_WAITALL)


class Replies(unittest.TestCase):
    def test_a_reply_may_come_in_pieces(self) -> None:
        def slowly(connection: Any, stop: Any) -> None:
            read_line(connection)
            for byte in b"OK LIST 1\na 5 2 0\n":
                connection.sendall(bytes([byte]))
                time.sleep(0.002)
            stays(connection, stop)

        with peer(says(then=slowly)) as port, joined(port) as user:
            self.assertEqual(user.sessions(), [("a", 5, 2, 0)])
            user._wire.close()

    def test_each_refusal_has_its_class(self) -> None:
        lines = [f"ERR {number:02} {kind.name}\n".encode() for number, kind in sorted(Refused.by_number.items())]
        for line in lines:
            with self.subTest(line), peer(says(line)) as port, joined(port) as user:
                with self.assertRaises(Refused) as caught:
                    user.ask("LIST")
                number, name = line.decode().split()[1:]
                self.assertEqual((caught.exception.number, caught.exception.name), (int(number), name))
                self.assertIsNot(type(caught.exception), Refused)
                self.assertEqual(user.closed, int(number) in (1, 4, 5, 8))
                user._wire.close()

    def test_a_refusal_with_a_line(self) -> None:
        with peer(says(b"ERR 33 XYZ_NUMBER line 17\n")) as port, joined(port) as user:
            with self.assertRaises(refusals.XyzNumber) as caught:
                user.ask("LOAD a 1 1 1 rest 2", b"1\n")
            self.assertEqual((caught.exception.number, caught.exception.line), (33, 17))
            self.assertIn("ERR 33 XYZ_NUMBER line 17", str(caught.exception))
            user._wire.close()

    def test_a_refusal_that_is_not_known(self) -> None:
        with peer(says(b"ERR 77 NEW_ONE\n", b"OK LIST 0\n")) as port, joined(port) as user:
            with self.assertRaises(Refused) as caught:
                user.ask("START")
            self.assertEqual((type(caught.exception), caught.exception.number, caught.exception.name), (Refused, 77, "NEW_ONE"))
            self.assertEqual(user.sessions(), [])
            user._wire.close()

    def test_what_is_no_reply(self) -> None:
        for reply in [
            b"HTTP/1.1 400 Bad Request\r\n",
            b"\n",
            b"OK\n",
            b"OK SHOW a 0 0 0 0 0\n",
            b"OK LIST x\n",
            b"OK LIST -1\n",
            b"OK LIST 99999999\n",
            b"OK LIST 1\n\xff\xfe\n",
            b"ERR\n",
            b"ERR 10\n",
            b"ERR ten NO_SESSION\n",
            b"ERR 30 XYZ_COUNT line x\n",
            b"x" * 5000,
        ]:
            with self.subTest(reply), peer(says(reply, then=stays)) as port, joined(port) as user:
                with self.assertRaises(BadReply):
                    user.ask("LIST")
                with self.assertRaisesRegex(Closed, "is not a reply|says no number|is not text|is not a line"):
                    user.ask("LIST")

    def test_fields_that_are_no_numbers(self) -> None:
        for reply in [b"OK ADVANCE a x\n", b"OK ADVANCE a\n", b"OK ADVANCE b 1\n", b"OK ADVANCE a 1 2\n"]:
            with self.subTest(reply), peer(says(b"OK LIST a 0\n", reply)) as port, joined(port) as user:
                with self.assertRaises(BadReply):
                    user.session("a").advance(1)
                user._wire.close()


class Ends(unittest.TestCase):
    def test_no_server(self) -> None:
        with socket.socket() as taken:
            taken.bind(("127.0.0.1", 0))
            port = taken.getsockname()[1]
        with self.assertRaisesRegex(ConnectionLost, f"cannot connect to 127.0.0.1:{port}"):
            joined(port)

    def test_gone_without_a_word(self) -> None:
        with peer(lambda connection, stop: None) as port:
            with self.assertRaisesRegex(ConnectionLost, "no place for more"):
                joined(port)

    def test_gone_in_the_middle_of_a_reply(self) -> None:
        for reply in [b"", b"O", b"OK LIST 2", b"OK LIST 2\n", b"OK LIST 2\na 1 2 0\nb 1"]:
            with self.subTest(reply), peer(says(reply)) as port, joined(port) as user:
                with self.assertRaisesRegex(ConnectionLost, "`LIST` was not answered"):
                    user.sessions()
                self.assertTrue(user.closed)
                with self.assertRaises(Closed):
                    user.sessions()

    def test_a_reset(self) -> None:
        def reset(connection: Any, stop: Any) -> None:
            read_line(connection)
            connection.setsockopt(socket.SOL_SOCKET, socket.SO_LINGER, b"\1\0\0\0\0\0\0\0")
            connection.close()

        with peer(says(then=reset)) as port, joined(port) as user:
            with self.assertRaisesRegex(ConnectionLost, "`LIST` was not answered"):
                user.sessions()

    def test_silence(self) -> None:
        for part in [b"", b"OK LI", b"OK LIST 1\n"]:
            with self.subTest(part), peer(says(part, then=stays)) as port, joined(port) as user:
                user._wire.timeout, start = 0.3, time.monotonic()
                with self.assertRaisesRegex(TimedOut, "nothing was heard for 0.3 s; `LIST` was not answered"):
                    user.sessions()
                self.assertLess(time.monotonic() - start, SECONDS / 2)
                self.assertTrue(user.closed)

    def test_the_time_limit_is_not_doubled(self) -> None:
        with peer(says(then=stays)) as port, joined(port) as user:
            user._wire.timeout, start = 4, time.monotonic()
            with self.assertRaises(TimedOut):
                user.sessions()
            self.assertTrue(4 <= time.monotonic() - start < 7.5)

    def test_what_is_heard_in_time_renews_the_time_limit(self) -> None:
        def slowly(connection: Any, stop: Any) -> None:
            read_line(connection)
            for line in (b"OK LIST 2\n", b"a 0 1 0\n", b"b 0 1 0\n"):
                time.sleep(1.5)
                connection.sendall(line)
            stays(connection, stop)

        with peer(says(then=slowly)) as port, joined(port) as user:
            user._wire.timeout = 4
            self.assertEqual([row.name for row in user.sessions()], ["a", "b"])
            user._wire.close()

    def test_silence_at_the_beginning(self) -> None:
        with peer(stays) as port:
            with self.assertRaises(TimedOut) as caught:
                joined(port, timeout=0.3)
        self.assertIn("is another connection of ann open?", str(caught.exception))
        self.assertNotIn(TOKEN, str(caught.exception))

    def test_a_line_that_never_ends_is_silence(self) -> None:
        def trickle(connection: Any, stop: Any) -> None:
            read_line(connection)
            connection.settimeout(SECONDS)
            while not stop.wait(0.05):
                connection.sendall(b"x")

        with peer(says(then=trickle)) as port, joined(port) as user:
            user._wire.timeout, start = 0.5, time.monotonic()
            with self.assertRaises(TimedOut):
                user.sessions()
            self.assertLess(time.monotonic() - start, SECONDS / 2)

    def test_a_peer_that_does_not_read_is_silence(self) -> None:
        with peer(says(then=stays)) as port, joined(port) as user:
            user._wire.timeout = 0.5
            with self.assertRaises(TimedOut):
                user.ask("LOAD a 1 1 1 rest 1000000", b"x" * 100_000_000)

    def test_the_last_reply_is_read_where_nothing_more_can_be_sent(self) -> None:
        def refuse(connection: Any, stop: Any) -> None:
            read_line(connection)
            connection.sendall(b"ERR 04 BODY\n")
            connection.shutdown(socket.SHUT_WR)
            while connection.recv(1 << 16):
                pass

        with peer(says(then=refuse)) as port, joined(port) as user:
            with self.assertRaises(refusals.Body):
                user.ask_all(f"LOAD {number}" for number in range(100_000))
            with self.assertRaisesRegex(Closed, "ERR 04 BODY"):
                user.sessions()

    def test_closing_does_not_wait_long(self) -> None:
        with peer(says(then=stays)) as port:
            user = joined(port, timeout=SECONDS)
            start = time.monotonic()
            user.close()
            user.close()
            self.assertLess(time.monotonic() - start, 10)
            self.assertTrue(user.closed)

    def test_bye_is_said(self) -> None:
        seen = []

        def hear(connection: Any, stop: Any) -> None:
            seen.append(read_line(connection))
            connection.sendall(b"OK BYE\n")
            seen.append(connection.recv(1))

        with peer(says(then=hear)) as port:
            joined(port).close()
        self.assertEqual(seen, [b"BYE\n", b""])


class ManyUnderWay(unittest.TestCase):
    def test_replies_are_read_while_commands_are_sent(self) -> None:
        """A peer that answers each long command with much, and reads no further before its answer is taken."""
        reply = b"OK LIST 200\n" + b"name_of_session_ 1 2 3\n" * 200

        def answer(connection: Any, stop: Any) -> None:
            for _ in range(3000):
                read_whole_line(connection)
                connection.sendall(reply)

        with peer(says(then=answer)) as port, joined(port) as user:
            replies = user.ask_all("LIST" + " " * 16_000 for _ in range(3000))
            self.assertEqual(len(replies), 3000)
            self.assertTrue(all(len(one.lines) == 200 for one in replies))
            user._wire.close()

    def test_few_are_under_way_at_once(self) -> None:
        """A peer that answers only when nothing more comes has at most so many commands to answer."""
        most = []

        def gather(connection: Any, stop: Any) -> None:
            connection.settimeout(0.3)
            left, ahead = 5000, b""
            while left:
                try:
                    ahead += connection.recv(1 << 20)
                except socket.timeout:
                    count = ahead.count(b"\n")
                    most.append(count)
                    connection.sendall(b"OK LIST 0\n" * count)
                    left, ahead = left - count, b""

        with peer(says(then=gather)) as port, joined(port) as user:
            self.assertEqual(len(user.ask_all("LIST" for _ in range(5000))), 5000)
            user._wire.close()
        self.assertLessEqual(max(most), 1024)
        self.assertGreater(max(most), 100)

    def test_the_first_refusal_is_raised_when_all_are_answered(self) -> None:
        replies = [b"OK LIST 0\n", b"ERR 10 NO_SESSION\n", b"ERR 06 COMMAND\n", b"OK LIST 0\n", b"OK LIST 1\na 0 1 0\n"]
        with peer(says(*replies)) as port, joined(port) as user:
            with self.assertRaises(refusals.NoSession) as caught:
                user.ask_all(["LIST", "LIST z", "LISTING", "LIST"])
            self.assertEqual(caught.exception.command, "LIST z")
            self.assertEqual(user.sessions(), [("a", 0, 1, 0)])
            user._wire.close()


class Interrupts(unittest.TestCase):
    def test_a_reply_that_nobody_waited_for_is_passed_over(self) -> None:
        caught = threading.Event()

        def late(connection: Any, stop: Any) -> None:
            read_line(connection)
            caught.wait(SECONDS)
            connection.sendall(b"OK LIST 2\na 0 1 0\nb 0 1 0\n")
            read_line(connection)
            connection.sendall(b"OK LIST 0\n")
            stays(connection, stop)

        with peer(says(then=late)) as port, joined(port) as user:
            with interrupted_when(lambda: user.unanswered and not user._wire._outgoing):
                user.sessions()
            caught.set()
            self.assertEqual(user.sessions(), [])
            user._wire.close()

    def test_a_command_is_one_line(self) -> None:
        with peer(says(b"OK LIST 0\n")) as port, joined(port) as user:
            for text in ("LIST\nBYE", "LIST\n"):
                with self.assertRaises(ValueError):
                    user.ask(text)
            for name in ("", "a b", "a\nBYE", "a\n", "x" * 17, "é", 5, None):
                with self.assertRaises(ValueError):
                    user.session(name)
            self.assertEqual(user.sessions(), [])
            user._wire.close()

    def test_words_of_connect(self) -> None:
        for name, token in [("a b", TOKEN), ("ann", "a-b"), ("ann", "é" * 32), ("ann", " \n"), ("ann", "")]:
            with self.assertRaises(ValueError):
                connect("127.0.0.1", 1, name, token)

    def test_timeouts_are_above_zero(self) -> None:
        with peer(stays) as port:
            for timeout in (0, -1, float("nan"), float("inf")):
                with self.assertRaises(ValueError):
                    joined(port, timeout=timeout)
            socket.create_connection(("127.0.0.1", port)).close()

    def test_kinds_of_faults(self) -> None:
        self.assertTrue(issubclass(ConnectionLost, ConnectionError))
        self.assertTrue(issubclass(TimedOut, TimeoutError))
        for kind in (Refused, ConnectionLost, TimedOut, BadReply, Closed, ljclient.CannotStart):
            self.assertTrue(issubclass(kind, ljclient.ClientError))


if __name__ == "__main__":
    unittest.main()
