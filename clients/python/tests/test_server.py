"""Connections to `ljserve serve` on a loopback port."""
import contextlib
import socket
import threading
import time
import unittest
from unittest import mock
from typing import Any

from ljclient import Closed, ConnectionLost, TimedOut, connect, refusals, user as users
from support import DIMER_SCALE, EXAMPLES, SECONDS, TOKEN, Server, dimer


class Connections(unittest.TestCase):
    def setUp(self) -> None:
        self.server = Server(users=("ann", "ben"))
        self.addCleanup(self.server.end)

    def join(self, name: str = "ann", timeout: Any = SECONDS) -> Any:
        return connect("127.0.0.1", self.server.port, name, TOKEN, timeout=timeout)

    def test_a_dialogue(self) -> None:
        with self.join() as user:
            self.assertEqual(user.name, "ann")
            a = dimer(user)
            a.advance(1)
            self.assertEqual(a.place(0), (589, 0, 0))
            self.assertEqual(a.measure().potential, -5399727)
        self.assertTrue(user.closed)
        with self.assertRaises(Closed):
            user.sessions()

    def test_sessions_stay_for_the_next_connection(self) -> None:
        with self.join() as user:
            dimer(user).tug(0, (5, 0, 0))
        with self.join() as user:
            self.assertEqual(user.sessions(), [("a", 0, 2, 0)])
            self.assertEqual(user.session("a").measure().momentum, (5, 0, 0))
            self.assertEqual(user.session("a", **DIMER_SCALE).measure().kinetic_energy, 25 / 2**34)

    def test_users_have_sessions_of_their_own(self) -> None:
        with self.join() as ann, self.join("ben") as ben:
            dimer(ann)
            self.assertEqual((len(ann.sessions()), len(ben.sessions())), (1, 0))

    def test_a_second_connection_of_a_user_waits(self) -> None:
        with self.join() as first:
            with self.assertRaisesRegex(TimedOut, "is another connection of ann open"):
                self.join(timeout=0.5)
            dimer(first)
            threading.Timer(0.5, first.close).start()
            with self.join() as second:
                self.assertEqual(second.sessions(), [("a", 0, 2, 0)])

    def test_there_and_back(self) -> None:
        with self.join() as user:
            argon = user.load("argon", EXAMPLES / "argon_256.xyz", edge=21.04, sigma=3.4, h=131072)
            start = [tuple(place) for place in argon.places()]
            for _ in range(2):
                argon.advance(200)
                argon.reverse()
            self.assertEqual(([tuple(place) for place in argon.places()], argon.get_step()), (start, 0))

    def test_what_was_started_is_done_for_the_next_connection(self) -> None:
        with self.join() as user:
            a, b = dimer(user), dimer(user, "b")
            self.assertEqual((a.start(2), b.start(10**6)), (2, 10**6))
        with self.join() as user:
            a, b = user.session("a"), user.session("b")
            self.assertEqual((a.get_target(), b.get_target()), (2, 10**6))
            self.assertEqual((a.place(0), b.get_target()), ((1774, 0, 0), 10**6))

    def test_thousands_of_commands_under_way(self) -> None:
        with self.join() as user:
            dimer(user)
            replies = user.ask_all(f"SHOW a {number % 2}" for number in range(20_000))
            self.assertEqual({reply.words[4] for reply in replies[1::2]}, {"25165824"})

    def test_a_connection_that_has_had_its_commands_is_followed_by_another(self) -> None:
        with mock.patch.object(users, "MAX_ITEMS", 100), self.join() as user:
            a = dimer(user)
            before = user._wire
            for _ in range(120):
                self.assertEqual(a.place(1), (25165824, 0, 0))
            self.assertIsNot(user._wire, before)
            self.assertTrue(before.closed)

    def test_a_server_that_is_killed(self) -> None:
        with self.join() as user:
            a = dimer(user)
            threading.Timer(0.3, self.server.child.kill).start()
            with self.assertRaisesRegex(ConnectionLost, "was not answered"):
                a.advance(10**9)
            with self.assertRaises(Closed):
                a.measure()
        self.server.end()
        with self.assertRaises(ConnectionLost):
            self.join()

    def test_a_server_that_stops(self) -> None:
        with self.join() as user:
            a = dimer(user)
            user._wire.timeout = 0.5
            with self.server.stopped(), self.assertRaisesRegex(TimedOut, "nothing was heard for 0.5 s"):
                a.measure()
        with self.join() as user:
            self.assertEqual(user.session("a").get_step(), 0)

    def test_a_refusal_that_ends_the_connection(self) -> None:
        with self.join() as user:
            dimer(user)
            with self.assertRaises(refusals.Long):
                user.ask("x" * 65536)
            self.assertTrue(user.closed)
        with self.join() as user:
            self.assertEqual(len(user.sessions()), 1)

    def test_leaving_while_a_command_runs(self) -> None:
        user = self.join()
        argon = user.load("argon", EXAMPLES / "argon_256.xyz", edge=21.04, sigma=3.4, h=131072, watch=False)
        user._wire.timeout = 0.3
        with self.assertRaises(TimedOut):
            argon.advance(30_000, piece=30_000)
        start = time.monotonic()
        user.close()
        self.assertLess(time.monotonic() - start, SECONDS / 2)
        with self.join(timeout=120) as user:
            self.assertEqual(user.session("argon").get_step(), 30_000)


class FullServers(unittest.TestCase):
    def test_no_place_for_more(self) -> None:
        with Server(connections=70) as server, contextlib.ExitStack() as idle:
            for _ in range(64):
                idle.enter_context(socket.create_connection(("127.0.0.1", server.port), SECONDS))
            with self.assertRaisesRegex(ConnectionLost, "no place for more connections"):
                connect("127.0.0.1", server.port, "ann", TOKEN, timeout=SECONDS)

    def test_the_last_connection_was_accepted(self) -> None:
        with Server(connections=2) as server, connect("127.0.0.1", server.port, "ann", TOKEN) as user:
            with self.assertRaisesRegex(TimedOut, "all --connections of the server used up"):
                connect("127.0.0.1", server.port, "ann", TOKEN, timeout=1)
            self.assertEqual(user.sessions(), [])

    def test_a_server_that_ends_while_a_connection_waits(self) -> None:
        with Server(connections=2) as server, connect("127.0.0.1", server.port, "ann", TOKEN) as user:
            connected, create = threading.Event(), socket.create_connection

            def opened(*words: Any) -> Any:
                stream = create(*words)
                connected.set()
                return stream

            threading.Thread(target=lambda: connected.wait(SECONDS) and user.close(), daemon=True).start()
            with mock.patch.object(socket, "create_connection", opened):
                with self.assertRaisesRegex(ConnectionLost, "all its --connections used up"):
                    connect("127.0.0.1", server.port, "ann", TOKEN, timeout=SECONDS)


if __name__ == "__main__":
    unittest.main()
