"""Random users: each has connections one after the other, and compares the replies."""
import argparse
import os
import random
import time
from concurrent.futures import ThreadPoolExecutor
from itertools import repeat
from multiprocessing.connection import Connection as Pipe
from typing import Dict, List, Optional, Sequence, Tuple

from shared.serving import DENIED
from shared.texts import shown
from soaking.connection import Connection
from soaking.plans import Plan
from soaking.speaker import Speaker
from soaking.standing import Standing
from soaking.words import Fault, user_of

# The counts of a user, by their names.
Figures = Dict[str, int]


class Job:
    """The work of the client processes."""

    def __init__(self, options: argparse.Namespace, port: int, folder: str) -> None:
        self.program, self.seed, self.port, self.folder = options.program, options.seed, port, folder
        self.mean = max(1, round(1.3 * options.commands / options.connections))
        self.deadline = time.monotonic() + options.seconds


class User:
    """A user, with its last plan, its next connection if that waits already, and its silent connections."""

    def __init__(self, job: Job, number: int) -> None:
        self.job, self.number = job, number
        self.name, self.token, quota = user_of(number)
        self.rnd = random.Random(f"{job.seed} user {number}")
        self.speaker = Speaker(self.rnd)
        self.standing = Standing(job.program, quota)
        self.before: Optional[Plan] = None
        self.ahead: Optional[Tuple[Plan, Connection]] = None
        self.idle: List[Connection] = []
        self.connections = self.turned_away = self.broken = 0
        self.fault: Optional[str] = None

    def hello(self) -> bytes:
        return b"HELLO %s %s\n" % (self.name, self.token)

    def welcome(self) -> bytes:
        return b"OK HELLO %s\n" % self.name

    def connect(self, room: Optional[int] = None) -> Connection:
        self.connections += 1
        return Connection(self.job.port, room)

    def round(self, connections: int) -> None:
        """A number of connections; the last asks for the user's state and is not broken off."""
        if self.fault:
            return
        plan: Optional[Plan] = None
        connection: Optional[Connection] = None
        goal = self.connections + connections
        try:
            while self.connections + (self.ahead is not None) < goal and time.monotonic() < self.job.deadline:
                plan, connection = self.ahead or (self.plan(), None)
                connection = self.visit(plan, connection)
            if self.ahead:
                plan, connection = self.ahead
                connection = self.visit(plan, connection, True)
            plan, connection = self.plan(True), None
            connection = self.visit(plan, connection, True)
        except (Fault, OSError) as fault:
            self.fault = f"user {self.number}, connection {self.connections}: {fault!r}"
            self.keep(plan, connection)
        for one in [*self.idle, connection, self.ahead and self.ahead[1]]:
            if one:
                one.close()
        self.idle = []

    def plan(self, last: bool = False) -> Plan:
        return Plan(self.rnd, self.speaker, self.job.mean, self.before, last)

    def visit(self, plan: Plan, connection: Optional[Connection], is_last: bool = False) -> Connection:
        """Makes a connection, and compares its replies."""
        if not is_last:
            self.pass_by()
        self.ahead = None
        connection = self.let_in(plan, connection)
        gone = None if plan.breaks == "hasty" or is_last else self.queue_up(plan)
        self.before = plan
        self.converse(plan, connection)
        self.compare(plan, connection)
        if gone is not None:
            self.standing.tail = gone
        return connection

    def knock(self, plan: Plan) -> Connection:
        connection = self.connect(1 << 16 if plan.breaks == "deaf" else None)
        connection.send(self.hello())
        if plan.is_early or plan.breaks == "hasty":
            connection.send(b"".join(plan.probes) + plan.said)
            connection.is_said = True
        return connection

    def let_in(self, plan: Plan, connection: Optional[Connection]) -> Connection:
        """A connection with a welcome; a hasty plan does not wait for it. One closed without a byte is tried again."""
        for _ in range(1000):
            connection = connection or self.knock(plan)
            if plan.breaks == "hasty":
                return connection
            connection.hear_bytes(len(self.welcome()))
            if connection.seen:
                return connection
            connection.close()
            connection = None
            self.turned_away += 1
            time.sleep(0.02)
        raise Fault("not let in")

    def queue_up(self, plan: Plan) -> Optional[List[bytes]]:
        """Sometimes opens the next connection while this one is open: it waits, or leaves while it waits. Returns the
        items that one that left may have sent."""
        way = self.rnd.random()
        if way < 0.2:
            after = Plan(self.rnd, self.speaker, self.job.mean, plan, False)
            if after.breaks != "hasty":
                self.ahead = after, self.knock(after)
        elif way < 0.3 and not plan.breaks and not plan.late:
            plan.leaves_late = True
            waiting, items = self.connect(), self.speaker.quiet_items(self.job.mean)
            waiting.send(self.hello() + b"".join(items) + self.rnd.choice([b"", b"DROP a", b"BYE\n"]))
            time.sleep(self.rnd.choice([0, 0.001, 0.01]))
            self.rnd.choice([Connection.close, Connection.reset])(waiting)
            return items
        return None

    def pass_by(self) -> None:
        """Connections that give no valid name: denied, silent, or closed before the first line ends."""
        way = self.rnd.random()
        if way < 0.06:
            self.be_denied()
        elif way < 0.09 and not self.idle:
            self.idle.append(self.connect())
        elif way < 0.12:
            connection = self.connect()
            connection.send(self.hello()[: self.rnd.randrange(len(self.hello()))])
            self.leave_unheard(connection)
        if self.idle and self.rnd.random() < 0.1:
            self.leave_unheard(self.idle.pop())

    def leave_unheard(self, connection: Connection) -> None:
        """Ends a connection that sent no line and must get no reply."""
        way = self.rnd.choice(["close", "reset", "half"])
        if way == "half":
            connection.half_close()
            connection.hear_all()
            if connection.seen:
                raise Fault(f"told {shown(bytes(connection.seen))} without a line")
        connection.reset() if way == "reset" else connection.close()

    def be_denied(self) -> None:
        line = self.rnd.choice(
            [
                b"\n",
                b"LIST\n",
                b"BYE\n",
                b"HELLO\n",
                b"HELLO " + self.name + b"\n",
                b"HELLO nobody " + self.token + b"\n",
                self.hello()[:-1] + b"0\n",
                self.hello()[:-2] + b"!\n",
                self.hello().lower(),
                b"x" * 300 + b"\n",
                b"x" * 65536,
                b"LOAD a 16 1 1 rest 4\nBYE\n",
                bytes(self.rnd.randrange(11, 256) for _ in range(50)) + b"\n",
            ]
        )
        connection = self.connect()
        connection.send(line + self.rnd.choice([b"", self.hello(), b"x" * 9999]))
        connection.half_close()
        connection.hear_all()
        connection.close()
        if not connection.seen:
            self.turned_away += 1
        elif connection.seen != DENIED:
            raise Fault(f"{shown(line)} is told {shown(bytes(connection.seen))}")

    def converse(self, plan: Plan, connection: Connection) -> None:
        """Sends the planned items, and reads the replies as far as planned."""
        at = len(self.welcome())
        if plan.breaks == "hasty":
            connection.hear_for(self.rnd.choice([0, 0, 0.001, 0.005]))
        else:
            if not connection.is_said:
                connection.send(b"".join(plan.probes))
            for _ in plan.probes:
                at = connection.hear_reply(at)
        if not connection.is_said:
            self.say(plan, connection, at)
        if plan.breaks:
            connection.hear_for(0 if plan.breaks == "deaf" else self.rnd.choice([0, 0, 0.0003, 0.001, 0.005, 0.02]))
            if plan.breaks == "deaf":
                time.sleep(0.3)
            self.rnd.choice([Connection.close, Connection.reset])(connection)
            self.broken += 1
            return
        if not plan.last_told:
            connection.half_close()
        connection.hear_all(plan.is_slow)
        connection.close()

    def say(self, plan: Plan, connection: Connection, at: int) -> None:
        """Sends the planned bytes: each item after the reply to the one before, or in pieces."""
        data = plan.said
        if plan.is_in_step:
            for item in plan.whole_items()[0][: -1 if plan.breaks else None]:
                connection.send(item)
                data = data[len(item) :]
                at = connection.hear_reply(at)
                if at < 0:
                    return
        connection.send(data, max(plan.size, len(data) // 2000), 0.0005 if plan.is_slow else 0)

    def compare(self, plan: Plan, connection: Connection) -> None:
        """Compares the replies with those of `run`."""
        self.standing.tiles.connection_ends()
        seen, welcome = bytes(connection.seen), self.welcome()
        if seen[: len(welcome)] != welcome[: len(seen)]:
            raise Fault(f"told {shown(seen)} in place of {shown(welcome)}")
        if not plan.breaks and len(seen) < len(welcome):
            raise Fault(f"cut short: told {shown(seen)}")
        at = min(len(seen), len(welcome))
        if plan.breaks == "hasty" and not seen:
            self.standing.tail = plan.whole_items()[0]
            return
        plan.leaves_late = plan.leaves_late and (plan.breaks != "hasty" or not seen)
        if plan.probes:
            at = self.standing.find(plan, seen, at)
        items, is_last_said = plan.whole_items()
        done = 0
        while done < len(items) and at < len(seen):
            at = self.standing.agree(items[done], seen, at)
            done += 1
        self.finish(plan, seen[at:], items[done:], is_last_said)

    def finish(self, plan: Plan, rest: bytes, items: List[bytes], is_last_said: bool) -> None:
        """Compares the bytes after the replies, and keeps the items without replies as the tail."""
        last = plan.last_told if is_last_said or not plan.breaks else b""
        if plan.breaks and last.startswith(rest) or not items and rest == last:
            if plan.breaks:
                self.standing.tail = items
        else:
            raise Fault(f"told {shown(rest)} at the end in place of {shown(last)}, {len(items)} items are not answered")

    def keep(self, plan: Optional[Plan], connection: Optional[Connection]) -> None:
        """Stores the dialogue of a fault in files: the known items of the user, the tail, and the connection of the
        fault."""
        folder = os.path.join(self.job.folder, f"user_{self.number}")
        os.makedirs(folder, exist_ok=True)
        parts = {"known": b"".join(self.standing.known), "tail": b"".join(self.standing.tail)}
        if plan:
            parts["said"] = self.hello() + b"".join(plan.probes) + plan.said
        if connection:
            parts["told"] = bytes(connection.seen)
        for name, data in parts.items():
            with open(os.path.join(folder, name), "wb") as file:
                file.write(data)

    def figures(self) -> Figures:
        stands, tiles = self.standing, self.standing.tiles
        return {
            "connections": self.connections,
            "commands": stands.commands,
            "questions where a user stands": stands.asked,
            "broken off": self.broken,
            "turned away": self.turned_away,
            "tiles": tiles.sure,
            "tiles that may be": tiles.unsure,
        }

    def leave(self) -> None:
        """Ends the `run`. The server may have computed the items of the tail."""
        self.standing.tiles.may_be(self.standing.tail)
        self.standing.alone.close()


def visit_all(job: Job, numbers: Sequence[int], pipe: Pipe) -> None:
    """A process of some users: runs a round for each number of connections received, and sends its results."""
    users = [User(job, number) for number in numbers]
    with ThreadPoolExecutor(len(users)) as threads:
        while (connections := pipe.recv()) is not None:
            list(threads.map(User.round, users, repeat(connections)))
            pipe.send([(user.figures(), user.fault) for user in users])
    for user in users:
        user.leave()
    pipe.send([(user.figures(), user.fault) for user in users])
