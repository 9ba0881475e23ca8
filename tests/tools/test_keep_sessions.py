"""Sessions that `tools/keep` reads and puts back are the same bit for bit, and replies have true steps, by the reference of
conformance/."""
import io
import random
import sys
from typing import Any, Dict, List

import pytest

from support import TOP

sys.path += [str(TOP / "tools"), str(TOP / "conformance")]
from chance import Chance, bounded  # noqa: E402
from ljtools.keeping.items import ItemReader, ReplyReader, Told, words_of  # noqa: E402
from ljtools.keeping.sessions import KEPT, Otherwise, Sessions, nano_of, put_back, read_all, tell_again, text_of  # noqa: E402
from reference import Simulation, User, replies_to  # noqa: E402
from reference import nano_of as true_nano  # noqa: E402

BODY = "2\nc\nX 0 0 0\nX 1.2 0.3 0\n"
LOAD = f"LOAD a 256 1 131072 rest {len(BODY)}\n{BODY}"


def frames(sim: Any) -> Any:
    return tuple(map(tuple, sim.prev)), tuple(map(tuple, sim.cur)), sim.dir


def state_of(user: Any) -> List[Any]:
    """The state of a user except for steps: sessions and branches in their order, with both frames."""
    return [
        (name, each.edge, each.symbols, each.atoms, frames(each.sim), [(k, frames(sim)) for k, sim in each.saved.items()])
        for name, each in user.sessions.items()
    ]


def steps_of(user: Any) -> List[Any]:
    return [(name, each.sim.step, [sim.step for sim in each.saved.values()]) for name, each in user.sessions.items()]


class Pair:
    """A user of the reference whose server never ended, and one that is put back at new servers from what is kept."""

    def __init__(self, quota: Any) -> None:
        self.quota, self.true, self.user = quota, User(quota), User(quota)
        self.sessions = Sessions()
        self.parts: Dict[int, Any] = {}
        self.records: List[Told] = []
        self.seq = self.number = 0

    def tell(self, item: bytes) -> bytes:
        """Sends an item to both, whose true replies must be the same."""
        words = words_of(item.partition(b"\n")[0])
        (true,) = replies_to(io.BytesIO(item), self.true)
        (told,) = replies_to(io.BytesIO(item), self.user)
        reply = self.sessions.hear(words, told, self.number + 1)
        assert reply == true
        if words and words[0] in KEPT and reply.startswith(b"OK "):
            self.number += 1
            self.records.append(Told(item, reply))
        return reply

    def ask(self, task: Any) -> Any:
        """Answers what a task asks by the current server, and returns the result of the task."""
        replies = None
        try:
            while True:
                items = task.send(replies)
                replies = ReplyReader().feed(b"".join(replies_to(io.BytesIO(b"".join(items)), self.user)))
                assert len(replies) == len(items)
        except StopIteration as end:
            return end.value

    def take_snapshot(self) -> None:
        before = state_of(self.user)
        changed = self.ask(read_all(self.sessions, self.seq))
        assert state_of(self.user) == before == state_of(self.true)
        self.parts.update((part.id, part) for part in changed)
        self.parts = {id: self.parts[id] for id in sorted(self.sessions.ids())}
        self.seq, self.records = self.number, []

    def begin_anew(self) -> None:
        """Puts all back at a new server, which counts steps from 0."""
        self.user = User(self.quota)
        self.sessions = Sessions(part._replace(symbols=b"", frames=b"") for part in self.parts.values())
        for session in self.sessions.by_name.values():
            self.ask(put_back(session, self.parts.__getitem__))
        self.ask(tell_again(self.sessions, self.records, self.seq))
        assert state_of(self.user) == state_of(self.true)

    def end(self) -> None:
        for line in (b"LIST\n", *(b"%s %s\n" % (verb, name.encode()) for name in self.true.sessions for verb in (b"LIST", b"DUMP"))):
            self.tell(line)


@pytest.mark.parametrize("seed", range(150))
def test_random_scripts_with_snapshots_and_new_servers(seed: Any) -> None:
    chance, rnd = Chance(f"keep {seed}"), random.Random(seed)
    chance.most_atoms = min(chance.most_atoms, 12)
    pair, reader = Pair(chance.quota), ItemReader()
    kinds = rnd.choices([*chance.weights], [*chance.weights.values()], k=60)
    reader.feed(bounded("".join([chance.first_load(), *(kind() for kind in kinds)]).encode("latin-1"), 25))
    for item in iter(reader.next, None):
        if not item.last_reply:
            pair.tell(item.raw)
        for event, likely in ((pair.take_snapshot, 0.15), (pair.begin_anew, 0.1)):
            if rnd.random() < likely:
                event()
    pair.take_snapshot()
    pair.begin_anew()
    pair.end()


def told(*lines: str, quota: Any = (8, 16384, 16)) -> Pair:
    pair = Pair(quota)
    for line in lines:
        reply = pair.tell(line.encode() if line.endswith("\n") else line.encode() + b"\n")
        assert reply.startswith(b"OK ")
    return pair


EDGES = ["0.001", "0.5", "4.294967295", "4.294967296", "21.04", "999999.5", "1000000"]


@pytest.mark.parametrize("edge", EDGES)
def test_boxes_from_the_least_to_the_greatest(edge: Any) -> None:
    """In a small box a place is no whole number of billionths."""
    e, rnd = float(edge), random.Random(edge)
    rows = [f"{symbol} {rnd.random() * e:.9f} {rnd.random() * e:.9f} {rnd.random() * e:.9f}\n" for symbol in "XYX" * 2]
    body = "".join("".join(["3\nc\n", *rows[half : half + 3]]) for half in (0, 3))
    words = " ".join(f"{e / 6:.9f} 70000 300" for _ in range(3))
    pair = told(
        f"LOADMIX m {edge} X Y {words} pair {len(body)}\n{body}", "ADVANCE m 3", "BRANCH m k", "TUG m 1 5 -7 2147483647", "REVERSE m",
        "ADVANCE m 5", "BRANCH m n", "TUG m 0 1 1 1",
    )  # fmt: skip
    pair.take_snapshot()
    pair.begin_anew()
    pair.begin_anew()
    for line in (b"SHOW m 2\n", b"RESTORE m k\n", b"ADVANCE m 2\n", b"RESTORE m n\n", b"REVERSE m\n", b"ADVANCE m 2\n"):
        pair.tell(line)
    pair.begin_anew()
    pair.end()


def test_each_reply_has_its_true_step() -> None:
    pair = told(LOAD, "ADVANCE a 7", "BRANCH a k", "REVERSE a", "ADVANCE a 3", "BRANCH a m")
    pair.take_snapshot()
    pair.begin_anew()
    assert [steps_of(pair.true), steps_of(pair.user)] == [[("a", 3, [7, 3])], [("a", -1, [0, -1])]]
    lines = "LIST, LIST a, SHOW a 0, MEASURE a, DUMP a, TUG a 0 1 0 0, BRANCH a n, ADVANCE a 1, START a 1, REVERSE a, RESTORE a k"
    lines += ", TUG a 1 0 0 0, LIST, LIST a, FORGET a k, SHOW a 9, ADVANCE a 2, DUMP a, DROP a, LIST"
    for line in lines.split(", "):
        pair.tell(f"{line}\n".encode())


def test_a_name_that_is_used_again() -> None:
    pair = told(LOAD, "ADVANCE a 2", "BRANCH a k")
    pair.take_snapshot()
    for line in ("FORGET a k", "ADVANCE a 1", "BRANCH a k", "DROP a", LOAD, "BRANCH a k"):
        pair.tell(line.encode() if line == LOAD else f"{line}\n".encode())
        pair.begin_anew()
    pair.take_snapshot()
    pair.begin_anew()
    pair.end()


def test_a_quota_that_is_used_up_is_not_passed() -> None:
    quota = (2, 4, 3)
    pair = told(LOAD, LOAD.replace("LOAD a", "LOAD b"), "BRANCH a k", "ADVANCE a 1", "BRANCH a m", "BRANCH b k", "ADVANCE b 2", quota=quota)
    pair.take_snapshot()
    for line in ("FORGET a k", "BRANCH b m", "DROP a", LOAD.replace("LOAD a", "LOAD c")):
        pair.tell(line.encode() if "LOAD" in line else f"{line}\n".encode())
        pair.take_snapshot()
        pair.begin_anew()
    pair.end()


@pytest.mark.parametrize("sign", [1, -1])
def test_refusals_at_the_range_of_steps(sign: Any) -> None:
    """A server counts from 0, and the step is near 10^12, both ways."""
    pair = told(LOAD, "ADVANCE a 1", *(["REVERSE a"] if sign < 0 else []))
    pair.take_snapshot()
    step, session = sign * (10**12 - 5), pair.true.sessions["a"]
    session.sim = Simulation(session.sim.prev, session.sim.cur, step, sign)
    pair.parts[1] = pair.parts[1]._replace(step=step)
    pair.begin_anew()
    assert pair.sessions.are_near_an_end()
    (refusal,) = replies_to(io.BytesIO(b"ADVANCE a 6\n"), pair.true)
    assert pair.sessions.refusal((b"ADVANCE", b"a", b"6")) == refusal == b"ERR 23 STEP_RANGE\n"
    for words in (
        (b"START", b"a", b"05"),
        (b"ADVANCE", b"b", b"6"),
        (b"ADVANCE", b"a", b"x"),
        (b"ADVANCE", b"a"),
        (b"SHOW", b"a", b"9"),
        (),
    ):
        assert pair.sessions.refusal(words) == b""
    for line in (b"ADVANCE a 5\n", b"REVERSE a\n", b"ADVANCE a 3\n", b"LIST\n"):
        pair.tell(line)


WRONG = {
    "another step": (b"ADVANCE a 2", b"OK ADVANCE a 3"),
    "another session": (b"ADVANCE b 2", b"OK ADVANCE b 2"),
    "what is not saved": (b"RESTORE a k", b"OK RESTORE a k 0"),
    "loaded twice": (b"LOAD a 256 1 1 rest 0", b"OK LOAD a 0 2"),
}


@pytest.mark.parametrize("line, reply", WRONG.values(), ids=WRONG)
def test_a_reply_that_cannot_be(line: Any, reply: Any) -> None:
    pair = told(LOAD)
    with pytest.raises(Otherwise):
        pair.sessions.hear(words_of(line), reply + b"\n", 2)


def test_what_advance_was_told_for_is_waited_for() -> None:
    """So all is computed when the user is let in. The steps of START are not waited for."""
    records = [Told(LOAD.replace(" a ", f" {name} ").encode(), f"OK LOAD {name} 0 2\n".encode()) for name in "abc"]
    records += [Told(b"ADVANCE a 5\n", b"OK ADVANCE a 5\n"), Told(b"START b 5\n", b"OK START b 5\n")]
    records += [Told(b"ADVANCE c 5\n", b"OK ADVANCE c 5\n"), Told(b"REVERSE c\n", b"OK REVERSE c 4\n")]
    sessions = Sessions()
    task = tell_again(sessions, records, 0)
    assert len(next(task)) == 7
    assert task.send([record.reply.replace(b"ADVANCE", b"START") for record in records]) == [b"MEASURE a\n"]
    with pytest.raises(StopIteration):
        task.send([b"OK MEASURE a 5 2 0 0 0 1 1\n"])
    assert [session.has_pending for session in sessions.by_name.values()] == [False, True, False]


@pytest.mark.parametrize("change", [{"measured": b"2 0 0 0 0 -1"}, {"frames": bytes(48)}], ids=lambda change: str([*change]))
def test_what_is_put_back_is_measured(change: Any) -> None:
    pair = told(LOAD, "ADVANCE a 1")
    pair.take_snapshot()
    pair.parts[1] = pair.parts[1]._replace(**change)
    with pytest.raises(Otherwise, match="^MEASURE a 2 0 0 0 .* in place of 2 "):
        pair.begin_anew()


NUMBERS = "0 1 -1 .5 1. 00012.5000 1.0000000005 1.00000000049 -2.5e-9 15D-1 1e6 +3.4d0 0.000000000499999 123456.789012345678 1e-999 1E005"


@pytest.mark.parametrize("word", [*NUMBERS.split(), "0" * 39 + "1", "1." + "3" * 38])
def test_numbers_are_spelled_anew(word: Any) -> None:
    nano = nano_of(word.encode())
    assert nano == true_nano(word.encode()) == true_nano(b"%de-9" % nano)


def test_the_longest_line_is_spelled_in_fewer_bytes() -> None:
    long = b"0" * 37 + b"1.5"
    words = (b"LOADMIX", b"a" * 16, long, b"P" * 16, b"Q" * 16, *(b"0" * 8 + b"1", b"0016777216", b"00065536") * 3, b"rest", b"0001048576")
    assert len(text_of(words)) + 8 <= 256
    assert text_of((b"LOAD", b"a", b"256", b".5", b"007", b"pair", b"12")) == b"LOAD a 256000000000e-9 500000000e-9 7 pair"
