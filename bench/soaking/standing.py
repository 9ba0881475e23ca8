"""The state of the sessions of a user."""
from typing import List, Optional

from shared.program import Quota
from shared.texts import shown
from soaking.alone import Alone, Tiles
from soaking.plans import Plan
from soaking.words import Fault, first_words, reply_end

KEEPS_STATE = (b"LIST", b"MEASURE", b"SHOW", b"DUMP")


class Standing:
    """The known items of a user, items that it may have sent after them (the tail), and a `run` with the known ones."""

    def __init__(self, program: str, quota: Quota) -> None:
        self.alone = Alone(program, quota)
        self.tiles = Tiles()
        self.known: List[bytes] = []
        self.tail: List[bytes] = []
        self.commands = self.asked = 0

    def ask(self, item: bytes) -> bytes:
        """Records an answered item, and returns the reply of the `run`."""
        reply = self.alone.ask(item)
        self.known.append(item)
        self.tiles.note(item, reply)
        self.commands += 1
        return reply

    def agree(self, item: bytes, seen: bytes, at: int) -> int:
        """Compares the reply to an answered item, as far as it arrived, and returns where it ends."""
        reply = self.ask(item)
        told = seen[at : at + len(reply)]
        if told != reply[: len(told)] or len(told) < len(reply) and at + len(told) < len(seen):
            raise Fault(f"{shown(item)} is told {shown(told)} in place of {shown(reply)}")
        return at + len(told)

    def find(self, plan: Plan, seen: bytes, at: int) -> int:
        """Brings the `run` to the state that the replies to the probes show, by the first items of the tail. Returns where these
        replies end."""
        told = replies_from(seen, at, len(plan.probes))
        done = self.first_agreeing(plan.probes, told)
        if done is None:
            raise Fault(f"no number of {len(self.tail)} items gives {shown(b''.join(told))}")
        for probe, reply in zip(plan.probes, told):
            self.tiles.note(probe, reply)
        self.asked += len(told)
        if not (plan.late and done == 0):
            self.tiles.may_be(self.tail[done:])
            self.tail = []
        return at + sum(map(len, told))

    def first_agreeing(self, asked: List[bytes], told: List[bytes]) -> Optional[int]:
        """After how many items of the tail the `run` gives these replies to these questions, or None."""
        is_moved = True
        for done in range(len(self.tail) + 1):
            if is_moved and [self.alone.ask(probe) for probe in asked] == told:
                return done
            if done < len(self.tail):
                item = self.tail[done]
                self.ask(item)
                is_moved = first_words(item)[:1] not in [[word] for word in KEEPS_STATE]
        return None


def replies_from(seen: bytes, at: int, count: int) -> List[bytes]:
    """The next `count` replies, from position `at` on."""
    replies = []
    for _ in range(count):
        end = reply_end(seen, at)
        if end < 0:
            raise Fault(f"cut short: told {shown(seen)}")
        replies.append(seen[at:end])
        at = end
    return replies
