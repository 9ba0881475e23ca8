"""The replies of `run` to one user, and the number of tiles of a server for the same items."""
import os
import select
import subprocess
from typing import Dict, List

from shared.loads import tiles_of_step
from shared.program import Quota, run_words
from shared.texts import shown
from soaking.words import PATIENCE, SESSIONS, Fault, first_words, reply_end

# The number of tiles of a step of 130 atoms.
MOST_TILES = 6


class Alone:
    """A `run` of one user."""

    def __init__(self, program: str, quota: Quota) -> None:
        self.child = subprocess.Popen([program, *run_words(quota)], stdin=subprocess.PIPE, stdout=subprocess.PIPE, bufsize=0)
        assert self.child.stdin is not None and self.child.stdout is not None
        self.input, self.output = self.child.stdin, self.child.stdout
        self.held = b""

    def ask(self, item: bytes) -> bytes:
        """The reply to an item."""
        self.input.write(item)
        end = reply_end(self.held, 0)
        while end < 0:
            ready = select.select([self.output], [], [], PATIENCE)[0]
            piece = os.read(self.output.fileno(), 1 << 16) if ready else b""
            if not piece:
                raise Fault(f"`run` does not reply to {shown(item)}")
            self.held += piece
            end = reply_end(self.held, 0)
        reply, self.held = self.held[:end], self.held[end:]
        return reply

    def close(self) -> None:
        self.input.close()
        self.output.close()
        self.child.wait()


class Tiles:
    """The tiles that a server computes for items: at least `sure`, and at most `unsure` more. Started steps may be pending at
    the end of a connection, and the tiles of a step may be computed again for the next connection."""

    def __init__(self) -> None:
        self.sure, self.unsure, self.is_started = 0, 0, False
        self.atoms: Dict[bytes, int] = {}

    def note(self, item: bytes, reply: bytes) -> None:
        words = reply.split(b"\n", 1)[0].split()
        if words[0] != b"OK":
            return
        if words[1] == b"LOAD":
            self.atoms[words[2]] = int(words[4])
        elif words[1] in (b"ADVANCE", b"START", b"MEASURE"):
            steps = 1 if words[1] == b"MEASURE" else int(first_words(item)[2])
            count = steps * tiles_of_step(self.atoms[words[2]])
            if words[1] == b"START":
                self.unsure, self.is_started = self.unsure + count, True
            else:
                self.sure += count

    def connection_ends(self) -> None:
        if self.is_started:
            self.unsure += MOST_TILES * len(SESSIONS)

    def may_be(self, items: List[bytes]) -> None:
        lines = [first_words(item) for item in items]
        is_small = max(self.atoms.values(), default=0) <= 64 and all(words[:1] != [b"LOAD"] for words in lines)
        most = 1 if is_small else MOST_TILES
        for words in lines:
            if words[:1] == [b"MEASURE"]:
                self.unsure += most
            elif words[:1] in ([b"ADVANCE"], [b"START"]) and words[-1].isdigit() and int(words[-1]) <= 10**6:
                self.unsure += most * int(words[-1])
