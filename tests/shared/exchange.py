"""Sends a stream in pieces and receives replies at the same time, for the players of dialogues."""
import os
import select
import socket
import time
from typing import Iterable, Iterator, Optional

from shared.program import SECONDS, SLOWNESS

# How long a program is watched that should wait for more input, and how long to wait for replies before the input ends.
MOMENT = 0.01
PATIENCE = 2.0 * SLOWNESS
CHUNK = 1 << 16


class Exchange:
    """Bytes sent on a socket, and replies on a descriptor, which may be the same."""

    def __init__(self, sender: socket.socket, output: int, pieces: Iterable[bytes]) -> None:
        sender.setblocking(False)
        self.sender, self.output = sender, output
        self.pieces: Iterator[memoryview] = map(memoryview, pieces)
        self.piece = self.next_piece()
        self.sent, self.told, self.is_open, self.is_reset = 0, bytearray(), True, False

    def next_piece(self) -> Optional[memoryview]:
        return next(self.pieces, None)

    def is_over(self, replies: int, ends_itself: bool) -> bool:
        """Sends and receives until the end of the replies, and returns whether it comes within the time limit. The
        input is kept open if `ends_itself`, or ends once `replies` bytes have come."""
        end = time.monotonic() + SECONDS
        while self.goes_on(replies, ends_itself):
            if time.monotonic() > end:
                return False
        return True

    def goes_on(self, replies: int, ends_itself: bool) -> bool:
        may_end = self.is_open and self.piece is None and not ends_itself
        seconds = MOMENT if may_end and len(self.told) >= replies else PATIENCE
        senders = [self.sender] if self.piece is not None else []
        readable, writable, _ = select.select([self.output], senders, [], seconds)
        if writable:
            self.send()
        if readable:
            return self.receive()
        if may_end:
            self.sender.shutdown(socket.SHUT_WR)
            self.is_open = False
        return True

    def send(self) -> None:
        """Sends as many pieces as there is room for."""
        try:
            while self.piece is not None:
                count = self.sender.send(self.piece)
                self.sent += count
                self.piece = self.piece[count:] or self.next_piece()
        except BlockingIOError:
            pass
        except (BrokenPipeError, ConnectionResetError):
            self.piece = None

    def receive(self) -> bool:
        """Receives replies. Returns false at the end."""
        try:
            data = os.read(self.output, CHUNK)
        except ConnectionResetError:
            data, self.is_reset = b"", True
        self.told += data
        return bool(data)
