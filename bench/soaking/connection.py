"""A connection of a random user to a server."""
import random
import select
import socket
import time
from typing import Optional

from shared.sockets import connected, reset
from shared.texts import shown
from soaking.words import PATIENCE, Fault, reply_end


def connected_from_anywhere(port: int, room: Optional[int] = None) -> socket.socket:
    """A connection from a random loopback address, since one has too few ports for so many connections a minute."""
    return connected(port, PATIENCE, room, f"127.0.0.{random.randrange(1, 255)}")


class Connection:
    """A connection, with all bytes received."""

    def __init__(self, port: int, room: Optional[int] = None) -> None:
        self.socket = connected_from_anywhere(port, room)
        self.seen, self.is_over, self.is_said = bytearray(), False, False

    def send(self, data: bytes, size: int = 1 << 20, pause: float = 0) -> None:
        """Sends bytes in pieces. If the other end has closed the connection, its replies can still be read."""
        try:
            for at in range(0, len(data), size):
                self.socket.sendall(data[at : at + size])
                if pause and at < 100 * size:
                    time.sleep(pause)
        except (BrokenPipeError, ConnectionResetError):
            pass

    def half_close(self) -> None:
        try:
            self.socket.shutdown(socket.SHUT_WR)
        except OSError:
            pass

    def hear(self, size: int = 1 << 16) -> None:
        """Reads a piece."""
        try:
            piece = self.socket.recv(size)
        except ConnectionResetError:
            piece = b""
        except socket.timeout:
            raise Fault(f"nothing more is told for {PATIENCE} s after {shown(bytes(self.seen))}") from None
        self.seen += piece
        self.is_over = not piece

    def hear_bytes(self, count: int) -> None:
        while len(self.seen) < count and not self.is_over:
            self.hear()

    def hear_reply(self, at: int) -> int:
        """Reads to the end of the reply that begins at `at`, and returns where it ends."""
        end = reply_end(self.seen, at)
        while end < 0 and not self.is_over:
            self.hear()
            end = reply_end(self.seen, at)
        return end

    def hear_all(self, is_slow: bool = False) -> None:
        for _ in range(300 if is_slow else 0):
            if not self.is_over:
                self.hear(1)
        while not self.is_over:
            self.hear()

    def hear_for(self, seconds: float) -> None:
        """Reads what comes within this time."""
        end = time.monotonic() + seconds
        while not self.is_over and select.select([self.socket], [], [], max(0, end - time.monotonic()))[0]:
            self.hear()

    def close(self) -> None:
        self.socket.close()

    def reset(self) -> None:
        reset(self.socket)
