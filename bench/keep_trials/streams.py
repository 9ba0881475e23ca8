"""Sends the streams of conformance/ through a front, and kills the server in the middle of each."""
import contextlib
import pathlib
import socket
import sys
import tempfile
import threading
from concurrent.futures import ThreadPoolExecutor
from itertools import repeat
from typing import Iterator, List, Sequence

from keep_trials.keeper import TOP, Keeper, until

sys.path.append(str(TOP / "conformance"))
from playing import Stream, difference  # noqa: E402

AT_ONCE = 62
KILLS = 3
SECONDS_OF_A_STREAM = 1800


class Player:
    """A stream that is played piece by piece, while its replies are read."""

    def __init__(self, keeper: Keeper, name: str, stream: Stream, pieces: int):
        self.stream = stream
        size = len(stream.sent) // pieces + 1
        self._pieces = [stream.sent[at : at + size] for at in range(0, pieces * size, size)]
        self._greeting = f"OK HELLO {name}\n".encode()
        self._socket = keeper.raw(name)
        self._socket.settimeout(SECONDS_OF_A_STREAM)
        self._told = bytearray()
        self._reader = threading.Thread(target=self._read, daemon=True)
        self._reader.start()

    def _read(self) -> None:
        with contextlib.suppress(OSError):
            while data := self._socket.recv(1 << 16):
                self._told += data

    def send(self, number: int) -> None:
        """Sends a piece, unless the connection has ended. The last one ends the input."""
        with contextlib.suppress(OSError):
            self._socket.sendall(self._pieces[number])
            if number == len(self._pieces) - 1:
                self._socket.shutdown(socket.SHUT_WR)

    def found(self) -> str:
        """The wrong replies, once all have arrived."""
        self._reader.join(SECONDS_OF_A_STREAM)
        self._socket.close()
        told = bytes(self._told)
        if not told.startswith(self._greeting):
            return f"{self.stream.name}: it was not let in, but told {told[:80]!r}"
        return difference(self.stream, told[len(self._greeting) :]) or ""


def play(program: str, streams: Sequence[Stream], kills: int = KILLS, options: Sequence[str] = ()) -> Iterator[str]:
    """Plays streams, as many at once as there are users, and kills the server between pieces. Yields the differences."""
    for first in range(0, len(streams), AT_ONCE):
        yield from play_at_once(program, streams[first : first + AT_ONCE], kills, options)


def play_at_once(program: str, streams: Sequence[Stream], kills: int, options: Sequence[str]) -> Iterator[str]:
    names = {f"user{number}": stream for number, stream in enumerate(streams)}
    with tempfile.TemporaryDirectory() as top:
        quotas = {name: stream.quota for name, stream in names.items()}
        with Keeper(pathlib.Path(top), program, quotas, options) as keeper:
            until(keeper.is_ready)
            players = [Player(keeper, name, stream, kills + 1) for name, stream in names.items()]
            for number in range(kills):
                send_all(players, number)
                keeper.kill_server()
            send_all(players, kills)
            yield from filter(None, [player.found() for player in players])


def send_all(players: List[Player], number: int) -> None:
    """Sends a piece of each stream, all of them at once."""
    with ThreadPoolExecutor(len(players)) as threads:
        list(threads.map(Player.send, players, repeat(number)))
