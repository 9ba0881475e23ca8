"""Streams of commands with their expected replies, and functions that play them against a program."""
import contextlib
import gzip
import hashlib
import io
import os
import pathlib
import re
import shlex
import signal
import subprocess
import threading
import time
from dataclasses import dataclass
from itertools import islice
from typing import BinaryIO, Iterator, List, Optional, Sequence, Tuple

from reference import User, items_of, replies_to

FOLDER = pathlib.Path(__file__).resolve().parent / "streams"
# How many sessions, atoms and branches a user may have.
Quota = Tuple[int, int, int]
USUAL: Quota = (8, 16384, 16)
# At least so many consecutive lines of SHOW are replaced by a hash.
MANY = 16
PLACES = re.compile(rb"(?:OK SHOW [^\n]*\n){%d,}" % MANY)
FOLDED = re.compile(rb"sha256 [0-9a-f]{64} of ([0-9]+) lines\n")
MAX_SHOW = 137
# A program is stopped after so many bytes more than expected, so that one that never ends fills no memory.
MORE = 1 << 16
PIECE = 1 << 16
SECONDS_AFTER_END = 1.0


class CannotStart(Exception):
    """The command cannot be started."""


@dataclass(frozen=True)
class Stream:
    """The bytes sent to a program with a quota, and the expected replies, in which lines of SHOW may be folded to hashes."""

    name: str
    sent: bytes
    replies: bytes
    quota: Quota = USUAL
    is_folded: bool = False
    files: Tuple[pathlib.Path, ...] = ()

    def most(self) -> int:
        """The most bytes of replies that are read."""
        return len(self.replies) + MAX_SHOW * sum(int(found[1]) for found in FOLDED.finditer(self.replies)) + MORE

    def words(self) -> List[str]:
        """The options of a program for its quota; none for the usual one."""
        names = ("--sessions", "--atoms", "--branches")
        return [] if self.quota == USUAL else [word for pair in zip(names, map(str, self.quota)) for word in pair]


def folded(replies: bytes) -> bytes:
    """The replies with a hash in place of many lines of SHOW."""

    def fold(found: "re.Match[bytes]") -> bytes:
        return b"sha256 %s of %d lines\n" % (hashlib.sha256(found[0]).hexdigest().encode(), found[0].count(b"\n"))

    return PLACES.sub(fold, replies)


def referred(sent: bytes, quota: Quota = USUAL) -> bytes:
    """The replies of the reference."""
    return b"".join(replies_to(io.BytesIO(sent), User(quota)))


def contents(path: pathlib.Path) -> bytes:
    """The contents of a file, which may be compressed."""
    data = path.read_bytes()
    return gzip.decompress(data) if path.suffix == ".gz" else data


def stored(word: str = "") -> Iterator[Stream]:
    """The streams of the folder whose names contain a word, sorted by name."""
    files = {re.sub(r"\.gz$", "", path.relative_to(FOLDER).as_posix()): path for path in FOLDER.glob("*/*")}
    for name in sorted(name[:-3] for name in files if name.endswith(".in") and word in name):
        quota = tuple(map(int, contents(files[f"{name}.quota"]).split())) if f"{name}.quota" in files else USUAL
        is_folded = f"{name}.sums" in files
        paths = files[f"{name}.in"], files[f"{name}.sums" if is_folded else f"{name}.out"]
        sent, replies = map(contents, paths)
        yield Stream(name, sent, replies, quota, is_folded, paths)  # type: ignore[arg-type]


def told_by(command: Sequence[str], stream: Stream, seconds: float) -> Tuple[bytes, str]:
    """The replies of a program to a stream, and how it ended if not with status 0. Raises `CannotStart`."""
    try:
        program = subprocess.Popen(
            [*command, *stream.words()], stdin=subprocess.PIPE, stdout=subprocess.PIPE, bufsize=0, start_new_session=True
        )
    except OSError as error:
        raise CannotStart(f"{command[0]} cannot be started: {error.strerror}") from error
    assert program.stdin and program.stdout
    told, most = bytearray(), stream.most()
    reader = threading.Thread(target=take_in, args=(program.stdout, told, most), daemon=True)
    threading.Thread(target=send, args=(program.stdin, stream.sent), daemon=True).start()
    reader.start()
    try:
        is_late = not has_ended(program, reader, seconds, told, most)
    finally:
        stop(program)
        reader.join(SECONDS_AFTER_END)
    if len(told) > most:
        return bytes(told), f"replied more than {most} bytes, and was stopped"
    if is_late:
        return bytes(told), f"did not end within {seconds:g} seconds"
    return bytes(told), f"ended with status {program.returncode}" if program.returncode else ""


def send(pipe: BinaryIO, data: bytes) -> None:
    """Writes a stream to a program, for as long as it reads."""
    view = memoryview(data)
    with contextlib.suppress(OSError), pipe:
        while view:
            view = view[pipe.write(view) :]


def take_in(pipe: BinaryIO, told: bytearray, most: int) -> None:
    """Reads the output of a program, to its end or until it has more than `most` bytes."""
    with pipe:
        while len(told) <= most:
            piece = pipe.read(PIECE)
            if not piece:
                return
            told += piece


def has_ended(program: "subprocess.Popen[bytes]", reader: threading.Thread, seconds: float, told: bytearray, most: int) -> bool:
    """Waits until all is read and the program has ended, or until it has replied too much. Returns whether it has ended."""
    until = time.monotonic() + seconds
    reader.join(seconds)
    if reader.is_alive() or len(told) > most:
        return False
    with contextlib.suppress(subprocess.TimeoutExpired):
        program.wait(max(until - time.monotonic(), SECONDS_AFTER_END))
    return program.returncode is not None


def stop(program: "subprocess.Popen[bytes]") -> None:
    """Kills a program that has not ended, and the processes that it started."""
    if program.returncode is None:
        with contextlib.suppress(OSError):
            os.killpg(program.pid, signal.SIGKILL) if hasattr(os, "killpg") else program.kill()
        program.wait()


def replay(command: Sequence[str], stream: Stream) -> str:
    """The command line that plays a stored stream again, and the file of the expected replies."""
    sent, replies = (shlex.quote(shortest(path)) for path in stream.files)
    program = shlex.join([*command, *stream.words()])
    again = f"zcat {sent} | {program}" if sent.endswith(".gz") else f"{program} < {sent}"
    return f"    replay  : {again}\n    replies : {replies}"


def shortest(path: pathlib.Path) -> str:
    """A path relative to the current folder, or from the root if it is not below that."""
    below = os.path.relpath(path)
    return str(path) if below.startswith(os.pardir) else below


def difference(stream: Stream, told: bytes, ended: str = "") -> Optional[str]:
    """A report on the first byte that differs from the expected replies, or on a program that failed; else None."""
    told = folded(told) if stream.is_folded else told
    if told == stream.replies:
        return f"{stream.name}: the replies agree, but the program {ended}" if ended else None
    at = len(os.path.commonprefix([told, stream.replies]))
    line = stream.replies.count(b"\n", 0, at)
    expected, seen = (line_of(text, line) for text in (stream.replies, told))
    head = f"{stream.name}: the replies differ at byte {at}, in line {line + 1}" + (f"; the program {ended}" if ended else "")
    parts = {"command ": command_of(stream, line), "expected": expected, "told    ": seen}
    return "\n".join([head, *(f"    {word}: {shown(text)}" for word, text in parts.items())])


def line_of(text: bytes, number: int) -> Optional[bytes]:
    """A line of a text, or None if the text has fewer."""
    lines = text.split(b"\n")
    return lines[number] if number < len(lines) - 1 or number == len(lines) - 1 and lines[number] else None


def shown(text: Optional[bytes], most: int = 200) -> str:
    """A text as Python shows it, cut if it is long."""
    return "nothing" if text is None else repr(text[:most])[1:] + (" .." if len(text) > most else "")


def command_of(stream: Stream, line: int) -> Optional[bytes]:
    """The line of the command whose reply has this line, or None."""
    numbers = numbers_of_replies(stream.replies)
    wanted = next((number for at, number in enumerate(numbers) if at == line), None)
    if wanted is None or line_of(stream.replies, line) is None:
        return None
    sent = io.BytesIO(stream.sent)
    for _ in islice(items_of(sent), wanted):
        pass
    return sent.readline().partition(b"\n")[0]


def numbers_of_replies(replies: bytes) -> Iterator[int]:
    """For each line of replies, the number of its reply. A folded line has the number of the first reply that it replaces."""
    number, more = -1, 0
    for line in replies.split(b"\n"):
        if more:
            more -= 1
            yield number
            continue
        number += 1
        yield number
        words = line.split(b" ")
        if words[0] == b"sha256":
            number += int(words[3]) - 1
        elif words[:2] in ([b"OK", b"DUMP"], [b"OK", b"LIST"]):
            more = int(words[-1])
