"""What conformance/run prints for a port that is just begun: its stages, the first difference, and how to replay it."""
import re
import shlex
import subprocess
import sys
import threading
from typing import Any, List, Tuple

import pytest

from support import PROGRAM, SECONDS, TOP, is_running, present

FOLDER = TOP / "conformance"
sys.path.append(str(FOLDER))

from playing import Stream, difference, stored, told_by  # noqa: E402
from stages import NEW, STAGES, by_stages  # noqa: E402


def told(*words: Any) -> Tuple[Any, Any]:
    """The status of `run` with these arguments, and the lines that it prints."""
    command = [FOLDER / "run", "--seconds", str(SECONDS), *words]
    done = subprocess.run(command, cwd=FOLDER, capture_output=True, text=True, timeout=10 * SECONDS)
    return done.returncode, (done.stdout + done.stderr).splitlines()


def port(edit: Any) -> List[Any]:
    """The program, with its replies edited by sed, as the words of a command."""
    return ["sh", "-c", f'{shlex.quote(PROGRAM)} run "$@" | sed {shlex.quote(edit)}', "port"]


def test_each_stream_has_its_stage_and_needs_nothing_of_a_later_one() -> None:
    staged = dict(by_stages(stored()))
    assert tuple(staged) == STAGES
    assert sum(map(len, staged.values())) == len(list(stored()))
    known = set()
    for stage in STAGES[:-2]:
        known |= NEW[stage]
        for stream in staged[stage]:
            assert {line.split()[1] for line in stream.replies.splitlines() if line.startswith(b"OK ")} <= known, stream.name
    assert [stream.name for stream in staged["one step"]] == ["examples/dimer", "examples/stored_run"]


def test_the_first_difference_stops_it() -> None:
    status, lines = told("--first", *port("s/^OK REVERSE a 1$/OK REVERSE a 2/"))
    assert status == 1
    assert lines[:4] == ["lines: 63 of 63 agree", "loads: 7 of 7 agree", "one step: 2 of 2 agree", "more steps: 3 of 3 agree"]
    assert lines[4] == "examples/readme: the replies differ at byte 65, in line 4"
    assert lines[5:8] == ["    command : 'REVERSE a'", "    expected: 'OK REVERSE a 1'", "    told    : 'OK REVERSE a 2'"]
    assert lines[9] == "    replies : streams/examples/readme.out"
    assert lines[10:] == [
        "the way back: 0 of 1 agree",
        "you have: lines, loads, one step, more steps; not yet: the way back",
        "75 streams agree, 1 differ, 55 were not played",
    ]


@pytest.mark.parametrize(
    "word, edit, pipe",
    [
        ("ends/limits_05", "s/OK/KO/;s/04 BODY/04/", "zcat streams/ends/limits_05.in.gz | "),
        ("tables/worked_dialogues_c", "s/20/21/", "sh -c"),
    ],
)
def test_the_line_of_replay_plays_the_stream_again(word: Any, edit: Any, pipe: Any) -> None:
    """With the quota of the stream."""
    status, lines = told("--only", word, *port(edit))
    (seen,) = [line.split(": ", 1)[1] for line in lines if line.startswith("    told    : ")]
    (replay,) = [line.split(": ", 1)[1] for line in lines if line.startswith("    replay  : ")]
    assert status == 1 and replay.startswith(pipe)
    again = subprocess.run(replay, shell=True, cwd=FOLDER, capture_output=True, text=True, timeout=SECONDS)
    assert seen.strip("'") in again.stdout.splitlines()
    assert ("--sessions 1" in replay) == (word == "tables/worked_dialogues_c")


def test_all_stages_are_told_that_differ() -> None:
    status, lines = told("--usual", *port("s/^OK BRANCH/OK branch/"))
    assert status == 1
    assert lines[-2] == "you have: lines, loads, one step, more steps; not yet: the way back, START, two species, long runs, limits"


def test_one_that_never_ends_its_replies() -> None:
    """It is stopped when its replies are more than 64 kB longer than expected."""
    stream = Stream("s", b"LIST\n", b"OK LIST 0\n")
    replies, ended = told_by(["yes", "OK LIST 0"], stream, SECONDS)
    most = len(stream.replies) + 65536
    assert most < len(replies) <= most + 65536
    assert ended == f"replied more than {most} bytes, and was stopped"
    found = present(difference(stream, replies, ended)).splitlines()
    assert found[0] == f"s: the replies differ at byte 10, in line 2; the program {ended}"
    assert [line.strip() for line in found[1:]] == ["command : nothing", "expected: nothing", "told    : 'OK LIST 0'"]


def test_places_that_are_folded_are_not_too_many() -> None:
    """A stream of 4,000 places, which are a hash in the file of replies."""
    (stream,) = stored("files/argon_4000")
    assert len(stream.replies) < 300
    assert told("--only", "files/argon_4000", PROGRAM, "run") == (0, ["limits: 1 of 1 agree", "1 streams agree, 0 differ"])


def test_what_a_program_has_begun_ends_with_it() -> None:
    script = "sleep 600 & echo $!; sleep 600"
    replies, ended = told_by(["sh", "-c", script], Stream("s", b"", b""), 5)
    assert ended == "did not end within 5 seconds"
    waited = threading.Event()
    while is_running(int(replies)) and not waited.wait(0.01):
        pass


def test_one_that_reads_nothing_and_ends() -> None:
    stream = Stream("s", bytes(3_000_000), b"")
    assert told_by(["true"], stream, SECONDS) == (b"", "")
    assert told_by(["sh", "-c", "echo no; exit 7"], stream, SECONDS) == (b"no\n", "ended with status 7")


def test_the_command_is_shown_as_it_was_sent() -> None:
    """A line with a fault has no words, but is shown."""
    stream = Stream("s", b"LIST\n  NONE\ta \r\n", b"OK LIST 0\nERR 06 COMMAND\n")
    assert "command : '  NONE\\ta \\r'" in present(difference(stream, b"OK LIST 0\nERR 03 SYNTAX\n"))
    lines = present(difference(Stream("s", b"LOAD a\n", b"ERR 04 BODY\n"), b"")).splitlines()
    assert [line.strip() for line in lines[1:]] == ["command : 'LOAD a'", "expected: 'ERR 04 BODY'", "told    : nothing"]


@pytest.mark.parametrize("command", ["run", "random"])
def test_help_has_a_word_for_each_option(command: Any) -> None:
    done = subprocess.run([FOLDER / command, "--help"], capture_output=True, text=True, timeout=SECONDS)
    assert (done.returncode, done.stderr) == (0, "")
    usage, text = done.stdout.split("\n", 1)
    for option in re.findall(r"--[a-z]+", usage):
        assert re.search(rf"^  {option}\b.* {{2,}}\w+ \w+ \w+", text, re.M), option


def test_a_stream_has_20_seconds_as_the_usual() -> None:
    done = subprocess.run([FOLDER / "run", "--help"], capture_output=True, text=True, timeout=SECONDS)
    assert re.search(r"--seconds N +how long a program may take for a stream: 20\b", done.stdout)
