"""`python3 -m ljclient verify`: a record is played again, and each reply is told to be the same or not."""
import contextlib
import hashlib
import os
import pathlib
import random
import re
import subprocess
import sys
from unittest import mock
from typing import Any, Callable, List, Tuple

import pytest

from ljclient import Damaged, Refused, record_playing, run, verify
from ljclient.record_file import RecordFile, sum_of_continued
from record_texts import CLIENT, COMMANDS, DIMER_TEXT, sums, twisted, verified, with_checks
from support import DIMER, PROGRAM, TOKEN, TOP, Server, dimer, joined
from terminals import environment

LINES = DIMER_TEXT.splitlines()
# The lines at which a command begins, and those at which its reply ends.
BEGINS = [number for number, line in enumerate(LINES, 1) if line.startswith("> ")]
ENDS = [number + (LINES[number][:1] == "+") for number, line in enumerate(LINES, 1) if line.startswith("< ")]

LOADED = DIMER_TEXT[DIMER_TEXT.index("> LOAD") : DIMER_TEXT.index("> ADVANCE")]
MOVED = "moved\n" + LOADED
# What the verdict on a record says that is all played, and of one session; and the sums of the dimer's.
PLAIN = "0 commands were not played; 1 trajectory"
SENT = "".join(f"{line[2:]}\n" for line in LINES if line[:2] in ("> ", ": "))
RUN = f"its commands have the SHA-256 {hashlib.sha256(SENT.encode()).hexdigest()}"
WHOLE = hashlib.sha256(DIMER_TEXT.encode()).hexdigest()
# What is told of the load, which is all that --quiet tells but the verdict.
BODY = f"loaded - line 4: {COMMANDS[0]}, with a body of SHA-256 {hashlib.sha256(DIMER.encode()).hexdigest()}"
QUOTA = "quota sessions 1 atoms 2 branches 1"  # the one that stands above the first BRANCH

# What is told of lines that do not belong where they stand.
NO_COMMAND = "the line must be a command of session a"
NO_LOAD = "a session must begin here, with a LOAD or LOADMIX that was granted"
NO_LOAD_MOVED = "`moved` must be followed by a LOAD or LOADMIX that was granted"
NO_PLACE = "a line of this kind must stand above all others, once and in its order, if the format has it"
NO_KIND = "a line must be of one of the kinds of a record"
NO_ROOM = "the quota above must have room for this"
NOT_LARGER = "a quota must be larger than the one above it, and smaller in nothing"
GONE = "the session must be loaded again: it is gone above"
OUTSIDE = "this refusal must stand behind `!`"
NO_QUOTA = "a quota must be sessions, atoms and branches, at most 64, 65536 and 256"
NO_REPLY = "a reply must stand here"


@pytest.fixture
def path(tmp_path: pathlib.Path) -> Any:
    path = tmp_path / "run.lj"
    path.write_text(with_checks(DIMER_TEXT))
    return path


def edited(path: Any, text: Any) -> Any:
    """A record of these lines, whose checks are right."""
    path.write_text(with_checks(text))
    return path


def test_a_line_for_each_command(path: Any) -> None:
    status, (heading, *told, verdict), faults = verified(path)
    assert (status, faults) == (0, [])
    said = f"recorded by {CLIENT[7:]} over a program that tells no version, with a quota of sessions 1 atoms 2 branches 1"
    assert heading.startswith(f"the file says: {said}; played over ")
    wanted = [f"same {sums(DIMER_TEXT)[end - 1]} line {begin}: {line}" for end, begin, line in zip(ENDS, BEGINS, COMMANDS)]
    assert told == [wanted[0], BODY, *wanted[1:]]
    assert verdict == f"{path}: all {len(COMMANDS)} replies are the same; {PLAIN}; {RUN}; SHA-256 {WHOLE}"
    assert verified("--quiet", path) == (0, [BODY, verdict], [])


def test_another_implementation(path: Any) -> None:
    status, told, faults = verified(path, "--program", TOP / "conformance" / "reference.py", "--quiet")
    assert (status, faults) == (0, [])
    assert told == [BODY, f"{path}: all {len(COMMANDS)} replies are the same; {PLAIN}; {RUN}; SHA-256 {WHOLE}"]


ACTS: Tuple[Callable[[Any, Any], object], ...] = (
    lambda a, pick: a.advance(pick(30)),
    lambda a, pick: a.start(pick(30)),
    lambda a, pick: a.reverse(),
    lambda a, pick: a.tug(pick(3), (pick(10**6), -pick(10**6), 0)),
    lambda a, pick: a.branch(f"b{pick(3)}"),
    lambda a, pick: a.restore(f"b{pick(3)}"),
    lambda a, pick: a.forget(f"b{pick(3)}"),
    lambda a, pick: a.measure(),
    lambda a, pick: a.places(),
    lambda a, pick: a.dump(),
    lambda a, pick: a.saved(),
    lambda a, pick: a.resort(),
    lambda a, pick: list(a.thermo(2, 2)),
)


@pytest.mark.parametrize("seed", range(5))
def test_sessions_at_random_over_another_implementation(tmp_path: pathlib.Path, seed: Any) -> None:
    chance, path = random.Random(seed), tmp_path / "run.lj"
    with run(PROGRAM, branches=2) as user:
        others, a = dimer(user, "b"), dimer(user, record=path)
        for _ in range(60):
            others.start(1)
            with contextlib.suppress(ValueError, Refused):
                chance.choice(ACTS)(a, chance.randrange)
    status, told, faults = verified(path, "--program", TOP / "conformance" / "reference.py")
    assert (status, faults) == (0, [])
    assert len(told) > 60


def test_the_program_of_another_version(path: Any, tmp_path: pathlib.Path) -> None:
    edited(path, DIMER_TEXT.replace("quota", "program ljserve 1.0.0\nprogram of another kit\nquota", 1))
    status, (heading, *_), _ = verified(path, "--program", twisted(tmp_path, "none", "none"))
    said = f"recorded by {CLIENT[7:]} over ljserve 1.0.0, with a quota of sessions 1 atoms 2 branches 1"
    assert (status, heading) == (0, f"the file says: {said}; played over ljserve 9.9.9")


@pytest.mark.parametrize(
    ("wanted", "other", "line", "here"),
    [
        ("OK SHOW a 1 0 589 0 0", "OK SHOW a 1 0 590 0 0", 12, "`OK SHOW a 1 0 589 0 0`, and `OK SHOW a 1 0 590 0 0` here"),
        (
            "Ar 1.499894 0.000000 0.000000",
            "Ar 1.499895 0.000000 0.000000",
            19,
            "`OK DUMP a 2 4`, and here too, but the lines below it are others",
        ),
        ("OK LOAD a 0 2", "ERR 37 SIGMA", 4, "`OK LOAD a 0 2`, and `ERR 37 SIGMA` here"),
        ("ERR 12 NO_BRANCH", "OK RESTORE a z 1", 22, "`ERR 12 NO_BRANCH`, and `OK RESTORE a z 1` here"),
    ],
)
def test_a_program_that_replies_otherwise(path: Any, tmp_path: pathlib.Path, wanted: Any, other: Any, line: Any, here: Any) -> None:
    status, told, faults = verified(path, "--program", twisted(tmp_path, wanted, other))
    assert status == 1
    command = COMMANDS[BEGINS.index(line)]
    assert faults == [f"ljclient: {path}, line {line}: `{command}` was answered {here}"]
    assert f"differs - line {line}: {command}" in told
    assert told[-1] == f"{path}: 1 of {len(COMMANDS)} replies differs, the first at line {line}; {PLAIN}; {RUN}; SHA-256 {WHOLE}"
    assert [each.split()[1] for each in told[1:-1] if each != BODY][BEGINS.index(line) :] == ["-"] * (len(BEGINS) - BEGINS.index(line))


def test_commands_that_were_edited_with_their_checks(path: Any) -> None:
    """Nothing in the file tells, but the replies do, and the SHA-256."""
    edited(path, DIMER_TEXT.replace("Ar 1.5 0 0", "Ar 1.4 0 0"))
    status, told, faults = verified(path)
    assert status == 1
    assert faults[0].startswith(f"ljclient: {path}, line 12: `SHOW a 0` was answered `OK SHOW a 1 0 589 0 0`, and `OK SHOW a 1 0 ")
    assert told[-1].startswith(f"{path}: 2 of {len(COMMANDS)} replies differ, the first at line 12; {PLAIN}; its commands have ")


@pytest.mark.parametrize(
    ("line", "refusal"),
    [
        ("LOAD a 0 1 131072 rest 28", "ERR 36 EDGE"),
        ("LOAD a 1/0 1 131072 rest 28", "ERR 36 EDGE"),
        ("LOAD a 1e99999999 1 131072 rest 28", "ERR 36 EDGE"),
        ("LOAD a 256 nan 131072 rest 28", "ERR 37 SIGMA"),
        ("LOAD a 256 1 1_3 rest 28", "ERR 38 STEP_FACTOR"),
        ("LOAD a 256 1 131072 131072 rest 28", "ERR 03 SYNTAX"),
        ("LOAD a 28", "ERR 03 SYNTAX"),
    ],
)
def test_a_program_that_grants_what_is_no_load(path: Any, tmp_path: pathlib.Path, line: str, refusal: str) -> None:
    """It is found out where the record grants it too."""
    edited(path, DIMER_TEXT.replace(COMMANDS[0], line))
    status, told, (fault,) = verified("--quiet", path, "--program", twisted(tmp_path, refusal, "OK LOAD a 0 2"))
    assert (status, told) == (2, [])
    assert fault.startswith(f"ljclient: {path}, line 4: `{line}` is granted here, which is no load of the protocol; ")


@pytest.mark.parametrize("number", range(1, len(LINES) + 1))
def test_a_line_with_another_byte(path: Any, number: Any) -> None:
    rows = path.read_bytes().split(b"\n")
    for at in (0, len(rows[number - 1]) // 2, len(rows[number - 1]) - 1):
        row = bytearray(rows[number - 1])
        row[at] ^= 1
        path.write_bytes(b"\n".join([*rows[: number - 1], bytes(row), *rows[number:]]))
        with pytest.raises(Damaged) as caught:
            list(RecordFile(path).entries())
        assert caught.value.line == number


def test_a_line_that_is_gone_doubled_or_moved(path: Any) -> None:
    rows = path.read_bytes().split(b"\n")
    for number in range(1, len(LINES) - 1):
        others = [[*rows[:number], *rows[number + 1 :]], [*rows[:number], rows[number], *rows[number:]]]
        others.append([*rows[:number], rows[number + 1], rows[number], *rows[number + 2 :]])
        for each, line in zip(others, (number + 1, number + 2, number + 1)):
            path.write_bytes(b"\n".join(each))
            with pytest.raises(Damaged) as caught:
                list(RecordFile(path).entries())
            assert caught.value.line == line


def test_what_is_damaged_is_not_played(path: Any) -> None:
    path.write_bytes(path.read_bytes().replace(b"LIST a", b"LIST b"))
    number = LINES.index("> LIST a") + 1
    why = "the line was changed, or one above it is missing"
    assert verified(path, "--program", "/nowhere") == (2, [], [f"ljclient: {path}, line {number}: {why}"])


def test_a_file_that_is_cut_short_anywhere(path: Any) -> None:
    """What stands above is whole; the line that is cut is told."""
    data = path.read_bytes()
    for size in range(len(b"ljserve record 1\n"), len(data)):
        path.write_bytes(data[:size])
        file = RecordFile(path)
        whole = [entry.number for entry in file.entries()]
        lines = data[:size].count(b"\n")
        assert whole == [begin for begin, end in zip(BEGINS, ENDS) if end <= lines]
        is_torn = not data[:size].endswith(b"\n")
        is_within = any(begin <= lines < end for begin, end in zip(BEGINS, ENDS))
        assert file.cut == (lines + 1 if is_torn else lines if is_within else None)
        assert not file.is_ended


def test_a_file_that_is_cut_short_is_played_up_to_there(path: Any) -> None:
    data = path.read_bytes()
    path.write_bytes(data[:-3])
    status, told, (fault,) = verified(path)
    assert (status, told[-1].split("; SHA")[0]) == (3, f"{path}: all {len(COMMANDS)} replies are the same; {PLAIN}; it has no end; {RUN}")
    assert fault.startswith(f"ljclient: {path}, line {len(LINES)}: the file is cut short here")
    path.write_bytes(data[: -len("0123abcd end\n")])
    status, told, (fault,) = verified(path)
    assert (status, fault.startswith(f"ljclient: {path} has no `end`")) == (3, True)
    assert verified("--partial", path) == (0, told, [fault])
    for options in ((), ("--partial",)):
        path.write_bytes(data[:40])
        assert verified(path, *options) == (2, [], [f"ljclient: cannot play {path}: it has no command with a reply"])


def test_a_reply_that_differs_in_a_file_that_is_cut_short(path: Any) -> None:
    path.write_text(with_checks(DIMER_TEXT.replace("< OK SHOW a 1 0 589 0 0", "< OK SHOW a 1 0 590 0 0").removesuffix("end\n")))
    for options in ((), ("--partial",)):
        assert verified("--quiet", path, *options)[0] == 1


def test_the_sum_that_a_paper_prints(path: Any) -> None:
    said = f"{path}: all {len(COMMANDS)} replies are the same; {PLAIN}; {RUN}; SHA-256 {WHOLE}"
    for word in (WHOLE, WHOLE.upper()):
        assert verified("--quiet", path, "--sha256", word) == (0, [BODY, said], [])
    why = f"ljclient: {path} must have the SHA-256 {'0' * 64}, got {WHOLE}: it is another record"
    assert verified(path, "--sha256", "0" * 64, "--program", "/nowhere") == (2, [], [why])


def test_a_record_of_the_first_format(path: Any) -> None:
    """It is read as ever, by the rules of now."""
    old = DIMER_TEXT.replace("ljserve record 2", "ljserve record 1")
    edited(path, old)
    whole = hashlib.sha256(old.encode()).hexdigest()
    said = f"{path}: all {len(COMMANDS)} replies are the same; {PLAIN}; its format is 1; {RUN}; SHA-256 {whole}"
    assert verified("--quiet", path) == (0, [BODY, said], [])
    edited(path, old.replace("< ERR 12 NO_BRANCH", "! ERR 12 NO_BRANCH"))
    assert verified("--quiet", path)[0] == 2


@pytest.mark.parametrize(
    ("head", "why"),
    [
        ("ljserve record 3\n", "a record must begin with `ljserve record 2` or an older head, got `ljserve record 3`; use a newer client"),
        ("ljserve checkpoint 1\n", "a record must begin with `ljserve record 2`"),
        ("", "a record must begin with `ljserve record 2`"),
        ("ljserve rec", "a record must begin with `ljserve record 2`"),
    ],
)
def test_files_that_are_no_records(path: Any, head: Any, why: Any) -> None:
    path.write_text(head)
    assert verified(path) == (2, [], [f"ljclient: {path}, line 1: {why}"])


@pytest.mark.parametrize(
    ("wanted", "other", "line", "why"),
    [
        ("> LIST a", "> LIST", 24, NO_COMMAND),
        ("> LIST a", "> DROP b", 24, NO_COMMAND),
        ("> LIST a", "> BYE", 24, NO_COMMAND),
        ("> LIST a", "? HELLO a", 24, NO_COMMAND),
        ("> LOAD a 256", "> LOAD a/b 256", 4, "the line must be a command of a session"),
        ("> LOAD a 256", "> MEASURE a 256", 5, NO_REPLY),
        ("rest 28", "rest 30", 9, "the body must have 30 bytes, got 28"),
        ("rest 28", "rest 26", 8, "the body must have 26 bytes, got 28"),
        ("rest 28", "rest 17", 8, NO_REPLY),
        ("rest 28", "rest x", 5, NO_REPLY),
        ("< OK SHOW a 1 0 589 0 0", "quota sessions 1 atoms 2 branches 0", 13, NO_REPLY),
        (QUOTA, "quota sessions 1 atoms 2 branches 257", 14, NO_QUOTA),
        (QUOTA, "quota 1 2 1", 14, NO_QUOTA),
        (QUOTA, "< OK SHOW a 1 0 589 0 0", 14, "the line must stand below a command"),
        (QUOTA, f"{QUOTA}\nquota sessions 1 atoms 2 branches 2", 15, "a quota must stand right above a command"),
        ("end\n", "quota sessions 1 atoms 2 branches 2\nend\n", 28, "a quota must stand right above a command"),
        (QUOTA, "branches 1", 14, NO_KIND),
        (QUOTA, "checkpoint 1", 14, NO_KIND),
        (QUOTA, "end", 15, "a record must not go on below its end"),
        (QUOTA, "moved", 15, NO_LOAD_MOVED),
        (QUOTA, "moved ", 14, NO_KIND),
        (QUOTA, "connection 2", 14, NO_KIND),
        (QUOTA, "quota sessions 01 atoms 2 branches 1", 14, NO_QUOTA),
        (QUOTA, "quota sessions 1 atoms 2 branches 0", 14, NOT_LARGER),
        (QUOTA, "quota sessions 1 atoms 1 branches 1", 14, NOT_LARGER),
        (f"{QUOTA}\n", "", 14, NO_ROOM),
        ("quota sessions 1 atoms 2 branches 0", "quota sessions 1 atoms 1 branches 0", 4, NO_ROOM),
        (LOADED, "", 4, NO_LOAD),
        (f"{CLIENT}\n", "client x\nclient y\n", 3, NO_PLACE),
        (f"{CLIENT}\n", "program x\nclient y\n", 3, NO_PLACE),
        (QUOTA, "client x", 14, NO_PLACE),
        (": dimer", ":", 6, NO_KIND),
        ("end\n", "end \n", 27, NO_KIND),
        ("end\n", "moved\nend\n", 28, NO_LOAD_MOVED),
        ("> LIST a\n", "> DROP a\n< OK DROP a\n> LIST a\n", 26, GONE),
        ("< ERR 12 NO_BRANCH", "< ERR 10 NO_SESSION", 23, OUTSIDE),
        ("< ERR 12 NO_BRANCH", "< ERR 22 QUOTA_BRANCHES", 23, OUTSIDE),
        ("> RESTORE a z", "> RESTORE a " + 65600 * "z", 22, NO_COMMAND),
        ("< OK DUMP a 2 4\n+", "< OK DUMP a 2 4\n>", 21, "the sum of the lines of a reply must stand here"),
    ],
)
def test_records_that_another_writer_has_made_badly(path: Any, wanted: Any, other: Any, line: Any, why: Any) -> None:
    """Nothing but commands of one session is ever played, with bodies as long as they say."""
    assert wanted in DIMER_TEXT
    edited(path, DIMER_TEXT.replace(wanted, other, 1))
    with pytest.raises(Damaged) as caught:
        list(RecordFile(path).entries())
    assert (caught.value.line, str(caught.value)) == (line, f"{path}, line {line}: {why}")


def test_what_a_terminal_would_obey_is_escaped(path: Any) -> None:
    edited(path, DIMER_TEXT.replace(CLIENT, "client \x1b[2J").replace("> RESTORE a z", "> RESTORE a z \x1b]0;\r"))
    status, told, faults = verified(path)
    assert status == 1
    assert told[0].startswith("the file says: recorded by \\x1b[2J over ")
    assert "\\x1b]0;\\x0d` was answered `ERR 12 NO_BRANCH`, and `ERR 03 SYNTAX` here" in faults[0]
    assert all(line.isprintable() for line in [*told, *faults])


@pytest.mark.parametrize(
    ("name", "shown"),
    [
        ("\x1b[2J.lj", "\\x1b[2J.lj"),
        ("a.lj\nb.lj: all 9 replies are the same", "a.lj\\x0ab.lj: all 9 replies are the same"),
        ("\udc80.lj", "\\x80.lj"),
        ("\u00e9.lj", "\\xc3\\xa9.lj"),
    ],
)
def test_names_of_files_that_a_terminal_would_obey(path: Any, name: str, shown: str) -> None:
    """Neither can a name be taken for a line of its own."""
    other = path.rename(path.with_name(name))
    where = f"{path.parent}/{shown}"
    status, told, faults = verified("--quiet", other)
    assert (status, faults, len(told)) == (0, [], 2)
    assert told[-1].startswith(f"{where}: all {len(COMMANDS)} replies are the same; ")
    other.write_text(with_checks(DIMER_TEXT) + "x")
    assert verified(other) == (2, [], [f"ljclient: {where}, line {len(LINES) + 1}: a record must not go on below its end"])
    other.write_text(with_checks(DIMER_TEXT.removesuffix("end\n")))
    assert verified("--quiet", other)[2][0].startswith(f"ljclient: {where} has no `end`")
    assert verified(f"{other}.none") == (2, [], [f"ljclient: cannot read {where}.none: No such file or directory"])


def test_a_version_that_a_terminal_would_obey(path: Any, tmp_path: pathlib.Path) -> None:
    program = pathlib.Path(twisted(tmp_path, "none", "none"))
    program.write_text(program.read_text().replace("ljserve 9.9.9", "\\x1b[2J"))
    assert verified(path, "--program", program)[1][0].endswith("; played over \\x1b[2J")


@pytest.mark.parametrize("options", [(), ("--partial",)])
def test_files_that_cannot_be_read_twice(path: Any, options: Any) -> None:
    """A FIFO is not waited for, and neither does a record continue one."""
    fifo = path.with_name("fifo")
    os.mkfifo(fifo)
    why = "a record must be a regular file, since it is read twice, got {}; save it to a file first"
    assert verified(fifo, *options) == (2, [], [f"ljclient: {why.format(f'{fifo}, a FIFO')}"])
    assert verified("/dev/null", *options) == (2, [], [f"ljclient: {why.format('/dev/null, a device')}"])
    with pytest.raises(ValueError, match="a record must be a regular file"):
        sum_of_continued(fifo, path)
    command = [sys.executable, "-m", "ljclient", "verify", "/dev/stdin", *options]
    done = subprocess.run(command, input=path.read_bytes(), capture_output=True, env=environment(), timeout=60)
    assert (done.returncode, done.stdout, done.stderr) == (2, b"", f"ljclient: {why.format('/dev/stdin, a FIFO')}\n".encode())
    with open(path, "rb") as file:
        assert subprocess.run(command, stdin=file, capture_output=True, env=environment(), timeout=60).returncode == 0


def test_a_full_disk(path: Any) -> None:
    with open("/dev/full", "wb") as full:
        done = subprocess.run(
            [sys.executable, "-m", "ljclient", "verify", path], stdout=full, stderr=subprocess.PIPE, env=environment(), timeout=60
        )
    assert (done.returncode, done.stderr) == (2, b"ljclient: cannot write the output: No space left on device\n")


def test_a_copy_with_other_line_ends(path: Any) -> None:
    path.write_bytes(path.read_bytes().replace(b"\n", b"\r\n"))
    why = "each line of a record must end with LF alone, got CR LF: its line ends were changed"
    assert verified(path) == (2, [], [f"ljclient: {path}, line 1: {why}"])


@pytest.mark.parametrize("digits", [3, 5000])
def test_a_number_of_a_refusal_that_is_none(path: Any, digits: int) -> None:
    edited(path, DIMER_TEXT.replace("< ERR 12 NO_BRANCH", f"< ERR {digits * '9'} NO_BRANCH"))
    status, told, (fault,) = verified("--quiet", path)
    assert (status, fault.endswith("9 NO_BRANCH`, and `ERR 12 NO_BRANCH` here")) == (1, True)


@pytest.mark.parametrize(
    ("words", "told"),
    [
        ([], "the following arguments are required: FILE"),
        (["a", "b"], "there is a word too many; use quotes around the name of a file with blanks"),
        (["a", "--no"], "there is no option --no; use --help to list the options"),
        (["a", "--server", "here", "ann"], "the first word of --server must be HOST:PORT, such as 127.0.0.1:4000"),
        (["a", "--server", "127.0.0.1:4000", "ann", "--program", "x"], "not allowed with argument --server"),
        (["a", "--program", ""], "--program must be the path of a program, got an empty one"),
        (["a", "--timeout", "0"], "--timeout must be a finite number of seconds above 0, got 0"),
        (["a", "--sha256", "0123"], "--sha256 must be 64 hexadecimal digits, got '0123'"),
    ],
)
def test_words_of_the_command_line(words: Any, told: Any) -> None:
    status, lines, faults = verified(*words)
    assert (status, lines) == (2, [])
    assert faults[-1].endswith(told) and faults[-1].startswith("ljclient: ")


def test_replies_that_all_stand_where_nothing_is_played(path: Any) -> None:
    """Of a run that never was. Without the refusals of others nothing is left that could be believed."""
    for text in (DIMER_TEXT.replace("\n< ", "\n! "), re.sub(r"\n< .*(\n\+ .*)?", "\n! ERR 90 MEMORY", DIMER_TEXT)):
        edited(path, text)
        assert verified(path, "--program", "/nowhere") == (2, [], [f"ljclient: {path}, line 4: {NO_LOAD}"])


def test_a_line_that_is_too_long(path: Any) -> None:
    """It hides nothing of what stands below it. A body that is one line of a mebibyte is no longer than it may be."""
    body = f"2\n{(2**20 - len(DIMER) + 5) * 'x'}\nAr 0 0 0\nAr 1.5 0 0\n"
    assert len(body) == 2**20
    rows = "".join(f": {line}\n" for line in body.splitlines())
    loaded = f"> LOAD a 256 1 131072 rest {2**20}\n{rows}< OK LOAD a 0 2\n"
    whole = DIMER_TEXT.replace(LOADED, loaded)
    edited(path, whole)
    assert verified("--quiet", path)[0] == 0
    number = LINES.index(": dimer") + 1
    for put_in in ("x" * 2**21, ": " + "x" * 2**21):
        edited(path, whole.replace(": xx", f"{put_in}\n: xx", 1))
        why = f"line {number}: a line must have at most 1,048,588 bytes"
        assert verified(path, "--program", "/nowhere") == (2, [], [f"ljclient: {path}, {why}"])


def test_files_and_programs_that_are_not_there(path: Any, tmp_path: pathlib.Path) -> None:
    assert verified(tmp_path / "none") == (2, [], [f"ljclient: cannot read {tmp_path / 'none'}: No such file or directory"])
    status, told, (fault,) = verified("--quiet", path, "--program", "/nowhere/ljserve")
    assert (status, told, fault) == (2, [], "ljclient: cannot start /nowhere/ljserve: No such file or directory")


def test_more_commands_than_a_program_takes(path: Any) -> None:
    """Those of a server go on over a new connection, and a program has one."""
    options = verify.options_of([str(path)])
    limit = len(COMMANDS) + record_playing.SPARE_ITEMS - 1
    with mock.patch.object(verify, "MAX_ITEMS", limit):
        text = f"cannot play {path}: it has {len(COMMANDS)} commands, and a program takes {limit}; use --server HOST:PORT NAME"
        with pytest.raises(record_playing.Trouble, match=re.escape(text)):
            verify.checked(options)
        edited(path, DIMER_TEXT.replace("> ADVANCE a 1\n< OK ADVANCE a 2\n", MOVED, 1))
        verify.checked(options)


# Over a server


def over(server: Any, name: str = "ann") -> List[Any]:
    return ["--server", f"127.0.0.1:{server.port}", name]


def test_a_user_of_a_server(path: Any) -> None:
    """The sessions that are there stay as they are, and that of the record is gone at the end."""
    with Server() as server:
        with joined(server.port) as user:
            dimer(user, "b").advance(3)
        status, told, faults = verified(path, *over(server), LJSERVE_TOKEN=TOKEN)
        assert (status, len(told), faults) == (0, len(COMMANDS) + 3, [])
        with joined(server.port) as user:
            assert [(row.name, row.step) for row in user.sessions()] == [("b", 3)]
            dimer(user, "a").advance(5)
        why = f"cannot play {path}: ann has a session a at 127.0.0.1:{server.port} already; drop it, or use another user"
        assert verified("--quiet", path, *over(server), LJSERVE_TOKEN=TOKEN) == (2, [], [f"ljclient: {why}"])
        with joined(server.port) as user:
            assert [(row.name, row.step) for row in user.sessions()] == [("b", 3), ("a", 5)]


@pytest.mark.parametrize(
    ("quota", "line", "command", "reply"),
    [
        ((1, 1, 1), 4, "LOAD a 256 1 131072 rest 28", "ERR 21 QUOTA_ATOMS"),
        ((0, 2, 1), 4, "LOAD a 256 1 131072 rest 28", "ERR 20 QUOTA_SESSIONS"),
        ((1, 2, 0), 15, "BRANCH a k", "ERR 22 QUOTA_BRANCHES"),
    ],
)
def test_a_quota_that_is_too_small(path: Any, quota: Any, line: Any, command: Any, reply: Any) -> None:
    with Server(quota=quota) as server:
        status, told, faults = verified("--quiet", path, *over(server), LJSERVE_TOKEN=TOKEN)
    why = f"`{command}` is answered `{reply}` here; the file says that it needs a quota of sessions 1 atoms 2 branches 1"
    assert (status, told, faults) == (2, [] if line == 4 else [BODY], [f"ljclient: {path}, line {line}: {why}"])


def test_a_server_that_does_not_know_the_user(path: Any, tmp_path: pathlib.Path) -> None:
    with Server() as server:
        status, told, (fault,) = verified("--quiet", path, *over(server, "bob"), LJSERVE_TOKEN=TOKEN)
        assert (status, told) == (2, [])
        assert fault.startswith("ljclient: ERR 01 DENIED: the server knows no user of that name and token")
        why = "cannot connect: there is no token; use --token-file FILE, or set LJSERVE_TOKEN"
        assert verified("--quiet", path, *over(server)) == (2, [], [f"ljclient: {why}"])
        (tmp_path / "token").write_text(f"{TOKEN}\n")
        assert verified("--quiet", path, *over(server), "--token-file", tmp_path / "token")[0] == 0
    status, _, (fault,) = verified("--quiet", path, *over(server), LJSERVE_TOKEN=TOKEN)
    assert (status, fault) == (2, f"ljclient: cannot connect to 127.0.0.1:{server.port}: Connection refused")


def test_a_program_without_memory(path: Any, tmp_path: pathlib.Path) -> None:
    status, told, (fault,) = verified("--quiet", path, "--program", twisted(tmp_path, "OK BRANCH a k 1", "ERR 90 MEMORY"))
    assert (status, told) == (2, [BODY])
    assert fault.startswith(f"ljclient: {path}, line 15: `BRANCH a k` is answered `ERR 90 MEMORY` here; ")


def test_the_quota_of_its_own_program_suffices(tmp_path: pathlib.Path) -> None:
    """That which a program has by itself would not."""
    path = tmp_path / "run.lj"
    with run(PROGRAM, branches=20) as user:
        a = dimer(user, record=path)
        for number in range(20):
            a.branch(f"b{number}")
    assert verified("--quiet", path)[0] == 0
