"""Forgeries: true records, changed in one place with checks that are right, are refused, or `verify` tells something else of them."""
import contextlib
import functools
import io
import pathlib
import re
from unittest import mock
from typing import Callable, Dict, Iterator, List, Tuple

import pytest

from ljclient import Damaged, verify
from ljclient.record_file import sum_of_continued
from record_texts import verified, with_checks
from support import PROGRAM
from true_records import NAMES, judged, judged_with_sum, text_of

LARGE = "quota sessions 64 atoms 65536 branches 256"
SMALL = "quota sessions 1 atoms 1 branches 0"
SUM = "0123456789abcdef" * 4
LOAD = "> LOAD a 256 1 131072 rest 28\n: 2\n: dimer\n: Ar 0 0 0\n: Ar 1.5 0 0\n"
# What is put in above each line: marks, claims, and commands with replies that are none, or are no refusals of these commands.
PUT_IN = {
    "connection": "connection",
    "moved": "moved",
    "moved_and_load": f"moved\n{LOAD}< OK LOAD a 0 2",
    "load": f"{LOAD}< OK LOAD a 0 2",
    "dropped_and_load": f"> DROP a\n< OK DROP a\n{LOAD}< OK LOAD a 0 2",
    "drop": "> DROP a\n< OK DROP a",
    "end": "end",
    "checkpoint": "checkpoint 1",
    "continues": f"continues {SUM}",
    "client": "client ljclient 9.9.9",
    "small_quota": SMALL,
    "body": ": 2",
    "more": f"+ {SUM}",
    "reply": "< OK ADVANCE a 1",
    "outside": "! ERR 90 MEMORY",
    "unanswered": "? ADVANCE a 1000",
    "unanswered_and_connection": "? ADVANCE a 1000\nconnection",
    "true_tug": "> TUG a 0 1 0 0\n< OK TUG a 0 0",
    "tug_22": "> TUG a 0 1 0 0\n! ERR 22 QUOTA_BRANCHES",
    "tug_ok": "> TUG a 0 1 0 0\n! OK TUG a 0 1",
    "tug_90": "> TUG a 0 1 0 0\n! ERR 90 MEMORY",
    "tug_14": "> TUG a 0 1 0 0\n! ERR 14 NO_ATOM",
    "measure_ok": "> MEASURE a\n! OK MEASURE a 0 2 0 0 0 1 1",
    "measure_nonsense": "> MEASURE a\n! nonsense",
    "measure_01": "> MEASURE a\n! ERR 01 DENIED",
    "measure_05": "> MEASURE a\n! ERR 05 LONG",
    "measure_10": "> MEASURE a\n! ERR 10 NO_SESSION",
    "measure_08": "> MEASURE a\n! ERR 08 ENOUGH",
    "measure_08_and_connection": "> MEASURE a\n! ERR 08 ENOUGH\nconnection",
    "measure_gone": "connection\n> MEASURE a\n! ERR 10 NO_SESSION",
    "load_20": f"{LOAD}! ERR 20 QUOTA_SESSIONS",
    "load_21": f"{LOAD}! ERR 21 QUOTA_ATOMS",
    "load_90": f"{LOAD}! ERR 90 MEMORY",
    "load_04": f"{LOAD}! ERR 04 BODY",
    "load_without_count": "> LOAD a\n! ERR 04 BODY",
    "branch_22": "> BRANCH a q\n! ERR 22 QUOTA_BRANCHES",
    "branch_22_of_k": "> BRANCH a k\n! ERR 22 QUOTA_BRANCHES",
    "branch_of_no_name": "> BRANCH a q!\n! ERR 22 QUOTA_BRANCHES",
    "branch_22_line": "> BRANCH a q\n! ERR 22 QUOTA_BRANCHES line 1",
    "branch_wrong_name": "> BRANCH a q\n! ERR 22 QUOTA_ATOMS",
    "branch_21": "> BRANCH a q\n! ERR 21 QUOTA_ATOMS",
    "branch_10": "> BRANCH a q\n< ERR 10 NO_SESSION",
    "no_command": "> LIST\n< OK LIST 0",
    "other_session": "> SHOW b 0\n< OK SHOW b 0 0 0 0 0",
}


def other_number(found: "re.Match[str]") -> str:
    return str(int(found[0]) + 1)


def other_words(one: str, other: str) -> Callable[[str], str]:
    """What puts one beginning of a line in place of another."""
    return lambda line: other + line[len(one) :] if line.startswith(one) else line


# What becomes of a line that is changed.
CHANGED: Dict[str, Callable[[str], str]] = {
    "last_number": lambda line: re.sub(r"\d+(?=\D*$)", other_number, line),
    "first_number": lambda line: re.sub(r"\d+", other_number, line, count=1),
    "number_with_zero": lambda line: re.sub(r"\b\d+$", r"0\g<0>", line),
    "numbers_with_zeros": lambda line: re.sub(r"\b\d+", r"00\g<0>", line),
    "blanks": lambda line: line[:2] + line[2:].replace(" ", "  "),
    "tabs": lambda line: line[:2] + line[2:].replace(" ", "\t"),
    "carriage_return": lambda line: f"{line}\r",
    "turned_round": lambda line: line[:2] + line[:1:-1],
    "word_more": lambda line: f"{line} 1",
    "letter_more": lambda line: f"{line}x",
    "word_less": lambda line: line.rpartition(" ")[0],
    "emptied": lambda line: "",
    "not_played": other_words("< ", "! "),
    "played": other_words("! ", "< "),
    "not_answered": other_words("> ", "? "),
    "answered": other_words("? ", "> "),
    "tug_is_measure": other_words("> TUG", "> MEASURE"),
    "advance_is_start": other_words("> ADVANCE", "> START"),
    "start_is_advance": other_words("> START", "> ADVANCE"),
    "restore_is_forget": other_words("> RESTORE", "> FORGET"),
    "reverse_is_measure": other_words("> REVERSE", "> MEASURE"),
    "moved_is_connection": other_words("moved", "connection"),
    "connection_is_moved": other_words("connection", "moved"),
}


def end_of_entry(lines: List[str], number: int) -> int:
    """The number of the line behind a command that begins at this one, with its body and its reply."""
    end = number + 1
    while end < len(lines) and lines[end][:1] in (":", "<", "!", "+"):
        end += 1
    return end


# What becomes of the lines from one on: the lines in place of it, and how many of the lines there were.
MOVED: Dict[str, Callable[[List[str], int], Tuple[List[str], int]]] = {
    "dropped": lambda lines, number: ([], 1),
    "doubled": lambda lines, number: (lines[number : number + 1] * 2, 1),
    "swapped": lambda lines, number: (lines[number : number + 2][::-1], 2),
    "cut": lambda lines, number: ([], len(lines)),
    "entry_dropped": lambda lines, number: ([], end_of_entry(lines, number) - number),
    "entry_doubled": lambda lines, number: (lines[number : end_of_entry(lines, number)] * 2, end_of_entry(lines, number) - number),
}


def edits(lines: List[str], kind: str) -> Iterator[Tuple[int, List[str]]]:
    """The forgeries of this kind, each with the number of the line that it is made at."""
    for number, line in enumerate(lines):
        if kind in CHANGED:
            put_in, gone = [CHANGED[kind](line)], 1
        elif kind in MOVED:
            put_in, gone = MOVED[kind](lines, number)
        else:
            put_in, gone = [PUT_IN[kind]], 0
        forged = [*lines[:number], *put_in, *lines[number + gone :]]
        if forged != lines and forged:
            yield number, forged


def is_exempt(lines: List[str], number: int, forged: List[str]) -> bool:
    """Whether it is an edit that files.md names as one that does not show: of what the record says of itself, or a larger quota."""
    of_itself = [[line for line in each if not line.startswith(("client ", "program "))] for each in (lines, forged)]
    return of_itself[0] == of_itself[1] or (number < len(forged) and is_larger_quota(lines[number], forged[number]))


def is_of_commands(lines: List[str], number: int, forged: List[str]) -> bool:
    """Whether it is an edit of a command that files.md names as one of which the sum of the commands alone tells."""
    if len(forged) != len(lines) or forged[number + 1 :] != lines[number + 1 :] or not forged[number].startswith("> "):
        return False
    is_read = any(line.startswith(("> SHOW", "> MEASURE", "> DUMP")) for line in lines[number:])
    return (
        (lines[number].startswith("> TUG") and not is_read)
        or lines[number + 1].startswith("< ERR ")
        or words_of(lines[number]) == words_of(forged[number])
    )


def words_of(line: str) -> List[str]:
    """The words of a command, with numbers as they are."""
    return [str(int(word)) if word.lstrip("-").isdigit() else word for word in line.split()]


def is_larger_quota(line: str, other: str) -> bool:
    quotas = [[int(word) for word in re.findall(r"\d+", each)] for each in (line, other)]
    return bool(re.fullmatch(r"quota sessions \d+ atoms \d+ branches \d+", other)) and all(a <= b for a, b in zip(*quotas))


@functools.lru_cache(maxsize=None)
def true_text(name: str, folder: pathlib.Path) -> str:
    return text_of(name, folder)


@pytest.fixture(scope="module")
def folder(tmp_path_factory: pytest.TempPathFactory) -> pathlib.Path:
    return tmp_path_factory.mktemp("true")


# What is told at the end of each true record.
VERDICTS: Dict[str, str] = {
    "plain": "0 commands were not played; 1 trajectory; the file says that it continues ",
    "branched": "1 command was not played; 1 trajectory",
    "sorted_in_space": "0 commands were not played; 1 trajectory",
    "moved": "0 commands were not played; 1 trajectory",
    "mixed": "0 commands were not played; 1 trajectory",
    "lost": "2 commands were not played; 1 trajectory",
    "gone": "1 command was not played; 1 trajectory; 2 new connections",
    "loaded_again": "6 commands were not played; 1 trajectory; 1 new connection",
    "unread": "0 commands were not played; 1 trajectory",
}


@pytest.mark.parametrize("name", NAMES)
def test_a_true_record(folder: pathlib.Path, tmp_path: pathlib.Path, name: str) -> None:
    status, told = judged(tmp_path / "run.lj", true_text(name, folder))
    assert (status, told[-1].split("the same; ")[1][: len(VERDICTS[name])]) == (0, VERDICTS[name])


def held(folder: pathlib.Path, path: pathlib.Path, name: str, kind: str) -> None:
    """Holds that each forgery of a kind is refused, or that something else is told of it, and more than the sum of the commands."""
    text = true_text(name, folder)
    (*true, commands), lines = judged_with_sum(path, text), text.splitlines()
    unseen = []
    for number, forged in edits(lines, kind):
        *told, other = judged_with_sum(path, "".join(f"{line}\n" for line in forged))
        is_seen = told != true or (other != commands and is_of_commands(lines, number, forged))
        if not is_seen and not is_exempt(lines, number, forged):
            unseen.append((number + 1, lines[number], forged[number : number + 1]))
    assert unseen == []


@pytest.mark.parametrize("kind", [*CHANGED, *MOVED])
@pytest.mark.parametrize("name", NAMES)
def test_lines_that_are_changed_dropped_or_moved(folder: pathlib.Path, tmp_path: pathlib.Path, name: str, kind: str) -> None:
    held(folder, tmp_path / "run.lj", name, kind)


@pytest.mark.parametrize("kind", PUT_IN)
@pytest.mark.parametrize("name", NAMES)
def test_lines_that_are_put_in(folder: pathlib.Path, tmp_path: pathlib.Path, name: str, kind: str) -> None:
    held(folder, tmp_path / "run.lj", name, kind)


# What is put below the end: lines, whole and without an end, with checks that are right or none.
BELOW = {
    "letter": "x",
    "line": "x\n",
    "empty_line": "\n",
    "blank": " ",
    "null": "\0",
    "end": "end",
    "whole_end": "end\n",
    "command": "> SHOW a 0",
    "mebibyte": 2**20 * "x",
}


@pytest.mark.parametrize("kind", BELOW)
def test_text_below_the_end(folder: pathlib.Path, tmp_path: pathlib.Path, kind: str) -> None:
    """Neither `verify` takes it, nor does a record that is to go on from there."""
    text, path = true_text("branched", folder), tmp_path / "run.lj"
    assert text.endswith("\nend\n")
    for tail in (with_checks(text + BELOW[kind]), with_checks(text) + BELOW[kind]):
        path.write_text(tail)
        status, told, faults = verified("--partial", path)
        why = f"line {text.count(chr(10)) + 1}: a record must not go on below its end"
        assert (status, told, faults) == (2, [], [f"ljclient: {path}, {why}"])
        with pytest.raises(Damaged, match=why):
            sum_of_continued(path, tmp_path / "other.lj")


def test_text_that_is_put_below_the_end_while_it_is_played(folder: pathlib.Path, tmp_path: pathlib.Path) -> None:
    text, path, told = true_text("branched", folder), tmp_path / "run.lj", io.StringIO()
    path.write_text(with_checks(text))
    with mock.patch.object(verify, "heading", lambda *_: str(path.write_text(with_checks(text) + "x"))):
        with contextlib.redirect_stdout(io.StringIO()), contextlib.redirect_stderr(told):
            status = verify.main(["--quiet", str(path), "--program", PROGRAM])
    assert (status, "a record must not go on below its end" in told.getvalue()) == (2, True)


def test_how_many_kinds_there_are() -> None:
    assert len({*CHANGED, *MOVED, *PUT_IN, *BELOW}) >= 70
