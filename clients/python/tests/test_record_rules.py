"""Which refusals may stand behind `!` in a record: those that PROTOCOL has of a command, and others than the session bring about."""
import pathlib
import re
from typing import Any, Dict, Set

import pytest

from ljclient import Damaged, Refused, record
from ljclient.record import Answer
from ljclient.record_file import RecordFile
from ljclient.recording import Record
from ljclient.record_rules import OF_QUOTA_AND_MEMORY, outside_of
from record_texts import DIMER_TEXT, with_checks
from support import TOP

PROTOCOL = (TOP / "docs" / "PROTOCOL.md").read_text()
LOAD = "> LOAD a 256 1 131072 rest 28\n: 2\n: dimer\n: Ar 0 0 0\n: Ar 1.5 0 0\n"
LINES = DIMER_TEXT.splitlines()


def numbers_of(told: str) -> Set[int]:
    """The refusals of a row of PROTOCOL, such as `11, 30 to 35 and 39, then 37`."""
    spans = ((int(first), int(last or first)) for first, last in re.findall(r"(\d+)(?: to (\d+))?", told))
    return {number for first, last in spans for number in range(first, last + 1)}


def rows_of_commands() -> Dict[str, Set[int]]:
    """The refusals of each command, by the table of commands."""
    (table,) = re.findall(r"\| Command \| Reply \| Refusals, in order \|\n\|---.*\n((?:\|.*\n)+)", PROTOCOL)
    rows = [[cell.strip() for cell in row.strip("|").split("|")] for row in table.splitlines()]
    told: Dict[str, Set[int]] = {}
    for command, _, numbers in rows:
        told.setdefault(command.strip("`").split(" ")[0].split("`")[0], set()).update(numbers_of(numbers))
    return told


def test_each_command_has_the_refusals_of_its_row() -> None:
    """With 04, which is of a line of a load, and 08, which is of any line."""
    rows, outside = rows_of_commands(), {10, 20, 21, 22, 90}
    assert {verb.encode() for verb in rows} - {b"BYE"} == record.OF_A_SESSION
    for verb, numbers in rows.items():
        wanted = numbers & outside | {8} | ({4} if verb in ("LOAD", "LOADMIX") else set())
        assert outside_of(verb.encode()) == (wanted if verb != "BYE" else {8})
        assert OF_QUOTA_AND_MEMORY.get(verb.encode(), set()) == numbers & outside - {10}


def test_each_refusal_has_the_name_of_the_table() -> None:
    told = re.findall(r"^\| (\d\d) \| ([A-Z_]+) \| ", PROTOCOL, re.M)
    assert {int(number): name for number, name in told} == {kind.number: kind.name for kind in map(kind_of, told)}


def kind_of(row: Any) -> Any:
    return Refused.by_number[int(row[0])]


def damaged(tmp_path: pathlib.Path, text: str) -> Any:
    path = tmp_path / "run.lj"
    path.write_text(with_checks(text))
    with pytest.raises(Damaged) as caught:
        list(RecordFile(path).entries())
    return caught.value


@pytest.mark.parametrize("verb", sorted(record.OF_A_SESSION))
@pytest.mark.parametrize("number", [1, 2, 3, 4, 5, 6, 10, 11, 12, 14, 20, 21, 22, 23, 30, 37, 40, 90, 91])
def test_refusals_of_a_session_that_is_there(tmp_path: pathlib.Path, verb: bytes, number: int) -> None:
    """Only a BRANCH may be refused for something else, of those that go on."""
    name = Refused.by_number[number].name if number in Refused.by_number else "OTHER"
    line = {b"BRANCH": "BRANCH a q", b"LOAD": LOAD[2:].rstrip()}.get(verb, f"{verb.decode()} a 0")
    put_in = f"> {line}\n! ERR {number:02} {name}\n"
    text = DIMER_TEXT.replace("> LIST a\n", f"{put_in}> LIST a\n")
    if (verb, number) in ((b"BRANCH", 22), (b"BRANCH", 90)):
        path = tmp_path / "run.lj"
        path.write_text(with_checks(text))
        assert len(list(RecordFile(path).entries())) == DIMER_TEXT.count("\n> ") + 1
        return
    fault = damaged(tmp_path, text)
    assert fault.line == LINES.index("> LIST a") + put_in.count("\n")
    assert "a refusal behind `!` must be one that " in str(fault)


@pytest.mark.parametrize(
    ("line", "first"),
    [
        ("BRANCH a q", "OK BRANCH a q 2"),
        ("BRANCH a q", "ERR 22 QUOTA_BRANCHES "),
        ("BRANCH a q", "ERR 022 QUOTA_BRANCHES"),
        ("BRANCH a q", "ERR 22 QUOTA_BRANCHES line 1"),
        ("BRANCH a q", "nonsense"),
        ("BRANCH a q", ""),
        ("BRANCH a k", "ERR 22 QUOTA_BRANCHES"),
        ("BRANCH a", "ERR 22 QUOTA_BRANCHES"),
        ("BRANCH a q r", "ERR 90 MEMORY"),
        ("BRANCH a q.", "ERR 90 MEMORY"),
        ("BRANCH a q" + 250 * " ", "ERR 90 MEMORY"),
        ("LOAD a 0", "ERR 04 BODY"),
        ("LOAD a " + 250 * "0", "ERR 04 BODY"),
        ("SHOW a 0", "ERR 04 BODY"),
    ],
)
def test_what_is_no_such_refusal(tmp_path: pathlib.Path, line: str, first: str) -> None:
    fault = damaged(tmp_path, DIMER_TEXT.replace("> LIST a\n", f"> {line}\n! {first}\n> LIST a\n"))
    assert fault.line == LINES.index("> LIST a") + 2


ENDED = "a new connection must begin here: the one above has ended"


@pytest.mark.parametrize("ending", ["? SHOW a 0\n", "> SHOW a 0\n! ERR 08 ENOUGH\n", "> LOAD a\n! ERR 04 BODY\n"])
def test_what_follows_the_end_of_a_connection(tmp_path: pathlib.Path, ending: str) -> None:
    """Other commands that were not replied to, a new connection, or the end."""
    for following in ("", "? LIST a\n", "connection\n> SHOW a 0\n< OK SHOW a 2 0 1774 0 0\n"):
        path = tmp_path / "run.lj"
        path.write_text(with_checks(DIMER_TEXT.replace("end\n", f"{ending}{following}end\n")))
        assert list(RecordFile(path).entries())
    for following in ("> SHOW a 0\n< OK SHOW a 2 0 1774 0 0\n", "moved\n", "> BRANCH a q\n! ERR 22 QUOTA_BRANCHES\n"):
        fault = damaged(tmp_path, DIMER_TEXT.replace("end\n", f"{ending}{following}end\n"))
        assert (fault.line, fault.args[2]) == (len(LINES) + ending.count("\n"), ENDED)


GONE = "> SHOW a 0\n! ERR 10 NO_SESSION\n"
BACK = f"{LOAD}< OK LOAD a 0 2\n> ADVANCE a 1\n< OK ADVANCE a 1\n"
MIXED = "> LOADMIX a 256 Na Cl 1 131072 256 1 262144 512 1 131072 256 rest 24\n: 2\n: mix\n: Na 0 0 0\n: Cl 1 0 0\n"
MISSING = "the session must be loaded again: it is gone above"


@pytest.mark.parametrize(
    ("put_in", "why"),
    [
        (f"connection\n{GONE}", ""),
        (f"connection\n> LIST a b\n< ERR 03 SYNTAX\n{GONE}{GONE}{BACK}", ""),
        (f"connection\n{GONE}connection\n{GONE}{LOAD}! ERR 21 QUOTA_ATOMS\n{GONE}{BACK}", ""),
        (f"> DROP a\n< OK DROP a\n{LOAD}! ERR 90 MEMORY\n{BACK}", ""),
        (f"> DROP a\n< OK DROP a\n{MIXED}! ERR 21 QUOTA_ATOMS\n{BACK}", ""),
        (f"> DROP a\n< OK DROP a\n? LOAD a 256 1 131072 rest 28\nconnection\n{BACK}", ""),
        (GONE, "a refusal behind `!` must be one that SHOW can get here"),
        (f"connection\n> LIST a\n< OK LIST a 0\n{GONE}", "a refusal behind `!` must be one that SHOW can get here"),
        (f"connection\n{GONE}> LIST a\n< OK LIST a 0\n", MISSING),
        (f"connection\n{GONE}> BRANCH a q\n! ERR 22 QUOTA_BRANCHES\n", "a refusal behind `!` must be one that BRANCH can get here"),
        (f"> DROP a\n< OK DROP a\n{GONE}", "a refusal behind `!` must be one that SHOW can get here"),
        ("> DROP a\n< OK DROP a\n> LIST a\n< OK LIST a 0\n", MISSING),
        (f"> DROP a\n< OK DROP a\nmoved\n{BACK}", "the session must be there to have moved: it is gone above"),
        (f"moved\nmoved\n{BACK}", "`moved` must be followed by a LOAD or LOADMIX that was granted"),
        (f"moved\n{LOAD}! ERR 21 QUOTA_ATOMS\n", "`moved` must be followed by a LOAD or LOADMIX that was granted"),
        ("moved\n? LOAD a 256 1 131072 rest 28\n", "`moved` must be followed by a LOAD or LOADMIX that was granted"),
    ],
)
def test_a_session_that_is_gone(tmp_path: pathlib.Path, put_in: str, why: str) -> None:
    """A new connection tells it, or a DROP, and until a LOAD nothing else can be."""
    text = DIMER_TEXT.replace("end\n", f"{put_in}end\n")
    if why:
        assert damaged(tmp_path, text).args[2] == why
        return
    path = tmp_path / "run.lj"
    path.write_text(with_checks(text))
    assert len(list(RecordFile(path).entries())) > DIMER_TEXT.count("\n> ") + 1


def test_what_tells_a_record_that_its_session_is_gone(tmp_path: pathlib.Path) -> None:
    """A new connection's load that is refused for its body, but none that is refused for its name, nor without a new connection."""
    line, granted = b"LOAD a 256 1 131072 rest 2", Answer(b"LOAD a 256 1 131072 rest 2", b"2\n", b"OK LOAD a 0 2")
    for is_renewed, first, is_over in (
        (True, b"ERR 31 XYZ_SHORT line 2", True),
        (True, b"ERR 11 EXISTS", False),
        (False, b"ERR 90 MEMORY", False),
    ):
        one = Record(tmp_path / "run.lj", [])
        one.answered(line.split(), granted)
        if is_renewed:
            one.told(record.Mark.CONNECTION)
        one.answered(line.split(), Answer(line, b"2\n", first))
        assert one.is_over == is_over
        one.close()
        one.flush()
    (tmp_path / "run.lj").unlink()
