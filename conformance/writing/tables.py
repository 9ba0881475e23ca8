"""The worked examples, and the tables of dialogues that the tests of the program have (tests/dialogue_tables)."""
import pathlib
import re
import sys
from typing import Dict, Iterator, List, Tuple

from writing.words import Written, load, load_mix, lines, written

TOP = pathlib.Path(__file__).resolve().parents[2]
sys.path.append(str(TOP / "tests"))

from dialogue_tables import NOT_READ_ON, TABLES  # noqa: E402
from dialogue_tables.dialogues import Dialogue, Ending  # noqa: E402

DIMER = "2\ndimer\nAr 0 0 0\nAr 1.5 0 0\n"
SALT = "2\nmix\nNa 0 0 0\nCl 1.5 0 0\n"


def examples() -> Iterator[Written]:
    """Those of docs/PROTOCOL.md in their order, and the files of examples/ and of the stored run."""
    first = load(DIMER) + lines("ADVANCE a 1", "SHOW a 0", "BRANCH a k", "TUG a 0 5 0 0", "MEASURE a", "REVERSE a", "RESTORE a k")
    yield written("examples/protocol", [first, lines("DUMP a", "LIST", "LIST a", "FORGET a k", "DROP a", "BYE")])
    mix = load_mix(SALT, "256 Na Cl 1 131072 256 1 262144 512 1 131072 256", "m")
    yield written("examples/mixture", [mix, lines("MEASURE m", "ADVANCE m 1", "SHOW m 1")])
    both = load(DIMER) + load(DIMER, name="b")
    yield written("examples/start", [both, lines("START a 2", "START b 1", "SHOW b 0", "LIST", "SHOW a 0", "BRANCH a k", "DUMP a", "LIST")])
    yield written("examples/readme", [load(DIMER), lines("ADVANCE a 2", "SHOW a 0", "REVERSE a", "ADVANCE a 1", "SHOW a 0")])
    for name in ("dimer", "every_command", "two_species"):
        yield f"examples/{name}", (TOP / "examples" / f"{name}.txt").read_bytes(), (8, 16384, 16)
    yield "examples/stored_run", (TOP / "crates" / "ljserve" / "stdin").read_bytes(), (8, 16384, 16)


def joined(name: str, dialogues: List[Dialogue]) -> Iterator[Written]:
    """Dialogues that go on one after the other; the sessions of one are dropped before the next."""
    by_quota: Dict[Tuple[int, int, int], List[bytes]] = {}
    for dialogue in dialogues:
        names = re.findall(r"^(\S+) -?\d+ \d+ \d+$", dialogue.state, re.M)
        by_quota.setdefault(dialogue.quota, []).append(dialogue.text() + "".join(f"DROP {each}\n" for each in names).encode())
    for number, (quota, texts) in enumerate(by_quota.items()):
        yield f"{name}_{'abcdefgh'[number]}", b"".join(texts), quota


def streams() -> Iterator[Written]:
    yield from examples()
    for table, dialogues in TABLES.items():
        name = table.replace(" ", "_")
        yield from joined(f"tables/{name}", [each for each in dialogues if each.ending is Ending.INPUT and each.text().endswith(b"\n")])
        others = [each for each in dialogues if each.ending is not Ending.INPUT or not each.text().endswith(b"\n")]
        for number, each in enumerate(others, 1):
            yield f"ends/{name}_{number:02}", each.text(), each.quota
    for number, each in enumerate(NOT_READ_ON[1:], 1):
        yield f"ends/not_read_on_{number}", each.text()[: 2**21], each.quota
