"""A few of the trials of `bench/keep`: kills of `tools/keep` and its server while users work, and streams of conformance/ through it."""
import sys
from typing import Any

import pytest

from keepers import TOP, missing
from support import PROGRAM

sys.path.append(str(TOP / "conformance"))
from keep_trials.account import Account, Wrong  # noqa: E402
from keep_trials.kills import FRONTS, KINDS, kill  # noqa: E402
from keep_trials.streams import play  # noqa: E402
from playing import stored  # noqa: E402

LONGEST = 20_000


@pytest.mark.parametrize("is_often", [False, True], ids=["few snapshots", "many"])
@pytest.mark.parametrize("kind", [*KINDS, FRONTS])
def test_a_few_kills(kind: Any, is_often: Any) -> None:
    if kind == FRONTS and missing():
        pytest.skip(missing())
    done = kill(PROGRAM, kind, 3, f"a few {kind}", is_often=is_often)
    assert min(done.values()) > 8


def test_streams_of_conformance_with_three_kills_in_each() -> None:
    """Every fourth stream of those with few steps and a command that is kept."""
    all_streams = [each for each in stored() if not each.name.startswith("runs/") and len(each.sent) < LONGEST]
    streams = [each for each in all_streams if b"OK LOAD" in each.replies][::4]
    assert len(streams) > 10
    assert list(play(PROGRAM, streams, 3)) == []


QUOTA = (2, 10, 2)
LOAD = b"LOAD a 256 1 1 rest 12\n1\nc\nX 0 0 0\n"


def test_what_was_lost_may_be_done_or_not_until_it_is_told() -> None:
    account = Account(QUOTA)
    account.hear(LOAD, b"OK LOAD a 0 1\n")
    account.lose([b"ADVANCE a 1\n", b"BRANCH a k\n"])
    account.hear(b"LIST a\n", b"OK LIST a 0\n")
    account.hear(b"ADVANCE a 1\n", b"OK ADVANCE a 2\n")
    with pytest.raises(Wrong):
        account.hear(b"ADVANCE a 1\n", b"OK ADVANCE a 2\n")


@pytest.mark.parametrize("reply", [b"OK LIST a 1\nk 2\n", b"OK LIST a 1\nm 1\n", b"ERR 10 NO_SESSION\n"])
def test_what_cannot_be_is_wrong(reply: Any) -> None:
    account = Account(QUOTA)
    account.hear(LOAD, b"OK LOAD a 0 1\n")
    account.lose([b"ADVANCE a 1\n", b"BRANCH a k\n"])
    with pytest.raises(Wrong):
        account.hear(b"LIST a\n", reply)
