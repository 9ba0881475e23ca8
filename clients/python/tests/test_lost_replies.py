"""The decision which commands were done, without a link: each batch of random commands is done up to each of its prefixes, by the
reference of conformance/, and what is found then says that prefix and the replies."""
import copy
import dataclasses
import io
from typing import Any, List, Sequence, Tuple

import pytest
from hypothesis import given, settings, strategies

import reference
from ljclient import errors
from ljclient.expected import Expected, Motion, Sessions, after
from ljclient.lost_replies import Found, asked_of, batch_of, decide, drift_of, followed, lacking, rows_of, saved_of
from ljclient.record import Answer
from support import DIMER

BODY = DIMER.encode()
STILL = Motion(7, 1, (1, 2, 3))
HERE = Expected(2, STILL, {"k": Motion(4, -1, (5, 5, 5))}, 1, False)
START: Sessions = {"a": HERE, "b": Expected(1, Motion(0), None, 3)}


def case(motion: Motion, **more: Any) -> Sessions:
    return {**START, "a": dataclasses.replace(HERE, motion=motion, **more)}


CASES: List[Tuple[str, Any]] = [
    ("ADVANCE a 5", [case(Motion(12, 1, (1, 2, 3)))]),
    ("ADVANCE a 0", None),
    ("ADVANCE a 1000001", None),
    ("ADVANCE a 05", [case(Motion(12, 1, (1, 2, 3)))]),
    ("ADVANCE a -5", None),
    ("ADVANCE c 5", None),
    ("START a 5", [case(Motion(12, 1, (1, 2, 3)), is_pending=True)]),
    ("REVERSE a", [case(Motion(6, -1, (2**32 - 1, 2**32 - 2, 2**32 - 3)))]),
    ("REVERSE a b", None),
    ("TUG a 1 -2 -2 5", [case(Motion(7, 1, (2**32 - 1, 0, 8)))]),
    ("TUG a 1 0 0 0", None),
    ("TUG a 2 1 1 1", None),
    ("TUG a 1 2147483648 0 0", None),
    ("TUG a 1 -2147483648 0 0", [case(Motion(7, 1, (2**31 + 1, 2, 3)))]),
    ("BRANCH a n", [case(STILL, saved={**(HERE.saved or {}), "n": STILL}, count=2)]),
    ("BRANCH a k", None),
    ("RESTORE a k", [case(Motion(4, -1, (5, 5, 5)))]),
    ("RESTORE a n", None),
    ("FORGET a k", [case(STILL, saved={}, count=0)]),
    ("FORGET a n", None),
    ("DROP a", [{"b": START["b"]}]),
    ("DROP c", None),
    ("ADVANCE b 2", [{**START, "b": Expected(1, Motion(step, turn), None, 3, False)} for step, turn in ((2, 1), (-2, -1))]),
    ("REVERSE b", [{**START, "b": Expected(1, Motion(-turn, -turn), None, 3, False)} for turn in (1, -1)]),
    ("LOAD c 256 1 131072 rest 28", [{**START, "c": Expected(2, Motion(0, 1, (0, 0, 0)), {}, 0, False)}]),
    ("LOAD c 256 1 131072 pair 28", [{**START, "c": Expected(2, Motion(0, 1), {}, 0, False)}]),
    ("LOADMIX c 256 A B 1 1 1 1 1 1 1 1 1 rest 28", [{**START, "c": Expected(2, Motion(0, 1, (0, 0, 0)), {}, 0, False)}]),
    ("LOAD a 256 1 131072 rest 28", None),
    *((line, None) for line in ("MEASURE a", "SHOW a 0", "DUMP a", "LIST", "LIST a", "BYE", "HELLO a b", "WHAT", "", " ", "\t")),
]


@pytest.mark.parametrize("line, wanted", CASES)
def test_what_a_command_makes_of_the_sessions(line: str, wanted: Any) -> None:
    found = after(START, line, BODY if "LOAD" in line else b"")
    assert found == (wanted or [START]) and (found[0] is START) == (wanted is None)


def found_of(*, a: Any = (7, 2, 1), b: Any = (0, 1, 3), saved: Any = (("k", 4),), drift: Any = (1, 2, 3), **others: Any) -> Found:
    rows = {name: row for name, row in {"a": a, "b": b, **others}.items() if row}
    return Found(rows, {"a": saved} if a and saved else {}, {"a": drift} if a and drift else {})


TURNED = (2**32 - 1, 2**32 - 2, 2**32 - 3)
# Of each command what is found before it and after it, and the reply.
ONE: List[Tuple[str, Found, str]] = [
    ("ADVANCE a 5", found_of(a=(12, 2, 1)), "OK ADVANCE a 12"),
    ("START a 5", found_of(a=(12, 2, 1)), "OK START a 12"),
    ("ADVANCE b 2", found_of(b=(2, 1, 3)), "OK ADVANCE b 2"),
    ("ADVANCE b 2", found_of(b=(-2, 1, 3)), "OK ADVANCE b -2"),
    ("REVERSE a", found_of(a=(6, 2, 1), drift=TURNED), "OK REVERSE a 6"),
    ("REVERSE b", found_of(b=(1, 1, 3)), "OK REVERSE b 1"),
    ("TUG a 01 -2 -2 5", found_of(drift=(2**32 - 1, 0, 8)), "OK TUG a 1 7"),
    ("BRANCH a n", found_of(a=(7, 2, 2), saved=(("k", 4), ("n", 7))), "OK BRANCH a n 7"),
    ("RESTORE a k", found_of(a=(4, 2, 1), drift=(5, 5, 5)), "OK RESTORE a k 4"),
    ("FORGET a k", found_of(a=(7, 2, 0), saved=()), "OK FORGET a k"),
    ("DROP a", found_of(a=None), "OK DROP a"),
    ("LOAD c 256 1 131072 rest 28", found_of(c=(0, 2, 0)), "OK LOAD c 0 2"),
    ("LOADMIX c 256 A B 1 1 1 1 1 1 1 1 1 pair 28", found_of(c=(0, 2, 0)), "OK LOADMIX c 0 2"),
]
WRONG = [
    found_of(a=(8, 2, 1)),
    found_of(a=(7, 3, 1)),
    found_of(a=(7, 2, 3)),
    found_of(drift=(1, 2, 4)),
    found_of(saved=(("k", 5),)),
    found_of(saved=(("j", 4),)),
    found_of(b=(0, 1, 2)),
    found_of(b=None),
    found_of(d=(0, 1, 0)),
    Found({"b": (0, 1, 3), "a": (7, 2, 1)}),
    Found({}),
]


@pytest.mark.parametrize("line, found, reply", ONE)
def test_one_command_was_done_or_not_or_nobody_can_tell(line: str, found: Found, reply: str) -> None:
    command = (line, BODY if "LOAD" in line else b"")
    assert decide(START, [command], found).replies == [reply.encode()]
    assert decide(START, [command], found_of()).replies == []
    for other in WRONG:
        with pytest.raises(errors.Undecided) as caught:
            decide(START, [command], other)
        assert caught.value.command == line and caught.value.states


@pytest.mark.parametrize(
    "line", ["MEASURE a", "SHOW a 0", "DUMP a", "LIST", "LIST a", "ADVANCE a 0", "TUG a 0 0 0 0", "FORGET a n", "WHAT"]
)
def test_what_changes_nothing_is_asked_again_unless_the_sessions_were_changed(line: str) -> None:
    assert decide(START, [(line, b"")], found_of()).replies == []
    for other in WRONG:
        with pytest.raises(errors.Undecided):
            decide(START, [(line, b"")], other)


@pytest.mark.parametrize(
    "lines, count",
    [
        (["ADVANCE a 1", "ADVANCE a 1", "REVERSE a"], 3),  # at step 8 both before and after the turn, by which the drift is another
        (["ADVANCE a 1", "REVERSE a", "ADVANCE a 1", "REVERSE a"], 3),  # back at step 7 with the drift of the start
        (["REVERSE a", "REVERSE a"], 1),
        (["TUG a 0 1 0 0", "TUG a 1 1 0 0", "TUG a 0 -2 0 0", "SHOW a 0"], 2),
        (["SHOW a 0", "SHOW a 1", "TUG a 0 1 0 0"], 2),
        (["ADVANCE a 1", "SHOW a 0", "LIST", "SHOW a 1"], 4),
        (["ADVANCE a 1", "RESTORE a k"], 1),
        (["RESTORE a k", "FORGET a k", "ADVANCE a 1"], 3),
        (["BRANCH a n", "ADVANCE a 1"], 1),
        (["ADVANCE b 1", "ADVANCE b 1"], 1),
        (["ADVANCE a 1", "ADVANCE b 1", "SHOW a 0"], 2),
        (["ADVANCE a 1", "TUG b 0 1 1 1"], 1),
        (["ADVANCE c 1", "WHAT", "ADVANCE a 1"], 2),
        (["DROP a", "LOAD a 256 1 131072 rest 28"], 1),
        (["TUG a 0 1 0 0"] * 300, 256),
    ],
)
def test_a_batch_has_no_two_prefixes_that_nobody_could_tell_apart(lines: List[str], count: int) -> None:
    assert batch_of(START, lines) == count


@pytest.mark.parametrize(
    "line, wanted",
    [
        ("TUG b 0 1 0 0", "MEASURE b"),
        ("TUG b 0 0 0 0", None),
        ("TUG a 0 1 0 0", None),
        ("FORGET b k", "LIST b"),
        ("FORGET a k", None),
        ("ADVANCE b 1", None),
        ("BRANCH c k", None),
        ("WHAT", None),
    ],
)
def test_what_has_to_be_known_before(line: str, wanted: Any) -> None:
    assert lacking(START, line) == wanted


def told(user: Any, line: str, body: bytes = b"") -> Answer:
    """The answer of the reference."""
    (reply,) = reference.replies_to(io.BytesIO(line.encode() + b"\n" + body), user)
    first, *rest = reply[:-1].split(b"\n")
    return Answer(line.encode(), body, first, rest)


def texts(answer: Answer) -> List[str]:
    return [row.decode() for row in answer.rest]


def look(user: Any, sessions: Sessions, commands: Sequence[Tuple[str, bytes]]) -> Found:
    """What a new connection finds at the reference."""
    rows = rows_of(texts(told(user, "LIST")))
    asked = [told(user, line) for line in asked_of(sessions, commands, rows)]
    words = [answer.line.decode().split() for answer in asked]
    saved = {name: saved_of(texts(answer)) for (verb, name), answer in zip(words, asked) if verb == "LIST"}
    drifts = {name: drift_of(answer.first.decode().split()) for (verb, name), answer in zip(words, asked) if verb == "MEASURE"}
    return Found(rows, saved, drifts)


NAMES = strategies.sampled_from(["a", "b", "c"])
SMALL = strategies.integers(-2, 2)
LINES = strategies.one_of(
    strategies.builds("ADVANCE {} {}".format, NAMES, strategies.integers(0, 3)),
    strategies.builds("START {} {}".format, NAMES, strategies.integers(0, 3)),
    strategies.builds("TUG {} {} {} {} {}".format, NAMES, strategies.integers(0, 2), SMALL, SMALL, SMALL),
    strategies.builds("{} {}".format, strategies.sampled_from(["REVERSE", "MEASURE", "DUMP", "LIST", "REVERSE", "DROP"]), NAMES),
    strategies.builds("{} {} {}".format, strategies.sampled_from(["BRANCH", "RESTORE", "FORGET"]), NAMES, strategies.sampled_from("kl")),
    strategies.builds("LOAD {} 8 1 131072 rest 28".format, NAMES),
    strategies.sampled_from(["LIST", "SHOW a 0", "WHAT"]),
)


@settings(max_examples=300, deadline=None)
@given(lines=strategies.lists(LINES, max_size=12), forgets=strategies.booleans())
def test_each_prefix_of_random_commands_is_told(lines: List[str], forgets: bool) -> None:
    user = reference.User((3, 6, 3))
    for line in ("LOAD a 8 1 131072 rest 28", "LOAD b 8 1 131072 rest 28", "TUG a 0 1 0 0", "ADVANCE a 1", "BRANCH a k", "REVERSE b"):
        told(user, line, BODY if line.startswith("LOAD") else b"")
    commands = [(line, BODY if line.startswith("LOAD") else b"") for line in lines]
    sessions = followed(None, told(user, "LIST"))
    while commands:
        assert sessions is not None
        if (own := lacking(sessions, commands[0][0])) is not None:
            sessions = followed(sessions, told(user, own))
            continue
        batch = commands[: batch_of(sessions, [line for line, _ in commands])]
        commands = commands[len(batch) :]
        sessions = after_each_prefix(user, sessions, batch)
        if forgets:
            sessions = followed(None, told(user, "LIST"))


def after_each_prefix(user: Any, sessions: Sessions, batch: List[Tuple[str, bytes]]) -> Any:
    """Does the commands of a batch one by one, and holds that what is found then tells how many were done, and their replies. A
    RESTORE may be told as not done, and reads are: they tell the same once more."""
    answers: List[Answer] = []
    for count in range(len(batch) + 1):
        found = look(copy.deepcopy(user), sessions, batch)
        replies = decide(sessions, batch, found).replies
        assert replies == [answer.first for answer in answers[: len(replies)]]
        again = copy.deepcopy(user)
        for (line, body), answer in zip(batch[len(replies) :], answers[len(replies) :]):
            assert line.startswith("RESTORE") or after(sessions, line, body)[0] is sessions or is_unchanged(user, again, line, body)
            assert told(again, line, body) == answer
        assert state(again) == state(user)
        if count < len(batch):
            answers.append(told(user, *batch[count]))
    for answer in answers:
        sessions = followed(sessions, answer) or {}
    return sessions


def state(user: Any) -> Any:
    return [(name, each.sim, each.saved) for name, each in user.sessions.items()]


def is_unchanged(user: Any, other: Any, line: str, body: bytes) -> bool:
    """Whether a command changes nothing there."""
    before = state(other)
    told(copy.deepcopy(other), line, body)
    return bool(before == state(user))
