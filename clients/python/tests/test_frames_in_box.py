"""Frames that the server has in the box that shows each ring unit, told in the user's: all atoms at once by numpy, or one by one.

What is expected comes from whole numbers of Python: `place * edge / 2^32`, rounded down to six decimals.
"""
import pathlib
import random
import string
from unittest import mock
from typing import Any, Dict, List

import pytest

from ljclient import BadReply, Order, arrays, connect, decimals, digits, reading, run, units, user as users
from support import EXAMPLES, PROGRAM, RING, SECONDS, TOKEN, listed, peer, present, process_of, says

SCALE: Dict[str, Any] = {"edge": 21.04, "sigma": 3.4, "h": 131072}
KINDS = [arrays.numpy, None] if arrays.numpy else [None]
NANOS = [1, 999, 10**6, 21_040_000_000, RING - 1, RING, RING + 1, RING * 1000 - 1, RING * 1000, RING * 1000 + 1, 10**15 - 1, 10**15]
PLACES = [0, 1, 999, 1000, 2**16, 2**31 - 1, 2**31, RING - 1000, RING - 2, RING - 1]
needs_numpy = pytest.mark.skipif(arrays.numpy is None, reason="numpy is not installed")


def by(kind: Any) -> Any:
    """Has the client read by numpy, or by lists alone."""
    return mock.patch.object(arrays, "numpy", kind)


def told(places: Any, nanos: Any) -> List[Any]:
    """What the server dumps of places, in millionths."""
    return [tuple(part * nanos // (RING * 1000) for part in place) for place in places]


def row(symbol: Any, parts: Any) -> str:
    return " ".join([symbol, *(f"{part // 10**6}.{part % 10**6:06}" for part in parts)])


@pytest.mark.parametrize("kind", KINDS)
def test_millionths_are_exact(kind: Any) -> None:
    drawn = random.Random(11)
    edges = [*NANOS, *(drawn.randrange(1, 10 ** drawn.randint(1, 15)) for _ in range(200)), 2**64 - 1, 2**64, 10**24]
    for nanos in edges:
        parts = [*PLACES, *(drawn.randrange(RING) for _ in range(20))]
        # The least places that are dumped as so many millionths, and those before them.
        parts += [least - below for least in (-(-number * RING * 1000 // nanos) for number in (1, 2, 999)) for below in (0, 1)]
        places = [(part % RING, RING - 1 - part % RING, 0) for part in parts]
        wanted = told(places, nanos)
        with by(kind):
            found = arrays.in_box(arrays.of_places(places), nanos)
            positions = arrays.of_millionths(found)
        assert listed(found) == wanted
        if nanos <= 10**15:
            assert [tuple(map(float, each)) for each in positions] == [tuple(part / 10**6 for part in each) for each in wanted]


def test_no_product_has_more_than_64_bits() -> None:
    # The greatest place and the greatest halves of an edge, and the greatest sum of the two products.
    greatest = RING - 1
    assert greatest * greatest < 2**64
    assert greatest * greatest + (greatest * greatest >> 32) < 2**64


@needs_numpy
@pytest.mark.parametrize("most", [10**6, 10**7, 10**9, 10**12])
def test_lines_of_any_symbols_and_numbers(most: Any) -> None:
    drawn = random.Random(most)
    letters = string.ascii_letters + string.digits + "+-_"
    for count in (1, 2, 300):
        symbols = ["".join(drawn.choices(letters, k=drawn.randint(1, 16))) for _ in range(count)]
        numbers: List[Any] = [[drawn.randrange(10 ** drawn.randint(0, len(str(most)) - 1)) for _ in range(3)] for _ in range(count)]
        numbers[0] = [0, most - 1, most // 10]
        head = f"{count}\nstep 3\n"
        text = head + "".join(row(symbol, [drawn.randrange(RING) for _ in range(3)]) + "\n" for symbol in symbols)
        order = Order(tuple(drawn.sample(range(count), count)))
        for each in (Order(), order):
            rows = digits.rows(text.encode(), len(head), count)
            lines = decimals.lines(text.encode(), present(rows), arrays.of_places(numbers).T, each)
            wanted = each._for_user([row(*pair) for pair in zip(symbols, numbers)])
            assert present(lines).decode() == "".join(line + "\n" for line in wanted)


@needs_numpy
@pytest.mark.parametrize("symbol, number", [("Ar", 10**12), ("x" * 17, 1), ("1.5", 1)])
def test_lines_that_numpy_does_not_write_are_written_one_by_one(symbol: Any, number: Any) -> None:
    head, words = "2\nstep 3\n", ["DUMP", "a", "3", "4"]
    text = (head + f"{symbol} 1.000000 2.000000 3.000000\nKr 4.000000 5.000000 6.000000\n").encode()
    step, places = reading.millionths_of("a", words, text)
    assert (step, listed(places)) == (3, [(10**6, 2 * 10**6, 3 * 10**6), (4 * 10**6, 5 * 10**6, 6 * 10**6)])
    numbers = arrays.of_places([(number, 0, 1), (2, 3, 4)])
    if symbol != "1.5":
        assert decimals.lines(text, present(digits.rows(text, len(head), 2)), numbers.T, Order()) is None
    converted, order = {(2, 3): numbers, (3, 2): numbers.T}, Order((1, 0), step=9, direction=-1)
    frame = reading.frame_with("a", words, text, lambda read: converted[read.shape], order)
    assert frame == reading.Frame.of(6, [row("Kr", (2, 3, 4)), row(symbol, (number, 0, 1))])


@needs_numpy
@pytest.mark.parametrize("line", ["A\tr 1.000000 2.000000 3.000000", "Ar\n1.000000 2.000000 3.000000", "Ar 1.000000 2.000000"])
def test_lines_with_other_words_are_none(line: Any) -> None:
    text = f"2\nstep 3\n{line}\nKr 4.000000 5.000000 6.000000\n".encode()
    assert digits.rows(text, text.index(b"step 3\n") + 7, 2) is None
    with pytest.raises(BadReply):
        reading.millionths_of("a", ["DUMP", "a", "3", "4"], text)


@needs_numpy
def test_whole_numbers_before_points() -> None:
    good = [f"{number}.000001" for number in (0, 9, 10, 99, 100, 1234, 56789, 999999, 1234567)]
    head = "positions\n"
    for first in good:
        text = (head + f"Ar {first} 0.999999 7654321.123456\n").encode()
        read: Any = digits.positions(text, len(head), 1)
        assert read.tolist() == [[float(first), 0.999999, 7654321.123456]]
    for wrong in ("12345678.000000", ".000000", "-1.000000", "1/1.000000", "1:1.000000", "\xb11.000000", "1 1.000000", "+0.000000"):
        for parts in ([wrong, "0.000000", "0.000000"], ["0.000000", "0.000000", wrong]):
            text = (head + f"Ar {' '.join(parts)}\n").encode("latin-1")
            assert digits.positions(text, len(head), 1) is None, wrong
    # A blank too many in one line, and one that is missing in the other.
    text = (head + "A B 1.000000 2.000000 3.000000\nC1.000000 2.000000 3.000000\n").encode()
    assert digits.positions(text, len(head), 2) is None
    text = (head + "C1.000000 2.000000 3.000000\nA B 1.000000 2.000000 3.000000\n").encode()
    assert digits.positions(text, len(head), 2) is None


def from_a_file(user: Any, folder: Any) -> Any:
    session = user.load("a", EXAMPLES / "argon_256.xyz", **SCALE)
    session.advance(300)
    session.save(folder / "saved")
    return user.load_saved(folder / "saved", replace=True)


def in_space(user: Any, folder: Any) -> Any:
    session = user.load("a", EXAMPLES / "argon_256.xyz", order="space", **SCALE)
    session.advance(300)
    return session


def in_a_new_program(user: Any, folder: Any) -> Any:
    session = user.load("a", EXAMPLES / "argon_256.xyz", **SCALE)
    session.advance(300)
    pid = process_of(user)
    with mock.patch.object(users, "MAX_ITEMS", 20_000):
        user._wire.asked = 10_000
        session.measure()
    assert process_of(user) != pid
    return session


@pytest.mark.parametrize("kind", KINDS)
@pytest.mark.parametrize("way", [from_a_file, in_space, in_a_new_program])
def test_each_way_tells_what_the_server_would_dump(tmp_path: pathlib.Path, kind: Any, way: Any) -> None:
    with run(PROGRAM) as user, by(kind):
        session = way(user, tmp_path)
        assert session.order.on_ring
        places = session.order._for_user([tuple(map(int, user.ask(f"SHOW a {atom}").words[4:])) for atom in range(256)])
        wanted = told(places, 21_040_000_000)
        rows = [row("Ar", parts) for parts in wanted]
        assert session.dump() == "\n".join(["256", "step 300", *rows, ""])
        assert session.dump({"Ar": "X"}) == session.dump().replace("Ar", "X")
        steps, frames = session.sample(every=1, frames=1)
        assert steps == [300]
        assert [tuple(map(float, each)) for each in frames[0]] == [tuple(part / 10**6 for part in each) for each in wanted]
        assert isinstance(frames, list) == (kind is None)
        session.write_trajectory(tmp_path / "way.xyz", every=1, frames=1)
        lines = (tmp_path / "way.xyz").read_text().splitlines()[2:]
        assert [" ".join(line.split()[:4]) for line in lines] == rows
        assert listed(session.places()) == places


def dumped(session: Any) -> Any:
    return session.dump()


def sampled(session: Any) -> Any:
    return session.sample(every=1, frames=1)


@pytest.mark.parametrize("kind", KINDS)
def test_a_peer_that_dumps_no_such_frame(kind: Any) -> None:
    for line, fault in [
        (b"Ar 4294.967296 0.000000 0.000000", "a place of a frame must be below the edge of the box"),
        (b"Ar 0.000000 0.000000", "is not an atom of a frame"),
        (b"\xb2r 0.000000 0.000000 0.000000", "is not (text of the protocol|an atom of a frame)"),
    ]:
        for ask in (dumped, sampled):
            if line.startswith(b"\xb2") and "dump" not in ask.__code__.co_names:
                continue
            reply = b"OK DUMP a 7 3\n1\nstep 7\n" + line + b"\n"
            with peer(says(reply)) as port, connect("127.0.0.1", port, "ann", TOKEN, timeout=SECONDS) as user, by(kind):
                with mock.patch.multiple(user, ask=mock.DEFAULT, _row=mock.DEFAULT), mock.patch("ljclient.user.take_up"):
                    session = user.session("a", **SCALE)
                known = user._known_of("a")
                known.scale = units.Scale.of(21.04, 3.4, 131072)
                known.set_box(True)
                session._given = known.scale
                with pytest.raises(BadReply, match=fault):
                    ask(session)
                user._wire.close()
