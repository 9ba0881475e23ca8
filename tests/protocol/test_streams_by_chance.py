"""Streams by chance, whose replies are the reference's. Of one that is replied otherwise the shortest is shown that is found."""
from io import BytesIO
from typing import List, Tuple

import reference
from hypothesis import HealthCheck, given, settings
from hypothesis import strategies as st
from shared.program import Program
from shared.texts import must_be

# The sessions, atoms and branches that the user may have.
QUOTA = (2, 24, 2)

Coordinates = Tuple[int, int, int]

sessions = st.sampled_from(["a", "b", "c_-9"])
branches = st.sampled_from(["k", "l"])
# Thousandths in a box of 16: all of it, and a corner in which atoms are close.
coordinates = st.one_of(st.integers(0, 16_000), st.integers(0, 2_500))
atoms = st.lists(st.tuples(coordinates, coordinates, coordinates), min_size=1, max_size=12)
# Sigma, the step factor and the weight of a class.
classes = st.tuples(
    st.sampled_from(["1", "0.5", "9"]), st.sampled_from(["1", "131072", "16777216"]), st.sampled_from(["1", "256", "65536"])
)


def body_of(frame: List[Coordinates], symbols: str, frames: int) -> str:
    """So many frames of atoms of these species by turns; the second one is another order of the first."""
    rows = [" ".join([symbols[number % len(symbols)], *(f"{part / 1000:.3f}" for part in place)]) for number, place in enumerate(frame)]
    return "".join(f"{len(rows)}\nframe\n" + "".join(f"{row}\n" for row in each) for each in (rows, rows[::-1])[:frames])


def load_of(name: str, frame: List[Coordinates], numbers: Tuple[str, str, str], frames: int) -> str:
    body = body_of(frame, "X", frames)
    return f"LOAD {name} 16 {numbers[0]} {numbers[1]} {('rest', 'pair')[frames - 1]} {len(body)}\n{body}"


def mixture_of(name: str, frame: List[Coordinates], numbers: List[Tuple[str, str, str]], symbols: str, frames: int) -> str:
    body = body_of(frame, symbols, frames)
    words = " ".join(" ".join(each) for each in numbers)
    return f"LOADMIX {name} 16 X Y {words} {('rest', 'pair')[frames - 1]} {len(body)}\n{body}"


frames = st.integers(1, 2)
items = st.one_of(
    st.builds(load_of, sessions, atoms, classes, frames),
    st.builds(mixture_of, sessions, atoms, st.lists(classes, min_size=3, max_size=3), st.sampled_from(["XY", "XYY", "XYZ"]), frames),
    st.builds("{} {} {}\n".format, st.sampled_from(["ADVANCE", "START"]), sessions, st.integers(0, 5)),
    st.builds("TUG {} {} {} -7 0\n".format, sessions, st.integers(0, 12), st.integers(-99_999, 10**9)),
    st.builds("SHOW {} {}\n".format, sessions, st.integers(0, 12)),
    st.builds("{} {}\n".format, st.sampled_from(["REVERSE", "MEASURE", "LIST", "DUMP", "DROP"]), sessions),
    st.builds("{} {} {}\n".format, st.sampled_from(["BRANCH", "RESTORE", "FORGET"]), sessions, branches),
    st.sampled_from(["LIST\n", "\n", " \t\r\n", "ADVANCE a\n", "advance a 1\n", "x" * 300 + "\n", "TUG a 0 0 0 --1\n", "MEASURE a b\n"]),
)


@settings(max_examples=200, derandomize=True, deadline=None, database=None, suppress_health_check=list(HealthCheck))
@given(st.lists(items, max_size=30))
def test_streams_are_replied_as_by_the_reference(program: Program, stream: List[str]) -> None:
    data = "".join(stream).encode()
    wanted = b"".join(reference.replies_to(BytesIO(data), reference.User(QUOTA)))
    must_be(program.replies_alone(data, QUOTA), wanted)
