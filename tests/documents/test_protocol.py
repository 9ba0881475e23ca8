"""What docs/PROTOCOL.md says of the numbers of replies, of a step and of HELLO, by arithmetic, by the reference and by a server."""
import math
import re
import socket
import subprocess
import sys
import threading
from fractions import Fraction
from typing import Any

import pytest
from blocks import TOP
from support import PROGRAM, SECONDS, TOKEN, Server, present

sys.path.insert(0, str(TOP / "conformance"))
import reference  # noqa: E402

PROTOCOL = (TOP / "docs" / "PROTOCOL.md").read_text()
PAIRS = 4096 * 4095 // 2
LEAST, GREATEST = min(reference.ENERGIES), max(reference.ENERGIES)


def section(title: Any) -> Any:
    return PROTOCOL.split(f"\n## {title}\n")[1].split("\n## ")[0]


def rows(title: Any, cells: Any) -> Any:
    """The rows of a table with so many cells, without its head."""
    found = [line.strip("| ").split(" | ") for line in section(title).splitlines() if line.startswith("| ")]
    return [row for row in found if len(row) == cells][1:]


def value(text: Any) -> Any:
    """A number such as `3 * 2^74`."""
    assert re.fullmatch(r"[-\d *^]+", text)
    return eval(text.replace("^", "**"))


RANGES = {name: (value(least), value(most), int(bits)) for name, _, least, most, bits in rows("Numbers of replies", 5)}


def quotient(formula: Any, **numbers: Any) -> Any:
    """What a formula of the document gives for these numbers, as a fraction."""
    powers = formula.replace("^", "**").replace("²", "**2").replace("³", "**3")
    return eval(powers, {name: Fraction(number) for name, number in numbers.items()})


def weighted(energy: Any) -> Any:
    return reference.int_div(energy * 65536, 256)


@pytest.mark.parametrize("least, most, bits", RANGES.values(), ids=RANGES)
def test_the_bits_hold_the_range_and_are_no_more(least: Any, most: Any, bits: Any) -> None:
    needed = most.bit_length() if least >= 0 else 1 + max((-least - 1).bit_length(), most.bit_length())
    assert bits == needed


@pytest.mark.parametrize(
    "name, least, most",
    [
        ("step, target", -(10**12), 10**12),
        ("coordinate in ring units", 0, reference.RING - 1),
        ("momentum, for each axis", 4096 * reference.image(0, 2**31), 4096 * reference.image(2**31 - 1, 0)),
        ("kinetic number", 0, 4096 * 3 * reference.image(0, 2**31) ** 2),
        ("potential after LOAD", PAIRS * LEAST, PAIRS * GREATEST),
        ("potential after LOADMIX", PAIRS * weighted(LEAST), PAIRS * weighted(GREATEST)),
        ("number of lines", 1 + 2, 4096 + 2),
    ],
)
def test_a_range_is_that_of_the_reference(name: Any, least: Any, most: Any) -> None:
    assert RANGES[name][:2] == (least, most)


def test_the_last_line_of_a_body() -> None:
    lines = reference.lines_of(b"\n" * 2**20)
    with pytest.raises(reference.Refused, match=f"^30 XYZ_COUNT line {RANGES['line L of a body'][1]}$"):
        reference.frame_at(lines, 0, [])


def test_the_greatest_coordinate() -> None:
    """That of the last place in the greatest box, an edge of 10^15 billionths."""
    micro = (reference.RING - 1) * 10**15 // (reference.RING * 1000)
    assert f"`{micro // 10**6}.{micro % 10**6:06}`" in section("Numbers of replies")


def test_two_atoms_pass_64_bits() -> None:
    """The reference measures what the block shows, which the program is asked for too."""
    sim = reference.Simulation([(2**31,) * 3, (25165824 + 2**31, 2**31, 2**31)], [(0, 0, 0), (25165824, 0, 0)])
    atoms = reference.Composition([reference.Class(2**24, 131072, 256)], [0, 0])
    user = reference.User((8, 16384, 16))
    measured = reference.Session(user, "a", 256 * 10**9, ["Ar", "Ar"], atoms, sim).measure()
    assert f"OK MEASURE a {measured}\n" in section("Numbers of replies")
    assert int(measured.split()[-2]) == 2 * 3 * 2**62 > 2**64


def test_the_longest_line() -> None:
    """Each number is written with the most bytes that its range allows, a name and a symbol with 16."""
    most = {name: max(map(str, numbers[:2]), key=len) for name, numbers in RANGES.items()}
    name, step, atoms, momentum = "n" * 16, most["step, target"], most["number of atoms"], most["momentum, for each axis"]
    measured = [step, atoms, momentum, momentum, momentum, most["kinetic number"], most["potential after LOADMIX"]]
    lines = [
        ["OK MEASURE", name, *measured],
        ["OK SHOW", name, step, most["index of an atom"], *[most["coordinate in ring units"]] * 3],
        ["OK RESTORE", name, name, step],
        [name, step, atoms, most["number of branches"]],
        [name, *["999999.999767"] * 3],
        ["ERR 39 XYZ_SPECIES line", most["line L of a body"]],
    ]
    longest = max(len(" ".join(words)) for words in lines)
    assert f"more than {longest} bytes before its LF" in section("For writers of clients")


def test_the_formulas_of_a_step() -> None:
    codes = re.findall(r"`([^`]+)`", section("A step in half a page"))
    (pushes,) = [code[4:] for code in codes if code.startswith("W = ")]
    (energies,) = [code[4:] for code in codes if code.startswith("V = ")]
    (bins,) = [code[10:-1] for code in codes if code.startswith("k = floor(")]
    for k, n in enumerate(reference.CENTRES):
        assert n == (2 * k + 1 if k >= 64 else 129)
        assert int(quotient(pushes, n=n)) == reference.PUSHES[k]
        assert int(quotient(energies, n=n)) == reference.ENERGIES[k]
    assert math.floor(quotient(bins, x=25165824, y=0, z=0, S=2**24)) == 288
    assert "floor(q * 2^32 / E) mod 2^32" in codes
    for q, place in [(1500000000, 25165824), (-1, 2**32 - 1), (256 * 10**9, 0)]:
        assert math.floor(quotient("q * 2^32 / E", q=q, E=256 * 10**9)) % 2**32 == place
        assert reference.units_of(256 * 10**9, q) % reference.RING == place
    greatest = max(abs(push) for push in reference.PUSHES) * 2**24 * 2**31
    assert f"up to {greatest.bit_length()} bits" in section("A step in half a page")


def test_the_pair_that_is_worked_by_hand() -> None:
    atoms = reference.Composition([reference.Class(2**24, 2**17, 256)], [0, 0])
    frame = [(0, 0, 0), (25165824, 0, 0)]
    sim = reference.Simulation(list(frame), list(frame))
    worked = rows("A step in half a page", 8)
    assert len(worked) == 2
    for step, zero, one, image, k, entry, push, following in worked:
        assert [sim.step, *(place[0] for place in sim.cur)] == [int(step), int(zero), int(one)]
        ((_, _, images, _, found),) = reference.pairs_in_reach(atoms, sim.cur)
        assert (-images[0], found, reference.PUSHES[found]) == (int(image), int(k), int(entry))
        assert reference.forces(atoms, sim.cur)[0] == [int(push), 0, 0]
        before, sim = sim.prev[0][0], reference.stepped(atoms, sim)
        assert following == f"2 * {zero} - {before} + {push} = {sim.cur[0][0]}"
    assert [int(row[6]) for row in worked] == [589, 596]


@pytest.mark.parametrize(
    "sent, reply",
    [
        ("HELLO ann TOKEN\n", "OK HELLO ann\n"),
        ("  HELLO\tann  TOKEN \r\n", "OK HELLO ann\n"),
        (f"HELLO ann TOKEN{' ' * 256}\n", "ERR 01 DENIED\n"),
        ("HELLO ann\n", "ERR 01 DENIED\n"),
        ("\nHELLO ann TOKEN\n", "ERR 01 DENIED\n"),
        ("LIST\n", "ERR 01 DENIED\n"),
        ("HELLO ann TOKEN", ""),
    ],
)
def test_the_first_line_of_a_connection(sent: Any, reply: Any) -> None:
    with Server() as server, socket.create_connection(("127.0.0.1", server.port), SECONDS) as connection:
        connection.sendall(sent.replace("TOKEN", TOKEN).encode())
        connection.shutdown(socket.SHUT_WR)
        assert connection.makefile().read() == reply


def test_a_client_that_writes_without_reading() -> None:
    """It cannot write all, however long it waits, since the replies fill every buffer on the way. Once they are read all come."""
    commands = b"LIST\n" * 200_000
    with subprocess.Popen([PROGRAM, "run"], stdin=subprocess.PIPE, stdout=subprocess.PIPE) as child:
        source, sink = present(child.stdin), present(child.stdout)

        def write() -> None:
            source.write(commands)
            source.close()

        writer = threading.Thread(target=write)
        writer.start()
        writer.join(0.5)
        assert writer.is_alive()
        assert sink.read() == b"OK LIST 0\n" * 200_000
        writer.join(SECONDS)
        assert not writer.is_alive()
