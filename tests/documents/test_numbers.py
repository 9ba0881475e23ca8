"""The numbers that the README works out, by arithmetic of its own, and those that it takes from docs/ACCURACY.md."""
import re
from fractions import Fraction
from typing import Any

from blocks import TOP

README = (TOP / "README.md").read_text()
SIGMA = 2**24  # of the two atoms, in ring units
H = 131072


def force(square: Any) -> Any:
    """The Lennard-Jones force over the distance, at a squared distance in squares of sigma."""
    u = 1 / Fraction(square)
    return 24 * (2 * u**7 - u**4)


def test_the_pair_that_is_worked_out() -> None:
    worked = re.findall(r"in? bin (\d+).*?`(\d+) \* ([\d.]+) / 2\^(\d+)` is (\d+)", README)
    assert [int(bin) for bin, *_ in worked] == [288, 287]
    distances = [Fraction(3, 2), Fraction(3 * SIGMA // 2 - 2 * 589, SIGMA)]
    for (bin, entry, factor, power, push), distance in zip(worked, distances):
        assert int(128 * distance**2) == int(bin)
        assert int(force(Fraction(2 * int(bin) + 1, 256)) * 2**24) == -int(entry)
        assert int(entry) * Fraction(factor) / 2 ** int(power) == int(entry) * H * distance * SIGMA / 2**56
        assert int(int(entry) * Fraction(factor) / 2 ** int(power)) == int(push)
        assert round(-force(distance**2) * H * distance * SIGMA / 2**32) == 593
    assert "both pushes would be 593" in README


def test_the_energies_are_those_of_accuracy() -> None:
    measured = (TOP / "docs" / "ACCURACY.md").read_text()
    (head,) = re.findall(r"^\| h \| Time step \| For argon \| (.*) steps \| T \| Blew up \|$", measured, re.M)
    columns = head.split(" steps | ")
    told = re.findall(r"([\d.]+)(?: epsilon per atom)? in ([\d,]+) steps at h = (\d+)", README)
    assert [h for _, _, h in told] == ["4295", "131072"]
    for gained, steps, h in told:
        (row,) = re.findall(rf"^\| {h} \| [\d.]+ \| [\d.]+ fs \| (.*) \|$", measured, re.M)
        assert row.split(" | ")[columns.index(steps.replace(",", ""))] == f"+{gained}"
