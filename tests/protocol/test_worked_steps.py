"""Steps whose replies were worked out by hand, each told at once and in a schedule that counts tiles; and the reference beside them."""
from itertools import repeat
from typing import Dict, List, Sequence, Tuple

import pytest
from reference import ENERGIES, PUSHES
from shared.playing import must_end_well
from shared.program import Program
from shared.talks import EDGE, Exchange, Talk, lines_that_run, load_line, one_by_one, schedule_of, tiles_of, told_to_a
from shared.texts import must_be

# An item, its reply, and how many tiles its step has, if it has one.
Row = Tuple[str, str, int]

# Of a command that opens no step, or of which the tiles are not told.
NONE = -1

# More tasks than a step of these has.
ROUNDS = 8


def load(scale_words: str, mode: str, *frames: Sequence[str]) -> Row:
    """A LOAD of these frames, of which each line is coordinates."""
    texts = (f"{len(frame)}\nframe\n" + "".join(f"X {line}\n" for line in frame) for frame in frames)
    return load_line("a", scale_words, mode, "".join(texts)), f"OK LOAD a 0 {len(frames[0])}", NONE


def rows(text: str) -> Sequence[Row]:
    """A command, `=`, what follows its first two words in the reply, and after `|` the tiles of its step."""
    found = []
    for line in filter(None, map(str.strip, text.splitlines())):
        command, _, rest = line.partition(" = ")
        reply, _, tiles = rest.partition(" | ")
        found.append((command + "\n", f"OK {' '.join(command.split()[:2])} {reply}", int(tiles) if tiles else NONE))
    return found


DIMER = load("256 1 131072", "rest", ["0 0 0", "1.5 0 0"])
SMALLER_UNITS = f"{EDGE} 0.016777216"

# Atoms out of reach of each other and of the edges of the box, 8 sigma apart.
SPARE = [f"{8 * (i % 16)} {8 * (i // 16) + 32} 128" for i in range(127)]


def in_two_blocks(first: float, second: float, energy: int, places: Tuple[int, int]) -> Sequence[Row]:
    """A step of two atoms on the axis of x, with their energy before it and their places after it: the last atom of the second
    block, and the one atom of the third one."""
    return [
        load("256 1 131072", "rest", [*SPARE, f"{first} 0 0", f"{second} 0 0"]),
        *rows(
            f"""
            MEASURE a = 0 129 0 0 0 0 {energy}
            ADVANCE a 1 = 1
            SHOW a 127 = 1 127 {places[0]} 0 0
            SHOW a 128 = 1 128 {places[1]} 0 0
            SHOW a 0 = 1 0 0 536870912 2147483648
            SHOW a 126 = 1 126 1879048192 1476395008 2147483648
            """
        ),
    ]


WORKED: Dict[str, Sequence[Row]] = {
    "two atoms are measured and walked back": [
        DIMER,
        *rows(
            """
            MEASURE a = 0 2 0 0 0 0 -5349132 | 1
            ADVANCE a 1 = 1 | 1
            SHOW a 0 = 1 0 589 0 0
            SHOW a 1 = 1 1 25165235 0 0
            MEASURE a = 1 2 0 0 0 693842 -5399727 | 1
            ADVANCE a 1 = 2 | 1
            SHOW a 0 = 2 0 1774 0 0
            MEASURE a = 2 2 0 0 0 2808450 -5399727 | 1
            REVERSE a = 1
            SHOW a 0 = 1 0 589 0 0
            ADVANCE a 1 = 0 | 1
            SHOW a 0 = 0 0 0 0 0
            ADVANCE a 1 = -1 | 1
            SHOW a 1 = -1 1 25165824 0 0
            MEASURE a = -1 2 0 0 0 0 -5349132 | 1
            """
        ),
    ],
    "a tug shows in the next step, and what is saved takes it back": [
        DIMER,
        *rows(
            """
            ADVANCE a 1 = 1 | 1
            BRANCH a k = k 1
            TUG a 0 5 0 0 = 0 1
            MEASURE a = 1 2 5 0 0 699757 -5399727 | 1
            ADVANCE a 1 = 2 | 1
            SHOW a 0 = 2 0 1779 0 0
            RESTORE a k = k 1
            ADVANCE a 1 = 2 | 1
            SHOW a 0 = 2 0 1774 0 0
            """
        ),
    ],
    "a tug of atoms at rest": [
        DIMER,
        *rows("TUG a 0 5 0 0 = 0 0\nADVANCE a 1 = 1 | 1\nSHOW a 0 = 1 0 594 0 0\nSHOW a 1 = 1 1 25165235 0 0"),
    ],
    "two atoms at one place stay, and have the energy of the closest bin": [
        load("256 1 131072", "rest", ["1 1 1", "1 1 1"]),
        *rows(
            """
            ADVANCE a 1 = 1 | 1
            ADVANCE a 1 = 2 | 1
            ADVANCE a 1 = 3 | 1
            SHOW a 0 = 3 0 16777216 16777216 16777216
            SHOW a 1 = 3 1 16777216 16777216 16777216
            MEASURE a = 3 2 0 0 0 0 3574550947 | 1
            """
        ),
    ],
    # 5 units on from 6 and 1 below the end of the box. The steps have no tiles.
    "the way of one atom goes round the box": [
        load(f"{SMALLER_UNITS} 1", "pair", ["4.29496729 0 0"], ["4.294967295 0 0"]),
        *rows(
            """
            SHOW a 0 = 0 0 4294967295 0 0
            ADVANCE a 1 = 1 | 0
            SHOW a 0 = 1 0 4 0 0
            MEASURE a = 1 1 5 0 0 25 0 | 0
            """
        ),
    ],
    # Half a box of five sigma is the cutoff, and out of reach.
    "atoms half the box apart do not interact": [
        load("5 1 131072", "rest", ["0 0 0", "2.5 0 0"]),
        *rows("ADVANCE a 1 = 1 | 1\nSHOW a 1 = 1 1 2147483648 0 0\nMEASURE a = 1 2 0 0 0 0 0 | 1"),
    ],
    "sigma does not fit in a box of less than five of it": [(load("4.99 1 131072", "rest", ["0 0 0", "2.5 0 0"])[0], "ERR 37 SIGMA", NONE)],
    "one atom in each of two blocks": in_two_blocks(0, 1.5, energy=-5349132, places=(589, 25165235)),
    "the same, the later atom before the earlier one": in_two_blocks(1.5, 0, energy=-5349132, places=(25165235, 589)),
    "atoms of two blocks at one place": in_two_blocks(0, 0, energy=3574550947, places=(0, 0)),
    "names": [
        (DIMER[0].replace("LOAD a", "LOAD dimer_1"), "OK LOAD dimer_1 0 2", NONE),
        (DIMER[0].replace("LOAD a", "LOAD sixteen_letters_"), "OK LOAD sixteen_letters_ 0 2", NONE),
        (DIMER[0].replace("LOAD a", "LOAD seventeen_letters"), "ERR 03 SYNTAX", NONE),
        (DIMER[0].replace("LOAD a", "LOAD a b"), "ERR 03 SYNTAX", NONE),
        (DIMER[0].replace("LOAD a", "LOAD "), "ERR 03 SYNTAX", NONE),
        ("LIST\n", "OK LIST 2\ndimer_1 0 2 0\nsixteen_letters_ 0 2 0", NONE),
    ],
}


@pytest.mark.parametrize("name", WORKED)
def test_worked_steps(program: Program, name: str) -> None:
    known = WORKED[name]
    replies = "".join(f"{reply}\n" for _, reply, _ in known)
    assert program.run(["run"], "".join(item for item, _, _ in known).encode()) == (0, replies.encode(), b"")


@pytest.mark.parametrize("name", WORKED)
def test_worked_steps_in_a_schedule(program: Program, name: str) -> None:
    known = WORKED[name]
    exchanges = [Exchange(item, f"{reply}\n", opens_step(item)) for item, reply, _ in known]
    status, printed, err = program.replay_of(schedule_of(exchanges, repeat(one_by_one(ROUNDS))))
    found, told = tiles_of(printed.decode(), lines_that_run(exchanges), ROUNDS)
    must_end_well(status, err)
    must_be(told.encode(), told_to_a("".join(each.reply for each in exchanges)).encode())
    wanted = [tiles for item, _, tiles in known if opens_step(item)]
    assert len(wanted) == len(found) and all(tiles in (NONE, seen) for tiles, seen in zip(wanted, found)), (found, wanted)


def opens_step(item: str) -> bool:
    return item.startswith(("ADVANCE", "MEASURE"))


# Bins, with the push and the energy of each: 288 is that of 1.5 sigma.
ENTRIES = {
    0: (91369185901, 3574550947),
    64: (91369185901, 3574550947),
    287: (-13028153, -5399727),
    288: (-12876994, -5349132),
    799: (-262372, -274263),
}


@pytest.mark.parametrize("number", ENTRIES)
def test_entries_of_the_reference(number: int) -> None:
    assert (PUSHES[number], ENERGIES[number]) == ENTRIES[number]


def numbers_of(talk: Talk) -> Tuple[List[Tuple[int, ...]], List[int]]:
    """The places, and the momentum, the kinetic and the potential energy."""
    return list(talk.session.sim.cur), [int(word) for word in talk.session.measure().split()[2:]]


def test_two_atoms_of_the_reference() -> None:
    talk = Talk(DIMER[0])
    assert numbers_of(talk) == ([(0, 0, 0), (25165824, 0, 0)], [0, 0, 0, 0, -5349132])
    talk.advance(1)
    assert numbers_of(talk) == ([(589, 0, 0), (25165235, 0, 0)], [0, 0, 0, 693842, -5399727])
    talk.advance(1)
    assert numbers_of(talk) == ([(1774, 0, 0), (25164050, 0, 0)], [0, 0, 0, 2808450, -5399727])


@pytest.mark.parametrize("strength, weight, energy, moved", [(131_072, 1, -20895, 589), (262_144, 512, -10698264, 1178)])
def test_two_species_of_the_reference(strength: int, weight: int, energy: int, moved: int) -> None:
    talk = Talk(
        load_line("a", f"256 X Y 1 131072 256 1 {strength} {weight} 1 131072 256", "rest", "2\nmix\nX 0 0 0\nY 1.5 0 0\n", "LOADMIX")
    )
    assert numbers_of(talk) == ([(0, 0, 0), (25165824, 0, 0)], [0, 0, 0, 0, energy])
    talk.advance(1)
    assert numbers_of(talk)[0] == [(moved, 0, 0), (25165824 - moved, 0, 0)]
