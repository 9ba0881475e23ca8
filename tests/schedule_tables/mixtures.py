"""Schedules of mixtures in short, and what a replay of each prints."""
from typing import Tuple

from schedule_tables.runs import ONE_STEP, ONE_TASK, THE_STEP_AGAIN, TWO_USERS, WIDE, Run

# Classes: the usual one, one whose pushes are too small for a step of 1.5 sigma, and one of the least weight.
ALIKE, SLOW, LIGHT = "1 131072 256", "1 1 256", "1 131072 1"
PURE = "LOAD a 256 1 131072 rest 28 (DIMER)"
STEP, MEASURE = "ADVANCE a 1", "MEASURE a"

# What is told of a step, and of two measures whose energies are those of the weights 256 and 1.
STEPPED = ("OK ADVANCE a 1", "OK ADVANCE a 1")
MEASURED = ("OK MEASURE a 0 2 0 0 0 0 -5349132", "OK MEASURE a 0 2 0 0 0 0 -20895")


def mixing(between: str, body: str = "(MIX)") -> str:
    """A LOADMIX of two atoms, with the words of the class of one atom of each species."""
    return f"LOADMIX a 256 Na Cl {ALIKE} {between} {ALIKE} rest 26 {body}"


def loaded_again(name: str, item: str, loads: Tuple[str, str], told: Tuple[str, str], shown: str) -> Run:
    """What worker 1 kept of an item comes late, for the same item of a session that is loaded again under its name."""
    first, again = loads
    parts = (
        (ONE_STEP.replace(PURE, first).replace(STEP, item), 1),
        (f"arrive 1 DROP a; arrive 1 {again}", 1),
        (THE_STEP_AGAIN.replace(STEP, item), 1),
    )
    lines = [loaded(first), told[0], "OK DROP a", loaded(again), told[1], f"OK SHOW a {shown}"]
    return Run(f"a result of {name}", WIDE, parts, "".join(f"A 1 {line}\n" for line in lines))


def loaded(load: str) -> str:
    return f"OK {load.split()[0]} a 0 2"


# A result is that of its task alone: of atoms at these places, of these species, with these three classes.
KEPT = (
    loaded_again("equal mixtures", STEP, (mixing(ALIKE), mixing(ALIKE)), STEPPED, "1 0 589 0 0"),
    loaded_again("mixtures of other species", STEP, (mixing(SLOW, "(SODIUM)"), mixing(SLOW)), STEPPED, "1 0 0 0 0"),
    loaded_again("mixtures of another step factor", STEP, (mixing(ALIKE), mixing(SLOW)), STEPPED, "1 0 0 0 0"),
    loaded_again("mixtures of another sigma", STEP, (mixing(ALIKE), mixing("0.5 131072 256")), STEPPED, "1 0 0 0 0"),
    loaded_again("a mixture after atoms of one species", STEP, (PURE, mixing(SLOW)), STEPPED, "1 0 0 0 0"),
    loaded_again("atoms of one species after a mixture", STEP, (mixing(SLOW), PURE), STEPPED, "1 0 589 0 0"),
    loaded_again("mixtures of another weight", MEASURE, (mixing(ALIKE), mixing(LIGHT)), MEASURED, "0 0 0 0 0"),
    loaded_again("other species", MEASURE, (mixing(LIGHT, "(SODIUM)"), mixing(LIGHT)), MEASURED, "0 0 0 0 0"),
    loaded_again("one species of the usual weight", MEASURE, (PURE, mixing(LIGHT)), MEASURED, "0 0 0 0 0"),
)

# A mixture arrives at one user, whose energy and step are told; the bodies of others are lost to the other user.
LOSSES = Run(
    "lost bodies of mixtures are told to their user alone",
    TWO_USERS,
    (
        (
            f"""hello 1 A; hello 2 B; enter 1; enter 2; arrive 1 {mixing(LIGHT)};
            lost 2 {mixing(LIGHT, "")}; lost 2 {mixing("1 131072 0", "")};
            lost 2 LOADMIX m 4.99 Na Cl 1 1 0 1 1 1 1 1 1 rest 26; lost 2 LOADMIX m 256 Na Na 1 1 1 1 1 1 1 1 1 rest 26;
            arrive 2 LIST; arrive 1 MEASURE a; arrive 1 ADVANCE a 1; arrive 1 SHOW a 1; next 2; next 1; next 2; next 1;
            {ONE_TASK}; next 2; turn 1; next 1; next 2; {ONE_TASK}; turn 1; next 2; next 1""",
            1,
        ),
    ),
    "B 2 ERR 90 MEMORY\nA 1 OK LOADMIX a 0 2\nB 2 ERR 40 WEIGHT\nB 2 ERR 37 SIGMA\n"
    "A 1 OK MEASURE a 0 2 0 0 0 0 -20895\nB 2 ERR 03 SYNTAX\nA 1 OK ADVANCE a 1\nB 2 OK LIST 0\n"
    "A 1 OK SHOW a 1 1 25165235 0 0\n",
)

RUNS = (*KEPT, LOSSES)
