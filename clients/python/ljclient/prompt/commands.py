"""The commands of the protocol as one table, from which help, completion and explanations are made."""
from __future__ import annotations

from dataclasses import dataclass
from typing import Dict, List, Optional, Tuple

XYZ_FAULTS = (30, 31, 32, 33, 34, 35)
MODES = ("rest", "pair")


@dataclass(frozen=True)
class Usage:
    """The form of a line: its words. The first one is its name."""

    usage: str

    @property
    def name(self) -> str:
        return self.usage.split()[0]


@dataclass(frozen=True)
class Command(Usage):
    """A command in one of its forms.

    usage     its words, as in docs/PROTOCOL.md
    reply     the reply to it
    refusals  the numbers of its refusals, in the order in which they are tested
    does      what it does, in a sentence or two
    example   a dialogue: lines that begin with `> ` are typed, and the others are replies. It begins with the session of
              the example of LOAD, if the command needs one
    with_file its form at the prompt, with a file in place of the count, if it has a body
    order     exceptions to the order of `refusals`, if there are any
    """

    reply: str
    refusals: Tuple[int, ...]
    does: str
    example: Tuple[str, ...]
    with_file: str = ""
    order: str = ""


COMMANDS = (
    Command(
        "LOAD s edge sigma h rest count",
        "OK LOAD s 0 atoms",
        (11, 20, 36, 37, 38, *XYZ_FAULTS, 21, 90),
        "Loads the atoms of an XYZ text into a new session, at step 0.",
        ("> LOAD a 256 1 131072 rest 28", "> 2", "> dimer", "> Ar 0 0 0", "> Ar 1.5 0 0", "OK LOAD a 0 2"),
        with_file="LOAD s FILE edge sigma h [rest|pair]",
        order="If several of 30 to 35 apply, the reply is the first in the text. 90 may replace these and 21.",
    ),
    Command(
        "LOADMIX s edge P Q s1 h1 e1 s2 h2 e2 s3 h3 e3 rest count",
        "OK LOADMIX s 0 atoms",
        (11, 20, 36, 37, 38, 40, *XYZ_FAULTS, 39, 21, 90),
        "Loads atoms of the two species P and Q. The classes are two atoms P, one P and one Q, and two atoms Q.",
        (
            "> LOADMIX m 256 Na Cl 1 131072 256 1 262144 512 1 131072 256 rest 26",
            *("> 2", "> mix", "> Na 0 0 0", "> Cl 1.5 0 0", "OK LOADMIX m 0 2"),
        ),
        with_file="LOADMIX s FILE edge P Q s1 h1 e1 s2 h2 e2 s3 h3 e3 [rest|pair]",
        order="37, 38 and 40 are tested for each class in turn. If several of 30 to 35 and 39 apply, the reply is the first in the "
        "text. 90 may replace these and 21.",
    ),
    Command(
        "ADVANCE s n",
        "OK ADVANCE s step",
        (10, 23),
        "Advances by n steps, and waits until they are done.",
        ("> ADVANCE a 2", "OK ADVANCE a 2"),
    ),
    Command(
        "START s n",
        "OK START s step",
        (10, 23),
        "Starts n more steps. The reply comes immediately, with the target: the step number after all pending steps. `ADVANCE "
        "s 0` waits until they are done.",
        ("> START a 2", "OK START a 2", "> ADVANCE a 0", "OK ADVANCE a 2"),
    ),
    Command(
        "REVERSE s",
        "OK REVERSE s step",
        (10,),
        "Reverses the motion: n steps, REVERSE and n - 1 steps lead to the places of the start, and n steps, REVERSE, n steps "
        "and REVERSE restore the start exactly.",
        ("> ADVANCE a 2", "OK ADVANCE a 2", "> REVERSE a", "OK REVERSE a 1", "> ADVANCE a 1", "OK ADVANCE a 0"),
    ),
    Command(
        "BRANCH s b",
        "OK BRANCH s b step",
        (10, 13, 22, 90),
        "Saves the simulation under the name b.",
        ("> BRANCH a k", "OK BRANCH a k 0"),
    ),
    Command(
        "RESTORE s b",
        "OK RESTORE s b step",
        (10, 12),
        "Returns to the simulation saved as b, which stays saved.",
        ("> BRANCH a k", "OK BRANCH a k 0", "> ADVANCE a 2", "OK ADVANCE a 2", "> RESTORE a k", "OK RESTORE a k 0"),
    ),
    Command(
        "FORGET s b",
        "OK FORGET s b",
        (10, 12),
        "Deletes the simulation saved as b.",
        ("> BRANCH a k", "OK BRANCH a k 0", "> FORGET a k", "OK FORGET a k"),
    ),
    Command(
        "TUG s i dx dy dz",
        "OK TUG s i step",
        (10, 14),
        "Adds to the displacement of an atom per step. If two runs of a liquid differ by less than 1/256 sigma, the width of "
        "a bin, they separate two to three times as fast as its Lyapunov exponent predicts: fit the exponent from there on.",
        ("> TUG a 0 5 0 0", "OK TUG a 0 0"),
    ),
    Command(
        "MEASURE s",
        "OK MEASURE s step atoms mx my mz kinetic potential",
        (10,),
        "Measures the momentum (the sum of the displacements of the last step, in ring units), the kinetic number (the sum of "
        "the squares of these displacements) and the potential (in 2^-24 epsilon; of two species, in 2^-24 of the unit of the "
        "weights).",
        ("> ADVANCE a 1", "OK ADVANCE a 1", "> MEASURE a", "OK MEASURE a 1 2 0 0 0 693842 -5399727"),
    ),
    Command(
        "SHOW s i",
        "OK SHOW s step i x y z",
        (10, 14),
        "Shows the place of an atom, in ring units: 2^-32 of the edge.",
        ("> SHOW a 1", "OK SHOW a 0 1 25165824 0 0"),
    ),
    Command(
        "DUMP s",
        "OK DUMP s step lines",
        (10,),
        "Shows the frame as lines of XYZ text.",
        ("> DUMP a", "OK DUMP a 0 4", "2", "step 0", "Ar 0.000000 0.000000 0.000000", "Ar 1.500000 0.000000 0.000000"),
    ),
    Command(
        "LIST",
        "OK LIST k",
        (),
        "Lists the sessions, one per line: name, target (the step after all pending steps), number of atoms, and number of branches.",
        ("> LIST", "OK LIST 1", "a 0 2 0"),
    ),
    Command(
        "LIST s",
        "OK LIST s k",
        (10,),
        "Lists the branches of a session, one per line: name and step.",
        ("> BRANCH a k", "OK BRANCH a k 0", "> LIST a", "OK LIST a 1", "k 0"),
    ),
    Command("DROP s", "OK DROP s", (10,), "Deletes the session and its branches.", ("> DROP a", "OK DROP a")),
    Command("BYE", "OK BYE", (), "Ends the connection, and the prompt.", ("> BYE", "OK BYE")),
)


@dataclass(frozen=True)
class Own(Usage):
    """A command that only the prompt has: its words, what it does, and an example."""

    does: str
    example: Tuple[str, ...] = ()


# Commands in the words of physics. Each example begins with the session of the example of LOAD.
PHYSICS: Tuple[Own, ...] = (
    Own(
        "heat s T [SEED]",
        "Sets the temperature, such as 60K, or 0.5 in epsilon / k_B. The velocities are random; the same SEED (default: 0) "
        "gives the same velocities.",
    ),
    Own("thermo s", "Measures the temperature and the energies at this step. This makes one step and undoes it."),
    Own("distance s", "Shows the root mean square distance of the atoms from where they were loaded, the shorter way around the box."),
    Own(
        "go s STRETCH",
        "Advances by a time.",
        (
            "> go a 2steps",
            "  > ADVANCE a 2",
            "OK ADVANCE a 2",
            "  2 steps are 0.0110485 sigma sqrt(m / epsilon)",
            "  in reduced units, since epsilon= and mass= were not given; use LOAD or `scale` with it",
        ),
    ),
    Own(
        "back s [STRETCH]",
        "Goes back to the loaded state, or by a time, along the same path: tugs and heat are undone too.",
        (
            *("> ADVANCE a 2", "OK ADVANCE a 2", "> back a", "  > REVERSE a", "OK REVERSE a 1", "  > ADVANCE a 2", "OK ADVANCE a -1"),
            *("  > REVERSE a", "OK REVERSE a 0", "  a is where it was loaded"),
        ),
    ),
    Own(
        "undo [s]",
        "Undoes what the last line did to a session, or to this one, by inverse commands: steps, reversals, tugs, heat and "
        "RESTORE. No branch is needed. A second `undo` undoes the line before.",
        (*("> TUG a 0 5 0 0", "OK TUG a 0 0", "> undo", "  taking back `TUG a 0 5 0 0`", "  > TUG a 0 -5 0 0"),),
    ),
    Own(
        "scale s [SCALE]",
        "Shows what the numbers of a session mean, or sets it, as in `scale a edge=21.04 dt=2fs argon`, if somebody else "
        "loaded the session. The scale is remembered for the next connection to a server.",
    ),
)

OWN: Tuple[Own, ...] = (
    Own(
        "LOAD s FILE dt=.. SUBSTANCE [rest|pair]",
        "Loads a file in physical units: the substance is argon, or sigma=, epsilon= and mass=. A number without a unit is in "
        "angstrom, electronvolt, dalton or femtoseconds; K, kJ/mol, kcal/mol, nm and ps are units too. The edge of the box is "
        "Lattice in the file, or edge=.",
        (
            *("> LOAD argon argon_256.xyz edge=21.04 dt=2fs argon", "OK LOAD argon 0 256"),
            "  edge 21.04, sigma 3.4, h 3706, and the time step 2.000109 fs",
        ),
    ),
    Own(
        "SHOW s i..j",
        "Shows the places of the atoms i to j.",
        ("> SHOW a 0..1", "OK SHOW a 0 0 0 0 0", "OK SHOW a 0 1 25165824 0 0"),
    ),
    Own(
        "DUMP s > FILE",
        "Writes the frame to an XYZ file, and replaces an existing file.",
        ("> DUMP a > a.xyz", "  2 atoms at step 0 are in a.xyz"),
    ),
    Own(
        "save s FILE",
        "Writes the whole simulation to a file, bit for bit, except its branches. The file must be new, empty or an older "
        "saved simulation; any other file stays. If the session was not loaded here, give its scale too, as in `save a "
        "a.saved edge=21.04 dt=2fs argon`, or with sigma= and h=.",
        ("> save a a.saved", "  a at step 0 is in a.saved"),
    ),
    Own(
        "load_saved FILE [s]",
        "Continues from such a file, exactly, with the same step number.",
        (
            *("> save a a.saved", "  a at step 0 is in a.saved"),
            *("> load_saved a.saved b", "  b goes on at step 0, with 2 atoms"),
        ),
    ),
    *PHYSICS,
    Own(".read FILE", "Carries out each line of a file, up to one that is refused. What follows ` #` is a comment."),
    Own(
        ".lesson FILE [RECORD]",
        "Goes through a lesson step by step, in the language of its ending, such as examples/lessons/two_atoms.de; alone it "
        "shows the step again. With RECORD the session of the lesson is recorded, with the answers in RECORD.answers, and "
        "`python3 -m ljclient check FILE RECORD` marks them.",
    ),
    Own(".answer ANSWER", "Answers the question of a step."),
    Own(".hint", "Shows the hint of a step."),
    Own("help [COMMAND]", "Explains one command; `help 10` and `help NO_SESSION` explain a refusal."),
    Own("exit", "Ends the prompt, as BYE and Ctrl-D do."),
)

WORDS: Dict[str, str] = {
    "s": "the name of a session: 1 to 16 letters, digits, `_` or `-`",
    "b": "the name under which a simulation is saved: 1 to 16 letters, digits, `_` or `-`",
    "n": "the number of steps, from 0 to 1000000",
    "i": "the number of an atom, from 0",
    "dx dy dz": "a whole number of ring units each, 2^-32 of the edge, from -2147483648 to 2147483647",
    "edge": "the edge of the box in the unit of the file, from 0.001 to 1000000",
    "sigma": "the distance sigma in the unit of the file, below a fifth of the edge",
    "h": "the step factor, dt^2 epsilon / (m sigma^2) in units of 2^-32: a whole number from 1 to 16777216",
    "P Q": "the symbols of the two species",
    "s1 h1 e1": "sigma, h and weight of two atoms P; a weight is an epsilon in 256ths of a unit, from 1 to 65536",
    "s2 h2 e2": "the same for one P and one Q",
    "s3 h3 e3": "the same for two atoms Q",
    "rest": "`rest` starts at rest, at the first frame; `pair` from two frames one step apart, in order of time",
    "count": "how many bytes of XYZ text follow the line",
    "FILE": "a file; in quotes if its name has spaces",
    "RECORD": "a file to write; a record that it has is replaced",
    "ANSWER": "a number or one of the choices",
    "i..j": "the numbers of the first atom and of the last one, such as 0..9",
    "dt=..": "the time step in fs, such as dt=2fs",
    "SUBSTANCE": "argon, or sigma=, epsilon= and mass=",
    "T": "a temperature, such as 60K, or 0.5 in epsilon / k_B",
    "SEED": "a whole number, the seed of the random velocities",
    "STRETCH": "a time such as 2ps, 500fs or 100steps; without epsilon and mass a number in sigma sqrt(m / epsilon)",
    "SCALE": "edge=, dt= and a substance such as argon; or edge=, sigma= and h=",
}


def forms_of(name: str) -> List[Command]:
    """The forms of the command with this name; none if there is no such command."""
    return [command for command in COMMANDS if command.name == name]


def names() -> List[str]:
    """The first words of all commands, in the order of the table."""
    return list(dict.fromkeys(command.name for command in COMMANDS))


def first_words() -> List[str]:
    """The possible first words of a line at the prompt."""
    return list(dict.fromkeys([*names(), *(own.name for own in OWN)]))


def command_of(word: str) -> Optional[str]:
    """The command with this name, in capitals or not."""
    return next((name for name in first_words() if name.lower() == word.lower()), None)


def words_of(usage: str) -> List[Tuple[str, str]]:
    """The words of a usage after the first, with their meanings. Words that belong together are one entry."""
    padded = f" {usage.replace('[rest|pair]', 'rest')} "
    found = [(padded.index(f" {word} "), word) for word in WORDS if f" {word} " in padded]
    return [(word, WORDS[word]) for _, word in sorted(found)]


def own_of(name: str) -> List[Own]:
    """The commands that only the prompt has and that begin with this word."""
    return [own for own in OWN if own.name.lower() == name.lower()]
