"""All commands in groups, a line for each, as `help` shows them."""
from __future__ import annotations

from typing import Tuple

# The title of a group, and for each command its words and what it does. Both fit into 80 columns.
Group = Tuple[str, Tuple[Tuple[str, str], ...]]

GROUPS: Tuple[Group, ...] = (
    (
        "Load and save",
        (
            ("LOAD s FILE dt=2fs argon", "loads an XYZ file in physical units"),
            ("LOAD s FILE edge sigma h", "loads it in the numbers of the protocol"),
            ("LOADMIX s FILE edge ..", "loads atoms of two species"),
            ("save s FILE", "writes a simulation to a file, bit for bit"),
            ("load_saved FILE [s]", "continues from such a file"),
            ("LIST", "lists the sessions"),
            ("DROP s", "deletes a session"),
        ),
    ),
    (
        "In physical units, with the commands that they send",
        (
            ("heat s T [SEED]", "sets the temperature, such as 60K"),
            ("thermo s", "measures temperature and energies"),
            ("distance s", "how far the atoms are from where they were loaded"),
            ("go s STRETCH", "advances by a time, such as 2ps or 100steps"),
            ("back s [STRETCH]", "goes back by a time, or to where it was loaded"),
            ("undo [s]", "undoes the last motion or tug"),
            ("scale s [SCALE]", "shows or sets what the numbers of a session mean"),
        ),
    ),
    (
        "Move",
        (
            ("ADVANCE s n", "advances by n steps, and waits for them"),
            ("START s n", "starts n more steps"),
            ("REVERSE s", "reverses the motion"),
            ("TUG s i dx dy dz", "changes the velocity of an atom"),
        ),
    ),
    (
        "Look",
        (
            ("MEASURE s", "measures momentum, kinetic number and potential"),
            ("SHOW s i", "shows the place of an atom"),
            ("SHOW s i..j", "shows the places of atoms i to j"),
            ("DUMP s", "shows the frame as XYZ text"),
            ("DUMP s > FILE", "writes it to a file"),
        ),
    ),
    (
        "Come back later",
        (
            ("BRANCH s b", "saves the simulation as b, at the server"),
            ("RESTORE s b", "returns to the simulation saved as b"),
            ("FORGET s b", "deletes the simulation saved as b"),
            ("LIST s", "lists the branches of a session"),
        ),
    ),
    (
        "The prompt",
        (
            (".read FILE", "carries out each line of a file"),
            (".lesson FILE [RECORD]", "goes through a lesson, and records its session"),
            (".answer ANSWER", "answers its question; .hint helps"),
            ("help [COMMAND]", "explains a command, or a refusal by number"),
            ("exit", "ends the prompt, as Ctrl-D does"),
            ("BYE", "ends the connection, and the prompt"),
        ),
    ),
)
