"""Lines of LOADMIX: as many words as there may be and more or fewer, and the longest ones."""
from typing import Iterator

from dialogue_tables.lines import of_line, without_count
from dialogue_tables.dialogues import Dialogue
from dialogue_tables.mixtures import load_mix, mixed
from schedule_tables.runs import MIX

LINE = load_mix(MIX).split("\n")[0]
*FRONT, COUNT = LINE.split()
MODE = FRONT[-1]
LISTED = "OK LIST 1\nm 0 2 0\n"


def front(count: int) -> str:
    """The first so many words of the line, the mode over and over after those that it has."""
    return " ".join([*FRONT, *[MODE] * count][:count])


def of_each_count() -> Iterator[Dialogue]:
    """Lines of up to 20 words, of which the last one is a count of bytes or is none."""
    yield without_count("LOADMIX")
    for count in range(1, 20):
        is_whole = count == len(FRONT)
        reply, state = (mixed(2), LISTED) if is_whole else ("ERR 03 SYNTAX\n", "OK LIST 0\n")
        yield of_line(f"{front(count)} {COUNT}", MIX, reply, state)
        yield without_count(f"{front(count)} {MODE}")


# Last words that are no count.
NO_COUNTS = ("1048577", "00000026", "+26", "-26", "26.", "2x", "26 \r\r")

# A first word that is another one has no body.
OTHERS = ("loadmix", "LOADMIXX", "LOADM", "LOADmix", "LOAD_MIX")

# What is told of a line that is too long, and of each line of the body after it.
TOLD = "ERR 02 LINE\n" + "ERR 06 COMMAND\n" * MIX.count("\n")

DIALOGUES = (
    *of_each_count(),
    *(without_count(f"{front(15)} {word}") for word in NO_COUNTS),
    *(of_line(LINE.replace("LOADMIX", word), "", "ERR 06 COMMAND\n") for word in OTHERS),
    # Of 256 bytes and of 257, of which a carriage return is one.
    *(of_line(line, MIX, mixed(2), LISTED) for line in (f"{LINE:<256}", f"{LINE:<255}\r", f"{LINE:>256}")),
    *(of_line(line, MIX, TOLD) for line in (f"{LINE:<257}", f"{LINE:<256}\r", f"{LINE:>257}")),
    of_line(LINE.replace(" ", "\t ") + "\r", MIX, mixed(2), LISTED),
    of_line(LINE.replace("rest 26", "rest 0000030"), MIX + "more", mixed(2), LISTED),
    Dialogue("a mixture without the last byte of its body", ((f"{LINE}\n{MIX}"[:-1], 1),), "", "OK LIST 0\n"),
)
