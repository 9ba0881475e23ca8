"""Refusals in each order: commands with two or more faults at once, of which the first by docs/PROTOCOL.md is answered."""
from itertools import combinations, product
from typing import Callable, Dict, Iterator, List, Tuple

from writing.words import Written, frame, lines, load, load_mix, numbered, written

# Two sessions, four atoms and two branches. A session of one atom is there from the beginning.
QUOTA = (2, 4, 2)
ONE = frame([("X", 0, 0, 0)])
# A frame of two atoms has room, and one of four has not.
SIZES = (2, 4)

# What is wrong with the text of a frame of so many atoms, by the number of its refusal; 0 is nothing.
FAULTS: Dict[int, Callable[[str], str]] = {
    0: lambda text: text,
    30: lambda text: text.replace("\nc\n", "0\nc\n", 1).replace("20", "-2", 1).replace("40", "-4", 1),
    31: lambda text: text[: text.rindex("\n", 0, -1) + 1],
    32: lambda text: text.replace("X", "X\x7f"),
    33: lambda text: text.replace("1.0", "1..0", 1),
    34: lambda text: text.replace("1.0", "1000000.0000000005", 1),
    39: lambda text: text.replace("X", "Z", 1),
}

# Each class of a good LOADMIX, and a fault of each of its words, in order.
CLASS = ("1", "131072", "256")
BAD_WORDS = ("0", "16777217", "65537")
# Whether the name is taken, the quota is used up, the edge is bad, and each word of each class is.
MIX_FAULTS = ["name", "sessions", "edge", *[f"{kind} {word}" for kind in range(3) for word in range(3)]]


def text_of(atoms: int, fault: int) -> str:
    return FAULTS[fault](frame([("X", "1.0", number, 0) for number in range(atoms)]))


def loads_of(name: str) -> Iterator[str]:
    """A LOAD for each set of faults of its words and its body."""
    words = product(("256", "1000000.1"), ("1", "52"), ("131072", "0"))
    for (edge, sigma, strength), fault, atoms in product(list(words), [0, 30, 31, 32, 33, 34], SIZES):
        yield load(text_of(atoms, fault), f"{edge} {sigma} {strength}", name)
        yield load(text_of(atoms, 0) + text_of(atoms, fault), f"{edge} {sigma} {strength}", name, "pair")
        if name != "a":
            yield lines(f"DROP {name}")
    yield load(text_of(2, 0) + text_of(1, 0), "256 1 1", name, "pair")
    yield load(text_of(2, 0), "256 1 1", name, "pair")


def of_loads() -> Iterator[Written]:
    """Of a new name and of one that is taken, while there is room for a session and while there is none."""
    for room, full in [("room", ""), ("none", load(ONE, name="z"))]:
        items = [load(ONE), full, *loads_of("a"), *loads_of("b"), lines("LIST")]
        yield written(f"orders/load_{room}", items, QUOTA)


def mix_of(faults: Tuple[str, ...], fault: int, atoms: int) -> str:
    classes = [BAD_WORDS[word] if f"{kind} {word}" in faults else CLASS[word] for kind in range(3) for word in range(3)]
    edge = "0" if "edge" in faults else "256"
    body = text_of(atoms, fault).replace("X", "Y", 1) if fault != 39 else text_of(atoms, fault)
    return load_mix(body, " ".join([edge, "X Y", *classes]), "a" if "name" in faults else "b")


def of_mixtures() -> Iterator[Written]:
    """Each two faults at once, and all faults from each one on."""
    sets = [*combinations(MIX_FAULTS, 1), *combinations(MIX_FAULTS, 2), *(tuple(MIX_FAULTS[at:]) for at in range(len(MIX_FAULTS) + 1))]
    items: Dict[str, List[str]] = {"room": [load(ONE)], "none": [load(ONE), load(ONE, name="z")]}
    for faults in sets:
        state = "none" if "sessions" in faults else "room"
        items[state] += [mix_of(faults, fault, 4 if fault else 2) for fault in (0, 39)] + [lines("DROP b")]
    for fault, atoms in product(FAULTS, SIZES):
        items["room"] += [mix_of((), fault, atoms), lines("DROP b")]
    for state, texts in items.items():
        yield written(f"orders/loadmix_{state}", [*texts, lines("LIST")], QUOTA)


def of_rows() -> Iterator[Written]:
    """Each set of faults of an atom's line: a symbol or a species, each coordinate, and a missing word."""
    loads = []
    for symbol, *coordinates in product(("X", "Z", "\x01"), *[("1", "x", "1e7")] * 3):
        for words in ([symbol, *coordinates], [symbol, *coordinates[:2]]):
            body = frame([("Y", 0, 0, 0), words])
            loads += [load(body), lines("DROP a"), load_mix(body, "256 X Y" + " 1 1 1" * 3), lines("DROP a")]
            loads += [load(frame([("Y", 0, 0, 0)] * 2) + body, mode="pair"), lines("DROP a")]
            loads += [load_mix(frame([("Y", 0, 0, 0)] * 2) + body, "256 X Y" + " 1 1 1" * 3, mode="pair"), lines("DROP a")]
    yield written("orders/rows", loads)


def of_commands() -> Iterator[Written]:
    """The other commands: no session, and what else is refused; while branches have room and while they have none."""
    items = [load(ONE), lines("BRANCH a k")]
    for more in ("", "BRANCH a l"):
        items.append(lines(more))
        for name, branch in product("az", "kl"):
            items.append(lines(f"BRANCH {name} {branch}", f"RESTORE {name} {branch}", f"FORGET {name} {branch}", f"LIST {name}"))
            items.append(lines(*[f"BRANCH {name} {each}" for each in "klm"], "LIST"))
        for name, number in product("az", ("0", "1", "1000001", "9999999999999999999")):
            items.append(lines(*(f"{verb} {name} {number}" for verb in ("ADVANCE", "START", "SHOW") if number != "1")))
            items.append(lines(f"TUG {name} {number} 1 1 1"))
        items.append(lines(*(f"{verb} z" for verb in ("REVERSE", "MEASURE", "DUMP", "DROP"))))
    yield written("orders/commands", [*items, lines("LIST", "LIST a")], QUOTA)


def lines_that_go_on() -> Iterator[str]:
    """Lines with two faults or more, each with the line after it."""
    for start, length in product(("LOAD", "LOADMIX", "LOAD a", "bye", "", "ADVANCE a", "LOAD x 1"), (255, 256, 257, 65_535)):
        if length > 256 or not start.startswith("LOAD") or start.endswith("1"):
            yield f"{start}{' ' * (length - len(start))}\nLIST\n"
    for verb, count in product(("LOAD", "LOADMIX", "load", "LOAD\r"), ("4", "0000004", "4\r", "4 \t\r")):
        yield f"{verb} a b c {count}\nDROPLIST\n"


def lines_that_end() -> Iterator[str]:
    """Lines that end a connection, whatever other faults they have; what follows is not read."""
    for start, length in [("LOAD", 4), ("LOAD", 256), ("LOADMIX x", 256), ("LOAD a", 65_536), ("bye", 65_536), ("", 65_537)]:
        yield f"{start}{' ' * (length - len(start))}\nLIST\n"
    for verb, count in product(("LOAD", "LOADMIX"), ("00000001", "1048577", "+1", "1.", "1 \r\r")):
        yield f"{verb} a. b {count}\nLIST\n"


def streams() -> Iterator[Written]:
    yield from of_loads()
    yield from of_mixtures()
    yield from of_rows()
    yield from of_commands()
    yield written("orders/lines", lines_that_go_on())
    yield from numbered("ends/order", lines_that_end())
