"""Random dialogues of several users, each over successive connections, compared with a run of each user alone."""
import random
from concurrent.futures import ThreadPoolExecutor
from typing import Callable, Dict, List, Sequence

import pytest
from shared.served import Client, Server, Servers
from shared.texts import must_be, shown
from shared.tiles import tiles_of
from shared.words import hello, token, user, welcome


# The sessions of random dialogues, and items that wait until none of them has pending steps, so that each tile is counted.
RANDOM_SESSIONS = ["a", "b", "c_-9"]
WAIT_FOR_ALL = "".join(f"ADVANCE {session} 0\n" for session in RANDOM_SESSIONS).encode()


class Dialogue:
    """The bytes that a connection sends after HELLO, how it ends, and its last replies, which `run` does not have."""

    def __init__(self, rnd: random.Random) -> None:
        self.items = b"".join(random_item(rnd) for _ in range(rnd.randrange(4, 24))) + WAIT_FOR_ALL
        self.end, self.last_words = rnd.choice(
            [
                (b"BYE\n", b"OK BYE\n"),
                (b"BYE\nDROP a\nDROP b\n", b"OK BYE\n"),
                (b"LOAD a\nDROP a\n", b"ERR 04 BODY\n"),
                (b"x" * 65536 + b"\nDROP a\n", b"ERR 05 LONG\n"),
                (b"", b""),
                (b"DROP a", b""),
                (b"LOAD x 16 1 1 rest 12\n1\nc\nX 0 0 0", b""),
            ]
        )
        self.is_sent_early = rnd.random() < 0.5
        self.size = rnd.choice([1, 7, 100, 1000, 100000])

    def pieces(self) -> List[bytes]:
        data = self.items + self.end
        size = max(self.size, len(data) // 50)
        return [data[at : at + size] for at in range(0, len(data), size)]


def random_item(rnd: random.Random) -> bytes:
    session, branch = rnd.choice(["a", *RANDOM_SESSIONS]), rnd.choice("kl")
    ways: Dict[str, Callable[[], str]] = {
        "LOAD": lambda: random_load(rnd, session),
        "LOADMIX": lambda: random_mixture(rnd, session),
        "ADVANCE": lambda: f"ADVANCE {session} {rnd.randrange(6)}\n",
        "START": lambda: f"START {session} {rnd.randrange(6)}\n",
        "REVERSE": lambda: f"REVERSE {session}\n",
        "TUG": lambda: f"TUG {session} {rnd.randrange(9)} {rnd.randrange(-99999, 99999)} -7 {rnd.randrange(10 ** 9)}\n",
        "MEASURE": lambda: f"MEASURE {session}\n",
        "SHOW": lambda: f"SHOW {session} {rnd.randrange(9)}\n",
        "LIST": lambda: rnd.choice(["LIST\n", f"LIST {session}\n"]),
        "BRANCH": lambda: f"BRANCH {session} {branch}\n",
        "RESTORE": lambda: f"RESTORE {session} {branch}\n",
        "FORGET": lambda: f"FORGET {session} {branch}\n",
        "DUMP": lambda: f"DUMP {session}\n",
        "DROP": lambda: f"DROP {session}\n",
        "bad": lambda: random_bad_line(rnd),
    }
    way = rnd.choices(list(ways), [6, 5, 6, 6, 3, 5, 5, 5, 4, 3, 3, 1, 2, 1, 3])[0]
    return ways[way]().encode()


def random_load(rnd: random.Random, session: str) -> str:
    frames = rnd.choice([1, 1, 2])
    count = rnd.choice([1, 2, 9, 20, 64, 65])
    frame = [f"{count}", "random"] + ["X " + " ".join("%.3f" % rnd.uniform(0, 16) for _ in range(3)) for _ in range(count)]
    text = "".join(line + "\n" for line in frame * frames)
    if rnd.random() < 0.1:
        text = text.replace("X", "X x", 1)
    mode = "pair" if frames == 2 else "rest"
    return f"LOAD {session} 16 {rnd.choice([1, 1, 1, 9])} {rnd.choice([1, 131072])} {mode} {len(text)}\n{text}"


def random_mixture(rnd: random.Random, session: str) -> str:
    """A random load of two species, or with atoms of a third one."""
    line, _, text = random_load(rnd, session).partition("\n")
    _, _, edge, sigma, strength, mode, size = line.split()
    symbols = rnd.choice(["XY", "XY", "XY", "XYZ"])
    text = "".join(rnd.choice(symbols) if letter == "X" else letter for letter in text)
    classes = [f"{rnd.choice([1, sigma])} {strength} {rnd.choice([1, 256, 65536])}" for _ in range(3)]
    return f"LOADMIX {session} {edge} X Y {' '.join(classes)} {mode} {size}\n{text}"


def random_bad_line(rnd: random.Random) -> str:
    return rnd.choice(
        [
            "\n",
            " \t\r\n",
            "ADVANCE a\n",
            "advance a 1\n",
            "x" * 300 + "\n",
            "LOAD a 16 1 1 rest 3\n1\nc",
            "HELLO A " + token("A") + "\n",
            "TUG a 0 0 0 --1\n",
            "ADVANCE a 1000001\n",
            "MEASURE a b\n",
        ]
    )


@pytest.mark.parametrize("seed", [8])
def test_replies_are_those_of_a_run_alone(serve: Servers, seed: int) -> None:
    rnd = random.Random(seed)
    quota = (2, 130, 2)
    names = [f"user{number}" for number in range(8)]
    dialogues = {name: [Dialogue(rnd) for _ in range(10)] for name in names}
    server = serve(b"".join(user(name, quota) for name in names), 80, workers=3)
    with ThreadPoolExecutor(len(names)) as threads:
        visits = {name: threads.submit(visit_in_turn, server, name, dialogues[name]) for name in names}
    tiles = 0
    for name in names:
        data = b"".join(dialogue.items for dialogue in dialogues[name])
        wanted = serve.program.replies_alone(data, quota)
        seen = told_between(name, visits[name].result(), dialogues[name])
        must_be(seen, wanted, name)
        tiles += tiles_of(data, wanted)
    server.finish(tiles)


def visit_in_turn(server: Server, name: str, dialogues: Sequence[Dialogue]) -> List[bytes]:
    """Opens a user's connections in turn, each after the previous one was let in. Returns the replies to each."""
    told: List[bytes] = []
    waiting = knock(server, name, dialogues[0])
    for number, dialogue in enumerate(dialogues):
        client, first = waiting, waiting.lines(1)
        if number + 1 < len(dialogues):
            waiting = knock(server, name, dialogues[number + 1])
        if not dialogue.is_sent_early:
            for piece in dialogue.pieces():
                client.send(piece)
            client.half_close()
        told.append(first + client.rest())
        client.close()
    return told


def knock(server: Server, name: str, dialogue: Dialogue) -> Client:
    client = server.connect()
    client.send(hello(name))
    if dialogue.is_sent_early:
        client.send(dialogue.items + dialogue.end)
        client.half_close()
    return client


def told_between(name: str, told: Sequence[bytes], dialogues: Sequence[Dialogue]) -> bytes:
    """The replies to a user, without those to HELLO and the last ones."""
    between = b""
    for text, dialogue in zip(told, dialogues):
        front, end = welcome(name), dialogue.last_words
        assert text.startswith(front) and text.endswith(end), f"{name} is told {shown(text)}"
        between += text[len(front) : len(text) - len(end)]
    return between
