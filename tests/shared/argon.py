"""A session of 256 atoms of argon: four blocks within reach of each other, so that a step has 10 tiles."""
import time
from typing import Tuple

from shared.program import contents
from shared.served import Client

TILES = 10


def load_argon(name: str) -> bytes:
    body = contents("examples", "argon_256.xyz")
    return f"LOAD {name} 21.04 3.4 131072 rest {len(body)}\n".encode() + body


def paced_steps(client: Client, seconds: float) -> Tuple[int, int]:
    """Advances the session `a` from step 0. Returns by how many steps, and how many steps take about `seconds`."""
    start = time.monotonic()
    client.says(b"ADVANCE a 500\n", b"OK ADVANCE a 500\n")
    return 500, int(500 * seconds / (time.monotonic() - start)) + 1


def long_advance(client: Client) -> Tuple[int, int]:
    """Advances the session `a` from step 0 until an ADVANCE still runs after a moment. Returns the step before that ADVANCE,
    and its number of steps."""
    done, steps = 0, 4000
    while True:
        client.send(f"ADVANCE a {steps}\n".encode())
        if client.is_quiet():
            return done, steps
        assert steps <= 500_000, "no ADVANCE runs on"
        done, steps = done + steps, 2 * steps
        client.is_told(f"OK ADVANCE a {done}\n".encode(), b"ADVANCE")
