"""Libraries between a program and its C library, which refuse memory or fail reads and writes."""
import os
import subprocess
from pathlib import Path
from typing import Callable, Dict, Iterator, Tuple

from shared.program import TOP, Ended

SECONDS = 60
# After WHOLE refusals in a row without effect, there are no more allocations. There are at most MOST.
WHOLE, MOST = 20, 2000


def is_static(program: str) -> bool:
    """Whether a program is static, so that no library can be preloaded."""
    with open(program, "rb") as file:
        return b"/ld-linux" not in file.read()


def built(name: str, folder: Path) -> str:
    """The library of the C file of this name in tests/, built in a folder."""
    path = str(folder / f"{name}.so")
    source = os.path.join(TOP, "tests", f"{name}.c")
    subprocess.run(["cc", "-shared", "-fPIC", "-o", path, source, "-ldl"], check=True, timeout=SECONDS)
    return path


def variables(path: str, **words: object) -> Dict[str, str]:
    """The environment of a program with a preloaded library, and variables for it. A variable of None is left out."""
    return {"LD_PRELOAD": path, **{name: str(word) for name, word in words.items() if word is not None}}


def refused_in_turn(library: str, ends: Callable[[Dict[str, str]], Ended], whole: Ended) -> Iterator[Tuple[int, Ended]]:
    """The number of each allocation, and how a program ends if the library refuses that one. Stops after WHOLE runs in a row
    that end as with all memory."""
    in_a_row = 0
    for number in range(1, MOST + 1):
        ended = ends(variables(library, REFUSED=number))
        yield number, ended
        in_a_row = in_a_row + 1 if ended == whole else 0
        if in_a_row == WHOLE:
            return
    raise ValueError(f"more than {MOST} allocations")
