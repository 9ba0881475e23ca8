"""Parallel processes, and the faults that they find."""
import multiprocessing
from multiprocessing.connection import Connection as Pipe
from typing import Any, Callable, Iterable, List, Sequence, Tuple


def started(work: Callable[..., None], shares: Iterable[Tuple[Any, ...]]) -> List[Pipe]:
    """The pipes to new processes, one for each share of the work; the last argument of a process is the other end."""
    pipes = []
    for share in shares:
        ours, theirs = multiprocessing.Pipe()
        multiprocessing.Process(target=work, args=(*share, theirs), daemon=True).start()
        pipes.append(ours)
    return pipes


def tell_faults(faults: Sequence[str], kept: str) -> bool:
    """Prints the faults, and where they are kept. Returns whether there are any."""
    for fault in faults:
        print(f"fault: {fault}")
    print(f"{len(faults)} faults" + (f", {kept}" if faults else ""))
    return bool(faults)
