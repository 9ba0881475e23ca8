"""Random users of a server, round after round."""
import argparse
import re
import tempfile
import time
from multiprocessing.connection import Connection as Pipe
from typing import List, Optional, Sequence, Tuple

from soaking.processes import started, tell_faults
from soaking.server import CROWD, Held, Server, Watch
from soaking.user import Figures, Job, visit_all
from soaking.words import Fault

ROUNDS = 10
# The figures of a user, and its fault if it found one.
Found = Tuple[Figures, Optional[str]]
SERVED = re.compile(rb"served (\d+) connections, (\d+) tiles\n")


def soak_server(options: argparse.Namespace) -> bool:
    """Starts a server, and visits it as random users. Returns whether a fault was found."""
    server = Server(options, options.connections + options.connections // 10 + 2000)
    folder = options.keep or tempfile.mkdtemp(prefix="soak_")
    job = Job(options, server.port, folder)
    print(f"seed {options.seed}, {options.users} users, {options.workers} workers, pool {options.pool or 'as usual'}", flush=True)
    pipes = started(visit_all, ((job, range(options.users)[first :: options.processes]) for first in range(options.processes)))
    start = time.monotonic()
    try:
        faults = rounds(options, server, job, pipes)
        faults += last_words(server, pipes, start)
    finally:
        if server.is_there():
            server.child.kill()
            server.child.wait()
    return tell_faults(faults, f"dialogues in {folder}")


def rounds(options: argparse.Namespace, server: Server, job: Job, pipes: Sequence[Pipe]) -> List[str]:
    """Makes all connections, in rounds with a rest after each. Returns the faults of the server."""
    crowds = max(1, options.connections // 20 // CROWD)
    each = max(1, (options.connections - crowds * CROWD) // ROUNDS // options.users)
    idle = server.held_at_rest()
    print(f"at rest: {idle}", flush=True)
    for number in range(1, ROUNDS + 1):
        watch = Watch(server)
        watch.start()
        for pipe in pipes:
            pipe.send(each)
        faults = crowd_in(server, crowds * number // ROUNDS - crowds * (number - 1) // ROUNDS, pipes)
        watch.goes_on = False
        found = [one for pipe in pipes for one in pipe.recv()]
        if not server.is_there():
            return [*faults, f"the server has ended with {server.child.returncode}"]
        held = server.held_at_rest()
        print(
            f"round {number}: {total(found, 'connections') + server.made} connections, {total(found, 'commands')} commands; "
            f"at rest {held}; at most {watch.most}",
            flush=True,
        )
        faults += grown(held, idle)
        if time.monotonic() > job.deadline or faults or any(fault for _, fault in found):
            return faults
    return []


def crowd_in(server: Server, crowds: int, pipes: Sequence[Pipe]) -> List[str]:
    """Opens `crowds` crowds, and waits until all clients are done with their round. Returns the faults."""
    faults = []
    while crowds or not all(pipe.poll() for pipe in pipes):
        time.sleep(0.3)
        if crowds and server.is_there():
            try:
                server.crowd()
            except (Fault, OSError) as fault:
                faults.append(f"a crowd: {fault!r}")
        crowds = max(0, crowds - 1)
    return faults


def grown(held: Held, idle: Held) -> List[str]:
    """A fault if the numbers of descriptors and threads are not as at first."""
    is_as_before = (held.descriptors, held.threads) == (idle.descriptors, idle.threads)
    return [] if is_as_before else [f"the server holds {held} at rest"]


def total(found: Sequence[Found], word: str) -> int:
    return sum(figures[word] for figures, _ in found)


def last_words(server: Server, pipes: Sequence[Pipe], start: float) -> List[str]:
    """Ends the clients and the server, and prints the figures of all. Returns the faults."""
    for pipe in pipes:
        pipe.send(None)
    found = [one for pipe in pipes for one in pipe.recv()]
    faults = [fault for _, fault in found if fault]
    for word in found[0][0]:
        print(f"{word}: {total(found, word) + (server.made if word == 'connections' else 0)}")
    print(f"seconds: {time.monotonic() - start:.0f}")
    return faults + (faults_at_end(server, found, not faults) if server.is_there() else [])


def faults_at_end(server: Server, found: Sequence[Found], is_counted: bool) -> List[str]:
    """Ends the server, and returns the faults of its status and output. The tiles are compared if `is_counted`."""
    status, out, err = server.finish(total(found, "connections"))
    print(f"the server says: {out.decode().strip()}")
    served = SERVED.fullmatch(out)
    if (status, err) != (0, b"") or served is None or int(served[1]) != server.bound:
        return [f"the server ends with {status}, {out!r}, {err!r}"]
    tiles, more = total(found, "tiles"), total(found, "tiles that may be")
    if is_counted and not tiles <= int(served[2]) <= tiles + more:
        return [f"{out!r}, and not {tiles} tiles, or up to {more} more"]
    return []
