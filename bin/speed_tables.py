"""Makes the tables of docs/SPEED.md from the results of the scripts of bench/: docs/speed/NAME.json, which bench/speeds keeps."""

import json
import re
import shlex
from typing import Any, Callable, Iterable, Iterator

import sources
from measured import name_of
from tables import table

FOLDER = sources.TOP / "docs" / "speed"
PROGRAMS = {"crates/ljserve/out/ljserve": "PROGRAM", "crates/ljserve/out/v3/ljserve": "PROGRAM_V3"}
POOLS = ("queue", "lock")
OPTIONS = " | ".join(f"`--pool {pool}`" for pool in POOLS)
# Units of figures that a table shows differently.
UNITS = {"us": "µs"}
# Names of figures that a table shows differently.
NAMES = {
    r"a step of (\d+) atoms by the (page|program)": r"time of a step of \1 atoms in the \2",
    r"(a step of \d+ atoms): time by the page divided by time by .*": r"time of \1 in the page, divided by the time in the program",
    r"(\d+ atoms) that move forward and backward, in a (window \d+ pixels wide)": r"\1 in motion, \2",
    "processor time of a sent frame": "processor time of the view and its program per frame",
    "processor time of HAProxy to let one user in": "processor time of HAProxy to connect one user",
}
# What a table shows, by the name of its only or first measurement.
ABOUT = {
    "step_4096": "The table compares the wall-clock time of a step in `ljserve` and in its twin in plain C, `bench/plain.c` "
    "(`-march=native`, one thread).",
    "lammps": "The processor time of a step of 4,000 atoms in one thread, for `ljserve` and for Debian's LAMMPS of 29 Sep 2021.",
    "cores": "The wall-clock time of a step of 4,096 atoms, in LAMMPS and in a server's session with atoms sorted in space.",
    "order": "The processor time of a step of 4,096 atoms, with and without sorting the atoms by position.",
    "lines": "SHOW commands per second from standard input, answered by `ljserve` and by its twin in plain C, `bench/lines.c`.",
    "instructions": "The number of instructions of a command, counted by callgrind.",
    "reader": "How fast `ljserve` reads atoms.",
    "scale": "The two tables compare the speed of a server with the speed of `ljserve run`.",
    "server": "The speed of a server on 127.0.0.1.",
    "shards": "The speed and the memory of HAProxy 2.6 and 16 servers behind it, with 992 users.",
    "memory": "The resident memory of a server with one worker.",
    "keep": "The time of a command with and without `tools/keep`.",
    "client": "The processor time of calls to the Python client.",
    "start": "How long the Python client takes to start.",
    "page": "How fast the web page runs in Chromium; it contains the program.",
    "view": "The speed of the Python client's live view.",
}


def shown(value: float) -> str:
    """A number with three significant digits, or without decimals if its whole part has more."""
    return f"{value:,.0f}" if value >= 99.95 else f"{value:#.3g}"


def ratio(value: float) -> str:
    """A ratio with two decimals, or with two significant digits if it is small."""
    return f"{value:.2f}" if value >= 0.0995 else f"{value:#.2g}"


class Found:
    """The results of a measurement, by the names of its figures."""

    def __init__(self, name: str):
        self.name = name
        self.told: dict[str, Any] = json.loads((FOLDER / f"{name}.json").read_text(encoding="utf-8"))
        self.figures: dict[str, float] = {each["name"]: each["value"] for each in self.told["figures"]}

    def __getitem__(self, name: str) -> float:
        return self.figures[name]

    @property
    def words(self) -> list[str]:
        """The words of the command, without `--json` and its file."""
        words = [PROGRAMS.get(word, word) for word in shlex.split(self.told["command"])]
        at = words.index("--json")
        return words[:at] + words[at + 2 :]

    def under(self, *rows: str) -> str:
        """A table below a line with the subject and the command."""
        return headed([self.name], [f"`{shlex.join(self.words)}` ({moment(self)})"], *rows)


def headed(names: Iterable[str], commands: Iterable[str], *rows: str) -> str:
    """A table of measurements below a line: what the table shows, if that is known, and the commands that gave the figures."""
    about = [f"{ABOUT[name]} " for name in names if name in ABOUT]
    return f"{''.join(about[:1])}Source: {' and '.join(commands)}:\n\n{table(*rows)}"


def moment(*found: Found) -> str:
    """The programs, the day, and the loads before the first of these measurements and after the last one."""
    told = sorted((each.told for each in found), key=lambda each: str(each["began"]))
    loads = dict.fromkeys(f"{load:.1f}" for load in (told[0]["machine"]["load_before"], told[-1]["machine"]["load_after"]))
    programs = dict.fromkeys(name_of(each.get("program", {})) for each in told)
    return ", ".join([*filter(None, programs), told[0]["began"][:10], f"load {' to '.join(loads)}"])


# A step.

# The names of the liquids in bench/speeds, and in a table.
LIQUIDS = {
    "4096": "4,096 atoms in random order",
    "4096_sorted": "4,096 atoms sorted in space",
    "1024": "1,024 atoms in random order",
    "256": "256 atoms in random order",
    "64": "droplet of 64 atoms in random order, box edge 6 sigma",
    "droplet": "droplet of 4,096 atoms in random order, box edge 1,000 sigma",
    "larger_droplet": "droplet of 4,096 atoms in random order, box edge 60,000 sigma",
    "equal": "4,096 atoms in random order, of two species with equal interactions",
    "different": "4,096 atoms of argon and krypton, in random order",
    "different_sorted": "4,096 atoms of argon and krypton, sorted in space",
}


def cells_of_a_step(found: Found) -> str:
    ours, plain = (found[f"{name}, per step"] for name in ("program", "plain"))
    return f"{shown(ours)} | {ratio(ours / plain)}"


def steps(*programs: str) -> str:
    """A step compared with the plain C twin's, for each liquid and each program. A measurement has a name such as step_LIQUID."""
    columns = [[Found(f"{program}_{liquid}") for liquid in LIQUIDS] for program in programs]
    heads = [f"`{column[0].words[1]}`: ms per step | divided by the twin's time" for column in columns]
    rows = [" | ".join([text, *map(cells_of_a_step, found)]) for text, *found in zip(LIQUIDS.values(), *columns)]
    commands = [f"`{shlex.join(column[0].words[:3])} -- ..` ({moment(*column)})" for column in columns]
    return headed([columns[0][0].name], commands, " | ".join(["Liquid", *heads]), *rows)


def lammps(*names: str) -> str:
    """A step of each program, with two columns for each measurement."""
    found = [Found(name) for name in names]
    ways = [each["name"] for each in found[0].told["figures"] if each["unit"] == "ms per step"]
    heads = [f"`{each.words[1]}`: ms per step | divided by the time of lj/cut" for each in found]
    rows = [" | ".join([way, *(f"{shown(each[way])} | {ratio(each[way] / each[ways[0]])}" for each in found)]) for way in ways]
    commands = [f"`{shlex.join(each.words)}` ({moment(each)})" for each in found]
    return headed(names, commands, " | ".join(["Program", *heads]), *rows)


def cores(name: str) -> str:
    """Steps by LAMMPS processes and by workers of a server with its connection's time. Each column is for a number of these."""
    found = Found(name)
    steps = [each["name"].rpartition(", ") for each in found.told["figures"] if each["unit"] == "ms per step"]
    ways, counts = list(dict.fromkeys(way for way, _, _ in steps)), sorted({count for _, _, count in steps})
    rows = [" | ".join([way, *(cell_of_workers(found, f"{way}, {count}") for count in counts)]) for way in ways]
    return found.under(f"ms per step (connection's processor time in ms), by number of processes or workers | {' | '.join(counts)}", *rows)


def cell_of_workers(found: Found, name: str) -> str:
    if name not in found.figures:
        return "-"
    connection = found.figures.get(f"{name}, connection")
    return shown(found[name]) + ("" if connection is None else f" ({shown(connection)})")


def order(name: str) -> str:
    found = Found(name)
    first = next(iter(found.figures.values()))
    return found.under(
        "Order of the atoms | ms per step | Divided by the time without sorting",
        *(f"{way} | {shown(ms)} | {ratio(ms / first)}" for way, ms in found.figures.items()),
    )


# Text and the server.


def lines(name: str) -> str:
    found = Found(name)
    ours, plain = (1e6 * found[name] for name in ("program", "plain C"))
    return found.under(
        "SHOW commands per second of `ljserve` | SHOW commands per second of the twin | Time divided by the twin's time",
        f"{shown(ours)} | {shown(plain)} | {ratio(plain / ours)}",
    )


def reader(name: str) -> str:
    found = Found(name)
    return found.under("Measured | MB/s", f"LOAD of XYZ text, in bodies of 1 MiB | {shown(found['bodies read'])}")


CROWDS = {
    "1 x 4096": "one session of 4,096 atoms",
    "8 x 512": "8 users of 512 atoms each",
    "60 x 128": "60 users of 128 atoms each",
    "1 x 8 x 512": "8 sessions of one user, 512 atoms each",
}
# How many commands are sent at a time.
SENT = {100: "sent 100 at a time", 1: "sent one at a time"}
THREADS = {"connections": "the connection's thread", "workers": "all workers together"}


def scale(name: str) -> str:
    found = Found(name)
    rows = [parts_of_runs(found, crowd) for crowd in CROWDS if f"{crowd} atoms, four runs" in found.figures]
    servers = f"Steps per second with 4 workers, divided by the steps per second of four `ljserve run` processes | {OPTIONS}"
    head = f"{servers} | speed of four `ljserve run` processes, divided by the speed of one"
    session = table(f"One session of 4,096 atoms | {OPTIONS}", *rows_of_a_session(found, "1 x 4096 atoms"))
    return f"{found.under(head, *rows)}\n{session}"


def parts_of_runs(found: Found, crowd: str) -> str:
    """The speed of four workers divided by the speed of four runs, and the speed of four runs divided by the speed of one."""
    four = found[f"{crowd} atoms, four runs"]
    parts = [ratio(found[f"{crowd} atoms, {pool}, 4 workers"] / four) for pool in POOLS]
    return " | ".join([CROWDS[crowd], *parts, ratio(four / found[f"{crowd} atoms, one run"])])


def rows_of_a_session(found: Found, crowd: str) -> Iterator[str]:
    steps = [1e3 / found[f"{crowd}, {pool}, 4 workers"] for pool in POOLS]
    alone = [found[f"{crowd}, one run"] / found[f"{crowd}, {pool}, 1 workers"] for pool in POOLS]
    spent = [found[f"{crowd}, {pool}, 4 workers, processor time"] for pool in POOLS]
    yield f"time of a step with one worker, divided by the time of a step of `ljserve run` | {' | '.join(map(ratio, alone))}"
    yield f"time of a step with 4 workers, in ms | {' | '.join(map(shown, steps))}"
    one = "divided by the processor time of a step of `ljserve run`"
    yield f"processor time of a step with 4 workers, {one} | {' | '.join(map(ratio, spent))}"
    for kind, text in THREADS.items():
        times = [found[f"{crowd}, {pool}, 4 workers, {kind}"] for pool in POOLS]
        yield f"with 4 workers: processor time of {text}, in µs per pair of 64-atom blocks | {' | '.join(map(ratio, times))}"


def server(name: str) -> str:
    found = Found(name)
    users, sessions = "8 users of 512 atoms", "8 sessions of one user, of 512 atoms"
    together = "speed of 8 sessions of one user together"
    step = [shown(found[f"4096 atoms, {pool}, 4 workers"]) for pool in POOLS]
    rate = [shown(found[f"{pool}: {users}, at once, steps"]) for pool in POOLS]
    gain = [ratio(found[f"{pool}: {sessions}, one after the other"] / found[f"{pool}: {sessions}, at once"]) for pool in POOLS]
    rows = [
        f"time of a step of 4,096 atoms with 4 workers, in ms | {' | '.join(step)}",
        f"steps per second of 8 users together, with 512 atoms each | {' | '.join(rate)}",
        f"{together}, divided by their speed one after another | {' | '.join(gain)}",
    ]
    shows = [f"SHOW commands per second, {sent} | - | {shown(found[f'SHOW, {size} at a time'])}" for size, sent in SENT.items()]
    return found.under(f"Measured | {OPTIONS}", *rows, *shows, *beside_redis(found))


def beside_redis(found: Found) -> Iterator[str]:
    for size, sent in SENT.items():
        if f"GET by this script, {size} at a time" in found.figures:
            part = found[f"SHOW, {size} at a time"] / found[f"GET by this script, {size} at a time"]
            yield f"SHOW commands per second, divided by Redis GET commands per second, both {sent} | - | {ratio(part)}"


def figures(name: str) -> str:
    """All figures of a measurement, with a row for each."""
    found = Found(name)
    return found.under("Measured | Figure", *(f"{renamed(each['name'])} | {with_unit(each)}" for each in found.told["figures"]))


def renamed(name: str) -> str:
    """The name of a figure as a table shows it."""
    return next((re.sub(pattern, shown_as, name) for pattern, shown_as in NAMES.items() if re.fullmatch(pattern, name)), name)


def with_unit(figure: dict[str, Any]) -> str:
    return f"{shown(figure['value'])} {UNITS.get(figure['unit'], figure['unit'])}".rstrip()


def grid(name: str) -> str:
    """All figures of a measurement. A figure's name has the row before its colon, and the column after it."""
    found = Found(name)
    cells = {tuple(each["name"].split(": ")): with_unit(each) for each in found.told["figures"]}
    rows, columns = (list(dict.fromkeys(names[at] for names in cells)) for at in (0, 1))
    return found.under(
        " | ".join(["Measured", *columns]),
        *(" | ".join([renamed(row), *(cells.get((row, column), "-") for column in columns)]) for row in rows),
    )


def keep(name: str) -> str:
    """Commands sent one at a time, with a row for each way to send them."""
    found = Found(name)
    one_at_a_time = [each.rpartition(", ") for each in found.figures if each.rpartition(", ")[2].split()[0].isupper()]
    ways, commands = (list(dict.fromkeys(each[at] for each in one_at_a_time)) for at in (0, 2))
    shown_as = {way: f"through `tools/keep {way}`" if way.startswith("--") else way.replace("the tool", "`tools/keep`") for way in ways}
    rows = [f"{shown_as[way]} | " + " | ".join(shown(found[f"{way}, {command}"]) for command in commands) for way in ways]
    return found.under(f"Median time in µs | {' | '.join(f'`{command}`' for command in commands)}", *rows)


# The client.


# The calls of bench/client, and their names in a table.
CALLS = {
    "places()": "`places()`",
    "dump()": "`dump()`",
    "a frame of sample()": "one frame of `sample()`",
    "dump() of order='space'": '`dump()` with `order="space"`',
    "a frame of sample() of order='space'": 'one frame of `sample()` with `order="space"`',
}


def client(name: str) -> str:
    found = Found(name)

    def cell(call: str, kind: str) -> str:
        return " + ".join(shown(found[f"{call}, {kind} numpy, {side}"]) for side in ("client", "program"))

    rows = [f"{text} | {cell(call, 'with')} | {cell(call, 'without')}" for call, text in CALLS.items()]
    return found.under("Processor time of client + program for 4,096 atoms, in ms | With numpy | Without numpy", *rows)


KINDS: dict[str, Callable[..., str]] = {
    "steps": steps,
    "lammps": lammps,
    "cores": cores,
    "order": order,
    "lines": lines,
    "reader": reader,
    "scale": scale,
    "server": server,
    "keep": keep,
    "figures": figures,
    "grid": grid,
    "client": client,
}


def speed(kind: str, *names: str) -> str:
    """The results of one or more measurements, as a table of this kind."""
    return KINDS[kind](*names)
