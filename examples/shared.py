"""What the examples share: their options, the client, a crystal that is hot enough to melt, distances, and pictures."""
from __future__ import annotations

import argparse
import contextlib
import importlib
import math
import os
import random
import shlex
import sys
from typing import Any, Callable, Iterable, Iterator, List, NoReturn, Optional, Sequence, Tuple

TOP = os.path.dirname(os.path.dirname(os.path.abspath(__file__)))
sys.path.insert(0, os.path.join(TOP, "clients", "python"))
import ljclient as ljclient  # noqa: E402
from ljclient import tokens as tokens  # noqa: E402

if os.path.exists(os.path.join(TOP, "VERSION")):  # a release
    os.environ.setdefault("LJSERVE", os.path.join(TOP, "bin", "ljserve"))

units = ljclient.units
RING = units.RING  # the edge of the box, in ring units
H = 131072  # a time step of 0.0055, for runs of some thousand steps; README.md says what is for longer ones
CELLS = 4  # of the crystal along each axis, with four atoms in each
ATOMS = 4 * CELLS**3
DENSITY = 0.8442  # atoms per cube of sigma, with which argon is liquid just above its triple point
HEAT = 1.5  # the usual temperature of the crystal when it starts, half of which becomes potential energy
EDGE: float = round((ATOMS / DENSITY) ** (1 / 3), 6)  # of the box, in sigma
FACES = [(0, 0, 0), (0.5, 0.5, 0), (0.5, 0, 0.5), (0, 0.5, 0.5)]
TIME = "time / $\\sqrt{mσ^2/ε}$"  # what the axis of a picture says
ENDINGS = (".png", ".svg", ".pdf")  # of the files that pictures are drawn into
Place = Tuple[int, ...]  # three whole numbers, in ring units
Frame = List[Place]


def options_of(words: Optional[Sequence[str]], text: str, steps: int, piece: int) -> argparse.Namespace:
    """The options of an example whose text this is, and which makes so many steps where none are said, piece by piece."""
    parser = argparse.ArgumentParser(description=text, formatter_class=argparse.RawDescriptionHelpFormatter)
    add_plot(parser)
    parser.add_argument("--steps", metavar="N", type=int, default=steps, help=f"how many steps, a multiple of {piece}: {steps}")
    parser.add_argument("--server", metavar="HOST:PORT", help="a server to use; else the program runs for this alone")
    parser.add_argument("--user", metavar="NAME", help="who asks, as in the server's file of users")
    add_token_file(parser)
    options = parser.parse_args(words)
    if options.steps < piece or options.steps % piece:
        parser.error(f"--steps is a multiple of {piece}")
    if options.server and not options.user:
        parser.error("--server needs --user")
    if options.server and not options.server.rpartition(":")[2].isdecimal():
        parser.error(f"--server must be HOST:PORT, got {options.server}")
    prepare_picture(options.plot)
    return options


class Refusal(argparse.Action):
    """A word of the command line that was taken once, and where others would see a token."""

    def __call__(self, parser: argparse.ArgumentParser, *_: object) -> NoReturn:
        parser.error(tokens.NOT_IN_COMMANDS)


def add_plot(parser: argparse.ArgumentParser) -> None:
    """The option that says where the picture goes."""
    told = f"draw the picture into this file, as its ending says: {', '.join(ENDINGS)} (needs matplotlib)"
    parser.add_argument("--plot", metavar="FILE", help=told)


def add_token_file(parser: argparse.ArgumentParser) -> None:
    """The option that says where the token of a user stands."""
    told = f"a file with the user's token, or of users; else {tokens.VARIABLE} has the token"
    parser.add_argument("--token-file", metavar="FILE", help=told)
    parser.add_argument("--token", nargs="?", action=Refusal, help=argparse.SUPPRESS)


def connected(address: str, name: str, token_file: Optional[str]) -> ljclient.User:
    """A user of the server at an address. The example ends and says why if there is no token, or none that can be one."""
    host, _, port = address.rpartition(":")
    try:
        token = tokens.token_of(name, token_file, sys.stdin.isatty())
        return ljclient.connect(host.strip("[]"), int(port), name, token)
    except (ljclient.ClientError, ValueError) as error:
        stop(error)


def stop(error: object) -> NoReturn:
    """Ends the example with a line that says why."""
    sys.exit(f"{os.path.basename(sys.argv[0])}: {error}")


@contextlib.contextmanager
def user_of(options: argparse.Namespace) -> Iterator[ljclient.User]:
    """The user whose sessions the example has: of the server that is named, or of a program of its own."""
    try:
        with connected(options.server, options.user, options.token_file) if options.server else ljclient.run() as user:
            yield user
    except ljclient.ClientError as error:
        stop(error)


@contextlib.contextmanager
def hot_crystal(user: ljclient.User, name: str, h: int = H, heat: float = HEAT, watch: bool = True) -> Iterator[ljclient.Session]:
    """A session with a face-centred cubic crystal at rest, whose atoms are then tugged at random; dropped at the end."""
    session = user.load(name, crystal(), edge=EDGE, sigma=1, h=h, watch=watch)
    try:
        for atom, velocity in enumerate(velocities(heat)):
            unit = math.sqrt(h / RING) / EDGE * RING
            session.tug(atom, [round(part * unit) for part in velocity])
        yield session
    finally:
        with contextlib.suppress(ljclient.ClientError):
            session.drop()


def crystal() -> str:
    """The crystal as XYZ text, in units of sigma."""
    cell = EDGE / CELLS
    cube = [(i, j, k) for i in range(CELLS) for j in range(CELLS) for k in range(CELLS)]
    atoms = [[cell * (index + part) for index, part in zip(corner, face)] for corner in cube for face in FACES]
    return f"{ATOMS}\nface-centred cubic\n" + "".join(f"Ar {x:.6f} {y:.6f} {z:.6f}\n" for x, y, z in atoms)


def velocities(heat: float = HEAT) -> List[List[float]]:
    """Velocities of this temperature, in reduced units, whose sum is zero; the same in every run."""
    random.seed(1)
    drawn = [[random.gauss(0, math.sqrt(heat)) for _ in range(3)] for _ in range(ATOMS)]
    mean = [sum(parts) / ATOMS for parts in zip(*drawn)]
    return [[part - middle for part, middle in zip(parts, mean)] for parts in drawn]


def whole(places: Iterable[Any]) -> Frame:
    """Places as tuples of whole numbers, to be compared bit for bit."""
    return [tuple(map(int, place)) for place in places]


def distance(places: Any, others: Any) -> float:
    """The root mean square distance of atoms from others, each round the box the nearer way, in sigma."""
    return ljclient.distance(places, others) * EDGE / RING


def there_and_back(session: ljclient.Session, steps: int, piece: int) -> List[Frame]:
    """The places after each piece of so many steps, and after each piece of the way back; the last are those at the start."""
    frames = [whole(session.places())]
    for _ in range(0, steps, piece):
        session.advance(piece)
        frames.append(whole(session.places()))
    session.reverse()
    session.advance(piece - 1)  # reversing has gone back by one step already
    frames.append(whole(session.places()))
    for _ in range(piece, steps, piece):
        session.advance(piece)
        frames.append(whole(session.places()))
    return frames


def print_table(heads: Sequence[str], rows: Iterable[Sequence[object]]) -> None:
    """Prints columns of numbers under their heads."""
    print("".join(f"{head:>{max(14, len(head) + 2)}}" for head in heads))
    for row in rows:
        print("".join(f"{value:>{max(14, len(head) + 2)}}" for head, value in zip(heads, row)))


def needed(name: str) -> Any:
    """The module of this name. Where it cannot be imported, the ImportError says how this Python comes by what is missing."""
    try:
        return importlib.import_module(name)
    except ImportError as error:
        missing = (error.name or name).partition(".")[0]
        advice = f"{shlex.quote(sys.executable or 'python3')} -m pip install {missing}"
        raise ImportError(f"{error}; try `{advice}`", name=missing) from error


def pyplot() -> Any:
    """The drawing module of matplotlib, for files alone. Where there is none, the example ends and says so."""
    try:
        needed("matplotlib").use("Agg")
        return needed("matplotlib.pyplot")
    except ImportError as error:
        sys.exit(f"--plot needs matplotlib: {error}, or leave out --plot")


def prepare_picture(path: Optional[str]) -> None:
    """Ends the example and says why if a picture cannot be drawn into the file that is asked for, before anything is run."""
    if path is None:
        return
    if os.path.splitext(path)[1].lower() not in ENDINGS:
        stop(f"--plot {path}: the name of a picture ends with {', '.join(ENDINGS[:-1])} or {ENDINGS[-1]}")
    is_new = not os.path.lexists(path)
    try:
        with open(path, "ab"):  # what stands there is kept until the picture is drawn
            pass
        if is_new:
            os.remove(path)
    except OSError as error:
        stop(f"--plot {path}: {error.strerror}")
    pyplot()


def save_picture(draw: Callable[[Any], None], path: str) -> None:
    """Draws into a file."""
    figure, axes = pyplot().subplots(figsize=(7, 3.6), dpi=110, layout="constrained")
    draw(axes)
    save_figure(figure, path)


def show(path: Optional[str], draw: Callable[[Any], None], heads: Sequence[str], rows: Iterable[Sequence[object]]) -> None:
    """Draws into a file, or prints a table where no file is named."""
    if path:
        save_picture(draw, path)
    else:
        print_table(heads, rows)


def save_figure(figure: Any, path: str) -> None:
    """Writes a figure into a file. The example ends and says why if that fails."""
    try:
        figure.savefig(path)
    except OSError as error:
        stop(f"--plot {path}: {error.strerror}")
    print(f"drawn: {path}")
