"""`python3 -m ljclient verify run.lj` plays a record or all records of a study again, and checks that each reply is the same."""
from __future__ import annotations

import argparse
import os
import re
import sys
from typing import Any, Dict, List

from .errors import ClientError, Damaged
from .locate import find_program, version_of
from .names import shortened
from .prompt.starting import Parser, add_tls, check_tls, is_address, word_of_waiting
from .record import HEADS, shown
from .record_file import RecordFile
from .record_joints import Joints
from .record_plan import Plan, plan_of
from .record_playing import SPARE_ITEMS, Opener, Player, Stage, Tell, Trouble, play
from .tokens import token_of
from .connecting import connect, run
from .user import MAX_ITEMS, User

SECONDS = 600.0
SECONDS_OF_A_PROGRAM = 1_000_000.0
SAME, DIFFERS, TROUBLE, CUT = 0, 1, 2, 3
FORMATS = len(HEADS)
SUM = re.compile("[0-9a-f]{64}\\Z")
ABOUT = """\
Plays the commands of a record, which load(.., record=FILE) has written, and checks that each reply is the same: a line for each
command, with the SHA-256 of the record up to its reply. They are played over a program of its own, with the quota of the record, or
over a server, where NAME must have room for it and no session of that name. The session is dropped at the end.

The last line shows how many replies were compared; how many commands were not played, since the session has not replied to them;
the number of trajectories (a new one begins if the session is loaded again and is not as it was); the SHA-256 of the played
commands, which is the same in each record of these commands; and the SHA-256 of the record. A line for each load has the SHA-256
of its body. What was not played is only a claim of the file.

A session is loaded again by DROP and LOAD, by `moved`, and by 10 or a load that is granted, or refused for its body or for want of
room, over a new connection. Both frames, the symbols, sigma on the ring, h and weights are then compared with those just before,
in whatever order the atoms are. A TUG or a RESTORE begins no other trajectory. A session with saved states goes on behind `moved`
only if each of them is saved again as it was, under its name and in its order, and then the session is as it was before these were
restored and read: nothing but TUG and REVERSE may stand between. Over a server nothing is compared, nor where a program's million
commands leave no room to read the frames: then it is `at most` so many trajectories.

Status 0: each reply is the same. 1: one differs. 2: it could not be played, or the file is damaged or not the one of --sha256.
3: each reply is the same, and the record has no `end`, or is cut short (with --partial: 0).

With a folder of `ljclient.study` its records are played, several at the same time, a long one in parts from its checkpoints; each
file must have the SHA-256 of study.json, none may be missing or too many, and CITATION.cff must fit. The last line has the SHA-256
of study.json, which stands for all. Status 1: something does not fit, and is named. 3: the study is unfinished.
"""


def told(text: str) -> str:
    """A text as one line without control characters: names of files and versions may have any bytes."""
    return shown(text.encode("utf-8", "surrogateescape"))


def say(text: str) -> None:
    """Prints a line. Raises Trouble if it cannot be written, but BrokenPipeError if nobody reads it."""
    try:
        print(told(text), flush=True)
    except BrokenPipeError:
        raise
    except OSError as error:
        raise Trouble(f"cannot write the output: {error.strerror or error}") from error


def complain(text: str) -> None:
    print(f"ljclient: {told(text)}", file=sys.stderr, flush=True)


def let_go() -> None:
    """Redirects standard output, which has failed, to the null device."""
    os.dup2(os.open(os.devnull, os.O_WRONLY), sys.stdout.fileno())


def options_of(words: List[str]) -> argparse.Namespace:
    """The options of the command line."""
    usage = "python3 -m ljclient verify FILE [OPTION ..] [--program PROGRAM | --server HOST:PORT NAME [OPTIONS OF THE PROMPT]]"
    parser = Parser("ljclient", usage, ABOUT, formatter_class=argparse.RawDescriptionHelpFormatter, allow_abbrev=False)
    parser.add_argument("file", metavar="FILE", help="the record, or the folder of a study")
    over = parser.add_mutually_exclusive_group()
    over.add_argument("--program", metavar="PROGRAM", help="the program to play it over; else the one that ljclient.run starts")
    over.add_argument("--server", nargs=2, metavar=("HOST:PORT", "NAME"), help="the address of `ljserve serve`, and the name of a user")
    parser.add_argument("--token-file", metavar="FILE", help="a file with the token, as for the prompt")
    parser.add_argument("--timeout", metavar="SECONDS", type=float, help=f"how long a reply of a server may take (default: {SECONDS:g})")
    parser.add_argument("--quiet", action="store_true", help="print only the lines of loads and of what is not played, and the last one")
    parser.add_argument("--partial", action="store_true", help="status 0 for a record without its end, if all that is there is the same")
    parser.add_argument("--sha256", metavar="HEX", type=str.lower, help="the SHA-256 that it must have, such as one from a paper")
    parser.add_argument(
        "--jobs", metavar="N", type=int, help="how many parts of a study are played at the same time (default: one for each processor)"
    )
    add_tls(parser)
    options, unknown = parser.parse_known_args(words)
    parser.refuse(unknown)
    if options.server and not is_address(options.server[0]):
        parser.error("the first word of --server must be HOST:PORT, such as 127.0.0.1:4000")
    if options.timeout is not None and not 0 < options.timeout < float("inf"):
        parser.error(f"--timeout must be a finite number of seconds above 0, got {options.timeout:g}")
    if options.jobs is not None and options.jobs < 1:
        parser.error(f"--jobs must be at least 1, got {options.jobs}")
    if options.program == "":
        parser.error("--program must be the path of a program, got an empty one")
    if options.sha256 is not None and not SUM.match(options.sha256):
        parser.error(f"--sha256 must be 64 hexadecimal digits, got {shortened(options.sha256)}")
    check_tls(parser, options)
    return options


def opener_of(options: argparse.Namespace) -> Opener:
    """A function that starts a user to play a record."""

    def begun(file: RecordFile) -> User:
        sessions, atoms, branches = file.quota.numbers
        limit = options.timeout or SECONDS_OF_A_PROGRAM
        return run(options.program, sessions=sessions, atoms=atoms, branches=branches, timeout=limit)

    def connected(file: RecordFile) -> User:
        address, name = options.server
        host, _, port = address.rpartition(":")
        token = token_of(name, options.token_file, sys.stdin.isatty())
        with word_of_waiting(name):
            limit = options.timeout or SECONDS
            way: Dict[str, Any] = {"tls": options.tls, "ca": options.ca, "fingerprint": options.fingerprint}
            user = connect(host.strip("[]"), int(port), name, token, timeout=limit, **way)
        if any(row.name == file.session for row in user.sessions()):
            user.close()
            raise Trouble(
                f"cannot play {options.file}: {name} has a session {file.session} at {address} already; drop it, or use another user"
            )
        return user

    return connected if options.server else begun


def checked(options: argparse.Namespace) -> Plan:
    """The contents of the record, read once. Raises `Damaged`, or Trouble if it cannot be played as requested."""
    plan = plan_of(options.file)
    most = max(plan.played)
    if not most:
        raise Trouble(f"cannot play {options.file}: it has no command with a reply")
    if most + SPARE_ITEMS > MAX_ITEMS and not options.server:
        raise Trouble(f"cannot play {options.file}: it has {most} commands, and a program takes {MAX_ITEMS}; use --server HOST:PORT NAME")
    if options.sha256 not in (None, plan.file.sum):
        raise Trouble(f"{options.file} must have the SHA-256 {options.sha256}, got {plan.file.sum}: it is another record")
    return plan


def is_whole(file: RecordFile) -> bool:
    """Whether a record has its end. A missing end is reported."""
    path = os.fspath(file.path)
    if file.cut:
        complain(f"{path}, line {file.cut}: the file is cut short here, as where its writer was killed; it is played up to here")
    elif not file.is_ended:
        complain(f"{path} has no `end`: its writer was killed, or its user was not closed; it is played up to its last line")
    return file.is_ended


def counted(number: int, what: str, many: str) -> str:
    return f"{number} {what if number == 1 else many}"


def compared(player: Player) -> str:
    """How many replies were compared, and how many are not the same."""
    replies = counted(player.count, "reply", "replies")
    if player.differing:
        verb = "differs" if len(player.differing) == 1 else "differ"
        return f"{len(player.differing)} of {replies} {verb}, the first at line {player.differing[0]}"
    return f"{replies} is the same" if player.count == 1 else f"all {replies} are the same"


def trajectories_of(joints: Joints) -> str:
    """How many trajectories a record has, or has at most."""
    number = counted(joints.trajectories, "trajectory", "trajectories")
    if not joints.uncompared:
        return number
    loads = counted(joints.uncompared, "load was", "loads were")
    return f"at most {number}, since {loads} not compared with the session before"


def verdict(plan: Plan, player: Player, joints: Joints) -> str:
    """The final report on a record."""
    parts = [compared(player), counted(plan.left_out, "command was not played", "commands were not played"), trajectories_of(joints)]
    if plan.connections:
        parts.append(counted(plan.connections, "new connection", "new connections"))
    if plan.file.continues:
        parts.append(f"the file says that it continues {plan.file.continues}")
    if plan.file.format != FORMATS:
        parts.append(f"its format is {plan.file.format}")
    if not plan.file.is_ended:
        parts.append("it has no end")
    parts.append(f"its commands have the SHA-256 {plan.commands}")
    return f"{player.path}: {'; '.join(parts)}; SHA-256 {plan.file.sum}"


def heading(options: argparse.Namespace, file: RecordFile) -> str:
    """The programs of the recording, as the file says, and the present one, if its version is known. A server's is not."""
    unknown = ["a program that tells no version"]
    here = unknown if options.server else version_of(options.program) or unknown
    said = f"recorded by {file.client or 'an unknown client'} over {(file.programs or unknown)[0]}, with a quota of {file.quota}"
    return f"the file says: {said}; played over {here[0]}"


def verify(options: argparse.Namespace) -> int:
    """Plays a record, or those of a study, and prints the results. Returns the exit status."""
    if os.path.isdir(options.file):
        from .study_verifying import verify_study

        return verify_study(options)
    plan = checked(options)
    is_ended = is_whole(plan.file)
    tell: Tell = (lambda text: None) if options.quiet else say
    player = Player(os.fspath(options.file), tell, say, complain)
    if not options.server and options.program is None:
        options.program = find_program()
    tell(heading(options, plan.file))
    stage = Stage(opener_of(options), bool(options.server), plan, player)
    try:
        play(plan, stage, player)
    finally:
        stage.close()
    say(verdict(plan, player, stage.joints))
    if player.differing:
        return DIFFERS
    return SAME if is_ended or options.partial else CUT


def main(words: List[str]) -> int:
    """Verifies the record of the command line, and returns the exit status."""
    options = options_of(words)
    try:
        return verify(options)
    except BrokenPipeError:
        let_go()
    except OSError as error:
        complain(f"cannot read {options.file}: {error.strerror or error}" if not isinstance(error, ClientError) else str(error))
    except (ClientError, Damaged, Trouble, ValueError) as error:
        complain(str(error))
        if isinstance(error.__cause__, OSError) and isinstance(error, Trouble):
            let_go()
    except KeyboardInterrupt:
        complain("interrupted")
    return TROUBLE
