"""Each block of the documents is run as it stands, or named here with the reason why it is not.

The names of blocks are what they begin with or, of Python, what stands in them. Where a document shows what is printed,
that is compared. Addresses are replaced by that of a server on a loopback port.
"""
import ast
import contextlib
import itertools
import os
import re
import shutil
import socket
import subprocess
import time
from fractions import Fraction
from typing import Any, Iterator, List, Tuple

import pytest
from blocks import TOP, all_blocks
from class_blocks import after_the_lesson, before_the_lesson, lesson_at_the_prompt, lesson_in_python, prompt_of_a_student
from study_blocks import compared_records, verified_study
from support import EXAMPLES, SECONDS, Server, free_port, present
from terminals import PROMPT, Terminal, environment

LOADED = "LOAD a 256 1 131072 rest 28\n2\ndimer\nAr 0 0 0\nAr 1.5 0 0\n"
USERS = (EXAMPLES / "users").read_text()


def contents(document: str) -> str:
    return (TOP / document).read_text()


def replies(folder: Any, commands: Any) -> Any:
    return folder.shell("bin/ljserve", commands).splitlines()


def at_port(text: Any, port: Any) -> Any:
    """The text with the port of a server on this machine in place of that of the documents."""
    return re.sub(r'127\.0\.0\.1(:|", )400\d', rf"127.0.0.1\g<1>{port}", text)


# Checks that several blocks have.


def runs(but: Any = None) -> Any:
    """Holds that the lines of a block end with status 0, but for those that begin with words that are named with a reason."""

    def check(block: Any, folder: Any) -> None:
        left_out = but or {}
        lines = block.text.splitlines()
        assert all(any(line.startswith(word) for line in lines) for word in left_out)
        folder.shell("\n".join(line for line in lines if not line.startswith(tuple(left_out))))

    return check


def prints(*wanted: Any, needs: str = "ljclient") -> Any:
    def check(block: Any, folder: Any) -> None:
        pytest.importorskip(needs, reason=f"{needs} is not installed")
        assert folder.python(block.text) == list(wanted)

    return check


def prints_the_file(path: Any) -> Any:
    def check(block: Any, folder: Any) -> None:
        assert folder.shell(block.text) == contents(path)

    return check


def stands_in(path: Any) -> Any:
    """Holds that a file has these lines, however far they are indented there."""

    def lines_of(text: Any) -> str:
        return "\n".join(line.strip() for line in text.splitlines())

    def check(block: Any, _: Any) -> None:
        assert lines_of(block.text) in lines_of(contents(path))

    return check


def parted(text: Any) -> Tuple[str, str]:
    """The commands of a dialogue, and the replies that stand below each."""
    commands, told = [], []
    lines = iter(text.splitlines(keepends=True))
    for line in lines:
        if not line.startswith(("OK ", "ERR ")):
            commands.append(line)
            continue
        told.append(line)
        if line.startswith(("OK LIST", "OK DUMP")):
            told += itertools.islice(lines, int(line.split()[-1]))
    return "".join(commands), "".join(told)


def is_dialogue(before: str = "") -> Any:
    """Holds that the program replies as a dialogue shows, after other commands."""

    def check(block: Any, folder: Any) -> None:
        commands, told = parted(block.text)
        assert commands and told
        assert folder.shell("bin/ljserve", before + commands).endswith(told)

    return check


# README.md


def stored_run(block: Any, folder: Any) -> None:
    runs({"bin/try": NEEDS_KIT, "bin/test": NEEDS_KIT})(block, folder)
    (command,) = [line for line in block.text.splitlines() if line.startswith("bin/ljserve")]
    assert folder.shell(command) == (EXAMPLES / "dimer.replies").read_text()


def lines_of_protocol(block: Any, folder: Any) -> None:
    """The replies are those of the table below the block, whose commands are those of the block without the body."""
    rows = re.findall(r"^\| `(.*?)` \| `(.*?)` \|", contents("README.md").split(block.text)[1].split("\n## ")[0], re.M)
    commands, told = zip(*rows)
    assert folder.shell(block.text).splitlines() == list(told)
    inside = "".join(f"{line}\n" for line in block.text.splitlines()[1:-1])
    assert inside == LOADED + "".join(f"{command}\n" for command in commands[1:])


# docs/


def commands_of_a_checkpoint(block: Any, folder: Any) -> None:
    told = present(re.search(r"The replies are `(.*?)`, `(.*?)` and `(.*?)`", contents(block.document))).groups()
    assert replies(folder, block.text) == list(told)


def played_record(block: Any, folder: Any) -> None:
    """The record is that of the block above."""
    text = contents(block.document)
    (script,) = [each.text for each in all_blocks() if each.document == block.document and "record=" in each.text]
    folder.python(script)
    *_, verdict = folder.shell(block.text).splitlines()
    said = present(re.search(r"`(all \d+ replies are the same; [^`]*)`", text))[1]
    record, commands = (folder.shell(each).split()[0] for each in re.findall(r"`(sed .*? sha256sum)`", text))
    assert verdict == f"argon.lj: {said}; its commands have the SHA-256 {commands}; SHA-256 {record}"


def file_of_a_record(block: Any, folder: Any) -> None:
    folder.put("run.lj", block.text)
    told = folder.shell("python3 -m ljclient verify --quiet run.lj")
    assert ": all 4 replies are the same; 0 commands were not played; 1 trajectory; its commands have the SHA-256 " in told


def own_file(block: Any, folder: Any) -> None:
    told = folder.shell(block.text).splitlines()
    assert told[:2] == ["OK LOAD a 0 256", "OK ADVANCE a 100"]
    assert f"`{told[2]}`" in contents("docs/api/examples.md")


def connected(port: Any, child: Any) -> Any:
    """A connection to a server, once it listens."""
    end = time.monotonic() + SECONDS
    while child.poll() is None and time.monotonic() < end:
        with contextlib.suppress(ConnectionRefusedError):
            return socket.create_connection(("127.0.0.1", port), SECONDS)
        time.sleep(0.01)
    raise AssertionError("the server does not listen")


@contextlib.contextmanager
def begun(command: Any, folder: Any) -> Iterator[Any]:
    """A connection to the server that a command of a document begins, at a port that is free."""
    port = free_port()
    words = ["sh", "-c", "exec " + at_port(command, port)]
    child = subprocess.Popen(words, cwd=folder.path, env=folder.environment, stdout=subprocess.DEVNULL)
    try:
        yield connected(port, child)
    finally:
        child.kill()
        child.wait()


def is_told(connection: Any, commands: Any) -> Any:
    """What a server replies to commands up to the end of the connection."""
    with connection:
        connection.sendall(commands.encode())
        connection.shutdown(socket.SHUT_WR)
        return connection.makefile().read()


def serves(block: Any, folder: Any) -> None:
    with begun(block.text, folder) as connection:
        assert is_told(connection, "HELLO alice aliceExampleToken000000000000001\nLIST\n") == "OK HELLO alice\nOK LIST 0\n"


def done_as_root(block: Any, folder: Any) -> Any:
    """Runs the lines of a block that change no machine, with a folder in place of the machine's."""
    left_out = ("apt-get", "tar", "systemctl")
    for each in ("etc/systemd/system", "etc/default", "etc/ljserve"):
        (folder.path / each).mkdir(parents=True, exist_ok=True)
    lines = [line for line in block.text.splitlines() if not line.startswith(left_out)]
    return folder.shell("\n".join(lines).replace("/etc/", f"{folder.path}/etc/").replace("/opt/ljserve", str(folder.path)))


def first_user(path: Any) -> Tuple[str, str]:
    """The HELLO of the first user of a file."""
    name, token = present(re.search(r"^(\w+) (\w{32}) ", path.read_text(), re.M)).groups()
    return f"HELLO {name} {token}\n", f"OK HELLO {name}\n"


def command_of(folder: Any, unit: str) -> str:
    """What a unit begins that was installed."""
    (command,) = re.findall(r"^ExecStart=(.*)$", (folder.path / "etc" / "systemd" / "system" / unit).read_text(), re.M)
    return str(command).replace("/opt/ljserve", str(folder.path))


def first_server(block: Any, folder: Any) -> None:
    """The unit begins a server of the users that were made."""
    done_as_root(block, folder)
    users = folder.path / "etc" / "ljserve" / "users"
    command = command_of(folder, "ljserve-keep.service").replace("${RUNTIME_DIRECTORY}/users", str(users)).replace(":9402", ":0")
    hello, told = first_user(users)
    with begun(command.replace("${STATE_DIRECTORY}", str(folder.path / "kept")), folder) as connection:
        assert is_told(connection, f"{hello}LIST\n") == f"{told}OK LIST 0\n"
    assert (folder.path / "kept" / "kept.sqlite").exists()
    assert (users.stat().st_mode & 0o777, len(re.findall(r"^student\d+ ", users.read_text(), re.M))) == (0o600, 20)


def servers_behind_haproxy(block: Any, folder: Any) -> None:
    """Each server has its users and the words of its unit, and HAProxy takes the config that its defaults name."""
    if shutil.which("openssl") is None:
        pytest.skip("openssl is not installed")
    done_as_root(block, folder)
    shards = folder.path / "etc" / "ljserve" / "shards"
    assert [len((shards / f"users{number}").read_text().splitlines()) for number in (1, 2, 3)] == [50, 50, 50]
    hello, told = first_user(shards / "users2")
    env = dict(line.split("=") for line in (shards / "server2.env").read_text().splitlines())
    env |= {"LISTEN": "127.0.0.1:4000", "STATE_DIRECTORY": str(folder.path / "kept"), "METRICS": "127.0.0.1:0"}
    command = command_of(folder, "ljserve-keep@.service").replace("${RUNTIME_DIRECTORY}/users", env["USERS"])
    with begun(re.sub(r"\$\{(\w+)\}", lambda name: str(env[name[1]]), command), folder) as connection:
        assert is_told(connection, f"{hello}LIST\n") == f"{told}OK LIST 0\n"
    haproxy = shutil.which("haproxy", path=f"{os.environ['PATH']}:/usr/sbin")
    if haproxy is None:
        pytest.skip("haproxy is not installed")
    where = f"export LJSERVE_FOLDER={shards} LJSERVE_HAPROXY={folder.path}/packaging/haproxy"
    told = folder.shell(f'{where}\n. etc/default/haproxy\n{haproxy} -c -f "$CONFIG" $EXTRAOPTS 2>&1')
    assert told == "Configuration file is valid\n"


def dialogue_of_a_connection(block: Any, _: Any) -> None:
    first, text = block.text.split("\n", 1)
    commands, told = parted(text)
    assert first == "$ nc 127.0.0.1 4000"
    with Server(lines=USERS) as server:
        assert is_told(socket.create_connection(("127.0.0.1", server.port), SECONDS), commands) == told


def prompt_of_a_server(block: Any, folder: Any) -> None:
    with Server(lines=USERS) as server:
        assert folder.shell(at_port(block.text, server.port), "LIST\n") == "OK LIST 0\n"


def users_in_a_store(block: Any, folder: Any) -> None:
    assert folder.shell(block.text) == ""
    names = [line.split()[0] for line in folder.shell("tools/users --store kept --list").splitlines()]
    assert len(names) == len(set(names)) == 200
    assert sorted(re.findall(r"^(\w+) at ", (folder.path / "slips").read_text(), re.M)) == names


# clients/python/README.md and docs/api/


def path_of_the_client(block: Any, folder: Any) -> None:
    assert folder.shell(block.text, "import ljclient\nprint(ljclient.run().sessions())\n", client=False) == "[]\n"


def five_minutes(block: Any, folder: Any) -> None:
    measured, away, back = folder.python(block.text)
    assert f"{float(measured.split()[0]):.6f}" == "2.000109"
    assert float(away) > 1000
    assert back == "0.0"


def server_that_keeps(block: Any, folder: Any) -> None:
    with Server(lines=USERS) as server:
        told = folder.python(at_port(block.text, server.port))
    assert told == ["[Row(name='argon', step=100, atoms=256, branches=1)]", "100"]


def on_the_way(block: Any, folder: Any) -> None:
    *rows, steps = folder.python(block.text)
    assert [row.split()[0] for row in rows] == ["0", "100", "200"]
    assert steps == "[200, 210, 220, 230, 240] 5"
    assert (folder.path / "argon_way.xyz").read_text().count("step=") == 5


def to_a_temperature(block: Any, folder: Any) -> None:
    (told,) = folder.python(block.text)
    assert abs(float(told) - 94.4) < 1.5


def driver_of_ase(block: Any, folder: Any) -> None:
    pytest.importorskip("ase", reason="ASE is not installed")
    *rows, back = folder.python(block.text)
    assert [row.split()[0] for row in rows] == ["0", "500", "1000", "1500", "2000"]
    assert back == "True"


def two_species(block: Any, folder: Any) -> None:
    """Sigma of each pair, the mean of both for unlike atoms, is rounded down to ring units."""
    *told, energy = folder.python(block.text)
    assert [row.split(":")[0] for row in told] == ["Ar with Ar", "Ar with Kr", "Kr with Kr"]
    sigmas = [int(Fraction(text) / Fraction("21.04") * 2**32) for text in ("3.4", "3.525", "3.65")]
    assert [int(present(re.search(r"\((\d+) ring units\)", row))[1]) for row in told] == sigmas
    assert float(energy) < -1


def many_runs(block: Any, folder: Any) -> None:
    """At first one atom alone moves, by its tug along x."""
    noted = [ast.literal_eval(line) for line in folder.python(block.text)]
    assert [(len(each), each[0]) for each in noted] == [(3, 1000000**2)] * 8
    assert len({each[-1] for each in noted}) == 8


def prompt_at_a_terminal(block: Any, folder: Any) -> None:
    """Each line is typed, and what is shown below it is as in the document."""
    with contextlib.closing(Terminal(PROMPT, {**environment(), "PYTHONPATH": str(TOP / "clients" / "python")})) as terminal:
        terminal.until("ljserve> ")
        for part in block.text.split("ljserve> ")[1:]:
            line, told = part.split("\n", 1)
            terminal.type(line.replace("examples/", f"{EXAMPLES}/") + "\r")
            terminal.until("\n")
            assert terminal.until("ljserve> ") == f"{told}ljserve> "


def prompt_in_a_pipe(block: Any, folder: Any) -> None:
    *told, place = folder.shell(block.text).splitlines()
    assert told == ["OK LOAD a 0 256", "OK ADVANCE a 100"] and f"`{place}`" in contents("docs/api/examples.md")


# conformance/README.md


def streams_of_a_port(block: Any, folder: Any) -> None:
    folder.put("my_port", '#!/bin/sh\nshift 2\nexec bin/ljserve run "$@"\n')
    assert folder.shell(block.text.splitlines()[1]).endswith(" streams agree, 0 differ\n")


def first_difference(block: Any, folder: Any) -> None:
    """The lines below the block are told of a port that has no ADVANCE."""
    folder.put("my_port", "#!/bin/sh\nbin/ljserve run \"$@\" | sed 's/^OK ADVANCE.*/ERR 06 COMMAND/'\n")
    told = folder.shell(f"{block.text.strip()} || true")
    (wanted,) = [each.text for each in all_blocks() if each.is_named("lines: 63 of 63")]
    assert set(wanted.splitlines()) < set(told.splitlines())


def reference(block: Any, folder: Any) -> None:
    assert folder.shell(block.text.splitlines()[0]) == (EXAMPLES / "dimer.replies").read_text()


# What becomes of each block: the check that runs it, or the reason why it is not run.

DRAWING = "a drawing"
FORM = "the form of a line"
NEEDS_KIT = "needs a kit of the toolchain, and minutes of proofs"
TAKES_HOURS = "takes hours"
BLOCKS = {
    "README.md": {
        "bin/try < examples/dimer.txt": stored_run,
        "rattle-kit": "the kit, as `rt version` tells it",
        "bin/ljserve << 'END'": lines_of_protocol,
        "for _ in range(2)": prints("0.0"),
    },
    "CONTRIBUTING.md": dict.fromkeys(("/// Returns whether a user has all sessions", "rt check", "rt try", "bin/release"), NEEDS_KIT),
    "docs/ARCHITECTURE.md": {"                      lock: DirectoryState": DRAWING},
    "docs/api/ase.md": {"ReversibleVerlet(": driver_of_ase},
    "docs/api/ensemble.md": {"partial(begin": many_runs},
    "docs/api/examples.md": {"(examples/load": own_file},
    "docs/api/files.md": {
        "argon.save(": prints("500 1000", "0.0"),
        "ljserve checkpoint 1": "clients/python/tests/test_checkpoint.py compares it with a file that is written by hand",
        "LOAD a 4294.967296": commands_of_a_checkpoint,
        "argon.advance(100, piece=100)": prints("True"),
        "python3 -m ljclient verify argon": played_record,
        "ljserve record 2": file_of_a_record,
        "s.advance(fluid": prints("finished", needs="numpy"),
        "python3 -m ljclient verify fluid-study": verified_study,
        "python3 -m ljclient diff": compared_records,
    },
    "docs/api/loading.md": {"user.load_mix(": two_species},
    "docs/api/prompt.md": {
        "python3 -m ljclient\n": runs(),
        "ljserve> LOAD": prompt_at_a_terminal,
        "python3 -m ljclient check": "clients/python/tests/test_lessons.py runs it, over the record of the command that stands above it",
        "printf": prompt_in_a_pipe,
    },
    "docs/api/steps.md": {
        "fine.start(100)": prints("[200, 100]", "300", "300 300"),
        "argon.equilibrate(": to_a_temperature,
    },
    "docs/api/view.md": {
        "python3 -m ljclient view  ": "needs a browser; clients/python/tests/test_view_program.py begins it without one",
        "python3 -m ljclient view 127": "needs a browser; clients/python/tests/test_view_server.py begins it without one",
        "python3 -m ljclient view --listen": "needs a browser; clients/python/tests/test_view_listening.py begins it without one",
    },
    "docs/CLASS.md": {
        "tools/class": before_the_lesson,
        "22 users in": "compared with what the block above it shows",
        "python3 -m ljclient 192.0.2.10": prompt_of_a_student,
        "LOAD argon": lesson_at_the_prompt,
        "from ljclient import connect, distance": lesson_in_python,
        "from ljclient import connect, units": after_the_lesson,
    },
    "docs/PROOFS.md": {
        "pub fn image": stands_in("crates/lj_ring/src/coordinates.rt"),
        "-- z is the least image": stands_in("crates/lj_ring/specs/Ring.antt"),
        "pub fn steps_are_undone": stands_in("crates/lj_step/src/motion_laws.rt"),
    },
    "docs/PROTOCOL.md": {
        LOADED: is_dialogue(),
        "LOADMIX m": is_dialogue(),
        "START a 2": is_dialogue(LOADED + LOADED.replace("LOAD a", "LOAD b")),
        "TUG a 0 -2147483648": is_dialogue(LOADED),
        "ljserve run": runs(),
        "bin/ljserve replay": prints_the_file("examples/two_users.replies"),
        "user NAME": FORM,
    },
    "docs/SERVER.md": {
        "bin/ljserve serve": serves,
        "python3 -m ljclient 127.0.0.1": prompt_of_a_server,
        "NAME TOKEN": FORM,
        "$ nc": dialogue_of_a_connection,
        "apt-get install python3": first_server,
        "apt-get install haproxy": servers_behind_haproxy,
        "tools/keep 127.0.0.1": "tests/tools/test_keep.py runs it, at ports that are free",
        "tools/users 200": users_in_a_store,
        "tools/keep 192.0.2.1": "tests/tools/test_keep_fronts.py runs two, over a database of its own",
        "0.0.0.0:4000  2 open": "tests/tools/test_watch.py compares such lines, whose times and addresses differ",
        "tools/watch --metrics": "tests/tools/test_watch_metrics.py runs it, at ports that are free",
        "apt install ./": "tests/packaging/test_debian_packages.py installs both, in a root of its own",
        "apt-get install buildah": "tests/containers/test_kept_image.py makes such an image, and begins a container by the last line",
        "cat /etc/ljserve/users": "tests/packaging/test_debian_packages.py reads the token there, and lets the prompt read it",
    },
    "bench/README.md": {
        "bench/soak serve": TAKES_HOURS,
        "bench/soak bytes": TAKES_HOURS,
        "bench/keep kills": "takes minutes; tests/tools/test_keep_trials.py has a few kills and streams",
    },
    "clients/python/README.md": {
        "export PYTHONPATH": path_of_the_client,
        "python3 -m venv": "tests/packaging/test_wheels.py runs it, in a folder with the wheels",
        "print(argon.dt": five_minutes,
        'argon.branch("warm")': server_that_keeps,
        "argon.thermo(": on_the_way,
    },
    "conformance/README.md": {
        "conformance/run bin/ljserve": streams_of_a_port,
        "motion/edges_of_bins": "what a port is told that rounds down",
        "conformance/run --first": first_difference,
        "lines: 63 of 63": "compared with what the block above it prints",
        "conformance/reference.py <": reference,
        "conformance/random": "takes an hour; tests/conformance/test_conformance.py plays 300 streams",
    },
}
NAMED = [(document, word) for document, words in BLOCKS.items() for word in words]


def found(block: Any) -> List[Any]:
    """What is said of a block: for each name that it has, the check or the reason."""
    return [said for word, said in BLOCKS.get(block.document, {}).items() if block.is_named(word)]


RUN = [block for block in all_blocks() if any(map(callable, found(block)))]


@pytest.mark.parametrize("block", RUN, ids=str)
def test_block(block: Any, folder: Any) -> None:
    (check,) = found(block)
    check(block, folder)


def test_the_comparison_that_is_silent(folder: Any) -> None:
    """Both files are among the examples, since a release has no crates."""
    (command,) = re.findall(r"`(bin/ljserve < \S+ \| cmp - \S+)` finds no difference", contents("README.md"))
    assert folder.shell(command) == ""
    assert contents("examples/dimer.txt") == contents("crates/ljserve/stdin")
    assert contents("examples/dimer.replies") == contents("crates/ljserve/stdout")


@pytest.mark.parametrize("block", all_blocks(), ids=str)
def test_it_is_run_or_named_with_a_reason(block: Any) -> None:
    assert len(found(block)) == 1


@pytest.mark.parametrize("document, word", NAMED)
def test_a_name_is_that_of_one_block(document: Any, word: Any) -> None:
    assert sum(block.document == document and block.is_named(word) for block in all_blocks()) == 1
