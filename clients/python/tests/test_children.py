"""The token of a user, in the environment of whoever says it there, is not handed to programs that are begun from there."""
import asyncio
import contextlib
import os
import pathlib
import subprocess
import sys
from concurrent.futures import ProcessPoolExecutor
from functools import partial
from typing import Any, Dict

import ensemble_jobs
import pytest

from ljclient import Job, ensemble, locate, run
from support import DIMER, SECONDS, TOKEN, TOP, present, wait_until
from terminals import environment

sys.path.append(str(TOP / "tools"))
from ljtools import children  # noqa: E402
from ljtools.keeping import server  # noqa: E402

# A program that writes its environment into a file beside it, and is replied to as `ljserve run` without sessions is.
TELLS = """\
import os, pathlib, sys
told = pathlib.Path(__file__).with_suffix(".told")
told.with_suffix(".part").write_text("".join(f"{name}={value}\\n" for name, value in os.environ.items()))
told.with_suffix(".part").replace(told)
if "--version" in sys.argv:
    print("ljserve 1.1.0")
for line in sys.stdin if sys.argv[1:2] == ["run"] else []:
    print({"LIST\\n": "OK LIST 0", "BYE\\n": "OK BYE"}.get(line, "ERR 06 COMMAND"), flush=True)
"""


class Program:
    """Such a program, in a folder."""

    def __init__(self, folder: pathlib.Path, name: str = "ljserve"):
        self.path = folder / name
        self.path.write_text(f"#!{sys.executable}\n{TELLS}")
        self.path.chmod(0o755)

    def was_given(self) -> Dict[str, str]:
        """The environment that it had."""
        told = self.path.with_suffix(".told")
        wait_until(told.exists)
        return dict(line.split("=", 1) for line in told.read_text().splitlines() if "=" in line)

    def has_no_token(self) -> bool:
        """Whether it had an environment, and no token in it."""
        given = self.was_given()
        return "PATH" in given and "LJSERVE_TOKEN" not in given and TOKEN not in given.values()


@pytest.fixture
def program(tmp_path: pathlib.Path, monkeypatch: pytest.MonkeyPatch) -> Program:
    """Such a program, begun from where a token is in the environment."""
    monkeypatch.setenv("LJSERVE_TOKEN", TOKEN)
    return Program(tmp_path)


def test_the_program_of_run(program: Program) -> None:
    run(program.path).close()
    assert program.has_no_token()


def test_an_environment_that_is_said(program: Program) -> None:
    run(program.path, env={**os.environ, "MINE": "5"}).close()
    assert program.has_no_token() and program.was_given()["MINE"] == "5"


def test_a_program_that_tells_its_version(program: Program) -> None:
    assert locate.version_of(str(program.path)) == ["ljserve 1.1.0"]
    assert program.has_no_token()


def test_a_program_that_is_built_first(program: Program) -> None:
    locate._build(program.path)
    assert program.has_no_token()


@pytest.mark.parametrize("executor", [None, partial(ProcessPoolExecutor, 1)], ids=["here", "processes"])
def test_the_programs_of_an_ensemble(program: Program, executor: Any) -> None:
    with pytest.raises(Exception, match="COMMAND"):
        ensemble([Job(partial(ensemble_jobs.begin, 0), ensemble_jobs.look, 1, 1)], executor, program=program.path)
    assert program.has_no_token()


def test_the_programs_of_a_prompt_and_of_its_lines(program: Program, tmp_path: pathlib.Path) -> None:
    """What is begun from within the prompt has none either, such as an editor: it is gone from its own environment."""
    script = "import os, sys\nfrom ljclient import prompt\nprompt.main([])\nprint('LJSERVE_TOKEN' in os.environ)"
    env = environment(LJSERVE=str(program.path), LJSERVE_TOKEN=TOKEN)
    done = subprocess.run([sys.executable, "-c", script], input="LIST\n", capture_output=True, text=True, env=env, timeout=SECONDS)
    assert done.stdout == "OK LIST 0\nFalse\n" and program.has_no_token()


def test_the_browser_of_a_view(tmp_path: pathlib.Path) -> None:
    pytest.importorskip("aiohttp")
    browser, view = Program(tmp_path, "browser"), [sys.executable, "-m", "ljclient", "view"]
    env = environment(LJSERVE_TOKEN=TOKEN, BROWSER=f"{browser.path} %s &")
    with subprocess.Popen(view, stdout=subprocess.DEVNULL, env=env) as child:
        try:
            assert browser.has_no_token()
        finally:
            child.terminate()


def test_the_server_of_a_class(program: Program, tmp_path: pathlib.Path) -> None:
    words = [sys.executable, str(TOP / "tools" / "class"), "ann", "--listen", "127.0.0.1:0"]
    env = environment(LJSERVE=str(program.path), LJSERVE_TOKEN=TOKEN)
    done = subprocess.run(words, cwd=tmp_path, capture_output=True, text=True, env=env, timeout=SECONDS)
    assert done.returncode == 1 and program.has_no_token()


def test_the_server_that_is_kept(program: Program, tmp_path: pathlib.Path) -> None:
    words = server.Words([str(program.path), "serve", "--users", "users"])

    async def begun() -> None:
        assert await server.version_of(str(program.path)) == "ljserve 1.1.0"
        assert program.has_no_token()
        program.path.with_suffix(".told").unlink()
        one = await server.begin(words, "8 16384 16")
        await one.ended()

    asyncio.run(begun())
    assert program.has_no_token()


def test_a_version_that_is_not_waited_for(tmp_path: pathlib.Path, capfd: pytest.CaptureFixture[str]) -> None:
    """Who ends while a program is asked for its version ends it first, so that nothing of it comes after the loop."""
    slow = tmp_path / "slow"
    slow.write_text(f"#!/bin/sh\necho $$ > {slow}.number\nexec sleep 600\n")
    slow.chmod(0o755)

    async def interrupted() -> None:
        asking = asyncio.create_task(server.version_of(str(slow)))
        while not (told := pathlib.Path(f"{slow}.number")).exists() or not told.read_text():
            await asyncio.sleep(0.01)
        asking.cancel()
        await asyncio.gather(asking, return_exceptions=True)
        assert not is_there(int(told.read_text()))

    asyncio.run(interrupted())
    assert "".join(capfd.readouterr()) == ""


def test_other_programs_of_the_tools(monkeypatch: pytest.MonkeyPatch) -> None:
    monkeypatch.setenv("LJSERVE_TOKEN", TOKEN)
    assert children.environment() == {name: value for name, value in os.environ.items() if name != "LJSERVE_TOKEN"}


# A parent that begins a program so that this ends with it, and tells its number.
PARENT = """\
import subprocess, sys, time
from ljtools.children import ending_with_parent
print(subprocess.Popen(ending_with_parent(["sleep", "600"])).pid, flush=True)
time.sleep(600)
"""


def is_there(process: int) -> bool:
    """Whether a program runs, and was not only ended."""
    with contextlib.suppress(OSError):
        return pathlib.Path(f"/proc/{process}/stat").read_text().rpartition(")")[2].split()[0] != "Z"
    return False


def test_a_program_that_ends_with_its_parent() -> None:
    environment = {**os.environ, "PYTHONPATH": str(TOP / "tools")}
    with subprocess.Popen([sys.executable, "-c", PARENT], stdout=subprocess.PIPE, text=True, env=environment) as parent:
        child = int(present(parent.stdout).readline())
        wait_until(lambda: pathlib.Path(f"/proc/{child}/comm").read_text() == "sleep\n")
        parent.kill()
    wait_until(lambda: not is_there(child))


def test_a_program_whose_parent_has_ended_before_is_not_begun(program: Program) -> None:
    *words, _, path = children.ending_with_parent([str(program.path)])
    assert subprocess.run([*words, "1", path], timeout=SECONDS).returncode == 1
    assert not program.path.with_suffix(".told").exists()


def test_a_program_is_begun_as_without_a_launcher() -> None:
    """It heeds the same signals, and has the same number as what was begun."""
    words = ["grep", "-E", "^(Sig(Blk|Ign|Cgt)|Seccomp|NoNewPrivs)", "/proc/self/status"]
    told = [subprocess.run(each, capture_output=True, timeout=SECONDS).stdout for each in (words, children.ending_with_parent(words))]
    assert told[0] == told[1] != b""
    with subprocess.Popen(children.ending_with_parent(["sh", "-c", "echo $$"]), stdout=subprocess.PIPE, text=True) as child:
        assert present(child.stdout).readline() == f"{child.pid}\n"


def test_a_program_that_cannot_be_begun() -> None:
    done = subprocess.run(children.ending_with_parent(["./none"]), capture_output=True, text=True, timeout=SECONDS)
    assert (done.returncode, done.stderr) == (1, "cannot start ./none: No such file or directory\n")


def test_the_program_of_the_small_client(program: Program, tmp_path: pathlib.Path) -> None:
    (tmp_path / "dimer.xyz").write_text(DIMER)
    words = ["node", str(TOP / "examples" / "small_client.mjs"), str(program.path), "dimer.xyz", "256", "1", "131072", "2"]
    try:
        done = subprocess.run(words, cwd=tmp_path, capture_output=True, text=True, timeout=SECONDS)
    except FileNotFoundError:
        pytest.skip("node is not installed")
    assert done.returncode == 1 and program.has_no_token()
