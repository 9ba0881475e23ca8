"""The wheels of a release, as packaging/wheels makes them, in an environment of their own that has no network."""
import os
import pathlib
import re
import shutil
import subprocess
import sys
import sysconfig
import zipfile
from email.parser import HeaderParser
from typing import Any, Dict, List

import pytest

import ljclient
from support import DIMER, EXAMPLES, PROGRAM, SECONDS, TOP, present

for needed in ("build", "setuptools", "wheel", "ensurepip"):
    pytest.importorskip(needed, reason=f"{needed} is not installed")
if sysconfig.get_platform() != "linux-x86_64":
    pytest.skip("the program is for Linux on x86-64", allow_module_level=True)

README = (TOP / "clients" / "python" / "README.md").read_text()
INSTALLING = present(re.search(r"((?:^    .*\n)*^    .*--no-index.*\n(?:^    .*\n)*)", README, re.M))[1]
OF_PROGRAM = f"ljserve-{ljclient.__version__}"
IDENTITY = f"ljserve {ljclient.__version__}\nkit 4\ncommit 5\n"
NAMES = ("ljserve-v2", "ljserve-v3")
TWO_STEPS = f"""
from ljclient import run
with run() as user:
    a = user.load("a", {DIMER!r}, edge=256, sigma=1, h=131072)
    print(a.advance(2), a.place(0))
"""
TELL = "import ljclient; print(ljclient.locate.find_program()); print(ljclient.__file__)"


def made(folder: Any, programs: Any, *words: Any, **environment: Any) -> Any:
    """What packaging/wheels prints, and its status."""
    environment = {**os.environ, "PYTHONDONTWRITEBYTECODE": "1", **environment}
    command = [sys.executable, TOP / "packaging" / "wheels", *words, programs, folder]
    return subprocess.run(command, env=environment, capture_output=True, text=True, timeout=10 * SECONDS)


def put(path: Any, text: Any) -> None:
    path.parent.mkdir(parents=True, exist_ok=True)
    path.write_text(f"#!/bin/sh\n{text}\n")
    path.chmod(0o755)


@pytest.fixture(scope="module")
def programs(tmp_path_factory: pytest.TempPathFactory) -> Any:
    """A folder with the program for processors of both kinds, of which the one is what the other is."""
    folder = tmp_path_factory.mktemp("programs")
    for name in NAMES:
        shutil.copy(PROGRAM, folder / name)
    (folder / "VERSION").write_text(IDENTITY)
    return folder


@pytest.fixture(scope="module")
def top(tmp_path_factory: pytest.TempPathFactory, programs: Any) -> Any:
    """A folder with `wheels` and `examples`, as a release is, where the lines of the README have installed both wheels."""
    folder = tmp_path_factory.mktemp("release")
    done = made(folder / "wheels", programs)
    assert done.returncode == 0, done
    assert sorted(done.stdout.split()) == sorted(path.name for path in (folder / "wheels").iterdir())
    (folder / "examples").symlink_to(EXAMPLES)
    words, environment = ["sh", "-ec", INSTALLING], bare(folder)
    done = subprocess.run(words, cwd=folder, env=environment, capture_output=True, text=True, timeout=10 * SECONDS)
    assert done.returncode == 0, done
    assert done.stdout.endswith((EXAMPLES / "dimer.replies").read_text())
    return folder


def bare(folder: Any) -> Dict[Any, Any]:
    """An environment that names no program and no settings of pip, with this Python."""
    (folder / "python").mkdir(exist_ok=True)
    (folder / "python" / "python3").write_text(f'#!/bin/sh\nexec "{sys.executable}" "$@"\n')
    (folder / "python" / "python3").chmod(0o755)
    path = f"{folder / 'python'}:/usr/bin:/bin"
    return {"PATH": path, "HOME": str(folder), "PIP_CONFIG_FILE": os.devnull, "PIP_NO_CACHE_DIR": "1"}


def printed(folder: Any, *words: Any, given: str = "", **more: Any) -> Any:
    """What a command prints in an empty folder, by none of this repository."""
    (folder / "empty").mkdir(exist_ok=True)
    environment: Dict[str, Any] = {**bare(folder), "PYTHONDONTWRITEBYTECODE": "1", **more}
    where: Dict[str, Any] = {"cwd": folder / "empty", "env": environment}
    done = subprocess.run(words, **where, input=given, capture_output=True, text=True, timeout=SECONDS)
    assert done.returncode == 0, done
    return done.stdout


def environment_of(top: Any) -> Any:
    """The folder of commands of the environment that the README makes."""
    (commands,) = {path.parent for path in top.glob("*/bin/pip")}
    return commands


def test_the_files(top: Any) -> None:
    names = {path.name for path in (top / "wheels").iterdir()}
    assert names == {f"ljclient-{ljclient.__version__}-py3-none-any.whl", f"{OF_PROGRAM}-py3-none-linux_x86_64.whl"}
    with zipfile.ZipFile(top / "wheels" / f"{OF_PROGRAM}-py3-none-linux_x86_64.whl") as wheel:
        data = f"{OF_PROGRAM}.data/data"
        found = {name: wheel.read(name) for name in wheel.namelist() if ".dist-info/" not in name}
        with open(PROGRAM, "rb") as file:
            assert found.pop(f"{data}/libexec/ljserve-v2") == found.pop(f"{data}/libexec/ljserve-v3") == file.read()
        assert found.pop(f"{data}/bin/ljserve") == (TOP / "packaging" / "ljserve" / "ljserve").read_bytes()
        assert found == {f"{data}/share/ljserve/VERSION": IDENTITY.encode()}


def test_what_the_wheels_tell_of_themselves(top: Any) -> None:
    for path in (top / "wheels").iterdir():
        with zipfile.ZipFile(path) as wheel:
            (name,) = [name for name in wheel.namelist() if name.endswith("METADATA")]
            told = HeaderParser().parsestr(wheel.read(name).decode())
            assert wheel.read(name.replace("METADATA", "LICENSE")) == (TOP / "LICENSE").read_bytes()
        assert (told["License"], told["Version"]) == ("MIT", ljclient.__version__)
        assert "https://doi.org/10.1007/BF01048022" in told["Project-URL"]
        if told["Name"] == "ljclient":
            assert "ljserve ; extra == 'program'" in {line.replace('"', "'") for line in told.get_all("Requires-Dist")}


def test_the_client_finds_the_program_of_the_wheel(top: Any) -> None:
    commands = environment_of(top)
    program, package = printed(top, commands / "python", "-c", TELL).splitlines()
    assert (program, package.startswith(str(commands.parent))) == (str(commands / "ljserve"), True)
    assert printed(top, commands / "python", "-c", TWO_STEPS) == "2 (1774, 0, 0)\n"


def test_the_commands(top: Any) -> None:
    commands = environment_of(top)
    dimer = (EXAMPLES / "dimer.txt").read_text(), (EXAMPLES / "dimer.replies").read_text()
    assert printed(top, commands / "ljclient", given=dimer[0]) == dimer[1]
    assert printed(top, commands / "ljserve", given=dimer[0]) == dimer[1]
    assert printed(top, commands / "ljserve", "--version").startswith(f"{IDENTITY}cpu x86-64-v3\nsha256 ")
    assert printed(top, commands / "ljclient", "view", "--help").startswith("usage: ")


def test_a_processor_that_lacks_a_feature(top: Any, tmp_path: pathlib.Path) -> None:
    """The other program of the environment is begun, by the command and by the client."""
    shutil.copytree(environment_of(top).parent, tmp_path / "lj", symlinks=True)
    put(tmp_path / "lj" / "libexec" / "ljserve-v3", "exit 127")
    program = tmp_path / "lj" / "bin" / "ljserve"
    assert printed(top, program, "--version").startswith(f"{IDENTITY}cpu x86-64-v2\nsha256 ")
    assert printed(top, environment_of(top) / "python", "-c", TWO_STEPS, LJSERVE=str(program)) == "2 (1774, 0, 0)\n"


def test_a_folder_that_is_no_environment(top: Any) -> None:
    """`pip install --target` puts programs elsewhere than it notes."""
    words = ["install", "--quiet", "--no-index", "--find-links", top / "wheels", "--target", top / "target", "ljclient[program]"]
    printed(top, environment_of(top) / "pip", *words)
    program, package = printed(top, sys.executable, "-c", TELL, PYTHONPATH=str(top / "target")).splitlines()
    assert (program, package) == (str(top / "target" / "bin" / "ljserve"), str(top / "target" / "ljclient" / "__init__.py"))


def test_the_same_sources_give_the_same_bytes(tmp_path: pathlib.Path, programs: Any) -> None:
    for name in ("one", "other"):
        assert made(tmp_path / name, programs, SOURCE_DATE_EPOCH="1700000000").returncode == 0
    one, other = ({path.name: path.read_bytes() for path in (tmp_path / name).iterdir()} for name in ("one", "other"))
    assert len(one) == 2 and one == other


@pytest.mark.parametrize(
    "texts, why",
    [
        (["echo 'ljserve 0.0.1'"] * 2, f"ljclient-{ljclient.__version__}-py3-none-any.whl must be of the program's version, 0.0.1"),
        (["echo 'ljserve 0.0.1'", "echo 'ljserve 0.0.2'"], "must have programs of one version, got 0.0.1 and 0.0.2"),
        (["echo 'ljserve 0.0.1'", "echo hello"], "ljserve-v3 must be a built ljserve, got a program that shows no version"),
        (["echo hello", "echo 'ljserve 0.0.1'"], "ljserve-v2 must be a built ljserve, got a program that shows no version"),
    ],
)
def test_programs_that_do_not_fit(tmp_path: pathlib.Path, texts: Any, why: Any) -> None:
    for name, text in zip(NAMES, texts):
        put(tmp_path / name, text)
    done = made(tmp_path / "wheels", tmp_path)
    assert (done.returncode, done.stdout) == (70, "") and why in done.stderr
    assert not list((tmp_path / "wheels").glob("*"))


def test_a_program_that_is_not_there(tmp_path: pathlib.Path) -> None:
    put(tmp_path / "ljserve-v2", "echo 'ljserve 0.0.1'")
    done = made(tmp_path / "wheels", tmp_path)
    assert (done.returncode, "cannot start " in done.stderr, "Traceback" in done.stderr) == (70, True, False)


def test_a_version_that_is_of_other_programs(tmp_path: pathlib.Path) -> None:
    for name in NAMES:
        put(tmp_path / name, "echo 'ljserve 1.2.3'")
    (tmp_path / "VERSION").write_text(IDENTITY)
    done = made(tmp_path / "wheels", tmp_path)
    assert (done.returncode, "VERSION must be of the version of the programs, 1.2.3" in done.stderr) == (70, True), done


# It is begun in the place of qemu, and so tells what the program for arm64 tells.
QEMU = '[ "$1 $2" = "-L /usr/aarch64-linux-gnu" ] && shift 2 && exec "$@"'


@pytest.fixture
def for_arm64(tmp_path: pathlib.Path) -> Any:
    """The PATH with a stand-in of qemu, and a folder of programs for arm64."""
    put(tmp_path / "tools" / "qemu-aarch64", QEMU)
    put(tmp_path / "programs" / "ljserve-arm64", f"echo 'ljserve {ljclient.__version__}'")
    return tmp_path


def test_the_wheel_for_arm64(for_arm64: Any) -> None:
    """It has one program, and pip installs it for such a machine alone."""
    path = f"{for_arm64 / 'tools'}:{os.environ['PATH']}"
    done = made(for_arm64 / "wheels", for_arm64 / "programs", "--machine", "arm64", PATH=path)
    name = f"{OF_PROGRAM}-py3-none-linux_aarch64.whl"
    assert (done.returncode, sorted(done.stdout.split())) == (0, [f"ljclient-{ljclient.__version__}-py3-none-any.whl", name]), done
    with zipfile.ZipFile(for_arm64 / "wheels" / name) as wheel:
        files = [path.partition(".data/data/")[2] for path in wheel.namelist() if ".dist-info/" not in path]
        assert sorted(files) == ["bin/ljserve", "libexec/ljserve-arm64", "share/ljserve/VERSION"]
    words = [sys.executable, "-m", "pip", "install", "--quiet", "--no-index", "--find-links", str(for_arm64 / "wheels")]
    words += ["--only-binary=:all:", "--target", str(for_arm64 / "target"), "ljserve"]
    several: List[List[str]] = [[], ["--platform=linux_aarch64"]]
    statuses = [subprocess.run([*words, *more], capture_output=True).returncode for more in several]
    assert statuses == [1, 0] and (for_arm64 / "target" / "libexec" / "ljserve-arm64").is_file()


def test_a_program_for_arm64_that_cannot_be_asked_here(for_arm64: Any) -> None:
    done = made(for_arm64 / "wheels", for_arm64 / "programs", "--machine", "arm64", PATH=str(for_arm64))
    assert (done.returncode, "qemu-aarch64 is not installed" in done.stderr) == (69, True), done


def test_a_release_has_them() -> None:
    """bin/release makes them of what it has unpacked, and installs them."""
    script = (TOP / "bin" / "release").read_text()
    assert 'make_packages wheels "the wheels" --machine "$machine" "$folder/libexec" "$folder/wheels"' in script
    assert " packaging " in script
