"""Which of two programs is begun: bin/ljserve of a release, of the wheel and of the repository, over programs that stand in."""
import hashlib
import os
import pathlib
import re
import subprocess
from typing import Any, List, Tuple

import pytest

from support import SECONDS, TOP

NO_FEATURE = 'echo "this machine lacks a feature of x86-64-v3" >&2; exit 127'
# Notes how it is called, and leaves a program that tells its name in the place that is said.
BUILDER = """#!/bin/sh
echo "$(basename "$0") $*" >>"{calls}"
mkdir -p {place}
printf '#!/bin/sh\\necho %s "$*"\\n' {name} >{place}/ljserve
chmod +x {place}/ljserve
"""


def put(path: Any, text: Any) -> None:
    path.parent.mkdir(parents=True, exist_ok=True)
    path.write_text(text)
    path.chmod(0o755)


def stand_in(name: Any, version: str = "echo ljserve 1.2.3") -> str:
    """A program that tells its version so, and else its name, its process and its words."""
    return f'#!/bin/sh\nif [ "$*" = --version ]; then {version}; exit; fi\nprintf "%s\\n" {name} $$ "$@"\n'


def sum_of(path: Any) -> str:
    """The line that tells the sum of a program."""
    return f"sha256 {hashlib.sha256(path.read_bytes()).hexdigest()}\n"


def begun(program: Any, *words: Any, path: Any = os.environ["PATH"], **environment: Any) -> Tuple[Any, Any, Any, Any]:
    """How a run of a program ended, and the number of its process."""
    command = [str(program), *words]
    with subprocess.Popen(
        command, stdin=subprocess.DEVNULL, stdout=subprocess.PIPE, stderr=subprocess.PIPE, text=True, env={"PATH": path, **environment}
    ) as child:
        out, err = child.communicate(timeout=SECONDS)
        return child.returncode, out, err, child.pid


@pytest.fixture
def release(tmp_path: pathlib.Path) -> Any:
    """A folder with what a release and an environment with the wheel have."""
    put(tmp_path / "bin" / "ljserve", (TOP / "packaging" / "ljserve" / "ljserve").read_text())
    for cpu in ("v2", "v3"):
        put(tmp_path / "libexec" / f"ljserve-{cpu}", stand_in(cpu))
    return tmp_path


@pytest.mark.parametrize(
    "status, said, wanted",
    [
        (0, None, "v3"),
        (0, "", "v3"),
        (0, "v2", "v2"),
        (0, "v3", "v3"),
        (127, None, "v2"),
        (127, "v2", "v2"),
        (1, None, "v3"),
    ],
)
def test_the_program_that_fits(release: Any, status: Any, said: Any, wanted: Any) -> None:
    """It takes the place of the script, so that a signal to the process reaches it."""
    put(release / "libexec" / "ljserve-v3", stand_in("v3", f"exit {status}"))
    environment = {} if said is None else {"LJSERVE_CPU": said}
    code, out, err, process = begun(release / "bin" / "ljserve", "run", "two words", "", **environment)
    assert (code, out, err) == (0, f"{wanted}\n{process}\nrun\ntwo words\n\n", "")


def test_a_processor_that_lacks_what_is_asked_for(release: Any) -> None:
    put(release / "libexec" / "ljserve-v3", f"#!/bin/sh\n{NO_FEATURE}\n")
    code, out, err, _ = begun(release / "bin" / "ljserve", LJSERVE_CPU="v3")
    assert (code, out, err) == (127, "", "this machine lacks a feature of x86-64-v3\n")
    code, out, err, _ = begun(release / "bin" / "ljserve", "--version", LJSERVE_CPU="v3")
    assert (code, out, err) == (127, "", "this machine lacks a feature of x86-64-v3\n")
    code, out, err, _ = begun(release / "bin" / "ljserve", "--version")
    assert (code, out, err) == (0, "ljserve 1.2.3\ncpu x86-64-v2\n" + sum_of(release / "libexec" / "ljserve-v2"), "")


@pytest.mark.parametrize("word", ["--version", "-V"])
@pytest.mark.parametrize(
    "version, rest",
    [
        (None, ""),
        ("ljserve 1.2.3\nkit 4\ncommit 5\n", "kit 4\ncommit 5\n"),
        ("of something else\nthat stands there\n", ""),
    ],
)
@pytest.mark.parametrize("place", ["VERSION", "share/ljserve/VERSION"])
def test_the_version(release: Any, place: Any, word: Any, version: Any, rest: Any) -> None:
    """The kit and the commit are told of a release, and of a package, if they are of that version."""
    if version is not None:
        (release / place).parent.mkdir(parents=True, exist_ok=True)
        (release / place).write_text(version)
    wanted = f"ljserve 1.2.3\n{rest}cpu x86-64-v3\n" + sum_of(release / "libexec" / "ljserve-v3")
    assert begun(release / "bin" / "ljserve", word)[:3] == (0, wanted, "")


@pytest.fixture
def on_arm64(tmp_path: pathlib.Path) -> Any:
    """A PATH on which this machine says that it is one of arm64, and a release for that."""
    put(tmp_path / "bin" / "ljserve", (TOP / "packaging" / "ljserve" / "ljserve").read_text())
    put(tmp_path / "libexec" / "ljserve-arm64", stand_in("arm64"))
    put(tmp_path / "machine" / "uname", '#!/bin/sh\n[ "$*" = -m ] && echo aarch64\n')
    return f"{tmp_path / 'machine'}:{os.environ['PATH']}"


def test_the_program_for_arm64(on_arm64: Any, tmp_path: pathlib.Path) -> None:
    for said in ("", "arm64"):
        code, out, err, process = begun(tmp_path / "bin" / "ljserve", "run", "two words", path=on_arm64, LJSERVE_CPU=said)
        assert (code, out, err) == (0, f"arm64\n{process}\nrun\ntwo words\n", "")
    wanted = "ljserve 1.2.3\ncpu arm64\n" + sum_of(tmp_path / "libexec" / "ljserve-arm64")
    assert begun(tmp_path / "bin" / "ljserve", "--version", path=on_arm64)[:3] == (0, wanted, "")


def test_a_word_that_is_of_another_machine(on_arm64: Any, tmp_path: pathlib.Path) -> None:
    for said in ("v2", "v3", "aarch64"):
        code, out, err, _ = begun(tmp_path / "bin" / "ljserve", path=on_arm64, LJSERVE_CPU=said)
        assert (code, out, err) == (2, "", f"ljserve: LJSERVE_CPU is '{said}', and may be arm64\n")


def test_the_programs_are_for_another_machine(on_arm64: Any, release: Any) -> None:
    """Of the package for arm64 on x86-64, and the other way round."""
    (release / "libexec" / "ljserve-arm64").unlink()
    code, out, err, _ = begun(release / "bin" / "ljserve", "run", path=on_arm64)
    assert (code, out) == (69, "")
    assert err == f"ljserve: there is no program for this machine, aarch64: {release}/libexec/ljserve-arm64 is missing\n"
    for cpu in ("v2", "v3"):
        (release / "libexec" / f"ljserve-{cpu}").unlink()
    code, out, err, _ = begun(release / "bin" / "ljserve", "--version")
    assert (code, out) == (69, "")
    assert err == f"ljserve: there is no program for this machine, {os.uname().machine}: {release}/libexec/ljserve-v2 is missing\n"


def test_a_link_to_it(release: Any, tmp_path: pathlib.Path) -> None:
    (tmp_path / "elsewhere").mkdir()
    (tmp_path / "elsewhere" / "ljserve").symlink_to(release / "bin" / "ljserve")
    code, out, _, process = begun(tmp_path / "elsewhere" / "ljserve", "serve")
    assert (code, out) == (0, f"v3\n{process}\nserve\n")


@pytest.fixture
def repository(tmp_path: pathlib.Path) -> Any:
    """A folder with bin/ljserve of the repository, and commands that stand in for those of the kit and of bin/."""
    put(tmp_path / "bin" / "ljserve", (TOP / "bin" / "ljserve").read_text())
    put(tmp_path / "bin" / "build", f'#!/bin/sh\necho "build" >>"{tmp_path}/calls"\n')
    place = tmp_path / "crates/ljserve"
    put(tmp_path / "bin" / "compile", BUILDER.format(calls=tmp_path / "calls", place=f'{place}/"$2"', name='"${1#x86-64-}"'))
    put(tmp_path / "tools" / "rt", BUILDER.format(calls=tmp_path / "calls", place="out", name='"of the kit"'))
    (tmp_path / "crates.txt").touch()
    for folder in ("src", "specs"):
        (tmp_path / "crates" / "ljserve" / folder).mkdir(parents=True)
    return tmp_path


def test_the_repository_builds_the_one_beside_the_other(repository: Any) -> None:
    """Each is built where it is missing, and is there from then on."""
    path = f"{repository / 'tools'}:{os.environ['PATH']}"
    turns: List[Any] = [({"LJSERVE_CPU": "v3"}, "v3"), ({}, "v2"), ({"LJSERVE_CPU": "v2"}, "v2"), ({"LJSERVE_CPU": "v3"}, "v3")]
    for said, wanted in turns:
        assert begun(repository / "bin" / "ljserve", "run", path=path, **said)[:2] == (0, f"{wanted} run\n")
    calls = (repository / "calls").read_text().splitlines()
    assert calls == ["build", "compile x86-64-v3 out/v3", "build", "compile x86-64-v2 out"]
    out = repository / "crates" / "ljserve" / "out"
    assert sorted(str(path.relative_to(out)) for path in out.rglob("*")) == ["build.log", "ljserve", "v3", "v3/build.log", "v3/ljserve"]


@pytest.mark.parametrize(
    "compiles, cpu, ends",
    [("exit 69", "v2", (0, "of the kit run\n")), ("exit 69", "v3", (70, "")), ("exit 1", "v2", (70, ""))],
    ids=["v2", "v3", "not proved"],
)
def test_the_kit_builds_it_where_it_cannot_be_called(repository: Any, compiles: str, cpu: str, ends: Tuple[int, str]) -> None:
    """By its own command, which is for x86-64-v2 alone, and not where the program is refused."""
    put(repository / "bin" / "compile", f"#!/bin/sh\n{compiles}\n")
    path = f"{repository / 'tools'}:{os.environ['PATH']}"
    assert begun(repository / "bin" / "ljserve", "run", path=path, LJSERVE_CPU=cpu)[:2] == ends


SOURCES = ["bin/ljserve", "packaging/ljserve/ljserve"]
OTHER = """#!/bin/sh
printf '%s\\n' "other" $$ "${{LJSERVE-none is named}}" "$@"
{then}
"""


def launcher(folder: pathlib.Path, source: str) -> pathlib.Path:
    """Such a launcher over programs that are there, with an empty toolchain beside it."""
    put(folder / "bin" / "ljserve", (TOP / source).read_text())
    for program in ("crates/ljserve/out/ljserve", "libexec/ljserve-v2", "libexec/ljserve-v3"):
        put(folder / program, stand_in("own"))
    for name in ("src", "specs"):
        (folder / "crates" / "ljserve" / name).mkdir()
    (folder / "crates.txt").touch()
    os.utime(folder / "crates.txt", (0, 0))
    return folder / "bin" / "ljserve"


@pytest.mark.parametrize("source", SOURCES)
@pytest.mark.parametrize("word", ["--version", "run"])
def test_another_program_that_is_named(tmp_path: pathlib.Path, source: str, word: str) -> None:
    """It takes the place of the script, with the same words. A program that is there is not begun, and none is built."""
    put(tmp_path / "other", OTHER.format(then=""))
    begins, path = launcher(tmp_path, source), f"{tmp_path}:{os.environ['PATH']}"
    for named in (str(tmp_path / "other"), "other"):
        code, out, err, process = begun(begins, word, "a b", path=path, LJSERVE=named, LJSERVE_CPU="v4")
        assert (code, out, err) == (0, f"other\n{process}\nnone is named\n{word}\na b\n", "")


@pytest.mark.parametrize("source", SOURCES)
@pytest.mark.parametrize("named", ["", "bin/ljserve", "./link", "bin/../link", "ljserve"])
def test_it_is_named_itself(tmp_path: pathlib.Path, monkeypatch: pytest.MonkeyPatch, source: str, named: str) -> None:
    """By a path, by a link to it, or by its name on the PATH. Then it is as if none were named."""
    path = launcher(tmp_path, source)
    (tmp_path / "link").symlink_to(path)
    monkeypatch.chdir(tmp_path)
    for begins in (path, tmp_path / "link"):
        code, out, err, process = begun(begins, "run", path=f"{path.parent}:{os.environ['PATH']}", LJSERVE=named)
        assert (code, out, err) == (0, f"own\n{process}\nrun\n", "")


@pytest.mark.parametrize("source", SOURCES)
def test_a_named_program_that_begins_the_launcher(tmp_path: pathlib.Path, source: str) -> None:
    """It comes to the launcher's own program, and not to itself again."""
    path = launcher(tmp_path, source)
    put(tmp_path / "other", OTHER.format(then=f'exec "{path}" "$@"'))
    code, out, err, process = begun(path, "run", LJSERVE=str(tmp_path / "other"))
    assert (code, out, err) == (0, f"other\n{process}\nnone is named\nrun\nown\n{process}\nrun\n", "")


@pytest.mark.parametrize("source", SOURCES)
def test_what_is_named_is_no_program(tmp_path: pathlib.Path, source: str) -> None:
    path = launcher(tmp_path, source)
    (tmp_path / "text").touch()
    for named in ("none/here", str(tmp_path), str(tmp_path / "text"), "cd"):
        code, out, err, _ = begun(path, "run", LJSERVE=named)
        assert (code, out, err) == (2, "", f"ljserve: LJSERVE is '{named}', which is no program\n")


@pytest.mark.parametrize("source", SOURCES)
def test_a_word_that_says_neither(tmp_path: pathlib.Path, source: Any) -> None:
    put(tmp_path / "bin" / "ljserve", (TOP / source).read_text())
    for said in ("v4", "x86-64-v3", " v3"):
        code, out, err, _ = begun(tmp_path / "bin" / "ljserve", "run", LJSERVE_CPU=said)
        assert (code, out, err) == (2, "", f"ljserve: LJSERVE_CPU is '{said}', and may be v2 or v3\n")
    assert [path.name for path in tmp_path.rglob("*")] == ["bin", "ljserve"]


@pytest.mark.parametrize("unit", ["ljserve.service", "ljserve-keep.service", "haproxy/ljserve@.service", "haproxy/ljserve-keep@.service"])
def test_the_units_begin_it(unit: Any) -> None:
    begun = r"^ExecStart=(?:/opt/ljserve/tools/keep .* -- )?(\S+)"
    assert re.findall(begun, (TOP / "packaging" / unit).read_text(), re.M) == ["/opt/ljserve/bin/ljserve"]


def test_a_release_tries_both() -> None:
    script = (TOP / "bin" / "release").read_text()
    assert 'cp packaging/ljserve/ljserve "$folder/bin/"\n' in script
    assert 'for cpu in v2 v3; do\n        LJSERVE_CPU=$cpu try_answers "$folder" "$cpu" "x86-64-$cpu"\n' in script
    assert "objects=([v2]=out [v3]=out/v3 [arm64]=out/arm64)" in script
    assert 'link_all "$machine" "$folder/libexec" "${static[@]}"\n' in script
