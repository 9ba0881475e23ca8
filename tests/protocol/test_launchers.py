"""The commands of bin/ that stand before the program."""
import hashlib
import os
import shutil
import subprocess
from pathlib import Path

import pytest
from shared import program as programs
from shared.launching import launched, newest_version, put
from shared.program import READ_FAULT, TOP, Ended, Program, contents

PROCESSORS = "cpu x86-64-v2\n"


class Tree:
    """A folder that looks like the repository after a build, with a toolchain of its own."""

    def __init__(self, folder: Path, program: Program) -> None:
        self.folder = folder
        for name in ["crates/ljserve/src/main.rt", "crates/ljserve/specs/Lib.antt", "crates.txt", "crates/ljserve/out/build.log"]:
            put("", folder / name)
        put("#!/bin/sh\necho kit-of-the-test logic 00\n", folder / "tools" / "rt", mode=0o755)
        shutil.copy(program.path, folder / "crates" / "ljserve" / "out" / "ljserve")
        self.git = ["git", "-C", str(folder), "-c", "user.name=test", "-c", "user.email=test@localhost"]

    def launched(self, word: str) -> Ended:
        return launched(self.folder, [word], f"{self.folder / 'tools'}:{os.environ['PATH']}")

    def commit(self) -> str:
        """Commits a file. Returns the commit."""
        for words in [["init", "-q"], ["add", "crates.txt"], ["commit", "-q", "-m", "test"]]:
            subprocess.run([*self.git, *words], check=True)
        return subprocess.run([*self.git, "rev-parse", "HEAD"], capture_output=True, check=True, text=True).stdout.strip()


@pytest.fixture
def tree(tmp_path: Path, program: Program) -> Tree:
    return Tree(tmp_path, program)


def sum_of(program: Program) -> str:
    return f"sha256 {hashlib.sha256(Path(program.path).read_bytes()).hexdigest()}\n"


def told(commit: str, program: Program) -> bytes:
    return f"ljserve {newest_version()}\nkit kit-of-the-test logic 00\ncommit {commit}\n{PROCESSORS}{sum_of(program)}".encode()


def test_the_version_outside_of_a_commit(tree: Tree, program: Program) -> None:
    assert tree.launched("--version") == (0, told("unknown", program), b"")


def test_the_version_of_a_commit(tree: Tree, program: Program) -> None:
    commit = tree.commit()
    assert tree.launched("-V") == (0, told(commit, program), b"")


def test_the_version_of_a_changed_tree(tree: Tree, program: Program) -> None:
    tree.commit()
    put("# changed\n", tree.folder / "crates.txt")
    os.utime(tree.folder / "crates.txt", (0, 0))
    status, out, _ = tree.launched("--version")
    assert (status, out.endswith(f", with changes\n{PROCESSORS}{sum_of(program)}".encode())) == (0, True), out


def test_other_words_are_the_programs(tree: Tree) -> None:
    assert tree.launched("run") == (0, b"OK LIST 0\n", b"")


def test_a_release_needs_no_toolchain(tmp_path: Path, program: Program) -> None:
    release, version = "packaging/ljserve/ljserve", f"ljserve {newest_version()}\nkit of another day\ncommit 0\n"
    put(version, tmp_path / "VERSION")
    for name in ["ljserve-v2", "ljserve-v3"]:
        put("", tmp_path / "libexec" / name)
        shutil.copy(program.path, tmp_path / "libexec" / name)
    assert launched(tmp_path, ["--version"], "/usr/bin:/bin", release) == (0, f"{version}cpu x86-64-v3\n{sum_of(program)}".encode(), b"")
    assert launched(tmp_path, [], "/usr/bin:/bin", release) == (0, b"OK LIST 0\n", b"")


def test_the_program_of_any_processor_is_tried(tmp_path: Path, monkeypatch: pytest.MonkeyPatch) -> None:
    """Where none is named, whatever program other words have chosen."""
    put('#!/bin/sh\necho "$LJSERVE_CPU $LJSERVE$*" >"$0.said"\n', tmp_path / "bin" / "ljserve", mode=0o755)
    monkeypatch.setattr(programs, "TOP", str(tmp_path))
    monkeypatch.setenv("LJSERVE_CPU", "v3")
    monkeypatch.setenv("LJSERVE", "/some/where")
    assert programs.program_at(None) == str(tmp_path / "crates" / "ljserve" / "out" / "ljserve")
    assert (tmp_path / "bin" / "ljserve.said").read_text() == "v2 --version\n"


TOLD = "echo 'OK LIST 0'; echo 'ljserve: read fault' >&2; echo 'checked: ended status=1' >&2; "
ENDED = TOLD + "echo 'run=ended status=1 runners=1 races=unchecked proved=no' >&2; exit 1"
REFUSED = "echo 'src/main.rt:1:1: error' >&2; echo 'run=none proved=no' >&2; exit 1"


@pytest.mark.parametrize(
    "script, status, out, last",
    [(ENDED, 1, b"OK LIST 0\n", READ_FAULT), (REFUSED, 70, b"", b"try: there was no answer\n")],
    ids=["ended", "refused"],
)
def test_a_look_tells_the_status_of_the_program(tmp_path: Path, script: str, status: int, out: bytes, last: bytes) -> None:
    put("", tmp_path / "crates" / "ljserve" / "src" / "main.rt")
    put(f"#!/bin/sh\n{script}\n", tmp_path / "tools" / "rt", mode=0o755)
    seen = launched(tmp_path, ["run"], f"{tmp_path / 'tools'}:{os.environ['PATH']}", "bin/try")
    assert seen[:2] == (status, out)
    assert seen[2].startswith(b"try: nothing is proved") and seen[2].endswith(last) and b"checked" not in seen[2]


@pytest.mark.skipif(shutil.which("rt") is None, reason="rt is not on the PATH")
def test_a_look_answers_before_any_proof() -> None:
    with open(os.path.join(TOP, "crates", "ljserve", "stdin"), "rb") as stream:
        done = subprocess.run([os.path.join(TOP, "bin", "try")], stdin=stream, capture_output=True, timeout=900)
    assert (done.returncode, done.stdout) == (0, contents("crates", "ljserve", "stdout")), done.stderr
