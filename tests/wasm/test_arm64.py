"""The program for arm64, under qemu: stored streams, and the words of its command line."""
from __future__ import annotations

import os
import shlex
import shutil
import subprocess
import sys
from pathlib import Path
from typing import Callable, List

import pytest
from playing import USUAL, Stream, difference, stored, told_by
from shared.loads import LOAD, LOADED
from shared.program import Program
from shared.served import Servers
from shared.serving import POOLS
from shared.words import user

TOP = Path(__file__).resolve().parents[2]
QEMU, LIBRARIES = shutil.which("qemu-aarch64"), Path("/usr/aarch64-linux-gnu")
SECONDS = 600
# Each stream with LJSERVE_STREAMS=all, as a release is tried; else every twelfth of the usual quota.
STREAMS = list(stored()) if os.environ.get("LJSERVE_STREAMS") == "all" else [it for it in stored() if it.quota == USUAL][::12]
pytestmark = pytest.mark.skipif(QEMU is None or not LIBRARIES.is_dir(), reason="no qemu-aarch64 with libraries of arm64")


@pytest.fixture(scope="module")
def command(compiled: Callable[[str], Path]) -> List[str]:
    """The words that begin the program: `ljserve run` where that is compiled already, else `lj_run`."""
    program = compiled("arm64")
    return [str(QEMU), "-L", str(LIBRARIES), str(program), *(["run"] if "LJSERVE_WASM" in os.environ else [])]


@pytest.mark.parametrize("stream", STREAMS, ids=[stream.name for stream in STREAMS])
def test_it_answers_as_the_reference(stream: Stream, command: List[str]) -> None:
    assert difference(stream, *told_by(command, stream, SECONDS)) is None


needs_ljserve = pytest.mark.skipif("LJSERVE_WASM" not in os.environ, reason="LJSERVE_WASM names no folder with ljserve for arm64")


@needs_ljserve
@pytest.mark.parametrize("pool", POOLS)
def test_its_server_answers(command: List[str], pool: str, tmp_path: Path) -> None:
    """Two users beside each other, in threads under qemu. bin/release has all tests of the server pass so."""
    script = tmp_path / "ljserve"
    script.write_text(f'#!/bin/sh\nexec {shlex.join(command[:-1])} "$@"\n')
    script.chmod(0o755)
    servers = Servers(Program(str(script)), pool)
    try:
        server = servers(user("A") + user("B"), 3)
        clients = [server.enter(name) for name in "AB"]
        for client in clients:
            client.says(LOAD + b"ADVANCE a 2\nREVERSE a\n", LOADED + b"OK ADVANCE a 2\nOK REVERSE a 1\n")
        for client in clients:
            client.says(b"SHOW a 0\nADVANCE a 1\nSHOW a 0\n", b"OK SHOW a 1 0 589 0 0\nOK ADVANCE a 0\nOK SHOW a 0 0 0 0 0\n")
            client.leaves()
        again = server.enter("A")
        again.says(b"LIST\n", b"OK LIST 1\na 0 2 0\n")
        again.leaves()
        server.finish(tiles=2 * 3)
    finally:
        servers.end()


@needs_ljserve
def test_it_reads_its_words(command: List[str]) -> None:
    done = subprocess.run([*command[:-1], "--version"], capture_output=True, text=True, timeout=60)
    assert done.returncode == 0 and done.stdout.startswith("ljserve ")
    refused = subprocess.run([*command, "--sessions", "x"], capture_output=True, text=True, timeout=60)
    assert refused.returncode == 2 and "--sessions" in refused.stderr


@pytest.mark.skipif(os.geteuid() != 0, reason="only root can be another user")
def test_a_root_for_arm64_that_cannot_be_had() -> None:
    """The last line says why, and nothing is begun."""
    command = [sys.executable, str(TOP / "packaging/arm64/installed"), "/nonexistent.deb"]
    done = subprocess.run(command, user=65534, capture_output=True, text=True, timeout=60)
    assert (done.returncode, done.stdout, done.stderr) == (69, "", "installed: cannot make a root for arm64: only root can\n")
