"""The program for other machines, which is compiled once for all tests here."""
from __future__ import annotations

import os
import shutil
import subprocess
from pathlib import Path
from typing import Callable, Dict

import pytest

TOP = Path(__file__).resolve().parents[2]
SECONDS = 1800


@pytest.fixture(scope="session")
def compiled() -> Callable[[str], Path]:
    """The program `lj_run` of each kind, which is compiled when it is first asked for. Or it stands in the folder that LJSERVE_WASM
    names, as wasm64.wasm and wasm32.wasm, with `ljserve` as ljserve-wasm64.wasm, ljserve-wasm32.wasm and arm64."""
    made: Dict[str, Path] = {}

    def program(kind: str) -> Path:
        if kind not in made:
            made[kind] = there(kind) if "LJSERVE_WASM" in os.environ else compile_now(kind)
        return made[kind]

    return program


def there(kind: str) -> Path:
    path = Path(os.environ["LJSERVE_WASM"], kind if kind == "arm64" else f"{kind}.wasm")
    if not path.exists():
        pytest.skip(f"there is no {path}")
    return path


def compile_now(kind: str) -> Path:
    """Not that of `ljserve` whole, which takes five minutes of a processor, and is tried of a release."""
    if kind.startswith("ljserve-"):
        pytest.skip("LJSERVE_WASM names no folder with ljserve as WebAssembly")
    if shutil.which("rt") is None or not (TOP / "crates/lj_program/out/rlib").is_dir():
        pytest.skip("the libraries of the program are not built: bin/ljserve builds them")
    done = subprocess.run([TOP / "bin/compile", kind, f"out/{kind}", "--crate", "lj_run"], capture_output=True, text=True, timeout=SECONDS)
    if done.returncode == 69:
        pytest.skip(done.stderr.strip())
    assert done.returncode == 0, done.stdout[-2000:] + done.stderr
    return TOP / "crates/lj_run/out" / kind / ("lj_run" if kind == "arm64" else "lj_run.wasm")
