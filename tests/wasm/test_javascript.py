"""The client in JavaScript: its own tests in Node, and the package that npm makes of it."""
from __future__ import annotations

import hashlib
import json
import shutil
import subprocess
import sys
from pathlib import Path
from typing import Callable

import pytest

TOP = Path(__file__).resolve().parents[2]
CLIENT = TOP / "clients/javascript"
SECONDS = 300
IDENTITY = f"ljserve {json.loads((CLIENT / 'package.json').read_text())['version']}\nkit 4\ncommit 5\n"
FILES = ["LICENSE", "README.md", "VERSION", "package.json", "src", "wasm32.wasm", "wasm64.wasm"]
# A module whose program ends at once, with status 7.
ENDS = bytes.fromhex("0061736d010000000105016000017f030201000503010001071402066d656d6f72790200076c6a5f6d61696e00000a0601040041070b")
IMPORT = """
import { Client, Engine, modules } from "ljclient";
import { begin } from "ljclient/node";
const client = await Engine.openFirst(modules);
console.log(typeof begin, client instanceof Client, await client.send("LIST").catch(({ message }) => message));
client.close();
"""
needs_node = pytest.mark.skipif(shutil.which("node") is None, reason="no node")
needs_npm = pytest.mark.skipif(shutil.which("npm") is None, reason="no npm")


@needs_node
def test_its_own_tests_pass() -> None:
    """Over the program of these tests, and over modules where LJSERVE_WASM has some."""
    done = subprocess.run(["node", "--test", CLIENT / "tests"], capture_output=True, text=True, timeout=SECONDS)
    assert done.returncode == 0, done.stdout[-4000:]


def packed(folder: Path, modules: str, made: str) -> "subprocess.CompletedProcess[str]":
    return subprocess.run(
        [sys.executable, TOP / "packaging/npm", modules, made], cwd=folder, capture_output=True, text=True, timeout=SECONDS
    )


def installed(archive: Path, folder: Path) -> Path:
    """The package unpacked where Node finds it for what is in a folder."""
    package = folder / "node_modules" / "ljclient"
    package.mkdir(parents=True)
    subprocess.run(["tar", "-xzf", archive, "-C", package, "--strip-components=1"], check=True, timeout=SECONDS)
    return package


def told(folder: Path, script: str) -> str:
    """What a script prints in a folder of its own."""
    (folder / "try.mjs").write_text(script)
    done = subprocess.run(["node", folder / "try.mjs"], cwd=folder, capture_output=True, text=True, timeout=SECONDS)
    assert done.returncode == 0, done.stderr
    return done.stdout


@needs_node
@needs_npm
def test_the_package_of_npm_is_imported(tmp_path: Path) -> None:
    """It has the modules, and tells their sums, the kit and the commit."""
    modules = tmp_path / "modules"
    modules.mkdir()
    for name in ("wasm64.wasm", "wasm32.wasm"):
        (modules / name).write_bytes(ENDS)
    (modules / "VERSION").write_text(IDENTITY)
    for number in range(2):
        done = packed(tmp_path, "modules", f"made{number}")
        assert done.returncode == 0, done.stderr
    one, other = (tmp_path / f"made{number}" / done.stdout.strip() for number in range(2))
    assert one.read_bytes() == other.read_bytes()
    package = installed(one, tmp_path)
    assert sorted(path.name for path in package.iterdir()) == FILES
    readme = (package / "README.md").read_text()
    assert IDENTITY in readme and readme.count(hashlib.sha256(ENDS).hexdigest()) == 2
    assert told(tmp_path, IMPORT) == "function true the program has ended with status 7\n"


@needs_node
@needs_npm
def test_its_readme_is_done_as_it_says(tmp_path: Path, compiled: Callable[[str], Path]) -> None:
    """With the program in it."""
    (tmp_path / "modules").mkdir()
    for kind in ("wasm64", "wasm32"):
        (tmp_path / "modules" / f"{kind}.wasm").symlink_to(compiled(kind))
    done = packed(tmp_path, "modules", "made")
    assert done.returncode == 0, done.stderr
    package = installed(tmp_path / "made" / done.stdout.strip(), tmp_path)
    script = (package / "README.md").read_text().partition("```js\n")[2].partition("```")[0]
    assert told(tmp_path, script) == "OK SHOW a 2 0 1774 0 0\n\n"


def test_modules_that_are_none(tmp_path: Path) -> None:
    (tmp_path / "wasm64.wasm").write_bytes(ENDS)
    for text in (None, "no module"):
        if text is not None:
            (tmp_path / "wasm32.wasm").write_text(text)
        done = packed(tmp_path, str(tmp_path), "made")
        assert (done.returncode, done.stdout) == (70, "") and "wasm32.wasm must be a module of WebAssembly" in done.stderr
    assert not (tmp_path / "made").exists()
