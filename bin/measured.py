"""Records what was measured: the program's version and commit, and a hash of each source that the figures depend on.

Each command of bench/ that writes JSON keeps this record in it (bench/timing.py). If a source has another hash now, the figures are
stale (bin/speeds). A hash covers code alone: no contract, docstring or comment on a line of its own changes it.
"""

import ast
import hashlib
import re
import subprocess
from pathlib import Path
from typing import Any, Callable, Iterable, Iterator, Optional, Sequence

import sources

TOP = sources.TOP
CLAUSE = re.compile(r"\s*(?:ghost|requires|ensures)\b")
SECONDS = 10


def code_of_crates(*names: str) -> tuple[str, ...]:
    return tuple(f"crates/{name}/src" for name in names)


def modules_of_client(*names: str) -> tuple[str, ...]:
    return tuple(f"clients/python/ljclient/{name}" for name in names)


STEP = code_of_crates("lj_ring", "lj_table", "lj_task", "lj_tile", "lj_step", "lj_end", "lj_engine")
POOL = (*STEP, *code_of_crates("lj_book", "lj_lock", "lj_queue"))
SHOW = code_of_crates("lj_fixed", "lj_session", "lj_wire", "lj_engine")
USERS = code_of_crates("lj_access", "lj_visit", "lj_program")
WIRE = modules_of_client("wire.py", "replies.py", "transport.py")
PLACES = modules_of_client("reading.py", "frames.py", "xyz.py", "columns.py", "digits.py", "decimals.py", "arrays.py", "exact.py")
PAGE = ("packaging/page", "packaging/wasm", "clients/javascript/src", *modules_of_client("view/page"))
START = modules_of_client("__init__.py", "user.py", "connecting.py", "loading.py", "load_options.py")
START += modules_of_client("session.py", "changes.py", "looks.py", "handle.py")
# The code that the figures of a command of bench/ depend on: files, and folders with all their code.
HOT = {
    "bench/ratio": STEP,
    "bench/lammps/step": STEP,
    "bench/lammps/cores": POOL,
    "bench/order": STEP,
    "bench/tiles": STEP,
    "bench/species": STEP,
    "bench/lines": SHOW,
    "bench/reader": code_of_crates("lj_fixed", "lj_ring", "lj_xyz", "lj_wire"),
    "bench/scale": POOL,
    "bench/server": (*POOL, *SHOW),
    "bench/shards": (*STEP, *SHOW, *USERS),
    "bench/memory": (*POOL, *USERS),
    "bench/keep": (*SHOW, "tools/keep", "tools/ljtools/keeping"),
    "bench/client": (*SHOW, *code_of_crates("lj_xyz"), *WIRE, *PLACES, *modules_of_client("order.py", "sampling.py")),
    "bench/start": (*START, *WIRE, *modules_of_client("prompt")),
    "bench/prompt": (*START, *WIRE, *modules_of_client("prompt")),
    "bench/view": (*STEP, *WIRE, *PLACES, *modules_of_client("view")),
    "bench/page": (*STEP, *PAGE),
}


# Hashes.


def code_in_rattle(text: str) -> Iterator[str]:
    """The lines of code, without comments and contracts. A clause ends where its braces are closed."""
    depth = 0
    for line in text.splitlines():
        if depth or CLAUSE.match(line):
            depth += line.count("{") - line.count("}")
        elif line.strip() and not line.lstrip().startswith("//"):
            yield line


def code_in_python(text: str) -> Iterator[str]:
    """The lines of code, without docstrings and without comments on lines of their own."""
    has_docs = (ast.Module, ast.ClassDef, ast.FunctionDef, ast.AsyncFunctionDef)
    docs = [each.body[0] for each in ast.walk(ast.parse(text)) if isinstance(each, has_docs) and ast.get_docstring(each) is not None]
    told = {number for doc in docs for number in range(doc.lineno, (doc.end_lineno or doc.lineno) + 1)}
    for number, line in enumerate(text.splitlines(), 1):
        if number not in told and line.strip() and not line.lstrip().startswith("#"):
            yield line


CODE_IN: dict[str, Callable[[str], Iterable[str]]] = {
    ".rt": code_in_rattle,
    ".py": code_in_python,
    ".js": str.splitlines,
    ".c": str.splitlines,
}


def code_of(file: Path) -> str:
    return "\n".join(CODE_IN.get(file.suffix, code_in_python)(file.read_text(encoding="utf-8")))


def files_of(source: str) -> list[Path]:
    """The file of a name, or the files of code below a folder."""
    path = TOP / source
    return sorted(file for file in path.rglob("*") if file.suffix in CODE_IN) if path.is_dir() else [path]


def hash_of(source: str) -> str:
    """The first 16 digits of a hash of the code and names of a file or of a folder's files; empty if it does not exist."""
    if not (TOP / source).exists():
        return ""
    code = "\0".join(f"{file.relative_to(TOP)}\0{code_of(file)}" for file in files_of(source))
    return hashlib.sha256(code.encode()).hexdigest()[:16]


# What was measured.


def printed(words: Sequence[str]) -> str:
    """The output of a command, or an empty string if it fails or does not end."""
    try:
        done = subprocess.run(words, cwd=TOP, timeout=SECONDS, stdin=subprocess.DEVNULL, capture_output=True)
    except (OSError, subprocess.TimeoutExpired):
        return ""
    return "" if done.returncode else done.stdout.decode(errors="replace").strip()


def is_built_of_these(program: str) -> bool:
    """Whether bin/ljserve has built a program, and no code is newer."""
    path, built = Path(program).resolve(), TOP / "crates" / "ljserve" / "out"
    if built not in path.parents:
        return False
    newest = max((file.stat().st_mtime for crate in sources.crates() for file in sources.code_of(crate)), default=0.0)
    return newest <= path.stat().st_mtime


def commit_of(hot: Sequence[str]) -> Optional[str]:
    """The commit of this folder, and whether some of these sources have changes."""
    commit = printed(["git", "rev-parse", "--short=8", "HEAD"]) or None
    changes = commit and printed(["git", "status", "--porcelain", "--", *hot])
    return f"{commit}, with changes" if changes else commit


def what_is_measured(program: str, command: str) -> dict[str, Any]:
    """The record that a command of bench/ keeps of the program that it measures. If the program is not built from this folder's present
    sources, only its version is recorded."""
    version = re.fullmatch(r"ljserve (\S+)", printed([program, "--version"]).split("\n")[0])
    hot = HOT.get(command, ()) if is_built_of_these(program) else ()
    return {
        "version": version[1] if version else None,
        "commit": commit_of(hot) if hot else None,
        "sources": {source: hash_of(source) for source in hot},
    }


def name_of(program: dict[str, Any]) -> str:
    """The name of a program in a line: its version and commit, as far as they are known."""
    return ", commit ".join(program[each] for each in ("version", "commit") if program.get(each))


def changes_since(told: dict[str, Any]) -> Optional[list[str]]:
    """The sources of a measurement whose hash differs from the recorded one; None if it recorded no sources."""
    kept = told.get("program", {}).get("sources")
    if not kept:
        return None
    hot = HOT.get(told["command"].split()[0], ())
    return [source for source in dict.fromkeys([*hot, *kept]) if kept.get(source) != hash_of(source)]
