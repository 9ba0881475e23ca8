"""What the program calls in WebAssembly, packaging/wasm/host.c: its heap, its words, its end, and its helpers for numbers of 128 bits."""
from __future__ import annotations

import json
import random
import re
import shutil
import subprocess
import sys
from pathlib import Path
from typing import Any, List, Sequence

import pytest

TOP = Path(__file__).resolve().parents[2]
sys.path.insert(0, str(TOP / "bin"))
NODE = shutil.which("node")
pytestmark = pytest.mark.skipif(
    NODE is None or shutil.which("rt") is None, reason="no node, or no kit whose clang compiles for WebAssembly"
)
HELPERS = ["__multi3", "__udivti3", "__divti3", "__ashlti3", "__lshrti3"]
HEAP = ["rattle_alloc", "rattle_realloc", "rattle_dealloc"]
OF_WORDS = ["rattle_arg", "_exit"]
MEBIBYTE, WORD = 1 << 20, 1 << 64


def module_in(folder: Path) -> Path:
    """Links the file alone, with memory of at most 4 MiB, of which the stack has one."""
    import kit
    import machines

    rt = kit.load("test_host")
    made = folder / "host.wasm"
    machines.link_wasm(rt, [], folder, made, ["--max-memory=4194304", *(f"--export={name}" for name in HELPERS + HEAP + OF_WORDS)])
    return made


# A program whose calls go through a table of functions.
THROUGH_A_TABLE = """\
typedef unsigned long (*F)(unsigned long);
static unsigned long more(unsigned long x) { return x + 1; }
static unsigned long twice(unsigned long x) { return 2 * x; }
F table[2] = {more, twice};
unsigned long lj(unsigned long which, unsigned long x) { return table[which & 1](x); }
"""
ANSWERS = """\
import { readFile } from "node:fs/promises";
const { lj } = (await WebAssembly.instantiate(await readFile(process.argv[2]))).instance.exports;
console.log(lj(0n, 20n), lj(1n, 20n));
"""


@pytest.mark.skipif(shutil.which("wasm-opt") is None, reason="no wasm-opt")
def test_calls_through_a_table_are_lowered(tmp_path: Path) -> None:
    """Node knows no table of 64 bits, and no memory of 64 bits without a flag."""
    import kit
    import machines
    import wasm_tables

    tools = Path(kit.load("test_host").KIT, "toolchain", "bin")
    source, linked, small, lowered, script = (str(tmp_path / name) for name in ("a.c", "a.wasm", "small.wasm", "low.wasm", "a.mjs"))
    Path(source).write_text(THROUGH_A_TABLE)
    Path(script).write_text(ANSWERS)
    (tmp_path / "wasm-ld").symlink_to(tools / "clang")
    machines.run([str(tools / "clang"), *machines.target_of_wasm(False), "-c", source, "-o", f"{source}.o"])
    machines.run([str(tmp_path / "wasm-ld"), "-mwasm64", "--no-entry", "--export=lj", f"{source}.o", "-o", linked])
    Path(small).write_bytes(wasm_tables.with_small_table(Path(linked).read_bytes()))
    machines.run(["wasm-opt", "--memory64-lowering", *machines.LOWERED_WITH, small, "-o", lowered])
    done = subprocess.run([str(NODE), script, lowered], capture_output=True, text=True, timeout=60)
    assert done.stdout == "21n 40n\n", done.stderr
    with pytest.raises(wasm_tables.UnknownModule):
        wasm_tables.with_small_table(Path(small).read_bytes())


@pytest.fixture(scope="module")
def module(tmp_path_factory: pytest.TempPathFactory) -> Path:
    return module_in(tmp_path_factory.mktemp("wasm"))


def results(module: Path, calls: Sequence[Sequence[Any]], command_line: Sequence[str] = ()) -> List[List[int]]:
    """What each of these calls returns, in a program whose command line has these words."""
    sent = json.dumps([[name, *(hex(word) for word in words)] for name, *words in calls])
    command = [str(NODE), "--experimental-wasm-memory64", str(TOP / "tests/wasm/host.mjs"), str(module), *command_line]
    done = subprocess.run(command, input=sent, capture_output=True, text=True, timeout=60)
    assert done.returncode == 0, done.stderr
    return [[int(word) for word in line.split(" ") if re.fullmatch(r"-?\d+", word)] for line in done.stdout.splitlines()]


def halves(number: int) -> List[int]:
    return [number % WORD, number // WORD]


def numbers(seed: int, count: int) -> List[int]:
    """Numbers of up to 128 bits, among them the ends of each half."""
    chance = random.Random(seed)
    ends = [0, 1, 2, WORD - 1, WORD, WORD + 1, WORD**2 - 1, WORD // 2, WORD**2 // 2, 1 << 32, (1 << 32) - 1, 1 << 56, (1 << 56) + 1]
    return ends + [chance.getrandbits(chance.randint(1, 128)) for _ in range(count)]


def told(module: Path, name: str, pairs: Sequence[Any], words: Any) -> List[int]:
    return [low + high * WORD for low, high in results(module, [[name, *words(pair)] for pair in pairs])]


def test_products_are_those_of_python(module: Path) -> None:
    pairs = [(a, b) for a in numbers(1, 30) for b in numbers(2, 30)]
    found = told(module, "__multi3", pairs, lambda pair: [*halves(pair[0]), *halves(pair[1])])
    assert found == [a * b % WORD**2 for a, b in pairs]


def test_quotients_are_those_of_python(module: Path) -> None:
    pairs = [(a, b) for a in numbers(3, 30) for b in numbers(4, 30) if b]
    found = told(module, "__udivti3", pairs, lambda pair: [*halves(pair[0]), *halves(pair[1])])
    assert found == [a // b for a, b in pairs]


def test_quotients_with_signs_are_those_of_python(module: Path) -> None:
    """Towards 0. The least number divided by -1 has no value."""
    signed = [number - WORD**2 if number >= WORD**2 // 2 else number for number in numbers(6, 30)]
    pairs = [(a, b) for a in signed for b in signed if b and (a, b) != (-(WORD**2) // 2, -1)]
    found = told(module, "__divti3", pairs, lambda pair: [*halves(pair[0] % WORD**2), *halves(pair[1] % WORD**2)])
    assert found == [(abs(a) // abs(b) * (1 if (a < 0) == (b < 0) else -1)) % WORD**2 for a, b in pairs]


@pytest.mark.parametrize("name", ["__ashlti3", "__lshrti3"])
def test_shifts_are_those_of_python(module: Path, name: str) -> None:
    pairs = [(a, by) for a in numbers(5, 20) for by in range(128)]
    found = told(module, name, pairs, lambda pair: [*halves(pair[0]), pair[1]])
    assert found == [(a << by) % WORD**2 if name == "__ashlti3" else a >> by for a, by in pairs]


def test_blocks_are_aligned_and_apart(module: Path) -> None:
    sizes = [0, 1, 15, 16, 17, 64, 65, 80, 81, 127, 129, 1000, 1024, 4097, 65536, 300_000]
    blocks = results(module, [["rattle_alloc", size, 8] for size in sizes])
    assert all(ok == 1 and at % 16 == 0 for ok, at in blocks)
    ends = sorted((at, at + (size or 8)) for (_, at), size in zip(blocks, sizes))
    assert ends[0][0] >= MEBIBYTE, "a block lies in the stack"
    assert all(end <= begin for (_, end), (begin, _) in zip(ends, ends[1:]))


def test_a_freed_block_is_handed_out_again(module: Path) -> None:
    ((_, first),) = results(module, [["rattle_alloc", 1000, 8]])
    again = results(module, [["rattle_alloc", 1000, 8], ["rattle_dealloc", first], ["rattle_alloc", 900, 8]])
    assert again[0] == [1, first] and again[2] == [1, first]


def test_what_a_block_held_is_kept_as_it_grows_and_shrinks(module: Path) -> None:
    ((_, first), (_, second)) = results(module, [["rattle_alloc", 100, 8], ["rattle_alloc", 100, 8]])
    fill = ["fill", first, 100, 7]
    grown = [["rattle_alloc", 100, 8], ["rattle_alloc", 100, 8], fill, ["rattle_realloc", first, 100, 5000, 8]]
    moved = results(module, grown)[3]
    assert moved[0] == 1 and moved[1] not in (first, second)
    shrunk = results(module, [*grown, ["count", moved[1], 100, 7], ["rattle_realloc", moved[1], 50, 60, 8]])
    assert shrunk[4] == [100]
    kept = results(module, [*grown, ["rattle_realloc", moved[1], 50, 60, 8], ["count", shrunk[5][1], 50, 7]])
    assert kept[5] == [50]


def test_refused_memory_leaves_all_as_it_was(module: Path) -> None:
    most = 4 * MEBIBYTE
    ((_, first),) = results(module, [["rattle_alloc", 100, 8]])
    calls = [["rattle_alloc", 100, 8], ["fill", first, 100, 9], ["rattle_alloc", most, 8], ["rattle_alloc", 1 << 60, 8]]
    calls += [["rattle_realloc", first, 100, most, 8], ["count", first, 100, 9], ["rattle_alloc", MEBIBYTE, 8]]
    found = results(module, calls)
    assert [row[0] for row in (found[2], found[3], found[4])] == [0, 0, 0]
    assert all(row[1] for row in (found[2], found[3], found[4])), "no pointer is null"
    assert found[5] == [100] and found[6][0] == 1


WORDS = ["ljserve", "run", "", "--atoms=65536", "\u00fc" * 200, "x" * 4096]
ROOM_AT, UNTOUCHED = 1024, 9


@pytest.mark.parametrize("room", [0, 1, 3, 7, 13, 400, 4095, 4096, 5000])
def test_words_of_the_command_line(module: Path, room: int) -> None:
    """Each that fits is put at the start of the room, and nothing is written behind it."""
    fill, look = ["fill", ROOM_AT, 6000, UNTOUCHED], ["bytes", ROOM_AT, 6000]
    calls = [call for number in range(len(WORDS)) for call in (fill, ["rattle_arg", number, ROOM_AT, room], look)]
    found = results(module, calls, WORDS)
    for word, (length,), there in zip(map(str.encode, WORDS), found[1::3], found[2::3]):
        fits = len(word) <= room
        assert length == (len(word) if fits else -2)
        assert bytes(there[: len(word)]) == word if fits else set(there[room:]) == {UNTOUCHED}
        assert set(there[max(room, len(word)) :]) == {UNTOUCHED}


def test_there_is_no_such_word(module: Path) -> None:
    calls = [["rattle_arg", number, ROOM_AT, 100] for number in (0, 6, 1 << 40)]
    assert results(module, calls, WORDS)[1:] == [[-1], [-1]]
    assert results(module, calls) == [[-1], [-1], [-1]]


@pytest.mark.parametrize("status", [0, 1, 2, 3, 70])
def test_an_end_has_its_status(module: Path, status: int) -> None:
    """And what is called afterwards finds all as it was."""
    ((_, first),) = results(module, [["rattle_alloc", 100, 8]])
    found = results(module, [["rattle_alloc", 100, 8], ["fill", first, 100, 7], ["_exit", status], ["count", first, 100, 7]])
    assert found[2] == [status] and found[3] == [100]
