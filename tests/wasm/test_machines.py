"""How bin/machines.py makes a module for another machine of one for x86-64, and when it refuses to."""
from __future__ import annotations

import sys
from pathlib import Path
from typing import Any, List

import pytest

TOP = Path(__file__).resolve().parents[2]
sys.path.insert(0, str(TOP / "bin"))
import machines  # noqa: E402

# A module as the kit lowers it, but for most of its functions.
MODULE = """target datalayout = "e-m:e-p270:32:32-p271:32:32-p272:64:64-i64:64-i128:128-f80:128-n8:16:32:64-S128"
target triple = "x86_64-unknown-linux-gnu"

define internal noundef i32 @"lj_run::main+start"() #0 {
start:
  call void @llvm.x86.sse2.pause()
  ret i32 0
}

define i32 @main() #1 {
start:
  %r1 = call ptr @__x86_get_cpuid_feature_leaf(i32 0)
  br i1 true, label %run, label %refuse

run:                                              ; preds = %start
  %r16 = call i32 @"lj_run::main+start"()
  ret i32 %r16

refuse:                                           ; preds = %start
  ret i32 1
}

declare void @llvm.x86.sse2.pause() #2

attributes #0 = { nounwind "probe-stack"="inline-asm" "stack-probe-size"="3072" "target-cpu"="x86-64-v2" }
attributes #1 = { nounwind "target-cpu"="x86-64" }
attributes #2 = { nounwind }
"""


def test_a_module_for_webassembly_names_no_other_processor() -> None:
    text = machines.for_wasm(MODULE, "+simd128")
    assert "x86" not in text and "probe" not in text and "pause" not in text
    assert 'target triple = "wasm64-unknown-unknown"' in text
    assert text.count('"target-features"="+simd128"') == 2
    assert 'define i32 @lj_main() {\n  %status = call i32 @"lj_run::main+start"()\n  ret i32 %status\n}' in text


def test_another_intrinsic_of_a_processor_is_refused() -> None:
    for name in ("llvm.x86.ssse3.pshuf.b.128", "llvm.aarch64.neon.abs.v4i32"):
        with pytest.raises(machines.NotCompiled, match=f"must not call {name}, which only processors have"):
            machines.for_wasm(MODULE.replace("ret i32 0", f"call void @{name}()\n  ret i32 0"), "")


def test_another_form_of_main_is_refused() -> None:
    with pytest.raises(machines.NotCompiled, match="must have the known form, got another"):
        machines.for_wasm(MODULE.replace("%r16 = call i32", "%r16 = tail call i32"), "")


class Crate:
    """A crate whose sources have a sum, and which notes how often it is built."""

    name = "lj_run"

    def __init__(self, folder: Path) -> None:
        self.folder, self.sum, self.built, self.is_proved = str(folder), "a", 0, True

    def stamp(self) -> str:
        return self.sum

    def words(self, flags: List[str]) -> List[str]:
        return flags

    def call(self, *words: str) -> int:
        self.built += 1
        clang = Path(words[words.index("--toolchain") + 1], "bin", "clang").read_text()
        if self.is_proved:
            Path(clang.split('cp "$word" ')[1].split(" ")[0]).write_text(self.sum)
        return int(not self.is_proved)


@pytest.fixture
def kit(tmp_path: Path) -> Any:
    """A kit with the files of its compiler."""
    for file in ("toolchain/bin/clang", "toolchain/bin/ld.lld", "toolchain/lib/crti.o"):
        path = tmp_path / "kit" / file
        path.parent.mkdir(parents=True, exist_ok=True)
        path.touch()

    class Kit:
        KIT = str(tmp_path / "kit")

        class rtlib:  # noqa: N801
            RATTLE = "rattle"

    return Kit


def test_all_kinds_are_compiled_from_one_module(tmp_path: Path, kit: Any) -> None:
    """It is kept until something that it was made of has changed."""
    crate = Crate(tmp_path / "crate")
    modules = [machines.kept_module(kit, crate, [], tmp_path / f"room{n}") for n in range(2)]
    assert modules[0] == modules[1] and modules[0].read_text() == "a" and crate.built == 1
    crate.sum = "b"
    assert machines.kept_module(kit, crate, [], tmp_path / "room2").read_text() == "b" and crate.built == 2


def test_a_module_that_is_not_proved_is_not_kept(tmp_path: Path, kit: Any) -> None:
    crate = Crate(tmp_path / "crate")
    crate.is_proved = False
    for n in range(2):
        with pytest.raises(machines.NotCompiled, match="lj_run is not proved"):
            machines.kept_module(kit, crate, [], tmp_path / f"room{n}")
    assert crate.built == 2
