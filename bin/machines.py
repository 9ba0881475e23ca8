"""Compiles the program for machines other than x86-64: the kit's clang compiles the proved module for another target.

`rattle build` proves a program, lowers it to one LLVM module for x86-64, and calls clang for it. For WebAssembly, a script in place of
clang keeps the module too, which is then compiled again. The functions that the module calls are in packaging/wasm/host.c. The lowering
is for x86-64, and clang for another machine is not part of the proof, so conformance/ is run on the result.
"""

import re
import shlex
import shutil
import subprocess
from pathlib import Path
from typing import Any, List

import wasm_tables
from kit import TOP

WASM_LAYOUT = "e-m:e-p:64:64-p10:8:8-p20:8:8-i64:64-i128:128-n32:64-S128"
WASM_FEATURES, LANES = "+bulk-memory,+bulk-memory-opt,+mutable-globals,+nontrapping-fptoint,+sign-ext", ",+simd128"
LOWERED_WITH = [f"--enable-{each}" for each in "memory64 bulk-memory sign-ext nontrapping-float-to-int mutable-globals".split()]
# The only intrinsic of a processor that the module may call: a hint in waiting loops, which is removed.
PAUSE = re.compile(r"^.*@llvm\.x86\.sse2\.pause\b.*\n", re.M)
MAIN = re.compile(r"^define i32 @main\(.*?^}\n", re.M | re.S)
INTRINSIC = re.compile(r"@(llvm\.(?:x86|aarch64|arm)\.[\w.]+)")
STACK = 1 << 20
ARM64 = "aarch64-unknown-linux-gnu"
# Debian's packages for linking the program for arm64, and their folders and files that the kit's linker takes.
ARM64_PACKAGES = "libc6-arm64-cross libc6-dev-arm64-cross libgcc-s1-arm64-cross libgcc-12-dev-arm64-cross"
ARM64_LIBRARIES = Path("/usr/aarch64-linux-gnu/lib")
ARM64_COMPILER = Path("/usr/lib/gcc-cross/aarch64-linux-gnu/12")
OF_COMPILER = ("crtbeginS.o", "crtendS.o", "libgcc.a")
CLANG = """#!/bin/sh
for word; do case $word in *.bc) cp "$word" {module} ;; esac; done
exec {clang} "$@"
"""


class NotCompiled(Exception):
    """A program was not compiled for another machine, for this reason."""


class NotThere(Exception):
    """Something that compiles for another machine is not installed."""


def run(words: List[str]) -> None:
    """Runs a tool of the compiler. Raises NotCompiled with its output if it fails."""
    done = subprocess.run(words, stdin=subprocess.DEVNULL, stdout=subprocess.PIPE, stderr=subprocess.STDOUT, text=True, errors="replace")
    if done.returncode:
        raise NotCompiled(f"{Path(words[0]).name}: {done.stdout[-2000:]}")


def kept_module(rt: Any, crate: Any, flags: List[str], folder: Path) -> Path:
    """The module that a proved program is compiled from. It is kept in the folder of the crate, with a sum of all that it was made from.
    So the next kind is compiled from the same module, and nothing is proved again."""
    kept, made_of = Path(crate.folder, "out", "module"), crate.stamp()
    module, mark = kept / "module.bc", kept / "made_of"
    if not (mark.is_file() and mark.read_text() == made_of):
        shutil.rmtree(kept, ignore_errors=True)
        kept.mkdir(parents=True)
        keep_module(rt, crate, flags, folder, module)
        mark.write_text(made_of)
    return module


def keep_module(rt: Any, crate: Any, flags: List[str], folder: Path, module: Path) -> None:
    """Builds a proved program, and keeps the module that it is compiled from."""
    kit = Path(rt.KIT, "toolchain")
    (folder / "kit" / "bin").mkdir(parents=True)
    (folder / "kit" / "lib").symlink_to(kit / "lib")
    for tool in (kit / "bin").iterdir():
        if tool.name != "clang":
            (folder / "kit" / "bin" / tool.name).symlink_to(tool)
    clang = folder / "kit" / "bin" / "clang"
    clang.write_text(CLANG.format(module=shlex.quote(str(module)), clang=shlex.quote(str(kit / "bin" / "clang"))))
    clang.chmod(0o755)
    words = ["build", *crate.words(flags), "--toolchain", str(folder / "kit"), "--backend", "llvm", "-o", str(folder / "program.o")]
    if crate.call(rt.rtlib.RATTLE, *words):
        raise NotCompiled(f"{crate.name} is not proved, or not built")


def for_wasm(text: str, features: str) -> str:
    """The text of a module, changed for WebAssembly with these features. Its function `lj_main` is the program."""
    text = re.sub(r'^target triple = ".*"$', 'target triple = "wasm64-unknown-unknown"', text, flags=re.M)
    text = re.sub(r'^target datalayout = ".*"$', f'target datalayout = "{WASM_LAYOUT}"', text, flags=re.M)
    text = PAUSE.sub("", MAIN.sub(entry, text))
    if found := INTRINSIC.search(text):
        raise NotCompiled(f"the module must not call {found[1]}, which only processors have")
    text = re.sub(r' "(?:probe-stack|stack-probe-size|target-features)"="[^"]*"', "", text)
    return re.sub(r'"target-cpu"="[^"]*"', f'"target-features"="{features}"', text)


def entry(main: "re.Match[str]") -> str:
    """Makes `lj_main` of C's `main`. It calls the program without first asking an x86-64 processor what it is."""
    called = re.search(r'^run:.*\n +%\w+ = call i32 (@"[^"]+")\(\)$', main[0], re.M)
    if called is None:
        raise NotCompiled("the module's main must have the known form, got another")
    return f"define i32 @lj_main() {{\n  %status = call i32 {called[1]}()\n  ret i32 %status\n}}\n"


def link_wasm(rt: Any, objects: List[str], folder: Path, made: Path, words: List[str], lanes: bool = False) -> None:
    """Links objects with packaging/wasm/host.c, as WebAssembly with memory of 64 bits."""
    clang, host, linker = str(Path(rt.KIT, "toolchain", "bin", "clang")), str(folder / "host.o"), folder / "wasm-ld"
    run([clang, *target_of_wasm(lanes), "-ffreestanding", "-std=c11", "-c", str(TOP / "packaging/wasm/host.c"), "-o", host])
    linker.symlink_to(clang)
    run([str(linker), "-mwasm64", "--no-entry", "--stack-first", "-z", f"stack-size={STACK}", *words, "-o", str(made), *objects, host])


def target_of_wasm(lanes: bool) -> List[str]:
    return ["--target=wasm64-unknown-unknown", "-O3", "-mbulk-memory", *(["-msimd128"] if lanes else [])]


def linked_for_wasm(rt: Any, crate: Any, flags: List[str], folder: Path, lanes: bool) -> Path:
    """Builds a proved program for WebAssembly with memory of 64 bits."""
    clang, text, made = str(Path(rt.KIT, "toolchain", "bin", "clang")), folder / "module.ll", folder / "linked.wasm"
    module = kept_module(rt, crate, flags, folder)
    run([clang, "-x", "ir", str(module), "-S", "-emit-llvm", "-Xclang", "-disable-llvm-passes", "-o", str(text)])
    features = WASM_FEATURES + (LANES if lanes else "")
    text.write_bytes(for_wasm(text.read_bytes().decode("latin-1"), features).encode("latin-1"))
    run([clang, *target_of_wasm(lanes), "-x", "ir", "-c", str(text), "-o", str(folder / "program.o")])
    link_wasm(rt, [str(folder / "program.o")], folder, made, ["--export=lj_main", "--gc-sections", "--strip-debug"], lanes)
    return made


def compile_wasm64(rt: Any, crate: Any, flags: List[str], folder: Path) -> Path:
    """Builds a proved program for WebAssembly with memory of 64 bits and lanes."""
    return linked_for_wasm(rt, crate, flags, folder, lanes=True)


def compile_wasm32(rt: Any, crate: Any, flags: List[str], folder: Path) -> Path:
    """Builds a proved program for WebAssembly with memory of 32 bits, by lowering memory of 64 bits."""
    lowers = shutil.which("wasm-opt")
    if lowers is None:
        raise NotThere("wasm-opt is not installed; use apt-get install binaryen")
    made = folder / "lowered.wasm"
    linked = linked_for_wasm(rt, crate, flags, folder, lanes=False)
    try:
        linked.write_bytes(wasm_tables.with_small_table(linked.read_bytes()))
    except wasm_tables.UnknownModule as why:
        raise NotCompiled(str(why)) from why
    run([lowers, "--memory64-lowering", *LOWERED_WITH, str(linked), "-o", str(made)])
    return made


def toolchain_for_arm64(rt: Any, folder: Path) -> Path:
    """A folder like the kit's toolchain, with the libraries of Debian's cross packages."""
    kit, made = Path(rt.KIT, "toolchain"), folder / "toolchain"
    (made / "lib").mkdir(parents=True)
    (made / "bin").symlink_to(kit / "bin")
    for library in (kit / "lib").iterdir():
        name = library.name.replace("linux-x86-64.so.2", "linux-aarch64.so.1")
        found = (ARM64_COMPILER if name in OF_COMPILER else ARM64_LIBRARIES) / name
        if not found.exists():
            raise NotThere(f"{found} is not installed; use apt-get install {ARM64_PACKAGES}")
        (made / "lib" / name).symlink_to(found)
    return made


def compile_arm64(rt: Any, crate: Any, flags: List[str], folder: Path) -> Path:
    """Builds a proved program for arm64, and links it with packaging/arm64/host.c."""
    toolchain, made = str(toolchain_for_arm64(rt, folder)), folder / "program"
    target = ["--target", ARM64, "--toolchain", toolchain]
    if crate.call(rt.rtlib.RATTLE, "build", *crate.words(flags), *target, "--backend", "llvm", "-o", str(folder / "program.o")):
        raise NotCompiled(f"{crate.name} is not proved, or not built")
    clang = f"{toolchain}/bin/clang"
    host = [
        f"--target={ARM64}",
        "-O2",
        "-ffreestanding",
        "-std=c11",
        "-c",
        str(TOP / "packaging/arm64/host.c"),
        "-o",
        str(folder / "host.o"),
    ]
    run([clang, *host])
    run([str(Path(rt.KIT, "bin", "rattle-link")), *target, "-o", str(made), str(folder / "program.o"), str(folder / "host.o")])
    return made


KINDS = {"arm64": compile_arm64, "wasm64": compile_wasm64, "wasm32": compile_wasm32}
ENDINGS = {"wasm64": ".wasm", "wasm32": ".wasm"}
