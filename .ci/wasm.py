"""Makes a WebAssembly module of a static library: wasm.py KIT MODULE.bc SUPPORT.c OUT.wasm EXPORT..

The kit's rattle can build a static library for wasm64, but not one that takes memory: there it knows no heap. So this script begins
with the module that rattle made of the library for x86-64, in LLVM's form. Pointers and sizes have 64 bits in both targets. The rest
of x86-64 in the module is its name, the names of processors, and one instruction, which is spelled out here. The kit's clang compiles
the module for wasm64, and SUPPORT.c with it, which has a heap; the kit's linker links them. Then wasm-opt (Debian's package binaryen)
turns the 64-bit memory into a 32-bit one, which every browser has. Pointers stay 64-bit integers. No proof covers any of this.
"""
import re
import subprocess
import sys
import tempfile
from pathlib import Path

TARGET = "wasm64-unknown-unknown"
LAYOUT = "e-m:e-p:64:64-p10:8:8-p20:8:8-i64:64-i128:128-n32:64-S128-ni:1:10:20"
SHUFFLE = "@llvm.x86.ssse3.pshuf.b.128("
FOREIGN = re.compile(r"@llvm\.x86\.[\w.]*|^module asm|\basm (?:sideeffect )?\"", re.M)   # what is of one processor
STACK = 1 << 20                                 # bytes
# What the module may use of WebAssembly, apart from its first version. binaryen 108 can't turn the memory where vectors are used.
FEATURES = ["memory64", "bulk-memory", "sign-ext", "nontrapping-float-to-int", "mutable-globals", "multivalue"]


def shuffle():
    """What the instruction does: byte i of the result is the byte of v whose place is in the last four bits of byte i of m, or 0 if
    the first bit of this byte is 1."""
    lines, made = ["define internal <16 x i8> @shuffle(<16 x i8> %v, <16 x i8> %m) nounwind {"], "zeroinitializer"
    for i in range(16):
        lines += [f"  %m{i} = extractelement <16 x i8> %m, i32 {i}",
                  f"  %place{i} = and i8 %m{i}, 15",
                  f"  %byte{i} = extractelement <16 x i8> %v, i8 %place{i}",
                  f"  %none{i} = icmp slt i8 %m{i}, 0",
                  f"  %it{i} = select i1 %none{i}, i8 0, i8 %byte{i}",
                  f"  %made{i} = insertelement <16 x i8> {made}, i8 %it{i}, i32 {i}"]
        made = f"%made{i}"
    return "\n".join([*lines, f"  ret <16 x i8> {made}", "}"])


def for_wasm(text):
    """The module for x86-64 as one for wasm64; SystemExit if it has anything else of x86-64."""
    text = re.sub(r'^target datalayout = ".*"$', f'target datalayout = "{LAYOUT}"', text, flags=re.M)
    text = re.sub(r'^target triple = ".*"$', f'target triple = "{TARGET}"', text, flags=re.M)
    text = re.sub(r'"(target-cpu|target-features|probe-stack|stack-probe-size)"="[^"]*"', "", text)
    text = re.sub(rf"^declare .*{re.escape(SHUFFLE)}.*$", lambda _: shuffle(), text, flags=re.M).replace(SHUFFLE, "@shuffle(")
    if found := FOREIGN.search(text):
        sys.exit(f"wasm: the module has {found[0]}, which is of x86-64")
    return text


class Tools:
    """The kit's clang and linker, and wasm-opt, in a folder of their own."""

    def __init__(self, kit, room):
        self.bin, self.room = Path(kit, "toolchain", "bin"), room

    def run(self, *words):
        subprocess.run([str(it) for it in words], cwd=self.room, check=True, stdin=subprocess.DEVNULL)

    def clang(self, *words):
        self.run(self.bin / "clang", "--no-default-config", "-no-canonical-prefixes", "-Werror", *words)

    def text_of(self, module):
        self.clang("-S", "-emit-llvm", "-Xclang", "-disable-llvm-passes", "-x", "ir", module, "-o", "module.ll")
        return Path(self.room, "module.ll").read_text()

    def compile(self, file, made, *words):
        """Compiles a file for wasm64."""
        self.clang(f"--target={TARGET}", "-mcpu=lime1", "-O3", "-ffunction-sections", "-fdata-sections", "-c", *words, file, "-o", made)

    def compile_text(self, text, made):
        Path(self.room, "module.ll").write_text(text)
        self.compile("module.ll", made, "-mllvm", "-expand-div-rem-bits=64", "-mllvm", "-trap-unreachable", "-x", "ir")

    def compile_c(self, file, made):
        self.compile(file, made, "-std=c11", "-ffreestanding", "-fno-builtin", "-Wall", "-Wextra")

    def link(self, objects, exports, made, *words):
        """Links a module with a 32-bit memory."""
        self.run(self.bin / "ld.lld", "-flavor", "wasm", "-mwasm64", "--no-entry", "--gc-sections", "--strip-all", "--stack-first",
                 "-z", f"stack-size={STACK}", *words, *[f"--export={it}" for it in exports], *objects, "-o", "64.wasm")
        self.run("wasm-opt", *[f"--enable-{it}" for it in FEATURES], "--memory64-lowering", "64.wasm", "-o", made)


def main():
    kit, module, support, made = (Path(it).resolve() for it in sys.argv[1:5])
    with tempfile.TemporaryDirectory() as room:
        tools = Tools(kit, room)
        tools.compile_text(for_wasm(tools.text_of(module)), "module.o")
        tools.compile_c(support, "support.o")
        tools.link(["module.o", "support.o"], sys.argv[5:], made)


if __name__ == "__main__":
    main()
