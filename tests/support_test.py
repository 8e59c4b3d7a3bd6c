"""Tests by itself what the page for browsers adds to the library: support_test.py KIT. The module has the heap and the arithmetic of
web-page/support.c and the instruction that .ci/wasm.py spells out, once with as much memory as it asks for, and once with 16 pages."""
import subprocess
import sys
import tempfile
from pathlib import Path

TOP = Path(__file__).resolve().parents[1]
sys.path.insert(0, str(TOP / ".ci"))
import wasm  # noqa: E402

EXPORTS = ("rattle_alloc", "rattle_realloc", "rattle_dealloc", "ca_take", "ca_give", "__multi3", "__ashlti3", "__lshrti3", "shuffled")
SHUFFLED = f"""target datalayout = "{wasm.LAYOUT}"
target triple = "{wasm.TARGET}"
{wasm.shuffle()}
define void @shuffled(ptr %made, ptr %v, ptr %m) nounwind {{
  %1 = load <16 x i8>, ptr %v
  %2 = load <16 x i8>, ptr %m
  %3 = call <16 x i8> @shuffle(<16 x i8> %1, <16 x i8> %2)
  store <16 x i8> %3, ptr %made
  ret void
}}
"""
# Lines of LLVM's form that a module for x86-64 may have, and that no other processor knows.
FOREIGN = ("declare <4 x i32> @llvm.x86.sse41.ptestz(<2 x i64>)", 'module asm "nop"', '  call void asm sideeffect "pause", ""()',
           '  %1 = call i64 asm "bswap $0", "=r,0"(i64 %0)')


def is_refused(text):
    try:
        wasm.for_wasm(text)
    except SystemExit:
        return True
    return False


def main():
    refused = [is_refused(f"target triple = \"x86_64\"\n{line}\n") for line in FOREIGN]
    known = not is_refused("declare <16 x i8> @llvm.x86.ssse3.pshuf.b.128(<16 x i8>, <16 x i8>)\n")
    with tempfile.TemporaryDirectory() as room:
        tools = wasm.Tools(sys.argv[1], room)
        tools.compile_text(SHUFFLED, "module.o")
        tools.compile_c(TOP / "web-page/support.c", "support.o")
        for name, words in (("large", ()), ("small", (f"--initial-memory={17 << 16}", f"--max-memory={33 << 16}"))):
            tools.link(["module.o", "support.o"], EXPORTS, f"{name}.wasm", *words)
        done = subprocess.run(["node", TOP / "tests/support_test.mjs", "large.wasm", "small.wasm"], cwd=room, stdout=subprocess.PIPE, text=True,
                              check=True)
    passed, failed = map(int, done.stdout.split())
    own = [*refused, known]
    print(f"{passed + sum(own)} passed, {failed + len(own) - sum(own)} failed")


if __name__ == "__main__":
    main()
