"""The program script_trace for a browser, as WebAssembly and without a proof, which is kept in the folder stories/web.

The LLVM module is the one from which scripts/trace builds the program. It is for a processor of 64 bits, and this
WebAssembly has addresses of 32, so that every browser runs it. In memory a pointer keeps its eight bytes, of which the
lower four are used: `narrow` makes room for the others where the module leaves the size of a pointer to LLVM.
"""

import gzip
import re
import subprocess
import sys
import tempfile
from pathlib import Path

from building import module
from tree import TOP

WEB = TOP / "scripts/stories/web"
KEPT = WEB / "script_trace.wasm.gz"
CLANG = module.KIT / "toolchain/bin/clang"
TARGET = "--target=wasm32-unknown-unknown"
LAYOUT = "e-m:e-p:32:32-p10:8:8-p20:8:8-i64:64-i128:128-n32:64-S128-ni:1:10:20"
WARNINGS = ["-Wall", "-Wextra", "-Werror"]
LINK = ["--no-entry", "--gc-sections", "--strip-all", "--stack-first", "-z", "stack-size=1048576", "--allow-undefined"]
# A load of a byte and a pointer, which are eight bytes apart in memory.
PAIR = re.compile(r"^  (%\S+) = load \{ i8, ptr \}, (.*)$", re.M)
LOADED = r"""  \1.pair = load { i8, i64 }, \2
  \1.byte = extractvalue { i8, i64 } \1.pair, 0
  \1.wide = extractvalue { i8, i64 } \1.pair, 1
  \1.ptr = inttoptr i64 \1.wide to ptr
  \1.half = insertvalue { i8, ptr } poison, i8 \1.byte, 0
  \1 = insertvalue { i8, ptr } \1.half, ptr \1.ptr, 1"""


def narrow(text):
    text = re.sub("^target datalayout = .*", f'target datalayout = "{LAYOUT}"', text, count=1, flags=re.M)
    text = re.sub("^target triple = .*", 'target triple = "wasm32-unknown-unknown"', text, count=1, flags=re.M)
    text = re.sub(r' "(?:probe-stack|stack-probe-size|target-cpu)"="[^"]*"', "", text)
    text = text.replace("ptrtoaddr", "ptrtoint").replace("alloca ptr,", "alloca i64,")
    return PAIR.sub(LOADED, text)


def built():
    with tempfile.TemporaryDirectory(prefix="web-") as room:
        source, linker, made = (Path(room, name) for name in ("narrow.ll", "wasm-ld", "script_trace.wasm"))
        objects = [Path(room, "program.o"), Path(room, "host.o")]
        source.write_text(narrow(module.text_of("script_trace")))
        linker.symlink_to(CLANG)
        subprocess.run([CLANG, TARGET, "-Oz", "-c", "-x", "ir", source, "-o", objects[0]], check=True)
        flags = ["-std=gnu11", "-Oz", "-fno-builtin", *WARNINGS]
        subprocess.run([CLANG, TARGET, *flags, "-c", WEB / "host.c", "-o", objects[1]], check=True)
        subprocess.run([linker, *LINK, *objects, "-o", made], check=True)
        return made.read_bytes()


def keep():
    print("builds script_trace for WebAssembly, which takes some minutes", file=sys.stderr, flush=True)
    KEPT.write_bytes(gzip.compress(built(), 9, mtime=0))


def is_as_built():
    return gzip.decompress(KEPT.read_bytes()) == built()
