#!/usr/bin/env python3
"""Looks that a C++ compiler refuses what it must of the header's users: library/cpp/refused.py COMPILER..

Each line of refused.cpp that ends in `//~ TEXT` is compiled without the others of these lines. It must have an error,
in that line or in what it uses, and one of the errors has the text. Without all of these lines there is no error.
"""
import pathlib
import re
import subprocess
import sys
import tempfile

HERE = pathlib.Path(__file__).resolve().parent
MARK = re.compile(r" //~ (.+)$")
FLAGS = ["-std=c++17", "-Werror", "-I", HERE, "-I", HERE.parent / "include"]


def prepared(compiler, room):
    """Compiles the headers, so that not each line has to wait for that. Returns what takes them."""
    (room / "all").write_text('#include "shardheap.hpp"\n')
    subprocess.run([compiler, *FLAGS, "-x", "c++-header", room / "all", "-o", room / "all.gch"], check=True)
    return [compiler, *FLAGS, "-include", room / "all", "-fsyntax-only", room / "refused.cpp"]


def compiled(words, lines, room):
    """Whether a program has errors, these, and the numbers of the lines of refused.cpp that they name."""
    (room / "refused.cpp").write_text("\n".join(lines) + "\n")
    run = subprocess.run(words, text=True, capture_output=True)
    named = {int(it) for it in re.findall(r"refused\.cpp:(\d+):", run.stderr)}
    return run.returncode != 0, run.stderr, named


def faults(compiler, lines):
    marked = {at: found[1] for at, line in enumerate(lines) if (found := MARK.search(line))}
    with tempfile.TemporaryDirectory(prefix="refused-") as room:
        room = pathlib.Path(room)
        words = prepared(compiler, room)
        plain = ["" if at in marked else line for at, line in enumerate(lines)]
        failed, text, _ = compiled(words, plain, room)
        if failed:
            yield f"it has errors without the lines that are marked:\n{text}"
        for at, wanted in marked.items():
            failed, text, named = compiled(words, [*plain[:at], lines[at], *plain[at + 1:]], room)
            if not failed or at + 1 not in named or wanted not in text:
                yield f"refused.cpp:{at + 1}: no error of it has '{wanted}':\n{text}"
    if not marked:
        yield "no line is marked"


def main(compilers):
    lines = (HERE / "refused.cpp").read_text().splitlines()
    found = [f"{compiler}: {fault}" for compiler in compilers for fault in faults(compiler, lines)]
    count = sum(bool(MARK.search(line)) for line in lines)
    print("\n".join(found) or f"refused: {count} lines, by {' and '.join(compilers)}")
    return bool(found) or not compilers


if __name__ == "__main__":
    sys.exit(main(sys.argv[1:]))
