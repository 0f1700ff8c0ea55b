#!/usr/bin/env python3
"""Looks that the compiler refuses what it must of the Rust crate's users: library/rust/refused.py.

Each line of refused.rs that ends in `//~ CODE` must have an error of that code (`-` for an error without one), and no
other line any. Then the program is compiled without these lines, and must have no error.

It needs cargo and what library/rust/build.rs needs: SHARDHEAP_LIB_DIR is passed on.
"""
import json
import os
import pathlib
import re
import shutil
import subprocess
import sys
import tempfile

HERE = pathlib.Path(__file__).resolve().parent
MARK = re.compile(r"//~ (\S+)$")


def library(target):
    """Builds the crate, and returns what rustc needs to find it."""
    words = ["cargo", "build", "--offline", "--quiet"]
    subprocess.run(words, cwd=HERE, env={**os.environ, "CARGO_TARGET_DIR": target}, check=True)
    return ["--extern", f"gearlongan={target}/debug/libgearlongan.rlib", "-L", f"dependency={target}/debug/deps"]


def errors(source, flags, room):
    """The lines of a program that have errors, each with the codes of these."""
    words = ["rustc", "--edition", "2021", "--emit", "metadata", "--error-format", "json", "--out-dir", room]
    compiled = subprocess.run([*words, *flags, source], text=True, capture_output=True)
    found = {}
    for message in map(json.loads, compiled.stderr.splitlines()):
        if message["level"] == "error" and message["spans"]:
            line = next(span["line_start"] for span in message["spans"] if span["is_primary"])
            found.setdefault(line, set()).add((message["code"] or {"code": "-"})["code"])
    if compiled.returncode != 0 and not found:
        sys.exit(compiled.stderr)
    return found


def main():
    if not shutil.which("cargo"):
        print("skipped: there is no cargo, so it is not looked at what the compiler refuses")
        return 0
    lines = (HERE / "refused.rs").read_text().splitlines()
    marked = {number: {found[1]} for number, line in enumerate(lines, 1) if (found := MARK.search(line))}
    with tempfile.TemporaryDirectory(prefix="refused-") as room:
        flags = library(os.environ.get("CARGO_TARGET_DIR", f"{room}/target"))
        found = errors(HERE / "refused.rs", flags, room)
        right = pathlib.Path(room) / "right.rs"
        right.write_text("\n".join("" if number in marked else line for number, line in enumerate(lines, 1)))
        rest = errors(right, flags, room)
    for number in sorted(marked.keys() | found.keys()):
        if marked.get(number) != found.get(number):
            print(f"refused.rs:{number}: expected {marked.get(number)}, and the compiler has {found.get(number)}")
    for number, codes in rest.items():
        print(f"refused.rs:{number}: {codes} without the lines that are marked")
    good = marked == found and not rest
    print(f"refused: {len(marked)} lines" + (" are refused, each with its error" if good else ": FAILED"))
    return int(not good)


if __name__ == "__main__":
    sys.exit(main())
