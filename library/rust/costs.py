#!/usr/bin/env python3
"""Counts the instructions of a table's calls and of those of a caller of a growing heap: library/rust/costs.py.

costs.rs has the loops, and callgrind counts their instructions, of two numbers of rounds each. A call of a table by a
place of the thread's own must take at most SHARE times those of a caller.

It needs cargo, valgrind and what library/rust/build.rs needs: SHARDHEAP_LIB_DIR is passed on.
"""
import os
import pathlib
import re
import shutil
import subprocess
import sys
import tempfile

HERE = pathlib.Path(__file__).resolve().parent
SHARE = 1.15
CALLS = ["get", "insert", "remove", "take"]


def built(room):
    """The program of the loops."""
    target = os.environ.get("CARGO_TARGET_DIR", f"{room}/target")
    words = ["cargo", "build", "--offline", "--release", "--quiet"]
    subprocess.run(words, cwd=HERE, env={**os.environ, "CARGO_TARGET_DIR": target}, check=True)
    program, release = f"{room}/costs", f"{target}/release"
    subprocess.run(["rustc", "--edition", "2021", "-O", HERE / "costs.rs", "-o", program, "-L", f"{release}/deps",
                    "--extern", f"gearlongan={release}/libgearlongan.rlib"], check=True)
    return program


def count(program, loop, rounds):
    words = ["valgrind", "--tool=callgrind", "--callgrind-out-file=/dev/null", program, loop, str(rounds)]
    said = subprocess.run(words, text=True, capture_output=True, check=True).stderr
    return int(re.search(r"Collected : (\d+)", said)[1])


def of_a_round(program, loop):
    return (count(program, loop, 2000) - count(program, loop, 1000)) / 1000


def main():
    for tool in ("cargo", "valgrind"):
        if not shutil.which(tool):
            print(f"skipped: there is no {tool}, so the instructions of a table's calls are not counted")
            return 0
    is_more = False
    with tempfile.TemporaryDirectory(prefix="costs-") as room:
        program = built(room)
        for call in CALLS:
            by_caller, by_table = (of_a_round(program, f"{call}_{side}") for side in ("caller", "table"))
            is_more = is_more or by_table > SHARE * by_caller
            print(f"costs: {call}: {by_caller:.0f} instructions by a caller, {by_table:.0f} by a table, "
                  f"{by_table / by_caller:.2f}")
    return int(is_more)


if __name__ == "__main__":
    sys.exit(main())
