#!/usr/bin/env python3
"""Runs a program of threads over the slab, the pool, the table and a heap under ThreadSanitizer.

usage: library/rust/tsan.py ARCHIVE [slab]

ARCHIVE is a libc_exports.a with the sanitizer's instrumentation: `scripts/build archive OUT --tsan` makes
OUT/tsan/libc_exports.a. The crate is copied into a temporary folder. There it gets the locks of tsan/sync.rs in place
of those of the standard library, which is not instrumented, and the program tsan/main.rs. Threads pass keys on by
relaxed atomics in it, so that a value which is not ordered by the slab or the table itself is a data race. With the
word slab there is neither table nor heap.

It needs a cargo of the day (`cargo +nightly`) and what library/rust/build.rs needs.
"""
import os
import pathlib
import re
import shutil
import subprocess
import sys
import tempfile

HERE = pathlib.Path(__file__).resolve().parent
TARGET = "x86_64-unknown-linux-gnu"
FLAGS = "-Zsanitizer=thread -Cunsafe-allow-abi-mismatch=sanitizer"


def copied(folder):
    """A copy of the crate with the locks of atomics, and the program as an example."""
    shutil.copytree(HERE, folder, ignore=shutil.ignore_patterns("target", "examples", "tests", "Cargo.lock"))
    shutil.copytree(HERE.parent / "src", folder.parent / "src")
    shutil.copy(folder / "tsan/sync.rs", folder / "src/sync.rs")
    (folder / "examples").mkdir()
    shutil.copy(folder / "tsan/main.rs", folder / "examples/tsan.rs")
    root = folder / "src/lib.rs"
    root.write_text(root.read_text().replace("\nmod accounts;", "\nmod sync;\nmod accounts;"))
    for source in (folder / "src").rglob("*.rs"):
        text = source.read_text()
        changed = re.sub(r"^use std::sync::(\{[^}]*\}|\w+);", r"use crate::sync::\1;", text, flags=re.M)
        # (The values of a user keep their own locks.)
        if source.name not in ("sync.rs", "clear.rs") and changed != text:
            source.write_text(changed)


def main():
    if len(sys.argv) < 2:
        sys.exit(__doc__.splitlines()[2])
    archive = pathlib.Path(sys.argv[1]).resolve()
    if subprocess.run(["cargo", "+nightly", "--version"], capture_output=True).returncode:
        print("skipped: there is no cargo +nightly, so slab and table are not run under ThreadSanitizer")
        return 0
    with tempfile.TemporaryDirectory(prefix="tsan-") as room:
        folder = pathlib.Path(room) / "crate"
        copied(folder)
        environment = {"CARGO_TARGET_DIR": f"{room}/target", **os.environ, "RUSTFLAGS": FLAGS,
                       "SHARDHEAP_LIB_DIR": str(archive.parent)}
        words = ["cargo", "+nightly", "run", "--offline", "--quiet", "--target", TARGET, "--example", "tsan",
                 "--", *sys.argv[2:]]
        return subprocess.run(words, cwd=folder, env=environment).returncode


if __name__ == "__main__":
    sys.exit(main())
