#!/usr/bin/env python3
"""Tries the Rust crate's slab over a stand-in for the library: library/rust/stub.py [twice] [threads].

stub/stub.c is compiled as an archive in the place of libc_exports.a. Without a word both parts are run:

  twice    the stand-in issues a place that is in use. stub/twice.rs looks that each call which would fill the place
           panics, and that no value is read as another: as it is, and under valgrind's memcheck.
  threads  the stand-in orders nothing between threads. tsan.py runs its program over it, so that a value which only
           the proved heap orders is a data race.

It needs gcc, cargo, for the second part `cargo +nightly`, and what library/rust/build.rs needs. What is not there is
skipped, with a line that says so.
"""
import os
import pathlib
import shutil
import subprocess
import sys
import tempfile

HERE = pathlib.Path(__file__).resolve().parent
WARNINGS = ["-std=c11", "-Wall", "-Wextra", "-Wpedantic", "-Wconversion", "-Werror"]
MEMCHECK = ("valgrind --quiet --error-exitcode=9 --leak-check=full --show-leak-kinds=definite "
            "--errors-for-leak-kinds=definite")


def archive(folder, flags):
    """Compiles the stand-in, and returns the archive."""
    folder.mkdir()
    compiled, made = folder / "stub.o", folder / "libc_exports.a"
    source = [HERE / "stub/stub.c", f"-I{HERE.parent / 'include'}"]
    subprocess.run(["gcc", *WARNINGS, *flags, "-g", "-O2", "-fPIC", "-c", *source, "-o", compiled], check=True)
    subprocess.run(["ar", "rcs", made, compiled], check=True)
    return made


def runner():
    """The variable by which cargo runs a test under another program."""
    told = subprocess.run(["rustc", "-vV"], check=True, text=True, capture_output=True).stdout
    host = next(line.removeprefix("host: ") for line in told.splitlines() if line.startswith("host: "))
    return f"CARGO_TARGET_{host.upper().replace('-', '_')}_RUNNER"


def twice(room):
    """Runs the tests of places that are issued twice: whether all pass."""
    environment = {"CARGO_TARGET_DIR": str(room / "target"), **os.environ,
                   "SHARDHEAP_LIB_DIR": str(archive(room / "twice", []).parent)}
    words = ["cargo", "test", "--offline", "--quiet", "--manifest-path", HERE / "stub/Cargo.toml"]
    print("== places that are issued twice", flush=True)
    passes = subprocess.run(words, env=environment).returncode == 0
    if not shutil.which("valgrind"):
        print("skipped: there is no valgrind, so they are not issued twice under memcheck")
        return passes
    print("== the same under memcheck", flush=True)
    return subprocess.run(words, env={**environment, runner(): MEMCHECK}).returncode == 0 and passes


def threads(room):
    """Runs the threads of tsan.py over a stand-in that orders nothing: whether no data race is found."""
    print("== threads over a heap that orders nothing", flush=True)
    made = archive(room / "threads", ["-DSPIN"])
    return subprocess.run([sys.executable, HERE / "tsan.py", made, "slab"]).returncode == 0


def main():
    parts = {"twice": twice, "threads": threads}
    words = sys.argv[1:] or list(parts)
    if not set(words) <= set(parts):
        sys.exit(__doc__.splitlines()[0])
    lacking = [tool for tool in ("gcc", "cargo") if not shutil.which(tool)]
    if lacking:
        print(f"skipped: there is no {lacking[0]}, so the slab is not tried over a stand-in")
        return 0
    with tempfile.TemporaryDirectory(prefix="stub-") as room:
        passed = [parts[word](pathlib.Path(room)) for word in words]
    print("stub: " + ("all passed" if all(passed) else "FAILED"))
    return int(not all(passed))


if __name__ == "__main__":
    sys.exit(main())
