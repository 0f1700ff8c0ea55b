#!/usr/bin/env python3
"""Looks that what mutants.md names finds each mutant: library/rust/mutants.py [--tsan ARCHIVE] [WORD ..].

With words only the rows in which one of them occurs are run. ARCHIVE is a libc_exports.a that has the instrumentation
of ThreadSanitizer (`scripts/build archive OUT --tsan`). Without one the rows of tsan.py are skipped, with a line that
says so.

It needs what stub.py and library/rust/build.rs need. SHARDHEAP_LIB_DIR is passed on. It takes about
a minute for each row of a sanitizer, and is no part of the gate.
"""
import argparse
import os
import pathlib
import re
import shutil
import signal
import subprocess
import sys
import tempfile
from typing import NamedTuple

HERE = pathlib.Path(__file__).resolve().parent
# Seconds.
TEST_LIMIT, SCRIPT_LIMIT = 60, 900
ENDINGS = {0: "passed", None: "did not end"}


class Mutant(NamedTuple):
    file: str
    function: str
    code: str
    mutant: str
    found_by: str


def mutants():
    """The rows of the table."""
    text = (HERE / "mutants.md").read_text()
    rows = [re.split(r"(?<!\\)\|", line)[1:-1] for line in text.splitlines() if line.startswith("| `")]
    cells = [[cell.strip().replace("\\|", "|") for cell in row] for row in rows]
    places = [re.fullmatch(r"`(\S+)` `([\w ]+)`", where).groups() for where, *_ in cells]
    return [Mutant(*place, *(cell.strip("`") for cell in row[1:])) for place, row in zip(places, cells)]


def changed(source, mutant):
    """The text of a file with the change, which is made once, after the head of the function or of the `impl`."""
    head = re.escape(mutant.function) if " " in mutant.function else rf"fn {mutant.function}"
    at = re.search(rf"\b{head}\b", source)
    begin = source.find(mutant.code, at.end()) if at else -1
    if begin < 0:
        sys.exit(f"mutants.md: there is no {mutant.code} in {mutant.function} of {mutant.file}")
    return source[:begin] + mutant.mutant + source[begin + len(mutant.code):]


def ran(words, folder, environment, limit):
    """Runs a command: its status, which is None if it did not end within so many seconds, and its output."""
    process = subprocess.Popen(words, cwd=folder, env=environment, text=True, stdout=subprocess.PIPE,
                               stderr=subprocess.STDOUT, start_new_session=True)
    try:
        output, _ = process.communicate(timeout=limit)
    except subprocess.TimeoutExpired:
        os.killpg(process.pid, signal.SIGKILL)
        process.communicate()
        return None, ""
    return process.returncode, output


def outcome_of_test(folder, target, name, environment):
    """How a test of the crate ended."""
    words = ["cargo", "test", "--offline", "--quiet", *(["--lib"] if target == "lib" else ["--test", target])]
    # Compiled before, so that the limit is that of the test.
    if ran([*words, "--no-run"], folder, environment, None)[0] != 0:
        return "did not compile"
    status, output = ran([*words, "--", name], folder, environment, TEST_LIMIT)
    # A name that no test has passes too.
    if status == 0 and not re.search(r"^test result: ok\. [1-9]", output, re.M):
        return "is no test"
    return ENDINGS.get(status, "failed")


def outcome(folder, found_by, archive, environment):
    """How what the table names ended: `passed`, `failed`, `did not end`, or why it did not run."""
    kind, _, name = found_by.partition(" ")
    if kind not in ("tsan.py", "stub.py"):
        return outcome_of_test(folder, kind, name, environment)
    status, output = ran([sys.executable, folder / kind, name or archive], folder, environment, SCRIPT_LIMIT)
    return "did not compile" if "could not compile" in output else ENDINGS.get(status, "failed")


def copied(room):
    """A copy of the crate, with what is compiled beside it."""
    folder = room / "library/rust"
    shutil.copytree(HERE, folder, ignore=shutil.ignore_patterns("target", "Cargo.lock"))
    for name in ("include", "src"):
        shutil.copytree(HERE.parent / name, folder.parent / name)
    return folder


def is_found(it, folder, usual, archive, environment):
    """Whether what the table names passes on the copy, and does not with the change. `usual` keeps the former."""
    source = folder / "src" / (it.file if "/" in it.file else f"slab/{it.file}")
    before = source.read_text()
    if it.found_by not in usual:
        usual[it.found_by] = outcome(folder, it.found_by, archive, environment)
    source.write_text(changed(before, it))
    ended = outcome(folder, it.found_by, archive, environment)
    source.write_text(before)
    good = usual[it.found_by] == "passed" and ended in ("failed", "did not end")
    print(f"{it.found_by} {ended}, and {usual[it.found_by]} without the change: {it.file}, {it.function}, "
          f"{it.code} -> {it.mutant}{'' if good else ': NOT FOUND'}", flush=True)
    return good


def main():
    parser = argparse.ArgumentParser(description=__doc__, formatter_class=argparse.RawDescriptionHelpFormatter)
    parser.add_argument("--tsan", type=pathlib.Path, help="an archive with the instrumentation of ThreadSanitizer")
    parser.add_argument("words", nargs="*", help="only the rows in which one of them occurs")
    asked = parser.parse_args()
    archive = asked.tsan and asked.tsan.resolve()
    rows = [it for it in mutants() if it.found_by != "nothing"]
    rows = [it for it in rows if not asked.words or any(word in " ".join(it) for word in asked.words)]
    skipped = [it for it in rows if it.found_by == "tsan.py" and not archive]
    if skipped:
        print(f"skipped: {len(skipped)} mutants, since no archive is named that has ThreadSanitizer's instrumentation")
    with tempfile.TemporaryDirectory(prefix="mutants-") as room:
        folder, usual = copied(pathlib.Path(room)), {}
        usual_places = {"CARGO_TARGET_DIR": f"{room}/target",
                        "SHARDHEAP_LIB_DIR": str(HERE.parent.parent / "crates/c_exports/out")}
        environment = {**usual_places, **os.environ, "RUST_BACKTRACE": "0", "TSAN_OPTIONS": "halt_on_error=1"}
        found = [is_found(it, folder, usual, archive, environment) for it in rows if it not in skipped]
    print(f"mutants: {sum(found)} of {len(found)} are found")
    return int(not all(found))


if __name__ == "__main__":
    sys.exit(main())
