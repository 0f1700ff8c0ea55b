"""Runs the shell commands of README.md as a new user would.

It clones the last commit into a temporary folder, and runs there each line of the fenced `sh` blocks of README.md,
which is the one of the working tree. If a `text` block follows a block, the lines must write just that text.

Three commands take too long and are not run: `.ci/run`, `rt lib`, and `scripts/tests` (which --tests runs too). In
place of what `rt lib` builds the clone gets the archive of `scripts/build archive`. A command whose tool is missing is
skipped, with a line that says so. All of it takes five minutes on four processors.
"""
import pathlib
import re
import shutil
import subprocess
import tempfile
import time

from checks import written
from tree import TOP

# A block of shell commands, and the text behind it that they are to write, if there is one.
COMMANDS = re.compile(r"^```sh\n(.*?)^```\n(?:\n*```text\n(.*?)^```\n)?", re.M | re.S)
TOOLS = ["rt", "cargo", "gcc", "python3"]
REGISTRY = pathlib.Path("/usr/share/cargo/registry")
# The path to which README.md writes the archive that is not proved. The clone has a folder of its own in its place.
TRIAL = "/tmp/trial"


def why_skipped(command, with_tests):
    if any(word in command for word in (".ci/run", "rt lib")) or "scripts/tests" in command and not with_tests:
        return "it takes too long"
    missing = [tool for tool in TOOLS if re.search(rf"(?:^|[ (]){tool} ", command) and not shutil.which(tool)]
    if missing:
        return f"there is no {missing[0]}"
    if "-- reuse" in command and not list(REGISTRY.glob("sharded-slab-*")):
        return "the packages of the bench are not installed"
    return ""


def stand_in(clone):
    archive, out = clone / "trial/plain/libc_exports.a", clone / "crates/c_exports/out"
    if archive.is_file():
        out.mkdir(parents=True, exist_ok=True)
        shutil.copy(archive, out)


def run(command, clone, with_tests):
    """Runs one command at the top of the clone, or not. Returns what came of it in a word, and what it wrote."""
    shown, why, began = command.partition(" #")[0].rstrip(), why_skipped(command, with_tests), time.monotonic()
    if why:
        if "rt lib" in command:
            stand_in(clone)
        print(f"not run, {why}: {shown}", flush=True)
        return "skipped", ""
    done = subprocess.run(["bash", "-c", command.replace(TRIAL, str(clone / "trial"))], cwd=clone,
                          capture_output=True, text=True, stdin=subprocess.DEVNULL)
    if done.returncode:
        print(f"FAILED: {shown}\nstatus {done.returncode}\n{done.stdout}{done.stderr}", flush=True)
        return "failed", ""
    print(f"ran in {time.monotonic() - began:.0f} s: {shown}", flush=True)
    return "run", done.stdout


def block(commands, wanted, clone, with_tests):
    results = [run(command, clone, with_tests) for command in commands]
    came, wrote = [word for word, _ in results], "".join(text for _, text in results)
    if wanted is not None and set(came) == {"run"} and wrote != wanted:
        print(f"FAILED: README.md says that this is written:\n{wanted}and it is:\n{wrote}", flush=True)
        came.append("failed")
    return came


def check(with_tests):
    with tempfile.TemporaryDirectory(prefix="readme-") as folder:
        clone = pathlib.Path(folder) / "clone"
        written("git", "clone", "-q", TOP, clone)
        came = [word for found in COMMANDS.finditer((TOP / "README.md").read_text())
                for word in block(found[1].splitlines(), found[2], clone, with_tests)]
    print(f"README.md: {came.count('run')} commands ran, {came.count('skipped')} were not run, "
          f"{came.count('failed')} failed")
    return bool(came) and "failed" not in came
