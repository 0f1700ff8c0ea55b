"""What was seen refused: of each crate a sum of all that decides it, and the processor seconds that it took.

seen.txt has a line for each crate whose wrong bodies all did as they must. Its sum is of the crate's files and wrong
bodies, of the crates below it and of the prover. A run of the gate tries each crate that has another sum, or no line,
and one part of all others: another part with each commit, so no line is believed for long.
"""
import functools
import hashlib
import pathlib
import subprocess
import typing

from tree import PARTS

FILE = pathlib.Path(__file__).with_name("seen.txt")
HEAD = "# Crates whose wrong bodies were all refused, by scripts/refused --write: sum, processor seconds."
# How many runs of the gate try all that was seen before once more.
RUNS = 5
# With what counts as refused this number changes, so that nothing counts as seen.
RULES = 2


class Seen(typing.NamedTuple):
    """What a line says of a crate."""
    sum: str
    seconds: int


@functools.cache
def files_sum(crate, folder, parts):
    """A sum of all files of these parts of a crate, in the folder where it stands."""
    made = hashlib.sha256(f"{crate.name}: {' '.join(crate.own)} {' '.join(crate.kit)}\n".encode())
    for file in crate.files(parts):
        made.update(f"{file.relative_to(folder)}\n".encode())
        made.update(hashlib.sha256(file.read_bytes()).digest())
    return made.digest()


def sum_of(crate, below, kit):
    """A sum of all that decides whether the wrong bodies of a crate are refused."""
    made = hashlib.sha256(f"{RULES} {kit}\n".encode())
    for it in below:
        made.update(files_sum(it, it.folder, PARTS))
    made.update(files_sum(crate, crate.folder, (*PARTS, "refused")))
    return made.hexdigest()[:24]


def sums_of(names, crates, kit):
    return {it: sum_of(crates[it], [crates[name] for name in crates[it].below(crates)], kit) for it in names}


def read():
    lines = FILE.read_text().splitlines() if FILE.is_file() else []
    rows = [it.split() for it in lines if it and not it.startswith("#")]
    return {name: Seen(total, int(seconds)) for name, total, seconds in rows}


def write_tried(sums, seen, tried):
    """Writes down the crates that were tried without a failure, and keeps the lines of the others that are true yet.

    Of each crate that was tried it is given how many wrong bodies were refused, how many were not, and the seconds.
    """
    lines = {it: seen[it] for it in sums if it in seen and seen[it].sum == sums[it] and it not in tried}
    lines |= {it: Seen(sums[it], round(seconds)) for it, (_, failed, seconds) in tried.items() if not failed}
    rows = [f"{name} {it.sum} {it.seconds}" for name, it in sorted(lines.items())]
    FILE.write_text("\n".join([HEAD, *rows, ""]))


def run_number():
    """The number that a commit gives to its run of the gate, or 0 outside a repository."""
    asked = subprocess.run(["git", "rev-parse", "HEAD"], capture_output=True, text=True, cwd=FILE.parent)
    return int(asked.stdout[:8], 16) if asked.returncode == 0 else 0


def parts_of(seen):
    """All crates that were seen, in as many parts as there are runs, of about the same seconds each."""
    parts = [[] for _ in range(RUNS)]
    for name in sorted(seen, key=lambda it: (-seen[it].seconds, it)):
        min(parts, key=lambda part: sum(seen[it].seconds for it in part)).append(name)
    return parts


def due(sums, seen, run):
    """The crates that a run of the gate tries: what was not seen with this sum, and the run's part of the others."""
    known = {it: seen[it] for it in sums if it in seen and seen[it].sum == sums[it]}
    again = parts_of(known)[run % RUNS]
    return [it for it in sums if it not in known or it in again]
