"""What tool_history says of histories: the verdicts are written by hand."""
import re
import resource

from programs.rows import Row
from tree import TOP

FOLDER = TOP / "examples/histories"
SECONDS = 300
# The status by the first word of a verdict: 2 is for a line at fault, which is named on the standard error.
STATUS = {"legal": 0, "line": 1, "undecided": 4}
# A row of README.md: | `line`, `line` .. | `verdict` |
TOLD = re.compile(r"^\| `(history .*)` \| `(.*)` \|$", re.M)


def judges(name, history, verdict, words=(), seconds=SECONDS):
    """A run on a history, which has five minutes, and so many seconds of the processor."""
    # (what --key writes begins with lines of the history)
    first = re.search(r"^(?!\d)\w*", verdict, re.M)
    status = STATUS.get(first and first[0], 2)
    said = ("", verdict) if status == 2 else (verdict, "")
    return Row("tool_history", words, history, status, *said, name, SECONDS, {resource.RLIMIT_CPU: seconds})


def is_an_error(text):
    if not text.startswith("error: "):
        yield "no error is named"


def history_rows():
    """Each history of examples/histories and of README.md has its verdict. Of the long ones the last may take a few
    times as long as the one before, so that no search passes whose time grows with the square of the length."""
    for verdict in sorted(FOLDER.glob("*.verdict")):
        yield judges(verdict.name, verdict.with_suffix(".history"), verdict.read_text())
    for found in sorted(FOLDER.glob("*.all")):
        yield judges(found.name, found.with_suffix(".history"), found.read_text(), ["--all"])
    for found in sorted(FOLDER.glob("*.key_*")):
        words = ["--key", found.suffix.removeprefix(".key_")]
        yield judges(found.name, found.with_suffix(".history"), found.read_text(), words)
    for history in FOLDER.glob("*.history"):
        if not history.with_suffix(".verdict").is_file():
            yield f"{history.name} has no verdict"
    told = TOLD.findall((TOP / "README.md").read_text())
    if len(told) != 2:
        yield "README.md has not two histories"
    for lines, verdict in told:
        yield judges(f"README.md: {verdict}", lines.replace("`, `", "\n") + "\n", f"{verdict}\n")
    yield from long_histories()
    yield from logs()
    # With --all a line at fault ends the run though an earlier one is not allowed.
    clash = "history 1 4\n0 Got 1\n0 Byte\a\n"
    yield judges("an early clash", clash, "line 2: NotIssued\n")
    yield judges("a fault behind a clash", clash, "tool_history: fault 14 History line 3 Byte\n", ["--all"])
    for words in ("more", "--key", "--key x", "--al"):
        yield Row("tool_history", words.split(), status=2, output="", error=is_an_error)
    yield Row("tool_history", (), FOLDER / "legal.history", 3, error="tool_history: fault 15 Io\n", to="/dev/full",
              name="a full output")


def long_histories():
    lines = ["history 1 4", "0 Insert 1 0", *["0 Got 1 0", "0 Released 1"] * 99_999, "0 Released 1", ""]
    yield judges("200,000 entries on one key, the last a release too many", "\n".join(lines), "line 200001: NotHeld\n")
    lines = ["history 2 4", "0 2 0 Insert 1 0"]
    for at in range(4, 399_997, 4):
        lines += [f"{at} {at + 1} 1 Got 1 0", f"{at + 2} {at + 3} 1 Released 1"]
    lines += ["500000 500001 1 Released 1", ""]
    ran = yield judges("200,000 calls on one key, each beside the next, the last a release too many", "\n".join(lines),
                       "line 200001: NotHeld\n")
    # (a third are refused as crowded beside a get and a release of the other pass, though the key never has the 3 holds
    # that this takes)
    lines = ["history 2 4", "0 1 0 Insert 1 0"]
    for at in range(2, 426_667, 4):
        lines += [f"{at} {at + 1} 0 Got 1 0", f"{at + 2} {at + 3} 0 Released 1", f"{at} {at + 3} 1 Crowded 1"]
    yield judges("320,000 calls on a crowded key", "\n".join([*lines, ""]), "line 5: NotCrowded\n",
                 seconds=4 + int(6 * ran.spent))
    # (the gets beside each of these refusals might fill the key, so that no call clashes, but one hold ends before the
    # next begins)
    lines = ["history 8 10", "0 1 0 Insert 1 0"]
    for at in range(2, 341_335, 16):
        for get in range(at, at + 16, 4):
            lines += [f"{get} {get + 1} 0 Got 1 0", f"{get + 2} {get + 3} 0 Released 1"]
        lines += [f"{at} {at + 15} {number} Crowded 1" for number in range(1, 8)]
    yield judges("320,000 calls on a key whose refusals stay undecided", "\n".join([*lines, ""]),
                 "undecided, line 11 may be NotCrowded\n", seconds=4 + int(6 * ran.spent))


def logs():
    """Logs as Jepsen and Porcupine have them, each with the history that is made of it."""
    for log in [*FOLDER.glob("*.edn"), *FOLDER.glob("*.log")]:
        yield Row(str(TOP / "scripts/jepsen"), [4, 4], log, output=log.with_suffix(".history").read_text(), name=log.name)
