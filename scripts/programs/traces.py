"""What script_trace prints of scripts of events, and what scripts/trace does with it at a terminal and with a pipe."""
import os
import pty
import re
import signal
import tempfile

from programs.rows import Row, run
from tree import TOP, program

STORIES = TOP / "examples/watch"
SCRIPTS = [*sorted(STORIES.glob("*.script")), TOP / "examples/held.script", TOP / "examples/untied.script"]


def trace_rows():
    """The trace of each script is the one in examples/watch, and its events are what mode steps writes. A script of
    calls is none of events."""
    for script in SCRIPTS:
        trace = STORIES / f"{script.stem}.trace"
        stored = trace.read_bytes() if trace.is_file() else b""
        ran = yield Row("script_trace", (), script, output=stored, name=script.name)
        events = "".join(re.sub(": .*", "", line) + "\n" for line in ran.lines() if line[:1].isdigit())
        if events != run(Row("shardheap", ["steps"], script)).text():
            yield f"{script.name}: it has other events than mode steps"
    for trace in STORIES.glob("*.trace"):
        if trace.stem not in [script.stem for script in SCRIPTS]:
            yield f"{trace.name} has no script"
    yield Row("script_trace", (), "heap tiny 1 1 1\n0 adopt 0\n", 2,
              error="script_trace: fault 14 Script line 2 Command\n", name="a script of calls")
    yield Row("script_trace", (), "heap tiny 1 1 2\n0 Adopt 0\n; a page\n0 Read 0.0\n0 SetClass 0.0 7\n", output=FIRST,
              error="", name="a first script")
    yield from part_rows()


# The trace of a first script. A comment stands behind what came before it.
FIRST = """> heap tiny 1 1 2
> 0 Adopt 0
0 Adopt moved
  shard 0: owner pass 0
    bell: none
    bell chain: none
  pass 0: idle; owns shard 0

; a page
> 0 Read 0.0
0 Read moved
  page 0.0: blank; owner pass 0; not armed
  pass 0: idle; owns shard 0

> 0 SetClass 0.0 7
0 SetClass moved
  page 0.0: class 7, 3 slots of 16; owner pass 0; not armed
    slots 0 to 2: Empty, generation 1, count 0; own of pass 0
    stack: none
    chain: none
  pass 0: idle; owns shard 0

"""
# What stands before the lines of a row of parts.txt.
OPENED = "heap tiny 2 1 2\n0 Adopt 0\n0 Read 0.0\n0 SetClass 0.0 7\n"
BEFORE = {"opened": OPENED, "held": OPENED + "0 Fill 0.0.0 7\n0 Fill\n0 Publish\n1 Enter get 4096\n"}
# As many holds as a pass may have and one more, and a key with a tag and without it.
HOLDS = ("heap wide 1 1 1\n0 Adopt 0\n0 Read 0.0\n0 SetClass 0.0 7\n0 Fill 0.0.0\n0 Publish\n"
         + "0 Enter get 16777216\n" * 17)
TAGS = "version 2\nheap tagged 1 1 1 tag 1\n0 Enter get 1048576\n0 Enter get 72057594038976512\n"


def has(*parts):
    return lambda text: [f"the trace has no {part!r}" for part in parts if part not in text]


def rows_of(file):
    """The rows of a file, without its comments, as printf writes them."""
    for line in (STORIES / file).read_text().splitlines():
        if not line.startswith("#"):
            yield [part.encode().decode("unicode_escape") for part in f"{line} ".split(" | ")]


def part_rows():
    """The trace of each script of parts.txt has its part, and each of faults.txt ends with its fault."""
    for before, lines, part in rows_of("parts.txt"):
        yield Row("script_trace", (), BEFORE[before] + lines, output=has(part.rstrip(" ")), error="", name=repr(lines))
    yield Row("script_trace", (), HOLDS, output=has("holds 16777216 16 times\n", "0 Enter skipped: the pass has 16 holds"
              " already\n"), error="", name="17 holds")
    yield Row("script_trace", (), TAGS, output=has("0 Enter skipped: the key has not the tag of the header\n",
              "0 Enter Gone 72057594038976512\n"), error="", name="tags")
    for fault, script in rows_of("faults.txt"):
        script = script.rstrip(" ")
        yield Row("script_trace", (), script, 2, error=f"script_trace: {fault}\n", name=repr(script))


def write_traces():
    for script in SCRIPTS:
        (STORIES / f"{script.stem}.trace").write_bytes(run(Row("script_trace", (), script)).output)


TRACE = TOP / "scripts/trace"
PROMPT = "trace> "
SECONDS = 120
# Lines that are typed one after the other, and what the answer to each has in it.
SESSION = [
    ("0 Adopt 0", "not done: Header: "),
    ("; a comment", "; a comment"),
    ("heap tiny 1 1 2", "> heap tiny 1 1 2"),
    ("0 Adopt 0", "0 Adopt moved\n  shard 0: owner pass 0"),
    ("0 adopt 0", "not done: Command: "),
    ("2 Adopt 0", "not done: Pass: "),
    ("0 Read", "not done: Count: "),
    ("0 Read 0", "not done: Number: "),
    ("0 Read 0.0", "page 0.0: blank; owner pass 0; not armed"),
    ("next 1", "pass 1: Adopt 0 (the shard has an owner)"),
    ("0 SetClass 0.0 7", "slots 0 to 2: Empty"),
    ("next 0", "Fill 0.0.2 WORD .., Put 0.0.0"),
    ("0 Fill 0.0.0", "fills slot 0.0.0 with 0 of 0 words, next Publish"),
    ("next", "pass 0: Publish\npass 1: Adopt 0"),
    ("0 Publish", "0 Publish Insert 4096 0"),
    ("undo 2", "taken back: 0 Publish\ntaken back: 0 Fill 0.0.0"),
    ("0 Publish", "skipped: the pass has begun nothing that goes on with this"),
    ("list", "; a comment\nheap tiny 1 1 2\n0 Adopt 0\n0 Read 0.0\n0 SetClass 0.0 7\n0 Publish\n"),
    ("save", "not saved: save FILE"),
    ("save kept.script", "kept.script has 6 lines"),
    ("save kept.script", "not saved: File exists"),
    ("?", "SetClass PAGE CLASS"),
    ("undo 9", "there is no line"),
    ("next", "there is no heap yet"),
]
# The same after the lines of a file.
AFTER_FILE = [
    ("undo 7", "taken back: 0 Follow 0.0"),
    ("next 1", "pass 1: Tie\n"),
    ("next 0", "Follow 0.0 (the link is not written),\n  TakeBell"),
    ("1 Tie", "slot 0: Empty, generation 2, count 0; queued, linked to the end"),
]


def shown():
    """The variable by which scripts/trace runs the program that is looked at."""
    return {"PROGRAMS": str(program("script_trace").parent)}


class Terminal:
    """scripts/trace at a terminal of its own (a pseudo-terminal of Python's), in a folder of its own."""

    def __init__(self, folder, *words):
        self.process, self.end = pty.fork()
        if self.process == 0:
            os.chdir(folder)
            os.environ.update(shown(), TERM="dumb")
            os.execv(TRACE, [str(TRACE), *words])

    def answer(self):
        signal.alarm(SECONDS)
        read = ""
        while not read.endswith(PROMPT):
            read += os.read(self.end, 1 << 16).decode().replace("\r", "")
        signal.alarm(0)
        return read.removesuffix(PROMPT)

    def typed(self, line):
        """The answer to a line, without the line itself, which the terminal repeats."""
        os.write(self.end, f"{line}\n".encode())
        return re.sub(r"^.*\n", "", self.answer(), count=1)

    def ended(self):
        os.write(self.end, b"\x04")
        signal.alarm(SECONDS)
        status = os.waitpid(self.process, 0)[1]
        signal.alarm(0)
        return os.waitstatus_to_exitcode(status)


def talk(exchange, *words):
    with tempfile.TemporaryDirectory(prefix="prompt-") as folder:
        terminal = Terminal(folder, *words)
        terminal.answer()
        for line, expected in exchange:
            answer = terminal.typed(line)
            if expected not in answer:
                yield f"{line!r} was answered {answer!r}, which has no {expected!r}"
        status = terminal.ended()
        if status:
            yield f"it ended with status {status}"


def prompt_rows():
    """The prompt answers each line as it must; with a pipe, and over a file, scripts/trace is script_trace."""
    # (a program that is not built is told of before the terminal waits for it)
    for script in (TOP / "examples/untied.script", TOP / "examples/first.script"):
        own = run(Row("script_trace", (), script))
        for words, given in (((), script), ((script,), "")):
            yield Row(str(TRACE), words, given, own.status, own.output, own.error, variables=shown())
    yield from talk(SESSION)
    yield from talk(AFTER_FILE, str(STORIES / "stalled_freer.script"))
