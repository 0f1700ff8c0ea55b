"""What shardheap does with the words of its command line, and with devices that fail."""
from programs.rows import Row
from tree import TOP

CALLS = "heap tiny 1 1 2\n0 adopt 0\n0 insert a 7\n0 get a\n0 read a\n"
REPLIES = "0 adopt ok\n0 insert 4096\n0 get ok\n0 read 1 7\n"
LIVE = "page 0.0 class 0 live 1 marked 0 retired 0 mine 0 hand 0 queued 47\n"
EVENTS = "heap tiny 1 1 2\n0 Adopt 0\n0 Read 0.0\n0 SetClass 0.0 7\n"
OUTCOMES = "0 Adopt moved\n0 Read moved\n0 SetClass moved\n"
OWN = "page 0.0 class 7 live 0 marked 0 retired 0 mine 3 hand 0 queued 0\n"
# Words that are taken, a script, and the output. Mode plain has no pages. (That threads run shows `refuse-threads`.)
TAKEN = [
    ("plain", CALLS, REPLIES),
    ("plain --accounts", CALLS, REPLIES),
    ("--accounts plain", CALLS, REPLIES),
    ("heap", CALLS, REPLIES),
    ("heap --accounts", CALLS, REPLIES + LIVE),
    ("--accounts heap", CALLS, REPLIES + LIVE),
    ("threads", CALLS, REPLIES),
    ("threads --accounts", CALLS, REPLIES + LIVE),
    ("steps", EVENTS, OUTCOMES),
    ("steps --accounts", EVENTS, OUTCOMES + OWN),
]
MODES = "[possible values: plain, heap, steps, threads]"
HELP = "For more information, try '--help'.\n"
# Words that are a mistake, and the text that says so, or its first line.
MISTAKES = [
    ([], f"error: the following required arguments were not provided:\n  <mode>\n\nUsage: shardheap <mode>\n\n{HELP}"),
    (["table"], f"error: invalid value 'table' for '<mode>'\n  {MODES}\n\n{HELP}"),
    (["plan"], f"error: invalid value 'plan' for '<mode>'\n  {MODES}\n\n  tip: a similar value exists: 'plain'\n\n{HELP}"),
    ([""], "error: a value is required for '<mode>' but none was supplied\n"),
    (["Plain"], "error: invalid value 'Plain' for '<mode>'\n"),
    (["plain", "x"], "error: unexpected argument 'x' found\n"),
    (["--nope"], "error: unexpected argument '--nope' found\n"),
]
# The end of the help.
HELP_END = """Modes:
  plain    calls, one after the other, on a plain map
  heap     calls, one after the other, on the running heap, in one thread
  threads  calls on the running heap, those of each pass in a thread of its own
  steps    single atomic steps, in the order of the script, on the model of the heap

A script is text: a line that says how large the heap is, and then a line for each call or step.
docs/SCRIPTS.md says how to write one, and gives the usual reason of each fault and refusal.

Example, of files in the folder examples/:
  shardheap heap --accounts < freed.script

Exit status:
  0  the script was run, or help or the version was asked for
  2  the command line or the script is wrong
  3  memory was refused, or a read or a write failed
"""
IO = "shardheap: fault 15 Io\n"
# A read of a folder fails, and a write to this device.
UNREADABLE, FULL = TOP, "/dev/full"


def begins(start):
    return lambda text: [] if text.startswith(start) else [f"it begins {text[:80]!r}, and should {start!r}"]


def is_help(text):
    if not text.startswith("Runs a script"):
        yield f"the help begins {text[:80]!r}"
    if not text.endswith(HELP_END):
        yield f"the help ends {text[-80:]!r}"


def rows():
    """Words that are taken or refused. Of the latter, and for help and the version, nothing is read: the input could
    not be. A read or a write that fails ends the run, also if nothing can say so."""
    for words, script, output in TAKEN:
        yield Row("shardheap", words.split(), script, 0, output, "")
    for words, text in MISTAKES:
        yield Row("shardheap", words, UNREADABLE, 2, "", text if text.endswith(HELP) else begins(text))
    yield Row("shardheap", ["--help"], UNREADABLE, 0, is_help, "")
    yield Row("shardheap", ["--version"], UNREADABLE, 0, "shardheap 0.2.0\n", "")
    yield Row("shardheap", ["plain"], UNREADABLE, 3, "", IO, "an input that is not read")
    yield Row("shardheap", ["plain"], CALLS, 3, "", IO, "an output that takes nothing", to=FULL)
    yield Row("shardheap", ["--help"], UNREADABLE, 3, "", IO, "an output that takes no help", to=FULL)
    yield Row("shardheap", ["plain"], UNREADABLE, 3, "", "", "errors that take nothing", errors_to=FULL)
