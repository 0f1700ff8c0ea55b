"""What tool_orders says of the scripts of examples/orders, in every order of their lines."""
import re
import resource

from programs.rows import Row, run
from tree import TOP

FOLDER = TOP / "examples/orders"
# A walk is at its end within this time.
SECONDS = 120
# At most this many orders of a script are done one by one.
FEW = 200
MARK = "; explore"
# Five passes remove one key: this many states, in at most this many bytes of memory.
REMOVAL = ("Enter remove 4096", "Mark", "Drop", "Finish", "Put", "Tie", "Ring", "RingTie")
REMOVERS = "\n".join(["heap tiny 1 1 6", "0 Adopt 0", "0 Read 0.0", "0 SetClass 0.0 7", "0 Fill 0.0.0 0", "0 Fill",
                      "0 Publish", MARK, *(f"{number} {step}" for number in range(1, 6) for step in REMOVAL), ""])
REMOVERS_STATES, REMOVERS_MEMORY = 118_577, 100_000_000
# Six passes each remove a key of their own, so all combinations of how far each is are met.
APART = "\n".join(["version 3", "heap tiny 1 1 7", "0 adopt 0", *(f"0 insert 0.{page}.0 0" for page in range(6)), MARK,
                   *(f"{page + 1} remove {4096 + 64 * page}" for page in range(6)), ""])
APART_STATES = 7**6
# One pass of 20,000 steps, which would not end in time if each step did those before it again.
LONG = "heap tiny 1 1 1\n" + "0 Adopt 0\n0 Leave\n" * 10_000
# 64 passes that each want a shard: more states than memory has room for.
CROWD = "".join(f"{number} Adopt 0\n" for number in range(64))
CROWD_BYTES, CROWD_MEMORY = 10_000_000, 100_000_000
# Comments, and the fault of each.
FAULTY = [(";explore", "Command"), ("  ;explore ", "Command"), (";where 0 Mark Gone 1", "Command"),
          (";never 0 Mark Gone 1", "Command"), ("; where", "Count"), ("; never 0 Mark Gone", "Count"),
          ("; never 0 Mark Gone 1 1", "Count"), ("; where a Mark Gone 1", "Number"),
          ("; where 0 Mark Gone 01", "Number"), ("; where 0 Enter Got 1 x", "Number"), ("; where 1 Mark Gone 1", "Pass"),
          ("; where 0 Mark Got 1", "Command"), ("; where 0 Marked Gone 1", "Command"),
          ("; where 0 Enter Removed 1", "Command")]
# Scripts with calls, and the line and the fault of each.
CALLS_FAULTY = [("1 get\n", 5, "Command"), ("1 get 4096 1\n", 5, "Command"), ("1 remove x\n", 5, "Number"),
                ("1 insert 0.0 1\n", 5, "Command"), ("9 get 1\n", 5, "Pass"), ("1 get 4096", 5, "Cut"),
                ("1 get 4096\n1 leave\n", 6, "Command"), ("1 get 4096\n;explore\n", 6, "Command")]
# The steps of the pass that leaves a slot, and the words of each class.
LEAVING = ["Drop", "Finish", "Put", "Tie", "Ring", "RingTie"]
WIDTHS = [1, 2, 3, 4, 6, 8, 12, 16]
# What is asked of the two removers, the status, and what is printed after the counts. Worked out by hand.
ASKED = [
    (["where 1 Mark Removed 4096", "never 2 Mark Removed 4096"], 0,
     "where 1 Mark Removed 4096: 2 of 4\nnever 2 Mark Removed 4096: none of 2\n"),
    (["never 2  Mark Gone 4096"], 1, "never 2 Mark Gone 4096: 1 of 4\n\noutcome 3 orders 6\n1 Mark Removed 4096\n"
     "2 Mark Gone 4096\n; order 1 2 1 1 2 2 2 2 2\n"),
    (["where 2 Enter Gone 4096", "where 1 Mark Removed 4096"], 0,
     "where 2 Enter Gone 4096: 1 of 4\nwhere 1 Mark Removed 4096: 1 of 1\n\noutcome 1 orders 15\n"
     "1 Mark Removed 4096\n2 Enter Gone 4096\n; order 1 1 1 1 1 1 2 2\n"),
    (["where 1 Drop Released 4096"], 0, "where 1 Drop Released 4096: none of 4\n"),
]


def begins(wanted):
    """That a text begins so."""
    def look(text):
        if not text.startswith(wanted):
            yield f"it begins {text[:60]!r}, and should begin {wanted!r}"
    return look


def cut(words, script, start, name, memory=None):
    """A walk that is cut, with a line that starts so, in at most this many bytes of memory if there is a bound."""
    limits = {resource.RLIMIT_AS: memory} if memory else {}
    return Row("tool_orders", words, script, 2, "", begins(f"tool_orders: more than {start}"), name, SECONDS, limits)


def cut_at(limit, script, name):
    """Walks of exactly as many states as may be met, of more, and of one with few bytes."""
    yield Row("tool_orders", ["--accounts", "--limit", limit], script, name=f"{name} --limit {limit}")
    for less in sorted({limit - 1, limit // 2} - {0}):
        yield cut(["--accounts", "--limit", less], script, f"{less} states: ", f"{name} --limit {less} of {limit}")
    yield cut(["--accounts", "--bytes", 100], script, "100 bytes: states ", f"{name} --bytes 100")


def bounded():
    """Large walks, and a file of outcomes that has no end."""
    yield Row("tool_orders", (), REMOVERS, output=begins(f"; states {REMOVERS_STATES}\n"), name="five removers",
              seconds=SECONDS, limits={resource.RLIMIT_AS: REMOVERS_MEMORY})
    yield Row("tool_orders", (), APART, output=begins(f"; states {APART_STATES}\n; ends 1\n"), name="six removers apart",
              seconds=SECONDS)
    yield Row("tool_orders", (), LONG, output=begins("; states 20001\n"), name="one long pass", seconds=SECONDS)
    yield cut(["--bytes", CROWD_BYTES], "heap tiny 1 1 64\n" + CROWD, f"{CROWD_BYTES} bytes: states ", "64 adopters",
              CROWD_MEMORY)
    yield cut([], "heap wide 256 1 64\n" + CROWD, "200000 states: ", "64 adopters of a wide heap")
    yield Row("tool_orders", ["--expect", "/dev/zero"], REMOVERS, 2,
              error="tool_orders: a file of outcomes has at most 16777216 bytes\n", name="outcomes without an end")


def faulty():
    """Comments that ask for something and have a fault."""
    for comment, cause in FAULTY:
        yield Row("tool_orders", (), f"heap tiny 1 1 1\n0 Adopt 0\n{comment}\n0 Leave\n", 2, "",
                  f"tool_orders: fault 14 Script line 3 {cause}\n", comment)


def asked():
    """Comments that ask for replies of the two removers."""
    script = (FOLDER / "two_removers.script").read_text()
    for comments, status, wanted in ASKED:
        text = script + "".join(f"; {comment}\n" for comment in comments)
        yield Row("tool_orders", (), text, status, f"; states 100\n; ends 12\norders 42\n{wanted}", name=comments[-1])


def steps_of(line):
    """The lines of steps that a line of a script of version 3 is short for."""
    number, call, *words = line.split()
    rest, steps = " ".join(words), None
    if call == "insert":
        page, width = words[0].rsplit(".", 1)[0], len(words) - 1
        steps = [f"Read {page}", f"SetClass {page} {next(c for c, w in enumerate(WIDTHS) if width <= w)}",
                 f"Fill {rest}", *["Fill"] * width, "Publish"]
    elif number.isdigit():
        steps = {"adopt": [f"Adopt {rest}"], "get": [f"Enter get {rest}", *LEAVING],
                 "release": [f"Drop {rest}", *LEAVING[1:]],
                 "remove": [f"Enter remove {rest}", "Mark", *LEAVING]}.get(call)
    return [f"{number} {step}" for step in steps] if steps else [line]


def in_steps(script):
    """A script of version 3 as one of version 2, and another as it is."""
    lines = script.splitlines()
    if "version 3" not in lines:
        return script
    steps = [step for line in lines for step in steps_of(line)]
    return "\n".join([*steps, ""]).replace("version 3\n", "version 2\n")


def called():
    """Scripts with calls: the two removers again, and faults."""
    removers = in_calls(FOLDER / "two_removers.script")
    words = ["--accounts", "--expect", FOLDER / "two_removers.orders"]
    yield Row("tool_orders", words, removers, name="two removals as calls")
    for lines, number, cause in CALLS_FAULTY:
        yield Row("tool_orders", (), f"version 3\nheap tiny 1 1 2\n0 adopt 0\n0 insert 0.0.0 1 2\n{lines}", 2, "",
                  f"tool_orders: fault 14 Script line {number} {cause}\n", lines)
    yield Row("tool_orders", (), "version 2\nheap tiny 1 1 1\n0 adopt 0\n", 2, "",
              "tool_orders: fault 14 Script line 3 Command\n", "a call in version 2")


def in_calls(path):
    """The two removers, with a call in place of each removal."""
    before = path.read_text().split(f"{MARK}\n")[0]
    return f"version 3\n{before}{MARK}\n1 remove 4096\n2 remove 4096\n"


def beginnings(found):
    """The replies of the outcomes, whole and without their values."""
    replies = {line for outcome in found for line in outcome if not line.startswith("page ")}
    return sorted(replies | {" ".join(line.split()[:4]) for line in replies})


def counted(path, found):
    """Of each reply that some outcomes have it is said how many have it."""
    script = path.read_text()
    for reply in beginnings(found):
        count = sum(any(f"{line} ".startswith(f"{reply} ") for line in outcome) for outcome in found)
        said = f"\nnever {reply}: {count} of {len(found)}\n"
        name = f"{path.name} never {reply}"
        ran = yield Row("tool_orders", ["--accounts"], f"{script}; never {reply}\n", 1, name=name)
        if said not in ran.text():
            yield f"{name}: it is not said that {count} of {len(found)} outcomes have it"


def outcomes(text):
    """The outcomes of a text that tool_orders prints, each with the lines of its replies and accounts."""
    found = []
    for line in text.splitlines():
        if line.startswith("outcome "):
            found.append([])
        elif found and line and not line.startswith(";"):
            found[-1].append(line)
    return found


def split(script):
    """The lines up to the mark, and those after it."""
    lines = [line for line in script.splitlines() if line == MARK or not line.startswith(";")]
    mark = lines.index(MARK)
    return lines[:mark], lines[mark + 1:]


def stepped(before, lines):
    """What mode steps says of the lines, as an outcome: the replies by pass, and then the accounts."""
    output = run(Row("shardheap", ["steps", "--accounts"], "\n".join([*before, *lines, ""]))).lines()
    events = [line for line in output if not line.startswith("page ")]
    replies = [line for line in events[len(events) - len(lines):] if line.split()[2] not in ("moved", "skipped")]
    accounts = [line for line in output if line.startswith("page ")]
    return sorted(replies, key=lambda line: int(line.split()[0])) + accounts


def orders_of(lanes):
    """All orders of the lines, in which each pass does its own in their order."""
    if not any(lanes):
        yield []
    for place, lane in enumerate(lanes):
        if lane:
            for rest in orders_of([*lanes[:place], lane[1:], *lanes[place + 1:]]):
                yield [lane[0], *rest]


def count_of(lanes):
    """How many there are."""
    count, length = 1, 0
    for lane in lanes:
        for number in range(1, len(lane) + 1):
            length += 1
            count = count * length // number
    return count


def walked(path):
    """A script has the outcomes that are stored beside it, also if `--limit` is just the number of its states. Each
    outcome's witness, line by line in mode steps, leads to the outcome. If the script has few orders, those of skipped
    lines too, all of them, one by one in mode steps, lead to these outcomes and no others."""
    script, stored = path.read_text(), path.with_suffix(".orders")
    words = ["--accounts", "--expect", stored]
    ran = yield Row("tool_orders", words, script, output=stored.read_text(), name=path.name)
    found = outcomes(ran.text())
    states = re.search("^; states ([0-9]+)$", ran.text(), re.MULTILINE)
    if not states:
        return
    yield from cut_at(int(states[1]), script, path.name)
    yield from counted(path, found)
    before, lines = split(in_steps(script))
    for number, outcome in enumerate(found, 1):
        name = f"{path.name}: the witness of outcome {number}"
        witness = yield Row("tool_orders", ["--accounts", "--witness", number], script, name=name)
        done = split(witness.text())[1] if MARK in witness.lines() else []
        if sorted(done) != sorted(lines) or stepped(before, done) != outcome:
            yield f"{name} leads to another outcome"
    passes = sorted({line.split()[0] for line in lines})
    lanes = [[line for line in lines if line.split()[0] == one] for one in passes]
    if count_of(lanes) <= FEW:
        every = {tuple(stepped(before, order)) for order in orders_of(lanes)}
        if every != {tuple(outcome) for outcome in found}:
            yield f"{path.name}: its {count_of(lanes)} orders, one by one, have other outcomes"


def order_rows():
    yield from bounded()
    yield from faulty()
    yield from asked()
    yield from called()
    for path in sorted(FOLDER.glob("*.script")):
        yield from walked(path)


def write_orders():
    """Writes the outcomes anew."""
    for path in FOLDER.glob("*.script"):
        path.with_suffix(".orders").write_bytes(run(Row("tool_orders", ["--accounts"], path)).output)
