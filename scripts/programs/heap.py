"""What shardheap does with scripts, in its modes."""
import itertools
import random
import resource
import string

from programs.rows import Row
from tree import TOP

FOLDERS = (TOP / "examples", TOP / "examples/worked")


def example_rows():
    """Each script that a file runs.txt names has to write NAME.output, and NAME.error if that is there."""
    for folder in FOLDERS:
        lines = [line.split() for line in (folder / "runs.txt").read_text().splitlines() if line[:1] != "#"]
        for name, status, *words in lines:
            error = folder / f"{name}.error"
            yield Row("shardheap", words, folder / f"{name}.script", int(status),
                      (folder / f"{name}.output").read_bytes(), error.read_bytes() if error.is_file() else "", name)
        for file in sorted(it for it in folder.iterdir() if it.suffix in (".script", ".output", ".error")):
            if file.stem not in [name for name, *_ in lines]:
                yield f"{file.relative_to(TOP)}: runs.txt has no such name"
    yield from broken()
    yield from long()
    yield from large()


def broken():
    """The scripts of broken.txt, in each of their modes, without accounts and with them. They write nothing."""
    for line in (FOLDERS[1] / "broken.txt").read_text().splitlines():
        if line.startswith("#"):
            continue
        name, modes, status, fault, script = (part.strip(" ") for part in line.split("|", 4))
        error = f"shardheap: {fault}\n" if fault else ""
        # (the script is written with \n and \t)
        script = script.encode().decode("unicode_escape")
        for mode, accounts in itertools.product(modes.split(), ([], ["--accounts"])):
            yield Row("shardheap", [mode, *accounts], script, int(status), "", error, f"{name} {mode}")


def long():
    """70,000 lines: each but four posts a name, more than 16 bits count, and the last one is waited for."""
    letters = itertools.product(string.ascii_lowercase, repeat=4)
    names = ["".join(it) for it in itertools.islice(letters, 69996)]
    script = ["heap tiny 1 1 2", "0 adopt 0", *(f"0 post {name}" for name in names), f"1 wait {names[-1]}",
              "0 insert a 7", "1 get a", ""]
    output = ["0 adopt ok", *["0 post ok"] * len(names), "1 wait ok", "0 insert 4096", "1 get ok",
              "page 0.0 class 0 live 1 marked 0 retired 0 mine 0 hand 0 queued 47", ""]
    for mode in ("heap", "threads"):
        yield Row("shardheap", [mode, "--accounts"], "\n".join(script), 0, "\n".join(output), "",
                  f"a script of 70,000 lines in mode {mode}", 600)


def large():
    """103,003 lines, of which 13,000 read 16 words of 20 digits, so that more than 6 MB are written."""
    words = " 18446744073709551615" * 16
    script = ["heap tiny 1 1 1", "0 adopt 0", f"0 insert a{words}", "0 get a", *["0 read a"] * 13000,
              *["0 get #0"] * 90000, ""]
    output = ["0 adopt ok", "0 insert 4096", "0 get ok", *[f"0 read 16{words}"] * 13000,
              *["0 get refused 1 BadKey"] * 90000, ""]
    for mode in ("plain", "heap", "threads"):
        yield Row("shardheap", [mode], "\n".join(script), 0, "\n".join(output), "",
                  f"a script of 103,003 lines in mode {mode}", 600)


def name(number):
    letters = ""
    number += 1
    while number > 0:
        number, letter = divmod(number - 1, 26)
        letters = string.ascii_lowercase[letter] + letters
    return letters


# The size of the greatest script.
LIMIT = 1 << 20


def crossing():
    """A script of the greatest size, of 64 passes with a shard each: a value that one pass inserts is got and released
    by another, and most are removed by a third."""
    chosen, left = random.Random(11), LIMIT
    lines = ["heap wide 64 4 64", *(f"{number} adopt {number}" for number in range(64))]
    left -= sum(len(line) + 1 for line in lines)
    for number in itertools.count():
        own, other, third = (chosen.randrange(64) for _ in range(3))
        more = [f"{own} insert {name(number)} {number % 9}", f"{other} get {name(number)}",
                f"{other} release {name(number)}", *[f"{third} remove {name(number)}"] * (number % 4 > 0)]
        left -= sum(len(line) + 1 for line in more)
        if left < 0:
            return lines
        lines += more


def passes_rows():
    """Names cross from pass to pass. By the accounts the live values are those that were inserted and not removed, and
    no slot is an owner's or in a hand."""
    lines = crossing()

    def adds_up(text):
        pages = [line.split() for line in text.splitlines() if line.startswith("page")]
        replies = [line.split() for line in text.splitlines() if not line.startswith("page")]
        inserted = sum(reply[1] == "insert" and reply[2] != "refused" for reply in replies)
        removed = sum(reply[1] == "remove" and reply[2] == "ok" for reply in replies)
        live, marked, mine, hand = (sum(int(page[at]) for page in pages) for at in (5, 7, 11, 13))
        if (len(replies), live, marked + mine + hand) != (len(lines) - 1, inserted - removed, 0) or not inserted:
            yield (f"{len(replies)} replies to {len(lines) - 1} lines; {inserted} inserted, {removed} removed, {live} "
                   f"live, {marked} marked, {mine} an owner's, {hand} in a hand")

    for number in (1, 2):
        yield Row("shardheap", ["threads", "--accounts"], "\n".join([*lines, ""]), output=adds_up,
                  name=f"{len(lines)} lines, run {number}")


# Of the rows below: how many passes wait for the last one of so many names.
WAITING, NAMES = 63, 20_000


def wakes_rows():
    """63 passes wait for one name, behind 20,000 other names that pass 0 binds first. Only what binds a name that a
    pass waits for may wake that pass. So all switches together are far fewer than the names: a run in which each name
    wakes each pass has hundreds of thousands."""
    waits = [f"{number} wait {name(NAMES)}" for number in range(1, WAITING + 1)]
    script = [f"heap wide 1 1 {WAITING + 1}", *(f"0 post {name(number)}" for number in range(NAMES + 1)), *waits, ""]

    def are_ok(text):
        lines = text.splitlines()
        if len(lines) != NAMES + WAITING + 1 or not all(line.endswith(" ok") for line in lines):
            yield f"{len(lines)} lines, and not all of them are ok"

    ran = yield Row("shardheap", ["threads"], "\n".join(script), output=are_ok, name="63 that wait", seconds=120)
    # (a thread may wait for the lock of the board, too, and for its start and end)
    if ran.switches > NAMES // 10:
        yield f"{ran.switches} switches over {NAMES} names, and there may be {NAMES // 10}"


# A thread has a stack of the size that the limit says, and half of that is left for all else.
STACK = 256 << 20


def threads_rows():
    """Four passes while the system, as under `ulimit`, refuses to start a thread: the first, the second, .., and at
    last none. If one is refused, the run ends with fault 15 and with nothing written, though the others wait for a name
    that the last pass binds. (Not for a program of `rt try`, whose checks map more memory than is left here.)"""
    script = "heap tiny 1 1 4\n3 adopt 0\n3 insert a 7\n0 get a\n1 get a\n2 get a\n"
    ended = (0, "3 adopt ok\n3 insert 4096\n0 get ok\n1 get ok\n2 get ok\n", "")
    for threads in range(5):
        came = ended if threads == 4 else (3, "", "shardheap: fault 15 Io\n")
        limits = {resource.RLIMIT_STACK: STACK, resource.RLIMIT_AS: threads * STACK + STACK // 2}
        yield Row("shardheap", ["threads"], script, *came, f"room for {threads} threads", 20, limits)
