"""What shardheap does with scripts at their limits: long lines and names, many lines, sizes, and keys nobody issued."""
import itertools

from programs.rows import Row

# The size of the greatest script, and the length of the longest line.
LIMIT, LINE = 1 << 20, 512
HEADER = "heap tiny 1 1 1\n"
SIZE = "shardheap: fault 14 Script line 0 Size\n"
CALL_MODES, ALL_MODES = ("plain", "heap", "threads"), ("plain", "heap", "threads", "steps")


# Lines behind a header that have no fault, the modes, and what is written: a name of 32 bytes, names with _, the greatest
# number, a value of 16 words, and numbers outside the shape.
TAKEN = [
    (CALL_MODES, "0 post a2345678901234567890123456789012\n", "0 post ok\n"),
    (CALL_MODES, "0 post a_\n0 insert a__ 0\n0 get a__\n",
     "0 post ok\n0 insert refused 10 NoShard\n0 get unbound\n"),
    (CALL_MODES, "0 insert a 18446744073709551615\n", "0 insert refused 10 NoShard\n"),
    (["steps"], "0 Fill 0.0.0 1 2 3 4 5 6 7 8 9 10 11 12 13 14 15 16\n", "0 Fill skipped\n"),
    (["steps"], "0 Adopt 18446744073709551615\n0 Take 9.99\n0 SetClass 9.9 99\n",
     "0 Adopt skipped\n0 Take skipped\n0 SetClass skipped\n"),
]


def taken_rows():
    """Lines that just have no fault."""
    for modes, lines, output in TAKEN:
        for mode in modes:
            yield Row("shardheap", [mode], HEADER + lines, 0, output, "", f"{lines!r} in mode {mode}")


def line_rows():
    """Lines behind a header: the first byte, the length, the last byte, whether a newline follows, and the fault.
    Comments and blank lines are lines too."""
    table = [
        (";", LINE, " ", True, ""),
        (";", LINE + 1, " ", True, "Size"),
        (" ", LINE, " ", True, ""),
        (" ", LINE + 1, " ", True, "Size"),
        (";", LINE, " ", False, "Cut"),
        (" ", 2, " ", False, "Cut"),
        (";", LINE + 1, " ", False, "Size"),
        (";", LINE, "\t", True, "Byte"),
        (";", LINE, "\x7f", True, "Byte"),
        ("\r", 2, " ", True, "Byte"),
        (";", LINE + 1, "\t", True, "Size"),
        ("0", LINE, "!", True, "Command"),
        ("0", LINE + 1, "!", True, "Size"),
    ]
    for first, length, last, ends, cause in table:
        line = first + " " * (length - 2) + last + "\n" * ends
        error = f"shardheap: fault 14 Script line 2 {cause}\n" if cause else ""
        for mode in ALL_MODES:
            yield Row("shardheap", [mode], HEADER + line, 2 if cause else 0, "", error,
                      f"a line of {length} bytes from {first!r} to {last!r} in mode {mode}")


def many_rows():
    """Scripts of many lines, names and words."""
    names = [f"n{number}" for number in range(75_689)]
    script = HEADER + "".join(f"0 post {name}\n" for name in names) + f"0 wait {names[-1]}\n"
    script += "\n" * (LIMIT - len(script))
    # (as many names as the greatest script has room for)
    yield Row("shardheap", ["plain"], script, 0, "0 post ok\n" * len(names) + "0 wait ok\n", "", "75,689 names")
    yield Row("shardheap", ["steps"], HEADER + "0 Tie\n0 Put 0.0.0\n" * 50_000, 0,
              "0 Tie skipped\n0 Put skipped\n" * 50_000, "", "100,000 events")
    for mode in CALL_MODES:
        yield Row("shardheap", [mode], f"{HEADER}0 insert a{' 1' * 251}\n", 0, "0 insert refused 6 TooLong\n", "",
                  f"251 words in mode {mode}")


# Modes, the last lines of a script, and what these write.
CALLS = "0 adopt 0\n0 insert a 7\n1 get a\n1 read a\n;......................\n"
REPLIES = "0 adopt ok\n0 insert 4096\n1 get ok\n1 read 1 7\n"
LIVE = "page 0.0 class 0 live 1 marked 0 retired 0 mine 0 hand 0 queued 47\n"
EVENTS = "0 Adopt 0\n0 Read 0.0\n0 SetClass 0.0 7\n0 Fill 0.0.0\n0 Publish\n;.\n"
OUTCOMES = ("0 Adopt moved\n0 Read moved\n0 SetClass moved\n0 Fill moved\n0 Publish Insert 4096 0\n"
            "page 0.0 class 7 live 1 marked 0 retired 0 mine 2 hand 0 queued 0\n")
LAST = [("plain", CALLS, REPLIES), ("heap", CALLS, REPLIES + LIVE), ("threads", CALLS, REPLIES + LIVE),
        ("steps", EVENTS, OUTCOMES)]


def size_rows():
    """Scripts of the greatest size, whose lines that say something are the first and the last ones, and longer ones. Of
    these one byte more than a script may have is read, and nothing is done."""
    header = f"heap tiny 1 1 2\n;{'.' * 46}\n"
    comment = f";{'.' * 62}\n"
    for mode, last, output in LAST:
        script = header + comment * ((LIMIT - len(header) - len(last)) // len(comment)) + last
        if len(script) != LIMIT:
            yield f"the script of mode {mode} has {len(script)} bytes"
        yield Row("shardheap", [mode, "--accounts"], script, 0, output, "", f"the greatest script in mode {mode}")
        for more in range(1, 4):
            ran = yield Row("shardheap", [mode, "--accounts"], script + "\n" * more, 2, "", SIZE,
                            f"{more} bytes more in mode {mode}")
            if ran.read != LIMIT + 1:
                yield f"{ran.read} bytes of {LIMIT + more} were read in mode {mode}"
    blank = HEADER.ljust(LIMIT, "\n")
    for mode in ALL_MODES:
        yield Row("shardheap", [mode], blank, 0, "", "", f"1,048,561 blank lines in mode {mode}")
        yield Row("shardheap", [mode], blank + "\n", 2, "", SIZE, f"one blank line more in mode {mode}")


def is_key(number, mode):
    """Whether a number is a key of the layout, and in modes with a shape of a heap with one segment: of generations 1
    to 3, shard 0, 8 pages and 48 slots. The greatest key of the layout tiny is 16,383."""
    in_layout = 1 <= number // 4096 <= 3
    in_heap = number // 1024 % 4 == 0 and number // 64 % 16 < 8 and number % 64 < 48
    return in_layout and (mode == "plain" or in_heap)


def forged_rows():
    """Calls on numbers that no insert returned: a key is gone, and any other number is a bad key."""
    keys = {"plain": 12_288, "heap": 1_152, "threads": 1_152}
    for command, (mode, wanted) in itertools.product(("get", "remove"), keys.items()):
        script = HEADER + "".join(f"0 {command} #{number}\n" for number in range(20_001))
        output = [f"0 {command} refused {'2 Gone' if is_key(number, mode) else '1 BadKey'}\n"
                  for number in range(20_001)]
        if sum("Gone" in line for line in output) != wanted:
            yield f"not {wanted} numbers are keys in mode {mode}"
        yield Row("shardheap", [mode, "--accounts"], script, 0, "".join(output), "", f"forged {command} in mode {mode}")


def rows():
    """All of them."""
    for them in (taken_rows, line_rows, many_rows, size_rows, forged_rows):
        yield from them()
