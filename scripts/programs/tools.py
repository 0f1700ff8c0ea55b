"""What tool_bench, tool_stress and tool_large count."""
import pathlib
import re
import tempfile

from programs.rows import Row


def is_said(text):
    if not text:
        yield "it is not said why"


def bench_rows():
    """Each workload counts the operations and the values as they were asked for; what cannot be measured is refused."""
    for operations, standing, words in [
        (1000, 10, "get --live 10"), (1000, 1, "read --words 16"), (1000, 10, "get-guard --live 10"),
        (1500, 1, "insert --mixed --operations 1500"), (2000, 2, "remove --threads 2"),
        (60000, 1, "fill --mixed --layout deep --operations 60000"), (1000, 300, "churn --live 300"),
        (1000, 0, "hand --layout tagged"), (1000, 0, "adopt --live 48"), (9, 0, "leave --freed 10 --operations 9"),
        (1000, 10, "heed --live 10"),
    ]:
        def counts(text, wanted=(f"operations {operations}", f"standing {standing}")):
            yield from (f"it has no line {line!r}" for line in wanted if line not in text.splitlines())

        yield Row("tool_bench", words.split(), output=counts)
    told = "workload {} {}\nthreads {}\noperations {}\nsum {}\nstanding {}\n"
    # Ten values of one word are in slots 0 to 9 of the first page, in the first generation. Each key is held 100 times
    # by each of two threads: 200 * (10 * 2^24 + 45).
    yield Row("tool_bench", "get --live 10 --threads 2".split(),
              output=told.format("get", "wide", 2, 2000, 200 * (10 * 2**24 + 45), 10))
    # The value at place 0 has the words 0 to 15, which add up to 120, and is read 1,000 times.
    for reading in ("read", "read-into", "read-guard", "look"):
        yield Row("tool_bench", [reading, "--words", 16], output=told.format(reading, "wide", 1, 1000, 120 * 1000, 1))
    # The keys of the layout tagged have 20 bits below the generation: one thread gets the key 2^20 in 10 gets.
    yield Row("tool_bench", "get --layout tagged --operations 10".split(),
              output=told.format("get", "tagged", 1, 10, 10 * 2**20, 1))
    # In layout wide a thread has at most 16 shards of 1,024 pages, so room for 49,152 values of 16 words.
    for status, words in [(2, ""), (2, "table"), (2, "get --threads 0"), (3, "churn --words 16 --live 200000")]:
        yield Row("tool_bench", words.split(), status=status, output="", error=is_said)


def large_rows():
    for status, words in [(0, "wide --values 1"), (0, "wide --values 100000"), (0, "deep"), (0, "deep --values 100000"),
                          (2, ""), (2, "tiny"), (2, "wide --values 0"), (2, "deep --values 10000001")]:
        yield Row("tool_large", words.split(), status=status, seconds=120)


# Counts of tool_stress that show that each kind of call was made, those of answers that are judged, and those that are
# 0 on a heap that grows, on which no call is made by hand, and each caller may adopt.
MADE = ["inserts", "gets", "reads", "looks", "removes", "releases", "shards adopted", "keys judged", "pages summed"]
ANSWERS = ["inserts", "gets", "looks", "refused as Gone", "refused as Crowded", "removes", "releases", "marked by hand"]
BY_HAND = ["begun by hand", "steps by hand", "stops in the middle", "marked by hand", "refused as Taken"]


def add_up(rounds, grows):
    """Whether the counts of a run agree with one another. Each answer has a line and is judged, and each shard that was
    adopted was left. A value is at its end live, or was removed by a call, or by one of those that marked it by hand.
    A hold that was got was released, or keeps a slot. Some rounds report ends, each of a key that was removed. Each fill at
    the end of a round ends as Full."""
    def look(text):
        of = {name: int(count) for name, count in re.findall(r"^(.*) (\d+)$", text, re.M)}
        missing = {*MADE, *ANSWERS, *BY_HAND, "rounds", "answers judged", "shards left", "slots live at the end",
                   "slots marked at the end", "refused as Full", "ends reported"} - of.keys()
        if missing:
            yield f"it does not count {', '.join(sorted(missing))}"
            return
        left = of["inserts"] - of["removes"]
        for what, is_so in {
            f"rounds {rounds}": of["rounds"] == rounds, **{f"{name} above 0": of[name] > 0 for name in MADE},
            **{f"{name} 0": of[name] == 0 for name in BY_HAND if grows},
            "answers judged all answers": of["answers judged"] == sum(of[name] for name in ANSWERS),
            "shards left those adopted": of["shards left"] == of["shards adopted"],
            "slots live at most those left": of["slots live at the end"] <= left,
            "slots live at least those left": of["slots live at the end"] >= left - of["marked by hand"],
            "slots marked at most those held": of["slots marked at the end"] <= of["gets"] - of["releases"],
            "keys judged at least the inserts": of["keys judged"] >= of["inserts"],
            "ends reported in one of several rounds": of["ends reported"] > 0 or rounds == 1,
            "ends reported of those removed": of["ends reported"] <= of["removes"] + of["marked by hand"],
            "refused as Full once a round": of["refused as Full"] >= rounds,
        }.items():
            if not is_so:
                yield f"not so: {what}; {of}"
    return look


def stress_rows():
    """The counts of each run add up, and the history that a run records is legal for tool_history."""
    for rounds, words in [(1, "--threads 1 --rounds 1 --steps 300 --seed 5"), (20, "--threads 2 --rounds 20 --seed 9"),
                          (10, "--layout growing --threads 4 --rounds 10 --seed 3")]:
        yield Row("tool_stress", words.split(), output=add_up(rounds, "growing" in words), seconds=120)
    for words in ("--layout wider", "--threads 0", "more"):
        yield Row("tool_stress", words.split(), status=2, seconds=120)
    with tempfile.TemporaryDirectory(prefix="stress-") as room:
        history = pathlib.Path(room, "history")
        for words in ("--threads 1 --rounds 1 --steps 600 --seed 5", "--threads 4 --rounds 1 --steps 600 --seed 6",
                      "--threads 4 --rounds 2 --steps 600 --seed 7",
                      "--layout growing --threads 4 --rounds 1 --steps 600 --seed 8"):
            history.unlink(missing_ok=True)
            yield Row("tool_stress", ["--record", history, *words.split()], seconds=120)
            given = history if history.exists() else ""
            yield Row("tool_history", (), given, output=is_legal, error="", name=f"the history of {words}", seconds=120)
        for name in ("/dev/full", f"{room}/none/history"):
            words = ["--rounds", 1, "--steps", 10, "--record", name]
            yield Row("tool_stress", words, status=3, seconds=120)


def is_legal(text):
    # (of ten entries or more)
    if not re.fullmatch(r"legal, \d{2,} entries on \d+ keys\n", text):
        yield f"it is not legal: {text}"
