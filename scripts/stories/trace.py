"""A trace of script_trace: a step for each event, with all that was said of the heap up to it. The pictures and the
checks of the page share it. The page itself reads traces by story/trace.js, into the same rows."""

import re
from dataclasses import dataclass
from typing import NamedTuple

from tree import TOP

STORIES = TOP / "examples/watch"
# A step of a trace: comments, an event, its answer, and lines of pages, shards and passes.
STEP = re.compile(r"((?:;.*\n)*)> (\d.*)\n\d+ \w+ (.*)\n((?: .*\n)*)")
PART = re.compile(r"^  (page [\d.]+|shard \d+): (.*)\n((?:    .*\n)*)", re.M)
PASS = re.compile(r"^  pass (\d+): (.+)", re.M)
LINK = re.compile(r"(\d+) ([-~])> ")
# How an empty slot is drawn, by the first word that is said of it.
EMPTY = {"own": "own", "in": "hand", "queued": "queued"}


def look_of(slot):
    """How a slot is drawn: by its kind, and an empty one by who has it."""
    kind, *_, rest = slot
    return EMPTY[re.match(r"\w+", rest)[0]] if kind == "Empty" else kind.lower()


@dataclass
class Part:
    """A page or a shard as a step showed it, in rows of words: its own by the name "", those of a slot by "slot 0", and
    a list by its name, as "stack"."""
    name: str
    step: int
    rows: dict

    def number(self):
        return self.name.split()[1]

    def slots(self):
        return [words for row, words in self.rows.items() if row.startswith("slot ")]

    def links(self):
        """The items of each list, each with whether its link is owed: `1 -> 0 ~> end`."""
        return {row: [(item, link == "~") for item, link in LINK.findall(" ".join(words))]
                for row, words in self.rows.items()}


@dataclass
class Step:
    """One event, its answer, and the comment that comes with it. `parts` has all that was shown up to it, and `passes`
    the line of each pass."""
    number: int
    event: str
    answer: str
    comment: str
    before: "Step | None"
    parts: dict
    passes: dict

    def by(self):
        return self.event.split()[0]

    def action(self):
        return self.event.split(" ", 1)[1]

    def name(self):
        return self.event.split()[1]

    def last_comment(self):
        return self.comment or (self.before.last_comment() if self.before else "")

    def owing(self, part, item):
        """The pass that owes the link of an item of a part's list."""
        ties = f"ties {'slot' if part.name.startswith('page') else 'page'} {part.number()}.{item} "
        return next(number for number, line in self.passes.items() if line.startswith(ties))

    def shown(self, kind=""):
        """The pages and shards that the step showed, or those of a kind."""
        return [part for part in self.parts.values() if part.step == self.number and part.name.startswith(kind)]


class Trace(NamedTuple):
    title: str
    header: list
    steps: list


def rows_of(about, lines):
    """The rows of a part. A line of slots is a row of each: `slots 1 to 2: Empty, generation 1, count 0; own`."""
    rows = {"": about.split("; ")}
    for name, said in re.findall(r"^    (.+?): (.+)", lines, re.M):
        places, (state, _, rest) = [int(at) for at in re.findall(r"\d+", name)], said.partition("; ")
        slots = range(places[0], places[-1] + 1) if places else []
        rows |= {f"slot {at}": [*state.split(", "), rest] for at in slots} or {name: [said]}
    return rows


def read(text):
    """The trace of a text. Its first comment is the title. Beside its steps it has the lines of the header alone."""
    title, header = re.fullmatch(r"(?:; *(.*)\n)?((?:> .*\n)*)\n*", STEP.sub("", text)).groups("")
    steps = [None]
    for told, event, answer, lines in STEP.findall(text):
        number, before = len(steps), steps[-1]
        parts = dict(before.parts) if before else {}
        parts |= {name: Part(name, number, rows_of(about, rows)) for name, about, rows in PART.findall(lines)}
        comment, passes = " ".join(re.findall("^; *(.*)", told, re.M)), dict(PASS.findall(lines))
        steps.append(Step(number, " ".join(event.split()), answer, comment, before, parts, passes))
    return Trace(title, [line.removeprefix("> ") for line in header.splitlines()], steps[1:])


def stories():
    return {path.stem: path.read_text() for path in sorted(STORIES.glob("*.trace"))}
