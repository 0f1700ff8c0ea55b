"""Four forms of scripts whose answers are judged without a model of the heap:

- `Ordered`: a script of calls in one order, by a post and a wait at each change of pass. Mode threads has to print what
  mode heap prints.
- `Phased`: in each phase each pass makes one call, and the order of these calls is open. Mode threads runs it, and
  tool_history judges its answers, by times that are the phases. The account lines have to follow from the answers.
- `Stepped`: calls of several passes, each a list of events, that are mixed for mode steps. Mode heap has to answer the
  calls in the same way, in the order in which their steps decided them.
- `Called`: calls in one order for tool_calls, looks among them. tool_history judges its answers.

Each form has `script()`, and `wrongs(run)`. The function `run` takes a mode and a script, and returns its status and
output, or None if it did not end.
"""
import collections
import re

from programs import rows

TINY, WIDE = "tiny", "wide"
FIRST_KEY = {TINY: 4096, WIDE: 16777216}
SHARD_UNIT = {TINY: 1024, WIDE: 65536}
GENERATIONS = {TINY: 3, WIDE: 2**32 - 1}
MOST_HOLDS = {TINY: 4, WIDE: 2**20}
ACCOUNT = re.compile(r"page (\d+\.\d+) class \d" + "".join(
    rf" {kind} (\d+)" for kind in ("live", "marked", "retired", "mine", "hand", "queued")))


# What an answer is in a history, by its call.
ENTRIES = {("get", "ok"): "Got", ("remove", "ok"): "Removed", ("release", "ok"): "Released",
           ("get", "refused 3"): "Crowded", ("get", "refused 2"): "Gone", ("look", "refused 2"): "Gone",
           ("remove", "refused 2"): "Gone"}


def entry_of(words, answer, key):
    """The entry of a history that a call on a key and its answer are, or None."""
    if key is None:
        return None
    if words[0] == "insert":
        return " ".join(["Insert", str(key), str(len(words) - 2), *words[2:]])
    if words[0] == "look" and answer[0] != "refused":
        return " ".join(["Seen", str(key), *answer])
    entry = ENTRIES.get((words[0], " ".join(answer[:2])))
    return entry and f"{entry} {key}"


def accounts(output):
    """Of each page the live, marked and retired slots, and all the others."""
    found = {}
    for page, *numbers in ACCOUNT.findall(output):
        live, marked, retired, *others = map(int, numbers)
        found[page] = live, marked, retired, sum(others)
    return found


class Ordered:
    def __init__(self, header, calls):
        lines, last = [header], None
        for number, call in enumerate(calls):
            by = call.split()[0]
            if last not in (None, by):
                lines += [f"{last} post turn{number}", f"{by} wait turn{number}"]
            lines.append(call)
            last = by
        self.text = "\n".join(lines) + "\n"

    def script(self):
        return self.text

    def wrongs(self, run):
        heap, threads = run("heap", self.text), run("threads", self.text)
        if heap is None or threads is None:
            return ["a run of calls in one order did not end"]
        return [] if heap == threads else ["heap and threads answer calls in one order in different ways"]


Call = collections.namedtuple("Call", "phase by words")


class Phased:
    def __init__(self, dice):
        self.dice = dice
        self.layout, self.passes, self.shards = dice.choice((TINY, TINY, WIDE)), dice.randint(2, 5), dice.randint(1, 2)
        self.values, self.names, self.calls = {}, [], []
        self.lines = [f"heap {self.layout} {self.shards} 1 {self.passes}"]
        for phase in range(dice.randint(2, 40)):
            self.add_phase(phase)

    def add_phase(self, phase):
        known = list(self.names)
        for by in range(self.passes):
            words = ["adopt", str(by)] if phase == 0 and by < self.shards else self.words(phase, by, known)
            self.calls.append(Call(phase, by, words))
            self.lines.append(" ".join([str(by), *words]))
        self.lines += [f"{by} post p{phase}_{by}" for by in range(self.passes)]
        self.lines += [f"{by} wait p{phase}_{other}" for by in range(self.passes) for other in range(self.passes)]

    def words(self, phase, by, known):
        draw = self.dice.random()
        if draw < 0.05:
            return self.dice.choice((["leave"], ["adopt", str(self.dice.randrange(self.shards))]))
        if draw < 0.3 or not known:
            name = f"n{phase}_{by}"
            self.names.append(name)
            self.values[name] = [str(self.dice.getrandbits(64)) for _ in range(self.dice.choice((0, 1, 2, 16)))]
            return ["insert", name, *self.values[name]]
        command = self.dice.choice(("get", "get", "get", "read", "read", "release", "release", "remove"))
        return [command, self.dice.choice(known[-4:])]

    def script(self):
        return "\n".join(self.lines) + "\n"

    def answered(self, output):
        """Each call with its result, and the key that it was about."""
        calls = [line.split()[2:] for line, asked in zip(output.splitlines(), self.lines[1:])
                 if asked.split()[1] not in ("post", "wait")]
        keys, result = {}, []
        for call, answer in zip(self.calls, calls, strict=True):
            command, name = call.words[0], call.words[1] if len(call.words) > 1 else None
            if command == "insert" and answer[0] != "refused":
                keys[name] = int(answer[0])
            result.append((call, answer, keys.get(name)))
        return result

    def history(self, answered):
        lines = [f"history {self.passes} {MOST_HOLDS[self.layout]}"]
        for call, answer, key in answered:
            entry = entry_of(call.words, answer, key)
            if entry:
                lines.append(f"{2 * call.phase} {2 * call.phase + 1} {call.by} {entry}")
        return "\n".join(lines) + "\n"

    def expected(self, answered):
        """The live, marked and retired slots of each page that follow from the answers."""
        inserted, removed, holds = set(), set(), collections.Counter()
        for call, answer, key in answered:
            command = call.words[0]
            if key is None or answer[0] in ("refused", "unbound"):
                continue
            if command == "insert":
                inserted.add(key)
            elif command == "remove":
                removed.add(key)
            elif command in ("get", "release"):
                holds[key] += 1 if command == "get" else -1
        pages = collections.defaultdict(lambda: [0, 0, 0])
        for key in inserted:
            first, unit = FIRST_KEY[self.layout], SHARD_UNIT[self.layout]
            page = f"{key % first // unit}.{key % unit // 64}"
            if key not in removed:
                pages[page][0] += 1
            elif holds[key]:
                pages[page][1] += 1
            elif key // first == GENERATIONS[self.layout]:
                pages[page][2] += 1
        return {page: tuple(numbers) for page, numbers in pages.items()}

    def misread(self, answered):
        reads = [(answer, self.values[call.words[1]]) for call, answer, _ in answered
                 if call.words[0] == "read" and answer[0] not in ("refused", "unbound")]
        return any(answer != [str(len(value)), *value] for answer, value in reads)

    def wrongs(self, run):
        ran = run("threads", self.script())
        if ran is None:
            return ["a run of phases did not end"]
        status, output = ran
        if status != 0:
            return [f"a run of phases ended with status {status}"]
        answered = self.answered(output)
        judged, found = rows.run(rows.Row("tool_history", (), self.history(answered))), []
        if not judged.output.startswith((b"legal", b"undecided")):
            found.append(f"tool_history says of the answers of phases: {judged.output + judged.error}")
        if self.misread(answered):
            found.append("a read in a run of phases returned another value")
        pages = {page: numbers[:3] for page, numbers in accounts(output).items() if any(numbers[:3])}
        if pages != {page: numbers for page, numbers in self.expected(answered).items() if any(numbers)}:
            found.append("the account lines of a run of phases do not follow from its answers")
        return found


class Stepped:
    """Calls as lists of events, which are mixed."""

    # What may be left of a removal, a release or a refused get. A step whose condition does not hold is skipped.
    REST = ("Drop", "Finish", "Put", "Tie", "Ring", "RingTie")
    CALLS = {"Got": "get", "Removed": "remove", "Released": "release"}

    def __init__(self, dice):
        self.dice, self.passes = dice, dice.randint(2, 4)
        values = [[str(dice.getrandbits(64)) for _ in range(2)] for _ in range(dice.randint(1, 4))]
        self.keys = [FIRST_KEY[WIDE] + slot for slot in range(len(values))]
        header = f"heap wide 1 1 {self.passes}"
        self.steps = [header, "0 Adopt 0", "0 Read 0.0", "0 SetClass 0.0 1"]
        self.heap = [header, "0 adopt 0"]
        for slot, value in enumerate(values):
            self.steps += [f"0 Fill 0.0.{slot} {' '.join(value)}", "0 Fill", "0 Fill", "0 Publish"]
            self.heap.append(f"0 insert n{slot} {' '.join(value)}")
        self.begun = {}
        self.mix([self.events(by) for by in range(self.passes)])

    def events(self, by):
        lines = []
        for _ in range(self.dice.randint(1, 6)):
            key = self.dice.choice(self.keys)
            call = self.dice.choice(("get", "get", "release", "remove"))
            first = f"Drop {key}" if call == "release" else f"Enter {call} {key}"
            more = ("Mark",) if call == "remove" else ()
            lines += [(f"{by} {event}", call) for event in (first, *more, *self.REST)]
        return lines

    def mix(self, lists):
        while any(lists):
            some = self.dice.choice([lines for lines in lists if lines])
            line, call = some.pop(0)
            self.begun[len(self.steps)] = call
            self.steps.append(line)

    def script(self):
        return "\n".join(self.steps) + "\n"

    def wrongs(self, run):
        ran = run("steps", self.script())
        if ran is None or ran[0] != 0:
            return ["a run of steps did not end well"]
        lines, wanted = list(self.heap), []
        for place, reply in enumerate(ran[1].splitlines()[:len(self.steps) - 1], 1):
            words = reply.split()
            if place in self.begun and len(words) > 3:
                by, entry, key = words[0], words[2], words[3]
                call = self.begun[place] if entry == "Gone" else self.CALLS[entry]
                lines.append(f"{by} {call} #{key}")
                wanted.append(f"{by} {call} {'refused 2 Gone' if entry == 'Gone' else 'ok'}")
        heap = run("heap", "\n".join(lines) + "\n")
        if heap is None or heap[0] != 0:
            return ["a run of the calls of mixed steps did not end well"]
        found = []
        if heap[1].splitlines()[len(self.heap) - 1:len(lines) - 1] != wanted:
            found.append("heap answers calls in another way than their mixed steps")
        if accounts(heap[1]) != accounts(ran[1]):
            found.append("the account lines of heap are not those of the mixed steps of its calls")
        return found


class Called:
    def __init__(self, dice):
        layout, passes = dice.choice((TINY, WIDE)), dice.randint(2, 4)
        self.head, self.lines = f"history {passes} {MOST_HOLDS[layout]}", [f"heap {layout} 1 1 {passes}", "0 adopt 0"]
        names = []
        for number in range(dice.randint(1, 200)):
            command = dice.choice(("insert", "look", "look", "look", "get", "get", "release", "remove"))
            if command == "insert" or not names:
                names.append(f"n{number}")
                value = [str(dice.getrandbits(64)) for _ in range(dice.choice((0, 1, 2, 16)))]
                self.lines.append(" ".join(["0", "insert", names[-1], *value]))
            else:
                self.lines.append(f"{dice.randrange(passes)} {command} {dice.choice(names[-4:])}")

    def script(self):
        return "\n".join(["version 3", *self.lines]) + "\n"

    def history(self, output):
        keys, lines = {}, [self.head]
        for line, reply in zip(self.lines[1:], output.splitlines(), strict=True):
            (by, *words), answer = line.split(), reply.split()[2:]
            if words[0] == "insert" and answer[0] != "refused":
                keys[words[1]] = answer[0]
            entry = entry_of(words, answer, keys.get(words[1]))
            lines += [f"{by} {entry}"] if entry else []
        return "\n".join(lines) + "\n"

    def wrongs(self, _run):
        ran = rows.run(rows.Row("tool_calls", (), self.script()))
        if ran.status != 0:
            return [f"tool_calls ended with status {ran.status}: {ran.error}"]
        judged = rows.run(rows.Row("tool_history", (), self.history(ran.text())))
        legal = judged.output.startswith(b"legal")
        return [] if legal else [f"tool_history says of the answers of tool_calls: {judged.output + judged.error}"]
