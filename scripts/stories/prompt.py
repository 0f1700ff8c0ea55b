"""A prompt at which lines of a script are done one by one, and taken back. The program script_trace runs the script
from its first line each time, as the same script always has the same trace."""

import cmd
import json
import re
import subprocess
import textwrap
from pathlib import Path

# The events of a script by what they are for. The page has the same, with their words in a sentence.
EVENTS = json.loads((Path(__file__).parent / "events.json").read_text())
HELP = (Path(__file__).parent / "prompt.txt").read_text().rstrip().replace(
    "@EVENTS@", "\n".join(f"  {topic:13} {', '.join(events)}" for topic, events in EVENTS.items()))
START = "? lists the commands. The first line is a header: heap tiny 1 1 2"
FAULT = re.compile(r"script_trace: fault \d+ (?:Script line (\d+) )?(\w+)")
# Not more shards are tried.
SHARDS = 4


def wrapped(start, events):
    """Events in lines of at most 100 letters. An event is not cut."""
    whole = start + ", ".join(event.replace(" ", "\N{NO-BREAK SPACE}") for event in events)
    lines = textwrap.wrap(whole, 100, subsequent_indent="  ", break_long_words=False, break_on_hyphens=False)
    return "\n".join(lines).replace("\N{NO-BREAK SPACE}", " ")


def filled(form, places):
    """The events of a form, with all that can come in its places."""
    place = next((one for one in places if one in form), None)
    return [event for it in places[place] for event in filled(form.replace(place, it), places)] if place else [form]


class Fault(Exception):
    """A line that the program refuses. Its text is for the person at the terminal."""


class Prompt(cmd.Cmd):
    """The lines so far, their trace, and the commands. What is no command is a line."""
    prompt = "trace> "

    def __init__(self, program, lines):
        super().__init__()
        self.program, self.lines, self.trace = program, [], ""
        self.intro = f"? lists the commands. {len(lines)} lines are done first." if lines else START
        self.cmdqueue = list(lines)

    def do_help(self, _):
        print(HELP)

    def do_quit(self, _):
        return True

    def do_EOF(self, _):
        print()
        return True

    def emptyline(self):
        return False

    def default(self, line):
        try:
            grown = self.trace_of([*self.lines, line])
            print(grown[len(self.trace):], end="")
            self.lines, self.trace = [*self.lines, line], grown
        except Fault as fault:
            print(f"not done: {fault}")

    def trace_of(self, lines):
        """The trace of these lines. A line that the program refuses raises a Fault."""
        text = "".join(f"{line}\n" for line in lines)
        ran = subprocess.run([self.program], input=text.encode(), capture_output=True, check=False)
        if ran.returncode:
            error = ran.stderr.decode(errors="replace").strip()
            found = FAULT.match(error)
            # (a header that is still to come is no fault at a prompt)
            if not found or found[2] != "Header" or int(found[1]) <= len(lines):
                raise Fault(f"{found[2]}: docs/SCRIPTS.md says what to do about it" if found else error)
        return ran.stdout.decode()

    def do_undo(self, times):
        for _ in range(int(times) if times.isdigit() else 1):
            print(f"taken back: {self.lines.pop()}" if self.lines else "there is no line")
        self.trace = self.trace_of(self.lines)

    def do_list(self, _):
        print(*self.lines, sep="\n")

    def do_save(self, path):
        try:
            with open(path, "x") as opened:
                opened.writelines(f"{line}\n" for line in self.lines)
            print(f"{path} has {len(self.lines)} lines")
        except OSError as error:
            print(f"not saved: {error.strerror if path else 'save FILE'}")

    def do_next(self, only):
        header = next((line.split() for line in self.lines if line.startswith("heap ")), None)
        if not header:
            print("there is no heap yet: the first line is a header")
            return
        print("Of the keys, pages and slots that the trace has shown:")
        for number in map(str, range(int(header[4]))):
            if only in ("", number):
                print(wrapped(f"pass {number}: ", self.possible(number, int(header[2])) or ["nothing"]))

    def possible(self, number, shards):
        """The events that the pass could do now, each with what it would meet. Nothing is worked out here: the program
        is asked event by event. An event that is skipped changes nothing, so one run tries them in a row up to the
        first that is not."""
        places = self.places(shards)
        left, found = [event for forms in EVENTS.values() for form in forms for event in filled(form, places)], []
        while left:
            lines = [f"{number} {event}".replace(" WORD ..", "").replace("CLASS", "7") for event in left]
            tried = self.trace_of([*self.lines, *lines])[len(self.trace):]
            answers = re.findall(r"^\d+ \w+ (.*)$", tried, re.M)
            at = next((at for at, answer in enumerate(answers) if not answer.startswith("skipped")), None)
            if at is None:
                break
            met = answers[at].partition("moved: ")[2]
            found.append(f"{left[at]} ({met})" if met else left[at])
            left = left[at + 1:]
        return found

    def places(self, shards):
        """What can come in the places of an event: the keys, pages and slots that the trace has shown, and the next
        page of each shard."""
        shards = [str(shard) for shard in range(min(shards, SHARDS))]
        pages = list(dict.fromkeys(re.findall(r"^  page (\S+):", self.trace, re.M)))
        slots = dict(re.findall(r"^  page (\S+): class \d+, (\d+) slots", self.trace, re.M))
        fresh = [f"{shard}.{sum(page.startswith(f'{shard}.') for page in pages)}" for shard in shards]
        return {"SHARD": shards, "PAGE": pages + fresh, "PART": "012",
                "SLOT": [f"{page}.{slot}" for page in slots for slot in range(int(slots[page]))],
                "KEY": re.findall(r"^\d+ Publish Insert (\d+)", self.trace, re.M)}
