"""Tries the simulator of the page: by clicks on what each pass can do next. Each function yields what is wrong."""

import os
import random
import subprocess

from stories import trace
from stories.compared import compare_step, same
from tree import program

PROGRAM = program("shardheap")
# Two passes are on the slot at this step of the story, and the reader lets the other one mark first.
STORY, FORK = "two_removers", 8
STEPS, SEED = 25, 7

READY = """(({ program }) => (program === "none" || document.querySelector('#choices[aria-busy="false"]')) && program
    )(document.documentElement.dataset)"""
CHIPS = """(root) => [...root.querySelectorAll(".chip")].map((chip) => [chip.querySelector(".event").textContent,
    chip.querySelector(".reply")?.textContent ?? ""])"""
CHOICES = f"""[...document.querySelectorAll("#choices [data-pass]")].map((row) => [row.dataset.pass, ({CHIPS})(row)])"""


class Choices:
    """The page with its choices open, after each act once they are drawn."""

    def __init__(self, page, path, place=""):
        self.page = page
        page.open(path, place)
        self.act('document.getElementById("choose").open = true')

    def act(self, code):
        self.page.run(code)
        if self.page.until(READY) == "none":
            raise RuntimeError("the page has no program")

    def press(self, name):
        self.act(f'document.getElementById("{name}").click()')

    def all(self):
        """What the page says that each pass can do next: its events, each with what it would be answered."""
        return {number: dict(events) for number, events in self.page.run(CHOICES)}

    def choose(self, number, event):
        """Clicks on an event of a pass, and returns the page's line of it."""
        self.act(f"""[...document.querySelectorAll('#choices [data-pass="{number}"] .chip')]
            .find((one) => one.querySelector(".event").textContent === {event!r})?.click()""")
        return self.line()

    def line(self):
        text = self.page.run('document.querySelector("#told .line").textContent')
        return " ".join(text.removeprefix("pass ").split())

    def script(self):
        return [text for text in self.page.of("script", "value").splitlines() if not text.startswith(";")]

    def do_lines(self, lines):
        text = "".join(f"{one}\n" for one in lines)
        self.page.of("script", f"value = {text!r}")
        self.press("do-lines")

    def check_replies(self):
        """The lanes have the replies of shardheap, of which mode steps runs the page's script, if that is built."""
        if os.access(PROGRAM, os.X_OK):
            text = "".join(f"{one}\n" for one in self.script())
            ran = subprocess.run([PROGRAM, "steps"], input=text, capture_output=True, text=True, check=False)
            said = [line.split()[1:3] for line in ran.stdout.splitlines()]
            chips = self.page.run(f'({CHIPS})(document.getElementById("lanes"))')
            shown = [[event.split()[0], reply if reply[:1].isupper() else "moved"] for event, reply in chips]
            yield from same("replies of shardheap steps", shown, said)


def check_fork(page, path):
    """Another pass than the one of the story, a step back, and the way back to the story."""
    choices = Choices(page, path, f"#{STORY}/{FORK}")
    yield from same("what passes 1 and 2 can do", [choices.all()[one] for one in "12"], [{"Mark": "Removed 4096"}] * 2)
    yield from same("pass 1 marks first", choices.choose("1", "Mark"), "1 Mark Removed 4096")
    yield from same("what pass 2 can do then", choices.all()["2"], {"Mark": "Gone 4096"})
    yield from same("pass 2 marks then", choices.choose("2", "Mark"), "2 Mark Gone 4096")
    page.key("u", 85)
    page.until(READY)
    yield from same("a step back", choices.line(), "1 Mark Removed 4096")
    yield from choices.check_replies()
    choices.press("again")
    yield from same("the story again", page.run("location.hash"), f"#{STORY}/{FORK}")
    choices.act('document.querySelector("#choices .next-of-story").click()')
    yield from same("the story's next step", page.run("location.hash"), f"#{STORY}/{FORK + 1}")


def check_walk(page, path):
    """A new heap, with values of two words and steps by chance: each is done as it was said, and the clauses hold."""
    chance, choices = random.Random(SEED), Choices(page, path)
    page.of("facts", "open = true")
    choices.press("fresh")
    page.of("value", 'value = "7 8"')
    choices.act('document.getElementById("value").dispatchEvent(new Event("change"))')
    fills = [event for event in choices.all()["0"] if event.endswith(" 7 8")]
    yield from same("fills", fills, ["Fill 0.0.1 7 8", "Fill 0.0.2 7 8"])
    for _ in range(STEPS):
        number, events = chance.choice([(one, found) for one, found in choices.all().items() if found])
        event, reply = chance.choice(list(events.items()))
        answer = choices.choose(number, event).removeprefix(f"{number} {event} ").removeprefix("moved")
        yield from same(f"answer to {number} {event}", answer.removeprefix(": "), reply)
        broken = page.run('[...document.querySelectorAll(".broken")].map((one) => one.textContent)')
        yield from same("clauses that do not hold", broken, [])
    yield from choices.check_replies()


def check_scripts(page, path, texts, seen):
    """The page does the scripts of all stories, and ends as their traces do."""
    choices = Choices(page, path)
    for name, text in texts.items():
        choices.do_lines([one.removeprefix("> ") for one in text.splitlines() if one.startswith(("> ", ";"))])
        story = trace.read(text)
        for fault in compare_step(page.run(seen), story, len(story.steps)):
            yield f"{name} done by the page: {fault}"


def check_refused(page, path):
    choices = Choices(page, path)
    choices.do_lines(["heap tiny 1 1 2", "0 adopt 0"])
    yield from same("a line that is none", page.of("fault", "textContent"),
                    "The script is not done: line 2: Command")
    yield from same("story that stays", page.of("which", "value"), "stalled_freer")


def check_simulator(page, path, texts, seen):
    """What is wrong with the simulator. A page that does not go on is wrong too."""
    try:
        yield from check_fork(page, path)
        yield from check_walk(page, path)
        yield from check_scripts(page, path, texts, seen)
        yield from check_refused(page, path)
    except RuntimeError as error:
        yield f"simulator: {error}"
