"""Compares what the page says at a step (story/seen.js) with what the trace says there. Where a function is of a name,
it says what the page has to say by that name."""

import re

from stories.trace import Part


def same(what, seen, expected):
    if seen != expected:
        yield f"{what}: the page says {seen!r}, the trace {expected!r}"


def differences(what, seen, expected):
    """All that the page says in another way. Both have the same names, and below a name more of them."""
    if not isinstance(expected, dict):
        yield from same(what, seen, expected)
        return
    yield from same(f"names of {what}", sorted(seen), sorted(expected))
    for name in expected.keys() & seen.keys():
        yield from differences(f"{name} of {what}", seen[name], expected[name])


def changes_of(step, part):
    """The rows of a part that a step changed: their words that are others, each with what it was."""
    before = step.before.parts.get(part.name) if step.before and part.step == step.number else None
    pairs = {row: zip(before.rows.get(row, words), words) for row, words in part.rows.items()} if before else {}
    changes = {row: [(was, now) for was, now in words if was != now] for row, words in pairs.items()}
    return {row: words for row, words in changes.items() if words}


def part_of(step, name):
    """The rows of a part, and what is new of them. One that is not shown yet has none."""
    part = step.parts.get(name) or Part(name, step.number, {"": []})
    changes, links = changes_of(step, part), [it for links in part.links().values() for it in links]
    return {"rows": [[row, words] for row, words in part.rows.items()],
            "age": "" if part.step == step.number else f"as step {part.step} showed it",
            "lit": [[row, [now for _, now in words]] for row, words in changes.items()],
            "outlined": [row for row in changes if row.startswith("slot ")],
            "owing": [f"pass {step.owing(part, item)} owes" for item, is_owed in links if is_owed]}


def pass_of(step, name):
    line = step.passes.get(name, "")
    before = step.before.passes.get(name, "") if step.before else line
    return {"text": re.sub("[;,]", "", line), "acts": name == step.by(), "changed": line != before}


def changes_told(step):
    """The list of changes, with a line for each row."""
    for part in step.shown():
        if not step.before or part.name not in step.before.parts:
            yield f"{part.name} is shown for the first time"
        for row, words in changes_of(step, part).items():
            changes = "; ".join(f"{was or 'nothing'} → {now or 'nothing'}" for was, now in words)
            yield f"{part.name}{row and ', '}{row}: {changes}"


def row_of(step):
    """A row of the lanes: the number, the event, and a beginning of the reply."""
    word, _, rest = step.answer.partition(" ")
    reply = {"moved": "", "moved:": f" {rest}"}.get(word, f" {word.rstrip(':')}")
    return f"{step.number}{step.action()}{reply}"


def is_of(sentence, step):
    """Whether a sentence names the pass and the reason, and has no number but those of the event, its answer, and what
    the pass had begun."""
    words = f"{step.event} {step.answer} {step.before.passes.get(step.by(), '') if step.before else ''}"
    numbers = set(re.findall(r"\d+", words))
    if step.name() == "Read":
        numbers |= {str(int(number) - 2) for number in numbers}
    others, reason = set(re.findall(r"\d+", sentence)) - numbers, step.answer.partition(": ")[2]
    return sentence.startswith(f"Pass {step.by()} ") and reason in sentence and not others


def compare_step(seen, story, number):
    step, last = story.steps[number - 1], story.steps[-1]
    sentence = seen["sentence"] if is_of(seen["sentence"], step) else f"a sentence of {step.event!r}, {step.answer!r}"
    yield from differences("the page", seen, {
        "title": story.title or seen["title"], "header": "; ".join(story.header), "rows": [*map(row_of, story.steps)],
        "place": f"step {number} of {len(story.steps)}", "here": [str(number)], "comment": step.last_comment(),
        "line": f"{step.event} {step.answer}", "sentence": sentence, "odd": "", "wide": [], "broken": [],
        "changes": [*changes_told(step)] or ["no page and no shard changed"], "places": seen["places"],
        "parts": {name: part_of(step, name) for name in last.parts},
        "passes": {name: pass_of(step, name) for it in story.steps for name in (it.by(), *it.passes)},
    })
