"""A story as lanes: a lane for each pass, a row for each event, and next to it the slots of the page after the event.
The slots that the event changed are framed. The events before the story begins are one row."""

import textwrap

from stories.svg import LETTER, Picture
from stories.trace import look_of

LEFT, SLOT, LONGEST = 44, 96, 20
TOP, CELL, STEP, LINE, SECOND = 44, 20, 24, 16, 13
BAR, LETTERS = 6, LETTER[11]
# So many slots of the page are shown.
SLOTS = 3
NAMES = {"live": "Live", "marked": "Marked", "retired": "Retired", "own": "own", "hand": "in hand", "queued": "queued"}
ALIKE = ("Fill", "Read")


class Row:
    """An event, or several that are alike, and what the page and the shard were like after it. The first row has the
    events before the story begins; the row before it is itself. `y` is where it is drawn."""

    def __init__(self, steps, before=None):
        first, self.last = steps[0], steps[-1]
        self.before, self.is_setup, self.y, self.lines = before or self, not before, 0, []
        self.comment, self.reason = first.comment, self.last.answer if self.last.answer.startswith("skipped") else ""
        self.number = f"{first.number}-{self.last.number}" if len(steps) > 1 else str(first.number)
        self.event = event_of(steps) if before else [summary(steps)]
        self.high = STEP + SECOND * (len(self.event) - 1)
        parts = {part.name.split()[0]: part for part in self.last.parts.values()}
        self.slots = [(look_of(slot), label(slot)) for slot in parts["page"].slots()] if "page" in parts else []
        lists = [it for kind in sorted(parts) for it in parts[kind].links().items()]
        self.links = {name: links for name, links in lists if links}
        self.words = words_of(parts)

    def pieces(self, changing):
        """What is said of the page and the shard: texts, each with its kind and width. An arrow has no text. What is
        new is bold, and what never changes is not said."""
        for name, now in self.words.items():
            old = self.before.words[name]
            if name in changing and now and (now != old or name == "flag" or now == "no owner"):
                yield now, "bold" if now != old else "", len(now) * LETTERS + 12
        for name, links in self.links.items():
            kind = "bold" if self.before.links.get(name) != links else ""
            yield name, kind, len(name) * LETTERS + 6
            for item, is_owed in links:
                yield item, kind, len(item) * LETTERS
                yield "", "owed" if is_owed else "line", 23
            yield "end", "grey", 3 * LETTERS + 10


def event_of(steps):
    """The event, and the reply to the pass, in one line or in two. Alike events are words that a pass reads, and those
    that it stores once it has begun to fill a slot."""
    event, reply, times = steps[0].action(), reply_of(steps[-1].answer), len(steps)
    lines = [event, f": {reply}" if reply else ""]
    if times > 1 and event.startswith("Read"):
        lines = [event.rsplit(" ", 1)[0], f", {times} times"]
    elif times > 1:
        lines = [event, ", Fill" if times == 2 else f", Fill {times - 1} times"]
    joined = "".join(lines)
    return [joined] if len(joined) <= LONGEST else [line.strip(" :,") for line in lines]


def label(slot):
    kind, generation, count, _ = slot
    shown = f" {count}" if count != "count 0" or kind in ("Live", "Marked") else ""
    return f"{NAMES[look_of(slot)]} {generation}{shown}".replace("generation ", "g").replace("count ", "c")


def reply_of(answer):
    words = answer.split()
    if answer.endswith("the link is not written"):
        return "link not written"
    return f"key {words[1]}" if words[0] == "Insert" else "" if words[0] in ("moved", "skipped:") else words[0]


def summary(steps):
    names = [step.name() for step in steps]
    inserts = names.count("Publish")
    all_inserts = f"{inserts} inserts" if inserts > 1 else "an insert"
    return ", ".join(dict.fromkeys(all_inserts if name == "Publish" else name for name in names if name != "Fill"))


def words_of(parts):
    about, owner = parts["page"].rows[""] if "page" in parts else [""], parts["shard"].rows[""][0]
    flag = {"not armed": "", "armed": "armed"}.get(about[-1], "flag taken" if "taken" in about[-1] else "")
    return {"class": about[0].replace(",", ":"),
            "owner": "no owner" if owner == "left" else owner.replace("owner ", "owner: "), "flag": flag}


def rows_of(steps):
    """The rows. The events before the first comment that follows an event are the setup. Events of the same kind and of
    the same pass, one after the other, are one row."""
    begun = next(at for at, step in enumerate(steps) if at and step.comment)
    groups = [[step] for step in steps[begun:begun + 1]]
    for step in steps[begun + 1:]:
        is_alike = step.name() in ALIKE and groups[-1][-1].event.split()[:2] == step.event.split()[:2]
        if is_alike and not step.comment:
            groups[-1].append(step)
        else:
            groups.append([step])
    rows = [Row(steps[:begun])]
    for group in groups:
        rows.append(Row(group, rows[-1]))
    return rows


class Lanes:
    """The picture of a story: its rows, and the widths of its columns."""

    def __init__(self, trace):
        self.rows, self.names = rows_of(trace.steps), sorted({step.by() for step in trace.steps})
        self.lane = int(max(len(line) for row in self.rows[1:] for line in row.event) * LETTERS) + BAR + 17
        self.changing = {name for name in self.rows[0].words if len({row.words[name] for row in self.rows}) > 1}
        self.after = LEFT + len(self.names) * self.lane
        # (the column of links and words is left out if there are none)
        widest = max(sum(wide for _, _, wide in row.pieces(self.changing)) for row in self.rows)
        self.shared = max(180, 8 + widest) if widest else 0
        self.width = int(self.after + SLOTS * SLOT + self.shared) + 4
        y = TOP
        for row in self.rows:
            row.lines = textwrap.wrap(row.comment, int((self.width - 16) / LETTERS), break_on_hyphens=False)
            row.y = y + LINE * len(row.lines) + (3 if row.lines else 0)
            y = row.y + row.high + (LINE if row.reason else 0)
        self.bottom = y
        about = (f"A lane for each of {len(self.names)} passes and a row for each event. Next to each event are the "
                 "slots of the page after it, those that changed framed, and the links of the page and of the shard.")
        self.picture = Picture(self.width, self.bottom + 56, trace.title, about)

    def drawn(self):
        self.draw_heads()
        for number, name in enumerate(self.names):
            self.draw_bars(name, LEFT + number * self.lane)
        for row in self.rows:
            for number, line in enumerate(row.lines):
                self.draw_line(8, row.y - 8 - LINE * (len(row.lines) - 1 - number), line, "story")
            self.draw_event(row)
            self.draw_after(row)
            if row.reason:
                self.draw_line(LEFT + BAR + 3, row.y + row.high + 8, row.reason, "red")
        self.draw_legend(self.bottom + 8)
        return self.picture

    def draw_heads(self):
        for number, name in enumerate(self.names):
            self.picture.text(LEFT + (number + 0.5) * self.lane, 24, f"pass {name}", "bold", 12, "middle")
        self.picture.text(self.after + SLOTS * SLOT / 2, 24, "slots 0, 1, 2 after it", "bold", 12, "middle")
        if self.shared:
            self.picture.text(self.after + SLOTS * SLOT + 8, 24, "page, shard after it", "bold", 12)

    def draw_bars(self, name, x):
        """From each event to the next one, whether the pass is inside a call or has a hold."""
        ends = [row.y + CELL / 2 for row in self.rows[1:]] + [self.bottom - STEP + CELL]
        for row, end in zip(self.rows, ends):
            line = row.last.passes.get(name, "idle")
            if "holds" in line or "idle" not in line:
                kind = "hold" if "holds" in line else "call"
                self.picture.box(x, row.y + CELL / 2, BAR, end - row.y - CELL / 2, kind, 0)

    def draw_event(self, row):
        self.picture.text(LEFT - 6, row.y + 14, row.number, "grey", 11, "end")
        at, wide = (0, len(self.names)) if row.is_setup else (self.names.index(row.last.by()), 1)
        kind = "zero" if row.is_setup or row.reason else "plain"
        self.picture.cell(LEFT + at * self.lane + BAR + 3, row.y, wide * self.lane - BAR - 9, row.high - STEP + CELL,
                          row.event, kind, 11)

    def draw_line(self, x, y, line, kind):
        """A line of text on white, so that no bar goes through it."""
        self.picture.box(x - 2, y - 11, len(line) * LETTERS + 4, LINE - 1, "page", 0)
        self.picture.text(x, y, line, kind, 11)

    def draw_after(self, row):
        """The slots, and what is said of the page and the shard. The arrow of a link that is owed is dashed."""
        for number, (look, words) in enumerate(row.slots[:SLOTS]):
            x = self.after + number * SLOT
            self.picture.cell(x, row.y, SLOT - 4, CELL, [words], look, 11)
            if row.before.slots[number] != (look, words):
                self.picture.box(x, row.y, SLOT - 4, CELL, "changed")
        x = self.after + SLOTS * SLOT + 8
        for text, kind, wide in row.pieces(self.changing):
            if text:
                self.picture.text(x, row.y + 14, text, kind, 11)
            else:
                self.picture.arrow(x + 2, row.y + 10, x + 21, row.y + 10, kind)
            x += wide

    def draw_legend(self, y):
        self.picture.text(8, y + 14, "g generation, c count", "grey", 11)
        self.picture.box(176, y + 1, 30, 18, "changed")
        self.picture.text(214, y + 14, "changed by the event", "grey", 11)
        self.picture.arrow(376, y + 10, 404, y + 10, "owed")
        self.picture.text(412, y + 14, "a link that is not written yet", "grey", 11)
        for x, kind, words in ((8, "call", "the pass is inside a call"), (214, "hold", "it has a hold on the key")):
            self.picture.box(x, y + 24, BAR, 18, kind, 0)
            self.picture.text(x + 12, y + 37, words, "grey", 11)
