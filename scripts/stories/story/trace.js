// Reads the text that script_trace prints, and tells what it says of the heap. A trace has a title, the lines of its
// header, those of its script, and a frame for each event: the event, its answer, the pages and shards as they were
// last shown, and what each pass has that has begun, owns or holds something. docs/SCRIPTS.md, "Traces", has the
// format. A page or a shard has rows of words: its own by the name "", those of a slot by "slot 0", and a list by its
// name, as "stack". Nothing is worked out that the trace does not say.

// Each kind of line, and how it is read.
const LINES = [
  // A comment. The first one before the header is the title.
  [/^ *; *(.*)$/, (trace, text) => {
    trace.lines.push(`; ${text}`);
    if (!trace.title && !trace.header.length) trace.title = text;
    else trace.told.push(text);
  }],
  [/^> (.*)$/, (trace, line) => {
    const words = line.split(/ +/).filter(Boolean);
    trace.lines.push(line);
    if (/^\d/.test(words[0])) trace.event = words;
    else trace.header.push(words.join(" "));
  }],
  // An answer, which begins a frame. Up to its event the script has `lines` lines.
  [/^(\d+) (\w+) (.*)$/, (trace, pass, kind, answer) => {
    const { frames, event, told, lines } = trace;
    const before = frames.at(-1) ?? null;
    if (event[0] !== pass || event[1] !== kind) throw new Error("another event");
    frames.push({
      number: frames.length + 1, pass, event: event.slice(1), answer, comment: told.join(" "), lines: lines.length,
      before, parts: new Map(before?.parts), passes: new Map(),
    });
    Object.assign(trace, { event: null, told: [], part: null });
  }],
  [/^ {4}slots? (\d+)(?: to (\d+))?: (\w+), generation (\d+), count (\d+)(?:; (.*))?$/,
    (trace, first, last, kind, generation, count, rest) => {
      for (let at = Number(first); at <= Number(last ?? first); at += 1) {
        trace.part.rows.set(`slot ${at}`, [kind, `generation ${generation}`, `count ${count}`, rest ?? ""]);
      }
    }],
  [/^ {4}(stack|chain|bell|bell chain): (.*)$/, ({ part }, name, text) => {
    part.lists.push(name);
    part.rows.set(name, [text]);
  }],
  [/^ {2}(page|shard) ([\d.]+): (.*)$/, (trace, kind, number, about) => {
    const { number: step, parts } = trace.frames.at(-1);
    const rows = new Map([["", about.split("; ")]]);
    trace.part = { kind, number, name: `${kind} ${number}`, step, rows, lists: [] };
    parts.set(trace.part.name, trace.part);
  }],
  // What a pass has: its hand, the event that goes on with it, and what it owns and holds.
  [/^ {2}pass (\d+): (.*)$/, (trace, pass, text) => {
    const [begun, ...has] = text.split("; ");
    const [hand, next = ""] = begun.split(", next ");
    trace.frames.at(-1).passes.set(pass, { pass, text, hand, next, has });
  }],
  [/^$/, () => null],
];

/** The trace of a text. It throws an error that has the first line that is none of a trace, or is out of its place. */
export function readTrace(text) {
  const trace = { title: "", header: [], told: [], event: null, part: null, frames: [], lines: [] };
  text.split("\n").map((line) => line.trimEnd()).forEach((line, at) => {
    try {
      const [form, read] = LINES.find(([start]) => start.test(line));
      read(trace, ...form.exec(line).slice(1));
    } catch {
      throw new Error(`line ${at + 1}: ${line}`);
    }
  });
  if (!trace.frames.length) throw new Error("it has no event that was answered");
  return trace;
}

/** The words of a row. A word that this frame changed has what it was before; the others have null. */
export function wordsAt(frame, part, row) {
  const before = part.step === frame.number ? frame.before?.parts.get(part.name)?.rows.get(row) : null;
  return part.rows.get(row).map((now, at) => ({ now, was: (before?.[at] ?? now) === now ? null : before[at] }));
}

/** The items of a list, each with whether its link is still owed: `1 -> 0 ~> end`. */
export function itemsOf(part, list) {
  const text = part.rows.get(list)?.[0] ?? "";
  return [...text.matchAll(/(\d+) ([-~])> /g)].map(([, item, link]) => ({ item, owed: link === "~" }));
}

/** Which of the six states a slot is in: its kind, and for an empty one who has it. */
export function stateOf(kind, rest) {
  return kind === "Empty" ? { own: "own", in: "hand", queued: "queued" }[rest.split(/[ ,]/)[0]] : kind.toLowerCase();
}

/** The slots of a page, each with its name in the heap. */
export function slotsOf(part) {
  return [...part.rows].filter(([row]) => row.startsWith("slot ")).map(([row, [kind, generation, count, rest]]) => ({
    at: `${part.number}.${row.slice("slot ".length)}`, kind, rest,
    generation: Number(generation.slice("generation ".length)), count: Number(count.slice("count ".length)),
  }));
}

export const partsOf = (frame, kind) => [...frame.parts.values()].filter((part) => part.kind === kind);

/** The passes whose hand begins like this. */
export function handsThatBegin(frame, start) {
  return [...frame.passes.values()].filter(({ hand }) => hand.startsWith(start)).map(({ pass }) => pass);
}

/** The replies up to a frame: the frames whose answer is an entry of the log. */
export function repliesUpTo(story, frame) {
  return story.frames.slice(0, frame.number).filter(({ answer }) => /^[A-Z]/.test(answer));
}
