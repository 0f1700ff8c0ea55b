// Draws what happened in a step: the comment of the script, the event with its answer, a sentence, and what it changed.
// The words of a sentence are those that events.json has of each event, and all else is of the trace.

import { FORMS } from "./choices.js";
import { el, gloss } from "./dom.js";
import { wordsAt } from "./trace.js";

const ENTRIES = {
  Insert: (key, ...value) => `key ${key} is inserted with ${valueOf(value)}`,
  Got: (key, ...value) => `it holds key ${key}, with ${valueOf(value)}`,
  Gone: (key) => `key ${key} is gone`,
  Crowded: (key) => `key ${key} is crowded`,
  Removed: (key) => `key ${key} is removed`,
};

function valueOf([length, ...words]) {
  if (length === "0") return "the empty value";
  return `the ${length === "1" ? "word" : "words"} ${words.join(" ")}`;
}

function patternOf(form) {
  return new RegExp(`^${form.replace(" WORD ..", "(?: .*)?").replace(/[A-Z]{2,}/g, "(?<$&>\\S+)")}$`);
}

/** What the event does. HAND is what its pass has in its hand, if the event goes on with that. */
function phraseOf({ event, before, pass }) {
  const text = event.join(" ");
  const { hand = "", next = "" } = before?.passes.get(pass) ?? {};
  const [form, [phrase, otherwise = phrase]] = Object.entries(FORMS).find(([one]) => patternOf(one).test(text))
    ?? ["", [`do ${text}`]];
  const { PART, ...names } = patternOf(form).exec(text)?.groups ?? {};
  const [, HAND] = /^(?:rings for|\w+) (.*?)(?: with .*| to put)?$/.exec(hand) ?? [];
  const said = next.split(" and then ")[0] === event[0] ? phrase : otherwise;
  const words = { ...names, HAND, PART: ["the class", "the length"][PART] ?? `word ${PART - 2}` };
  return said.replace(/\b[A-Z]{2,}\b/g, (name) => words[name] ?? name);
}

function sentence(frame) {
  const phrase = phraseOf(frame);
  const [word, ...rest] = frame.answer.split(" ");
  const who = `Pass ${frame.pass}`;
  const reason = rest.join(" ");
  if (word === "skipped:") return `${who} cannot ${phrase} now: ${reason}.`;
  if (word === "moved:") return `${who} tries to ${phrase}: ${reason}.`;
  const [verb] = phrase.split(" ");
  const done = phrase.replace(verb, `${verb}${verb.endsWith("sh") ? "es" : "s"}`);
  const entry = ENTRIES[word]?.(...rest);
  return `${who} ${done}${entry ? `: ${entry}` : ""}.`;
}

function commentLine(story, frame) {
  const last = story.frames.slice(0, frame.number).findLast(({ comment }) => comment);
  return el("p", `beat${last === frame ? " new" : ""}`, last?.comment ?? "");
}

function eventLine(frame) {
  const [word, ...rest] = frame.answer.split(" ");
  const kind = ["skipped", "moved"].find((name) => word.startsWith(name)) ?? "entry";
  const answer = el("span", `answer ${kind}`, el("b", "", word), rest.length ? ` ${rest.join(" ")}` : "");
  return el("p", "line", gloss("pass "), el("b", "who", frame.pass), " ", el("b", "event", frame.event.join(" ")), " ",
    answer);
}

/** What the event changed of a part, in a line for each row of it. */
function changesOf(frame, part) {
  if (!frame.before?.parts.has(part.name)) return [`${part.name} is shown for the first time`];
  return [...part.rows.keys()].flatMap((row) => {
    const changed = wordsAt(frame, part, row).filter(({ was }) => was !== null);
    const texts = changed.map(({ now, was }) => `${was || "nothing"} → ${now || "nothing"}`);
    return texts.length ? [`${part.name}${row && `, ${row}`}: ${texts.join("; ")}`] : [];
  });
}

export function told(story, frame) {
  const touched = [...frame.parts.values()].filter((part) => part.step === frame.number);
  const changes = touched.flatMap((part) => changesOf(frame, part));
  const items = changes.length ? changes : ["no page and no shard changed"];
  const list = el("ul", "changes", ...items.map((text) => el("li", "", text)));
  return [commentLine(story, frame), eventLine(frame), el("p", "sentence", sentence(frame)), list];
}
