// Draws the shards and pages as the trace last showed them: slots as boxes, stacks, chains and bells as arrows. Of each
// pass it draws what it has in hand, which event comes next of it, and what it owns and holds.

import { arrow, el, gloss, heard, lit, steady } from "./dom.js";
import { handsThatBegin, itemsOf, stateOf, wordsAt } from "./trace.js";

const FIELDS = ["kind", "generation", "count", "rest"];

/** The words of a value are boxes of their own. */
function inBoxes(text) {
  const [first, ...words] = text.split(" ");
  return first === "value" ? [first, ...words.flatMap((word) => [" ", el("span", "word", word)])] : [text];
}

function slotBox(frame, part, row) {
  const words = wordsAt(frame, part, row);
  const [kind, ...fields] = words.map(({ now, was }, at) => lit(el("span", FIELDS[at], ...inBoxes(now)), was));
  const top = el("span", "top", el("span", "number", row), " ", kind);
  const box = el("li", `slot ${stateOf(words[0].now, words[3].now)}`, top, ...fields.flatMap((field) => [" ", field]));
  if (words.some(({ was }) => was !== null)) {
    box.classList.add("changed");
    box.append(heard(" (changed)"));
  }
  return steady(box, `${part.name} slots`);
}

/** An arrow with the pass that owes the link of an item, as a slot or the line of a pass says it. */
function owedArrow(frame, part, item) {
  const said = part.rows.get(`slot ${item}`)?.[3] ?? "";
  const pass = /pass (\d+) owes its link/.exec(said)?.[1];
  return arrow("owed", `pass ${pass ?? handsThatBegin(frame, `ties page ${part.number}.${item} `)[0]} owes`);
}

const HEADS = { stack: "head", chain: "cursor", bell: "bell", "bell chain": "cursor" };

function listRow(frame, part, name) {
  const items = itemsOf(part, name);
  const [{ now, was }] = wordsAt(frame, part, name);
  const start = items.length ? [el("span", "start gloss", HEADS[name]), arrow("from")] : [];
  const nodes = items.flatMap(({ item, owed }) => [
    el("span", "item", gloss(part.kind === "page" ? "slot " : "page "), item), " ",
    owed ? owedArrow(frame, part, item) : arrow("tied"), " ",
  ]);
  const row = lit(el("span", "list", ...start, ...nodes, el("span", "end", now.split("> ").at(-1))), was);
  if (was !== null) row.append(heard(" (changed)"));
  return steady(el("div", "links", el("span", "name", name), " ", row), `${part.name} ${name}`);
}

function partCard(frame, name) {
  const part = frame.parts.get(name);
  const card = steady(el("article", `card part${part ? "" : " unseen"}`), name);
  card.setAttribute("aria-label", name);
  if (!part) {
    card.append(el("p", "said", el("strong", "name gloss", name), " ", gloss("not touched yet")));
    return card;
  }
  const words = wordsAt(frame, part, "").flatMap(({ now, was }) => [lit(el("span", "about", now), was), " "]);
  // (when the trace showed the part, unless it was in this step)
  const age = el("span", "age gloss", part.step === frame.number ? "" : `as step ${part.step} showed it`);
  const said = el("p", "said", el("strong", "name", name), " ", ...words);
  const boxes = [...part.rows.keys()].filter((row) => row.startsWith("slot ")).map((row) => slotBox(frame, part, row));
  card.append(steady(el("div", "about-row", said, age), `${name} about`));
  if (boxes.length) card.append(el("ul", "slots", ...boxes));
  card.append(el("div", `lists of-${part.kind}`, ...part.lists.map((list) => listRow(frame, part, list))));
  return card;
}

export const heapCards = (story, frame) => story.parts.map((name) => partCard(frame, name));

/** What a pass owns or holds, without the verb for those who see its label. */
function withoutVerb({ has }, verb) {
  return has.filter((word) => word.startsWith(verb)).flatMap((word, at) => (
    [at ? el("br") : "", el("span", "heard", `${verb} `), word.slice(verb.length + 1), " "]
  ));
}

const ROWS = {
  "in hand": ({ hand }) => [hand],
  next: ({ next }) => (next ? [el("span", "heard", "next "), el("span", "next", next)] : []),
  owns: (pass) => withoutVerb(pass, "owns"),
  holds: (pass) => withoutVerb(pass, "holds"),
};

function row(label, pass) {
  const values = pass ? ROWS[label](pass) : [];
  const none = gloss(label === "in hand" ? "nothing" : "–");
  return el("div", "row", el("dt", "gloss", label), el("dd", "", ...(values.length ? values : [none])));
}

function passCard(frame, number) {
  const pass = frame.passes.get(number);
  const isChanged = frame.before !== null && frame.before.passes.get(number)?.text !== pass?.text;
  const name = el("h3", pass ? "" : "gloss", `pass ${number}`);
  if (isChanged) name.append(heard(" (changed)"));
  const rows = Object.keys(ROWS).map((label) => row(label, pass));
  const card = el("article", `card pass${pass ? "" : " unseen"}`, name, " ", el("dl", "", ...rows));
  card.classList.toggle("changed", isChanged);
  card.classList.toggle("acts", number === frame.pass);
  card.setAttribute("aria-label", `pass ${number}`);
  return steady(card, `pass ${number}`);
}

export const passCards = (story, frame) => story.passes.map((number) => passCard(frame, number));
