// What clauses of the proved theorem `refines_map` say of the heap after a step: with the numbers that the trace shows,
// so that a reader can add them up. That they hold after each step is proved. A section of docs/HOW-IT-WORKS.md
// explains each clause. The log is drawn with them.

import { el, gloss } from "./dom.js";
import { handsThatBegin, itemsOf, partsOf, repliesUpTo, slotsOf, stateOf } from "./trace.js";

const count = (number, what, many = `${what}s`) => `${number} ${number === 1 ? what : many}`;
const sumOf = (numbers) => numbers.reduce((sum, number) => sum + number, 0);

/** A key as it was issued: the slot that its pass filled, and the slot's generation then. */
function issuedBy({ answer, before, pass, ...frame }) {
  const [, key, , ...words] = answer.split(" ");
  const [, at] = /^fills slot (\S+)/.exec(before.passes.get(pass).hand);
  return { key, at, words: words.join(" "), generation: slotOf(slotsAt(frame), at).generation };
}

const slotsAt = (frame) => partsOf(frame, "page").flatMap(slotsOf);
const slotOf = (slots, place) => slots.find(({ at }) => at === place);

/** All that the clauses speak of: pages, shards, slots, keys, holds and passes, as the trace has shown them. */
function sightOf(story, frame) {
  const passes = [...frame.passes.values()];
  const log = repliesUpTo(story, frame);
  const keys = log.filter(({ event }) => event[0] === "Publish").map(issuedBy);
  const issued = (key) => keys.find((one) => one.key === key);
  const holds = passes.flatMap(({ pass, has }) => has.flatMap((word) => {
    const [, key, times = 1] = /^holds (\d+)(?: (\d+) times)?$/.exec(word) ?? [];
    return key ? [{ pass, times: Number(times), ...issued(key) }] : [];
  }));
  const visits = passes.flatMap(({ hand }) => {
    const [, key, slot] = /^(?:removes (\d+)|leaves slot (\S+))$/.exec(hand) ?? [];
    return key || slot ? [slot ?? issued(key).at] : [];
  });
  const removed = log.map(({ answer }) => /^Removed (\d+)/.exec(answer)?.[1]);
  return {
    frame, passes, keys, removed, holds, visits, slots: slotsAt(frame), pages: partsOf(frame, "page"),
    shards: partsOf(frame, "shard"),
  };
}

function counted({ slots, holds, visits }) {
  return slots.flatMap((slot) => {
    const held = sumOf(holds.filter(({ at }) => at === slot.at).map(({ times }) => times));
    const visiting = visits.filter((at) => at === slot.at).length;
    const text = `slot ${slot.at}: count ${slot.count} = ${count(held, "hold")} + ${count(visiting, "visit")}`;
    return held || visiting || slot.count ? [[text, slot.count === held + visiting]] : [];
  });
}

// The six states of a slot, as a sum has them.
const STATES = { live: "live", marked: "marked", retired: "retired", own: "mine", hand: "in hand", queued: "queued" };

function oneKind({ pages }) {
  return pages.flatMap((page) => {
    const [, all] = /^class \d+, (\d+) slots/.exec(page.rows.get("")[0]) ?? [];
    const states = slotsOf(page).map(({ kind, rest }) => stateOf(kind, rest));
    const counts = Object.entries(STATES).map(([state, name]) => [name, states.filter((one) => one === state).length]);
    const said = counts.filter(([, number]) => number).map(([state, number]) => `${number} ${state}`).join(" + ");
    const sum = sumOf(counts.map(([, number]) => number));
    return all ? [[`page ${page.number}: ${all} slots = ${said}`, sum === Number(all)]] : [];
  });
}

function keysAgree({ keys, removed, slots }) {
  return keys.map(({ key, at, generation }) => {
    const slot = slotOf(slots, at);
    const isRemoved = removed.includes(key);
    const isNow = generation === slot.generation && slot.kind !== "Empty" && isRemoved === (slot.kind !== "Live");
    const said = `key ${key} of generation ${generation} ${isRemoved ? "was removed" : "is present"}`;
    const holds = generation < slot.generation ? isRemoved : isNow;
    return [`${said}; slot ${at} is ${slot.kind} in generation ${slot.generation}`, holds];
  });
}

function finished({ slots, frame }) {
  return slots.filter(({ kind }) => kind === "Marked").map((slot) => {
    if (slot.count) return [`slot ${slot.at}: ${count(slot.count, "pass", "holds and visits")}`, true];
    const ends = handsThatBegin(frame, `ends generation ${slot.generation} of slot ${slot.at}`);
    return [`slot ${slot.at}: pass ${ends.join(" ")} finishes it`, ends.length === 1];
  });
}

function held({ holds, slots }) {
  return holds.map(({ pass, key, at, generation, words }) => {
    const found = slotOf(slots, at);
    const now = found.rest === "the empty value" ? "" : found.rest.replace("value ", "");
    const isThere = ["Live", "Marked"].includes(found.kind) && found.generation === generation;
    const text = `pass ${pass} holds ${key}, issued with ${words || "no word"}; ${found.rest} in slot ${at}`;
    return [text, isThere && now === words];
  });
}

function owed({ pages, shards, frame }) {
  return [...pages, ...shards].flatMap((part) => {
    const items = part.lists.flatMap((list) => itemsOf(part, list)).filter((item) => item.owed);
    return items.map(({ item }) => {
      const name = `${part.kind === "page" ? "slot" : "page"} ${part.number}.${item}`;
      const owing = handsThatBegin(frame, `ties ${name} `);
      return [`link of ${name}: owed by pass ${owing.join(" ")}`, owing.length === 1];
    });
  });
}

const mustRing = ({ hand, next }, page) => (
  hand === `rings for page ${page}` || (next.endsWith(" Ring") && hand.startsWith(`ties slot ${page}.`))
);

function duty({ pages, shards, passes }) {
  return pages.flatMap((page) => {
    const [shard, number] = page.number.split(".");
    const bells = shards.filter((part) => part.number === shard);
    const times = (list) => bells.flatMap((part) => itemsOf(part, list)).filter(({ item }) => item === number).length;
    const flag = page.rows.get("").at(-1);
    const places = {
      flag: Number(flag === "armed"), "pass to ring": passes.filter((pass) => mustRing(pass, page.number)).length,
      bell: times("bell"), "bell chain": times("bell chain"),
    };
    const armed = Number(flag !== "not armed");
    const sum = sumOf(Object.values(places));
    const said = Object.entries(places).map(([name, one]) => `${name} ${one}`).join(" + ");
    return armed || sum ? [[`page ${page.number}: armed ${armed} = ${said}`, sum === armed]] : [];
  });
}

function owners({ shards, passes }) {
  return shards.map((part) => {
    const owning = passes.filter(({ has }) => has.includes(`owns ${part.name}`)).map(({ pass }) => pass);
    const about = part.rows.get("").join("; ");
    const text = `${part.name}: ${about}, and ${count(owning.length, "pass owns", "passes own")} it`;
    return [text, about === (owning.length ? `owner pass ${owning.join(" ")}` : "left")];
  });
}

// Each clause: its name, its section, what it says, what it says of this heap, and what is written if that is nothing.
const CLAUSES = [
  ["counted", 5, "the count of a slot is its holds and the passes on it for a moment", counted, "each count is 0"],
  ["one_kind", 5, "each slot of a class is exactly one of six", oneKind, "no page has a class"],
  ["keys", 5, "the state word agrees with the log about each key", keysAgree, "no key was issued"],
  ["finished", 5, "a marked slot without a pass on it has one that finishes it", finished, "no slot is marked"],
  ["held", 6, "a held key keeps its value, removed or not", held, "no pass has a hold"],
  ["linked", 8, "exactly one pass owes a link that is not written", owed, "each link is written"],
  ["armed", 9, "the duty to ring is at one place, if the page is armed", duty, "no page is armed"],
  ["owners", 11, "the owner word counts the pass that owns the shard", owners, "no shard was touched"],
];

/** A link to a section of docs/HOW-IT-WORKS.md. */
export function sectionLink(number, name) {
  const section = document.querySelector(`#sections a[data-number="${number}"]`);
  return Object.assign(el("a", "", name ?? section.textContent), {
    href: section.getAttribute("href"), title: section.textContent,
  });
}

/** A clause with its cases, each a text and whether it holds by the numbers shown. */
function clauseItem([name, section, says, of, none], sight) {
  const cases = of(sight).map(([text, holds]) => el("li", `case${holds ? "" : " broken"}`, text, holds ? "" : " (!)"));
  const head = el("p", "", sectionLink(section, name), ` – ${says}`);
  return el("li", "", head, el("ul", "cases", ...(cases.length ? cases : [el("li", "case", gloss(none))])));
}

export function facts(story, frame) {
  const log = repliesUpTo(story, frame).map(({ pass, answer }) => el("li", "", `pass ${pass} `, answer));
  const sight = sightOf(story, frame);
  const legal = el("p", "", sectionLink(12, "legal"), " – the replies in this order are a legal history");
  const entries = log.length ? log : [el("li", "", gloss("no reply yet"))];
  return [legal, el("ol", "log", ...entries), el("ul", "clauses", ...CLAUSES.map((one) => clauseItem(one, sight)))];
}
