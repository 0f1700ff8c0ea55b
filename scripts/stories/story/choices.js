// What each pass can do next. The page proposes events on all that the trace has shown, and the program script_trace,
// which the page has as WebAssembly, says of each what it does. A run does a script from its first line, as the same
// script always has the same trace. An event that is skipped changes nothing, so one run tries them in a row up to the
// first that is not. No step is worked out by the page itself.

import { find } from "./dom.js";
import { partsOf, repliesUpTo, slotsOf } from "./trace.js";

// The events of a script, each with its words in a sentence.
export const FORMS = Object.assign({}, ...Object.values(JSON.parse(find("events").textContent)));
// Not more shards are tried.
const SHARDS = 4;

export function shapeOf(story) {
  const [, , shards, , passes] = story.header.find((line) => line.startsWith("heap ")).split(" ").map(Number);
  return { shards, passes };
}

export function isNext(story, frame, pass, event) {
  const next = story.frames[frame.number];
  return next?.pass === pass && next.event.join(" ") === event;
}

const range = (length) => Array.from({ length }, (_, at) => String(at));

/** What can come in each place of an event: the keys, pages and slots that the trace has shown, and the next page of
    each shard. `value` is what a Fill would store. */
function known(story, frame, value) {
  const replies = repliesUpTo(story, frame).map(({ answer }) => answer.split(" "));
  const inserts = replies.filter(([kind]) => kind === "Insert");
  const shards = range(Math.min(shapeOf(story).shards, SHARDS));
  const shown = partsOf(frame, "page");
  const pages = shown.map(({ number }) => number);
  const fresh = shards.map((shard) => `${shard}.${pages.filter((page) => page.startsWith(`${shard}.`)).length}`);
  return {
    SHARD: shards, PAGE: [...pages, ...fresh], CLASS: range(8).reverse(), "WORD ..": [value],
    SLOT: shown.flatMap(slotsOf).map(({ at }) => at), KEY: inserts.map(([, key]) => key),
    PART: range(Math.max(...inserts.map(([, , length]) => Number(length))) + 2),
  };
}

/** The events of a form, with all that can come in its places. */
function filled(form, places) {
  const place = Object.keys(places).find((one) => form.includes(one));
  return place ? places[place].flatMap((it) => filled(form.replace(place, it), places)) : [form.trim()];
}

/** The events that the pass can do next, each with its answer. The one of the story is the first. */
export function possible(core, story, frame, pass, value) {
  const lines = story.lines.slice(0, frame.lines);
  const { length } = core(lines).trace;
  const places = known(story, frame, value);
  const events = Object.keys(FORMS).flatMap((form) => filled(form, places));
  const next = story.frames[frame.number]?.event.join(" ");
  const found = [];
  let left = [...new Set(isNext(story, frame, pass, next) ? [next, ...events] : events)];
  while (left.length) {
    const { trace } = core([...lines, ...left.map((event) => `${pass} ${event}`)]);
    const answers = [...trace.slice(length).matchAll(/^\d+ \w+ (.*)$/gm)].map(([, answer]) => answer);
    const at = answers.findIndex((answer) => !answer.startsWith("skipped"));
    if (at < 0) break;
    found.push({ event: left[at], answer: answers[at] });
    left = left.slice(at + 1);
  }
  return found;
}

function faultOf(text) {
  const [, cause, line, inLine] = /^script_trace: fault \d+ (\w+)(?: line (\d+) (\w+))?/.exec(text) ?? [];
  return line ? `line ${line}: ${inLine}` : cause ?? text.trim();
}

/** A run over these lines: their trace, and the fault if there is one. Input and output are bytes of its memory. */
function runOf(module, lines) {
  const input = new TextEncoder().encode(lines.map((line) => `${line}\n`).join(""));
  const written = ["", "", ""];
  const decoder = new TextDecoder();
  let at = 0;
  const read = (_, to, size) => {
    const part = input.subarray(at, at + Number(size));
    new Uint8Array(memory.buffer, to, part.length).set(part);
    at += part.length;
    return BigInt(part.length);
  };
  const write = (to, from, size) => {
    written[to] += decoder.decode(new Uint8Array(memory.buffer, from, Number(size)));
    return size;
  };
  const { memory, run } = new WebAssembly.Instance(module, { env: { read, write } }).exports;
  try {
    run();
  } catch (error) {
    return { trace: "", fault: error.message };
  }
  return { trace: written[1], fault: faultOf(written[2]) };
}

/** Opens the program of a page: a function that runs it over the lines of a script. */
export async function openCore(text) {
  const packed = Uint8Array.from(atob(text.trim()), (letter) => letter.charCodeAt(0));
  const stream = new Blob([packed]).stream().pipeThrough(new DecompressionStream("gzip"));
  const module = await WebAssembly.compile(await new Response(stream).arrayBuffer());
  return (lines) => runOf(module, lines);
}
