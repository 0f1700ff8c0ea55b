// The stories of the page, and the step that is shown. The reader's own are among them.

import { find } from "./dom.js";
import { readTrace } from "./trace.js";

export const stories = new Map();
export const now = { name: "", step: 1, heights: new Map() };

export const current = () => stories.get(now.name);
export const shown = () => current().frames[now.step - 1];

/** Adds a story: its trace, and what is the same in all steps. `more` is what the trace does not say of it. */
export function addStory(name, text, more = {}) {
  const trace = readTrace(text);
  const { frames } = trace;
  const parts = [...frames.at(-1).parts.keys()].sort(new Intl.Collator("en", { numeric: true }).compare);
  const passes = new Set(frames.flatMap((frame) => [frame.pass, ...frame.passes.keys()]));
  if (!stories.has(name)) find("which").append(new Option(name, name));
  stories.set(name, {
    ...trace, title: trace.title || name, parts, passes: [...passes].sort((a, b) => a - b), start: 1, ...more,
  });
}

/** A name that no story has: this one, or this one with a number. */
export function freeName(name) {
  const names = [name, ...Array.from(stories, (_, at) => `${name} ${at + 2}`)];
  return names.find((one) => !stories.has(one));
}

/** Says that a button has nothing to do at this step, or something. It stays where the focus is. */
export function setDisabled(id, isDisabled) {
  find(id).setAttribute("aria-disabled", String(isDisabled));
}
