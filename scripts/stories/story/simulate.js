// The simulator: the reader chooses whose next step is done. From a story that makes a script of the reader's own. It
// has the lines of the story up to the step, and then the steps that were chosen.

import { isNext, openCore, possible, shapeOf } from "./choices.js";
import { el, find, gloss } from "./dom.js";
import { chip } from "./lanes.js";
import { addStory, current, freeName, now, setDisabled, shown, stories } from "./stories.js";

const LEFT = "; From here on the reader chose the steps.";
// So many events of a kind are shown at once.
const SHOWN = 3;

const simulator = { core: null, show: null, round: 0, passToFocus: null };

const isOpen = () => find("choose").open && simulator.core !== null;

/** Does these lines, as the reader's own script of this name, and shows its last step. `from` is where it began. */
function doLines(name, lines, from) {
  const { trace, fault } = simulator.core?.(lines) ?? { fault: "this browser does not run the program of the page" };
  find("fault").textContent = "";
  try {
    if (fault) throw new Error(fault);
    addStory(name, trace, { isOwn: true, from });
  } catch (error) {
    find("fault").textContent = `The script is not done: ${error.message}`;
    return;
  }
  simulator.show(name, stories.get(name).frames.length);
}

/** The name of what the reader does: that of the story, if it is the reader's own. */
const ownName = () => (current().isOwn ? now.name : freeName("mine"));

/** Does the event that the reader chose. The story's own next event goes on with the story. */
function choose(pass, event) {
  const story = current();
  simulator.passToFocus = pass;
  if (isNext(story, shown(), pass, event)) {
    simulator.show(now.name, now.step + 1);
    return;
  }
  const lines = [...story.lines.slice(0, shown().lines), ...(story.isOwn ? [] : [LEFT]), `${pass} ${event}`];
  doLines(ownName(), lines, story.from ?? { name: now.name, step: now.step });
}

export function undo() {
  const { isOwn, frames, lines, from } = current();
  if (isOpen() && isOwn && frames.length > 1) doLines(now.name, lines.slice(0, frames.at(-2).lines), from);
}

export function doScript(name, text, from) {
  doLines(name, text.trimEnd().split("\n").map((line) => line.trimEnd()), from);
  find("choose").open = true;
}

function choice(pass, { event, answer }) {
  const made = chip("button", event, answer);
  if (isNext(current(), shown(), pass, event)) {
    made.classList.add("next-of-story");
    made.title = "the next step of this story";
  }
  made.addEventListener("click", () => choose(pass, event));
  return made;
}

/** What a pass can do. Of each kind of event those beyond the first few are shown when they are asked for. */
function choiceRow(pass, events) {
  const kindOf = ({ event }) => /^(?:Enter )?\w+/.exec(event)[0];
  const items = [...new Set(events.map(kindOf))].flatMap((kind) => {
    const chips = events.filter((one) => kindOf(one) === kind).map((one) => choice(pass, one));
    const rest = chips.splice(SHOWN);
    const more = el("details", "more", el("summary", "", `${rest.length} more ${kind}`), ...rest);
    return rest.length ? [...chips, more] : chips;
  });
  const chips = el("div", "chips", ...(items.length ? items : [gloss("nothing")]));
  const row = el("div", "choices", el("h3", "", `pass ${pass}`), chips);
  row.dataset.pass = pass;
  return row;
}

/** Draws what each pass can do next. If another step is shown meanwhile, it ends. */
async function drawChoices() {
  simulator.round += 1;
  const { core, round, passToFocus } = simulator;
  const value = find("value").validity.valid ? find("value").value : "";
  const rows = [];
  find("choices").setAttribute("aria-busy", "true");
  for (let pass = 0; pass < shapeOf(current()).passes; pass += 1) {
    await new Promise((done) => window.setTimeout(done, 0));
    if (round !== simulator.round) return;
    rows.push(choiceRow(String(pass), possible(core, current(), shown(), String(pass), value)));
  }
  find("choices").replaceChildren(...rows);
  find("choices").setAttribute("aria-busy", "false");
  document.querySelector(`#choices [data-pass="${passToFocus}"] .chip`)?.focus();
  simulator.passToFocus = null;
}

export function drawSimulator() {
  const { isOwn, from, frames, lines } = current();
  setDisabled("undo", !isOwn || frames.length === 1);
  setDisabled("again", !from);
  find("script").value = lines.map((line) => `${line}\n`).join("");
  if (isOpen()) drawChoices();
}

export async function startSimulator(show) {
  simulator.show = show;
  const acts = {
    undo, again: () => current().from && simulator.show(current().from.name, current().from.step),
    fresh: () => doScript(freeName("mine"), find("fresh-lines").textContent),
    "do-lines": () => doScript(ownName(), find("script").value, current().from),
  };
  for (const [id, act] of Object.entries(acts)) find(id).addEventListener("click", act);
  find("value").addEventListener("change", drawSimulator);
  find("choose").addEventListener("toggle", drawSimulator);
  try {
    simulator.core = await openCore(find("program").textContent);
    document.documentElement.dataset.program = "ready";
    drawSimulator();
  } catch (error) {
    document.documentElement.dataset.program = "none";
    find("choices").replaceChildren(`This browser does not run the program of the page: ${error.message}`);
  }
}
