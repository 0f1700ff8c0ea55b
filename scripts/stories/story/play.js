// Shows the stories: picks one, steps through it, and keeps the step in the address of the page.

import { facts, sectionLink } from "./clauses.js";
import { arrow, find, measured, setHeights } from "./dom.js";
import { heapCards, passCards } from "./heap.js";
import { lanesTable, markStep } from "./lanes.js";
import { doScript, drawSimulator, startSimulator, undo } from "./simulate.js";
import { addStory, current, freeName, now, setDisabled, shown, stories } from "./stories.js";
import { told } from "./told.js";

function drawParts(frame) {
  find("told").replaceChildren(...told(current(), frame));
  find("heap").replaceChildren(...heapCards(current(), frame));
  find("passes").replaceChildren(...passCards(current(), frame));
}

function draw() {
  const count = current().frames.length;
  const place = `step ${now.step} of ${count}`;
  drawParts(shown());
  setHeights(document, now.heights);
  Object.assign(find("slider"), { max: count, value: now.step });
  find("slider").setAttribute("aria-valuetext", place);
  find("place").textContent = place;
  for (const id of ["first", "back"]) setDisabled(id, now.step === 1);
  for (const id of ["next", "last"]) setDisabled(id, now.step === count);
  markStep(find("lanes"), now.step);
  if (find("facts").open) find("said").replaceChildren(...facts(current(), shown()));
  drawSimulator();
}

/** Goes to a step of the story, or to the nearest that it has. */
function go(step) {
  now.step = Math.max(1, Math.min(current().frames.length, step));
  draw();
  window.history.replaceState(null, "", `#${encodeURIComponent(now.name)}/${now.step}`);
}

function show(name, step) {
  now.name = name;
  const { title, header, section } = current();
  find("which").value = name;
  find("title").textContent = title;
  find("header").textContent = header.join("; ");
  find("section").replaceChildren(...(section ? ["Explained in ", sectionLink(section)] : []));
  find("lanes").replaceChildren(lanesTable(current(), go));
  find("lanes").style.setProperty("--seen", `${find("lanes").clientWidth}px`);
  now.heights = measured(find("stage"), current().frames, drawParts);
  go(step);
}

async function openFile(event) {
  const [file] = event.target.files;
  if (!file) return;
  const name = freeName(file.name.replace(/\.(trace|script)$/, ""));
  const text = await file.text();
  find("fault").textContent = "";
  if (/^heap /m.test(text)) {
    doScript(name, text);
    return;
  }
  try {
    addStory(name, text);
    show(name, 1);
  } catch (error) {
    find("fault").textContent = `${file.name} is no trace of script_trace: ${error.message}`;
  }
}

function onKey(event) {
  const act = { ArrowRight: () => go(now.step + 1), ArrowLeft: () => go(now.step - 1), u: undo }[event.key];
  const isTyped = event.target.matches("input:not([type=range]), select, textarea");
  if (!act || isTyped || event.altKey || event.ctrlKey || event.metaKey) return;
  event.preventDefault();
  act();
}

function goToHash() {
  const [name, step] = window.location.hash.slice(1).split("/").map(decodeURIComponent);
  const known = stories.has(name) ? name : stories.keys().next().value;
  show(known, Number(step) || stories.get(known).start);
}

function listen() {
  const acts = {
    first: () => go(1), back: () => go(now.step - 1), next: () => go(now.step + 1),
    last: () => go(current().frames.length),
  };
  for (const [id, act] of Object.entries(acts)) find(id).addEventListener("click", act);
  find("slider").addEventListener("input", (event) => go(Number(event.target.value)));
  find("which").addEventListener("change", (event) => show(event.target.value, stories.get(event.target.value).start));
  find("file").addEventListener("change", openFile);
  find("facts").addEventListener("toggle", draw);
  document.addEventListener("keydown", onKey);
  window.addEventListener("hashchange", goToHash);
}

/** Measures anew when the window has another width, once that stays for a moment. */
function watchWidth() {
  let width = window.innerWidth;
  let timer = null;
  window.addEventListener("resize", () => {
    if (window.innerWidth === width) return;
    width = window.innerWidth;
    window.clearTimeout(timer);
    timer = window.setTimeout(() => show(now.name, now.step), 150);
  });
}

for (const element of document.querySelectorAll("pre[data-trace]")) {
  const { trace, start, section } = element.dataset;
  addStory(trace, element.textContent, { start: Number(start), section });
}
find("tied").append(arrow("tied"));
find("owed").append(arrow("owed", "pass 1 owes"));
listen();
watchWidth();
goToHash();
startSimulator(show);
