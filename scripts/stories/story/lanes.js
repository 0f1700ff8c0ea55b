// Draws all events of a story, with a lane for each pass. The bar of a lane says that the pass is inside a call, or
// holds a key, as the trace says of it after the event.

import { el } from "./dom.js";

function barOf(pass) {
  if (pass?.has.some((word) => word.startsWith("holds"))) return "hold";
  return pass && pass.hand !== "idle" ? "call" : "";
}

/** An event as a box, with what it was answered, if that says something. */
export function chip(tag, event, answer) {
  const reply = { moved: "", "moved:": answer.replace(/^\S+ /, "") }[answer.split(" ")[0]] ?? answer;
  return el(tag, "chip", el("span", "event", event), ...(reply ? [" ", el("span", "reply", reply)] : []));
}

/** The chip of a frame. Of an answer it has what the lane has room for. */
function chipOf({ event, answer }) {
  const [word] = answer.split(" ");
  const made = chip("div", event.join(" "), word.startsWith("moved") ? answer : word.replace(":", ""));
  made.classList.toggle("skipped", word === "skipped:");
  return made;
}

function rowsOf(frame, passes, onPick) {
  const cells = passes.map((number) => (
    el("td", barOf(frame.passes.get(number)), number === frame.pass ? chipOf(frame) : null)
  ));
  const row = el("tr", "step", el("th", "", String(frame.number)), ...cells);
  row.addEventListener("click", () => onPick(frame.number));
  if (!frame.comment) return [row];
  const comment = el("td", "beat", el("div", "", frame.comment));
  comment.colSpan = passes.length + 1;
  return [el("tr", "", comment), row];
}

/** The table of the events. Its rows are made once for a story. */
export function lanesTable({ frames, passes }, onPick) {
  const heads = passes.map((number) => el("th", "", `pass ${number}`));
  const head = el("thead", "", el("tr", "", el("th", "", "step"), ...heads));
  const table = el("table", "", head, el("tbody", "", ...frames.flatMap((frame) => rowsOf(frame, passes, onPick))));
  table.style.setProperty("--lanes", passes.length);
  return table;
}

/** Marks the row of the step, and scrolls the lanes, not the page, until it is seen. */
export function markStep(box, step) {
  const rows = [...box.querySelectorAll("tr.step")];
  rows.forEach((row, at) => {
    row.classList.toggle("later", at + 1 > step);
    row.ariaCurrent = at + 1 === step ? "step" : null;
  });
  const row = rows[step - 1];
  const { parentElement: cell } = row.querySelector(".chip");
  const room = box.querySelector("thead").offsetHeight + row.offsetHeight * 2;
  const within = (now, start, end, size) => Math.max(Math.min(now, Math.max(0, start)), end - size);
  box.scrollTop = within(box.scrollTop, row.offsetTop - room, row.offsetTop + room, box.clientHeight);
  box.scrollLeft = within(box.scrollLeft, cell.offsetLeft - cell.offsetWidth, cell.offsetLeft + cell.offsetWidth,
    box.clientWidth);
}
