// Elements of the page. A text goes into it as text alone, so that no trace can write markup. Each part of the page
// stays as high as the story ever needs it, so that nothing moves from one step to the next.

export const find = (id) => document.getElementById(id);

export function el(tag, name, ...children) {
  const made = document.createElement(tag);
  if (name) made.className = name;
  made.append(...children.filter((child) => child !== null));
  return made;
}

// Words of the page's own, which no trace has, and words for readers who hear the page.
export const gloss = (text) => el("span", "gloss", text);
export const heard = (text) => el("span", "gloss heard", text);

/** Marks an element as changed by the step, with what it was; null if it is as before. */
export function lit(element, was) {
  if (was === null) return element;
  element.classList.add("lit");
  element.title = `before: ${was || "nothing"}`;
  return element;
}

/** An element whose height is the same in all steps of a story. */
export function steady(element, key) {
  element.dataset.steady = key;
  return element;
}

/** An arrow to the right: of a link that is written (tied), of one that a pass owes (owed), or of a head (from). */
export function arrow(kind, by = "") {
  const says = { tied: " is linked to ", owed: " has no link yet to ", from: " leads to " }[kind];
  const picture = find("arrow").content.cloneNode(true);
  return el("span", `arrow ${kind}`, el("span", "by gloss", by), picture, heard(says));
}

// So many steps of a story are measured at most. In a longer one a part may grow once.
const MOST = 300;

const elements = (root) => [...root.querySelectorAll("[data-steady]")];

export function setHeights(root, heights) {
  for (const element of elements(root)) element.style.minHeight = `${heights.get(element.dataset.steady) ?? 0}px`;
}

/** The greatest height of each element over the steps: first of those inside others, then of those around them. */
export function measured(root, frames, draw) {
  const every = Math.ceil(frames.length / MOST);
  const heights = new Map();
  for (const frame of [...frames, ...frames].filter(({ number }) => number % every === 0)) {
    draw(frame);
    setHeights(root, heights);
    for (const element of elements(root)) {
      const key = element.dataset.steady;
      heights.set(key, Math.max(heights.get(key) ?? 0, Math.ceil(element.getBoundingClientRect().height)));
    }
  }
  return heights;
}
