// What a reader sees of a step on the page, for scripts/stories/story-checks, which runs this as one expression. It is
// no part of the page. Words of the page's own (gloss) are left out, and an arrow is what the trace writes for it.
(() => {
  "use strict";

  const ARROWS = { owed: " ~> ", tied: " -> ", from: "" };

  function raw(node) {
    if (node.nodeType === Node.TEXT_NODE) return node.data;
    if (node.classList.contains("gloss")) return "";
    const kind = Object.keys(ARROWS).find((name) => node.matches(`.arrow.${name}`));
    return kind ? ARROWS[kind] : [...node.childNodes].map(raw).join("");
  }

  const bare = (text) => text.replace(/\s+/g, " ").trim();
  const said = (node) => bare(raw(node));
  const all = (root, selector) => [...root.querySelectorAll(selector)];
  const texts = (root, selector) => all(root, selector).map(said);
  const text = (id) => document.getElementById(id).textContent;
  const label = (card) => card.getAttribute("aria-label");

  /** The words of a part by its rows: its own, those of each slot, and its lists. `lit` is "" or ".lit". */
  function rows(card, lit) {
    const slots = all(card, ".slot").map((slot) => (
      [texts(slot, ".number")[0], texts(slot, ["kind", "generation", "count", "rest"].map((one) => `.${one}${lit}`))]
    ));
    const lists = all(card, ".links").map((row) => [texts(row, ".name")[0], texts(row, `.list${lit}`)]);
    return [["", texts(card, `.about${lit}`)], ...slots, ...lists];
  }

  function part(card) {
    return {
      age: bare(card.querySelector(".age")?.textContent ?? ""),
      rows: rows(card, ""),
      lit: rows(card, ".lit").filter(([, words]) => words.length),
      outlined: texts(card, ".slot.changed .number"),
      owing: all(card, ".arrow.owed").map((arrow) => bare(arrow.querySelector(".by").textContent)),
    };
  }

  function pass(card) {
    return {
      text: texts(card, "dd").filter(Boolean).join(" "),
      acts: card.classList.contains("acts"),
      changed: card.classList.contains("changed"),
    };
  }

  /** The places of all that must not move. */
  function places() {
    const boxes = all(document, "#heap .card, #passes .card").flatMap((card) => {
      const name = label(card);
      const kind = said(card.querySelector(".about") ?? card).split(";")[0];
      return [[name, card], ...all(card, ".slot").map((slot, at) => [`${name} (${kind}), box ${at}`, slot])];
    });
    const fixed = ["told", "heap", "passes", "lanes", "slider", "next"].map((id) => [id, document.getElementById(id)]);
    return Object.fromEntries([...fixed, ...boxes].map(([key, node]) => {
      const { left, top, width, height } = node.getBoundingClientRect();
      return [key, [left, top + window.scrollY, width, height].map(Math.round).join(" ")];
    }));
  }

  /** What is wider than the place it has. */
  function wide() {
    const boxes = all(document, ".card:not(#lanes), .slot, .list, .links, dd, .chip, .line, .sentence, nav, header");
    const over = boxes.filter((node) => node.scrollWidth > node.clientWidth + 1 && node.clientWidth > 0);
    const { scrollWidth } = document.scrollingElement;
    return [...(scrollWidth > window.innerWidth ? ["the page"] : []), ...over.map(said)];
  }

  return {
    title: text("title"),
    header: text("header"),
    place: text("place"),
    comment: said(document.querySelector("#told .beat")),
    line: said(document.querySelector("#told .line")),
    sentence: said(document.querySelector("#told .sentence")),
    changes: texts(document, "#told .changes li"),
    parts: Object.fromEntries(all(document, "#heap .card").map((card) => [label(card), part(card)])),
    passes: Object.fromEntries(all(document, "#passes .card").map((card) => [label(card).split(" ")[1], pass(card)])),
    rows: texts(document, "#lanes tbody tr.step"),
    here: texts(document, "#lanes tr[aria-current] th"),
    broken: texts(document, ".case.broken"),
    places: places(),
    wide: wide(),
    odd: /undefined|null|NaN|\[object/.exec(document.body.innerText)?.[0] ?? "",
  };
})()
