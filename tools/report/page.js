"use strict";
// Filters, searches and sorts what the page has; without it all is shown, in its order.
const one = (name) => document.getElementById(name);
const all = (what, from = document) => Array.from(from.querySelectorAll(what));
const texts = new Map();

// the text of a node in lower case, read when it is first asked for
function textOf(node) {
  if (!texts.has(node)) {
    texts.set(node, node.textContent.toLowerCase());
  }
  return texts.get(node);
}

const sections = all(".places").map((node) => ({ node, places: all("details", node).map((place) => ({
  node: place,
  grade: node.id,
  kind: ["other", "part"].find((it) => place.classList.contains(it)) || "whole",
  fix: place.classList.contains("suggested") ? "suggested" : "",
  cause: place.firstChild.children[3].textContent,
})) }));
const places = sections.flatMap((it) => it.places);
const sayings = all(".sayings").map((node) => ({ node, lines: all("details", node) }));
const rows = all("#entries tbody tr").map((node, order) => ({
  node, order, name: node.cells[0].textContent, verdict: node.className, faults: Number(node.cells[2].textContent),
}));
const unfolded = [];
let entry = null;

function show(node, isShown) {
  if (node.hidden === isShown) {
    node.hidden = !isShown;
  }
  return isShown;
}

// how many of a heading's lines are shown, if not all
function mark(heading, count, whole) {
  if (count === whole) {
    delete heading.dataset.shown;
  } else {
    heading.dataset.shown = count.toLocaleString("en");
  }
}

// whether a line names the entry among those that it concerns
function concerns(node) {
  return entry === null || all("footer", node).some((it) => `, ${it.textContent}, `.includes(`, ${entry}, `));
}

function filter() {
  const words = one("search").value.toLowerCase().split(" ").filter(Boolean);
  const cause = one("cause").value;
  const has = (node) => words.every((word) => textOf(node).includes(word)) && concerns(node);
  const asked = ["grade", "kind", "fix"].map((group) => [group, all(`[name=${group}]:checked`).map((it) => it.value)])
    .filter(([, values]) => values.length);
  const isWanted = (it) => (!cause || it.cause === cause) && asked.every(([group, values]) => values.includes(it[group]));
  let count = 0;
  for (const section of sections) {
    const found = section.places.filter((it) => show(it.node, isWanted(it) && has(it.node))).length;
    show(section.node, found > 0);
    mark(section.node.firstChild, found, section.places.length);
    count += found;
  }
  for (const said of sayings) {
    const found = said.lines.filter((it) => show(it, has(it))).length;
    show(said.node, found > 0);
    mark(said.node.firstChild, found, said.lines.length);
  }
  one("shown").value = `${count.toLocaleString("en")} of ${places.length.toLocaleString("en")} places`;
  show(one("entry"), entry !== null);
  one("entry").textContent = entry === null ? "" : `of ${entry} \u2715`;
}

function list() {
  const verdict = one("verdict").value;
  const found = rows.filter((row) => show(row.node, !verdict || row.verdict === verdict)).length;
  one("listed").value = `${found.toLocaleString("en")} of ${rows.length.toLocaleString("en")} entries`;
}

const orders = {
  order: (a, b) => a.order - b.order,
  name: (a, b) => (a.name < b.name ? -1 : a.name > b.name ? 1 : a.order - b.order),
  verdict: (a, b) => (a.verdict < b.verdict ? -1 : a.verdict > b.verdict ? 1 : a.order - b.order),
  faults: (a, b) => b.faults - a.faults || a.order - b.order,
};

function sort() {
  rows.sort(orders[one("sort").value]);
  document.querySelector("#entries tbody").append(...rows.map((row) => row.node));
}

// what places share is put where it is looked at
function fill(place) {
  const link = place.querySelector('a[href^="#t"]');
  if (link) {
    link.replaceWith(...Array.from(one(link.hash.slice(1)).children, (it) => it.cloneNode(true)));
  }
}

// the names of entries lead to their places
function linkEntries() {
  if (!document.querySelector("#entries tbody a")) {
    for (const { node, name } of rows.filter((row) => row.faults)) {
      const link = document.createElement("a");
      link.href = "#tools";
      link.textContent = name;
      link.addEventListener("click", () => { entry = name; filter(); });
      node.cells[0].replaceChildren(link);
    }
  }
}

// a link to a place that is filtered away shows all again
function follow() {
  const target = one(location.hash.slice(1));
  if (target && target.localName === "details") {
    if (target.closest("[hidden]")) {
      one("tools").reset();
      filter();
    }
    target.open = true;
    target.scrollIntoView();
  }
}

// what is printed is unfolded meanwhile, in browsers whose styles can't do it
function unfold() {
  for (const place of all(".broken details:not([open]), .contradicts details:not([open])")) {
    place.open = true;
    unfolded.push(place);
  }
}

function choices() {
  const counts = new Map();
  for (const { cause } of places) {
    counts.set(cause, (counts.get(cause) || 0) + 1);
  }
  for (const [cause, count] of Array.from(counts).sort(([, a], [, b]) => b - a)) {
    one("cause").append(new Option(`${cause} (${count.toLocaleString("en")})`, cause));
  }
}

choices();
one("search").addEventListener("input", filter);
one("cause").addEventListener("change", filter);
for (const box of all(".tile input")) {
  box.addEventListener("change", filter);
}
one("entry").addEventListener("click", () => { entry = null; filter(); one("search").focus(); });
one("tools").addEventListener("submit", (event) => event.preventDefault());
// the fields have their first values only after the event
one("tools").addEventListener("reset", () => { one("search").value = ""; entry = null; setTimeout(filter); });
one("verdict").addEventListener("change", list);
one("sort").addEventListener("change", sort);
one("entries").addEventListener("toggle", linkEntries);
document.addEventListener("toggle", ({ target }) => {
  if (target.open && target.closest(".places")) {
    fill(target);
  }
}, true);
addEventListener("beforeprint", unfold);
addEventListener("afterprint", () => unfolded.splice(0).forEach((place) => { place.open = false; }));
addEventListener("hashchange", follow);
document.body.classList.add("js");
one("tools").hidden = one("sorting").hidden = false;
if (one("shared")) {
  one("shared").hidden = true;
}
filter();
list();
follow();
