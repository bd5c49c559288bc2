// Answers as one types, and keys. Where a server has written the page, it works by its form without this file.
//
// The script before it has put an `engine` into the page, which has
//   home, mark           what stands in an address before the fields of a query: "./" and "?", or "" and "#" where no server reads it
//   stats(signal)        how many `documents` and `words` there are
//   ask(fields, signal)  the answers to the query `q` in an `order` from `begin` on: how many were `found`, the `rows`, and where the
//                        `following` page begins; `hints` where the engine knows what of the query means something else elsewhere
//   shown(fields, signal)  the document of an answer whose link leads into this page; only where there is no server
//   failed(address, fault)  what to do where it can't be asked
// In place of what is asked for may come a `fault`, with its `place` in the bytes of the query, or null.
// A row has a `title`, a `link` that may be empty, `facts`, a `score` or null, a `line`, the `kind` of the document, and a `snippet` of
// texts, each of which is `marked` or not. Every text goes into the page as a text, never as HTML.
"use strict";

const WAIT = 150; // milliseconds without a key, before the query is asked
const box = document.getElementById("q");
const order = document.getElementById("order");
const NAME = document.querySelector(".home").textContent;
let waiting = 0;
let asking = null; // what is asked for now, and is not there yet
let asked = null; // the address that was asked for last, there or on its way; null where it could not be had

// --- Elements.

// What no document may have, as `markup.py` says.
const FORBIDDEN = /[\0-\x08\x0b\x0c\x0e-\x1f\x7f-\x9f\ud800-\udfff\ufffe\uffff]/gu;

function element(name, attributes, ...content) {
  const made = document.createElement(name);
  for (const [key, value] of Object.entries(attributes)) made.setAttribute(key, value);
  made.append(...content.map((part) => (typeof part === "string" ? part.replace(FORBIDDEN, "\ufffd") : part)));
  return made;
}

const several = (number, word) => `${number.toLocaleString("en-US")} ${word}${number === 1 ? "" : "s"}`;
const pieces = (snippet) => snippet.map((piece) => (piece.marked ? element("mark", {}, piece.text) : piece.text));

function answer(row) {
  const title = row.link ? element("a", { href: row.link }, row.title) : row.title;
  const facts = row.score === null ? row.facts : [...row.facts, `score ${row.score.toLocaleString("en-US")}`];
  const parts = [element("h2", {}, title), element("p", { class: "facts" }, facts.join(" · "))];
  const front = element("span", { class: "number" }, row.kind === "folder" ? `${row.line}: ` : "");
  if (row.snippet.length) parts.push(element("p", { class: "snippet" }, front, ...pieces(row.snippet)));
  return element("li", { class: "answer" }, ...parts);
}

function answers(found, fields) {
  const parts = [element("p", { class: "count" }, several(found.found, "document"))];
  parts.push(...(found.hints || []).map((hint) => element("p", { class: "hint" }, hint)));
  if (found.rows.length) parts.push(element("ol", { class: "answers" }, ...found.rows.map(answer)));
  else parts.push(element("p", {}, "No document has that."));
  if (found.following) {
    const href = addressOf({ q: fields.q, order: fields.order, begin: found.following });
    parts.push(element("p", {}, element("a", { href, rel: "next", class: "next" }, "Next page")));
  }
  return parts;
}

// A text on a line and a mark on the next, under the character at this byte of its UTF-8, as `marked` of texts.py has it.
const NEAR = 60; // characters before and behind the mark that are shown
const NARROW = /[\p{Mn}\p{Me}\u1160-\u11ff]/u;
const WIDE = /[\u1100-\u115f\u2e80-\u303e\u3041-\ua4cf\ua960-\ua97c\uac00-\ud7a3\uf900-\ufaff\ufe30-\ufe6f\uff01-\uff60\uffe0-\uffe6\u{1f300}-\u{1f64f}\u{1f680}-\u{1f6ff}\u{1f900}-\u{1f9ff}\u{20000}-\u{3fffd}]/u;

function marked(text, place) {
  const bytes = new TextEncoder().encode(text);
  let [before, after] = [bytes.slice(0, place), bytes.slice(place)].map((part) => [...new TextDecoder().decode(part)]);
  if (before.length > NEAR) before = [..."...", ...before.slice(3 - NEAR)];
  if (after.length > NEAR) after = [...after.slice(0, NEAR - 3), ..."..."];
  const columns = before.reduce((sum, one) => sum + (NARROW.test(one) ? 0 : WIDE.test(one) ? 2 : 1), 0);
  return `  ${before.join("")}${after.join("")}\n  ${" ".repeat(columns)}^`;
}

function fault(found, query) {
  const parts = [element("p", { class: "fault" }, found.fault)];
  if (found.place !== null) parts.push(element("pre", { class: "fault" }, marked(query, found.place)));
  return parts;
}

function welcome(stats) {
  return [element("p", { class: "count" }, `${several(stats.documents, "document")}, ${several(stats.words, "word")}`)];
}

// A whole document, as an engine without a server has it.
function whole(found) {
  const rows = found.fields.map(([name, value]) => element("tr", {}, element("th", {}, name), element("td", {}, value)));
  const lines = found.lines.map((line, at) =>
    element("span", { class: at + 1 === found.best ? "line best" : "line" }, ...pieces(line), "\n"));
  const kind = found.kind === "folder" ? "text numbered" : "text message";
  const parts = [element("h1", {}, found.title), element("table", { class: "fields" }, ...rows), element("pre", { class: kind }, ...lines)];
  if (found.cut) parts.push(element("p", { class: "fault" }, "It has more text than is kept here."));
  return parts;
}

// --- What is shown.

// The address of the page of these fields.
function addressOf(fields) {
  const said = new URLSearchParams();
  for (const [name, value] of Object.entries(fields)) {
    if (value && !(name === "order" && value === "best" && !fields.begin)) said.set(name, value);
  }
  const text = said.toString();
  return text ? engine.home + engine.mark + text : engine.home || engine.mark;
}

// The fields of the page's own address.
function fieldsOfAddress() {
  return Object.fromEntries(new URLSearchParams(engine.mark === "#" ? location.hash.slice(1) : location.search));
}

// Of the fields the main part of their page, and its title.
async function page(fields, signal) {
  if (fields.document) {
    const found = await engine.shown(fields, signal);
    return "fault" in found ? [fault(found, fields.q), NAME] : [whole(found), `${found.title} - ${NAME}`];
  }
  const found = await (fields.q ? engine.ask(fields, signal) : engine.stats(signal));
  if ("fault" in found) return [fault(found, fields.q), NAME];
  return fields.q ? [answers(found, fields), `${fields.q} - ${NAME}`] : [welcome(found), NAME];
}

function put(parts, title) {
  document.getElementById("main").replaceChildren(...parts);
  document.title = title;
}

// Puts what these fields ask for into the page: what was asked last wins.
async function show(fields) {
  const address = addressOf(fields);
  if (asking) asking.abort();
  const mine = new AbortController();
  asking = mine;
  asked = address;
  document.body.classList.add("asking");
  try {
    const [parts, title] = await page(fields, mine.signal);
    if (asking !== mine) return;
    put(parts, title);
    document.querySelector(".line.best")?.scrollIntoView({ block: "center" });
  } catch (reason) {
    if (asking !== mine || reason.name === "AbortError") return;
    asked = null;
    engine.failed(address, reason);
  } finally {
    if (asking === mine) {
      asking = null;
      document.body.classList.remove("asking");
    }
  }
}

function fieldsOfForm() {
  return { q: box.value.trim(), order: order.value };
}

// Asks what stands in the box, and keeps its address: what is typed takes the place of what was typed before.
function ask() {
  clearTimeout(waiting);
  const fields = fieldsOfForm();
  if (addressOf(fields) === asked) return;
  history.replaceState(null, "", addressOf(fields));
  show(fields);
}

// Shows what the address asks for.
function take() {
  const fields = fieldsOfAddress();
  box.value = fields.q ?? "";
  order.value = fields.order === "newest" ? "newest" : "best";
  scrollTo(0, 0);
  show({ ...fields, q: box.value.trim(), order: order.value });
}

box.addEventListener("input", () => {
  clearTimeout(waiting);
  waiting = setTimeout(ask, WAIT);
});
order.addEventListener("change", ask);
document.getElementById("form").addEventListener("submit", (event) => {
  event.preventDefault();
  history.pushState(null, "", addressOf(fieldsOfForm()));
  asked = null;
  ask();
});
// A server has the page of each of its addresses.
if (engine.mark === "?") addEventListener("popstate", () => location.reload());
else addEventListener("hashchange", take);

// --- Keys.

// The links of the answers, and the one that has the focus.
function links() {
  return [...document.querySelectorAll(".answer h2 a, a.next")];
}

function step(by) {
  const all = links();
  const at = all.indexOf(document.activeElement);
  const next = at + by;
  if (next < 0) box.focus();
  else if (next < all.length) all[next].focus();
}

addEventListener("keydown", (event) => {
  if (event.ctrlKey || event.metaKey || event.altKey) return;
  const typing = event.target === box || event.target === order;
  const key = event.key;
  if (key === "Escape") {
    box.focus();
    box.select();
  } else if (key === "ArrowDown" && event.target !== order) step(1);
  else if (key === "ArrowUp" && event.target !== order) step(-1);
  else if (!typing && key === "j") step(1);
  else if (!typing && key === "k") step(-1);
  else if (!typing && key === "/") box.focus();
  else return;
  event.preventDefault();
});

// A page that no server has written shows what its address asks for.
if (engine.mark === "#") take();
// The caret stands behind what was asked, where one would go on.
box.setSelectionRange(box.value.length, box.value.length);
