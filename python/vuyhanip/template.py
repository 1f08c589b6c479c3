"""The page that the verb page writes, around what is said of a file, with its script and its looks."""

TEMPLATE = r"""<!doctype html>
<html lang="en">
<head>
<meta charset="utf-8">
<meta http-equiv="Content-Security-Policy"
  content="default-src 'none'; style-src {{style}}; script-src {{script}}">
<meta name="viewport" content="width=device-width">
<title>{{title}}</title>
<style>
  :root { --row: 18px; --back: #fff; --text: #1b1f24; --faint: #6a737d; --line: #d8dee4; --head: #ffd8a8;
    --inside: #d0ebff; --found: #fff3bf; --bad: #fa5252; }
  @media (prefers-color-scheme: dark) {
    :root { --back: #16191d; --text: #e6e8eb; --faint: #8b949e; --line: #343a40; --head: #8a4b08; --inside: #0b4f7d;
      --found: #665200; --bad: #e03131; }
  }
  * { box-sizing: border-box; }
  body { margin: 0; height: 100vh; display: flex; flex-direction: column; background: var(--back); color: var(--text);
    font: 13px/var(--row) system-ui, sans-serif; }
  header { padding: 8px 12px; border-bottom: 1px solid var(--line); display: flex; flex-wrap: wrap; gap: 6px 14px;
    align-items: center; }
  h1 { font-size: 14px; margin: 0; overflow-wrap: anywhere; }
  #said.bad { color: var(--bad); font-weight: 600; }
  header input { font: inherit; width: 16em; padding: 2px 6px; }
  header button { font: inherit; padding: 2px 8px; }
  #count { color: var(--faint); min-width: 6em; }
  main { flex: 1; min-height: 0; display: flex; }
  .pane { overflow: auto; position: relative; font-family: ui-monospace, "DejaVu Sans Mono", monospace; font-size: 12px;
    outline-offset: -2px; }
  #tree { flex: 1 1 50%; border-right: 1px solid var(--line); }
  #octets { flex: 0 0 auto; width: 84ch; }
  .all { position: relative; }
  .row { position: absolute; left: 0; right: 0; height: var(--row); white-space: pre; padding-left: 8px;
    cursor: default; }
  #tree .row { min-width: max-content; padding-right: 12px; }
  .fold { display: inline-block; width: 1.2em; cursor: pointer; text-align: center; color: var(--faint); }
  .at { color: var(--faint); display: inline-block; width: 5.5em; text-align: right; padding-right: 1em; }
  .is-head { background: var(--head); }
  .is-inside { background: var(--inside); }
  .row.is-over { background: var(--inside); }
  .row.is-found { background: var(--found); }
  .row.is-place { box-shadow: inset 3px 0 var(--bad); color: var(--bad); font-weight: 600; }
  i { font-style: normal; }
  i.is-place { background: var(--bad); color: #fff; }
  @media (max-width: 900px) { main { flex-direction: column; } #octets { width: auto; flex: 1 1 50%; } }
</style>
</head>
<body>
<header>
  <h1>{{title}}</h1>
  <span id="said">{{said}}</span>
  <button id="go" hidden>go to the place</button>
  <input id="search" type="search" placeholder="text, or octets as 06 09" aria-label="search">
  <button id="previous" aria-label="previous">↑</button><button id="next" aria-label="next">↓</button>
  <span id="count"></span>
  <button id="fold">fold all</button><button id="unfold">unfold all</button>
</header>
<main>
  <div id="tree" class="pane" tabindex="0"><div class="all"></div></div>
  <div id="octets" class="pane" tabindex="0"><div class="all"></div></div>
</main>
<noscript>This page shows the file by a script that is in it.</noscript>
<script id="data" type="application/json">{{data}}</script>
<script>
"use strict";
const data = JSON.parse(document.getElementById("data").textContent);
const characters = atob(data.octets), octets = new Uint8Array(characters.length);
for (let at = 0; at < octets.length; at++) octets[at] = characters.charCodeAt(at);
const { offsets, depths, texts, place } = data;
const ROW = 18, WIDE = 16, count = offsets.length;
const by = (id) => document.getElementById(id);

// Where each element ends: where the next one begins that is no deeper. Which line each is in.
const ends = new Int32Array(count).fill(octets.length), parents = new Int32Array(count).fill(-1);
const open = [];
for (let at = 0; at < count; at++) {
  while (open.length && depths[open[open.length - 1]] >= depths[at]) ends[open.pop()] = offsets[at];
  if (open.length) parents[at] = open[open.length - 1];
  open.push(at);
}
const isParent = (at) => at + 1 < count && depths[at + 1] > depths[at];

// Where the contents of an element begin.
function inside(at) {
  const length = octets[offsets[at] + 1];
  if (texts[at].includes("no element")) return offsets[at];
  return Math.min(ends[at], offsets[at] + 2 + (length > 0x80 ? length - 0x80 : 0));
}

// The last line that begins at an offset or before it: the innermost element there.
function lineAt(offset) {
  let low = 0, high = count;
  while (low < high) {
    const middle = (low + high) >> 1;
    if (offsets[middle] <= offset) low = middle + 1; else high = middle;
  }
  let at = low - 1;
  while (at > 0 && parents[at] >= 0 && ends[at] <= offset && offset < octets.length) at = parents[at];
  return at;
}

const folded = new Uint8Array(count);
let shown = [], position = new Int32Array(count), over = -1, found = [], foundAt = -1;
const placeLine = place === null || !count ? -1 : lineAt(place);

function layOut() {
  shown = [];
  position.fill(-1);
  for (let at = 0; at < count; ) {
    position[at] = shown.length;
    shown.push(at);
    if (!folded[at]) { at++; continue; }
    const depth = depths[at++];
    while (at < count && depths[at] > depth) at++;
  }
}

// A pane that makes only those of its rows that are in view.
function pane(id, rows, fill) {
  const outside = by(id), all = outside.firstElementChild;
  const draw = () => {
    all.style.height = rows() * ROW + "px";
    const first = Math.max(0, Math.floor(outside.scrollTop / ROW) - 4);
    const last = Math.min(rows(), Math.ceil((outside.scrollTop + outside.clientHeight) / ROW) + 4);
    const made = document.createDocumentFragment();
    for (let at = first; at < last; at++) {
      const row = document.createElement("div");
      row.className = "row";
      row.style.top = at * ROW + "px";
      fill(row, at);
      made.append(row);
    }
    all.replaceChildren(made);
  };
  const reveal = (row) => {
    const top = row * ROW;
    if (top < outside.scrollTop + ROW || top > outside.scrollTop + outside.clientHeight - 3 * ROW)
      outside.scrollTop = Math.max(0, top - outside.clientHeight / 3);
    draw();
  };
  outside.addEventListener("scroll", draw, { passive: true });
  return { draw, reveal };
}

function span(text, className) {
  const made = document.createElement("i");
  made.textContent = text;
  if (className) made.className = className;
  return made;
}

const tree = pane("tree", () => shown.length, (row, index) => {
  const at = shown[index];
  row.dataset.line = at;
  row.append(span(String(offsets[at]), "at"), " ".repeat(2 * Math.min(depths[at], 32)));
  row.append(span(isParent(at) ? (folded[at] ? "▸" : "▾") : "", "fold"), span(texts[at]));
  if (at === over) row.classList.add("is-over");
  if (foundAt >= 0 && found[foundAt].line === at) row.classList.add("is-found");
  if (at === placeLine) row.classList.add("is-place");
});

function classOf(offset) {
  const classes = [];
  if (over >= 0 && offsets[over] <= offset && offset < ends[over])
    classes.push(offset < inside(over) ? "is-head" : "is-inside");
  if (offset === place) classes.push("is-place");
  return classes.join(" ");
}

const hexadecimal = pane("octets", () => Math.ceil(octets.length / WIDE), (row, index) => {
  const first = index * WIDE, text = document.createDocumentFragment();
  row.append(span(first.toString(16).toUpperCase().padStart(6, "0"), "at"));
  for (let at = first; at < first + WIDE; at++) {
    if (at >= octets.length) { row.append("   "); continue; }
    const octet = octets[at], classes = classOf(at);
    const made = span(octet.toString(16).toUpperCase().padStart(2, "0"), classes);
    made.dataset.offset = at;
    row.append(made, at + 1 < first + WIDE && classOf(at + 1) === classes && classes ? span(" ", classes) : " ");
    text.append(span(octet >= 0x20 && octet < 0x7F ? String.fromCharCode(octet) : "·", classes));
  }
  row.append(" ", text);
});

function draw() { tree.draw(); hexadecimal.draw(); }

function setOver(at) {
  if (at === over) return;
  over = at;
  draw();
}

// Unfolds what a line is in, and has it in view.
function show(at) {
  for (let up = parents[at]; up >= 0; up = parents[up]) folded[up] = 0;
  layOut();
  tree.reveal(position[at]);
}

function go(at, offset) {
  over = at;
  show(at);
  hexadecimal.reveal(Math.floor(offset / WIDE));
  draw();
}

function toggle(at, value) {
  folded[at] = value;
  layOut();
  draw();
}

by("tree").addEventListener("mousemove", (event) => {
  const row = event.target.closest(".row");
  if (row) setOver(Number(row.dataset.line));
});
by("tree").addEventListener("click", (event) => {
  const row = event.target.closest(".row");
  if (!row) return;
  const at = Number(row.dataset.line);
  if (event.target.classList.contains("fold") && isParent(at)) toggle(at, 1 - folded[at]);
  else go(at, offsets[at]);
});
by("octets").addEventListener("mousemove", (event) => {
  if (event.target.dataset.offset !== undefined) setOver(lineAt(Number(event.target.dataset.offset)));
});
by("octets").addEventListener("click", (event) => {
  if (event.target.dataset.offset === undefined) return;
  const at = lineAt(Number(event.target.dataset.offset));
  over = at;
  show(at);
  draw();
});
by("tree").addEventListener("keydown", (event) => {
  if (over < 0) return;
  const here = position[over];
  if (event.key === "ArrowDown" && here + 1 < shown.length) go(shown[here + 1], offsets[shown[here + 1]]);
  else if (event.key === "ArrowUp" && here > 0) go(shown[here - 1], offsets[shown[here - 1]]);
  else if (event.key === "ArrowLeft") toggle(over, isParent(over) ? 1 : 0);
  else if (event.key === "ArrowRight") toggle(over, 0);
  else return;
  event.preventDefault();
});

// Octets are looked for where all that is asked for are pairs of hexadecimal digits, and text in the lines always.
function search() {
  const asked = by("search").value.trim();
  found = [];
  foundAt = -1;
  if (asked) {
    const text = asked.toLowerCase();
    texts.forEach((it, at) => { if (it.toLowerCase().includes(text)) found.push({ line: at, offset: offsets[at] }); });
    if (/^([0-9a-f]{2}[\s:]*)+$/i.test(asked)) searchOctets(asked.replace(/[\s:]/g, ""));
    found.sort((one, other) => one.offset - other.offset);
  }
  by("count").textContent = asked ? found.length + " found" : "";
  if (found.length) step(1);
  else draw();
}

function searchOctets(digits) {
  const wanted = digits.match(/../g).map((it) => parseInt(it, 16));
  for (let at = octets.indexOf(wanted[0]); at >= 0 && found.length < 100000; at = octets.indexOf(wanted[0], at + 1))
    if (wanted.every((it, index) => octets[at + index] === it)) found.push({ line: lineAt(at), offset: at });
}

function step(by_) {
  if (!found.length) return;
  foundAt = (foundAt + by_ + found.length) % found.length;
  by("count").textContent = foundAt + 1 + " of " + found.length;
  go(found[foundAt].line, found[foundAt].offset);
}

by("search").addEventListener("input", search);
by("search").addEventListener("keydown", (event) => { if (event.key === "Enter") step(event.shiftKey ? -1 : 1); });
by("previous").addEventListener("click", () => step(-1));
by("next").addEventListener("click", () => step(1));
by("fold").addEventListener("click", () => {
  for (let at = 0; at < count; at++) folded[at] = isParent(at) && depths[at] > 0 ? 1 : 0;
  layOut();
  draw();
});
by("unfold").addEventListener("click", () => { folded.fill(0); layOut(); draw(); });
by("go").addEventListener("click", () => go(placeLine, Math.min(place, octets.length - 1)));
addEventListener("resize", draw);

by("said").classList.toggle("bad", data.refused);
layOut();
draw();
if (placeLine >= 0) {
  by("go").hidden = false;
  go(placeLine, Math.min(place, Math.max(0, octets.length - 1)));
}
// How many milliseconds after the opening all is drawn.
document.documentElement.dataset.ready = Math.round(performance.now());
</script>
</body>
</html>
"""
