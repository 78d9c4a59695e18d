"use strict";
// The what-if page. The server holds the session. Its first answer is the whole state, each later one has the rows that
// changed since, and only what differs is drawn anew. Several tabs may show one session: each asks whether it changed.
const by = (id) => document.getElementById(id);
const key = decodeURIComponent(location.hash.slice(1));
const SVG = "http://www.w3.org/2000/svg";
const WORTH = { min: "Cheapest plan", max: "Most that can be sent", asn: "Cheapest assignment" };
// The fields of a node and of an arc in the state.
const [NAME, SUPPLY, X, Y, PRICE, REST] = [0, 1, 2, 3, 4, 5];
const [TAIL, HEAD, LABEL, LOW, CAP, COST, FLOW, SAVES] = [0, 1, 2, 3, 4, 5, 6, 7];
const FIELDS = { low: LOW, cap: CAP, cost: COST };
const WORDS = { low: "lower bound", cap: "capacity", cost: "unit cost", supply: "supply" };
// So many rows of a table are made at once, and others when they are scrolled to.
const AT_ONCE = 200;
// So many names are offered where one is typed.
const MOST_OFFERED = 200;
// How often a tab asks whether another one has edited, in milliseconds.
const LOOK_EVERY = 1000;
// About how wide a letter of a node's name is on the map.
const LETTER = 8.8;
const EDITABLE = { min: ["low", "cap", "cost"], max: ["cap"], asn: ["cost"] };

let state = null;
let collecting = false;
let pending = [];
let chosen = -1;
let queue = Promise.resolve();
let asking = 0;
let arcs = null;
let nodes = null;
let view = { scale: 1, x: 0, y: 0 };

const label = (arc) => arc[LABEL] || `${arc[TAIL]} to ${arc[HEAD]}`;
const isFull = (arc) => state.kind !== "asn" && arc[FLOW] !== null && arc[FLOW] !== "0" && arc[FLOW] === arc[CAP];
const make = (tag, text, name) => {
  const element = document.createElement(tag);
  if (text !== undefined) element.textContent = text;
  if (name) element.className = name;
  return element;
};

function tell(words, good) {
  by("told").textContent = words || "";
  by("told").classList.toggle("good", Boolean(good));
}

// Requests are made one after the other, in the order in which they were typed.
function ask(request) {
  const asked = queue.then(() => send(request));
  queue = asked.catch(() => {});
  return asked;
}

async function post(request) {
  const since = state === null ? {} : { since: state.version };
  return fetch("/do", {
    method: "POST",
    headers: { "X-Board-Key": key, "Content-Type": "application/json" },
    body: JSON.stringify({ ...request, ...since }),
  });
}

async function send(request) {
  asking += 1;
  document.body.setAttribute("aria-busy", "true");
  try {
    const reply = await post(request);
    const said = await reply.json();
    if (!reply.ok) {
      refused(said.error);
      return false;
    }
    draw(merged(said));
    tell(said.error);
    return !said.error;
  } catch (error) {
    tell("No answer: does mcf-plan board still run? " + error.message);
    return false;
  } finally {
    asking -= 1;
    document.body.removeAttribute("aria-busy");
  }
}

// Where the very first request is refused, the page has nothing to show but why.
function refused(words) {
  if (state === null) by("worth-words").textContent = "Nothing to show:";
  tell(words);
}

// The state after one that the page has: rows that did not change are the same ones.
function merged(said) {
  if (said.arcs) return said;
  const { arcs: changedArcs, nodes: changedNodes, arc_count: count } = said.changes;
  const next = { ...said, arcs: state.arcs.slice(0, count), nodes: state.nodes.slice() };
  for (const [index, row] of changedArcs) next.arcs[index] = row;
  for (const [index, row] of changedNodes) next.nodes[index] = row;
  return next;
}

// Asks whether another tab has edited, while nothing else is asked and the page is seen.
async function look() {
  if (state === null || asking > 0 || document.visibilityState !== "visible") return;
  try {
    const reply = await fetch("/version", { headers: { "X-Board-Key": key } });
    const { version } = await reply.json();
    if (reply.ok && version !== state.version && asking === 0 && (await ask({ do: "state" }))) {
      tell("Another tab has edited: this is what stands now.", true);
    }
  } catch (error) {
    tell("mcf-plan board has ended: nothing that is typed here is made any more.");
  }
}

async function lookOn() {
  await look();
  setTimeout(lookOn, LOOK_EVERY);
}

// ---------------------------------------------------------------------------------------------------------------------
// The state

function draw(next) {
  const isFirst = state === null;
  const before = state;
  state = next;
  if (isFirst) {
    document.title = `${state.title}: what if?`;
    buildTables();
  }
  const hasOthers = !isFirst && before.arcs.some((arc, index) => !isSame(arc, state.arcs[index]));
  if (hasOthers) {
    arcs.clear();
    chosen = -1;
  }
  const grew = isFirst || hasOthers || before.arcs.length !== state.arcs.length;
  if (grew) buildLines();
  drawWorth();
  drawTables(before);
  drawVariants();
  if (isFirst) showWhole();
  else drawMap(grew);
  if (chosen >= 0) point(chosen);
  by("undo").disabled = !state.undo;
  by("redo").disabled = !state.redo;
  by("notes").replaceChildren(...state.notes.map((note) => make("li", note)));
  const why = state.why ?? state.limit;
  by("why-part").hidden = why === null;
  by("why-part").classList.toggle("limit", state.why === null);
  by("why-title").textContent = state.why === null ? "Why no more can be sent" : "Why there is no plan";
  by("why").textContent = why || "";
  by("cut-legend").hidden = state.cut === null;
  document.body.dataset.moment = String(Number(document.body.dataset.moment || 0) + 1);
}

// Whether it is the same arc, whatever its numbers are now: an added one may be taken back, and another one added.
const isSame = (arc, other) =>
  arc === other || (other !== undefined && [TAIL, HEAD, LABEL].every((part) => arc[part] === other[part]));

function drawWorth() {
  const none = state.cost === null;
  by("worth-words").textContent = none ? "There is no plan:" : `${WORTH[state.kind]}:`;
  by("worth").textContent = none ? `short by ${state.shortage}` : state.cost;
  by("worth").parentElement.classList.toggle("none", none);
  const unchecked = "not checked: the network is large; saving the plan checks it";
  by("checked").textContent = state.checked ? "checked" : unchecked;
  by("checked").classList.toggle("warned", !state.checked);
  const isFirst = state.first === null || state.first === state.cost;
  by("since").textContent = none || isFirst ? "" : `(at first ${state.first})`;
}

// ---------------------------------------------------------------------------------------------------------------------
// The tables

function field(what, index, words) {
  const input = document.createElement("input");
  input.dataset.what = what;
  input.dataset.index = index;
  input.inputMode = "decimal";
  input.setAttribute("aria-label", `${WORDS[what]} ${words}`);
  input.disabled = what === "supply" ? state.kind !== "min" : !EDITABLE[state.kind].includes(what);
  if (what === "cap") input.placeholder = "no limit";
  return input;
}

// A table whose rows are made when they are scrolled to: of 100,000 arcs only those near the window have elements.
class LongTable {
  // `makeRow` makes the row of an index: { line, inputs }, and `drawRow` shows in it what stands.
  constructor(name, makeRow, drawRow) {
    this.body = document.querySelector(`#${name} tbody`);
    this.frame = by(`${name}-wide`);
    this.makeRow = makeRow;
    this.drawRow = drawRow;
    this.rows = new Map();
    this.found = [];
    this.shown = 0;
    this.frame.addEventListener("scroll", () => {
      if (this.frame.scrollTop + 2 * this.frame.clientHeight > this.frame.scrollHeight) this.more();
    });
  }

  // Shows the rows of these indices, in their order.
  show(found) {
    if (found.length === this.found.length && found.every((index, at) => index === this.found[at])) return;
    const focus = this.body.contains(document.activeElement) ? document.activeElement : null;
    this.found = found;
    this.shown = 0;
    this.body.replaceChildren();
    this.more();
    if (focus && focus.isConnected) focus.focus({ preventScroll: true });
  }

  // Puts more rows behind those that are shown, and those up to a place in any case.
  more(place = 0) {
    const end = Math.max(this.shown + AT_ONCE, place + 1);
    const piece = this.found.slice(this.shown, end);
    this.shown += piece.length;
    this.body.append(...piece.map((index) => this.made(index).line));
  }

  clear() {
    this.rows.clear();
    this.show([]);
  }

  made(index) {
    if (!this.rows.has(index)) {
      this.rows.set(index, this.makeRow(index));
      this.drawRow(index, this.rows.get(index));
    }
    return this.rows.get(index);
  }

  // The row of an index, in the table; null where the table does not show it.
  reveal(index) {
    const place = this.found.indexOf(index);
    if (place < 0) return null;
    if (place >= this.shown) this.more(place);
    return this.rows.get(index);
  }

  // The index so many rows below another one.
  beside(index, step) {
    return this.found[this.found.indexOf(index) + step];
  }

  // Shows what stands in the rows that are made and have changed.
  draw(before, now) {
    for (const [index, row] of this.rows) {
      if (!before || before[index] !== now[index]) this.drawRow(index, row);
    }
  }
}

function buildTables() {
  const kind = state.kind;
  const columns = kind === "min" ? ["low", "cap", "cost"] : EDITABLE[kind];
  const heads = { low: "At least", cap: "Capacity", cost: kind === "asn" ? "Cost" : "Unit cost" };
  const row = make("tr");
  row.append(make("th", kind === "asn" ? "Pair" : "Arc", "name"));
  row.append(make("th", kind === "asn" ? "Chosen" : "Flow", "flow"));
  for (const what of columns) row.append(make("th", heads[what], what));
  const saves = make("th", "1 more saves \u2264", "saves");
  saves.title = "What one unit more of capacity saves at most";
  if (kind === "min") row.append(saves);
  row.append(make("th", "", "close"));
  document.querySelector("#arcs thead").replaceChildren(row);
  arcs = new LongTable("arcs", (index) => makeArcRow(index, columns), drawArcRow);
  by("with-low").checked = state.arcs.some((arc) => arc[LOW] !== "0");
  by("with-low").parentElement.hidden = kind !== "min";
  by("only-full").parentElement.hidden = kind === "asn";
  document.querySelector("#add .add-cap").hidden = kind === "asn";
  document.querySelector("#add .add-cost").hidden = kind === "max";
  const nodeHead = make("tr");
  nodeHead.append(make("th", "Node", "name"), make("th", "Supply"));
  nodeHead.append(make("th", "Kept or not met", "rest"), make("th", "Price"));
  document.querySelector("#nodes thead").replaceChildren(nodeHead);
  by("nodes-part").hidden = kind !== "min";
  nodes = new LongTable("nodes", makeNodeRow, drawNodeRow);
  offerNames("");
}

function makeArcRow(index, columns) {
  const arc = state.arcs[index];
  const line = make("tr");
  const flow = make("td", undefined, "flow");
  const saves = make("td", undefined, "saves");
  const name = make("td", label(arc), "name");
  if (arc[LABEL]) name.append(make("small", `${arc[TAIL]} to ${arc[HEAD]}`));
  line.append(name, flow);
  const inputs = {};
  for (const what of columns) {
    const cell = make("td", undefined, what);
    inputs[what] = field(what, index, label(arc));
    cell.append(inputs[what]);
    line.append(cell);
  }
  if (state.kind === "min") line.append(saves);
  const last = make("td");
  const close = make("button", "\u00d7");
  close.type = "button";
  close.dataset.close = index;
  close.title = `Close ${label(arc)}`;
  close.setAttribute("aria-label", close.title);
  last.append(close);
  line.append(last);
  line.classList.toggle("chosen", index === chosen);
  return { line, flow, saves, inputs };
}

function drawArcRow(index, row) {
  const arc = state.arcs[index];
  row.flow.textContent = flowWords(arc[FLOW]);
  row.line.classList.toggle("full", isFull(arc));
  if (isFull(arc)) row.flow.append(" ", make("span", "full", "mark"));
  row.saves.textContent = arc[SAVES];
  for (const [what, input] of Object.entries(row.inputs)) show(input, arc[FIELDS[what]], what, index);
}

function flowWords(flow) {
  if (flow === null) return "";
  if (state.kind !== "asn") return flow;
  return flow === "0" ? "" : "yes";
}

function makeNodeRow(index) {
  const node = state.nodes[index];
  const line = make("tr");
  const cell = make("td");
  const inputs = { supply: field("supply", index, node[NAME]) };
  const [rest, price] = [make("td", undefined, "rest"), make("td", undefined, "price")];
  cell.append(inputs.supply);
  line.append(make("td", node[NAME], "name"), cell, rest, price);
  return { line, inputs, rest, price };
}

function drawNodeRow(index, row) {
  const node = state.nodes[index];
  row.price.textContent = node[PRICE] ?? "";
  row.rest.textContent = node[REST] ?? "";
  row.line.classList.toggle("cut", cut.has(node[NAME]));
  show(row.inputs.supply, node[SUPPLY], "supply", index);
}

function drawTables(before) {
  const isSameCut = before && before.cut === null && state.cut === null;
  cut = new Set(state.cut || []);
  arcs.draw(before && before.arcs, state.arcs);
  nodes.draw(isSameCut ? before.nodes : null, state.nodes);
  by("nodes").classList.toggle("without-rest", !state.nodes.some((node) => node[REST] !== null));
  showLow();
  filter();
}

const showLow = () => by("arcs").classList.toggle("without-low", !by("with-low").checked);

// A field shows what stands, or what is collected for it, or what is being typed in it.
function show(input, value, what, index) {
  const text = value === null ? "" : value;
  if (input.dataset.stands === text && !input.classList.contains("wrong")) return;
  const typed = document.activeElement === input && input.value !== (input.dataset.stands ?? text);
  input.dataset.stands = text;
  if (!typed && !pending.some((edit) => edit.edit === what && (edit.arc ?? edit.at) === index)) input.value = text;
}

// Offers names of nodes where one is typed: of many those that have what is typed in them.
function offerNames(typed) {
  const wanted = typed.trim().toLowerCase();
  const names = [];
  for (const node of state.nodes) {
    if (names.length === MOST_OFFERED) break;
    if (node[NAME].toLowerCase().includes(wanted)) names.push(node[NAME]);
  }
  by("names").replaceChildren(...names.map((name) => {
    const option = document.createElement("option");
    option.value = name;
    return option;
  }));
}

// The nodes whose names are looked for, and the ends of the arcs that were found.
function nodesOf(wanted, found) {
  const endsOf = (index) => [state.arcs[index][TAIL], state.arcs[index][HEAD]];
  const ends = new Set(wanted === "" ? [] : found.flatMap(endsOf));
  const isIt = (node) => node[NAME].toLowerCase().includes(wanted) || ends.has(node[NAME]);
  return state.nodes.flatMap((node, index) => (isIt(node) ? [index] : []));
}

// Shows the rows that are looked for.
function filter() {
  const wanted = by("find").value.trim().toLowerCase();
  const onlyFull = by("only-full").checked;
  const found = [];
  let full = 0;
  state.arcs.forEach((arc, index) => {
    const isIt = isFull(arc);
    if (isIt) full += 1;
    if (onlyFull && !isIt) return;
    const words = wanted === "" ? "" : `${arc[TAIL]} to ${arc[HEAD]} ${arc[LABEL] || ""}`.toLowerCase();
    if (words.includes(wanted)) found.push(index);
  });
  arcs.show(found);
  const named = nodesOf(wanted, found);
  nodes.show(state.kind === "min" ? named : []);
  const count = (number) => number.toLocaleString("en");
  const shown = `${count(found.length)} of ${count(state.arcs.length)} arcs`;
  by("shown").textContent = shown + (full ? `, ${count(full)} full` : "");
  by("shown-nodes").textContent = `${count(named.length)} of ${count(state.nodes.length)} nodes`;
}

// Chooses an arc: the map and the table point at it. Where it was chosen on the map, the table goes to it.
function choose(index, goes) {
  if (arcs.rows.has(chosen)) arcs.rows.get(chosen).line.classList.remove("chosen");
  chosen = index;
  if (goes && !arcs.found.includes(index)) {
    by("find").value = "";
    by("only-full").checked = false;
    filter();
  }
  const row = goes ? arcs.reveal(index) : arcs.rows.get(index);
  row.line.classList.add("chosen");
  point(index);
  if (goes) {
    row.line.scrollIntoView({ block: "nearest" });
    const input = Object.values(row.inputs).find((each) => !each.disabled && each.offsetParent);
    if (input) input.focus({ preventScroll: true });
  }
  drawMap(false);
}

// ---------------------------------------------------------------------------------------------------------------------
// Edits

function commit(input) {
  const text = input.value.trim();
  if (text === input.dataset.stands && !input.classList.contains("pending")) {
    input.value = input.dataset.stands;
    return;
  }
  const index = Number(input.dataset.index);
  const what = input.dataset.what;
  const isNode = what === "supply";
  const name = isNode ? state.nodes[index][NAME] : label(state.arcs[index]);
  const edit = { edit: what, value: text, ...(isNode ? { node: name, at: index } : { arc: index }) };
  offer(edit, `${WORDS[what]} of ${name}: ${input.dataset.stands || "no limit"} becomes ${text || "no limit"}`, input);
}

// Makes an edit, or collects it where a group is open.
function offer(edit, words, input) {
  if (collecting) {
    const same = (other) => edit.edit !== "add" && ["edit", "arc", "at"].every((part) => other[part] === edit[part]);
    pending = pending.filter((other) => !same(other));
    if (!input || input.value.trim() !== input.dataset.stands) pending.push({ ...edit, words });
    if (input) input.classList.toggle("pending", input.value.trim() !== input.dataset.stands);
    drawPending();
    return Promise.resolve(true);
  }
  const typed = input && input.value;
  return ask({ do: "edits", edits: [edit] }).then((made) => {
    if (input) settle(input, made, typed);
    return made;
  });
}

// After a refusal the field shows again what stands, and the words above what was wrong with what was typed.
function settle(input, made, typed) {
  input.classList.toggle("wrong", !made);
  if (input.value === typed) input.value = input.dataset.stands;
  if (made) input.classList.remove("wrong");
}

function drawPending() {
  by("group-part").hidden = !collecting;
  by("group").setAttribute("aria-pressed", String(collecting));
  by("group-hint").hidden = pending.length > 0;
  by("make").disabled = pending.length === 0;
  by("make").textContent = pending.length > 1 ? `Make these ${pending.length} together` : "Make them together";
  by("pending").replaceChildren(...pending.map((edit, index) => {
    const item = make("li", `${edit.words} `);
    const without = make("button", "Without it");
    without.type = "button";
    without.addEventListener("click", () => {
      pending.splice(index, 1);
      restore(edit);
      drawPending();
    });
    item.append(without);
    return item;
  }));
}

function restore(edit) {
  const table = edit.edit === "supply" ? nodes : arcs;
  const input = table.rows.get(edit.at ?? edit.arc)?.inputs[edit.edit];
  if (!input) return;
  input.classList.remove("pending");
  input.value = input.dataset.stands;
}

function endGroup() {
  const edits = pending;
  collecting = false;
  pending = [];
  edits.forEach(restore);
  drawPending();
}

async function makeGroup() {
  const edits = pending;
  if (edits.length && (await ask({ do: "edits", edits: edits.map(({ words, ...edit }) => edit) }))) endGroup();
}

function toggleGroup() {
  if (collecting && pending.length) {
    tell("Make the collected edits together, or drop them.");
    by("make").focus();
  } else {
    collecting = !collecting;
    drawPending();
  }
}

// Goes to the same field of the row above or below.
function move(input, step) {
  const table = input.dataset.what === "supply" ? nodes : arcs;
  const index = table.beside(Number(input.dataset.index), step);
  if (index === undefined) return;
  const next = table.reveal(index).inputs[input.dataset.what];
  next.focus();
  next.select();
}

// ---------------------------------------------------------------------------------------------------------------------
// Variants

function drawVariants() {
  const { columns, rows, more } = state.variants;
  const table = by("variants");
  if (!columns.length) {
    table.replaceChildren();
    by("more-rows").textContent = "Mark what stands, and go on: the variants are shown side by side, and you can go "
      + "back to each.";
    return;
  }
  const worth = (cost, shortage) => (cost === null ? `no plan (${shortage})` : cost);
  const head = make("tr");
  head.append(make("th", "", "name"));
  for (const column of columns) {
    const cell = make("th", column.name);
    cell.scope = "col";
    head.append(cell);
  }
  head.append(make("th", "Now", "now"));
  const worths = make("tr", undefined, "worth-row");
  worths.append(make("td", state.kind === "max" ? "Sent" : "Cost", "name"));
  for (const column of columns) worths.append(make("td", worth(column.cost, column.shortage)));
  worths.append(make("td", worth(state.cost, state.shortage), "now"));
  const tools = make("tr");
  tools.append(make("td", "", "name"));
  for (const column of columns) {
    const cell = make("td");
    const [back, forget] = [make("button", column.here ? "Here" : "Go to"), make("button", "Forget")];
    back.type = forget.type = "button";
    back.disabled = column.here;
    back.setAttribute("aria-label", `Go to ${column.name}`);
    forget.setAttribute("aria-label", `Forget ${column.name}`);
    back.addEventListener("click", () => ask({ do: "back", name: column.name }));
    forget.addEventListener("click", () => ask({ do: "forget", name: column.name }));
    cell.append(back, " ", forget);
    tools.append(cell);
  }
  tools.append(make("td", "", "now"));
  const body = rows.map(([name, what, values]) => {
    const row = make("tr");
    row.append(make("td", `${what} of ${name}`, "name"));
    values.forEach((value, index) => row.append(make("td", value, index === values.length - 1 ? "now" : "")));
    return row;
  });
  table.replaceChildren(head, worths, tools, ...body);
  by("more-rows").textContent = more ? `and ${more} more numbers that differ` : "";
}

// ---------------------------------------------------------------------------------------------------------------------
// The map: everything is placed in pixels, so that words and lines keep their size

// How an arc looks; those that come later are drawn above the others.
const LOOKS = ["empty", "flow", "full"];
let lines = [];
let dots = [];
let heads = {};
let cut = new Set();

function buildLines() {
  document.querySelector("main").classList.toggle("without-map", state.not_drawn !== null);
  by("not-drawn").textContent = state.not_drawn === null ? "" : `No map: ${state.not_drawn}. Find shows what you seek.`;
  if (state.not_drawn !== null) return;
  if (!heads.flow) {
    for (const name of LOOKS) {
      const head = document.createElementNS(SVG, "marker");
      const look = { id: `head-${name}`, viewBox: "0 0 10 10", refX: 2, refY: 5, markerWidth: 9, markerHeight: 9,
        markerUnits: "userSpaceOnUse", orient: "auto" };
      for (const [what, value] of Object.entries(look)) head.setAttribute(what, value);
      const shape = document.createElementNS(SVG, "path");
      shape.setAttribute("d", "M0 0L10 5L0 10z");
      shape.setAttribute("fill", getComputedStyle(document.documentElement).getPropertyValue(`--${name}`));
      head.append(shape);
      by("heads").append(head);
      heads[name] = head;
    }
    dots = state.nodes.map((node) => {
      const dot = document.createElementNS(SVG, "circle");
      const title = document.createElementNS(SVG, "title");
      dot.append(title);
      return dot;
    });
    by("dots").replaceChildren(...dots);
  }
  const numbers = new Map(state.nodes.map((node, index) => [node[NAME], index]));
  const both = new Set(state.arcs.map((arc) => JSON.stringify([arc[TAIL], arc[HEAD]])));
  const seen = new Map();
  lines = state.arcs.map((arc) => {
    const ends = JSON.stringify([arc[TAIL], arc[HEAD]]);
    const parallel = seen.get(ends) ?? 0;
    seen.set(ends, parallel + 1);
    const [tail, head] = [numbers.get(arc[TAIL]), numbers.get(arc[HEAD])];
    let bend = 22 * parallel + (both.has(JSON.stringify([arc[HEAD], arc[TAIL]])) ? 14 : 0);
    if (!state.placed && state.nodes[tail][X] === state.nodes[head][X]) bend += 36;
    return { path: document.createElementNS(SVG, "path"), tail, head, bend, at: null };
  });
  for (const look of LOOKS) by(`lines-${look}`).replaceChildren();
}

const size = () => ({ width: by("map").clientWidth || 300, height: by("map").clientHeight || 200 });

// The room that the network itself takes on the map; columns may be stretched, places may not.
function extent() {
  const xs = state.nodes.map((node) => node[X]);
  const ys = state.nodes.map((node) => node[Y]);
  const [left, right] = [Math.min(...xs), Math.max(...xs)];
  const [top, bottom] = [Math.min(...ys), Math.max(...ys)];
  const { width, height } = size();
  const longest = Math.max(...state.nodes.map((node) => nodeWords(node).length));
  const side = state.placed ? 12 + (LETTER * longest) / 2 : Math.min(0.33 * width, 20 + LETTER * longest);
  let sx = (width - 2 * side) / (right - left || 1);
  let sy = (height - 64) / (bottom - top || 1);
  if (state.placed) sx = sy = Math.min(sx, sy);
  return { left: (left + right) / 2, top: (top + bottom) / 2, right, leftmost: left, sx, sy, width, height };
}

function showWhole() {
  view = { scale: 1, x: 0, y: 0 };
  drawMap(true);
}

let room = null;
const placeOf = (node) => ({
  x: room.width / 2 + view.x + (node[X] - room.left) * room.sx * view.scale,
  y: room.height / 2 + view.y + (node[Y] - room.top) * room.sy * view.scale,
});

function nodeWords(node) {
  if (state.kind === "max" && node[NAME] === state.source) return `${node[NAME]} (source)`;
  if (state.kind === "max" && node[NAME] === state.sink) return `${node[NAME]} (sink)`;
  if (state.kind !== "min" || node[SUPPLY] === "0") return node[NAME];
  return `${node[NAME]} ${node[SUPPLY].startsWith("-") ? "\u2212" + node[SUPPLY].slice(1) : "+" + node[SUPPLY]}`;
}

function arcWords(arc) {
  const cap = arc[CAP];
  if (state.kind === "asn") return arc[FLOW] === "1" || arc[FLOW] === null ? `at ${arc[COST]}` : "";
  if (arc[FLOW] === null) return cap === null ? "no limit" : `at most ${cap}`;
  return (cap === null ? arc[FLOW] : `${arc[FLOW]} of ${cap}`) + (isFull(arc) ? ", full" : "");
}

function point(index) {
  const arc = state.arcs[index];
  const cost = state.kind === "max" ? "" : `, at ${arc[COST]} a unit`;
  by("pointed").textContent = `${label(arc)}: ${arcWords(arc) || "not chosen"}${state.kind === "asn" ? "" : cost}`;
}

function curve(start, end, bend) {
  const [dx, dy] = [end.x - start.x, end.y - start.y];
  const length = Math.hypot(dx, dy);
  if (length < 1) {
    const top = { x: start.x, y: start.y - 34 };
    return { d: `M${start.x - 5} ${start.y - 7}c-26 -38 38 -38 13 -3`, at: Array(7).fill(top), length: 70 };
  }
  const middle = { x: (start.x + end.x) / 2 - (dy / length) * bend, y: (start.y + end.y) / 2 + (dx / length) * bend };
  const away = (from, gap) => {
    const far = Math.hypot(middle.x - from.x, middle.y - from.y) || 1;
    return { x: from.x + ((middle.x - from.x) / far) * gap, y: from.y + ((middle.y - from.y) / far) * gap };
  };
  const [first, last] = [away(start, 8), away(end, 15)];
  const at = [0.1, 0.22, 0.36, 0.5, 0.64, 0.78, 0.9].map((t) => ({
    x: (1 - t) ** 2 * first.x + 2 * t * (1 - t) * middle.x + t * t * last.x,
    y: (1 - t) ** 2 * first.y + 2 * t * (1 - t) * middle.y + t * t * last.y,
  }));
  const f = (value) => value.toFixed(1);
  return { d: `M${f(first.x)} ${f(first.y)}Q${f(middle.x)} ${f(middle.y)} ${f(last.x)} ${f(last.y)}`, at, length };
}

// Draws the map: where things stand only if they moved, and how the arcs look in any case.
function drawMap(moved) {
  if (!state || state.not_drawn !== null) return;
  if (moved || !room) {
    room = extent();
    const places = state.nodes.map(placeOf);
    dots.forEach((dot, index) => {
      dot.setAttribute("cx", places[index].x.toFixed(1));
      dot.setAttribute("cy", places[index].y.toFixed(1));
    });
    for (const line of lines) {
      const { d, at, length } = curve(places[line.tail], places[line.head], line.bend);
      line.path.setAttribute("d", d);
      line.at = at;
      line.length = length;
    }
  }
  const most = Math.max(...state.arcs.map((arc) => Math.abs(Number(arc[FLOW] || 0))), 0) || 1;
  state.arcs.forEach((arc, index) => {
    const flow = Math.abs(Number(arc[FLOW] || 0));
    const crosses = state.cut !== null && cut.has(arc[TAIL]) !== cut.has(arc[HEAD]);
    const look = crosses || isFull(arc) ? "full" : flow > 0 ? "flow" : "empty";
    const name = `arc ${look}${index === chosen ? " chosen" : ""}`;
    const path = lines[index].path;
    if (lines[index].look !== look) {
      if (look === "empty" && lines.length > 300) path.removeAttribute("marker-end");
      else path.setAttribute("marker-end", `url(#head-${look})`);
      by(`lines-${look}`).append(path);
      lines[index].look = look;
    }
    if (lines[index].name !== name) {
      path.setAttribute("class", name);
      lines[index].name = name;
    }
    const width = (crosses ? 2.5 : flow > 0 ? 1.2 + (4.8 * flow) / most : 1).toFixed(1);
    if (lines[index].width !== width) {
      path.style.strokeWidth = width;
      lines[index].width = width;
    }
  });
  state.nodes.forEach((node, index) => {
    const supply = Number(node[SUPPLY]);
    const name = cut.has(node[NAME]) ? "cut" : supply > 0 ? "supply" : supply < 0 ? "demand" : "through";
    const dot = dots[index];
    if (dot.dataset.look !== name) {
      dot.setAttribute("class", name);
      dot.dataset.look = name;
      dot.setAttribute("r", name === "through" ? 5 : 7);
    }
    dot.firstChild.textContent = nodeWords(node);
  });
  drawWords();
}

// Of a long name the beginning and the last two letters, in which numbered names differ.
const shortened = (name, letters) => `${name.slice(0, Math.max(1, letters - 3))}\u2026${name.slice(-2)}`;

// Words are put down where there is room for them, first those of the nodes that supply or demand most.
function drawWords() {
  const taken = [];
  const words = [];
  const { width, height } = room;
  const meet = (one, other) => one[0] < other[2] && one[2] > other[0] && one[1] < other[3] && one[3] > other[1];
  const fits = (box) => !taken.some((other) => meet(box, other));
  const put = (x, y, text, letter, anchor, name, anyway) => {
    const wide = text.length * letter;
    const left = anchor === "end" ? x - wide : anchor === "middle" ? x - wide / 2 : x;
    const box = [left, y - 11, left + wide, y + 3];
    if (!anyway && (!fits(box) || box[2] < 0 || box[0] > width || y < 0 || y > height)) return false;
    taken.push(box);
    const element = document.createElementNS(SVG, "text");
    element.setAttribute("x", x.toFixed(1));
    element.setAttribute("y", y.toFixed(1));
    element.setAttribute("text-anchor", anchor);
    element.setAttribute("class", name);
    element.textContent = text;
    words.push(element);
    return true;
  };
  const places = state.nodes.map(placeOf);
  for (const place of places.slice(0, 400)) taken.push([place.x - 6, place.y - 6, place.x + 6, place.y + 6]);
  if (chosen >= 0 && lines[chosen]) {
    const at = lines[chosen].at[2];
    put(at.x, at.y - 5, arcWords(state.arcs[chosen]), 6.4, "middle", lines[chosen].look, true);
  }
  const weight = (node) => Math.abs(Number(node[SUPPLY])) + (cut.has(node[NAME]) ? 1e12 : 0);
  const order = state.nodes.map((node, index) => index);
  order.sort((a, b) => weight(state.nodes[b]) - weight(state.nodes[a]));
  for (const index of order.slice(0, 400)) {
    const node = state.nodes[index];
    const { x, y } = places[index];
    const isInside = state.placed || room.leftmost === room.right || ![room.leftmost, room.right].includes(node[X]);
    const far = isInside ? "middle" : node[X] === room.leftmost ? "end" : "start";
    const supply = nodeWords(node).slice(node[NAME].length);
    const space = far === "end" ? x - 14 : far === "start" ? width - x - 14 : width;
    const letters = Math.max(4, Math.floor(space / LETTER) - supply.length);
    const short = (node[NAME].length > letters ? shortened(node[NAME], letters) : node[NAME]) + supply;
    if (!isInside) put(x + (far === "end" ? -13 : 13), y + 4, short, LETTER, far, "node");
    else if (!put(x, y - 12, short, LETTER, far, "node")) put(x, y + 20, short, LETTER, far, "node");
  }
  const busy = state.arcs.map((arc, index) => index).filter((index) => index !== chosen && lines[index].length > 60 &&
    (state.cut !== null || Number(state.arcs[index][FLOW]) !== 0));
  busy.sort((a, b) => (lines[b].look === "full") - (lines[a].look === "full"));
  let left = Math.max(12, (width * height) / 12000);
  for (const index of busy.slice(0, 150)) {
    const text = arcWords(state.arcs[index]);
    if (!text) continue;
    if (left < 1) break;
    for (const step of [2, 1, 3, 4, 5, 0, 6]) {
      const at = lines[index].at[step];
      if (put(at.x, at.y - 5, text, 6.6, "middle", lines[index].look)) {
        left -= 1;
        break;
      }
    }
  }
  by("words").replaceChildren(...words);
}

function nearest(event) {
  const box = by("map").getBoundingClientRect();
  const [x, y] = [event.clientX - box.left, event.clientY - box.top];
  let [best, found] = [14, -1];
  lines.forEach((line, index) => {
    for (let step = 0; step + 1 < line.at.length; step += 1) {
      const [a, b] = [line.at[step], line.at[step + 1]];
      const [dx, dy] = [b.x - a.x, b.y - a.y];
      const along = Math.max(0, Math.min(1, ((x - a.x) * dx + (y - a.y) * dy) / (dx * dx + dy * dy || 1)));
      const far = Math.hypot(a.x + along * dx - x, a.y + along * dy - y);
      if (far < best) [best, found] = [far, index];
    }
  });
  return found;
}

function zoom(factor) {
  const next = Math.min(60, Math.max(0.5, view.scale * factor));
  view.x *= next / view.scale;
  view.y *= next / view.scale;
  view.scale = next;
  drawMap(true);
}

function listenToMap() {
  const map = by("map");
  let held = null;
  let waiting = false;
  map.addEventListener("pointerdown", (event) => {
    held = { x: event.clientX, y: event.clientY, view: { ...view }, moved: false };
    map.setPointerCapture(event.pointerId);
  });
  map.addEventListener("pointermove", (event) => {
    if (waiting) return;
    waiting = true;
    requestAnimationFrame(() => {
      waiting = false;
      if (held) {
        const [dx, dy] = [event.clientX - held.x, event.clientY - held.y];
        if (!held.moved && Math.hypot(dx, dy) < 4) return;
        held.moved = true;
        view = { ...held.view, x: held.view.x + dx, y: held.view.y + dy };
        drawMap(true);
      } else {
        const index = nearest(event);
        if (index >= 0) point(index);
      }
    });
  });
  map.addEventListener("pointerup", (event) => {
    const moved = held && held.moved;
    held = null;
    if (moved) return;
    const index = nearest(event);
    if (index >= 0) choose(index, true);
  });
  map.addEventListener("pointercancel", () => { held = null; });
  map.addEventListener("wheel", (event) => {
    if (!event.ctrlKey) return;
    event.preventDefault();
    zoom(event.deltaY < 0 ? 1.2 : 1 / 1.2);
  }, { passive: false });
  map.addEventListener("keydown", (event) => {
    const steps = { ArrowLeft: [60, 0], ArrowRight: [-60, 0], ArrowUp: [0, 60], ArrowDown: [0, -60] };
    if (steps[event.key]) {
      view.x += steps[event.key][0];
      view.y += steps[event.key][1];
      drawMap(true);
    } else if (event.key === "+" || event.key === "=") zoom(1.25);
    else if (event.key === "-") zoom(0.8);
    else if (event.key === "0") showWhole();
    else return;
    event.preventDefault();
  });
  by("nearer").addEventListener("click", () => zoom(1.4));
  by("farther").addEventListener("click", () => zoom(1 / 1.4));
  by("whole").addEventListener("click", showWhole);
  new ResizeObserver(() => { if (state) drawMap(true); }).observe(map);
}

// ---------------------------------------------------------------------------------------------------------------------
// Saving, and what is listened to

async function save(name) {
  const reply = await fetch(`/export/${name}`, { headers: { "X-Board-Key": key } });
  if (!reply.ok) {
    tell((await reply.json()).error);
    return;
  }
  const link = document.createElement("a");
  link.href = URL.createObjectURL(await reply.blob());
  link.download = name;
  link.click();
  setTimeout(() => URL.revokeObjectURL(link.href), 60000);
  tell(`${name} is saved where your browser keeps what it loads.`, true);
}

function listen() {
  for (const table of ["arcs", "nodes"]) {
    const element = by(table);
    element.addEventListener("change", (event) => { if (event.target.dataset.what) commit(event.target); });
    element.addEventListener("focusin", (event) => {
      const { what, index } = event.target.dataset;
      if (table === "arcs" && what && Number(index) !== chosen) choose(Number(index), false);
    });
    element.addEventListener("keydown", (event) => {
      const input = event.target;
      if (!input.dataset.what) return;
      if (event.key === "Enter") input.blur();
      if (event.key === "Enter") input.focus();
      else if (event.key === "ArrowDown" || event.key === "ArrowUp") move(input, event.key === "ArrowDown" ? 1 : -1);
      else if (event.key === "Escape") input.value = input.dataset.stands;
      else return;
      event.preventDefault();
    });
  }
  by("arcs").addEventListener("click", (event) => {
    const index = event.target.dataset.close;
    if (index !== undefined) offer({ edit: "close", arc: Number(index) }, `close ${label(state.arcs[index])}`);
  });
  by("undo").addEventListener("click", () => ask({ do: "undo" }));
  by("redo").addEventListener("click", () => ask({ do: "redo" }));
  by("group").addEventListener("click", toggleGroup);
  by("make").addEventListener("click", makeGroup);
  by("drop").addEventListener("click", () => { endGroup(); tell(""); });
  by("find").addEventListener("input", () => { if (state) filter(); });
  by("only-full").addEventListener("change", () => { if (state) filter(); });
  by("with-low").addEventListener("change", showLow);
  for (const end of ["tail", "head"]) {
    by("add").elements[end].addEventListener("input", (event) => offerNames(event.target.value));
  }
  by("export").addEventListener("change", (event) => {
    const name = event.target.value;
    if (!name) return;
    const saved = queue.then(() => save(name)).catch((error) => tell(`${name} is not saved: ${error.message}`));
    saved.then(() => { event.target.value = ""; });
  });
  by("mark").addEventListener("submit", (event) => {
    event.preventDefault();
    const form = event.target;
    ask({ do: "mark", name: form.elements.name.value }).then((made) => { if (made) form.reset(); });
  });
  by("add").addEventListener("submit", (event) => {
    event.preventDefault();
    const form = event.target;
    const { tail, head, cap, cost } = Object.fromEntries(new FormData(form));
    const words = `another arc from ${tail} to ${head}`;
    offer({ edit: "add", tail, head, cap, cost }, words).then((made) => { if (made) form.reset(); });
  });
  document.addEventListener("keydown", (event) => {
    const target = event.target;
    const typing = target.matches("input:not([type=checkbox]), select, textarea");
    const letter = event.key.toLowerCase();
    if ((event.ctrlKey || event.metaKey) && (letter === "z" || letter === "y")) {
      if (typing && target.value !== (target.dataset.stands ?? "")) return;
      event.preventDefault();
      ask({ do: letter === "y" || event.shiftKey ? "redo" : "undo" });
      return;
    }
    if (typing || event.ctrlKey || event.metaKey || event.altKey) return;
    if (letter === "u") ask({ do: "undo" });
    else if (letter === "r") ask({ do: "redo" });
    else if (letter === "g") toggleGroup();
    else if (letter === "m") by("mark").elements.name.focus();
    else if (letter === "f") by("find").focus();
    else return;
    event.preventDefault();
  });
  listenToMap();
  // What is under the header is not seen: whatever is gone to stays below it.
  new ResizeObserver(() => {
    document.documentElement.style.setProperty("--header", `${document.querySelector("header").offsetHeight}px`);
  }).observe(document.querySelector("header"));
  document.addEventListener("visibilitychange", look);
}

listen();
if (key) ask({ do: "state" }).then(lookOn);
else {
  by("worth-words").textContent = "The key is missing:";
  tell("Open the whole address that mcf-plan board printed, with all that stands behind the #.");
}
