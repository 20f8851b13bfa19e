// The page of the playground: it shows what the server sees of the nodes and links, and sends it what is typed and which buttons are pressed.

import { oneLine, readJson, shown } from "./json_text.js";

const NUMBERS = [1, 2, 3];
const LINKS = [[1, 2], [1, 3], [2, 3]];
const REPLIES = 8;
const DOTS = 18;
const PLACES = { 1: [22, 50], 2: [75, 16], 3: [128, 50] };
const EXAMPLES = [
  ["Insert a subject", '{\n  "@id": "fred",\n  "name": "Fred",\n  "knows": {"@id": "wilma"}\n}'],
  ["Insert with a note", '{\n  "@id": "wilma",\n  "name": "Wilma",\n  "note": {"text": "Called at nine."}\n}'],
  ["Change a value", '{\n  "@delete": {"@id": "fred", "name": "?old"},\n  "@insert": {"@id": "fred", "name": "Frederick"}\n}'],
  ["Remove a subject", '{\n  "@delete": {"@id": "fred", "?property": "?value"}\n}'],
  ["Who has a name?", '{\n  "@select": ["?who", "?name"],\n  "@where": {"@id": "?who", "name": "?name"}\n}'],
  ["Describe one", '{\n  "@describe": "fred"\n}'],
  ["Show all pairs", "show"],
  ["Compact the journal", "compact"],
];
const FIRST = { 1: 0, 2: 2, 3: 4 };

const state = {};
const columns = {};
const svg = (name, given) => {
  const made = document.createElementNS("http://www.w3.org/2000/svg", name);
  for (const [key, value] of Object.entries(given)) made.setAttribute(key, value);
  return made;
};
const element = (name, kind, text = "") => {
  const made = document.createElement(name);
  if (kind) made.className = kind;
  made.textContent = text;
  return made;
};
const node = (number) => state[`node ${number}`];
const link = (one, other) => state[`link ${Math.min(one, other)} ${Math.max(one, other)}`];
const plural = (count, word) => `${count} ${word}${count === 1 ? "" : "s"}`;
const listed = (numbers) => (numbers.length > 1 ? "nodes " : "node ") + numbers.join(" and ");
const isDown = (number) => ["killed", "ended"].includes(node(number).state);
const total = (known) => Object.values(known).reduce((sum, tick) => sum + tick, 0);

async function post(path, what) {
  const answer = await fetch(path, { method: "POST", headers: { "Content-Type": "application/json" }, body: JSON.stringify(what) });
  if (!answer.ok) throw new Error(await answer.text());
  return answer.json();
}

function tellAway() {
  document.body.classList.add("away");
  document.getElementById("summary").textContent = "The playground doesn't answer. Is it still running?";
}

// ---- What is typed

// The value of a text where that is whole JSON, else null.
function whole(text) {
  try {
    return JSON.parse(text);
  } catch {
    return null;
  }
}

// The word that a text of JSON is sent behind; of what isn't JSON, none.
function wordOf(text) {
  if (!text.trim().startsWith("{")) return "";
  const value = whole(text);
  return value && ("@select" in value || "@describe" in value) ? "query" : "update";
}

// A text as a line: what ends its lines stands in no string of JSON, so a space does as well there.
function lineOf(text) {
  const word = wordOf(text);
  return (word && word + " ") + text.trim().replace(/\s*[\r\n]+\s*/g, " ");
}

function isToSend(event, text) {
  if (event.key !== "Enter" || event.shiftKey || event.isComposing) return false;
  return event.ctrlKey || event.metaKey || (text.trim().startsWith("{") ? whole(text) !== null : text.trim() !== "" && !text.includes("\n"));
}

// ---- Replies

function replyBody(text) {
  if (text.startsWith("[")) {
    const value = readJson(text);
    if (!value.items.length) return element("p", "answer quiet", "[]");
    const made = element("div", "answer");
    made.append(...value.items.map(shown));
    return made;
  }
  const isDone = /^(did|has|kept|sent|stopped|none)\b/.test(text);
  return element("pre", isDone ? "answer done" : "answer refused", text.trimEnd());
}

function addReply(column, line) {
  const entry = element("li", "waits");
  entry.append(element("p", "request", line), element("p", "answer quiet", "…"));
  column.replies.querySelector("li.quiet")?.remove();
  column.replies.prepend(entry);
  while (column.replies.children.length > REPLIES) column.replies.lastChild.remove();
  column.replies.scrollTop = 0;
  return (body) => {
    entry.classList.remove("waits");
    entry.lastChild.replaceWith(body);
  };
}

async function send(column) {
  const line = lineOf(column.text.value);
  if (!line) return;
  const tell = addReply(column, line);
  try {
    const { reply, fault } = await post("ask", { node: column.number, line });
    tell(reply === null ? element("p", "answer lost", `no reply: ${fault}`) : replyBody(reply));
  } catch (fault) {
    tell(element("p", "answer lost", `no reply: ${fault.message}`));
  }
}

// ---- What a column shows

function drawGraph(column, { graph }) {
  if (graph === column.graph) return;
  const before = new Set([...column.subjects.querySelectorAll("pre")].map((it) => it.textContent));
  const isAnswer = graph?.startsWith("[");
  const made = isAnswer ? readJson(graph).items.map(shown) : [];
  for (const it of made) it.classList.toggle("fresh", column.graph !== undefined && !before.has(it.textContent));
  column.subjects.replaceChildren(...made);
  if (!made.length) column.subjects.append(element("p", "quiet", isAnswer ? "Nothing is said yet." : graph ?? "No clone yet."));
  column.graphCount.textContent = made.length ? plural(made.length, "subject") : "";
  column.graph = graph;
}

// The most that any node knows of each path.
function allKnown() {
  const all = {};
  for (const it of NUMBERS) {
    for (const [path, tick] of Object.entries(node(it).known ?? {})) all[path] = Math.max(all[path] ?? 0, tick);
  }
  return all;
}

function pathRow(path, tick, most) {
  const row = element("li", "");
  const first = Math.max(1, most - DOTS + 1);
  const text = tick === 0 ? `none of ${most}` : tick === 1 ? "1" : `1–${tick}`;
  const dots = element("span", "dots");
  dots.setAttribute("aria-hidden", "true");
  if (first > 1) dots.append(element("span", "more", "…"));
  for (let it = first; it <= most; it++) dots.append(element("span", it <= tick ? "dot" : "dot lacks"));
  row.append(element("span", "path", path), dots, element("span", "ticks", tick === most ? text : tick ? `${text} of ${most}` : text));
  return row;
}

function drawKnown(column, { known }) {
  const all = allKnown();
  const rows = Object.keys(all).sort().map((path) => pathRow(path, known?.[path] ?? 0, all[path]));
  const text = rows.map((it) => it.textContent).join() + JSON.stringify(known);
  if (text === column.knownText) return;
  column.knownText = text;
  column.known.replaceChildren(...(known && rows.length ? rows : [element("li", "quiet", known ? "No dot yet." : "Nothing.")]));
  column.knownCount.textContent = known && total(known) ? plural(total(known), "dot") : "";
}

const STATES = { starting: "starting", live: "running", asks: "asks for a leaf", killed: "killed", ended: "ended" };

function drawHead(column, { state: now, status }) {
  const isUp = !isDown(column.number);
  column.section.dataset.state = now;
  column.state.textContent = STATES[now] + (now === "ended" && status !== null ? `, status ${status}` : "");
  column.power.textContent = isUp ? "Kill" : "Start";
  column.power.setAttribute("aria-label", `${isUp ? "Kill" : "Start"} node ${column.number}`);
  column.power.classList.toggle("bad", isUp);
}

function drawLinks(column) {
  for (const [other, row] of Object.entries(column.links)) {
    const { is_cut: isCut, is_there: isThere } = link(column.number, other);
    row.line.dataset.state = isCut ? "cut" : isThere ? "there" : "waits";
    row.text.textContent = isCut ? "cut" : isThere ? "connected" : "waits";
    row.button.textContent = isCut ? "Heal" : "Cut";
    row.button.setAttribute("aria-label", `${isCut ? "Heal" : "Cut"} the link between node ${column.number} and node ${other}`);
  }
}

// ---- Who knows the same

// The nodes that run, those together that know the same dots; the largest group first.
function groups() {
  const found = new Map();
  for (const it of NUMBERS) {
    const { state: now, known } = node(it);
    if (now !== "live") continue;
    const key = JSON.stringify(Object.entries(known).sort());
    found.set(key, [...(found.get(key) ?? []), it]);
  }
  return [...found.values()].sort((one, other) => other.length - one.length || one[0] - other[0]);
}

function sameText(number, group, all) {
  const lacks = total(all) - total(node(number).known ?? {});
  const others = group.filter((it) => it !== number);
  const missing = lacks ? `, lacks ${plural(lacks, "dot")}` : "";
  return others.length ? `Knows the same as ${listed(others)}${missing}` : `Differs from all others${missing}`;
}

function drawGroups() {
  const all = allKnown();
  const found = groups();
  const of = (number) => found.findIndex((group) => group.includes(number));
  for (const number of NUMBERS) {
    const { section, same } = columns[number];
    const place = of(number);
    section.dataset.group = place < 0 ? "none" : place;
    section.classList.toggle("joined", place >= 0 && place === of(number + 1));
    section.classList.toggle("joins", place >= 0 && place === of(number - 1));
    const isAlone = place >= 0 && found.flat().length === 1;
    const isPast = isDown(number) && node(number).graph !== null;
    same.textContent = isPast ? "As it was seen last" : place < 0 ? "" : isAlone ? "No other node runs" : sameText(number, found[place], all);
  }
  tellSummary(found, all);
  drawNet(of);
}

function tellSummary(found, all) {
  const down = NUMBERS.filter(isDown);
  const waiting = NUMBERS.filter((it) => ["starting", "asks"].includes(node(it).state));
  const same = found.filter((it) => it.length > 1);
  const parts = [];
  const say = (numbers, one, many) => numbers.length && parts.push(`N${listed(numbers).slice(1)} ${numbers.length > 1 ? many : one}.`);
  if (same.length && same[0].length === NUMBERS.length) parts.push(`All three know the same${total(all) ? ` ${plural(total(all), "dot")}` : ""}.`);
  else if (same.length) say(same[0], "", "know the same");
  else if (found.length > 1) parts.push("No two know the same.");
  if (same.length) say(found.slice(1).flat(), "differs", "differ");
  say(down, "is down", "are down");
  say(waiting, "starts", "start");
  const summary = document.getElementById("summary");
  if (summary.textContent !== parts.join(" ")) summary.textContent = parts.join(" ");
}

function drawNet(of) {
  const net = document.getElementById("net");
  const made = [];
  const said = [];
  for (const [one, other] of LINKS) {
    const { is_cut: isCut, is_there: isThere } = link(one, other);
    const [[x1, y1], [x2, y2]] = [PLACES[one], PLACES[other]];
    made.push(svg("line", { x1, y1, x2, y2, class: isCut ? "cut" : isThere ? "there" : "waits" }));
    said.push(`${one} to ${other} ${isCut ? "cut" : isThere ? "connected" : "waits"}`);
  }
  for (const number of NUMBERS) {
    const [cx, cy] = PLACES[number];
    const place = of(number);
    made.push(svg("circle", { cx, cy, r: 12, "data-group": place < 0 ? "none" : place }));
    const text = svg("text", { x: cx, y: cy + 4, "data-group": place < 0 ? "none" : place });
    text.textContent = number;
    made.push(text);
  }
  net.setAttribute("aria-label", `Links: ${said.join(", ")}`);
  net.replaceChildren(...made);
}

function draw() {
  for (const number of NUMBERS) {
    const column = columns[number];
    drawHead(column, node(number));
    drawGraph(column, node(number));
    drawKnown(column, node(number));
    drawLinks(column);
  }
  drawGroups();
}

// ---- The columns

function linkRow(number, other) {
  const line = element("li", "");
  const text = element("span", "how");
  const name = element("span", "", `Node ${other}`);
  const button = element("button", "");
  button.type = "button";
  button.addEventListener("click", () => {
    const ends = [Math.min(number, other), Math.max(number, other)];
    post("link", { ends, cut: !link(number, other).is_cut }).catch(tellAway);
  });
  name.append(text);
  line.append(element("span", "light"), name, button);
  return { line, text, button };
}

function setEditor(column) {
  const form = column.section.querySelector("form");
  const choice = form.querySelector("select");
  const button = form.querySelector("button");
  const told = () => (button.textContent = `Send ${wordOf(column.text.value) || "line"}`);
  const put = () => {
    column.text.value = EXAMPLES[choice.value][1];
    told();
  };
  column.text.id = `text${column.number}`;
  form.querySelector("label").htmlFor = column.text.id;
  choice.setAttribute("aria-label", `Examples for node ${column.number}`);
  EXAMPLES.forEach(([name], place) => choice.append(new Option(name, place)));
  choice.value = FIRST[column.number];
  choice.addEventListener("change", put);
  column.text.addEventListener("input", told);
  column.text.addEventListener("keydown", (event) => {
    if (!isToSend(event, column.text.value)) return;
    event.preventDefault();
    send(column);
  });
  form.addEventListener("submit", (event) => {
    event.preventDefault();
    send(column);
  });
  put();
}

function makeColumn(number) {
  const section = document.getElementById("column").content.firstElementChild.cloneNode(true);
  const find = (what) => section.querySelector(what);
  const [graphCount, knownCount] = section.querySelectorAll(".count");
  const column = {
    number, section, graphCount, knownCount, links: {},
    state: find(".state"), power: find(".power"), same: find(".same"), subjects: find(".subjects"),
    text: find("textarea"), replies: find(".replies"), known: find(".known"),
  };
  section.dataset.node = number;
  section.setAttribute("aria-labelledby", `name${number}`);
  find("h2").id = `name${number}`;
  find("h2").textContent = `Node ${number}`;
  column.subjects.setAttribute("aria-label", `Graph of node ${number}`);
  column.replies.setAttribute("aria-label", `Replies of node ${number}`);
  column.power.addEventListener("click", () => {
    post("power", { node: number, on: isDown(number) }).catch(tellAway);
  });
  for (const other of NUMBERS.filter((it) => it !== number)) {
    column.links[other] = linkRow(number, other);
    find(".links").append(column.links[other].line);
  }
  setEditor(column);
  columns[number] = column;
  return section;
}

function listen() {
  const events = new EventSource("events");
  events.onmessage = (event) => {
    document.body.classList.remove("away");
    const news = JSON.parse(event.data);
    if (!Object.keys(news).length) return;
    Object.assign(state, news);
    draw();
  };
  events.onerror = tellAway;
}

document.getElementById("columns").append(...NUMBERS.map(makeColumn));
listen();
