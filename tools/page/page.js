"use strict";
// What comes from the server is shown as text alone, never as markup.

const MOST_ROWS = 500, MOST_NODES = 400, MOST_NEIGHBOURS = 50, MOST_HISTORY = 50;
const CAPTIONS = ["name", "title", "path", "code", "id"];
const find = (id) => document.getElementById(id);
const color = d3.scale.category10();
const editor = CodeMirror(find("editor"), { mode: "cypher", lineNumbers: true, lineWrapping: true, extraKeys: { "Ctrl-Enter": run, "Cmd-Enter": run } });
let drawn = { nodes: new Map(), links: new Map(), left: 0 }, marked = null, force = null;

function made(name, text, parent) {
  const element = document.createElement(name);
  element.textContent = text;
  if (parent) parent.append(element);
  return element;
}

// Values

const hasKeys = (value, keys) => Object.keys(value).sort().join() === keys;
const isMap = (value) => value !== null && typeof value === "object" && !Array.isArray(value);
const isNode = (value) => isMap(value) && hasKeys(value, "$node,labels,properties") && Array.isArray(value.labels) && isMap(value.properties);
const isLink = (value) => isMap(value) && hasKeys(value, "$rel,end,properties,start,type") && isMap(value.properties);
const isPath = (value) => isMap(value) && hasKeys(value, "$path") && Array.isArray(value.$path) && value.$path.every((it, at) => (at % 2 ? isLink(it) : isNode(it)));

function name(text) {
  return /^[\p{L}_][\p{L}\p{N}_]*$/u.test(text) ? text : "`" + text.replace(/`/g, "``") + "`";
}

function entries(map) {
  const told = Object.entries(map).map(([key, value]) => `${name(key)}: ${shown(value)}`);
  return told.length ? `{${told.join(", ")}}` : "";
}

function nodeShown(node) {
  return `(${[[node.$node, ...node.labels.map(name)].join(":"), entries(node.properties)].filter(Boolean).join(" ")})`;
}

function linkShown(link) {
  return `[${[`${link.$rel}:${name(link.type)}`, entries(link.properties)].filter(Boolean).join(" ")}]`;
}

function pathShown(path) {
  return path.$path.map((it, at) => {
    if (at % 2 === 0) return nodeShown(it);
    return it.end === path.$path[at + 1].$node ? `-${linkShown(it)}->` : `<-${linkShown(it)}-`;
  }).join("");
}

/** A value as a query would write it. */
function shown(value) {
  if (isNode(value)) return nodeShown(value);
  if (isLink(value)) return `(${value.start})-${linkShown(value)}->(${value.end})`;
  if (isPath(value)) return pathShown(value);
  if (Array.isArray(value)) return `[${value.map(shown).join(", ")}]`;
  if (isMap(value)) return "$integer" in value ? value.$integer : entries(value) || "{}";
  return JSON.stringify(value);
}

/** Gathers the nodes and relationships of a value. */
function gather(value, found) {
  if (isNode(value)) found.nodes.set(value.$node, value);
  else if (isLink(value)) found.links.set(value.$rel, value);
  else if (Array.isArray(value)) value.forEach((it) => gather(it, found));
  else if (isMap(value)) Object.values(value).forEach((it) => gather(it, found));
}

// Requests

async function asked(request) {
  const body = JSON.stringify({ ...request, token: find("token").value });
  try {
    const answer = await fetch("/ask", { method: "POST", headers: { "Content-Type": "application/json" }, body, credentials: "omit" });
    return answer.ok ? await answer.json() : { lost: await answer.text() };
  } catch (fault) {
    return { lost: "the page's server doesn't answer" };
  }
}

function parameters() {
  const told = find("params").value.trim();
  return told ? JSON.parse(told) : {};
}

async function run() {
  const text = editor.getValue();
  if (!text.trim()) return;
  let params;
  try {
    params = parameters();
  } catch (fault) {
    return tellFault({ lost: `the parameters are no JSON: ${fault.message}` });
  }
  remember(text, find("params").value);
  begin();
  const answer = await asked({ op: "query", text, params });
  if (answer.lost || answer.reply.code) return tellFault(answer);
  showRows(answer.reply);
  const found = { nodes: new Map(), links: new Map() };
  gather(answer.reply.rows, found);
  show(found);
}

async function explain() {
  begin();
  const answer = await asked({ op: "explain", text: editor.getValue() });
  if (!answer.plan) return tellFault(answer);
  find("told").textContent = "what each clause tries and is charged for";
  const table = find("table");
  for (const line of answer.plan) made("td", line, table.insertRow());
}

async function tellStatus() {
  const { reply, lost } = await asked({ op: "status" });
  const indexes = (it) => it.indexes.map(([label, key]) => `:${name(label)}(${name(key)})`).join(", ") || "none";
  find("tenant").textContent = lost || (reply.code ? `${reply.error} (${reply.code})` :
    `${reply.elements} of ${reply.max_elements} elements · ${reply.max_steps} steps a request · indexes: ${indexes(reply)}`);
}

function begin() {
  if (marked) marked.clear();
  marked = null;
  find("fault").hidden = true;
  find("told").textContent = "";
  find("table").replaceChildren();
  find("element").hidden = true;
}

function tellFault({ reply, lost, line, column, length, why, shown: pointed, advice }) {
  const box = find("fault");
  box.hidden = false;
  if (lost) {
    box.textContent = lost;
    return;
  }
  const at = line ? ` at line ${line}, column ${column}` : "";
  box.textContent = [`${reply.error} (${reply.code})${at}`, ...(pointed || []), why || advice].join("\n");
  if (line) {
    // (the server counts characters, the editor units of UTF-16)
    const units = (count) => [...(editor.getLine(line - 1) || "")].slice(0, count).join("").length;
    const from = { line: line - 1, ch: units(column - 1) }, to = { line: line - 1, ch: Math.max(units(column - 1 + length), units(column - 1) + 1) };
    marked = editor.markText(from, to, { className: "fault" });
  }
}

// Tables and lists

function showRows({ columns, rows, steps }) {
  const more = rows.length > MOST_ROWS ? `, of which ${MOST_ROWS} are shown` : "";
  find("told").textContent = `${rows.length} row${rows.length === 1 ? "" : "s"}${more}, ${steps} step${steps === 1 ? "" : "s"}`;
  if (!columns.length) return;
  const table = find("table"), head = table.insertRow();
  columns.forEach((column) => made("th", column, head));
  for (const row of rows.slice(0, MOST_ROWS)) {
    const line = table.insertRow();
    row.forEach((value) => made("td", shown(value), line));
  }
}

function entry(list, text, detail, chosen, isFirst) {
  const item = document.createElement("li"), button = made("button", text, item);
  button.type = "button";
  if (detail) made("small", detail, button);
  button.addEventListener("click", chosen);
  isFirst ? list.prepend(item) : list.append(item);
}

function choose(text, params) {
  editor.setValue(text);
  find("params").value = params;
}

function remember(text, params) {
  const list = find("history");
  entry(list, text.split("\n")[0].slice(0, 80), params, () => choose(text, params), true);
  while (list.children.length > MOST_HISTORY) list.lastChild.remove();
}

async function offerQuestions() {
  const questions = await (await fetch("/questions", { credentials: "omit" })).json();
  find("asked").hidden = !questions.length;
  for (const { heading, text, params, changes } of questions) {
    const told = Object.keys(params).length ? JSON.stringify(params) : "";
    entry(find("questions"), heading || text.split("\n")[0], text.split("\n")[0], () => {
      choose(text, told);
      if (!changes) return run();
      begin();
      find("told").textContent = "this changes the graph: Run asks it";
    });
  }
}

// The picture

/** Shows these elements, in place of or beside those that are drawn. */
function show(found, besides = false) {
  const before = besides ? drawn : { nodes: new Map(), links: new Map() };
  const nodes = new Map(before.nodes), links = new Map([...before.links, ...found.links]);
  for (const [id, node] of found.nodes) nodes.set(id, { ...nodes.get(id), node });
  // (of a relationship that came without its nodes the ids alone are known)
  for (const { start, end } of links.values())
    for (const id of [start, end]) if (!nodes.has(id)) nodes.set(id, { node: { $node: id, labels: [], properties: {} }, isBare: true });
  for (const [id, node] of found.nodes) nodes.set(id, { ...nodes.get(id), node, isBare: false });
  const kept = new Map([...nodes].slice(0, MOST_NODES));
  drawn = { nodes: kept, links: new Map([...links].filter(([, it]) => kept.has(it.start) && kept.has(it.end))), left: nodes.size - kept.size };
  draw();
}

function caption({ node }) {
  const key = CAPTIONS.find((it) => it in node.properties);
  const told = key ? String(isMap(node.properties[key]) ? shown(node.properties[key]) : node.properties[key]) : String(node.$node);
  return told.length > 22 ? told.slice(0, 21) + "…" : told;
}

/** How far a relationship is bent: those between the same nodes lie side by side. */
function bends(links) {
  const seen = new Map();
  for (const it of links) {
    const key = [it.link.start, it.link.end].sort((a, b) => a - b).join();
    const number = seen.get(key) || 0;
    seen.set(key, number + 1);
    it.bend = (number % 2 ? -1 : 1) * Math.ceil(number / 2) * (it.link.start < it.link.end ? 1 : -1) * 34;
  }
}

function middle({ source, target, bend }) {
  const dx = target.x - source.x, dy = target.y - source.y, far = Math.hypot(dx, dy) || 1;
  return [(source.x + target.x) / 2 - (dy / far) * bend, (source.y + target.y) / 2 + (dx / far) * bend];
}

function line(it) {
  const { source, target } = it;
  if (source === target) return `M${source.x - 6},${source.y - 14}C${source.x - 50},${source.y - 62} ${source.x + 50},${source.y - 62} ${source.x + 6},${source.y - 14}`;
  const [x, y] = middle(it), far = Math.hypot(target.x - x, target.y - y) || 1;
  const end = [target.x - ((target.x - x) / far) * 20, target.y - ((target.y - y) / far) * 20];
  return `M${source.x},${source.y}Q${2 * x - (source.x + end[0]) / 2},${2 * y - (source.y + end[1]) / 2} ${end[0]},${end[1]}`;
}

function draw() {
  if (force) force.stop();
  const svg = d3.select("#graph"), box = svg.node().getBoundingClientRect(), nodes = [...drawn.nodes.values()];
  svg.selectAll("*").remove();
  const links = [...drawn.links.values()].map((link) => ({ link, source: drawn.nodes.get(link.start), target: drawn.nodes.get(link.end) }));
  bends(links);
  svg.append("defs").append("marker").attr({ id: "head", viewBox: "0 -4 8 8", refX: 7, markerWidth: 6, markerHeight: 6, orient: "auto" })
    .append("path").attr({ d: "M0,-4L8,0L0,4", fill: "#9aa5b4" });
  const all = svg.append("g");
  svg.call(d3.behavior.zoom().scaleExtent([0.2, 4]).on("zoom", () => all.attr("transform", `translate(${d3.event.translate})scale(${d3.event.scale})`))).on("dblclick.zoom", null);
  const lines = all.selectAll(".link").data(links).enter().append("path").attr({ class: "link", "marker-end": "url(#head)" });
  const types = all.selectAll(".type").data(links).enter().append("text").attr("class", "type").text((it) => it.link.type);
  force = d3.layout.force().nodes(nodes).links(links).size([box.width, box.height]).linkDistance(95).charge(-420);
  const groups = all.selectAll(".node").data(nodes).enter().append("g").attr("class", (it) => (it.isBare ? "node bare" : "node"))
    .on("click", chosen).on("dblclick", (it) => { d3.event.stopPropagation(); expand(it); }).call(force.drag().on("dragstart", () => d3.event.sourceEvent.stopPropagation()));
  groups.append("circle").attr("r", 15).style("fill", (it) => (it.isBare ? null : color(it.node.labels[0] || "")));
  groups.append("text").attr("dy", 28).text(caption);
  groups.append("title").text((it) => nodeShown(it.node));
  force.on("tick", () => {
    for (const it of nodes) { it.x = Math.max(24, Math.min(box.width - 24, it.x)); it.y = Math.max(24, Math.min(box.height - 36, it.y)); }
    lines.attr("d", line);
    types.attr({ x: (it) => (it.source === it.target ? it.source.x : middle(it)[0]), y: (it) => (it.source === it.target ? it.source.y - 54 : middle(it)[1] - 3) });
    groups.attr("transform", (it) => `translate(${it.x},${it.y})`);
  });
  force.start();
  for (let turn = 0; turn < 150; turn += 1) force.tick();
  legend(nodes);
}

function legend(nodes) {
  const counts = new Map(), box = find("legend");
  for (const { node, isBare } of nodes) if (!isBare) counts.set(node.labels[0] || "", (counts.get(node.labels[0] || "") || 0) + 1);
  box.replaceChildren();
  for (const [label, count] of counts) {
    const mark = d3.select(box).append("svg");
    mark.append("rect").attr({ width: 10, height: 10, rx: 5 }).style("fill", color(label));
    made("span", `${label || "no label"} ${count}`, box);
  }
  if (drawn.left) made("span", ` · ${drawn.left} more nodes aren't drawn`, box);
}

function chosen(it) {
  if (d3.event.defaultPrevented) return;
  d3.selectAll(".node").classed("chosen", (other) => other === it);
  find("element").hidden = false;
  find("named").textContent = `(${[it.node.$node, ...it.node.labels.map(name)].join(":")})`;
  const table = find("properties");
  table.replaceChildren();
  for (const [key, value] of Object.entries(it.node.properties)) {
    const row = table.insertRow();
    made("th", key, row);
    made("td", shown(value), row);
  }
}

/** Draws what a node is joined to, beside what is drawn. */
async function expand({ node }) {
  const label = node.labels.length ? ":`" + node.labels[0].replace(/`/g, "``") + "`" : "";
  const text = `MATCH (n${label})-[r]-(m) WHERE id(n) = $id RETURN n, r, m LIMIT ${MOST_NEIGHBOURS}`;
  const answer = await asked({ op: "query", text, params: { id: node.$node } });
  if (answer.lost || answer.reply.code) return tellFault(answer);
  const found = { nodes: new Map(), links: new Map() };
  gather(answer.reply.rows, found);
  show(found, true);
  find("told").textContent = `neighbours of ${node.$node}: ${answer.reply.rows.length} relationships, ${answer.reply.steps} steps`;
}

find("run").addEventListener("click", run);
find("explain").addEventListener("click", explain);
find("status").addEventListener("click", tellStatus);
find("token").addEventListener("change", tellStatus);
offerQuestions();
editor.setValue("MATCH (n) OPTIONAL MATCH (n)-[r]->(m) RETURN n, r, m LIMIT 100");
