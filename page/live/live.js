"use strict";
// The state of the page, in one place, and what a hand can do to it. Every action asks the engine, notes the answer and shows the state anew.

const state = {
  engine: null, desk: null, site: null, // the engine, what is lent to it, the site that is shown
  opening: null,                        // the site that is being opened, or null
  x: [], y: [], view: { zoom: 1, x: 0, y: 0 },
  layers: { rings: true, stairs: true, names: true },
  first: -1, second: -1,                // the radios chosen
  proposal: null,                       // what asking said of a link
  change: null,                         // what the last link call said
  node: null,                           // the node of the shell tree that is looked at, with the radios of its core
  facts: null,                          // what the engine says of the site now
  said: null, calls: [],                // the last answer in words, and the answers before it, newest first
};

// ---- answers in words

const words = number => `refused by ${number}: ${HEADER.words[number]}`;
const some = (radios, most = 60) => radios.slice(0, most).join(" ") + (radios.length > most ? " .." : "");
const many = (count, thing) => `${count.toLocaleString("en")} ${thing}${count === 1 ? "" : "s"}`;

function linkWords({ number, step, radios, verb }) {
  if (number) return words(number);
  const asked = verb === "ask";
  if (!radios.length) return asked ? "would change no number" : "changed no number";
  const moved = step > 0 ? (asked ? "would rise" : "rose") : (asked ? "would fall" : "fell");
  return `${radios.length} ${moved} by one: ${some(radios)}`;
}

const linkCall = ({ verb, up, a, b }) => `${verb === "link" ? "" : verb + " "}${up ? "up" : "down"} ${a} ${b}`;

// Notes an answer: it is said, and stands in front of the calls.
function note(call, text, number = 0, step = 0) {
  state.said = { call, text, number, step };
  state.calls.unshift(state.said);
  state.calls.length = Math.min(state.calls.length, 200);
}

// ---- the site

// What the engine says of a site beside its tables.
function factsOf(site) {
  const tree = site.tree(), key = ([a, b]) => a * HEADER.limits.RADIOS + b;
  const nodes = tree.nodes.map(node => ({ ...node, size: node.name === HEADER.limits.ROOT ? site.n : site.core(node.name, node.level).value }));
  return {
    links: site.links(), greatest: Math.max(...site.numbers), backbone: new Set(site.backbone().radios), nodes, names: tree.names,
    stairs: new Set(site.staircase().links.map(key)),
  };
}

function refresh() {
  state.facts = factsOf(state.site);
  const { node, facts } = state;
  if (node) look(facts.nodes.find(x => x.name === node.name && x.level === node.level) || null);
  show();
}

function letGo() { Object.assign(state, { first: -1, second: -1, proposal: null }); }

// The connected parts, by the core at level 0.
function partsOf(site) {
  const seen = new Uint8Array(site.n), parts = [];
  for (let v = 0; v < site.n; v++) {
    if (seen[v]) continue;
    const part = site.core(v, 0).radios;
    for (const w of part) seen[w] = 1;
    parts.push(part);
  }
  return parts;
}

// The width of the drawing by its height.
const shape = () => byId("mesh").clientWidth / Math.max(byId("mesh").clientHeight, 1);

function layOut(places) {
  const { site } = state;
  Object.assign(state, places || laidOut(site.n, site.links(), partsOf(site), shape()));
  state.view = fitted(state, byId("mesh"));
}

// A site of n radios, cleared, beside the one that is shown.
function beside(n) {
  const site = new Site(state.engine, state.desk, n, state.site ? 1 - state.site.place : 0);
  state.opening = site;
  return site;
}

// Shows a site in place of the one before. Marks are of sites with one count of radios: with another the store is empty.
function enter(site, places) {
  if (state.site && state.site.n !== site.n) state.engine.bytes(state.desk.store).fill(0);
  letGo();
  Object.assign(state, { site, opening: null, change: null, node: null });
  state.layers.names = site.n <= 120;
  layOut(places);
  refresh();
}

// ---- opening

const NUMBER = "(0|[1-9][0-9]{0,4})", FIRST = new RegExp(`^radios ${NUMBER}$`), LATER = new RegExp(`^(up|down) ${NUMBER} ${NUMBER}$`);

function openBytes(name, bytes) {
  const text = new TextDecoder("latin1").decode(bytes.subarray(0, 6));
  return text === "radios" ? openScript(name, new TextDecoder("latin1").decode(bytes)) : openImage(name, bytes);
}

function fail(call, text, number = 1) {
  note(call, text, number);
  show();
}

function openImage(name, bytes) {
  const most = state.desk.image.count, says = bytes.length > 5 ? bytes[4] + 256 * bytes[5] : 1;
  if (bytes.length > most) return fail(`open ${name}`, `no script, and longer than the longest image, ${most.toLocaleString("en")} bytes`);
  const n = says >= 1 && says <= HEADER.limits.RADIOS ? says : 1, site = beside(n), { number } = site.read(bytes);
  state.opening = null;
  if (number) return fail(`open ${name}`, `no script; as an image ${words(number)}`, number);
  note(`open ${name}`, `an image of ${many(n, "radio")}`);
  enter(site);
}

// A line of the script that is refused is told, and the next is played, as the replay program does; a line of another form opens nothing.
async function openScript(name, text) {
  const lines = text.split("\n"), first = FIRST.exec(lines[0]), n = first && lines.length > 1 ? Number(first[1]) : 0;
  if (n < 1 || n > HEADER.limits.RADIOS) return fail(`open ${name}`, badLine(1));
  const site = beside(n), { bad, refused } = await played(site, lines);
  if (state.opening !== site) return;
  if (bad) { state.opening = null; return fail(`open ${name}`, badLine(bad)); }
  for (const { line, number } of refused.slice(-20)) note(`line ${line}`, words(number), number);
  note(`open ${name}`, `a script of ${many(lines.length - 2, "call")}, ${refused.length || "none"} refused`);
  enter(site);
}

const badLine = line => `no line of the language stands in line ${line} of the script`;

// Plays the lines after the first; a long script gives the page its turn between.
async function played(site, lines) {
  const refused = [], last = lines.length - 1;
  for (let i = 1, due = performance.now() + 40; i <= last; i++) {
    const found = LATER.exec(lines[i]), values = found ? [Number(found[2]), Number(found[3])] : [];
    if (i === last && lines[i] === "") break;
    if (!found || i === last || values.some(x => x > 65535)) return { bad: i + 1 };
    const { number } = site.link("link", found[1] === "up", ...values);
    if (number) refused.push({ line: i + 1, number });
    if (performance.now() < due) continue;
    byId("say").textContent = `line ${i.toLocaleString("en")} of ${last.toLocaleString("en")} ..`;
    await new Promise(go => setTimeout(go));
    if (state.opening !== site) break;
    due = performance.now() + 40;
  }
  return { refused };
}

function openEmpty(n) {
  const site = beside(n);
  note(`clear ${n}`, "no links");
  enter(site);
}

// n places at random in a field of this size, each the farthest of some from those before it.
function scattered(n, wide, high) {
  const random = seeded(n + 1), x = new Float64Array(n), y = new Float64Array(n);
  for (let v = 0; v < n; v++) {
    let most = -1;
    for (let tries = 0; tries < 2; tries++) {
      const [px, py] = [wide * random(), high * random()];
      let near = Infinity;
      for (let w = 0; w < v; w++) near = Math.min(near, Math.hypot(px - x[w], py - y[w]));
      if (near > most) { most = near; x[v] = px; y[v] = py; }
    }
  }
  return { x, y };
}

// Radios scattered on a plane, linked within a reach that gives about 8 neighbours, in one batch.
function openPlane(n) {
  const site = beside(n), side = 46 * Math.sqrt(n), long = Math.sqrt(shape()), { x, y } = scattered(n, side * long, side / long), links = [];
  const reach = 46 * Math.sqrt(8 / Math.PI);
  for (let a = 0; a < n; a++) for (let b = a + 1; b < n; b++) if (Math.hypot(x[a] - x[b], y[a] - y[b]) < reach) links.push([a, b]);
  const { number, value } = site.batch(links);
  note(`batch of ${many(links.length, "link")}`, number ? `${value} done, then ${words(number)}` : "all are up", number);
  enter(site, { x, y });
}

// ---- links

function choose(v) {
  const { first, second } = state;
  if (v < 0 || v === first && second < 0) letGo();
  else if (first < 0 || second >= 0) { letGo(); Object.assign(state, { first: v, change: null, said: null }); }
  else return choosePair(first, v);
  show();
}

function choosePair(a, b) {
  const up = !state.site.linked(a, b);
  if (byId("askfirst").checked) askLink(up, a, b); else takeLink(up, a, b);
}

function askLink(up, a, b) {
  const answer = state.site.link("ask", up, a, b), fits = v => v < state.site.n ? v : -1;
  Object.assign(state, { proposal: answer, change: null, first: fits(a), second: fits(b) });
  note(linkCall(answer), linkWords(answer), answer.number, answer.step);
  show();
}

function took(answer) {
  letGo();
  state.change = answer;
  note(linkCall(answer), linkWords(answer), answer.number, answer.step);
  refresh();
}

const takeLink = (up, a, b) => took(state.site.link("link", up, a, b));
const commitLink = () => took(state.site.commit(state.proposal));

// The first link that would raise the radio's number is asked about, so that it can be taken up.
function lift(v) {
  const { number, low, high } = state.site.lift(v);
  if (!number) askLink(true, low, high);
  note(`lift ${v}`, number ? words(number) : `link ${low} ${high} would raise it`, number);
  show();
}

// ---- the shell tree

function look(node) {
  const whole = !node || node.name === HEADER.limits.ROOT;
  state.node = whole ? null : { ...node, radios: state.site.core(node.name, node.level).radios };
}

function lookAt(name) {
  const same = state.node && state.node.name === name, node = state.facts.nodes.find(x => x.name === name);
  look(same ? null : node);
  if (state.node) note(`core ${node.name} ${node.level}`, `${many(state.node.radios.length, "radio")}: ${some(state.node.radios)}`);
  show();
}

// ---- marks, and what is saved

const MARKED = { set: "the state has this name now", return: "links, numbers and order as they were", remove: "the name is free" };

function mark(verb, name) {
  const { number } = state.site.mark(verb, name);
  note(`${verb} ${name}`, number ? words(number) : MARKED[verb], number);
  if (number || verb !== "return") return show();
  letGo();
  state.change = null;
  refresh();
}

const FILES = { image: "site.img", script: "site.txt", sheet: "sheet.txt" };

function save(kind) {
  const { number, bytes } = state.site[kind]();
  note(kind, number ? words(number) : `${many(bytes.length, "byte")} in ${FILES[kind]}`, number);
  if (!number) {
    const link = Object.assign(document.createElement("a"), { download: FILES[kind], href: URL.createObjectURL(new Blob([bytes])) });
    link.click();
    setTimeout(() => URL.revokeObjectURL(link.href), 10000);
  }
  show();
}
