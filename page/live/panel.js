"use strict";
// The panel and the dock: the state, in words and buttons.

const byId = id => document.getElementById(id);

function make(tag, parts = {}, ...children) {
  const { data = {}, ...rest } = parts, element = Object.assign(document.createElement(tag), rest);
  for (const [name, value] of Object.entries(data)) element.setAttribute(name, value);
  element.append(...children);
  return element;
}

function show() {
  const { site, facts } = state;
  byId("summary").textContent = `${many(site.n, "radio")}, ${many(facts.links.length, "link")}, greatest number ${facts.greatest}`;
  document.title = `Summerbugle: ${many(site.n, "radio")}`;
  for (const box of document.querySelectorAll("[data-layer]")) box.checked = state.layers[box.dataset.layer];
  showDock();
  showScale();
  showTree();
  byId("marks").replaceChildren(...markNames(state.engine, state.desk.store).map(markLine));
  byId("calls").replaceChildren(...state.calls.slice(0, 60).map(callLine));
  draw(state, byId("mesh"));
}

// ---- what is chosen, and what was said last

function showDock() {
  const { first, second, proposal, said } = state, one = first >= 0 && second < 0, good = proposal && proposal.number === 0;
  byId("say").className = said && said.number ? "bad" : "";
  byId("say").replaceChildren(...(said ? saidParts(said) : one ? radioParts(first) : ["Choose a radio, then another: the link between them goes up or down."]));
  if (good && said.call !== linkCall(proposal)) byId("say").append(make("br"), ...saidParts(proposalNote(proposal)));
  byId("take").hidden = !good;
  if (good) byId("take").textContent = `take it ${proposal.up ? "up" : "down"}`;
  byId("lift").hidden = byId("own").hidden = !one;
  byId("leave").hidden = first < 0 && !proposal;
}

const proposalNote = proposal => ({ call: linkCall(proposal), text: linkWords(proposal), step: proposal.step });

function saidParts({ call, text, step }) {
  return [make("code", { textContent: call }), " ", make("span", { textContent: text, className: step > 0 ? "step rise" : step < 0 ? "step fall" : "" })];
}

function radioParts(v) {
  const { core, neighbours, later } = state.site.radio(v);
  const woken = later.first === HEADER.limits.NOBODY ? "nobody later in the order" : `woken through radio ${later.first}`;
  const told = `: number ${core}, ${many(neighbours, "neighbour")}, ${woken}. Choose another radio to take a link up or down.`;
  return [make("b", { textContent: `radio ${v}` }), told];
}

function callLine({ call, text, number }) {
  return make("li", { className: number ? "bad" : "" }, make("code", { textContent: call }), " " + text);
}

// ---- numbers, marks

function showScale() {
  const top = state.facts.greatest, spans = [];
  for (let x = 0; x <= top; x++) {
    const { fill, ink } = colour(x, top), span = make("span", { textContent: x });
    Object.assign(span.style, { background: fill, color: ink });
    spans.push(span);
  }
  byId("scale").replaceChildren(...spans);
}

function markLine(name) {
  const button = (verb, words) => make("button", { textContent: words, onclick: () => mark(verb, name), data: { "aria-label": `${words} ${name}` } });
  return make("li", {}, make("b", { textContent: name }), button("return", "come back"), button("remove", "remove"));
}

// ---- the shell tree: a button a node, under its parent

function showTree() {
  const below = new Map(), { nodes } = state.facts, held = document.activeElement && document.activeElement.dataset.node;
  for (const node of nodes) if (node.name !== HEADER.limits.ROOT) below.set(node.parent, [...(below.get(node.parent) || []), node]);
  byId("tree").replaceChildren(branch([nodes[0]], below));
  if (held) nodeButton(held)?.focus();
}

function branch(nodes, below) {
  return make("ul", { data: { role: "group" } }, ...nodes.map(node => {
    const children = below.get(node.name) || [], li = make("li", { data: { role: "none" } }, nodeItem(node));
    if (children.length) li.append(branch(children, below));
    return li;
  }));
}

function nodeItem(node) {
  const root = node.name === HEADER.limits.ROOT, chosen = state.node ? state.node.name === node.name : root;
  return make("button", {
    textContent: root ? `root: ${many(node.size, "radio")}` : `level ${node.level}, node ${node.name}: ${many(node.size, "radio")}`,
    onclick: () => lookAt(node.name),
    tabIndex: chosen ? 0 : -1,
    data: { role: "treeitem", "aria-level": node.level + 1, "aria-selected": chosen, "data-node": node.name, "data-parent": root ? "" : node.parent },
  });
}

const nodeButton = name => document.querySelector(`[data-node="${name}"]`);

// An arrow key in the tree: up and down by lines, left to the parent, right to the first child.
function walkTree(key) {
  const all = [...byId("tree").querySelectorAll("[data-node]")], own = document.activeElement, at = all.indexOf(own);
  const child = all.find(x => x.dataset.parent === own.dataset.node);
  const to = { ArrowUp: all[at - 1], ArrowDown: all[at + 1], ArrowLeft: nodeButton(own.dataset.parent), ArrowRight: child }[key];
  if (at < 0 || !to) return;
  to.focus();
  to.click();
}
