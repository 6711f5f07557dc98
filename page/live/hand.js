"use strict";
// What a hand does: clicks, fingers, keys, files dropped; and the start.

const on = (id, event, act) => byId(id).addEventListener(event, act);

// ---- the canvas: choose, drag a radio or the drawing, zoom

const grip = { fingers: new Map(), radio: -1, moved: false };

function zoomBy(f, x = byId("mesh").clientWidth / 2, y = byId("mesh").clientHeight / 2) {
  const { view } = state, zoom = Math.max(0.05, Math.min(12, view.zoom * f)), by = zoom / view.zoom;
  state.view = { zoom, x: x - (x - view.x) * by, y: y - (y - view.y) * by };
  draw(state, byId("mesh"));
}

function gripped(e) {
  byId("mesh").setPointerCapture(e.pointerId);
  grip.fingers.set(e.pointerId, [e.offsetX, e.offsetY]);
  if (grip.fingers.size > 1) { grip.moved = true; return; }
  Object.assign(grip, { radio: radioAt(state, e.offsetX, e.offsetY, e.pointerType === "touch" ? 12 : 4), moved: false, from: [e.offsetX, e.offsetY] });
}

function dragged(e) {
  const old = grip.fingers.get(e.pointerId), now = [e.offsetX, e.offsetY];
  if (!old) return hovered(e);
  const dx = now[0] - old[0], dy = now[1] - old[1];
  if (grip.fingers.size === 2) pinched(e.pointerId, old, now);
  grip.fingers.set(e.pointerId, now);
  if (grip.fingers.size > 1) return;
  if (!grip.moved && Math.hypot(now[0] - grip.from[0], now[1] - grip.from[1]) < 5) return grip.fingers.set(e.pointerId, old);
  grip.moved = true;
  if (grip.radio >= 0) { state.x[grip.radio] += dx / state.view.zoom; state.y[grip.radio] += dy / state.view.zoom; }
  else Object.assign(state.view, { x: state.view.x + dx, y: state.view.y + dy });
  draw(state, byId("mesh"));
}

function pinched(id, old, now) {
  const [, still] = [...grip.fingers].find(([other]) => other !== id), far = p => Math.hypot(p[0] - still[0], p[1] - still[1]);
  zoomBy(far(now) / Math.max(far(old), 1), (now[0] + still[0]) / 2, (now[1] + still[1]) / 2);
}

function released(e) {
  const click = grip.fingers.has(e.pointerId) && !grip.moved && e.type === "pointerup";
  grip.fingers.delete(e.pointerId);
  if (click) choose(grip.radio);
}

function hovered(e) {
  const v = radioAt(state, e.offsetX, e.offsetY, 3), tip = byId("tip");
  tip.hidden = v < 0;
  byId("mesh").style.cursor = v < 0 ? "grab" : "pointer";
  if (v < 0) return;
  tip.textContent = `radio ${v}, number ${state.site.numbers[v]}`;
  Object.assign(tip.style, { left: Math.min(e.offsetX + 14, byId("mesh").clientWidth - 150) + "px", top: e.offsetY + 12 + "px" });
}

function wireCanvas() {
  on("mesh", "pointerdown", gripped);
  on("mesh", "pointermove", dragged);
  for (const end of ["pointerup", "pointercancel"]) on("mesh", end, released);
  on("mesh", "pointerleave", () => { byId("tip").hidden = true; });
  byId("mesh").addEventListener("wheel", e => { e.preventDefault(); zoomBy(e.deltaY < 0 ? 1.15 : 0.87, e.offsetX, e.offsetY); }, { passive: false });
  on("in", "click", () => zoomBy(1.3));
  on("out", "click", () => zoomBy(1 / 1.3));
  on("all", "click", showAll);
  on("lay", "click", () => { layOut(); show(); });
  const keys = { "+": () => zoomBy(1.25), "-": () => zoomBy(0.8), 0: showAll, Escape: () => choose(-1) };
  on("mesh", "keydown", e => { if (keys[e.key]) { keys[e.key](); e.preventDefault(); } });
}

function showAll() {
  state.view = fitted(state, byId("mesh"));
  draw(state, byId("mesh"));
}

// ---- buttons and fields

// A whole number from 0 to most in a field, or -1, which is said.
function field(id, most) {
  const text = byId(id).value.trim();
  if (/^[0-9]{1,6}$/.test(text) && Number(text) <= most) return Number(text);
  fail("page", `a whole number from 0 to ${most.toLocaleString("en")} is asked for, and this is none: ${text || "nothing"}`);
  return -1;
}

function linkByNumber(e) {
  const [verb, way] = (e.target.dataset.link || "").split(" ");
  if (!way) return;
  const a = field("a", 65535), b = a < 0 ? -1 : field("b", 65535);
  if (b < 0) return;
  if (verb === "ask") askLink(way === "up", a, b); else takeLink(way === "up", a, b);
}

function openSize(act) {
  const n = field("size", 65535);
  if (n < 0) return;
  if (n < 1 || n > HEADER.limits.RADIOS) fail(`clear ${n}`, words(1)); else act(n);
}

function wirePanel() {
  on("take", "click", commitLink);
  on("lift", "click", () => lift(state.first));
  on("own", "click", () => lookAt(state.facts.names[state.first]));
  on("leave", "click", () => choose(-1));
  on("link", "click", linkByNumber);
  on("link", "submit", e => e.preventDefault());
  on("marking", "submit", e => { e.preventDefault(); mark("set", byId("name").value.toUpperCase()); });
  on("tree", "keydown", e => { if (e.key.startsWith("Arrow")) { walkTree(e.key); e.preventDefault(); } });
  for (const box of document.querySelectorAll("[data-layer]")) box.onchange = () => { state.layers[box.dataset.layer] = box.checked; show(); };
}

// ---- files

async function openFile(file) {
  if (file) await openBytes(file.name, new Uint8Array(await file.arrayBuffer()));
}

function wireFiles() {
  on("open", "change", async e => { const [file] = e.target.files; await openFile(file); e.target.value = ""; });
  on("empty", "click", () => openSize(openEmpty));
  on("plane", "click", () => openSize(openPlane));
  on("sample", "click", () => openScript("sample", SAMPLE));
  for (const kind of Object.keys(FILES)) on(kind, "click", () => save(kind));
  document.addEventListener("click", closeMenus);
  document.addEventListener("dragover", e => { e.preventDefault(); byId("drop").hidden = false; });
  document.addEventListener("dragleave", e => { if (!e.relatedTarget) byId("drop").hidden = true; });
  document.addEventListener("drop", e => { e.preventDefault(); byId("drop").hidden = true; openFile(e.dataTransfer.files[0]); });
}

// A menu closes when something is done, in it or beside it.
function closeMenus(e) {
  for (const menu of document.querySelectorAll("details.menu[open]")) {
    if (!menu.contains(e.target) || e.target.tagName === "BUTTON") menu.open = false;
  }
}

// ---- the start

// An error of the page itself, which no answer of the engine is.
function stopped(e) {
  byId("say").className = "bad";
  byId("say").textContent = `The page stopped at an error: ${e.message || e.reason}`;
}

async function start() {
  try {
    if (typeof WebAssembly !== "object") throw new Error("WebAssembly is missing or switched off");
    state.engine = await Engine.open(Uint8Array.from(atob(MODULE.base64), c => c.charCodeAt(0)));
  } catch (error) {
    byId("why").textContent = `The engine cannot run in this browser: ${error.message}.`;
    return;
  }
  state.desk = new Desk(state.engine);
  byId("cannot").hidden = true;
  byId("module").textContent = `Module of ${MODULE.bytes.toLocaleString("en")} bytes, SHA-256 ${MODULE.sha256}.`;
  wireCanvas();
  wirePanel();
  wireFiles();
  window.addEventListener("resize", showAll);
  matchMedia("(prefers-color-scheme: dark)").addEventListener("change", () => draw(state, byId("mesh")));
  for (const event of ["error", "unhandledrejection"]) window.addEventListener(event, stopped);
  await openScript("sample", SAMPLE);
}

start();
