"use strict";
// The drawing: links, radios filled by core number, and marks on them. It reads the state and changes nothing.

// Dark violet to yellow, rising in lightness, so that every kind of colour vision tells them apart.
const STOPS = [[68, 1, 84], [65, 68, 135], [42, 120, 142], [34, 168, 132], [122, 209, 81], [253, 231, 37]];
function colour(number, greatest) {
  const t = number / Math.max(greatest, 5) * (STOPS.length - 1), i = Math.min(Math.floor(t), STOPS.length - 2), f = t - i;
  const [r, g, b] = STOPS[i].map((c, j) => Math.round(c + (STOPS[i + 1][j] - c) * f));
  return { fill: `rgb(${r},${g},${b})`, ink: r * 0.3 + g * 0.59 + b * 0.11 > 120 ? "#10161c" : "#ffffff" };
}

const radius = view => Math.max(3.2, Math.min(15, 11 * Math.sqrt(view.zoom)));
const onScreen = (state, v) => [state.x[v] * state.view.zoom + state.view.x, state.y[v] * state.view.zoom + state.view.y];

// The radio drawn at a point of the canvas, or -1; a finger may miss by a little.
function radioAt(state, x, y, slack) {
  let best = -1, least = radius(state.view) + slack;
  for (let v = 0; v < state.site.n; v++) {
    const [vx, vy] = onScreen(state, v), d = Math.hypot(vx - x, vy - y);
    if (d < least) { least = d; best = v; }
  }
  return best;
}

// The view that shows all radios, beside the buttons at the right.
function fitted(state, canvas) {
  const left = 30, right = 60, level = 40, wide = canvas.clientWidth - left - right, high = canvas.clientHeight - 2 * level;
  const [l, r, t, b] = [Math.min(...state.x), Math.max(...state.x), Math.min(...state.y), Math.max(...state.y)];
  const zoom = Math.min(wide / Math.max(r - l, 40), high / Math.max(b - t, 40), 2.2);
  return { zoom, x: left + wide / 2 - (l + r) / 2 * zoom, y: level + high / 2 - (t + b) / 2 * zoom };
}

function draw(state, canvas) {
  const scale = window.devicePixelRatio || 1, wide = canvas.clientWidth, high = canvas.clientHeight;
  if (canvas.width !== Math.round(wide * scale)) canvas.width = Math.round(wide * scale);
  if (canvas.height !== Math.round(high * scale)) canvas.height = Math.round(high * scale);
  const pen = canvas.getContext("2d"), style = getComputedStyle(document.documentElement), inside = state.node && new Set(state.node.radios);
  pen.setTransform(scale, 0, 0, scale, 0, 0);
  pen.clearRect(0, 0, wide, high);
  pen.textAlign = "center";
  pen.textBaseline = "middle";
  const sketch = { pen, r: radius(state.view), tone: name => style.getPropertyValue(name), at: v => onScreen(state, v), bright: v => !inside || inside.has(v) };
  drawLinks(sketch, state);
  drawPair(sketch, state);
  if (state.layers.names) for (let v = 0; v < state.site.n; v++) drawName(sketch, v);
  for (let v = 0; v < state.site.n; v++) drawRadio(sketch, state, v);
  drawChange(sketch, state);
  pen.globalAlpha = 1;
}

// ---- links

function line(pen, [ax, ay], [bx, by]) {
  pen.beginPath();
  pen.moveTo(ax, ay);
  pen.lineTo(bx, by);
  pen.stroke();
}

function drawLinks({ pen, r, tone, at, bright }, state) {
  const { links, stairs } = state.facts;
  for (const thick of [false, true]) {
    pen.strokeStyle = tone(thick ? "--stair" : "--thin");
    pen.lineWidth = thick ? Math.max(1.6, r * 0.34) : 1;
    for (const [a, b] of links) {
      if ((state.layers.stairs && stairs.has(a * HEADER.limits.RADIOS + b)) !== thick) continue;
      pen.globalAlpha = bright(a) && bright(b) ? 1 : 0.12;
      line(pen, at(a), at(b));
    }
  }
}

// The two radios chosen: a whole line for a link that is up, a broken one for a link that is down.
function drawPair({ pen, r, tone, at }, state) {
  const pair = shownPair(state);
  if (!pair) return;
  pen.globalAlpha = 1;
  pen.strokeStyle = tone("--mark");
  pen.lineWidth = Math.max(2.5, r * 0.4);
  pen.setLineDash(state.site.linked(...pair) ? [] : [7, 6]);
  line(pen, at(pair[0]), at(pair[1]));
  pen.setLineDash([]);
}

function shownPair(state) {
  const { a, b } = state.proposal || state.change || {};
  return a < state.site.n && b < state.site.n && a !== b ? [a, b] : null;
}

// ---- radios

function circle(pen, [x, y], r) {
  pen.beginPath();
  pen.arc(x, y, r, 0, 7);
}

function ring({ pen, r, tone, at }, v, name, gap, width) {
  pen.strokeStyle = tone(name);
  pen.lineWidth = width;
  circle(pen, at(v), r + gap);
  pen.stroke();
}

function drawRadio(sketch, state, v) {
  const { pen, r, tone, at, bright } = sketch, number = state.site.numbers[v], { fill, ink } = colour(number, state.facts.greatest), [x, y] = at(v);
  pen.globalAlpha = bright(v) ? 1 : 0.16;
  pen.fillStyle = fill;
  circle(pen, [x, y], r);
  pen.fill();
  ring(sketch, v, "--edge", 0, 1);
  if (state.layers.rings && state.facts.backbone.has(v)) ring(sketch, v, "--ring", 2.5, Math.max(1.5, r * 0.2));
  if (v === state.first || v === state.second) ring(sketch, v, "--mark", 6.5, 3);
  if (r > 6) {
    pen.fillStyle = ink;
    pen.font = `600 ${Math.round(r)}px system-ui, sans-serif`;
    pen.fillText(number, x, y + 0.5);
  }
}

function drawName({ pen, r, tone, at, bright }, v) {
  const [x, y] = at(v);
  pen.globalAlpha = bright(v) ? 1 : 0.3;
  pen.font = `${Math.max(9, Math.round(r * 0.85))}px system-ui, sans-serif`;
  pen.lineWidth = 3;
  pen.strokeStyle = tone("--paper");
  pen.fillStyle = tone("--soft");
  pen.strokeText(v, x, y + r + 9);
  pen.fillText(v, x, y + r + 9);
}

// ---- what a call changed, or would change

function drawChange(sketch, state) {
  const change = state.proposal || state.change;
  if (!change || !change.radios) return;
  const asked = change.verb === "ask", words = sketch.r > 4.5 || change.radios.length <= 40;
  for (const v of change.radios) {
    sketch.pen.globalAlpha = 1;
    if (words) badge(sketch, v, change.step, asked); else ring(sketch, v, change.step > 0 ? "--rise" : "--fall", 3, 2.5);
  }
}

function badge({ pen, r, tone, at }, v, step, asked) {
  const [x, y] = at(v), text = (step > 0 ? "+1" : "\u22121") + (asked ? "?" : ""), name = step > 0 ? "--rise" : "--fall";
  const size = Math.max(10, Math.round(r * 0.8)), high = size * 1.4, bx = x + r * 0.75, by = y - r * 0.75 - high;
  pen.font = `700 ${size}px system-ui, sans-serif`;
  const wide = pen.measureText(text).width + size * 0.8;
  pen.beginPath();
  pen.roundRect(bx, by, wide, high, high / 2);
  pen.fillStyle = asked ? tone("--paper") : tone(name);
  pen.fill();
  pen.lineWidth = 1.5;
  pen.strokeStyle = tone(name);
  pen.stroke();
  pen.fillStyle = asked ? tone(name) : tone("--paper");
  pen.fillText(text, bx + wide / 2, by + high / 2 + 0.5);
}
