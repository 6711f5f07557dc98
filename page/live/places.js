"use strict";
// Where the radios are drawn: each connected part laid out for itself, by its distances and then by forces, and the parts packed side by side.
// Nothing here says anything about the site; the same links are always laid out alike.

const LENGTH = 40; // of a link, about

// Places of n radios, from their links and the radios of each connected part; wide is the width of the drawing by its height.
function laidOut(n, links, parts, wide) {
  if (wide < 1) { const { x, y } = laidOut(n, links, parts, 1 / wide); return { x: y, y: x }; }
  const beside = Array.from({ length: n }, () => []);
  for (const [a, b] of links) { beside[a].push(b); beside[b].push(a); }
  const laid = parts.map(part => laidPart(part, beside)).sort((p, q) => q.high - p.high || p.radios[0] - q.radios[0]);
  const x = new Float64Array(n), y = new Float64Array(n);
  packed(laid, wide);
  for (const part of laid) part.radios.forEach((v, i) => { x[v] = part.left + part.x[i]; y[v] = part.top + part.y[i]; });
  return { x, y };
}

function laidPart(radios, beside) {
  const at = new Map(radios.map((v, i) => [v, i])), near = radios.map(v => beside[v].map(w => at.get(w)));
  const part = { radios, ...spread(near) };
  forced(part, near);
  turned(part);
  return boxed(part);
}

// ---- a first guess: classical scaling of the distances from a few radios far apart

function spread(near) {
  const m = near.length, random = seeded(m), far = distances(near), vectors = [];
  for (let k = 0; k < 2; k++) vectors.push(strongest(far, vectors, random));
  const along = v => Float64Array.from(far, row => row.reduce((sum, d, j) => sum + d * v[j], 0) + random() - 0.5);
  return { x: along(vectors[0]), y: along(vectors[1]) };
}

// Squared distances in links from at most 24 radios, each the farthest from those before it; centred both ways.
function distances(near) {
  const m = near.length, pivots = Math.min(m, 24), rows = Array.from({ length: m }, () => new Float64Array(pivots)), least = new Float64Array(m).fill(Infinity);
  let from = 0;
  for (let j = 0; j < pivots; j++) {
    const d = walked(near, from);
    for (let i = 0; i < m; i++) { rows[i][j] = d[i] * d[i]; least[i] = Math.min(least[i], d[i]); }
    from = least.indexOf(Math.max(...least));
  }
  return centred(rows);
}

function walked(near, from) {
  const d = new Float64Array(near.length).fill(-1), queue = [from];
  d[from] = 0;
  for (const v of queue) for (const w of near[v]) if (d[w] < 0) { d[w] = d[v] + 1; queue.push(w); }
  return d;
}

function centred(rows) {
  const k = rows[0].length, mean = new Float64Array(k);
  for (const row of rows) row.forEach((d, j) => { mean[j] += d / rows.length; });
  for (const row of rows) {
    row.forEach((d, j) => { row[j] = mean[j] - d; });
    const own = row.reduce((sum, d) => sum + d, 0) / k;
    row.forEach((d, j) => { row[j] = (d - own) / 2; });
  }
  return rows;
}

// The direction in which the rows differ most, at a right angle to the directions before it.
function strongest(rows, before, random) {
  let v = Float64Array.from(rows[0], () => random() - 0.5);
  for (let round = 0; round < 60; round++) {
    const next = new Float64Array(v.length);
    for (const row of rows) { const s = dot(row, v); row.forEach((d, j) => { next[j] += s * d; }); }
    for (const b of before) { const s = dot(next, b); b.forEach((d, j) => { next[j] -= s * d; }); }
    const size = Math.sqrt(dot(next, next)) || 1;
    v = next.map(d => d / size);
  }
  return v;
}

const dot = (u, v) => u.reduce((sum, d, j) => sum + d * v[j], 0);

function seeded(seed) {
  let s = seed * 7919 + 17;
  return () => (s = (s * 1103515245 + 12345) % 2147483648) / 2147483648;
}

// ---- forces: all radios push each other away, links pull

function forced(part, near) {
  const m = near.length, links = near.flatMap((ws, v) => ws.filter(w => v < w).map(w => [v, w]));
  scaled(part, links);
  const rounds = m > 300 ? 100 : m > 100 ? 200 : 300, dx = new Float64Array(m), dy = new Float64Array(m);
  for (let r = 0; r < rounds; r++) {
    pushed(part, dx.fill(0), dy.fill(0));
    pulled(part, links, near, dx, dy);
    moved(part, dx, dy, LENGTH * (1 - r / rounds) + 0.5);
  }
}

function scaled(part, links) {
  const { x, y } = part, sum = links.reduce((s, [v, w]) => s + Math.hypot(x[v] - x[w], y[v] - y[w]), 0);
  const f = sum > 0 ? LENGTH * links.length / sum : LENGTH;
  x.forEach((p, i) => { x[i] = p * f; });
  y.forEach((p, i) => { y[i] = p * f; });
}

function pushed({ x, y }, dx, dy) {
  for (let v = 0; v < x.length; v++) for (let w = v + 1; w < x.length; w++) {
    const ex = x[v] - x[w], ey = y[v] - y[w], f = LENGTH * LENGTH / (ex * ex + ey * ey + 0.01);
    dx[v] += ex * f; dy[v] += ey * f; dx[w] -= ex * f; dy[w] -= ey * f;
  }
}

function pulled({ x, y }, links, near, dx, dy) {
  for (const [v, w] of links) {
    const ex = x[v] - x[w], ey = y[v] - y[w], many = Math.min(near[v].length, near[w].length);
    const f = Math.hypot(ex, ey) / LENGTH / Math.sqrt(many);
    dx[v] -= ex * f; dy[v] -= ey * f; dx[w] += ex * f; dy[w] += ey * f;
  }
}

function moved({ x, y }, dx, dy, most) {
  for (let v = 0; v < x.length; v++) {
    const d = Math.hypot(dx[v], dy[v]) || 1, m = Math.min(d, most) / d;
    x[v] += dx[v] * m; y[v] += dy[v] * m;
  }
}

// ---- boxes, side by side

// The long side lies level.
function turned({ x, y }) {
  const middle = xs => xs.reduce((s, p) => s + p, 0) / xs.length, mx = middle(x), my = middle(y);
  let xx = 0, xy = 0, yy = 0;
  for (let v = 0; v < x.length; v++) { const ex = x[v] - mx, ey = y[v] - my; xx += ex * ex; xy += ex * ey; yy += ey * ey; }
  const turn = Math.atan2(2 * xy, xx - yy) / 2, c = Math.cos(turn), s = Math.sin(turn);
  for (let v = 0; v < x.length; v++) { const ex = x[v] - mx, ey = y[v] - my; x[v] = ex * c + ey * s; y[v] = ey * c - ex * s; }
}

function boxed(part) {
  const { x, y } = part, left = Math.min(...x), top = Math.min(...y), gap = 1.4 * LENGTH;
  x.forEach((p, i) => { x[i] = p - left + gap / 2; });
  y.forEach((p, i) => { y[i] = p - top + gap / 2; });
  return { ...part, wide: Math.max(...x) + gap / 2, high: Math.max(...y) + gap / 2 };
}

// Rows of boxes, the highest first: of several widths the one whose rows come nearest to the drawing's shape.
function packed(parts, wide) {
  const area = parts.reduce((s, p) => s + p.wide * p.high, 0), widest = Math.max(...parts.map(p => p.wide));
  let best = null;
  for (let f = 0.8; f < 2.4; f += 0.1) {
    const width = Math.max(widest, f * Math.sqrt(area * wide)), high = rows(parts, width), size = Math.max(width / wide, high);
    if (!best || size < best.size) best = { size, width };
  }
  rows(parts, best.width);
}

function rows(parts, width) {
  let left = 0, top = 0, high = 0;
  for (const p of parts) {
    if (left > 0 && left + p.wide > width) { left = 0; top += high; high = 0; }
    p.left = left; p.top = top;
    left += p.wide; high = Math.max(high, p.high);
  }
  return top + high;
}
