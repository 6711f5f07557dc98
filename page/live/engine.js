"use strict";
// The engine in the page: the module's calls by the header's signatures, and the memory that is lent to them.
// HEADER is written by make.py from include/summerbugle.h: limits, words of the refusal numbers, structs and calls.

class Engine {
  constructor(module) {
    this.module = module;
    const missing = Object.keys(HEADER.calls).filter(name => typeof module[name] !== "function");
    if (missing.length) throw new Error("the module has no " + missing.join(", "));
    this.next = module.memory.buffer.byteLength; // what the module has at its start stays its own
    this.result = this.lend(64, 1);
  }

  static async open(bytes) {
    const { instance } = await WebAssembly.instantiate(bytes, {});
    return new Engine(instance.exports);
  }

  // A table of count elements of size bytes, all zero, for good.
  lend(count, size) {
    const at = this.next, memory = this.module.memory;
    this.next += count * size + 15 & ~15;
    const short = this.next - memory.buffer.byteLength;
    if (short > 0) memory.grow(Math.ceil(short / 65536));
    return { at, count, size };
  }

  // The first elements of a table, as bytes or as 16-bit entries. A view: it is good until the next call of lend.
  bytes(table, count = table.count) { return new Uint8Array(this.module.memory.buffer, table.at, count * table.size); }
  entries(table, count = table.count) { return new Uint16Array(this.module.memory.buffer, table.at, count); }

  // The call of this name; a table goes in as a pointer and a count of elements. A struct comes back with its parts, a number as { number }.
  call(name, ...values) {
    const words = values.flatMap(x => typeof x === "number" ? [whole(x)] : [x.at, x.count]), result = HEADER.calls[name];
    if (result === "uint32_t") return { number: this.module[name](...words) >>> 0 };
    this.module[name](this.result.at, ...words);
    return this.struct(HEADER.structs[result], this.result.at);
  }

  struct(parts, at) {
    const view = new DataView(this.module.memory.buffer), out = {};
    for (const [part, type, offset] of parts) out[part] = READERS[type](view, at + offset);
    return out;
  }
}

// A number that the module gets as it is: others would be cut to 32 bits on their way.
function whole(x) {
  if (!Number.isInteger(x) || x < -1 || x > 0xffffffff) throw new RangeError(`${x} is no number of a call`);
  return x;
}

const READERS = {
  uint32_t: (view, at) => view.getUint32(at, true),
  size_t: (view, at) => view.getUint32(at, true),
  uint16_t: (view, at) => view.getUint16(at, true),
  int8_t: (view, at) => view.getInt8(at),
};

// What is lent beside a site's tables; once, at the greatest size.
class Desk {
  constructor(engine) {
    const { RADIOS, NEIGHBOURS, ROW_BYTES, PAGE_LINE, SCRIPT_BYTES, STORE_BYTES, PLACE_BYTES, NAME_BYTES } = HEADER.limits;
    this.tables = [0, 1].map(() => [engine.lend(ROW_BYTES * RADIOS, 1), engine.lend(RADIOS, 1), engine.lend(RADIOS, 2)]);
    this.answer = engine.lend(RADIOS, 2);
    this.pairs = engine.lend(2 * RADIOS, 2);
    this.nodes = engine.lend(RADIOS + 1, HEADER.sizes.sb_node);
    this.page = engine.lend(PAGE_LINE * RADIOS / 8, 1);
    this.text = engine.lend(SCRIPT_BYTES, 1);
    this.image = engine.lend(PLACE_BYTES - NAME_BYTES, 1);
    this.list = engine.lend(RADIOS * NEIGHBOURS, 2);
    this.name = engine.lend(8 * NAME_BYTES, 1);
    this.store = engine.lend(STORE_BYTES, 1);
  }
}

// A site of n radios in one of the desk's two places, cleared. Every method is one call; its answer has the refusal number, and where that
// is 0 what was asked for.
class Site {
  constructor(engine, desk, n, place) {
    Object.assign(this, { engine, desk, n, place });
    const [links, numbers, order] = desk.tables[place];
    const few = (table, count) => ({ ...table, count });
    this.tables = [few(links, HEADER.limits.ROW_BYTES * n), few(numbers, n), few(order, n)];
    this.answer = few(desk.answer, n);
    this.cleared = this.call("sb_clear");
  }

  call(name, first = [], last = []) { return this.engine.call(name, this.n, ...first, ...this.tables, ...last); }

  get numbers() { return this.engine.bytes(this.tables[1]); }
  get order() { return this.engine.entries(this.tables[2]); }
  linked(a, b) { return this.call("sb_linked", [a, b]).value === 1; }

  // The links that the table marks, lower radio first, ascending.
  links() {
    const rows = this.engine.bytes(this.tables[0]), row = HEADER.limits.ROW_BYTES, out = [];
    for (let a = 0; a < this.n; a++) for (let b = a + 1; b < this.n; b++) if (rows[row * a + (b >> 3)] >> (b & 7) & 1) out.push([a, b]);
    return out;
  }

  listed(answer, count) { return { ...answer, radios: Array.from(this.engine.entries(this.answer, count)) }; }

  // up or down, taken or asked: verb is "link" or "ask"
  link(verb, up, a, b) {
    const answer = this.call(`sb_${verb}_${up ? "up" : "down"}`, [a, b], [this.answer]);
    return { ...this.listed(answer, answer.count), verb, up, a, b };
  }

  commit(asked) {
    const { up, a, b, step, radios } = asked, list = this.lentList(radios);
    return { ...this.call(`sb_commit_${up ? "up" : "down"}`, [a, b, step], [list]), verb: "commit", up, a, b, radios };
  }

  lentList(values) {
    const list = { ...this.desk.list, count: values.length };
    this.engine.entries(list).set(values);
    return list;
  }

  batch(links) { return this.call("sb_link_batch", [], [this.lentList(links.flat())]); }
  radio(v) {
    const [number, neighbours, later] = ["sb_number", "sb_neighbours", "sb_later_of"].map(name => this.call(name, [v]));
    return { number: number.number, core: number.value, neighbours: neighbours.value, later };
  }
  lift(v) { return this.call("sb_lift", [v]); }

  core(v, k) { const c = this.call("sb_core", [v, k], [this.answer]); return this.listed(c, c.value); }
  backbone() { const b = this.call("sb_backbone", [], [this.answer]); return this.listed(b, b.value); }
  tree() {
    const list = { ...this.desk.nodes, count: this.n + 1 }, tree = this.listed(this.call("sb_tree", [], [list, this.answer]), this.n);
    const nodes = Array.from({ length: tree.value }, (_, i) => this.engine.struct(HEADER.structs.sb_node, list.at + i * list.size));
    return { number: tree.number, names: tree.radios, nodes };
  }
  staircase() {
    const kept = this.call("sb_staircase", [], [this.desk.pairs]), ends = this.engine.entries(this.desk.pairs, 2 * kept.value);
    return { ...kept, links: Array.from({ length: kept.value }, (_, i) => [ends[2 * i], ends[2 * i + 1]]) };
  }

  // image, script or sheet: the bytes that the call writes
  written(name, room) { const w = this.call(name, [], [room]); return { ...w, bytes: this.engine.bytes(room, w.value).slice() }; }
  image() { return this.written("sb_image_write", this.desk.image); }
  script() { return this.written("sb_script_write", this.desk.text); }
  sheet() { return this.written("sb_sheet", this.desk.page); }
  read(bytes) {
    const image = { ...this.desk.image, count: bytes.length };
    this.engine.bytes(image).set(bytes);
    return this.call("sb_image_read", [], [image]);
  }

  // a call on marks: set, return or remove. The name is lent at its own length, with spaces to 8 bytes; the engine judges it.
  mark(verb, name) {
    const bytes = new TextEncoder().encode(name.padEnd(HEADER.limits.NAME_BYTES)).slice(0, this.desk.name.count);
    const lent = { ...this.desk.name, count: bytes.length };
    this.engine.bytes(lent).set(bytes);
    return this.call(`sb_mark_${verb}`, [], [lent, this.desk.store]);
  }
}

// The names in a store, which stand in front of its places; an unused place begins with 0.
function markNames(engine, store) {
  const { MARKS, PLACE_BYTES, NAME_BYTES } = HEADER.limits, bytes = engine.bytes(store), out = [];
  for (let i = 0; i < MARKS; i++) {
    const name = bytes.subarray(i * PLACE_BYTES, i * PLACE_BYTES + NAME_BYTES);
    if (name[0]) out.push(new TextDecoder().decode(name).trimEnd());
  }
  return out;
}
