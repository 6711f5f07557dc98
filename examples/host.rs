// A Rust host: lends tables, takes links up and down, asks, prints a sheet and a script, writes an image, walks it and reads it, sets marks
// and comes back, and takes what radios hear. examples/run builds and runs it.

#[repr(C)]
struct Value {
    number: u32,
    value: u32,
}

#[repr(C)]
struct Reply {
    number: u32,
    step: i8,
    count: u32,
}

#[repr(C)]
struct Later {
    number: u32,
    count: u32,
    first: u32,
}

#[repr(C)]
struct Pair {
    number: u32,
    low: u32,
    high: u32,
}

#[repr(C)]
struct Block {
    number: u32,
    end: u32,
    offset: usize,
    length: usize,
    next: usize,
}

#[repr(C)]
#[derive(Clone, Copy)]
struct Node {
    name: u16,
    level: u16,
    parent: u16,
}

// The engine's calls; include/summerbugle.h says what each takes and answers.
mod engine {
    use super::{Block, Later, Node, Pair, Reply, Value};

    extern "C" {
        pub fn sb_clear(n: u32, l: *mut u8, ll: usize, k: *mut u8, kl: usize, o: *mut u16, ol: usize) -> u32;
        pub fn sb_check(n: u32, l: *const u8, ll: usize, k: *const u8, kl: usize, o: *const u16, ol: usize) -> Value;
        pub fn sb_link_up(n: u32, a: u32, b: u32, l: *mut u8, ll: usize, k: *mut u8, kl: usize, o: *mut u16, ol: usize, w: *mut u16, wl: usize) -> Reply;
        pub fn sb_link_down(n: u32, a: u32, b: u32, l: *mut u8, ll: usize, k: *mut u8, kl: usize, o: *mut u16, ol: usize, w: *mut u16, wl: usize) -> Reply;
        pub fn sb_link_batch(n: u32, l: *mut u8, ll: usize, k: *mut u8, kl: usize, o: *mut u16, ol: usize, list: *const u16, len: usize) -> Value;
        pub fn sb_hear(n: u32, l: *mut u8, ll: usize, k: *mut u8, kl: usize, o: *mut u16, ol: usize, heard: *const u8, hl: usize, one_sided: *mut u8, sl: usize) -> Value;
        pub fn sb_ask_up(n: u32, a: u32, b: u32, l: *const u8, ll: usize, k: *const u8, kl: usize, o: *const u16, ol: usize, w: *mut u16, wl: usize) -> Reply;
        pub fn sb_ask_down(n: u32, a: u32, b: u32, l: *const u8, ll: usize, k: *const u8, kl: usize, o: *const u16, ol: usize, w: *mut u16, wl: usize) -> Reply;
        pub fn sb_commit_up(n: u32, a: u32, b: u32, step: i8, l: *mut u8, ll: usize, k: *mut u8, kl: usize, o: *mut u16, ol: usize, c: *const u16, cl: usize) -> Reply;
        pub fn sb_commit_down(n: u32, a: u32, b: u32, step: i8, l: *mut u8, ll: usize, k: *mut u8, kl: usize, o: *mut u16, ol: usize, c: *const u16, cl: usize) -> Reply;
        pub fn sb_number(n: u32, v: u32, l: *const u8, ll: usize, k: *const u8, kl: usize, o: *const u16, ol: usize) -> Value;
        pub fn sb_neighbours(n: u32, v: u32, l: *const u8, ll: usize, k: *const u8, kl: usize, o: *const u16, ol: usize) -> Value;
        pub fn sb_linked(n: u32, a: u32, b: u32, l: *const u8, ll: usize, k: *const u8, kl: usize, o: *const u16, ol: usize) -> Value;
        pub fn sb_first(n: u32, a: u32, b: u32, l: *const u8, ll: usize, k: *const u8, kl: usize, o: *const u16, ol: usize) -> Value;
        pub fn sb_later_of(n: u32, v: u32, l: *const u8, ll: usize, k: *const u8, kl: usize, o: *const u16, ol: usize) -> Later;
        pub fn sb_lift(n: u32, v: u32, l: *const u8, ll: usize, k: *const u8, kl: usize, o: *const u16, ol: usize) -> Pair;
        pub fn sb_core(n: u32, v: u32, level: u32, l: *const u8, ll: usize, k: *const u8, kl: usize, o: *const u16, ol: usize, w: *mut u16, wl: usize) -> Value;
        pub fn sb_backbone(n: u32, l: *const u8, ll: usize, k: *const u8, kl: usize, o: *const u16, ol: usize, w: *mut u16, wl: usize) -> Value;
        pub fn sb_tree(n: u32, l: *const u8, ll: usize, k: *const u8, kl: usize, o: *const u16, ol: usize, nodes: *mut Node, len: usize, w: *mut u16, wl: usize) -> Value;
        pub fn sb_sheet(n: u32, l: *const u8, ll: usize, k: *const u8, kl: usize, o: *const u16, ol: usize, page: *mut u8, len: usize) -> Value;
        pub fn sb_script_length(n: u32, l: *const u8, ll: usize, k: *const u8, kl: usize, o: *const u16, ol: usize) -> Value;
        pub fn sb_script_write(n: u32, l: *const u8, ll: usize, k: *const u8, kl: usize, o: *const u16, ol: usize, text: *mut u8, len: usize) -> Value;
        pub fn sb_staircase(n: u32, l: *const u8, ll: usize, k: *const u8, kl: usize, o: *const u16, ol: usize, w: *mut u16, wl: usize) -> Value;
        pub fn sb_image_write(n: u32, l: *const u8, ll: usize, k: *const u8, kl: usize, o: *const u16, ol: usize, buffer: *mut u8, len: usize) -> Value;
        pub fn sb_image_read(n: u32, l: *mut u8, ll: usize, k: *mut u8, kl: usize, o: *mut u16, ol: usize, image: *const u8, len: usize) -> u32;
        pub fn sb_mark_set(n: u32, l: *const u8, ll: usize, k: *const u8, kl: usize, o: *const u16, ol: usize, name: *const u8, nl: usize, store: *mut u8, sl: usize) -> u32;
        pub fn sb_mark_remove(n: u32, l: *const u8, ll: usize, k: *const u8, kl: usize, o: *const u16, ol: usize, name: *const u8, nl: usize, store: *mut u8, sl: usize) -> u32;
        pub fn sb_mark_return(n: u32, l: *mut u8, ll: usize, k: *mut u8, kl: usize, o: *mut u16, ol: usize, name: *const u8, nl: usize, store: *const u8, sl: usize) -> u32;
        pub fn sb_image_block(image: *const u8, len: usize, next: usize) -> Block;
    }
}

// The tables of a site. They are separate vectors, borrowed for the call alone, so a call may lend all of them at once.
struct Site {
    n: u32,
    links: Vec<u8>,
    numbers: Vec<u8>,
    order: Vec<u16>,
    answer: Vec<u16>,
}

// The arguments of a call: n and what else it names, links, numbers and order, and what comes behind.
macro_rules! call {
    ($name:ident, $site:expr, [$($front:expr),*], [$($back:expr),*]) => {
        unsafe {
            engine::$name($site.n, $($front,)* $site.links.as_mut_ptr(), $site.links.len(), $site.numbers.as_mut_ptr(),
                $site.numbers.len(), $site.order.as_mut_ptr(), $site.order.len() $(, $back)*)
        }
    };
}

impl Site {
    fn new(n: u32) -> Site {
        let count = n as usize;
        Site { n, links: vec![0; 64 * count], numbers: vec![0; count], order: vec![0; count], answer: vec![0; count] }
    }

    fn print_reply(&self, name: &str, a: u32, b: u32, r: Reply) {
        print!("{name} {a} {b}: number {}, step {}, changed", r.number, r.step);
        print_list(&self.answer[..r.count as usize]);
    }

    fn up(&mut self, a: u32, b: u32) {
        let r = call!(sb_link_up, self, [a, b], [self.answer.as_mut_ptr(), self.answer.len()]);
        self.print_reply("up", a, b, r);
    }

    fn down(&mut self, a: u32, b: u32) {
        let r = call!(sb_link_down, self, [a, b], [self.answer.as_mut_ptr(), self.answer.len()]);
        self.print_reply("down", a, b, r);
    }

    // A link call in two steps: a proposal, a commit with a wrong list, and the commit.
    fn propose_down(&mut self, a: u32, b: u32) {
        let asked = call!(sb_ask_down, self, [a, b], [self.answer.as_mut_ptr(), self.answer.len()]);
        let (step, count) = (asked.step, asked.count as usize);
        self.print_reply("ask down", a, b, asked);
        let short = call!(sb_commit_down, self, [a, b, step], [self.answer.as_ptr(), count - 1]);
        println!("one short: number {}", short.number);
        let done = call!(sb_commit_down, self, [a, b, step], [self.answer.as_ptr(), count]);
        self.print_reply("commit down", a, b, done);
        let asked = call!(sb_ask_up, self, [a, b], [self.answer.as_mut_ptr(), self.answer.len()]);
        let (step, count) = (asked.step, asked.count as usize);
        self.print_reply("ask up", a, b, asked);
        let done = call!(sb_commit_up, self, [a, b, step], [self.answer.as_ptr(), count]);
        self.print_reply("commit up", a, b, done);
    }

    fn print_radios(&self, question: &str, v: Value) {
        print!("{question}: number {}, radios", v.number);
        print_list(&self.answer[..v.value as usize]);
    }

    fn later(&mut self, v: u32) {
        let l = call!(sb_later_of, self, [v], []);
        println!("later than {v}: number {}, count {}, first {}", l.number, l.count, l.first);
    }

    fn lift(&mut self, v: u32) {
        let p = call!(sb_lift, self, [v], []);
        println!("lift of {v}: number {}, pair {} {}", p.number, p.low, p.high);
    }

    fn core(&mut self, v: u32, level: u32) {
        let r = call!(sb_core, self, [v, level], [self.answer.as_mut_ptr(), self.answer.len()]);
        self.print_radios(&format!("core of {v} at level {level}"), r);
    }
}

fn print_list(list: &[u16]) {
    for x in list {
        print!(" {x}");
    }
    println!();
}

// A batch that stops at its third link, with the links before it up; and one with half a link.
fn take_batch(s: &mut Site) {
    let list: [u16; 8] = [0, 1, 0, 6, 6, 6, 2, 3];
    print_value("batch", call!(sb_link_batch, s, [], [list.as_ptr(), list.len()]));
    let odd = &list[6..7];
    print_value("batch of an odd list", call!(sb_link_batch, s, [], [odd.as_ptr(), odd.len()]));
    print!("order");
    print_list(&s.order);
}

// What is linked is heard, but 6 does not hear 0 any more, and 2 and 3 hear each other; then 5 hears itself.
fn take_heard(s: &mut Site) {
    let mut heard = s.links.clone();
    let mut one_sided = vec![0u8; heard.len()];
    for (a, b) in [(6, 0), (2, 3), (3, 2)] {
        heard[64 * a] ^= 1 << b;
    }
    print_value("hear", call!(sb_hear, s, [], [heard.as_ptr(), heard.len(), one_sided.as_mut_ptr(), one_sided.len()]));
    for v in 0..s.n as usize {
        for u in (0..s.n as usize).filter(|u| one_sided[64 * v + u / 8] >> (u % 8) & 1 == 1) {
            println!("only {v} hears {u}");
        }
    }
    print_value("linked 0 6", call!(sb_linked, s, [0, 6], []));
    print_value("linked 2 3", call!(sb_linked, s, [2, 3], []));
    heard[64 * 5] ^= 1 << 5;
    print_value("hear itself", call!(sb_hear, s, [], [heard.as_ptr(), heard.len(), one_sided.as_mut_ptr(), one_sided.len()]));
    print!("order");
    print_list(&s.order);
}

fn print_value(question: &str, v: Value) {
    println!("{question}: number {}, value {}", v.number, v.value);
}

// Two triangles, a link between them, and a radio that hangs on one.
fn make_links(s: &mut Site) {
    println!("clear: number {}", call!(sb_clear, s, [], []));
    for (a, b) in [(0, 1), (0, 2), (1, 2), (3, 4), (3, 5), (4, 5), (2, 3), (0, 6)] {
        s.up(a, b);
    }
    s.up(6, 7);
    s.up(6, 6);
    s.up(6, 0);
    print!("order");
    print_list(&s.order);
}

fn ask(s: &mut Site) {
    print_value("check", call!(sb_check, s, [], []));
    print_value("number of 0", call!(sb_number, s, [0], []));
    print_value("neighbours of 0", call!(sb_neighbours, s, [0], []));
    print_value("linked 0 6", call!(sb_linked, s, [0, 6], []));
    print_value("linked 1 6", call!(sb_linked, s, [1, 6], []));
    print_value("first of 0 and 6", call!(sb_first, s, [0, 6], []));
    s.later(0);
    s.later(1);
    s.later(7);
    s.lift(6);
    s.lift(0);
    s.lift(7);
    s.core(6, 1);
    s.core(6, 2);
    let v = call!(sb_backbone, s, [], [s.answer.as_mut_ptr(), s.answer.len()]);
    s.print_radios("backbone", v);
}

// The nodes, then each radio's node name.
fn print_tree(s: &mut Site) {
    let mut nodes = vec![Node { name: 0, level: 0, parent: 0 }; s.n as usize + 1];
    let tree = call!(sb_tree, s, [], [nodes.as_mut_ptr(), nodes.len(), s.answer.as_mut_ptr(), s.answer.len()]);
    let count = tree.value as usize;
    print_value("tree", tree);
    for node in &nodes[..count] {
        println!("node {}, level {}, parent {}", node.name, node.level, node.parent);
    }
    print!("names");
    print_list(&s.answer);
}

fn print_sheet(s: &mut Site) {
    let mut page = [0u8; 65];
    let sheet = call!(sb_sheet, s, [], [page.as_mut_ptr(), page.len()]);
    let length = sheet.value as usize;
    print_value("sheet", sheet);
    print!("{}", std::str::from_utf8(&page[..length]).unwrap());
    print_value("sheet on a short page", call!(sb_sheet, s, [], [page.as_mut_ptr(), page.len() - 1]));
}

// The length beforehand is the length written.
fn print_script(s: &mut Site) {
    let length = call!(sb_script_length, s, [], []);
    let mut text = vec![0u8; length.value as usize];
    print_value("script length", length);
    print_value("script", call!(sb_script_write, s, [], [text.as_mut_ptr(), text.len()]));
    print!("{}", std::str::from_utf8(&text).unwrap());
    print_value("script in a short buffer", call!(sb_script_write, s, [], [text.as_mut_ptr(), text.len() - 1]));
}

// The kept links, two entries each.
fn print_staircase(s: &mut Site) {
    let mut kept = vec![0u16; 2 * s.n as usize];
    let staircase = call!(sb_staircase, s, [], [kept.as_mut_ptr(), kept.len()]);
    let count = staircase.value as usize;
    print_value("staircase", staircase);
    for link in kept[..2 * count].chunks(2) {
        println!("keeps {} {}", link[0], link[1]);
    }
    print_value("staircase in a short table", call!(sb_staircase, s, [], [kept.as_mut_ptr(), kept.len() - 1]));
}

// The payload lies in the image itself; each step checks the whole image.
fn walk(image: &[u8]) {
    let step = |next| unsafe { engine::sb_image_block(image.as_ptr(), image.len(), next) };
    let mut block = step(0);
    while block.number == 0 && block.end == 0 {
        let payload = &image[block.offset..block.offset + block.length];
        println!("block at {}, {} bytes: {} {} {} {} ..", block.offset, block.length, payload[0], payload[1], payload[2], payload[3]);
        block = step(block.next);
    }
    println!("walk: number {}, end {}, next {}", block.number, block.end, block.next);
}

fn keep(s: &mut Site) {
    let mut image = vec![0u8; 4096];
    let written = call!(sb_image_write, s, [], [image.as_mut_ptr(), image.len()]);
    image.truncate(written.value as usize);
    print_value("image", written);
    walk(&image);
    image[600] ^= 1;
    walk(&image);
    image[600] ^= 1;
    s.down(0, 6);
    println!("read: number {}", call!(sb_image_read, s, [], [image.as_ptr(), image.len()]));
    print_value("linked 0 6", call!(sb_linked, s, [0, 6], []));
}

// The bytes of a place of a store of marks: a name and the longest image.
const PLACE: usize = 8 + 86 * 512;

// Two states named, and the way back to the first.
fn mark(s: &mut Site) {
    let mut store = vec![0u8; 8 * PLACE];
    let set = |s: &mut Site, store: &mut [u8], name: &str| call!(sb_mark_set, s, [], [name.as_ptr(), name.len(), store.as_mut_ptr(), store.len()]);
    let back = |s: &mut Site, store: &[u8], name: &str| call!(sb_mark_return, s, [], [name.as_ptr(), name.len(), store.as_ptr(), store.len()]);
    println!("set TOWER1: number {}", set(s, &mut store, "TOWER1  "));
    s.down(0, 6);
    println!("set A: number {}", set(s, &mut store, "A       "));
    let name = |i: usize| std::str::from_utf8(&store[PLACE * i..PLACE * i + 8]).unwrap();
    println!("first {}, second {}", name(0), name(1));
    println!("set a: number {}", set(s, &mut store, "a       "));
    println!("back to TOWER1: number {}", back(s, &store, "TOWER1  "));
    print_value("linked 0 6", call!(sb_linked, s, [0, 6], []));
    let a = "A       ";
    println!("remove A: number {}", call!(sb_mark_remove, s, [], [a.as_ptr(), a.len(), store.as_mut_ptr(), store.len()]));
    println!("back to A: number {}", back(s, &store, a));
}

fn main() {
    let mut s = Site::new(7);
    make_links(&mut s);
    ask(&mut s);
    print_tree(&mut s);
    print_sheet(&mut s);
    print_script(&mut s);
    print_staircase(&mut s);
    keep(&mut s);
    mark(&mut s);
    s.down(0, 6);
    s.down(2, 3);
    s.propose_down(0, 1);
    s.down(0, 1);
    take_batch(&mut s);
    take_heard(&mut s);
}
