"""Works the page with the engine inside in a headless browser, and holds what it answers against the x86-64 archive's answers.

    python3 page/live/look.py MODULE.wasm [FOLDER]      pictures, light and dark, desktop and phone, are left in FOLDER (target/page)

Needs chromium, and the shared object that bindings/python/build makes.
"""

import os
import random
import sys
import tempfile

import make
from browser import Browser

sys.path.insert(0, os.path.join(make.ROOT, "bindings", "python"))

import summerbugle  # noqa: E402

# all that the page's engine says of its site
ANSWERS = """(() => {
  const { site } = state, radios = [...Array(site.n).keys()], tree = site.tree();
  return { n: site.n, numbers: [...site.numbers], order: [...site.order], links: site.links(), check: site.call("sb_check").value,
    backbone: site.backbone().radios, nodes: tree.nodes.map(x => [x.name, x.level, x.parent]), names: tree.names, staircase: site.staircase().links,
    radios: radios.map(v => { const r = site.radio(v); return [r.core, r.neighbours, r.later.count, r.later.first]; }),
    cores: radios.map(v => { const c = site.core(v, site.numbers[v]); return c.radios.length * 1000 + c.radios[0]; }),
    lifts: radios.filter(v => v % 7 === 0).map(v => { const p = site.lift(v); return [p.number, p.low, p.high]; }),
    first: radios.map(v => site.call("sb_first", [v, (v * 31 + 5) % site.n]).value), length: site.call("sb_script_length").value };
})()"""

# what it shows of it
SHOWN = """({ summary: byId("summary").textContent, links: state.facts.links, backbone: [...state.facts.backbone],
  stairs: [...state.facts.stairs], scale: byId("scale").childElementCount - 1,
  tree: [...document.querySelectorAll("[data-node]")].map(x => x.textContent).sort() })"""

# how many dots of the drawing have exactly the colour of risers, of fallers
DOTS = """(() => {
  const { width, height } = byId("mesh"), dots = byId("mesh").getContext("2d").getImageData(0, 0, width, height).data;
  const style = getComputedStyle(document.documentElement), seen = name => {
    const [r, g, b] = style.getPropertyValue(name).match(/[0-9a-f]{2}/g).map(x => parseInt(x, 16));
    let count = 0;
    for (let i = 0; i < dots.length; i += 4) if (dots[i] === r && dots[i + 1] === g && dots[i + 2] === b) count++;
    return count;
  };
  return [seen("--rise"), seen("--fall")];
})()"""


def native_links(site):
    return [[a, b] for a in range(site.n) for b in range(a + 1, site.n) if site.links[64 * a + b // 8] >> b % 8 & 1]


def native_lift(site, v):
    try:
        return [0, *site.lift(v)]
    except summerbugle.Refused as refused:
        return [refused.number, 0, 0]


def native_radio(site, v):
    later = site.later_of(v)
    return [site.number(v), site.neighbours(v), later.count, summerbugle.NOBODY if later.first is None else later.first]


def native_answers(site):
    """The same, by the archive."""
    tree, radios = site.tree(), range(site.n)
    cores = [site.core(v, site.numbers[v]) for v in radios]
    return {"n": site.n, "numbers": list(site.numbers), "order": list(site.order), "links": native_links(site), "check": int(site.check()),
            "backbone": site.backbone(), "nodes": [list(x) for x in tree.nodes], "names": tree.names, "staircase": [list(x) for x in site.staircase()],
            "radios": [native_radio(site, v) for v in radios], "cores": [len(c) * 1000 + c[0] for c in cores],
            "lifts": [native_lift(site, v) for v in radios if v % 7 == 0],
            "first": [site.first(v, (v * 31 + 5) % site.n) for v in radios], "length": len(site.script())}


def many(count, thing):
    return "{:,} {}{}".format(count, thing, "" if count == 1 else "s")


def native_shown(site):
    """What the page is to show of the archive's site."""
    links, top = native_links(site), max(site.numbers)
    nodes = [x for x in site.tree().nodes if x.name != summerbugle.ROOT]
    tree = ["level %d, node %d: %s" % (x.level, x.name, many(len(site.core(x.name, x.level)), "radio")) for x in nodes]
    return {"summary": "%s, %s, greatest number %d" % (many(site.n, "radio"), many(len(links), "link"), top), "links": links,
            "backbone": site.backbone(), "stairs": [a * summerbugle.RADIOS + b for a, b in site.staircase()], "scale": top,
            "tree": sorted(["root: " + many(site.n, "radio")] + tree)}


def played(text):
    """The site of a script, by the archive; refused lines are passed over."""
    lines = text.splitlines()
    site = summerbugle.Site(int(lines[0].split()[1]))
    for line in lines[1:]:
        word, a, b = line.split()
        try:
            (site.link_up if word == "up" else site.link_down)(int(a), int(b))
        except summerbugle.Refused:
            pass
    return site


def same(what, got, wanted):
    if got != wanted:
        raise SystemExit("%s: the page has %s, expected %s" % (what, str(got)[:300], str(wanted)[:300]))


class Hand:
    """A hand on the page, and the site that the archive has beside it."""

    def __init__(self, browser, site, folder):
        self.browser, self.site, self.folder, self.compared = browser, site, folder, 0

    def ask(self, script):
        return self.browser.ask(script)

    def said(self):
        return self.ask("document.getElementById('say').innerText.trim()")

    def agree(self, what):
        for script, native in ((ANSWERS, native_answers), (SHOWN, native_shown)):
            got = self.ask(script)
            for part, value in native(self.site).items():
                same("%s, %s" % (what, part), got[part], value)
                self.compared += 1

    def badges(self, change):
        """Risers and fallers have their badge in the drawing, and nothing else has."""
        rise, fall = self.ask(DOTS)
        few = 60 * len(change.radios)
        same("badges", [rise > few, fall > few], [change.step > 0, change.step < 0])

    def middle(self, query):
        self.ask("document.querySelector(%r).scrollIntoView({ block: 'nearest' })" % query)
        return self.ask("(r => [r.x + r.width / 2, r.y + r.height / 2])(document.querySelector(%r).getBoundingClientRect())" % query)

    def push(self, query):
        self.browser.click(*self.middle(query))

    def radio(self, v, touch=False):
        """A click on a radio, where it is drawn."""
        self.ask("scrollTo(0, 0)")
        at = self.ask("(r => onScreen(state, %d).map((x, i) => x + [r.x, r.y][i]))(byId('mesh').getBoundingClientRect())" % v)
        (self.browser.tap if touch else self.browser.click)(*at)

    def fill(self, query, text):
        self.push(query)
        self.ask("document.querySelector(%r).select()" % query)
        self.browser.type(text)

    def link(self, verb, a, b):
        self.fill("#a", str(a))
        self.fill("#b", str(b))
        self.push("[data-link='%s']" % verb)

    def drop(self, name, data):
        path = os.path.join(self.folder, name)
        with open(path, "wb") as f:
            f.write(data)
        self.ask("state.said = null")
        self.browser.drop(path, 300, 300)
        self.browser.wait("state.said && state.said.call === 'open %s'" % name)


def refused(hand, what, number):
    """The page says this refusal, with words, and the site is as it was."""
    said = hand.said()
    if "refused by %d: " % number not in said or len(said.split("refused by %d: " % number)[1]) < 8:
        raise SystemExit("%s: the page says %r, expected refusal %d" % (what, said, number))
    hand.agree(what)


def change_words(change, asked):
    if not change.radios:
        return "would change no number" if asked else "changed no number"
    word = ("would rise" if asked else "rose") if change.step > 0 else ("would fall" if asked else "fell")
    return "%d %s by one: %s" % (len(change.radios), word, " ".join(map(str, change.radios)))


# ---- what is tried


def try_links(hand):
    """Two radios clicked: asked first and taken; then taken at once; up and down."""
    site = hand.site
    for a, b in ((0, 5), (1, 70), (30, 31), (0, 5), (9, 12)):
        up = not site.linked(a, b)
        way = "up" if up else "down"
        hand.radio(a)
        same("radio", hand.said().split(":")[0], "radio %d" % a)
        hand.radio(b)
        asked = (site.ask_up if up else site.ask_down)(a, b)
        same("asked", hand.said(), "ask %s %d %d %s" % (way, a, b, change_words(asked, True)))
        hand.agree("asked about %d %d" % (a, b))
        hand.push("#take")
        change = (site.commit_up if up else site.commit_down)(a, b, asked)
        same("taken", hand.said(), "commit %s %d %d %s" % (way, a, b, change_words(change, False)))
        hand.badges(change)
        hand.agree("taken %d %d" % (a, b))
    hand.push("#askfirst")
    for a, b in ((2, 40), (2, 40), (17, 3)):
        up = not site.linked(a, b)
        hand.radio(a)
        hand.radio(b)
        change = (site.link_up if up else site.link_down)(a, b)
        same("at once", hand.said(), "%s %d %d %s" % ("up" if up else "down", a, b, change_words(change, False)))
        hand.agree("at once %d %d" % (a, b))
    hand.push("#askfirst")


def try_refusals(hand):
    """Link calls that are refused, and a number that is none."""
    for verb, a, b, number in (("link up", 3, 3, 5), ("link up", 3, 72, 4), ("ask up", 65535, 1, 4), ("ask down", 1, 1, 5)):
        hand.link(verb, a, b)
        refused(hand, "%s %d %d" % (verb, a, b), number)
    a, b = native_links(hand.site)[0]
    for verb, number in (("link up", 6), ("ask up", 6)):
        hand.link(verb, a, b)
        refused(hand, verb + " of a link that is up", number)
    hand.link("link up", 0, 70000)
    same("70000", hand.said(), "page a whole number from 0 to 65,535 is asked for, and this is none: 70000")


def try_lift(hand):
    """A radio that some link lifts, and one that none does."""
    site = hand.site
    lifts = [native_lift(site, v) for v in range(site.n)]
    low = max(v for v in range(site.n) if lifts[v][0] == 0)
    hand.radio(low)
    hand.push("#lift")
    a, b = lifts[low][1:]
    asked = site.ask_up(a, b)
    same("lift", hand.said(), "lift %d link %d %d would raise it\nask up %d %d %s" % (low, a, b, a, b, change_words(asked, True)))
    hand.push("#take")
    site.link_up(a, b)
    hand.agree("lifted")
    none = next((v for v in range(site.n) if native_lift(site, v)[0] == 20), None)
    if none is not None:
        hand.radio(none)
        hand.push("#lift")
        refused(hand, "a radio that no link lifts", 20)
        hand.push("#leave")


def try_tree(hand):
    """Nodes chosen by clicks and by keys: the core shown is the node's."""
    nodes = [x for x in hand.site.tree().nodes if x.name != summerbugle.ROOT]
    for node in nodes[:3] + nodes[-2:]:
        hand.push("[data-node='%d']" % node.name)
        same("core of node %d" % node.name, hand.ask("state.node.radios"), hand.site.core(node.name, node.level))
    child = next(x for x in nodes if x.parent != summerbugle.ROOT)
    hand.push("[data-node='%d']" % child.name)
    hand.browser.press("ArrowLeft")
    same("parent", hand.ask("state.node.name"), child.parent)
    hand.browser.press("ArrowRight")
    same("a child", hand.ask("state.node.parent"), child.parent)
    hand.browser.press("ArrowUp")
    same("a line up", hand.ask("state.node.name"), child.parent)
    hand.browser.press("ArrowDown")
    same("a line down", hand.ask("state.node.parent"), child.parent)
    hand.push("[data-node='%d']" % summerbugle.ROOT)
    same("root", hand.ask("state.node"), None)
    hand.radio(child.name)
    hand.push("#own")
    same("its core", hand.ask("state.node.name"), child.name)
    hand.push("[data-node='%d']" % child.name)
    hand.push("#leave")


def try_marks(hand):
    """Marks set, come back to and removed; refusals; the store is the archive's byte for byte."""
    site, marks = hand.site, summerbugle.Marks()

    def store(what):
        got = hand.ask("(b => { let s = 0; b.forEach((x, i) => { s = (s * 31 + x) % 4294967291; }); return s; })(state.engine.bytes(state.desk.store))")
        wanted = 0
        for x in marks.store:
            wanted = (wanted * 31 + x) % 4294967291
        same(what, got, wanted)

    def set_mark(name):
        hand.fill("#name", name)
        hand.push("#marking button")

    set_mark("TOWER1")
    marks.set(site, "TOWER1")
    store("one mark")
    hand.link("link up", 0, 71)
    site.link_up(0, 71)
    set_mark("before")
    marks.set(site, "BEFORE")
    store("two marks")
    same("names", hand.ask("[...document.querySelectorAll('#marks b')].map(x => x.textContent)"), ["BEFORE", "TOWER1"])
    hand.push("#marks li:nth-child(2) button")
    marks.come_back(site, "TOWER1")
    hand.agree("come back")
    hand.push("#marks li:nth-child(1) button:nth-of-type(2)")
    marks.remove(site, "BEFORE")
    store("one removed")
    for name in ("A-B", "NINECHARS", ""):
        hand.fill("#name", name or " ")
        hand.push("#marking button")
        refused(hand, "mark %r" % name, 17)
    for i in range(7):
        set_mark("M%d" % i)
        marks.set(site, "M%d" % i)
    store("eight marks")
    set_mark("M8")
    refused(hand, "a ninth mark", 19)


def try_files(hand):
    """What is saved is the archive's, and is opened again; spoiled files open nothing."""
    site = hand.site
    saved = {}
    files = (("image", "site.img", site.image()), ("script", "site.txt", site.script().encode()), ("sheet", "sheet.txt", site.sheet().encode()))
    for kind, name, wanted in files:
        hand.push("details:last-of-type summary")
        hand.push("#" + kind)
        saved[kind] = hand.browser.saved(name)
        same(kind, saved[kind], wanted)
    spoiled = bytearray(saved["image"])
    spoiled[600] ^= 1
    for name, data, number in (("spoiled.img", bytes(spoiled), 10), ("short.img", saved["image"][:700], 9), ("none.img", b"", 9)):
        hand.drop(name, data)
        refused(hand, name, number)
    hand.drop("bad.txt", b"radios 3\nup 0 1\nup 0  2\n")
    same("bad line", hand.said(), "open bad.txt no line of the language stands in line 3 of the script")
    hand.drop("none.txt", b"radios 0\n")
    same("bad first line", hand.said(), "open none.txt no line of the language stands in line 1 of the script")
    hand.drop("cut.txt", b"radios 3\nup 0 1")
    same("no line feed", hand.said(), "open cut.txt no line of the language stands in line 2 of the script")
    hand.drop("long.img", bytes(50000))
    same("long", hand.said(), "open long.img no script, and longer than the longest image, 44,032 bytes")
    hand.agree("after files that open nothing")
    hand.drop("again.txt", saved["script"])
    hand.site = played(saved["script"].decode())
    hand.agree("the script opened")
    hand.drop("again.img", saved["image"])
    hand.site = site
    hand.agree("the image opened")


def try_sites(hand):
    """Other sites: a script with refused lines, the sample, radios on a plane, one radio, a full site."""
    text = "radios 9\nup 0 1\nup 0 1\nup 1 2\nup 2 0\nup 8 9\ndown 3 4\nup 3 4\n"
    hand.drop("refused.txt", text.encode())
    hand.site = played(text)
    same("refused lines", hand.said(), "open refused.txt a script of 7 calls, 3 refused")
    hand.agree("refused lines")
    for n, kind in ((1, "empty"), (60, "plane"), (512, "plane")):
        hand.push("details summary")
        hand.fill("#size", str(n))
        hand.push("#" + kind)
        same("size", hand.ask("state.site.n"), n)
        hand.site = summerbugle.Site(n)
        hand.site.link_batch(hand.ask("state.site.links()"))
        hand.agree("%s of %d" % (kind, n))
    hand.push("details summary")
    hand.fill("#size", "513")
    hand.push("#empty")
    refused(hand, "513 radios", 1)


def try_history(hand, n, calls, most):
    """Pseudo-random link calls, each answer compared."""
    rng = random.Random(137 + n)
    hand.site = summerbugle.Site(n)
    hand.ask("openEmpty(%d)" % n)
    steps = [[rng.random() < 0.8, rng.randrange(most), rng.randrange(n)] for _ in range(calls)]
    got = hand.ask("%s.map(([up, a, b]) => { const r = state.site.link('link', up, a, b); return [r.number, r.step, ...r.radios]; })" %
                   str(steps).replace("True", "true").replace("False", "false"))
    for (up, a, b), answer in zip(steps, got):
        try:
            change = (hand.site.link_up if up else hand.site.link_down)(a, b)
            wanted = [0, change.step, *change.radios]
        except summerbugle.Refused as no:
            wanted = [no.number, 0]
        same("%s %d %d" % ("up" if up else "down", a, b), answer, wanted)
    hand.ask("refresh()")
    hand.agree("after %d calls" % calls)
    hand.compared += calls
    return sorted({answer[0] for answer in got})


def try_phone(hand):
    """The same by a finger on a phone; nothing is wider than the screen."""
    hand.browser.look(390, 844, phone=True)
    hand.ask("showAll(), 0")
    same("width", hand.ask("document.documentElement.scrollWidth"), 390)
    site = hand.site
    hand.radio(0, touch=True)
    hand.radio(8, touch=True)
    way = "down" if site.linked(0, 8) else "up"
    same("by a finger", hand.said(), "ask %s 0 8 %s" % (way, change_words((site.ask_down if way == "down" else site.ask_up)(0, 8), True)))
    hand.ask("choose(-1)")
    zoom = hand.ask("state.view.zoom")
    hand.browser.pinch(195, 350, 40, 80)
    same("pinched", round(hand.ask("state.view.zoom") / zoom, 1), 2.0)
    hand.browser.look(1280, 800)


def try_view(hand):
    """A radio dragged to another place, the drawing dragged and zoomed: the site is the same."""
    hand.browser.look(1280, 800)
    hand.ask("showAll(), 0")
    x, y = hand.ask("(r => onScreen(state, 0).map((x, i) => x + [r.x, r.y][i]))(byId('mesh').getBoundingClientRect())")
    hand.browser.drag(x, y, x + 60, y + 30)
    moved = hand.ask("(r => onScreen(state, 0).map((x, i) => x + [r.x, r.y][i]))(byId('mesh').getBoundingClientRect())")
    same("dragged", [round(moved[0] - x), round(moved[1] - y)], [60, 30])
    for button in ("#in", "#out", "#lay", "#all"):
        hand.push(button)
    zoom = hand.ask("state.view.zoom")
    hand.ask("byId('mesh').focus()")
    hand.browser.press("+")
    same("zoomed", round(hand.ask("state.view.zoom") / zoom, 3), 1.25)
    hand.browser.press("0")
    same("all shown", hand.ask("state.view.zoom"), zoom)
    for layer in ("rings", "stairs", "names"):
        hand.push("[data-layer='%s']" % layer)
        hand.push("[data-layer='%s']" % layer)
    hand.agree("drawn otherwise")


def try_without(path):
    """Browsers that do not run the engine say so."""
    with Browser("--js-flags=--jitless") as browser:
        browser.open(path)
        browser.wait("document.getElementById('why').textContent.includes('WebAssembly is missing')")
        same("no WebAssembly", browser.ask("getComputedStyle(document.getElementById('cannot')).display"), "grid")
    with Browser() as browser:
        browser.do("Emulation.setScriptExecutionDisabled", value=True)
        browser.open(path)
        same("no JavaScript", browser.ask("document.getElementById('cannot').innerText.split('.')[0]"), "This page needs JavaScript and WebAssembly")


def main():
    if len(sys.argv) < 2:
        raise SystemExit("usage: python3 page/live/look.py MODULE.wasm [FOLDER]")
    pictures = sys.argv[2] if len(sys.argv) > 2 else os.path.join(make.ROOT, "target", "page")
    os.makedirs(pictures, exist_ok=True)
    with open(sys.argv[1], "rb") as f:
        page = make.page(f.read())
    with tempfile.TemporaryDirectory() as folder:
        path = os.path.join(folder, "live.html")
        with open(path, "w", encoding="utf-8") as f:
            f.write(page)
        work(path, folder, pictures)


def work(path, folder, pictures):
    with Browser() as browser:
        browser.look(1280, 800)
        browser.open(path)
        browser.wait("state.site !== null && state.opening === null")
        hand = Hand(browser, played(make.read(make.ROOT, "examples", "towers.txt")), folder)
        hand.agree("the sample")
        for act in (try_view, try_links, try_refusals, try_lift, try_tree, try_marks, try_files, try_phone, try_sites):
            act(hand)
            print("%s: %s" % (act.__name__[4:], act.__doc__))
        for n, calls, most in ((8, 600, 8), (60, 3000, 4), (512, 4000, 512)):
            print("%d link calls at %d radios: numbers %s" % (calls, n, try_history(hand, n, calls, most)))
        print("%d answers compared with the archive's" % hand.compared)
        take_pictures(hand, pictures)
    try_without(path)
    print("without WebAssembly, and without JavaScript, the page says so")


def take_pictures(hand, folder):
    """The sample with a link asked about and taken, and 512 radios; light and dark, desktop and phone."""
    shots = {
        "sample": "openScript('sample', SAMPLE).then(() => lift(state.facts.names.indexOf(65535)))",
        "taken": "(async () => { await openScript('sample', SAMPLE); lift(51); commitLink(); })()",
        "core": "(async () => { await openScript('sample', SAMPLE); lookAt(state.facts.nodes.at(-1).name); })()",
        "plane": "openPlane(512)", "small": "openPlane(24)",
    }
    for size, wide, high, phone in (("desktop", 1280, 800, False), ("phone", 390, 844, True)):
        for dark in (False, True):
            hand.browser.look(wide, high, phone, dark)
            for name, script in shots.items():
                hand.ask("Promise.resolve(%s).then(() => 0)" % script)
                hand.ask("scrollTo(0, 0), showAll(), 0")
                hand.browser.picture(os.path.join(folder, "live-%s-%s%s.png" % (name, size, "-dark" if dark else "")))
    print("pictures in " + folder)


if __name__ == "__main__":
    main()
