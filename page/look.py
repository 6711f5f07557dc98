"""Opens pages in a headless browser, works them by buttons, keys, fingers and the slider, and holds what they show against the engine's answers.

    python3 page/look.py [FOLDER]      pictures of the pages, light, dark and as wide as a phone, are left in FOLDER (target/page)

Needs chromium (CHROMIUM names another), and the shared object that bindings/python/build makes.
"""

import html
import os
import re
import subprocess
import sys
import tempfile

HERE = os.path.dirname(os.path.abspath(__file__))
ROOT = os.path.dirname(HERE)
sys.path.insert(0, os.path.join(ROOT, "bindings", "python"))
CHROMIUM = os.environ.get("CHROMIUM", "chromium")
PHONE = (390, 844)

import summerbugle  # noqa: E402
from summerbugle import page as pages  # noqa: E402

# what a hand does, and what is then shown: place in the script, the text about the call, how many nodes the shell tree has
DRIVER = """
<script>
const seen = [], note = what => seen.push([what, byId("place").textContent, byId("say").textContent, byId("tree").querySelectorAll("button").length,
  byId("tree").querySelectorAll('[aria-pressed="true"]').length].join("|"));
const press = key => document.dispatchEvent(new KeyboardEvent("keydown", { key, bubbles: true }));
seen.push(["title", document.title, "", "", ""].join("|"));
note("opened");
byId("first").click(); note("first");
byId("next").click(); note("next");
press("ArrowRight"); note("right");
press("ArrowLeft"); note("left");
byId("step").value = count; byId("step").dispatchEvent(new Event("input")); note("slider");
const node = byId("tree").querySelector("button");
if (node) { node.click(); note("node"); node.click(); note("again"); }
byId("back").click(); note("back");
press("Home"); note("home");
press("End"); note("end");
byId("names").click(); byId("rings").click(); byId("rings").click(); press("+"); press("0"); note("drawn");
const out = document.createElement("pre"); out.id = "seen"; out.textContent = seen.join("\\n"); document.body.append(out);
</script>
"""

# a page in a frame as wide as a phone: two fingers, a tap on radio 0, and what does not fit into the frame
PHONE_DRIVER = """
<script>
addEventListener("load", () => {
  const frame = document.querySelector("iframe").contentWindow, page = frame.document, seen = [];
  const name = x => x.id || x.tagName, box = x => x.getBoundingClientRect();
  const finger = (kind, pointerId, x, y) => page.getElementById("mesh").dispatchEvent(new frame.PointerEvent(kind, { pointerId, pointerType: "touch", clientX: x, clientY: y }));
  frame.eval("canvas.setPointerCapture = () => {}");
  for (const x of page.querySelectorAll("body *")) if (box(x).width && (box(x).right > frame.innerWidth + 0.5 || box(x).left < 0)) seen.push(name(x) + " does not fit");
  if (page.documentElement.scrollWidth > frame.innerWidth) seen.push("the page is wider than its frame");
  const before = frame.eval("zoom");
  finger("pointerdown", 1, 100, 100); finger("pointerdown", 2, 200, 100); finger("pointermove", 2, 300, 100); finger("pointerup", 1, 100, 100); finger("pointerup", 2, 300, 100);
  seen.push("zoomed by " + frame.eval("zoom") / before);
  frame.eval("fit(); draw()");
  finger("pointerdown", 1, frame.eval("px[0] * zoom + ox"), frame.eval("py[0] * zoom + oy")); finger("pointerup", 1, 0, 0);
  seen.push(page.getElementById("tip").textContent);
  const out = document.createElement("pre"); out.id = "seen"; out.textContent = seen.join("\\n"); document.body.append(out);
});
</script>
"""


def page_of(data):
    made = subprocess.run([sys.executable, os.path.join(HERE, "make.py")], input=data, stdout=subprocess.PIPE, check=True)
    return made.stdout.decode("utf-8")


def browser(*words):
    return subprocess.run([CHROMIUM, "--headless=new", "--no-sandbox", "--disable-gpu", "--hide-scrollbars", "--window-size=1280,900",
                           "--virtual-time-budget=4000", *words], stdout=subprocess.PIPE, stderr=subprocess.DEVNULL, check=True).stdout.decode("utf-8")


def seen_in(text):
    """The lines that a driver leaves in a page."""
    with tempfile.TemporaryDirectory() as folder:
        path = os.path.join(folder, "page.html")
        with open(path, "w", encoding="utf-8") as f:
            f.write(text)
        dom = browser("--dump-dom", "file://" + path)
    found = re.search(r'<pre id="seen">(.*?)</pre>', dom, re.S)
    if not found:
        raise SystemExit("the page did not get to its end")
    return html.unescape(found.group(1)).split("\n")


def worked(text):
    """What a page shows while it is worked."""
    return [line.split("|") for line in seen_in(text.replace("</body>", DRIVER + "</body>"))]


def on_phone(text):
    """The page in a frame as wide as a phone."""
    return '<body style="margin: 0"><iframe style="border: 0; width: %dpx; height: %dpx" srcdoc="%s"></iframe></body>' % (*PHONE, html.escape(text))


def picture(text, path, *words):
    with tempfile.TemporaryDirectory() as folder:
        source = os.path.join(folder, "page.html")
        with open(source, "w", encoding="utf-8") as f:
            f.write(text)
        browser("--screenshot=" + path, *words, "file://" + source)
    if not os.path.getsize(path):
        raise SystemExit("no picture: " + path)


def expect(name, seen, wanted):
    got = {x[0]: x[1:] for x in seen}
    for what, place, say, nodes, pressed in wanted:
        if got.get(what) != [place, say, nodes, pressed]:
            raise SystemExit("%s, %s: %s, expected %s" % (name, what, got.get(what), [place, say, nodes, pressed]))
    print("%s: %d things done, %d looked at" % (name, len(seen), len(wanted)))


def expect_phone(name, text):
    seen = seen_in(on_phone(text).replace("</body>", PHONE_DRIVER + "</body>"))
    if len(seen) != 2 or seen[0] != "zoomed by 2" or not seen[1].startswith("radio 0, number "):
        raise SystemExit("%s on a phone: %s" % (name, seen))
    print("%s: fits a phone" % name)


def sample_page():
    with open(os.path.join(ROOT, "examples", "site.txt"), "rb") as f:
        page = page_of(f.read())
    last = "down 0 13 fell by one: 0 1 2"
    expect("sample", worked(page), [
        ("opened", "9 of 9", last, "2", "0"),
        ("first", "0 of 9", "Cleared: no links.", "0", "0"),
        ("next", "1 of 9", "up 0 12 rose by one: 0 1", "1", "0"),
        ("right", "2 of 9", "up 0 21 rose by one: 2", "1", "0"),
        ("left", "1 of 9", "up 0 12 rose by one: 0 1", "1", "0"),
        ("slider", "9 of 9", last, "2", "0"),
        ("node", "9 of 9", last, "2", "1"),
        ("again", "9 of 9", last, "2", "0"),
        ("back", "8 of 9", "up 0 61 rose by one: 6", "2", "0"),
        ("home", "0 of 9", "Cleared: no links.", "0", "0"),
        ("end", "9 of 9", last, "2", "0"),
        ("drawn", "9 of 9", last, "2", "0"),
    ])
    return page


def image_page():
    with open(os.path.join(ROOT, "examples", "towers.txt")) as f:
        site = summerbugle.Site.from_script(f.read())
    page = page_of(site.image())
    nodes = str(len(site.tree().nodes) - 1)
    title = "%d radios, %d links" % (site.n, len(site.link_list()))
    expect("image", worked(page), [("title", title, "", "", ""), ("opened", "0 of 0", "", nodes, "0"), ("node", "0 of 0", "", nodes, "1")])
    return page


def ring_page():
    page = page_of(b"radios 512\n" + b"".join(b"up %d %d\n" % (i, (i + 1) % 512) for i in range(512)))
    seen = worked(page)
    if not seen[1][2].startswith("up 511 0512 rose by one: 0 1 2"):
        raise SystemExit("ring: " + seen[1][2])
    print("ring of 512: %d things done" % len(seen))
    return page


def long_page():
    """More calls than a page has steps: three calls are one step, and some are refused."""
    calls = [b"up %d %d\n", b"up %d %d\n", b"down %d %d\n", b"down %d %d\n"]
    lines = b"".join(calls[i % 4] % ((i // 4) % 7, 7 + (i // 4) % 5 + (i % 4 == 1)) for i in range(3 * pages.STEPS))
    page = page_of(b"radios 20\n" + lines)
    steps = str(pages.STEPS)
    expect("long script", worked(page), [
        ("title", "20 radios, %d calls, 3 to a step" % (3 * pages.STEPS), "", "", ""),
        ("first", "0 of " + steps, "Cleared: no links.", "0", "0"),
        ("next", "1 of " + steps, "calls 1 to 3, 0 of them refusedtogether they change 1 link and the numbers of 2 radios: 0 8", "0", "0"),
    ])
    return page


def main():
    folder = sys.argv[1] if len(sys.argv) > 1 else os.path.join(ROOT, "target", "page")
    os.makedirs(folder, exist_ok=True)
    refused = page_of(b"radios 2\nup 0 1\nup 1 0\n")
    expect("refused call", worked(refused), [("opened", "2 of 2", "up 1 0refused by 6: going up the link is up already, going down it is down", "1", "0")])
    for name, page in (("sample", sample_page()), ("image", image_page()), ("ring", ring_page()), ("long", long_page())):
        expect_phone(name, page)
        picture(page, os.path.join(folder, name + ".png"))
        picture(page, os.path.join(folder, name + "-dark.png"), "--force-dark-mode")
        picture(on_phone(page), os.path.join(folder, name + "-phone.png"), "--window-size=%d,%d" % PHONE)
    print("pictures in " + folder)


if __name__ == "__main__":
    main()
