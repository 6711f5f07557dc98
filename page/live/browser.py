"""A headless chromium, worked by real clicks, keys and dropped files, over its debugging pipe. CHROMIUM names another program."""

import base64
import fcntl
import json
import os
import select
import shutil
import subprocess
import tempfile
import time

CHROMIUM = os.environ.get("CHROMIUM", "chromium")
WORDS = ["--headless=new", "--no-sandbox", "--disable-gpu", "--hide-scrollbars", "--no-first-run", "--remote-debugging-pipe"]


def high(fd):
    """The same end of a pipe, above the descriptors that chromium takes."""
    moved = fcntl.fcntl(fd, fcntl.F_DUPFD_CLOEXEC, 10)
    os.close(fd)
    return moved


class Browser:
    """One page of a browser of its own."""

    def __init__(self, *words):
        self.folder = tempfile.mkdtemp()
        (reads, self.out), (self.answers, writes) = [map(high, os.pipe()) for _ in range(2)]
        self.process = subprocess.Popen([CHROMIUM, *WORDS, "--user-data-dir=" + self.folder, *words, "about:blank"], close_fds=False,
                                        stdout=subprocess.DEVNULL, stderr=subprocess.DEVNULL, preexec_fn=lambda: (os.dup2(reads, 3), os.dup2(writes, 4)))
        os.close(reads)
        os.close(writes)
        self.next, self.rest, self.page, self.written = 0, b"", None, 0
        self.do("Browser.setDownloadBehavior", behavior="allow", downloadPath=self.folder, eventsEnabled=True)
        target = self.do("Target.createTarget", url="about:blank")["targetId"]
        self.page = self.do("Target.attachToTarget", targetId=target, flatten=True)["sessionId"]
        self.do("Page.enable")

    def __enter__(self):
        return self

    def __exit__(self, *ignored):
        self.process.terminate()
        self.process.wait()
        os.close(self.out)
        os.close(self.answers)
        shutil.rmtree(self.folder, ignore_errors=True)

    # ---- the pipe: messages parted by a zero byte

    def do(self, method, **params):
        """A command, and what it came back with."""
        self.next += 1
        message = {"id": self.next, "method": method, "params": params}
        if self.page:
            message["sessionId"] = self.page
        data = json.dumps(message).encode() + b"\0"
        while data:
            data = data[os.write(self.out, data):]
        while True:
            answer = self.message()
            self.written += answer.get("method") == "Browser.downloadProgress" and answer["params"]["state"] == "completed"
            if answer.get("id") == self.next:
                if "error" in answer:
                    raise SystemExit("%s: %s" % (method, answer["error"]["message"]))
                return answer["result"]

    def message(self):
        while b"\0" not in self.rest:
            if not select.select([self.answers], [], [], 60)[0]:
                raise SystemExit("the browser does not answer")
            got = os.read(self.answers, 1 << 20)
            if not got:
                raise SystemExit("the browser is gone")
            self.rest += got
        text, self.rest = self.rest.split(b"\0", 1)
        return json.loads(text)

    # ---- a page

    def open(self, path):
        self.do("Page.navigate", url="file://" + os.path.abspath(path))
        self.wait("document.readyState === 'complete'")

    def ask(self, script):
        """The value of an expression in the page."""
        got = self.do("Runtime.evaluate", expression=script, returnByValue=True, awaitPromise=True)
        if "exceptionDetails" in got:
            raise SystemExit("%s: %s" % (script[:80], got["exceptionDetails"].get("exception", {}).get("description", "stopped")))
        return got["result"].get("value")

    def wait(self, script, seconds=30):
        end = time.monotonic() + seconds
        while not self.ask(script):
            if time.monotonic() > end:
                raise SystemExit("never came: " + script)
            time.sleep(0.02)

    def look(self, wide, high, phone=False, dark=False):
        """The size of the window, as a phone's or not, and the colours asked for."""
        self.do("Emulation.setDeviceMetricsOverride", width=wide, height=high, deviceScaleFactor=2 if phone else 1, mobile=phone)
        self.do("Emulation.setTouchEmulationEnabled", enabled=phone)
        self.do("Emulation.setEmulatedMedia", features=[{"name": "prefers-color-scheme", "value": "dark" if dark else "light"}])

    def picture(self, path, whole=False):
        shot = self.do("Page.captureScreenshot", format="png", captureBeyondViewport=whole)
        with open(path, "wb") as f:
            f.write(base64.b64decode(shot["data"]))

    # ---- what a hand does

    def click(self, x, y):
        for kind in ("mouseMoved", "mousePressed", "mouseReleased"):
            self.do("Input.dispatchMouseEvent", type=kind, x=x, y=y, button="none" if kind == "mouseMoved" else "left", clickCount=1)

    def tap(self, x, y):
        self.do("Input.dispatchTouchEvent", type="touchStart", touchPoints=[{"x": x, "y": y}])
        self.do("Input.dispatchTouchEvent", type="touchEnd", touchPoints=[])

    def pinch(self, x, y, near, far):
        """Two fingers, from near to far beside a point."""
        for kind, d in (("touchStart", near), ("touchMove", (near + far) / 2), ("touchMove", far)):
            self.do("Input.dispatchTouchEvent", type=kind, touchPoints=[{"x": x - d, "y": y, "id": 0}, {"x": x + d, "y": y, "id": 1}])
        self.do("Input.dispatchTouchEvent", type="touchEnd", touchPoints=[])

    def drag(self, x, y, to_x, to_y):
        for kind, at in (("mouseMoved", (x, y)), ("mousePressed", (x, y)), ("mouseMoved", (to_x, to_y)), ("mouseReleased", (to_x, to_y))):
            self.do("Input.dispatchMouseEvent", type=kind, x=at[0], y=at[1], button="left", buttons=1, clickCount=1)

    def press(self, key):
        for kind in ("keyDown", "keyUp"):
            self.do("Input.dispatchKeyEvent", type=kind, key=key, code=key)

    def type(self, text):
        self.do("Input.insertText", text=text)

    def drop(self, path, x, y):
        data = {"items": [], "files": [path], "dragOperationsMask": 1}
        for kind in ("dragEnter", "dragOver", "drop"):
            self.do("Input.dispatchDragEvent", type=kind, x=x, y=y, data=data)

    def saved(self, name, seconds=20):
        """The bytes of the file that the page saved, once it is written; it is then taken away."""
        path, end = os.path.join(self.folder, name), time.monotonic() + seconds
        while not self.written:
            if time.monotonic() > end:
                raise SystemExit("never saved: " + name)
            time.sleep(0.02)
            self.ask("0")
        self.written -= 1
        with open(path, "rb") as f:
            data = f.read()
        os.unlink(path)
        return data
