"""A headless browser controlled through its debugging pipe, in plain Python: no driver, no port, no package.

    with Browser() as b:
        b.open("file:///..")            # waits for the load
        b.run("await something()")      # the value of an expression, by JSON
        b.shot("picture.png")
"""
import base64, fcntl, json, os, select, signal, shutil, subprocess, tempfile, time

NAMES = ["chromium-headless-shell", "chromium"]


class Browser:
    def __init__(self, name=None, size=(1500, 1150)):
        name = name or next(n for n in NAMES if shutil.which(n))
        self.room = tempfile.mkdtemp(prefix="page-")
        ours_in, theirs_out = os.pipe()
        theirs_in, ours_out = os.pipe()
        # to numbers other than 3 and 4
        low = theirs_in, theirs_out
        theirs_in, theirs_out = (fcntl.fcntl(it, fcntl.F_DUPFD, 20) for it in low)
        for it in low:
            os.close(it)
        # The browser reads its fd 3 and writes its fd 4.
        words = ["bash", "-c", f'exec "$@" 3<&{theirs_in} 4>&{theirs_out} {theirs_in}<&- {theirs_out}>&-', "", name, "--headless", "--remote-debugging-pipe", "--no-sandbox", "--disable-gpu", "--no-first-run", "--disable-background-networking", "--disable-component-update", "--disable-dev-shm-usage", f"--user-data-dir={self.room}", f"--window-size={size[0]},{size[1]}", "about:blank"]
        self.process = subprocess.Popen(words, pass_fds=(theirs_in, theirs_out), stdin=subprocess.DEVNULL, stdout=subprocess.DEVNULL, stderr=open(f"{self.room}/err", "wb"), start_new_session=True)
        os.close(theirs_in); os.close(theirs_out)
        self.read, self.write, self.number, self.rest, self.heard = ours_in, ours_out, 0, b"", []
        target = self.call("Target.createTarget", url="about:blank")["targetId"]
        self.session = None
        self.session = self.call("Target.attachToTarget", targetId=target, flatten=True)["sessionId"]
        self.call("Page.enable"); self.call("Runtime.enable")

    def message(self, until):
        while b"\0" not in self.rest:
            if not select.select([self.read], [], [], max(0, until - time.time()))[0]:
                raise TimeoutError("no message from the browser")
            part = os.read(self.read, 1 << 20)
            if not part:
                raise EOFError("the browser ended: " + open(f"{self.room}/err", errors="replace").read()[-500:])
            self.rest += part
        first, self.rest = self.rest.split(b"\0", 1)
        return json.loads(first)

    def call(self, method, seconds=120, **params):
        self.number += 1
        request = {"id": self.number, "method": method, "params": params}
        if getattr(self, "session", None):
            request["sessionId"] = self.session
        data = json.dumps(request).encode() + b"\0"
        while data:
            data = data[os.write(self.write, data):]
        until = time.time() + seconds
        while True:
            it = self.message(until)
            if it.get("id") == self.number:
                if "error" in it:
                    raise RuntimeError(f"{method}: {it['error']}")
                return it["result"]
            self.heard.append(it)

    def open(self, url, seconds=60):
        self.heard.clear()
        self.call("Page.navigate", url=url)
        until = time.time() + seconds
        while not any(it.get("method") == "Page.loadEventFired" for it in self.heard):
            self.heard.append(self.message(until))

    def run(self, expression, seconds=120):
        got = self.call("Runtime.evaluate", seconds, expression=f"(async () => {{ {expression} }})()", awaitPromise=True, returnByValue=True)
        if "exceptionDetails" in got:
            raise RuntimeError(got["exceptionDetails"].get("exception", {}).get("description", str(got)))
        return got["result"].get("value")

    def size(self, width, height):
        self.call("Emulation.setDeviceMetricsOverride", width=width, height=height, deviceScaleFactor=1, mobile=width < 800)

    def click(self, element):
        """Moves the mouse to an element, which must be visible, and clicks. Returns the milliseconds until the page has drawn."""
        left, top, inside = self.run(f"""
const it = {element}; it.scrollIntoViewIfNeeded();
const box = it.getBoundingClientRect(), x = box.left + Math.min(box.width / 2, 80), y = box.top + box.height / 2, at = document.elementFromPoint(x, y);
return [x, y, it === at || it.contains(at)]""")
        if not inside:
            raise RuntimeError(f"nothing to click at: {element}")
        self.call("Input.dispatchMouseEvent", type="mouseMoved", x=left, y=top)
        # a person needs some time between pointing and pressing, in which the page is idle
        self.run("await new Promise(it => setTimeout(it, 100)); window.clicked = performance.now()")
        for kind in ("mousePressed", "mouseReleased"):
            self.call("Input.dispatchMouseEvent", type=kind, x=left, y=top, button="left", clickCount=1)
        return self.run("await new Promise(requestAnimationFrame); return performance.now() - window.clicked")

    def shot(self, file):
        with open(file, "wb") as it:
            it.write(base64.b64decode(self.call("Page.captureScreenshot", format="png")["data"]))

    def __enter__(self):
        return self

    def __exit__(self, *_):
        try:
            os.close(self.write); os.close(self.read)
            self.process.wait(5)
        except subprocess.TimeoutExpired:
            os.killpg(self.process.pid, signal.SIGKILL)
            self.process.wait()
        shutil.rmtree(self.room, ignore_errors=True)
