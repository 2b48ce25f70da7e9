"""A headless Chromium, driven over --remote-debugging-pipe with what the standard library of Python has."""
import base64, json, os, select, shutil, subprocess, tempfile, time


class Fault(Exception):
    """What the browser answers in the place of what was asked for."""


class Browser:
    """A browser with a profile of its own, which is removed at its end."""

    def __init__(self, width=1500, height=860):
        self.profile = tempfile.mkdtemp(prefix="desk-page-")
        down_r, self.out = os.pipe()
        self.into, up_w = os.pipe()

        # chromium reads from 3 and writes to 4
        def place():
            r, w = os.dup(down_r), os.dup(up_w)
            os.dup2(r, 3)
            os.dup2(w, 4)

        words = ["chromium", "--headless", "--no-sandbox", "--disable-gpu", "--hide-scrollbars",
                 "--remote-debugging-pipe", "--no-first-run", "--disable-background-networking",
                 "--disable-component-update", "--disable-sync", f"--user-data-dir={self.profile}",
                 f"--window-size={width},{height}", "about:blank"]
        self.process = subprocess.Popen(words, preexec_fn=place, close_fds=False, stdin=subprocess.DEVNULL,
                                        stdout=subprocess.DEVNULL, stderr=subprocess.DEVNULL)
        os.close(down_r)
        os.close(up_w)
        self.rest, self.asked, self.events = b"", 0, []

    def _read(self, end):
        while b"\0" not in self.rest:
            left = end - time.monotonic()
            if left <= 0 or not select.select([self.into], [], [], left)[0]:
                raise Fault("the browser is silent")
            piece = os.read(self.into, 1 << 20)
            if not piece:
                raise Fault("the browser has ended")
            self.rest += piece
        message, self.rest = self.rest.split(b"\0", 1)
        return json.loads(message)

    def ask(self, method, session=None, seconds=20, **params):
        self.asked += 1
        mine = self.asked
        message = {"id": mine, "method": method, "params": params}
        if session:
            message["sessionId"] = session
        os.write(self.out, json.dumps(message).encode() + b"\0")
        end = time.monotonic() + seconds
        while True:
            got = self._read(end)
            if got.get("id") == mine:
                if "error" in got:
                    raise Fault(got["error"]["message"])
                return got["result"]
            self.events.append(got)

    def pages(self):
        return {it["targetId"] for it in self.ask("Target.getTargets")["targetInfos"] if it["type"] == "page"}

    def close(self):
        try:
            self.ask("Browser.close", seconds=5)
        except (Fault, OSError):
            self.process.kill()
        self.process.wait()
        os.close(self.out)
        os.close(self.into)
        shutil.rmtree(self.profile, ignore_errors=True)


class Tab:
    """A page that the browser shows."""

    def __init__(self, browser, url=None, target=None):
        self.browser = browser
        self.target = target or browser.ask("Target.createTarget", url="about:blank")["targetId"]
        self.session = browser.ask("Target.attachToTarget", targetId=self.target, flatten=True)["sessionId"]
        for domain in ("Page", "Runtime", "Log", "Network"):
            self.ask(f"{domain}.enable")
        if url:
            self.ask("Page.navigate", url=url)

    def doubled(self):
        """Another tab of this address, with a copy of what this one keeps for its own session."""
        before, added = self.browser.pages(), set()
        link = "Object.assign(document.createElement('a'), { href: location.href, target: '_blank', rel: 'opener' })"
        self.ask("Runtime.evaluate", expression=f"{link}.click()", userGesture=True)
        end = time.monotonic() + 20
        while not added and time.monotonic() < end:
            time.sleep(0.02)
            added = self.browser.pages() - before
        [target] = added
        return Tab(self.browser, target=target)

    def ask(self, method, **params):
        return self.browser.ask(method, self.session, **params)

    def close(self):
        self.browser.ask("Target.closeTarget", targetId=self.target)

    def value(self, expression):
        got = self.ask("Runtime.evaluate", expression=expression, returnByValue=True, awaitPromise=True)
        if "exceptionDetails" in got:
            raise Fault(got["exceptionDetails"].get("exception", {}).get("description", "an exception"))
        return got["result"].get("value")

    def until(self, expression, seconds=10):
        began = time.monotonic()
        while time.monotonic() - began < seconds:
            try:
                got = self.value(expression)
            except Fault:
                # the page is not there yet
                got = None
            if got not in (None, False, 0, ''):
                return got, time.monotonic() - began
            time.sleep(0.02)
        raise Fault(f"not within {seconds} s: {expression}")

    def key(self, key, text=None):
        code = {"Enter": 13, "Tab": 9, "Escape": 27, "ArrowDown": 40, "ArrowUp": 38}.get(key, ord(key[0].upper()))
        base = {"key": key, "windowsVirtualKeyCode": code}
        if text or len(key) == 1 or key == "Enter":
            base["text"] = text or ("\r" if key == "Enter" else key)
        self.ask("Input.dispatchKeyEvent", type="keyDown", **base)
        self.ask("Input.dispatchKeyEvent", type="keyUp", key=key, windowsVirtualKeyCode=code)

    def type(self, text):
        self.ask("Input.insertText", text=text)

    def click(self, selector):
        self.click_at(f"document.querySelector({json.dumps(selector)})")

    def click_at(self, element):
        """Clicks at the middle of an element, which is scrolled to where it is seen."""
        x, y = self.value(f"(() => {{ const e = {element}; e.scrollIntoView({{ block: 'nearest' }}); "
                          "const r = e.getBoundingClientRect(); return [r.x + r.width / 2, r.y + r.height / 2]; })()")
        for kind in ("mousePressed", "mouseReleased"):
            self.ask("Input.dispatchMouseEvent", type=kind, x=x, y=y, button="left", clickCount=1)

    def shot(self, name):
        with open(name, "wb") as f:
            f.write(base64.b64decode(self.ask("Page.captureScreenshot", format="png")["data"]))

    def requests(self):
        """The address of each request that was sent since faults were asked for last, and the body, or nothing."""
        self.value("1")
        found = [e["params"]["request"] for e in self.browser.events
                 if e.get("sessionId") == self.session and e["method"] == "Network.requestWillBeSent"]
        return [(it["url"], it.get("postData")) for it in found]

    def faults(self):
        """What the console and the log got of errors since this was asked last."""
        # what the browser reports of before its reply has come then
        self.value("1")
        mine = [e for e in self.browser.events if e.get("sessionId") == self.session]
        self.browser.events = [e for e in self.browser.events if e.get("sessionId") != self.session]
        return [text for text in (fault_of(e["method"], e["params"]) for e in mine) if text is not None]


def fault_of(method, reported):
    """The text of an event that is an error: an exception that nobody took, what the browser found itself, or what a
    script wrote to the console."""
    if method == "Runtime.exceptionThrown":
        return reported["exceptionDetails"]["text"]
    if method == "Log.entryAdded" and reported["entry"]["level"] == "error":
        return reported["entry"]["text"]
    if method == "Runtime.consoleAPICalled" and reported["type"] in ("error", "assert"):
        return " ".join(str(it.get("value", it.get("description"))) for it in reported["args"])
    return None
