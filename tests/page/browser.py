"""A browser without a window, driven over the pipe of its own DevTools: pages from disk, what a script in them answers, keys, the pointer, pictures."""
import base64
import json
import os
import pathlib
import select
import shutil
import subprocess
import tempfile
import time

NAMES = ("chromium", "chromium-browser", "google-chrome")
PATIENCE = 60  # seconds


def program():
    """The browser's program, or None where there is none."""
    return next((path for path in map(shutil.which, NAMES) if path), None)


class Failed(Exception):
    """The browser, or a script in a page, has failed."""


class Browser:
    """One browser with one page."""

    def __init__(self):
        self.folder = tempfile.mkdtemp(prefix="page-test-")
        commands, self.out = os.pipe()
        self.back, answers = os.pipe()

        def at_3_and_4():
            # the browser reads at 3 and writes at 4; both are free of what stands there first
            first, second = os.dup(commands), os.dup(answers)
            os.dup2(first, 3)
            os.dup2(second, 4)

        words = [program(), "--headless=new", "--remote-debugging-pipe", f"--user-data-dir={self.folder}", "--no-first-run", "--disable-extensions", "--disable-gpu", "--disable-background-networking",
                 "--disable-component-update", "--disable-sync", "--no-default-browser-check", "--hide-scrollbars", "--force-color-profile=srgb", "--disable-dev-shm-usage", "--lang=en-GB"]
        if os.getuid() == 0:
            words.append("--no-sandbox")
        self.log = open(pathlib.Path(self.folder) / "log", "w")
        self.process = subprocess.Popen(words, preexec_fn=at_3_and_4, pass_fds=(3, 4), stdout=self.log, stderr=self.log, stdin=subprocess.DEVNULL)
        os.close(commands)
        os.close(answers)
        self.buffer, self.number, self.events, self.session = b"", 0, [], None
        target = self.call("Target.createTarget", url="about:blank")["targetId"]
        self.session = self.call("Target.attachToTarget", targetId=target, flatten=True)["sessionId"]
        for domain in ("Page", "Runtime", "Log", "Network", "DOM", "Accessibility"):
            self.call(domain + ".enable")

    def close(self):
        try:
            self.session = None
            self.call("Browser.close")
        except (Failed, OSError):
            pass
        try:
            self.process.wait(10)
        except subprocess.TimeoutExpired:
            self.process.kill()
            self.process.wait()
        self.log.close()
        shutil.rmtree(self.folder, ignore_errors=True)

    def message(self):
        """The next message of the browser."""
        while b"\0" not in self.buffer:
            if not select.select([self.back], [], [], PATIENCE)[0]:
                raise Failed(f"the browser has said nothing for {PATIENCE} s")
            more = os.read(self.back, 1 << 20)
            if not more:
                raise Failed("the browser has gone away")
            self.buffer += more
        text, self.buffer = self.buffer.split(b"\0", 1)
        return json.loads(text)

    def call(self, method, **parameters):
        self.number += 1
        number = self.number
        said = {"id": number, "method": method, "params": parameters}
        if self.session:
            said["sessionId"] = self.session
        data = json.dumps(said).encode() + b"\0"
        while data:
            data = data[os.write(self.out, data) :]
        while True:
            answer = self.message()
            if answer.get("id") == number:
                if "error" in answer:
                    raise Failed(f"{method}: {answer['error']}")
                return answer["result"]
            if "method" in answer:
                self.events.append(answer)

    def run(self, script):
        """What an expression comes to in the page; of a promise what it comes to."""
        answer = self.call("Runtime.evaluate", expression=script, awaitPromise=True, returnByValue=True)
        if "exceptionDetails" in answer:
            details = answer["exceptionDetails"]
            raise Failed(details.get("exception", {}).get("description") or details["text"])
        return answer["result"].get("value")

    def ask(self, function, *words):
        """A function of the page's language, called with these values."""
        return self.run(f"({function})({', '.join(map(json.dumps, words))})")

    def wait(self, script, seconds=30):
        """Waits until an expression holds."""
        end = time.monotonic() + seconds
        while True:
            value = self.run(script)
            if value:
                return value
            if time.monotonic() > end:
                raise Failed(f"waited {seconds} s in vain: {script}")
            time.sleep(0.02)

    def size(self, width, height, dark=False, touch=False, fine=1):
        self.call("Emulation.setDeviceMetricsOverride", width=width, height=height, deviceScaleFactor=fine, mobile=touch)
        self.call("Emulation.setTouchEmulationEnabled", enabled=touch)
        self.call("Emulation.setEmulatedMedia", features=[{"name": "prefers-color-scheme", "value": "dark" if dark else "light"}])

    def open(self, path):
        """A page from disk, ready to be asked."""
        self.events.clear()
        self.call("Page.navigate", url=pathlib.Path(path).resolve().as_uri())
        self.wait("globalThis.desk?.ready === true")

    def wrong(self):
        """What the page has complained of, and what it wanted of the network."""
        told = []
        for event in self.events:
            parameters = event["params"]
            if event["method"] == "Runtime.exceptionThrown":
                told.append(str(parameters["exceptionDetails"].get("exception", {}).get("description", parameters)))
            elif event["method"] == "Log.entryAdded" and parameters["entry"]["level"] == "error":
                told.append(parameters["entry"]["text"])
            elif event["method"] == "Network.requestWillBeSent" and not parameters["request"]["url"].startswith(("file:", "data:", "blob:")):
                told.append("asks for " + parameters["request"]["url"])
        return told

    def place(self, selector):
        """The middle of an element."""
        return self.ask("(s) => { const e = document.querySelector(s); e.scrollIntoView({block: 'center'}); const b = e.getBoundingClientRect(); return [b.left + b.width / 2, b.top + b.height / 2]; }", selector)

    def pointer(self, kind, x, y, buttons=0):
        self.call("Input.dispatchMouseEvent", type=kind, x=x, y=y, button="left" if kind != "mouseMoved" or buttons else "none", buttons=buttons, clickCount=0 if kind == "mouseMoved" else 1)

    def click(self, selector):
        x, y = self.place(selector)
        self.pointer("mouseMoved", x, y)
        self.pointer("mousePressed", x, y, 1)
        self.pointer("mouseReleased", x, y)

    def key(self, key, code=0, shift=False, text=""):
        for kind in ("keyDown", "keyUp"):
            self.call("Input.dispatchKeyEvent", type=kind, key=key, code=key, windowsVirtualKeyCode=code, modifiers=8 if shift else 0, **({"text": text} if text and kind == "keyDown" else {}))

    def picture(self, path, **more):
        """A picture of what is to be seen."""
        data = base64.b64decode(self.call("Page.captureScreenshot", format="png", **more)["data"])
        pathlib.Path(path).write_bytes(data)
        return data
