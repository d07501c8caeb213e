"""A real browser, Debian's chromium without a window, driven through a pipe: it opens a page, clicks, presses keys and tells what is shown."""
import base64
import json
import os
import select
import shutil
import subprocess
import tempfile
import time

PATIENCE = 60  # seconds for an answer, on a machine that is busy
FLAGS = ["--headless=new", "--no-sandbox", "--disable-gpu", "--disable-dev-shm-usage", "--no-first-run", "--no-default-browser-check", "--disable-extensions", "--disable-background-networking", "--disable-sync", "--mute-audio", "--hide-scrollbars", "--remote-debugging-pipe"]


def found():
    """The browser's program, or nothing."""
    return next(filter(None, map(shutil.which, ("chromium", "chromium-browser", "google-chrome"))), None)


class Browser:
    """`with Browser() as browser:`; commands and answers are JSON, each ended by a zero byte."""

    def __enter__(self):
        self.folder = tempfile.TemporaryDirectory()
        self.number, self.buffer, self.session, self.said = 0, b"", None, []
        theirs, self.commands = os.pipe()
        self.answers, other = os.pipe()
        start = ["sh", "-c", f'exec "$0" "$@" 3<&{theirs} 4>&{other}', found(), *FLAGS, f"--user-data-dir={self.folder.name}", "about:blank"]
        self.process = subprocess.Popen(start, pass_fds=(theirs, other), stdin=subprocess.DEVNULL, stdout=subprocess.DEVNULL, stderr=subprocess.DEVNULL, env={**os.environ, "HOME": self.folder.name})
        os.close(theirs)
        os.close(other)
        target = self.call("Target.createTarget", url="about:blank")["targetId"]
        self.session = self.call("Target.attachToTarget", targetId=target, flatten=True)["sessionId"]
        for domain in ("Page", "Runtime", "Network", "Log"):
            self.call(f"{domain}.enable")
        return self

    def __exit__(self, *_):
        try:
            self.session = None
            self.call("Browser.close")
        except (OSError, EOFError, TimeoutError):
            self.process.kill()
        self.process.wait(PATIENCE)
        for end in (self.commands, self.answers):
            os.close(end)
        shutil.rmtree(self.folder.name, ignore_errors=True)

    # ---- talking

    def call(self, method, **parameters):
        """A command's result. What the browser says in between is kept in `said`."""
        self.number += 1
        message = {"id": self.number, "method": method, "params": parameters, **({"sessionId": self.session} if self.session else {})}
        os.write(self.commands, json.dumps(message).encode() + b"\0")
        until = time.monotonic() + PATIENCE
        while True:
            answer = self.next(until)
            if answer.get("id") == self.number:
                if "error" in answer:
                    raise AssertionError(f"{method}: {answer['error']}")
                return answer["result"]
            self.said.append(answer)

    def next(self, until):
        while b"\0" not in self.buffer:
            if not select.select([self.answers], [], [], max(0, until - time.monotonic()))[0]:
                raise TimeoutError("the browser does not answer")
            data = os.read(self.answers, 1 << 16)
            if not data:
                raise EOFError("the browser has ended")
            self.buffer += data
        message, _, self.buffer = self.buffer.partition(b"\0")
        return json.loads(message)

    # ---- what a reader does

    def open(self, path):
        """Opens a file and waits until it is there."""
        self.said.clear()
        self.call("Page.navigate", url="file://" + path)
        self.wait("document.readyState === 'complete' && location.protocol === 'file:'")

    def tell(self, expression):
        """The value of an expression on the page."""
        found_ = self.call("Runtime.evaluate", expression=expression, returnByValue=True)
        if "exceptionDetails" in found_:
            raise AssertionError(f"{expression}: {found_['exceptionDetails']}")
        return found_["result"].get("value")

    def wait(self, expression):
        until = time.monotonic() + PATIENCE
        while not self.tell(expression):
            if time.monotonic() > until:
                raise TimeoutError(f"never came true: {expression}")
            time.sleep(0.02)

    def click(self, query, share=0.5):
        """With the mouse, where the element is seen, so much of the way along it; so what is hidden or covered cannot be clicked."""
        one = f"document.querySelector({json.dumps(query)})"
        self.tell(f"{one}.scrollIntoView({{block: 'center', inline: 'center'}})")
        box = self.tell(f"(r => ({{x: r.x + r.width * {share}, y: r.y + r.height / 2}}))({one}.getBoundingClientRect())")
        under = f"(e => e === {one} || {one}.contains(e))(document.elementFromPoint({box['x']}, {box['y']}))"
        if not self.tell(under):
            raise AssertionError(f"{query} is not where it could be clicked")
        for kind in ("mousePressed", "mouseReleased"):
            self.call("Input.dispatchMouseEvent", type=kind, x=box["x"], y=box["y"], button="left", clickCount=1)

    def press(self, key, code=0, text=None):
        text = key if text is None and len(key) == 1 else text
        more = {"text": text} if text else {}
        self.call("Input.dispatchKeyEvent", type="keyDown", key=key, windowsVirtualKeyCode=code or ord(key.upper()[0]), **more)
        self.call("Input.dispatchKeyEvent", type="keyUp", key=key, windowsVirtualKeyCode=code or ord(key.upper()[0]))

    # ---- how it looks

    def size(self, width, height, phone=False):
        self.call("Emulation.setDeviceMetricsOverride", width=width, height=height, deviceScaleFactor=2 if phone else 1, mobile=phone)

    def colours(self, scheme, media=""):
        self.call("Emulation.setEmulatedMedia", media=media, features=[{"name": "prefers-color-scheme", "value": scheme}])

    def shot(self, path, whole=True):
        data = self.call("Page.captureScreenshot", format="png", captureBeyondViewport=whole)["data"]
        with open(path, "wb") as file:
            file.write(base64.b64decode(data))

    def printed(self, path):
        data = self.call("Page.printToPDF", printBackground=True, preferCSSPageSize=True)["data"]
        with open(path, "wb") as file:
            file.write(base64.b64decode(data))
