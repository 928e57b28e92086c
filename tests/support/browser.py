"""A headless Chromium, driven by the WebDriver protocol (W3C) of chromedriver."""
import base64
import json
import shutil
import subprocess
import tempfile
import time
import urllib.request

from checking import SECONDS, STARTED
from folders import free_port

ARGUMENTS = ["--headless=new", "--no-sandbox", "--disable-gpu", "--disable-dev-shm-usage", "--window-size=1280,900", "--hide-scrollbars"]
KEYS = {"Tab": "\ue004", "Enter": "\ue007", "Escape": "\ue00c", "Down": "\ue015", "Up": "\ue013", "Home": "\ue011", "Shift": "\ue008"}


def missing():
    """Returns the programs that aren't installed."""
    return [name for name in ("chromium", "chromedriver") if shutil.which(name) is None]


class Browser:
    """A browser with one window, until the block ends."""

    def __enter__(self):
        self.room, self.port = tempfile.TemporaryDirectory(prefix="tfstated-"), free_port()
        words = ["chromedriver", f"--port={self.port}"]
        self.driver = subprocess.Popen(words, stdin=subprocess.DEVNULL, stdout=subprocess.DEVNULL, stderr=subprocess.DEVNULL)
        STARTED.append(self.driver)
        self.base = f"http://127.0.0.1:{self.port}"
        options = {"args": [*ARGUMENTS, f"--user-data-dir={self.room.name}"], "binary": shutil.which("chromium")}
        asked = {"browserName": "chrome", "goog:chromeOptions": options, "goog:loggingPrefs": {"browser": "ALL"}}
        self.until(lambda: self.send("GET", "/status")["ready"])
        self.base += f"/session/{self.send('POST', '/session', capabilities={'alwaysMatch': asked})['sessionId']}"
        return self

    def __exit__(self, *fault):
        try:
            self.send("DELETE", "")
        finally:
            self.driver.terminate()
            self.driver.wait(SECONDS)
            STARTED.remove(self.driver)
            self.room.cleanup()

    def send(self, method, path, **members):
        """Sends a command. Returns the value of the reply."""
        body = json.dumps(members).encode() if method == "POST" else None
        request = urllib.request.Request(self.base + path, body, {"Content-Type": "application/json"}, method=method)
        with urllib.request.urlopen(request, timeout=SECONDS) as reply:
            return json.loads(reply.read())["value"]

    def open(self, address):
        self.send("POST", "/url", url=address)

    def run(self, script, *arguments):
        """Runs a script's function body in the page. Returns its result."""
        return self.send("POST", "/execute/sync", script=script, args=list(arguments))

    def until(self, is_so, about=""):
        """Waits until something is so. Returns it."""
        end, error = time.monotonic() + SECONDS, None
        while time.monotonic() < end:
            try:
                if found := is_so():
                    return found
            except OSError as caught:
                error = caught
            time.sleep(0.05)
        raise AssertionError(f"waited too long: {about} {error or ''}")

    def sees(self, text):
        """Waits until the page shows a text."""
        self.until(lambda: text in self.text(), f"{text!r} in {self.text()[:300]!r}")

    def text(self, selector="body"):
        """Returns the text that is shown of an element."""
        return self.run("return document.querySelector(arguments[0])?.innerText ?? ''", selector)

    def texts(self, selector):
        return self.run("return [...document.querySelectorAll(arguments[0])].map((one) => one.innerText)", selector)

    def click(self, selector):
        self.run("document.querySelector(arguments[0]).click()", selector)

    def focus(self, selector):
        self.run("document.querySelector(arguments[0]).focus()", selector)

    def focused(self):
        """Returns the element with the focus: its tag, its text or label, and its identifier."""
        return self.run("const one = document.activeElement;"
                        "return [one.tagName.toLowerCase(), (one.getAttribute('aria-label') ?? one.innerText ?? '').trim(), one.id]")

    def press(self, *keys):
        """Presses keys, one after another: names of KEYS, or texts."""
        pressed = [letter for key in keys for letter in ([KEYS[key]] if key in KEYS else key)]
        actions = [{"type": kind, "value": letter} for letter in pressed for kind in ("keyDown", "keyUp")]
        self.send("POST", "/actions", actions=[{"type": "key", "id": "keys", "actions": actions}])

    def tell(self, command, **parameters):
        """Sends a command of the DevTools protocol."""
        return self.send("POST", "/goog/cdp/execute", cmd=command, params=parameters)

    def prefer(self, scheme):
        """Has the page see a preference for `light` or `dark`."""
        self.tell("Emulation.setEmulatedMedia", features=[{"name": "prefers-color-scheme", "value": scheme}])

    def complaints(self):
        """Returns what the browser has reported since the last call: errors, and refusals by the
        policy."""
        return [entry["message"] for entry in self.send("POST", "/se/log", type="browser") if entry["level"] in ("SEVERE", "WARNING")]

    def resize(self, width, height):
        """Gives the page this size in pixels."""
        self.tell("Emulation.setDeviceMetricsOverride", width=width, height=height, deviceScaleFactor=1, mobile=False)

    def picture(self, path, width, height):
        """Saves a picture of the page's upper left part."""
        clip = {"x": 0, "y": 0, "width": width, "height": height, "scale": 1}
        found = self.tell("Page.captureScreenshot", format="png", clip=clip, captureBeyondViewport=True)
        path.write_bytes(base64.b64decode(found["data"]))
