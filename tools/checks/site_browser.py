"""Headless Chromium, as chromedriver lets others steer it (the WebDriver protocol of the W3C, over HTTP)."""
import http.client
import json
import re
import shutil
import subprocess

SECONDS = 60
# As root Chromium runs without its sandbox alone: it opens none but files that are made here.
WORDS = ["--headless=new", "--no-sandbox", "--disable-gpu", "--disable-dev-shm-usage", "--hide-scrollbars", "--window-size=1300,1000"]
ELEMENT = "element-6066-11e4-a52e-4f735466cecf"


def is_there():
    """Whether both programs are."""
    return all(map(shutil.which, ("chromium", "chromedriver")))


class Browser:
    """A browser, until the block ends."""

    def __enter__(self):
        self.driver = subprocess.Popen(["chromedriver", "--port=0"], stdin=subprocess.DEVNULL, stdout=subprocess.PIPE, stderr=subprocess.STDOUT, text=True)
        try:
            found = next(filter(None, (re.search(r"successfully on port (\d+)", line) for line in self.driver.stdout)))
            self.port, self.session = int(found[1]), ""
            options = {"binary": shutil.which("chromium"), "args": WORDS}
            wanted = {"browserName": "chrome", "goog:chromeOptions": options, "goog:loggingPrefs": {"browser": "ALL"}}
            self.session = "/" + self.asked("POST", "", {"capabilities": {"alwaysMatch": wanted}})["sessionId"]
        except BaseException:
            self.stop()
            raise
        return self

    def __exit__(self, *error):
        try:
            self.asked("DELETE", "")
        finally:
            self.stop()

    def stop(self):
        """Ends the driver."""
        self.driver.terminate()
        self.driver.wait(SECONDS)

    def asked(self, method, path, body=None):
        """What the driver answers."""
        connection = http.client.HTTPConnection("127.0.0.1", self.port, timeout=SECONDS)
        connection.request(method, f"/session{self.session}{path}", None if body is None else json.dumps(body))
        reply = connection.getresponse()
        value = json.loads(reply.read())["value"]
        if reply.status != 200:
            raise ValueError(f"{method} {path}: {value}")
        return value

    def open(self, path, anchor=""):
        """Opens a file."""
        self.asked("POST", "/url", {"url": f"{path.resolve().as_uri()}{anchor}"})

    def wear(self, scheme):
        """Prefers light or dark colours from now on."""
        features = [{"name": "prefers-color-scheme", "value": scheme}]
        self.asked("POST", "/goog/cdp/execute", {"cmd": "Emulation.setEmulatedMedia", "params": {"features": features}})

    def run(self, script, *values):
        """What a script gives."""
        return self.asked("POST", "/execute/sync", {"script": script, "args": values})

    def element(self, selector):
        """The path of the first element that a selector of CSS finds."""
        return f"/element/{self.asked('POST', '/element', {'using': 'css selector', 'value': selector})[ELEMENT]}"

    def click(self, selector):
        """Clicks on such an element."""
        self.asked("POST", f"{self.element(selector)}/click", {})

    def type(self, selector, text):
        """Types a text in place of what stands in such an element."""
        element = self.element(selector)
        self.asked("POST", f"{element}/clear", {})
        self.asked("POST", f"{element}/value", {"text": text})

    def press(self, key):
        """Presses a key wherever the focus is."""
        keys = [{"type": kind, "value": key} for kind in ("keyDown", "keyUp")]
        self.asked("POST", "/actions", {"actions": [{"type": "key", "id": "keys", "actions": keys}]})

    def said(self):
        """What the browser said since the last time: faults of scripts, and what the page's policy refused."""
        return [it["message"] for it in self.asked("POST", "/se/log", {"type": "browser"})]
