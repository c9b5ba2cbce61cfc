"""Controls a browser by the W3C's WebDriver protocol, as far as tests/explorer.py needs it."""

import base64
import json
import subprocess
import time
import urllib.error
import urllib.request

ELEMENT = "element-6066-11e4-a52e-4f735466cecf"
KEYS = {"down": "\ue015", "up": "\ue013", "end": "\ue010", "home": "\ue011", "tab": "\ue004", "control": "\ue009"}


class Failed(Exception):
    """The driver refused a command."""


class Browser:
    """Headless Chromium with a window of this size."""

    def __init__(self, driver, chromium, folder, environment, size=(1280, 820)):
        self.process = subprocess.Popen([driver, "--port=0"], stdout=subprocess.PIPE, stderr=subprocess.STDOUT, text=True, env=environment)
        self.base = "http://127.0.0.1:%d" % self._port()
        arguments = ["--headless", "--no-sandbox", "--disable-gpu", "--disable-dev-shm-usage", "--hide-scrollbars", "--lang=en",
                     "--force-device-scale-factor=1", "--user-data-dir=%s/profile" % folder, "--window-size=%d,%d" % size]  # fmt: skip
        options = {"binary": chromium, "args": arguments, "prefs": {"download.default_directory": folder, "download.prompt_for_download": False}}
        wanted = {"capabilities": {"alwaysMatch": {"browserName": "chrome", "goog:chromeOptions": options}}}
        self.base += "/session/" + self._send("POST", "/session", wanted)["sessionId"]

    def _port(self):
        for line in self.process.stdout:
            if "started successfully on port" in line:
                return int(line.rstrip().rstrip(".").split()[-1])
        raise Failed("chromedriver has not started")

    def _send(self, method, path, body=None):
        data = json.dumps(body).encode() if method == "POST" else None
        request = urllib.request.Request(self.base + path, data, {"Content-Type": "application/json"}, method=method)
        try:
            with urllib.request.urlopen(request, timeout=60) as answer:
                return json.load(answer)["value"]
        except urllib.error.HTTPError as error:
            raise Failed(json.load(error)["value"]["message"]) from None

    def open(self, address):
        self._send("POST", "/url", {"url": address})

    def run(self, script, *words):
        """Runs the body of a JavaScript function, whose `arguments` are the words. Returns what it returns."""
        return self._send("POST", "/execute/sync", {"script": script, "args": list(words)})

    def wait(self, script, *words, seconds=10.0):
        """Repeats a script until its answer is truthy in JavaScript. Returns that answer."""
        end = time.monotonic() + seconds
        while True:
            answer = self.run(script, *words)
            if answer:
                return answer
            if time.monotonic() > end:
                raise Failed("waited %d seconds for: %s" % (seconds, script))
            time.sleep(0.02)

    def _element(self, selector):
        return "/element/" + self._send("POST", "/element", {"using": "css selector", "value": selector})[ELEMENT]

    def click(self, selector):
        self._send("POST", self._element(selector) + "/click", {})

    def clear(self, selector):
        self._send("POST", self._element(selector) + "/clear", {})

    def type(self, selector, text):
        """Types characters, as on a keyboard."""
        self._send("POST", self._element(selector) + "/value", {"text": text})

    def name(self, selector):
        """The name that assistive technology gets."""
        return self._send("GET", self._element(selector) + "/computedlabel")

    def role(self, selector):
        return self._send("GET", self._element(selector) + "/computedrole")

    def screenshot(self, path):
        with open(path, "wb") as file:
            file.write(base64.b64decode(self._send("GET", "/screenshot")))

    def develop(self, command, **words):
        """Sends a command of Chromium's own protocol."""
        return self._send("POST", "/goog/cdp/execute", {"cmd": command, "params": words})

    def close(self):
        try:
            self._send("DELETE", "")
        except (OSError, Failed):
            pass
        self.process.terminate()
        self.process.wait(10)
