"""A browser without a window, driven over the protocol of WebDriver: Chromium, by its chromedriver. Nothing of Python is needed but its own
library."""

import base64
import contextlib
import http.client
import json
import re
import shutil
import subprocess
import time

from bad_input import Skipped

SECONDS = 120
WIDE, HIGH = 1280, 720
STARTED = re.compile(r"started successfully on port (\d+)")
# A browser of root has no sandbox of its own. A disk for shared memory may be small.
OPTIONS = ["--headless=new", "--no-sandbox", "--disable-gpu", "--disable-dev-shm-usage", "--hide-scrollbars", f"--window-size={WIDE},{HIGH}"]
BROWSERS = ["chromium", "chromium-browser", "google-chrome"]
# Keys as the protocol has them.
KEYS = {"left": "\ue012", "up": "\ue013", "right": "\ue014", "down": "\ue015", "home": "\ue011", "end": "\ue010", "enter": "\ue007",
        "shift": "\ue008", "tab": "\ue004", "escape": "\ue00c", "space": " "}


class Failed(Exception):
    """The browser refuses a command."""


class Browser:
    """A session of a browser."""

    def __init__(self, port, program):
        self.port = port
        self.session = None
        capabilities = {"browserName": "chrome", "goog:chromeOptions": {"args": OPTIONS, "binary": program}, "goog:loggingPrefs": {"performance": "ALL"}}
        self.session = self.ask("POST", "/session", {"capabilities": {"alwaysMatch": capabilities}})["sessionId"]
        self.do("goog/cdp/execute", cmd="Emulation.setDeviceMetricsOverride",
                params={"width": WIDE, "height": HIGH, "deviceScaleFactor": 1, "mobile": False})

    def ask(self, method, path, body=None):
        """The value of one answer."""
        line = http.client.HTTPConnection("127.0.0.1", self.port, timeout=SECONDS)
        line.request(method, path, None if body is None else json.dumps(body), {"Content-Type": "application/json"})
        value = json.loads(line.getresponse().read())["value"]
        line.close()
        if isinstance(value, dict) and "error" in value:
            raise Failed(f"{path}: {value['message']}")
        return value

    def do(self, path, **body):
        """A command of this session."""
        return self.ask("POST", f"/session/{self.session}/{path}", body)

    def open(self, url):
        """Opens a page anew, also if only its fragment is another one."""
        self.do("url", url="about:blank")
        self.do("url", url=url)

    def run(self, script, *arguments):
        """What a script gives that runs in the page: the body of a function of these arguments."""
        return self.do("execute/sync", script=script, args=list(arguments))

    def until(self, script, *arguments):
        """Waits until a script gives something that counts as true."""
        end = time.monotonic() + SECONDS
        while not (found := self.run(script, *arguments)):
            if time.monotonic() > end:
                raise Failed(f"within {SECONDS} seconds it was not so: {script}")
            time.sleep(0.02)
        return found

    def press(self, *keys, shift=False):
        """Presses keys by their names, or letters, one after the other."""
        acts = [{"type": kind, "value": KEYS.get(key, key)} for key in keys for kind in ("keyDown", "keyUp")]
        if shift:
            acts = [{"type": "keyDown", "value": KEYS["shift"]}, *acts, {"type": "keyUp", "value": KEYS["shift"]}]
        self.do("actions", actions=[{"type": "key", "id": "keys", "actions": acts}])

    def requests(self):
        """The addresses that the page has asked for since it was looked last, without those that its policy did not let out."""
        rows = [json.loads(it["message"])["message"] for it in self.do("se/log", type="performance")]
        held = {row["params"]["requestId"] for row in rows
                if row["method"] == "Network.loadingFailed" and row["params"].get("blockedReason") == "csp"}
        return [row["params"]["request"]["url"] for row in rows
                if row["method"] == "Network.requestWillBeSent" and row["params"]["requestId"] not in held]

    def picture(self, **form):
        """What is seen, as the bytes of a picture in this form: its `format`, and its `quality` if it may lose some."""
        return base64.b64decode(self.do("goog/cdp/execute", cmd="Page.captureScreenshot", params=form)["data"])

    def close(self):
        with contextlib.suppress(Failed, OSError):
            self.ask("DELETE", f"/session/{self.session}")


@contextlib.contextmanager
def browser():
    """A browser, while it lasts. It raises Skipped if there is none."""
    program = next(filter(None, map(shutil.which, BROWSERS)), None)
    driver = shutil.which("chromedriver")
    if program is None or driver is None:
        raise Skipped("no browser can be driven here: apt-get install chromium chromium-driver")
    with subprocess.Popen([driver, "--port=0"], stdin=subprocess.DEVNULL, stdout=subprocess.PIPE, stderr=subprocess.DEVNULL, text=True) as process:
        try:
            port = next((found[1] for row in process.stdout if (found := STARTED.search(row))), None)
            if port is None:
                raise Skipped("chromedriver does not start here")
            it = Browser(int(port), program)
            try:
                yield it
            finally:
                it.close()
        finally:
            process.kill()
