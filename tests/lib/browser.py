"""A browser without a window, driven by the WebDriver protocol: Chromium, by chromedriver."""
import base64
import contextlib
import json
import os
import shutil
import subprocess
import time
import urllib.error
import urllib.request

from lib.sent import PATIENCE
from lib.serving import held_port

WORDS = ["--headless=new", "--disable-gpu", "--no-first-run", "--disable-dev-shm-usage"]


def is_there():
    return shutil.which("chromedriver") is not None


class Refused(Exception):
    """What the driver says that it can't do."""


def call(method, url, value=None):
    """The value that the driver answers."""
    body = None if value is None else json.dumps(value).encode()
    request = urllib.request.Request(url, body, {"content-type": "application/json"}, method=method)
    try:
        with urllib.request.urlopen(request, timeout=PATIENCE) as answer:
            return json.load(answer)["value"]
    except urllib.error.HTTPError as error:
        raise Refused(error.read().decode()) from error


class Browser:
    """A session of its own, with its own sign-ins, and the logs that are asked for."""

    def __init__(self, driver, logs=()):
        words = WORDS + (["--no-sandbox"] if os.geteuid() == 0 else [])
        options = {"browserName": "chrome", "acceptInsecureCerts": True, "goog:chromeOptions": {"args": words},
                   "goog:loggingPrefs": {name: "ALL" for name in logs}}
        session = call("POST", f"{driver}/session", {"capabilities": {"alwaysMatch": options}})
        self.url = f"{driver}/session/{session['sessionId']}"

    def go(self, url):
        call("POST", f"{self.url}/url", {"url": url})

    def run(self, script, *words):
        """What a script in the page returns."""
        return call("POST", f"{self.url}/execute/sync", {"script": script, "args": list(words)})

    def run_until_done(self, script, *words):
        """What a script in the page hands to its last word, a function."""
        return call("POST", f"{self.url}/execute/async", {"script": script, "args": list(words)})

    def tool(self, command, **words):
        """What the browser's own tools answer to a command of theirs."""
        return call("POST", f"{self.url}/goog/cdp/execute", {"cmd": command, "params": words})

    def log(self, name):
        """What a log has that was not read before."""
        return call("POST", f"{self.url}/se/log", {"type": name})

    def keys(self, keys):
        """Presses and releases keys, one after the other."""
        steps = [{"type": kind, "value": key} for key in keys for kind in ("keyDown", "keyUp")]
        call("POST", f"{self.url}/actions", {"actions": [{"type": "key", "id": "keys", "actions": steps}]})

    def picture(self):
        return base64.b64decode(call("GET", f"{self.url}/screenshot"))

    def text(self):
        return self.run("return document.body.innerText")

    def wait_for(self, script):
        """What a script returns, once that is something."""
        ends = time.monotonic() + PATIENCE
        while time.monotonic() < ends:
            # Between two pages there is none that a script could run in.
            with contextlib.suppress(Refused):
                value = self.run(script)
                if value:
                    return value
            time.sleep(0.1)
        raise TimeoutError(script)

    def end(self):
        call("DELETE", self.url)


@contextlib.contextmanager
def driver():
    """The address of a driver that runs."""
    with held_port() as port:
        pass
    process = subprocess.Popen(["chromedriver", f"--port={port}"], stdout=subprocess.DEVNULL, stderr=subprocess.DEVNULL)
    try:
        wait_until_ready(f"http://127.0.0.1:{port}")
        yield f"http://127.0.0.1:{port}"
    finally:
        process.terminate()
        process.wait()


def wait_until_ready(address):
    ends = time.monotonic() + PATIENCE
    while time.monotonic() < ends:
        with contextlib.suppress(OSError):
            if call("GET", f"{address}/status")["ready"]:
                return
        time.sleep(0.1)
    raise TimeoutError(address)


@contextlib.contextmanager
def browsing():
    """A browser that ends after this."""
    with driver() as address:
        browser = Browser(address)
        try:
            yield browser
        finally:
            browser.end()
