"""A browser without a window, driven by chromedriver over its own protocol (WebDriver), which is JSON over HTTP."""
import base64
import json
import os
import re
import shutil
import subprocess
import time
import urllib.request

from tests_of_clients import SECONDS

ELEMENT = "element-6066-11e4-a52e-4f735466cecf"  # the key by which WebDriver tells elements
KEYS = {"Control": "\ue009"}


def is_there():
    return bool(shutil.which("chromium") and shutil.which("chromedriver"))


def started():
    """A driver, and the port that it took. It takes one that is free at that moment, and ends where another program was quicker: then it is
    asked again."""
    for _ in range(3):
        driver = subprocess.Popen(["chromedriver", "--port=0"], stdout=subprocess.PIPE, stderr=subprocess.STDOUT, text=True)
        said = ""
        for line in driver.stdout:
            said += line
            found = re.search(r"started successfully on port (\d+)", line)
            if found:
                return driver, found[1]
        driver.wait()
    raise AssertionError(f"chromedriver didn't start: {said}")


class Browser:
    """One page, seen and used as a person would."""

    def __init__(self, folder):
        self.driver, port = started()
        self.url = f"http://127.0.0.1:{port}"
        words = ["--headless=new", "--disable-gpu", "--disable-dev-shm-usage", "--window-size=1400,900", f"--user-data-dir={folder}", "--no-proxy-server"]
        # (as root Chromium runs without its sandbox alone)
        options = {"args": words + (["--no-sandbox"] if os.geteuid() == 0 else [])}
        asked = {"browserName": "chrome", "goog:chromeOptions": options, "goog:loggingPrefs": {"browser": "ALL"}}
        self.url += "/session/" + self.ask("/session", {"capabilities": {"alwaysMatch": asked}})["sessionId"]

    def __enter__(self):
        return self

    def __exit__(self, *fault):
        try:
            self.ask("", None, "DELETE")
        finally:
            self.driver.terminate()
            self.driver.communicate()

    def ask(self, path, body, method="POST"):
        data = None if body is None else json.dumps(body).encode()
        request = urllib.request.Request(self.url + path, data, {"Content-Type": "application/json"}, method=method)
        with urllib.request.urlopen(request, timeout=SECONDS) as answer:
            return json.loads(answer.read())["value"]

    def open(self, url):
        self.ask("/url", {"url": url})

    def run(self, script, *words):
        """What a script of the page gives."""
        return self.ask("/execute/sync", {"script": script, "args": list(words)})

    def wait(self, script, *words):
        """What the script gives once that is true."""
        until = time.monotonic() + SECONDS
        while True:
            found = self.run(script, *words)
            if found:
                return found
            assert time.monotonic() < until, f"{script} didn't come to hold; {self.run('return document.body.innerText')}"
            time.sleep(0.1)

    def element(self, selector):
        return self.ask("/element", {"using": "css selector", "value": selector})

    def click(self, selector, times=1):
        """Clicks on the middle of an element, which must be what is seen there."""
        pointer = [{"type": "pointerMove", "origin": self.element(selector), "x": 0, "y": 0, "duration": 0}]
        pointer += [{"type": kind, "button": 0} for _ in range(times) for kind in ("pointerDown", "pointerUp")]
        self.ask("/actions", {"actions": [{"type": "pointer", "id": "mouse", "parameters": {"pointerType": "mouse"}, "actions": pointer}]})

    def click_until(self, selector, script):
        """Clicks on an element that may move, and so be missed, until the script gives something true."""
        until = time.monotonic() + SECONDS
        while not self.run(script):
            assert time.monotonic() < until, f"{script} didn't come to hold; {self.run('return document.body.innerText')}"
            self.click(selector)
            # (two clicks soon after each other are one of another kind)
            time.sleep(1)

    def type(self, text, *held):
        """Types, with these keys held down."""
        keys = [("keyDown", KEYS[key]) for key in held]
        keys += [(kind, letter) for letter in text for kind in ("keyDown", "keyUp")]
        keys += [("keyUp", KEYS[key]) for key in held]
        self.ask("/actions", {"actions": [{"type": "key", "id": "keys", "actions": [{"type": kind, "value": value} for kind, value in keys]}]})

    def screenshot(self):
        """The bytes of a picture of the page, in PNG."""
        return base64.b64decode(self.ask("/screenshot", None, "GET"))

    def told(self):
        """What the browser's console has told since the last time."""
        return self.ask("/se/log", {"type": "browser"})
