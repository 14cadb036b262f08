"""Chromium without a window, driven over a pipe by its own protocol."""

import base64
import itertools
import json
import os
import subprocess
import tempfile
import time

#: What a key is to the browser: its name, its number, and the text that it makes.
KEYS = {"Tab": ("Tab", 9, ""), "Enter": ("Enter", 13, "\r"), "Down": ("ArrowDown", 40, ""), "Space": (" ", 32, " ")}


class Browser:
    """A browser with one page."""

    def __init__(self, program="chromium"):
        self._folder = tempfile.TemporaryDirectory()
        asked, self._asking = os.pipe()
        self._answers, answering = os.pipe()

        def take_pipes():
            # The browser reads from 3 and writes to 4.
            taken = os.dup(asked), os.dup(answering)
            os.dup2(taken[0], 3)
            os.dup2(taken[1], 4)

        words = [program, "--headless=new", "--no-sandbox", "--disable-gpu", "--disable-dev-shm-usage", "--hide-scrollbars"]
        words += ["--remote-debugging-pipe", f"--user-data-dir={self._folder.name}", "about:blank"]
        quiet = {"stdin": subprocess.DEVNULL, "stdout": subprocess.DEVNULL, "stderr": subprocess.DEVNULL}
        self._process = subprocess.Popen(words, close_fds=False, preexec_fn=take_pipes, **quiet)
        os.close(asked)
        os.close(answering)
        self._numbers = itertools.count(1)
        self._held = b""
        self._session = None
        #: What the page told without being asked, as (method, parameters).
        self.events = []
        targets = self.ask("Target.getTargets")["targetInfos"]
        page = next(target["targetId"] for target in targets if target["type"] == "page")
        self._session = self.ask("Target.attachToTarget", targetId=page, flatten=True)["sessionId"]
        for domain in ("Page", "Runtime", "Network"):
            self.ask(f"{domain}.enable")

    def __enter__(self):
        return self

    def __exit__(self, *_):
        self._process.kill()
        self._process.wait()
        os.close(self._asking)
        os.close(self._answers)
        self._folder.cleanup()

    def _message(self):
        while b"\0" not in self._held:
            read = os.read(self._answers, 1 << 20)
            if not read:
                raise EOFError("the browser has ended")
            self._held += read
        message, self._held = self._held.split(b"\0", 1)
        return json.loads(message)

    def ask(self, method, **parameters):
        """Call a method of the protocol, and return its result."""
        number = next(self._numbers)
        asked = {"id": number, "method": method, "params": parameters}
        if self._session:
            asked["sessionId"] = self._session
        os.write(self._asking, json.dumps(asked).encode() + b"\0")
        while True:
            message = self._message()
            if message.get("id") == number:
                if "error" in message:
                    raise ValueError(f"{method}: {message['error']}")
                return message["result"]
            if "method" in message:
                self.events.append((message["method"], message["params"]))

    def open(self, path):
        """Open a file, and wait until it is there."""
        path = os.path.abspath(path)
        self.ask("Page.navigate", url=f"file://{path}")
        while not self.value(f"document.readyState === 'complete' && location.pathname === {json.dumps(path)}"):
            time.sleep(0.02)

    def value(self, script):
        """Return the value of an expression of the page."""
        result = self.ask("Runtime.evaluate", expression=script, returnByValue=True)
        if "exceptionDetails" in result:
            raise ValueError(f"{script}: {result['exceptionDetails']}")
        return result["result"].get("value")

    def resize(self, width, height, mobile=False):
        self.ask("Emulation.setDeviceMetricsOverride", width=width, height=height, deviceScaleFactor=1, mobile=mobile)

    def press(self, *keys):
        """Press keys of KEYS, one after another; another text is typed."""
        for key in keys:
            if key not in KEYS:
                self.ask("Input.insertText", text=key)
                continue
            name, number, text = KEYS[key]
            shared = {"key": name, "code": key, "windowsVirtualKeyCode": number, "nativeVirtualKeyCode": number}
            self.ask("Input.dispatchKeyEvent", type="keyDown" if text else "rawKeyDown", text=text, **shared)
            self.ask("Input.dispatchKeyEvent", type="keyUp", **shared)

    def picture(self, path):
        """Write what the page shows, down to its end."""
        data = self.ask("Page.captureScreenshot", captureBeyondViewport=True)["data"]
        with open(path, "wb") as file:
            file.write(base64.b64decode(data))

    def printed(self):
        """Return the page as PDF."""
        return base64.b64decode(self.ask("Page.printToPDF", printBackground=False)["data"])
