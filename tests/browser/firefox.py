"""Firefox without a window, by the protocol that it speaks itself (WebDriver BiDi): as the class Browser of pages.py."""
import base64
import itertools
import json
import pathlib
import shutil
import socket
import subprocess
import tempfile
import time

import websocket

FIREFOX = "/usr/bin/firefox-esr"
# the code points by which the protocol names keys
KEYS = {"ArrowLeft": "\ue012", "ArrowRight": "\ue014", "Home": "\ue011", "End": "\ue010", "Tab": "\ue004", "Enter": "\ue007",
        "Escape": "\ue00c"}
SHIFT = "\ue008"


class Window:
    """One Firefox, light or dark, which it is from its start on."""

    def __init__(self, dark):
        self.profile = tempfile.mkdtemp()
        settings = f'user_pref("layout.css.prefers-color-scheme.content-override", {0 if dark else 1});\n'
        pathlib.Path(self.profile, "user.js").write_text(settings)
        with socket.socket() as it:
            it.bind(("127.0.0.1", 0))
            port = it.getsockname()[1]
        words = [FIREFOX, "--headless", "--no-remote", "--profile", self.profile, "--remote-debugging-port", str(port)]
        self.process = subprocess.Popen(words, stdout=subprocess.DEVNULL, stderr=subprocess.DEVNULL)
        self.numbers, self.errors, self.socket = itertools.count(1), [], self.connected(port)
        self.call("session.new", {"capabilities": {}})
        self.call("session.subscribe", {"events": ["log.entryAdded"]})
        self.context = self.call("browsingContext.getTree", {})["contexts"][0]["context"]

    def connected(self, port):
        for _ in range(600):
            try:
                return websocket.create_connection(f"ws://127.0.0.1:{port}/session", timeout=300, suppress_origin=True)
            except OSError:
                time.sleep(0.1)
        raise RuntimeError("Firefox does not listen")

    def call(self, method, parameters):
        number = next(self.numbers)
        self.socket.send(json.dumps({"id": number, "method": method, "params": parameters}))
        while True:
            answer = json.loads(self.socket.recv())
            if answer.get("method") == "log.entryAdded" and answer["params"]["level"] in ("error", "warn"):
                self.errors.append(answer["params"]["text"])
            if answer.get("id") == number:
                if answer["type"] == "error":
                    raise RuntimeError(f"{method}: {answer['error']}: {answer['message']}")
                return answer["result"]

    def ask(self, method, **parameters):
        return self.call(method, {"context": self.context, **parameters})

    def close(self):
        self.socket.close()
        self.process.terminate()
        self.process.wait()
        shutil.rmtree(self.profile, ignore_errors=True)


class Browser:
    """Firefox, 1280 by 800 pixels, light."""

    def __enter__(self):
        self.windows = {}
        self.theme(False)
        self.size(1280, 800)
        return self

    def __exit__(self, *_):
        for it in self.windows.values():
            it.close()

    def theme(self, dark):
        if dark not in self.windows:
            self.windows[dark] = Window(dark)
        self.window = self.windows[dark]

    def size(self, width, height):
        self.viewport = {"width": width, "height": height}

    def open(self, path, address):
        self.window.ask("browsingContext.setViewport", viewport=self.viewport)
        self.window.ask("browsingContext.navigate", url="about:blank", wait="complete")
        self.window.ask("browsingContext.navigate", url=f"file://{path}{address}", wait="complete")

    def run(self, script, *arguments):
        function = f"(text) => JSON.stringify((function () {{{script}\n}}).apply(null, JSON.parse(text)))"
        values = [{"type": "string", "value": json.dumps(arguments)}]
        answer = self.window.call("script.callFunction", {"functionDeclaration": function, "arguments": values, "awaitPromise": False,
                                                          "target": {"context": self.window.context}})
        if answer["type"] == "exception":
            raise RuntimeError(answer["exceptionDetails"]["text"])
        return json.loads(answer["result"].get("value", "null"))

    def wait(self, script):
        """Waits up to ten seconds until a script answers what is true, and says whether it did."""
        end = time.monotonic() + 10
        while time.monotonic() < end:
            if self.run(script):
                return True
            time.sleep(0.02)
        return False

    def key(self, name, shift=False):
        texts = [KEYS[name]] if name in KEYS else list(name)
        presses = [{"type": kind, "value": it} for it in texts for kind in ("keyDown", "keyUp")]
        held = [{"type": "keyDown", "value": SHIFT}, *presses, {"type": "keyUp", "value": SHIFT}] if shift else presses
        self.window.ask("input.performActions", actions=[{"type": "key", "id": "keys", "actions": held}])

    def click(self, selector):
        script = """
        const element = document.querySelector(arguments[0]);
        element.scrollIntoView({ block: "nearest", inline: "nearest" });
        const { left, top, width, height } = element.getBoundingClientRect();
        return [Math.round(left + width / 2), Math.round(top + height / 2)];
        """
        x, y = self.run(script, selector)
        presses = [{"type": "pointerMove", "x": x, "y": y}, {"type": "pointerDown", "button": 0}, {"type": "pointerUp", "button": 0}]
        self.window.ask("input.performActions", actions=[{"type": "pointer", "id": "mouse", "actions": presses}])

    def errors(self):
        # (they are told a little later)
        time.sleep(0.05)
        self.run("return 0")
        errors, self.window.errors = self.window.errors, []
        return errors

    def picture(self, path):
        pathlib.Path(path).write_bytes(base64.b64decode(self.window.ask("browsingContext.captureScreenshot")["data"]))
