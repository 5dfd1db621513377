"""Browsers without a window, as tests drive them: Chromium by its DevTools protocol, Firefox by WebDriver BiDi. Both
have a profile of their own, which is removed when they have ended."""
import base64
import contextlib
import json
import os
import shutil
import signal
import subprocess
import tempfile
import time
import urllib.request

from . import kit
from .places import write_text
from .sockets import Closed, Socket

SECONDS = 240
TASKS = "disabled-by-default-devtools.timeline"
SIZE = (1280, 800)
CHROMIUM_FLAGS = ("--headless=new", "--no-sandbox", "--disable-gpu", "--remote-debugging-port=0", "--no-first-run")
CHROMIUM_FLAGS += ("--remote-allow-origins=*", "--hide-scrollbars")
# What Firefox is to do otherwise: nothing is sent to its maker.
PREFERENCES = """user_pref("datareporting.policy.dataSubmissionEnabled", false);
user_pref("browser.shell.checkDefaultBrowser", false);
user_pref("app.normandy.enabled", false);
"""
# Keys that have names: what a browser is told of each. The code is Windows', the sign that of WebDriver.
KEYS = {
    "Tab": (9, "\ue004"),
    "Enter": (13, "\ue007"),
    "Escape": (27, "\ue00c"),
    "Backspace": (8, "\ue003"),
    "End": (35, "\ue010"),
    "Home": (36, "\ue011"),
    "ArrowLeft": (37, "\ue012"),
    "ArrowUp": (38, "\ue013"),
    "ArrowRight": (39, "\ue014"),
    "ArrowDown": (40, "\ue015"),
}
# The modifier keys: their bits in the DevTools protocol, and their signs.
HELD = {"Alt": (1, "\ue00a"), "Control": (2, "\ue009"), "Shift": (8, "\ue008")}


def path_of(names):
    return next(filter(None, map(shutil.which, names)), None)


class Faulty(Exception):
    """An expression that the page could not evaluate, or a wait that came to nothing."""


class Tab:
    """What both browsers' tabs can do. A browser's own class has `call`, `value`, `open`, `press`, `insert`, `point`,
    `resize` and `picture`."""

    def until(self, expression, seconds=SECONDS):
        """The value of an expression, once it is true."""
        end = time.monotonic() + seconds
        while time.monotonic() < end:
            with contextlib.suppress(Faulty):
                found = self.value(expression)
                if found:
                    return found
            time.sleep(0.03)
        raise Faulty(f"in {seconds} s it didn't come to be: {expression}")

    def click(self, selector):
        """Clicks in the middle of an element, as a mouse does."""
        x, y = self.value(f"""(() => {{
          const it = document.querySelector({selector!r});
          it.scrollIntoView({{ block: "nearest" }});
          const box = it.getBoundingClientRect();
          return [box.x + box.width / 2, box.y + box.height / 2];
        }})()""")
        self.point(x, y)

    def type(self, text):
        """Types a text, key by key."""
        for sign in text:
            self.press("Enter" if sign == "\n" else sign)


class Chromium(Tab):
    """A tab of Chromium."""

    names = ("chromium", "chromium-browser", "google-chrome")
    keys_press_buttons = True

    def __init__(self, profile):
        port = first_line(os.path.join(profile, "DevToolsActivePort"))
        tabs = read_json(f"http://127.0.0.1:{port}/json")
        self.socket = Socket(next(it for it in tabs if it["type"] == "page")["webSocketDebuggerUrl"])
        self.count, self.said, self.requests, self.traced, self.is_traced = 0, [], [], [], False
        for it in ("Page.enable", "Runtime.enable", "Log.enable", "Network.enable"):
            self.call(it)
        self.resize(*SIZE)

    def call(self, method, **params):
        self.count += 1
        self.socket.send({"id": self.count, "method": method, "params": params})
        while True:
            message = self.socket.receive()
            if message.get("id") == self.count:
                if "error" in message:
                    raise Faulty(f"{method}: {message['error']}")
                return message["result"]
            self.hear(message.get("method"), message.get("params"))

    def hear(self, method, params):
        """Keeps what the page says of its own faults, and what it asks of servers."""
        if method == "Runtime.exceptionThrown":
            details = params["exceptionDetails"]
            self.said.append(details.get("exception", {}).get("description") or details["text"])
        elif method == "Log.entryAdded" and params["entry"]["level"] == "error":
            self.said.append(params["entry"]["text"])
        elif method == "Network.requestWillBeSent":
            self.requests.append(params["request"]["url"])
        elif method == "Tracing.dataCollected":
            self.traced += params["value"]
        elif method == "Tracing.tracingComplete":
            self.is_traced = True

    def tasks(self, act):
        """The milliseconds of processor time that each task took of the threads that draw pages, while something is
        done: what else the machine does isn't in them."""
        self.traced, self.is_traced = [], False
        self.call("Tracing.start", traceConfig={"includedCategories": [TASKS, "__metadata"]})
        act()
        self.call("Tracing.end")
        while not self.is_traced:
            message = self.socket.receive()
            self.hear(message.get("method"), message.get("params"))
        named = [it for it in self.traced if it["name"] == "thread_name" and it["args"]["name"] == "CrRendererMain"]
        threads = {(it["pid"], it["tid"]) for it in named}
        tasks = [it for it in self.traced if it["name"] == "RunTask" and (it["pid"], it["tid"]) in threads]
        return [it["tdur"] / 1000 for it in tasks if "tdur" in it]

    def value(self, expression):
        asked = {"expression": expression, "awaitPromise": True, "returnByValue": True, "userGesture": True}
        came = self.call("Runtime.evaluate", **asked)
        if "exceptionDetails" in came:
            details = came["exceptionDetails"]
            raise Faulty(details.get("exception", {}).get("description") or details["text"])
        return came["result"].get("value")

    def open(self, url):
        self.call("Page.navigate", url="about:blank")
        self.call("Page.navigate", url=url)

    def press(self, key, *held):
        bits = sum(HELD[it][0] for it in held)
        is_sign = len(key) == 1 and key.isalnum()
        code = KEYS[key][0] if key in KEYS else ord(key.upper()) if is_sign else 0
        text = "\r" if key == "Enter" else key if len(key) == 1 and not bits & 3 else ""
        said = {"key": key, "windowsVirtualKeyCode": code, "modifiers": bits}
        said["code"] = f"Key{key.upper()}" if key.isalpha() and len(key) == 1 else "Space" if key == " " else key
        commands = {"z": ["undo"], "a": ["selectAll"]}.get(key, []) if "Control" in held else []
        sort = "keyDown" if text else "rawKeyDown"
        self.call("Input.dispatchKeyEvent", type=sort, text=text, commands=commands, **said)
        self.call("Input.dispatchKeyEvent", type="keyUp", **said)

    def insert(self, text):
        self.call("Input.insertText", text=text)

    def point(self, x, y, count=1):
        for sort in ("mouseMoved", "mousePressed", "mouseReleased"):
            button = {"button": "left", "clickCount": count} if sort != "mouseMoved" else {}
            self.call("Input.dispatchMouseEvent", type=sort, x=x, y=y, **button)

    def hover(self, x, y):
        self.call("Input.dispatchMouseEvent", type="mouseMoved", x=x, y=y)

    def resize(self, width, height, mobile=False):
        how = {"deviceScaleFactor": 1, "mobile": mobile}
        self.call("Emulation.setDeviceMetricsOverride", width=width, height=height, **how)

    def dark(self, is_dark):
        features = [{"name": "prefers-color-scheme", "value": "dark" if is_dark else "light"}]
        self.call("Emulation.setEmulatedMedia", features=features)

    def picture(self, path):
        with open(path, "wb") as file:
            file.write(base64.b64decode(self.call("Page.captureScreenshot", format="png")["data"]))

    def end(self):
        with contextlib.suppress(Closed, OSError, Faulty):
            self.call("Browser.close")


class Firefox(Tab):
    """A tab of Firefox."""

    names = ("firefox-esr", "firefox")
    # Its window has no focus without a screen, and keys press no button there.
    keys_press_buttons = False

    def __init__(self, profile):
        port = first_line(os.path.join(profile, "WebDriverBiDiServer.json"), '"ws_port":')
        self.socket = Socket(f"ws://127.0.0.1:{port}/session")
        self.count, self.said = 0, []
        self.call("session.new", capabilities={})
        self.call("session.subscribe", events=["log.entryAdded"])
        self.context = self.call("browsingContext.getTree")["contexts"][0]["context"]
        self.resize(*SIZE)

    def call(self, method, **params):
        self.count += 1
        self.socket.send({"id": self.count, "method": method, "params": params})
        while True:
            message = self.socket.receive()
            if message.get("id") == self.count:
                if message["type"] == "error":
                    raise Faulty(f"{method}: {message['message']}")
                return message["result"]
            if message.get("method") == "log.entryAdded" and message["params"]["level"] == "error":
                self.said.append(message["params"]["text"])

    def value(self, expression):
        asked = {"target": {"context": self.context}, "awaitPromise": True, "userActivation": True}
        came = self.call("script.evaluate", expression=f"(async () => JSON.stringify(await ({expression})))()", **asked)
        if came["type"] == "exception":
            raise Faulty(came["exceptionDetails"]["text"])
        text = came["result"].get("value")
        return None if text is None else json.loads(text)

    def open(self, url):
        self.call("browsingContext.navigate", context=self.context, url="about:blank", wait="complete")
        self.call("browsingContext.navigate", context=self.context, url=url, wait="complete")

    def act(self, sort, actions, **more):
        acted = [{"type": sort, "id": sort, "actions": actions, **more}]
        self.call("input.performActions", context=self.context, actions=acted)

    def press(self, key, *held):
        signs = [HELD[it][1] for it in held]
        value = KEYS[key][1] if key in KEYS else key
        down = [{"type": "keyDown", "value": it} for it in [*signs, value]]
        self.act("key", down + [{"type": "keyUp", "value": it} for it in [value, *reversed(signs)]])

    def insert(self, text):
        self.value(f"document.execCommand('insertText', false, {json.dumps(text)})")

    def point(self, x, y, count=1):
        move = {"type": "pointerMove", "x": int(x), "y": int(y)}
        press = [{"type": "pointerDown", "button": 0}, {"type": "pointerUp", "button": 0}]
        self.act("pointer", [move, *press * count], parameters={"pointerType": "mouse"})

    def resize(self, width, height, mobile=False):
        size = {"width": width, "height": height}
        self.call("browsingContext.setViewport", context=self.context, viewport=size)

    def picture(self, path):
        data = self.call("browsingContext.captureScreenshot", context=self.context)["data"]
        with open(path, "wb") as file:
            file.write(base64.b64decode(data))

    def end(self):
        with contextlib.suppress(Closed, OSError, Faulty):
            self.call("browser.close")


def read_json(url):
    """What a browser on this machine answers, without a proxy."""
    opener = urllib.request.build_opener(urllib.request.ProxyHandler({}))
    with opener.open(url, timeout=SECONDS) as answer:
        return json.load(answer)


def first_line(path, after=None):
    """The first line of a file that a browser is about to write, or the number in it after a text."""
    end = time.monotonic() + SECONDS
    while time.monotonic() < end:
        if os.path.exists(path):
            with open(path, encoding="utf-8") as file:
                text = file.read()
            if text and after is None:
                return text.split("\n")[0]
            if after and after in text:
                digits = text.partition(after)[2].strip()
                return "".join(it for it in digits.split(",")[0].split("}")[0] if it.isdigit())
        time.sleep(0.03)
    raise Faulty(f"the browser didn't write {path}")


@contextlib.contextmanager
def opened(sort):
    """A tab of a browser, `Chromium` or `Firefox`, which ends with all its processes."""
    program = path_of(sort.names)
    if program is None:
        raise kit.NotMade(f"there is no {sort.__name__}")
    profile = tempfile.mkdtemp(prefix="lsl-page-")
    if sort is Chromium:
        words = [program, *CHROMIUM_FLAGS, f"--user-data-dir={profile}", "about:blank"]
    else:
        write_text(os.path.join(profile, "user.js"), PREFERENCES)
        words = [program, "--headless", "--no-remote", "--profile", profile, "--remote-debugging-port=0"]
    environment = {**os.environ, "HOME": profile}
    silent = {"stdin": subprocess.DEVNULL, "stdout": subprocess.DEVNULL, "stderr": subprocess.DEVNULL}
    process = subprocess.Popen(words, start_new_session=True, env=environment, **silent)
    try:
        tab = sort(profile)
        try:
            yield tab
        finally:
            tab.end()
    finally:
        with contextlib.suppress(subprocess.TimeoutExpired):
            process.wait(5)
        with contextlib.suppress(ProcessLookupError):
            os.killpg(process.pid, signal.SIGKILL)
        process.wait()
        for _ in range(20):
            shutil.rmtree(profile, ignore_errors=True)
            if not os.path.exists(profile):
                break
            time.sleep(0.1)
