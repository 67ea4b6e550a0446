"""Chromium without a window, spoken to by its protocol for developers over two pipes. Debian's package is `chromium`."""
import base64
import json
import os
import select
import shutil
import signal
import subprocess
import time
from contextlib import suppress

CHROMIUM = shutil.which("chromium")
SECONDS, SECONDS_TO_END = 30, 5
OPTIONS = [
    "--headless=new", "--no-sandbox", "--disable-gpu", "--hide-scrollbars", "--no-first-run", "--disable-extensions",
    "--disable-background-networking", "--disable-component-update", "--disable-sync", "--lang=en", "--remote-debugging-pipe",
]


class Browser:
    """A browser that runs as long as it is needed."""

    def __init__(self, room):
        given, self.input = os.pipe()
        self.output, output = os.pipe()
        # The browser reads from file 3 and writes to file 4.
        words = [CHROMIUM, *OPTIONS, f"--user-data-dir={room}", "about:blank"]
        command = ["bash", "-c", f'exec "$@" 3<&{given} 4>&{output}', "chromium", *words]
        self.process = subprocess.Popen(
            command, pass_fds=(given, output), stdin=subprocess.DEVNULL, stdout=subprocess.DEVNULL, stderr=subprocess.DEVNULL,
            start_new_session=True, env={**os.environ, "TZ": "UTC"},
        )
        os.close(given)
        os.close(output)
        self.number, self.left, self.events = 0, b"", []

    def close(self):
        """Ends it, with all that it has started."""
        with suppress(OSError, EOFError, TimeoutError):
            self.ask("Browser.close")
        with suppress(subprocess.TimeoutExpired):
            self.process.wait(SECONDS_TO_END)
        with suppress(ProcessLookupError):
            os.killpg(self.process.pid, signal.SIGKILL)
        self.process.wait()
        os.close(self.input)
        os.close(self.output)

    def ask(self, method, session=None, **more):
        """Asks for something, and gives what comes of it. What happens meanwhile is kept."""
        self.number += 1
        asked = {"id": self.number, "method": method, "params": more, **({"sessionId": session} if session else {})}
        os.write(self.input, json.dumps(asked).encode() + b"\0")
        number = self.number
        while True:
            found = self.next(SECONDS)
            if found is None:
                raise TimeoutError(f"{method} has no answer")
            if found.get("id") == number:
                if "error" in found:
                    raise RuntimeError(f"{method}: {found['error']}")
                return found["result"]

    def next(self, seconds):
        """The next thing that the browser says, or none. Events are kept."""
        late = time.monotonic() + seconds
        while b"\0" not in self.left:
            ready, _, _ = select.select([self.output], [], [], max(0.0, late - time.monotonic()))
            if not ready:
                return None
            part = os.read(self.output, 1 << 20)
            if not part:
                raise EOFError("the browser has ended")
            self.left += part
        line, _, self.left = self.left.partition(b"\0")
        found = json.loads(line)
        if "method" in found:
            self.events.append(found)
        return found


class Tab:
    """A page in a browser: so wide and high, light or dark, with scripts or without."""

    def __init__(self, browser, width=1200, height=900, is_dark=False, has_scripts=True, scale=1):
        self.browser = browser
        self.target = browser.ask("Target.createTarget", url="about:blank")["targetId"]
        self.session = browser.ask("Target.attachToTarget", targetId=self.target, flatten=True)["sessionId"]
        for domain in ("Page", "Runtime", "Log", "Network"):
            self.ask(f"{domain}.enable")
        is_narrow = width < 600
        self.ask("Emulation.setDeviceMetricsOverride", width=width, height=height, deviceScaleFactor=scale, mobile=is_narrow)
        scheme = {"name": "prefers-color-scheme", "value": "dark" if is_dark else "light"}
        self.ask("Emulation.setEmulatedMedia", features=[scheme])
        self.ask("Emulation.setScriptExecutionDisabled", value=not has_scripts)

    def ask(self, method, **more):
        return self.browser.ask(method, self.session, **more)

    def load(self, address):
        self.browser.events.clear()
        self.ask("Page.navigate", url=address)
        self.until("the page is loaded", lambda: any(it["method"] == "Page.loadEventFired" for it in self.events()))

    def until(self, what, is_so, seconds=SECONDS):
        late = time.monotonic() + seconds
        while not is_so():
            if time.monotonic() > late:
                raise TimeoutError(what)
            self.browser.next(0.05)

    def events(self):
        return [it for it in self.browser.events if it.get("sessionId") == self.session]

    def errors(self):
        """What the console has as errors or warnings: faults of scripts, and what the policy has refused."""
        found = []
        for it in self.events():
            more = it["params"]
            if it["method"] == "Runtime.exceptionThrown":
                found.append(more["exceptionDetails"]["text"])
            elif it["method"] == "Log.entryAdded" and more["entry"]["level"] in ("error", "warning"):
                found.append(more["entry"]["text"])
            elif it["method"] == "Runtime.consoleAPICalled" and more["type"] in ("error", "warning", "assert"):
                found.append(json.dumps(more["args"]))
        return found

    def requested(self):
        """The addresses of all that was loaded."""
        return [it["params"]["request"]["url"] for it in self.events() if it["method"] == "Network.requestWillBeSent"]

    def run(self, expression):
        """The value of an expression, beside the scripts of the page."""
        found = self.ask("Runtime.evaluate", expression=expression, returnByValue=True, awaitPromise=True)
        if "exceptionDetails" in found:
            raise RuntimeError(found["exceptionDetails"]["exception"].get("description"))
        return found["result"].get("value")

    def width(self):
        """How wide the content is."""
        return self.ask("Page.getLayoutMetrics")["cssContentSize"]["width"]

    def height(self):
        return self.ask("Page.getLayoutMetrics")["cssContentSize"]["height"]

    def tree(self):
        """What a screen reader is told: the roles and names of all that it reads."""
        nodes = self.ask("Accessibility.getFullAXTree")["nodes"]
        return [(it["role"]["value"], it.get("name", {}).get("value", "")) for it in nodes if not it["ignored"]]

    def picture(self, path):
        shown = self.ask("Page.captureScreenshot", format="png")["data"]
        path.write_bytes(base64.b64decode(shown))

    def close(self):
        self.browser.ask("Target.closeTarget", targetId=self.target)
