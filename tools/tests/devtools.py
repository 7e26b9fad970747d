"""A browser led by the DevTools protocol of Chromium, over a pipe: pages as they are served, on screens of a given
width, in light or dark, what they load, what they look like, and what a reader of the screen is told of them."""
import base64
import collections
import fcntl
import json
import os
import select
import signal
import subprocess
import time
from pathlib import Path

from harness import expect
from look_runs import browser, forget

WAIT = 120  # seconds for one answer
OURS = 10  # the least number of a file that is not to be one of the browser's own
READ, WRITTEN = 3, 4  # the files over which a browser with --remote-debugging-pipe reads and writes


class Browser:
    """Chromium with one page, which is closed at the end. `requests` are the addresses that it asked for since the last
    page was opened, and `reports` what it said of them, such as what a policy forbids."""

    def __init__(self, folder):
        theirs, self.to = map(high, os.pipe())
        self.of, answers = map(high, os.pipe())

        def connect():
            os.dup2(theirs, READ)
            os.dup2(answers, WRITTEN)

        words = ["--headless", "--no-sandbox", "--disable-gpu", "--remote-debugging-pipe", "--no-first-run"]
        words += ["--hide-scrollbars", "--force-color-profile=srgb", "--disable-background-networking"]
        self.errors = open(Path(folder) / "browser.log", "wb")
        self.profile = Path(folder) / "browser"
        self.process = subprocess.Popen(
            [browser(), *words, f"--user-data-dir={self.profile}", "about:blank"], preexec_fn=connect,
            pass_fds=(READ, WRITTEN), stdin=subprocess.DEVNULL, stdout=self.errors, stderr=self.errors,
            start_new_session=True,
        )
        os.close(theirs)
        os.close(answers)
        self.last, self.rest, self.session = 0, b"", None
        self.events = collections.deque()
        target = self.say("Target.createTarget", url="about:blank")["targetId"]
        self.session = self.say("Target.attachToTarget", targetId=target, flatten=True)["sessionId"]
        for domain in ("Page", "Network", "Runtime", "Log", "Accessibility"):
            self.say(f"{domain}.enable")
        self.requests, self.reports = [], []

    def __enter__(self):
        return self

    def __exit__(self, *_):
        os.killpg(self.process.pid, signal.SIGKILL)
        self.process.wait()
        for one in (self.to, self.of):
            os.close(one)
        self.errors.close()
        forget(self.profile)

    # ---- the protocol

    def say(self, method, **params):
        """What the browser answers to a call."""
        self.last += 1
        message = {"id": self.last, "method": method, "params": params}
        message |= {"sessionId": self.session} if self.session else {}
        os.write(self.to, json.dumps(message).encode() + b"\0")
        while (found := self.hear()).get("id") != self.last:
            self.events.append(found)
        expect("error" not in found, f"{method}: {found.get('error')}")
        return found["result"]

    def hear(self):
        """The next message of the browser."""
        end = time.monotonic() + WAIT
        while b"\0" not in self.rest:
            ready = select.select([self.of], [], [], max(0, end - time.monotonic()))[0]
            part = os.read(self.of, 1 << 20) if ready else b""
            expect(part, f"the browser says nothing more: {Path(self.errors.name).read_bytes()[-600:]}")
            self.rest += part
        message, _, self.rest = self.rest.partition(b"\0")
        return json.loads(message)

    def wait_for(self, name):
        while True:
            found = self.events.popleft() if self.events else self.hear()
            self.note(found)
            if found.get("method") == name:
                return

    def note(self, found):
        kind, params = found.get("method"), found.get("params", {})
        if kind == "Network.requestWillBeSent":
            self.requests.append(params["request"]["url"])
        elif kind == "Log.entryAdded":
            self.reports.append(params["entry"]["text"])
        elif kind in ("Runtime.consoleAPICalled", "Runtime.exceptionThrown"):
            self.reports.append(json.dumps(params)[:300])

    # ---- pages

    def show_on(self, width, is_dark=False, height=900):
        """The next pages are shown on a screen of this width, below 600 pixels a phone's."""
        self.say("Emulation.setDeviceMetricsOverride", width=width, height=height, deviceScaleFactor=1,
                 mobile=width < 600)
        scheme = {"name": "prefers-color-scheme", "value": "dark" if is_dark else "light"}
        self.say("Emulation.setEmulatedMedia", features=[scheme])

    def open(self, url):
        """Opens a page, and waits until it is whole; gives how many milliseconds that took, as the page knows it."""
        self.requests, self.reports = [], []
        self.events.clear()
        found = self.say("Page.navigate", url=url)
        expect("errorText" not in found, f"{url}: {found.get('errorText')}")
        self.wait_for("Page.loadEventFired")
        taken = self.value("performance.getEntriesByType('navigation')[0].domContentLoadedEventEnd")
        while self.events:
            self.note(self.events.popleft())
        return taken

    def value(self, script):
        """The value of an expression of JavaScript on the page."""
        found = self.say("Runtime.evaluate", expression=script, returnByValue=True)
        expect("exceptionDetails" not in found, f"{json.dumps(found)[:600]}")
        return found["result"].get("value")

    def picture(self, file, most=100000):
        """A picture of the whole page, as PNG, of at most so many pixels of its height."""
        size = self.say("Page.getLayoutMetrics")["cssContentSize"]
        clip = {"x": 0, "y": 0, "width": size["width"], "height": min(size["height"], most), "scale": 1}
        data = self.say("Page.captureScreenshot", format="png", captureBeyondViewport=True, clip=clip)["data"]
        Path(file).write_bytes(base64.b64decode(data))

    def tables(self):
        """The tables that a reader of the screen is told of: the name of each, its heads, and its rows as texts; a row
        begins with its own head."""
        nodes = {one["nodeId"]: one for one in self.say("Accessibility.getFullAXTree")["nodes"]}
        return [table_of(nodes, one) for one in nodes.values() if role_of(one) == "table"]


def high(file):
    """The same file under a number that is none of the browser's."""
    found = fcntl.fcntl(file, fcntl.F_DUPFD_CLOEXEC, OURS)
    os.close(file)
    return found


def role_of(node):
    return "" if node["ignored"] else node.get("role", {}).get("value", "")


def name_of(node):
    return " ".join(str(node.get("name", {}).get("value", "")).split())


def within(nodes, node, *roles):
    """The nodes of these roles below a node, in their order; not those below one of them."""
    for child in (nodes[key] for key in node.get("childIds", ()) if key in nodes):
        if role_of(child) in roles:
            yield child
        else:
            yield from within(nodes, child, *roles)


def table_of(nodes, table):
    rows = [list(within(nodes, row, "columnheader", "rowheader", "cell")) for row in within(nodes, table, "row")]
    heads = [name_of(one) for one in rows[0] if role_of(one) == "columnheader"] if rows else []
    return {
        "name": name_of(table), "heads": heads,
        "rows": [[name_of(one) for one in row] for row in rows[1:]],
        "kinds": sorted({role_of(row[0]) if row else "" for row in rows[1:]}),
    }
