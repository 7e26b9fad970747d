"""What the tests of the site share: the site as it serves, over offices that the program or a stand-in serves."""
import contextlib
import html.parser
import http.client
import http.server
import json
import os
import socket
import subprocess
import sys
import threading
import time

from harness import BIN, WAIT, WB, LeftOut, expect, free_port, listens
from serve_runs import Server

NEEDS = "Flask and waitress are not installed: python3-flask, python3-waitress"


def interpreter():
    """A Python that has Flask and waitress; without one the test is left out."""
    for python in (sys.executable, "/usr/bin/python3"):
        words = [python, "-c", "import flask, waitress"]
        with contextlib.suppress(OSError):
            if subprocess.run(words, capture_output=True, check=False).returncode == 0:
                return python
    raise LeftOut(NEEDS)


class Site:
    """The site, serving with these settings."""

    def __init__(self, folder, now=None, port=None, **settings):
        self.port = port or free_port()
        (folder / "web.conf").write_text("".join(f'{key}="{value}"\n' for key, value in settings.items()))
        variables = {**os.environ, **({"SOURCE_DATE_EPOCH": str(now)} if now else {})}
        words = [interpreter(), BIN / "wb-web", "--settings", folder / "web.conf", "--port", str(self.port)]
        self.process = subprocess.Popen(words, env=variables, stdin=subprocess.DEVNULL, stderr=subprocess.PIPE)
        end = time.monotonic() + WAIT
        while not listens(self.port):
            expect(self.process.poll() is None, f"the site ended: {self.process.stderr}")
            expect(time.monotonic() < end, "the site does not listen")
            time.sleep(0.01)

    def __enter__(self):
        return self

    def __exit__(self, *_):
        self.process.kill()
        self.said = self.process.communicate()[1].decode()
        expect("Traceback" not in self.said, self.said[-2000:])

    def ask(self, path, status=200, method="GET"):
        """The fields and the text of an answer that has this status."""
        link = http.client.HTTPConnection("127.0.0.1", self.port, timeout=WAIT)
        with contextlib.closing(link):
            link.request(method, path)
            answer = link.getresponse()
            text = answer.read().decode()
        expect(answer.status == status, f"{path}: status {answer.status} in place of {status}: {text[-600:]}")
        return answer.headers, text

    def page(self, path, status=200):
        return Page(self.ask(path, status)[1])

    def json(self, path, status=200):
        return json.loads(self.ask(path, status)[1])


class Page(html.parser.HTMLParser):
    """The tables of a page by their captions, each row as its texts by their heads, and the links and texts."""

    def __init__(self, text):
        super().__init__()
        self.source, self.tables, self.links, self.texts = text, {}, {}, []
        self.heads, self.row, self.place, self.caption = [], None, None, ""
        self.feed(text)

    def handle_starttag(self, tag, attributes):
        if tag == "table":
            self.heads, self.caption = [], ""
        elif tag == "tr":
            self.row = []
        elif tag in ("caption", "th", "td"):
            self.place = []
        elif tag == "a":
            self.link = dict(attributes).get("href"), []

    def handle_data(self, data):
        self.texts.append(data)
        if self.place is not None:
            self.place.append(data)
        if getattr(self, "link", None):
            self.link[1].append(data)

    def handle_endtag(self, tag):
        if tag == "a" and self.link:
            self.links[" ".join("".join(self.link[1]).split())] = self.link[0]
            self.link = None
        elif tag in ("caption", "th", "td") and self.place is not None:
            text, self.place = " ".join("".join(self.place).split()), None
            if tag == "caption":
                self.caption = text
                self.tables[text] = []
            else:
                self.row.append(text)
        elif tag == "tr" and not self.heads:
            self.heads = self.row
        elif tag == "tr":
            self.tables[self.caption].append(dict(zip(self.heads, self.row, strict=True)))

    @property
    def text(self):
        return " ".join("".join(self.texts).split())


def office(folder, lines, name="office", more=()):
    """Carries lines out with a journal, makes its index, and serves the office, with these further words."""
    text = "".join(f"{line}\n" for line in lines)
    words = [WB, "--store", f"{name}.db", "run", "--journal", f"{name}.journal"]
    subprocess.run(words, cwd=folder, input=text, text=True, capture_output=True, timeout=WAIT, check=False)
    update(folder, name)
    return Server(folder, f"{name}.db", more=more)


def update(folder, name="office"):
    """Brings the index of a journal up to date."""
    words = [BIN / "wb-history", folder / f"{name}.journal", "index"]
    subprocess.run(words, capture_output=True, timeout=WAIT, check=True)


@contextlib.contextmanager
def silent_office():
    """A port that takes connections and never answers."""
    with socket.create_server(("127.0.0.1", 0)) as server:
        yield server.getsockname()[1]


@contextlib.contextmanager
def dribbling_office(body):
    """A port where each answer comes byte by byte, five a second; without a body it has no end."""

    def answer(handler):
        handler.send_response(200)
        handler.send_header("Content-Length", str(len(body or b"") or 10**6))
        handler.end_headers()
        with contextlib.suppress(OSError):
            for byte in body or b"{" + b" " * 10**6:
                handler.wfile.write(bytes([byte]))
                time.sleep(0.2)

    with stand_in(answer) as port:
        yield port


@contextlib.contextmanager
def odd_office(body, status=200):
    """A port where each request is answered by these bytes."""
    with stand_in(answer_with(body, status)) as port:
        yield port


@contextlib.contextmanager
def stand_in(answer):
    """A port where a function answers each request."""
    handler = type("Handler", (http.server.BaseHTTPRequestHandler,), {"do_GET": answer})
    handler.log_message = lambda *_: None
    with http.server.ThreadingHTTPServer(("127.0.0.1", 0), handler) as server:
        threading.Thread(target=server.serve_forever, args=(0.01,), daemon=True).start()
        try:
            yield server.server_port
        finally:
            server.shutdown()


def answer_with(body, status):
    def answer(handler):
        handler.send_response(status)
        handler.send_header("Content-Length", str(len(body)))
        handler.end_headers()
        handler.wfile.write(body)

    return answer
