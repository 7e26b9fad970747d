"""The program as it serves, requests to it as bytes, and what it answers, for tools/tests/test_serve.py and others."""
import contextlib
import http.client
import json
import socket
import subprocess
import time

from harness import ROOT, WAIT, WB, expect, free_port, listens


class Server:
    """The program, serving over the file `store` of a folder if store is set, for so many requests, with these further
    words. What it says on standard error goes to a file if one is given, and `prepare` is called in its process before
    it starts."""

    def __init__(
        self, folder, store="store", requests=1000000, port=None, errors=subprocess.PIPE, prepare=None, more=()
    ):
        self.port = port or free_port()
        words = (
            [WB]
            + (["--store", store] if store else [])
            + ["serve", "--port", str(self.port), "--requests", str(requests), *more]
        )
        pipe = subprocess.PIPE
        self.process = subprocess.Popen(
            words, cwd=folder, stdin=subprocess.DEVNULL, stdout=pipe, stderr=errors, preexec_fn=prepare
        )
        end = time.monotonic() + WAIT
        while not listens(self.port):
            expect(
                self.process.poll() is None, f"the program ended with {self.process.returncode}: {self.process.stderr}"
            )
            expect(time.monotonic() < end, "the program does not listen")
            time.sleep(0.002)

    def __enter__(self):
        return self

    def __exit__(self, *_):
        self.process.kill()
        self.process.communicate()

    def end(self):
        """The status, standard output and standard error of a program that ends by itself."""
        said = self.process.communicate(timeout=WAIT)
        return self.process.returncode, *said

    def connect(self):
        link = socket.create_connection(("127.0.0.1", self.port), timeout=4 * WAIT)
        return contextlib.closing(link)

    def says(self, data, end=True):
        """All bytes that are answered to these, after which the client sends no more if end is set."""
        with self.connect() as link:
            with contextlib.suppress(ConnectionError):
                link.sendall(data)
                if end:
                    link.shutdown(socket.SHUT_WR)
            return received(link)

    def post(self, path, **body):
        """The status and the object that are answered to a command."""
        return self.ask("POST", path, json.dumps(body))

    def ask(self, method, path, body=None):
        link = http.client.HTTPConnection("127.0.0.1", self.port, timeout=WAIT)
        with contextlib.closing(link):
            link.request(method, path, body)
            answer = link.getresponse()
            return answer.status, answer.read()


def with_lists_of_page(folder):
    """The further words of a program that serves the examples of docs/HTTP.md, with their lists in a folder."""
    place = folder / "to-merge"
    place.mkdir()
    examples = (ROOT / "docs" / "HTTP.md").read_text(encoding="utf-8").split("## Examples")[1]
    (place / "Sources").write_text(examples.split("```")[5].removeprefix("text\n"))
    (place / "Packages-armhf").write_text("")
    return ["--lists", str(place)]


def received(link):
    parts = []
    with contextlib.suppress(ConnectionError):
        while part := link.recv(65536):
            parts.append(part)
    return b"".join(parts)


PHRASES = {
    200: "OK", 400: "Bad Request", 404: "Not Found", 405: "Method Not Allowed", 409: "Conflict", 411: "Length Required",
}
PHRASES |= {
    403: "Forbidden", 413: "Payload Too Large", 422: "Unprocessable Entity", 431: "Request Header Fields Too Large",
    501: "Not Implemented",
}
PHRASES |= {503: "Service Unavailable"}


def answer_bytes(status, body):
    """An answer as its bytes should be."""
    body = body if isinstance(body, bytes) else body.encode()
    head = (
        f"HTTP/1.1 {status} {PHRASES[status]}\r\nContent-Type: application/json\r\nContent-Length: {len(body)}\r\n"
        "Connection: close\r\n\r\n"
    )
    return head.encode() + body


def request_bytes(path, body, *fields, method="POST", length=None):
    """The bytes of a request, with its length if that is not given."""
    body = body if isinstance(body, bytes) else body.encode()
    lines = [f"{method} {path} HTTP/1.1", "Host: localhost", *fields]
    if length is None:
        lines.append(f"Content-Length: {len(body)}")
    return "".join(f"{line}\r\n" for line in lines).encode() + b"\r\n" + body
