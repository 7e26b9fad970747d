"""Calls of tools/bin/wanna-build, and the office behind them, for tools/tests/test_wanna_build.py.

The office is the program, served over a file. A gate stands between the calls and the office: it writes down each
request, and loses requests and answers where a test asks for it. From the environment: WB is the program,
crates/wb/out/wb of this repository where it is not set.
"""
import contextlib
import http.client
import json
import random
import re
import signal
import socket
import subprocess
import threading
import time

from harness import BIN, WAIT, Failure, expect, program

COMMAND = BIN / "wanna-build"
HEADS = [
    "add-arch amd64 linux amd64", "add-arch arm64 linux arm64", "add-builder b1 amd64", "add-builder b3 amd64",
    "add-builder b3 arm64",
]
LISTED = {
    ("amd64", "hello"): ("1.0-1", "optional", "devel", False),
    ("amd64", "libsigc++-2.0"): ("2.12.0-1", "optional", "contrib/libs", False),
    ("amd64", "zlib"): ("1:1.2.13-1", "required", "libs", False),
    ("amd64", "tar"): ("1.30-1", "required", "admin", True),
    ("arm64", "hello"): ("1.0-1", "optional", "devel", False),
}
PORTS, PORTS_LOCK = set(), threading.Lock()


def free_port():
    """A port that no other caller here was given, and that no connection is given as its own end: those are above
    32768."""
    with PORTS_LOCK:
        while True:
            port = random.randrange(10000, 32000)
            with contextlib.suppress(OSError), socket.socket() as probe:
                if port not in PORTS:
                    probe.bind(("127.0.0.1", port))
                    PORTS.add(port)
                    return port


def ask(port, method, path, body=None):
    """What an office answers."""
    link = http.client.HTTPConnection("127.0.0.1", port, timeout=6 * WAIT)
    with contextlib.closing(link):
        link.request(method, path, None if body is None else json.dumps(body))
        return json.loads(link.getresponse().read())


# ---- the office


class Program:
    """The program, which serves over a file, and whose lists are merged while it is stopped."""

    def __init__(self, wb, folder, port, listed):
        self.wb, self.folder, self.port, self.process = wb, folder, port, None
        self.folder.mkdir()
        self.listed = {
            key: [version, priority, section, 0 if installed else None]
            for key, (version, priority, section, installed) in listed.items()
        }
        self.run(HEADS + self.merges())

    def run(self, lines):
        text = "".join(f"{line}\n" for line in lines)
        words = [self.wb, "--store", "office.db", "run"]
        done = subprocess.run(
            words, cwd=self.folder, input=text, capture_output=True, text=True, timeout=6 * WAIT, check=False
        )
        expect(done.returncode == 0, f"the program answered {done.stdout[-300:]}{done.stderr[-300:]}")

    def merges(self):
        """The lines that merge what is listed, as files in its folder."""
        lines = []
        for arch in sorted({arch for arch, _ in self.listed}):
            rows = {source: row for (of, source), row in self.listed.items() if of == arch}
            fields = "Package: {}\nVersion: {}\nArchitecture: any\nPriority: {}\nSection: {}\n\n"
            sources = "".join(
                fields.format(source, version, priority, section)
                for source, (version, priority, section, _) in rows.items()
            )
            packages = ""
            for source, (version, _, _, number) in rows.items():
                if number is not None:
                    build = version + (f"+b{number}" if number else "")
                    packages += (
                        f"Package: {source}-bin\nSource: {source} ({version})\nVersion: {build}\nArchitecture: {arch}\n"
                        "\n"
                    )
            (self.folder / f"Sources-{arch}").write_text(sources)
            (self.folder / f"Packages-{arch}").write_text(packages)
            lines.append(f"merge Sources-{arch} {arch}=Packages-{arch}")
        return lines

    def start(self):
        words = [self.wb, "--store", "office.db", "serve", "--port", str(self.port), "--requests", "1000000"]
        pipe = subprocess.DEVNULL
        self.process = subprocess.Popen(words, cwd=self.folder, stdin=pipe, stdout=pipe, stderr=pipe)
        end = time.monotonic() + 6 * WAIT
        while True:  # it listens before it has opened its file
            with contextlib.suppress(OSError):
                ask(self.port, "GET", "/v1/mine/b1")
                return
            expect(self.process.poll() is None and time.monotonic() < end, "the program does not serve")
            time.sleep(0.01)

    def stop(self):
        if self.process:
            self.process.kill()
            self.process.wait()
            self.process = None

    def merge(self, arch, listed):
        self.stop()
        for source, (version, number) in listed.items():
            self.listed[arch, source][0], self.listed[arch, source][3] = version, number
        self.run(self.merges())
        self.start()

    def begin_anew(self):
        self.stop()
        for file in self.folder.glob("office.db*"):
            file.unlink()
        self.run(HEADS + self.merges())
        self.start()


# ---- the gate


class Gate:
    """What stands between the calls and the office. `lose` has the front of a path and whether the request or only its
    answer is lost."""

    def __init__(self, office):
        self.office, self.port = office, free_port()
        self.asked, self.lose, self.listener = [], [], None
        self.open()

    def open(self):
        """Takes calls. A process that is begun meanwhile has the sockets of this one until it runs its program, so a
        port is free only then."""
        end = time.monotonic() + WAIT
        while True:
            try:
                self.listener = socket.create_server(("127.0.0.1", self.port), backlog=64)
                break
            except OSError:
                if time.monotonic() > end:
                    raise
                time.sleep(0.01)
        threading.Thread(target=self.take_all, args=(self.listener,), daemon=True).start()

    def close(self):
        with contextlib.suppress(OSError):
            self.listener.shutdown(socket.SHUT_RDWR)
        self.listener.close()

    def take_all(self, listener):
        while True:
            try:
                link, _ = listener.accept()
            except OSError:
                return
            threading.Thread(target=self.hand_on, args=(link,), daemon=True).start()

    def refusal(self, method, path, head, body):
        """What is answered in place of the office; none if the request is handed on."""

    def hand_on(self, link):
        with contextlib.closing(link), contextlib.suppress(OSError):
            request = b""
            while b"\r\n\r\n" not in request:
                part = link.recv(65536)
                if not part:
                    return
                request += part
            head, _, body = request.partition(b"\r\n\r\n")
            length = re.search(rb"(?i)\r\ncontent-length: *(\d+)", head)
            while length and len(body) < int(length[1]):
                body += link.recv(65536)
            method, path = head.decode().split(" ")[:2]
            lost = next((each for each in self.lose if path.startswith(each[0])), None)
            if lost:
                self.lose.remove(lost)
            self.asked.append((method, path, json.loads(body) if body else None))
            if lost and lost[1] == "request":
                return
            refused = self.refusal(method, path, head, body)
            if refused:
                link.sendall(refused)
                return
            with socket.create_connection(("127.0.0.1", self.office.port), timeout=WAIT) as beyond:
                beyond.sendall(head + b"\r\n\r\n" + body)
                answer = b"".join(iter(lambda: beyond.recv(65536), b""))
            link.sendall(answer[: len(answer) // 2] if lost and lost[1] == "half" else b"" if lost else answer)


# ---- calls


class Network:
    """An office, its gate, and the settings of the calls."""

    gate_of = Gate

    def __init__(self, folder, listed=None, **settings):
        self.folder = folder
        self.office = Program(program(), folder / "office", free_port(), listed or LISTED)
        self.gate = self.gate_of(self.office)
        self.state = folder / "a state"
        self.settings = {
            "SUITES": f"sid={self.gate.port}", "STATE": self.state, "LOG": folder / "log", "TRY": "1", "ANSWER": "5",
            **settings,
        }
        self.conf = folder / "wanna-build.conf"
        self.write_settings()

    def write_settings(self):
        self.conf.write_text("".join(f'{key}="{value}"\n' for key, value in self.settings.items()))

    def __enter__(self):
        self.office.start()
        return self

    def __exit__(self, *_):
        self.gate.close()
        self.office.stop()

    # -- the office

    def item(self, source, arch="amd64"):
        return ask(self.office.port, "GET", f"/v1/item/{arch}/{source.replace('+', '%2B')}")

    def state_of(self, source, arch="amd64"):
        record = self.item(source, arch)
        return record["state"] + (f" {record['holder']} {record['take']}" if record["holder"] else "")

    def post(self, command, **body):
        """What a porter, or another builder, does meanwhile."""
        said = ask(self.office.port, "POST", f"/v1/{command}", body)
        expect("ok" in said, f"{command} {body}: {said}")
        return said

    def accepted(self):
        """How many commands the office has accepted, which one more shows."""
        record = self.item("hello")
        said = self.post(
            "build-priority", arch="amd64", source="hello", version=record["version"], value=record["build_priority"]
        )
        return said["accepted"]

    def expect_state(self, source, wanted, arch="amd64"):
        found = self.state_of(source, arch)
        expect(found == wanted, f"{source} is {found} in place of {wanted}")

    def requests(self):
        """The requests since the last look, each as its method and path."""
        found = [f"{method} {path}" for method, path, _ in self.gate.asked]
        self.gate.asked.clear()
        return found

    # -- the calls, with the words of buildd byte for byte, and its empty environment

    def start(self, *words, user="b1", arch="amd64", suite="sid", state=None, environment=None):
        conf = self.conf
        if state:
            conf = state.with_name(f"{state.name}.conf")
            conf.write_text(self.conf.read_text().replace(f'"{self.state}"', f'"{state}"'))
        front = [f"--arch={arch}", f"--dist={suite}", f"--user={user}"] if user else []
        pipe = subprocess.PIPE
        full = [COMMAND, "--settings", conf, *front, *words]
        return subprocess.Popen(full, stdin=pipe, stdout=pipe, stderr=pipe, env=environment or {}, cwd=self.folder)

    def call(self, *words, wanted=0, text="", **options):
        """What a call prints on standard output and standard error, and that it ends with this status."""
        process = self.start(*words, **options)
        try:
            said, noted = (part.decode() for part in process.communicate(text.encode(), timeout=3 * WAIT))
        except subprocess.TimeoutExpired:
            process.kill()
            raise Failure(f"{words} does not end") from None
        shown = (
            f"{' '.join(map(str, words))}: status {process.returncode} in place of {wanted}: "
            f"{said[-400:]}{noted[-800:]}"
        )
        expect(process.returncode == wanted, shown)
        return said, noted

    def says(self, printed, *words, **options):
        """That a call prints just this, and nothing on standard error, which buildd reads too."""
        said, noted = self.call(*words, **options)
        expect(said == printed and not noted, f"{words}: it printed {said!r} and {noted!r} in place of {printed!r}")

    def refuses(self, message, *words, wanted=1, **options):
        """That a call is refused with this message."""
        said, noted = self.call(*words, wanted=wanted, **options)
        expect(message in said + noted, f"{words}: it says {said + noted!r}, without {message!r}")

    def takes(self, package, **options):
        """Takes a package as buildd does."""
        self.says(f"- {package.partition('_')[0]}:\n    - status: ok\n", "--api 1", package, **options)

    def kept(self):
        return json.loads(self.state.read_text()) if self.state.exists() else {"takes": [], "owed": []}

    def owed(self):
        return [f"{debt['word']} {debt['source']}" for debt in self.kept()["owed"]]


def killed_after(process, seconds):
    """Kills a call after a while. Its status is that of the kill, or its own if it was quicker."""
    with contextlib.suppress(subprocess.TimeoutExpired):
        process.wait(seconds)
    process.send_signal(signal.SIGKILL)
    process.communicate()
    return process.returncode
