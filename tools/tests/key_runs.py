"""Keys, for tools/tests/test_keys.py, tools/tests/test_office_keys.py and tools/tests/test_key_shown.py: the keys of
names, files of keys and those that are malformed, a gate that stands before an office as its keys would, and where the
bytes of a key are to be found.
"""
import hashlib
import json
import os
import re
from pathlib import Path

from harness import expect
from key_model import Keys, may, may_by_path
from wanna_build_runs import Gate, ask

HASH = "0" * 64
# Files that are malformed, by a second reading of the page.
BAD = [
    "x read", "\n\nx read " + "A" * 64, f"x {HASH}", f"x write {HASH}", f"x build= {HASH}", f"x build=a/b {HASH}",
    f"x port=any {HASH}", f"x port=AMD64 {HASH}", f".x read {HASH}", f"{'x' * 65} read {HASH}", f" # read {HASH}", "*",
    f"* read {HASH}", "* read\n* read", f"a read {HASH}\n#\na read {'1' * 64}", f"a read {HASH}\nb read {HASH}",
    b"x read \xff", f"x read {HASH}\r\n", "".join(f"k{at} read {at:064x}\n" for at in range(1001)),
    f"x read={HASH} {HASH}",
]
OPEN_MODES = (0o640, 0o620, 0o604, 0o602, 0o666)  # by which others may read or write a file
WHY = {401: ("Unauthorized", "NoKey", "WWW-Authenticate: Bearer\r\n"), 403: ("Forbidden", "NotAllowed", "")}
QUERIES = ("queue", "state", "item", "mine", "depends", "summary", "office", "archs", "builders")


def key(name):
    """The key of this name in the files of tests."""
    return f"{name}-{'k' * 24}+/="


def hash_of(name):
    return hashlib.sha256(key(name).encode()).hexdigest()


def put(file, text, mode=0o600):
    """Puts a file in place as a whole."""
    made = file.with_name(f"{file.name}.made")
    made.write_bytes(text if isinstance(text, bytes) else text.encode())
    made.chmod(mode)
    os.rename(made, file)


def lines_of(rights, anyone="read"):
    """A file of keys with these rights of each name, and what a request without a key may do."""
    lines = [f"* {anyone}"] if anyone else []
    lines += [f"{name} {words} {hash_of(name)}" for name, words in rights.items()]
    return "".join(f"{line}\n" for line in lines)


def key_file(folder, name, mode=0o600):
    """The file with the key of a name, for who shows it."""
    file = folder / f"{name}.key"
    put(file, f"{key(name)}\n", mode)
    return file


# ---- the office


def answer_bytes(status):
    """The answer to a request whose key is missing, or lacks a right."""
    phrase, name, more = WHY[status]
    text = f'{{"http":"{name}"}}'
    head = f"HTTP/1.1 {status} {phrase}\r\nContent-Type: application/json\r\nContent-Length: {len(text)}\r\n"
    return f"{head}Connection: close\r\n{more}\r\n{text}".encode()


class KeyGate(Gate):
    """A gate that lets requests through by the keys of a file, as key_model.py reads it; without a file it lets all
    through. It notes the method, the path and the fields Authorization of each, and where the bytes of a key stand
    meanwhile among the words or in the environment of a process."""

    def __init__(self, office):
        self.keys, self.shown, self.told, self.secrets = None, [], set(), []
        super().__init__(office)

    def refusal(self, method, path, head, body):
        values = [value.strip(b" \t\r") for value in re.findall(rb"(?im)^authorization:(.*)$", head)]
        self.shown.append((method, path, [value.decode() for value in values]))
        for secret in self.secrets:
            self.told |= set(tellers(secret))
        status = self.status_of(method, path.split("/")[2], values, body) if self.keys else 0
        return answer_bytes(status) if status else None

    def status_of(self, method, word, values, body):
        """The status with which a request is refused for its key; 0 if it is let through."""
        rights = Keys(self.keys.read_bytes()).rights(values)
        if rights is None:
            return 401
        if method == "GET" or word in QUERIES:
            return 0
        is_let = may_by_path(rights, word) and may(rights, word, json.loads(body), self.holder_of)
        return 0 if is_let else 403

    def holder_of(self, take):
        for row in ask(self.office.port, "GET", "/v1/builders")["builders"]:
            records = ask(self.office.port, "GET", f"/v1/mine/{row['builder']}")["records"]
            if any(record["take"] == take for record in records):
                return row["builder"]
        return None

    def shows(self, since=0):
        """The values of the fields Authorization of all requests from one on, each once."""
        return {value for _, _, values in self.shown[since:] for value in values or [None]}

    def expect_shown(self, name, what):
        """That some requests came since the last look, and that each showed the key of this name, or none."""
        met, self.shown = self.shown, []
        expect(met, f"{what}: it asked nothing")
        wanted = [f"Bearer {key(name)}"] if name else []
        for method, path, values in met:
            expect(values == wanted, f"{what}: {method} {path} shows {values}, not {wanted}")


# ---- where a key stands


def tellers(secret):
    """The processes whose words or environment have these bytes, each as its words."""
    data = secret.encode()
    for folder in Path("/proc").iterdir():
        if not folder.name.isdigit():
            continue
        for name in ("cmdline", "environ"):
            try:
                if data in (folder / name).read_bytes():
                    yield f"{name} of {(folder / 'cmdline').read_bytes()[:200]}"
            except OSError:
                continue


def holders(folder, secret, *but):
    """The files of a folder that have these bytes, but for some."""
    data = secret.encode()
    files = (path for path in sorted(folder.rglob("*")) if path.is_file() and not path.is_symlink())
    return [str(path.relative_to(folder)) for path in files if path not in but and data in path.read_bytes()]
