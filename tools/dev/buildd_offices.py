"""The offices of tools/dev/try-buildd: the program alone, which lets each request through, and one with keys, which the
package's own command makes and serves in the copy of the system, as docs/operations/KEYS.md says."""
import contextlib
import http.client
import json
import re
import threading
import time

from buildd_system import LONG, key_commands, run
from key_runs import tellers
from wanna_build_runs import HEADS, Program, ask

SETTINGS, PLACE = "etc/wb/office.conf", "var/lib/wb"


class OpenOffice(Program):
    """An office without keys."""

    def ask(self, method, path, body=None):
        return ask(self.port, method, path, body)


class KeyedOffice(Program):
    """An office that answers nobody who shows no key. The operator's key is shown by wb-office, and by `ask`. While it
    is there, all processes are looked at for the bytes of each key."""

    def __init__(self, system, port, listed):
        self.system, self.port, self.folder, self.process = system, port, system.root / "srv/lists", None
        self.listed, self.begun = {key: list(row) for key, row in listed.items()}, time.time()
        self.folder.mkdir(exist_ok=True)
        run(system.as_root(f"rm -rf /{PLACE}/office.* /{PLACE}/*.key /{PLACE}/messages /{PLACE}/backups/*"))
        system.put(SETTINGS, settings_on(system.office, port))
        self.says("create")
        self.keys = {"operator": (system.root / PLACE / "operator.key").read_text().strip()}
        self.watch = Watch(self.keys.values())
        self.says("key", "remove", "*")
        self.start()
        self.says("run", text="".join(f"{line}\n" for line in HEADS))
        self.merge("amd64", {})

    def says(self, *words, text=""):
        """What wb-office says, which root calls."""
        return run(self.system.inside(["wb-office", *words]), stdin=None, input=text)

    def start(self):
        self.says("start")

    def stop(self):
        self.says("stop")

    def merge(self, arch, listed):
        """Merges what is listed, without a stop."""
        sources, *packages = f"{self.merges()[0]} ".split()[1:]
        self.says("merge", f"/srv/lists/{sources}", *(word.replace("=", "=/srv/lists/") for word in packages))

    # -- keys

    def add_key(self, name, *rights):
        """Makes a key by the command of the page."""
        run(self.system.as_root(key_commands(name, rights)[0]))
        self.keys[name] = (self.system.root / f"root/{name}.key").read_text().strip()
        self.watch.secrets.append(self.keys[name])

    def give_key(self, name, user="buildd", place="~buildd/wanna-build.key"):
        """Puts a key into a file of a user, by the command of the page."""
        run(self.system.as_root(key_commands(name, (), user, place)[1]))

    def status_of(self, name, method, path, body=None):
        """The status and the answer to a request that shows the key of this name, or none."""
        link = http.client.HTTPConnection("127.0.0.1", self.port, timeout=LONG)
        fields = {"Authorization": f"Bearer {self.keys[name]}"} if name else {}
        with contextlib.closing(link):
            link.request(method, path, None if body is None else json.dumps(body), fields)
            answer = link.getresponse()
            return answer.status, json.loads(answer.read())

    def ask(self, method, path, body=None):
        return self.status_of("operator", method, path, body)[1]

    def journal(self):
        """The commands in the journal, each as its name, and the name on the line of the key by which it was given."""
        lines = (self.system.root / PLACE / "office.journal").read_text().splitlines()
        return [(entry["command"]["command"], entry.get("by")) for entry in map(json.loads, lines)]

    def files_with_keys(self):
        """The files that were written while this office was there and have the bytes of a key, but for those that are
        made for one key: their names end so."""
        secrets = [key.encode() for key in self.watch.secrets]
        files = (file for file in (self.system.folder / "upper").rglob("*") if file.is_file() and not file.is_symlink())
        new = (file for file in files if file.suffix != ".key" and file.stat().st_ctime >= self.begun - 1)
        return [str(file) for file in new if any(secret in file.read_bytes() for secret in secrets)]


def settings_on(text, port):
    """The package's settings of an office, on this port and without systemd, as they say themselves."""
    without = re.search(r"\n# Without systemd, in place of the lines of SERVICE, .* above:\n((?:#\w+=.*\n)+)", text)[1]
    text = re.sub(r"(?m)^(SERVICE|UNIT|OWNER)=.*\n", "", text) + without.replace("#", "")
    return re.sub(r"(?m)^PORT=.*$", f"PORT={port}", text)


class Watch:
    """Looks again and again whether the bytes of a key stand among the words, or in the environment, of a process."""

    def __init__(self, secrets):
        self.secrets, self.met, self.looks, self.is_wanted = list(secrets), set(), 0, True
        self.keeper = threading.Thread(target=self.keep, daemon=True)
        self.keeper.start()

    def keep(self):
        while self.is_wanted:
            for secret in list(self.secrets):
                self.met |= set(tellers(secret))
            self.looks += 1
            time.sleep(0.005)

    def stop(self):
        self.is_wanted = False
        self.keeper.join()
