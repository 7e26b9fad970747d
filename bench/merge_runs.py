"""Runs of the program in which lists are merged, for bench/merge_beside_sqlite, bench/merge_pages and
bench/merge_limits.

From the environment: WB is the program, ./wb of this repository where it is not set; FOLDER is where files are made,
bench/out where it is not set (in a folder in memory a sync costs nothing).
"""
import os
import shutil
import sqlite3
import subprocess
import sys
import time
from pathlib import Path

ROOT = Path(__file__).resolve().parent.parent
WB = os.path.abspath(os.environ.get("WB", ROOT / "wb"))
MADE = ROOT / "bench" / "out"
COUNT = 20000
ARCHS = ("amd64", "arm64", "armhf")
CPUS = {"armhf": "arm", "armel": "arm"}  # the processor's word, where it is not the name
PRIORITIES = ("required", "important", "standard", "optional", "extra")
SECTIONS = ("libs", "devel", "admin", "utils", "text", "net")


class Program:
    """A running program that answers each line with one, in this folder, where its messages go to a file."""

    def __init__(self, words, folder):
        self.messages = Path(folder) / "messages"
        with open(self.messages, "ab") as messages:
            self.process = subprocess.Popen(
                words, cwd=folder, stdin=subprocess.PIPE, stdout=subprocess.PIPE, stderr=messages
            )
        self.of = Path(f"/proc/{self.process.pid}")

    def ask(self, line):
        """The answer to the line, with the seconds by the clock and of the processor, user and system, that it took."""
        at, before = time.perf_counter(), self.spent()
        self.process.stdin.write(f"{line}\n".encode())
        self.process.stdin.flush()
        answer = self.process.stdout.readline().decode()
        if not answer:
            self.fail(f"and no answer to {line[:200]}")
        return answer, time.perf_counter() - at, self.spent() - before

    def spent(self):
        return int((self.of / "schedstat").read_text().split()[0]) / 1e9

    def user(self):
        """Seconds of the processor so far, without those of the system, in hundredths."""
        fields = (self.of / "stat").read_text().rpartition(")")[2].split()
        return int(fields[11]) / os.sysconf("SC_CLK_TCK")

    def memory(self):
        """Resident memory in MB, now and at its peak."""
        fields = dict(line.split(":", 1) for line in (self.of / "status").read_text().splitlines())
        return tuple(int(fields[name].split()[0]) / 1024 for name in ("VmRSS", "VmHWM"))

    def end(self):
        self.process.stdin.close()
        if self.process.wait() not in (0, 1):
            self.fail("")

    def fail(self, more):
        said = self.messages.read_text(errors="replace")[-500:]
        sys.exit(f"{sys.argv[0]}: {self.process.args[0]} ended with {self.process.wait()} {more}\n{said}")

    def kill(self):
        self.process.kill()
        self.process.wait()


class Lists:
    """A Sources list, and the Packages list of each architecture."""

    def __init__(self, sources, packages):
        self.sources, self.packages = sources, packages

    def add_lines(self):
        return [f"add-arch {arch} linux {CPUS.get(arch, arch)}" for arch in self.packages]

    def merge_line(self):
        return f"merge {self.sources} " + " ".join(f"{arch}={path}" for arch, path in self.packages.items())

    def size(self):
        """All lists together, in MB."""
        return sum(os.path.getsize(path) for path in (self.sources, *self.packages.values())) / 1e6


def lists_of(words, folder):
    """The lists that these words name, SOURCES and then ARCH=PACKAGES for each part, or lists that are made in the
    folder if there are no words."""
    if not words:
        return make_lists(folder)
    parts = [word.partition("=") for word in words[1:]]
    if not parts or not all(arch and path for arch, _, path in parts):
        sys.exit(f"{sys.argv[0]}: give SOURCES and an ARCH=PACKAGES for each architecture, or --help")
    return Lists(os.path.abspath(words[0]), {arch: os.path.abspath(path) for arch, _, path in parts})


def make_lists(folder, count=COUNT):
    """Lists of so many source packages, of which two of three are built, in two packages each, and some in an earlier
    version."""
    sources, packages = [], []
    for at in range(count):
        number = at * 7919 % count
        source, version = f"source-{number:06d}", f"1.{number % 31}-{number % 4 + 1}"
        depends = (
            f"debhelper-compat (= 13), lib-{number % 500} (>= 1.2) [linux-any],\n"
            " libz-dev | zlib1g-dev, doxygen <!nodoc>"
        )
        sources.append(
            f"Package: {source}\nVersion: {version}\nMaintainer: Some Body <body@example.org>\n"
            f"Build-Depends: {depends}\n"
        )
        priority, section = PRIORITIES[number % 5], SECTIONS[number // 5 % 6]
        sources[-1] += f"Architecture: any\nStandards-Version: 4.6.2\nPriority: {priority}\nSection: {section}\n\n"
        if number % 3:
            built = version if number % 7 else "0.1-1"
            packages.append(f"Package: {source}\nVersion: {built}\nArchitecture: ARCH\nDescription: a package\n\n")
            packages.append(
                f"Package: lib{source}\nSource: {source} ({built})\nVersion: {built}+b{number % 5 + 1}\n"
                "Architecture: ARCH\n\n"
            )
        packages.append(
            f"Package: {source}-doc\nSource: {source}\nVersion: {version}\nArchitecture: all\n"
            "Description: its documents\n\n"
        )
    made = Lists(str(folder / "Sources"), {arch: str(folder / f"Packages-{arch}") for arch in ARCHS})
    Path(made.sources).write_text("".join(sources))
    for arch, path in made.packages.items():
        Path(path).write_text("".join(packages).replace("ARCH", arch))
    return made


def empty_folder(name):
    """An empty folder of this name among what is made."""
    folder = Path(os.environ.get("FOLDER", MADE)).resolve() / name
    shutil.rmtree(folder, ignore_errors=True)
    folder.mkdir(parents=True)
    return folder


def build():
    """Has ./wb build the program if need be."""
    MADE.mkdir(parents=True, exist_ok=True)
    subprocess.run([WB, "run"], stdin=subprocess.DEVNULL, check=False)


def run_over(folder, file):
    return Program([WB, "--store", file, "run"], folder)


def ask_all(program, lines):
    """Asks lines of which none may be refused."""
    for line in lines:
        answer = program.ask(line)[0]
        if '"accepted"' not in answer:
            sys.exit(f"{sys.argv[0]}: {line} is answered {answer}")


def records_of(file):
    with sqlite3.connect(f"file:{file}?mode=ro", uri=True) as database:
        return database.execute("SELECT * FROM source_record ORDER BY arch, source").fetchall()


def help_if_asked(words, text):
    if any(word in ("-h", "--help") for word in words):
        print(text.strip())
        sys.exit(0)
