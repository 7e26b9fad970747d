#!/usr/bin/env python3
"""Tests of how a merge reads its lists: all are opened before the office is asked, in the order of the words, and are
read as streams while it merges. Lists that cannot be opened, lists of which a read fails, named pipes and writers of
these that end early, and lists larger than the memory that there is. Each merge is tried as a line of a run and as
words of the program, each over a file of its own.

    tools/tests/test_merge_reads.py [NAME..]     these tests, or all

From the environment: WB is the program, ./wb of this repository where it is not set. All that is wanted was written by
hand from docs/PROTOCOL.md, none by the program. A read that fails in the middle of a list needs strace.
"""
import contextlib
import fcntl
import gzip
import json
import os
import resource
import shutil
import signal
import socket
import struct
import subprocess
import sys
import termios
import threading
import time

from harness import ROOT, WAIT, WB, LeftOut, answers_of, expect, main, run
from store_runs import rows_of

FILE_FAULT = '{"fault":"file"}'
BAD_NAME, UNKNOWN_ARCH, REPEATED_ARCH = (
    '{"code":11,"refused":"BadName"}', '{"code":1,"refused":"UnknownArch"}', '{"code":22,"refused":"RepeatedArch"}',
)
BEGIN = ["add-arch amd64 linux amd64", "add-arch arm64 linux arm64"]
ROWS = "SELECT * FROM source_record ORDER BY arch, source"


def source(name, version="1.0"):
    return f"Package: {name}\nVersion: {version}\nArchitecture: any\n\n"


def package(name, arch, version="1.0"):
    return f"Package: {name}\nVersion: {version}\nArchitecture: {arch}\n\n"


# The lists in the folder above that of an office, by their names.
LISTS = {
    "sources": source("aa") + source("bb"),
    "fewer": source("aa"),
    "packages": package("aa", "amd64") + package("bb", "amd64"),
    "others": package("bb", "arm64"),
    "bad": package("aa", "amd64") + "Package: bb\nArchitecture: amd64\n",
    "none": "",
}


def fault(which, kind="Read", paragraph=1, **more):
    return {"code": 15, "fault": kind, **more, "paragraph": paragraph, "refused": "BadListing", "which": which}


def part(arch, **counts):
    return {"added": 0, "arch": arch, "changed": 0, "kept": 0, "removed": 0, **counts}


def refused_part(arch, **refusal):
    return dict(sorted({"arch": arch, **refusal}.items()))


def text(answer):
    return answer if isinstance(answer, str) else json.dumps(answer, separators=(",", ":"))


def merged(accepted, *parts):
    return {"accepted": accepted, "ok": "merge", "parts": list(parts)}


# ---- offices that are asked


def by_line(folder, line, limit=None):
    status, said = run(folder, [line], prepare=limit)
    return status, said.decode().rstrip("\n")


def by_words(folder, line, limit=None):
    words = [WB, "--store", "store", *line.split()]
    try:
        done = subprocess.run(
            words, cwd=folder, stdin=subprocess.DEVNULL, capture_output=True, timeout=WAIT, preexec_fn=limit,
            check=False,
        )
    except subprocess.TimeoutExpired:
        expect(False, f"{line} as words did not end in {WAIT} seconds")
    return done.returncode, done.stdout.decode().rstrip("\n")


class Offices:
    """Two offices after the same lines, of which one is asked by lines and the other by words of the program. Lists
    stand in the folder above."""

    def __init__(self, folder, lines):
        self.above = folder
        self.ways = [(folder / "lines", by_line), (folder / "words", by_words)]
        for name, content in LISTS.items():
            (folder / name).write_text(content)
        (folder / "folder").mkdir()
        for office, _ in self.ways:
            office.mkdir()
            answers_of(office, lines)

    def ask(self, line, wanted, status, pipes=None, limit=None):
        """Asks both, with these named pipes, and expects this answer of both."""
        for office, way in self.ways:
            with Pipes(self.above, pipes or {}):
                met = way(office, line, limit)
            expect(met == (status, text(wanted)), f"{line}, {way.__name__}: {met} in place of {(status, text(wanted))}")

    def state(self):
        """The rows of the records and the count of accepted commands, which are the same in both."""
        states = [(rows_of(office, ROWS), rows_of(office, "SELECT accepted FROM office")) for office, _ in self.ways]
        expect(states[0] == states[1], f"the two offices differ: {states}")
        return states[0]

    def names(self, arch):
        return [row[1] for row in self.state()[0] if row[0] == arch]


class Pipes:
    """Named pipes in a folder, each with a thread that opens it by itself and writes these bytes into it, at once or
    one by one."""

    def __init__(self, folder, texts, by_bytes=False):
        self.paths = [
            (folder / name, content if isinstance(content, bytes) else content.encode())
            for name, content in texts.items()
        ]
        self.by_bytes, self.writers = by_bytes, []

    def __enter__(self):
        for path, data in self.paths:
            os.mkfifo(path)
            writer = threading.Thread(target=self.write, args=(path, data), daemon=True)
            writer.start()
            self.writers.append(writer)

    def write(self, path, data):
        with contextlib.suppress(BrokenPipeError), open(path, "wb", buffering=0) as pipe:
            for piece in [data[at : at + 1] for at in range(len(data))] if self.by_bytes else [data]:
                pipe.write(piece)
                while self.by_bytes and in_pipe(pipe):
                    time.sleep(0.0001)

    def __exit__(self, *_):
        for (path, _), writer in zip(self.paths, self.writers):
            while writer.is_alive():  # whoever waits for a reader is let go
                os.close(os.open(path, os.O_RDONLY | os.O_NONBLOCK))
                writer.join(0.01)
            path.unlink()


def in_pipe(pipe):
    """How many bytes of a pipe are not read yet."""
    return struct.unpack("i", fcntl.ioctl(pipe, termios.FIONREAD, bytes(4)))[0]


# ---- lists that cannot be opened

# Names that cannot be opened, in the place of Sources and of a Packages list: a file that is not there, one below a
# file, and a socket.
UNOPENED = ["nowhere", "sources/x", "socket"]


def takes_a_list_that_cannot_be_opened_for_a_file_fault(folder):
    """It is found before the office is asked, whatever else is wrong; nothing is changed, and a run goes on."""
    offices = Offices(folder, [*BEGIN, "merge ../sources amd64=../packages"])
    before = offices.state()
    with socket.socket(socket.AF_UNIX) as bound:
        bound.bind(str(folder / "socket"))
        lines = [
            line
            for name in UNOPENED
            for line in (f"merge ../{name} amd64=../packages", f"merge ../fewer amd64=../{name}")
        ]
        lines += [
            "merge ../fewer amd64=../packages arm64=../nowhere", "merge ../folder amd64=../nowhere",
            "merge ../fewer all=../nowhere",
        ]
        lines += [
            "merge ../nowhere amd64=../packages amd64=../packages", "merge ../fewer armhf=../nowhere",
            "merge ../nowhere amd64=../bad",
        ]
        for line in lines:
            offices.ask(line, FILE_FAULT, 3)
        status, said = run(folder / "lines", [lines[0], "merge ../sources amd64=../packages"])
    wanted = f"{FILE_FAULT}\n{text(merged(4, part('amd64', kept=2)))}\n"
    expect((status, said.decode()) == (3, wanted), f"a run after a file fault: {status}, {said}")
    answers_of(folder / "words", ["merge ../sources amd64=../packages"])
    expect(offices.state()[0] == before[0], f"the records are {offices.state()} in place of {before}")
    return f"{len(lines)} lines"


def names_the_list_that_cannot_be_opened(folder):
    """On standard error, with the system's reason."""
    offices = Offices(folder, BEGIN)
    for line, name in (
        ("merge ../nowhere amd64=../gone", "../nowhere"),
        ("merge ../sources amd64=../packages arm64=../gone", "../gone"),
    ):
        for words, given in (([*line.split()], ""), (["run"], f"{line}\n")):
            words = [WB, "--store", "store", *words]
            done = subprocess.run(
                words, cwd=folder / "lines", input=given, text=True, capture_output=True, timeout=WAIT, check=False
            )
            expect(
                done.stderr.startswith(f"wb: {name}: ") and done.stderr.count("\n") == 1,
                f"{line}: it says {done.stderr!r}",
            )
    expect(offices.state()[0] == [], "there are records")


def opens_lists_in_the_order_of_the_words(folder):
    """A pipe after a list that cannot be opened is not opened: it has no writer, for whom the program would wait."""
    offices = Offices(folder, BEGIN)
    os.mkfifo(folder / "pipe")
    offices.ask("merge ../nowhere amd64=../pipe", FILE_FAULT, 3)
    offices.ask("merge ../sources amd64=../nowhere arm64=../pipe", FILE_FAULT, 3)


def leaves_pipes_unread_if_another_list_cannot_be_opened(folder):
    """What stands in the pipes before it is still there."""
    offices = Offices(folder, BEGIN)
    with contextlib.ExitStack() as stack:
        pipes = {}
        for name in ("first", "second"):
            os.mkfifo(folder / name)
            pipes[name] = os.open(folder / name, os.O_RDWR)  # so that opening it waits for nobody
            stack.callback(os.close, pipes[name])
            os.write(pipes[name], LISTS["sources"].encode())
        for line in (
            "merge ../first amd64=../nowhere", "merge ../sources amd64=../first arm64=../nowhere",
            "merge ../first amd64=../second arm64=../nowhere",
        ):
            offices.ask(line, FILE_FAULT, 3)
            left = [in_pipe(pipe) for pipe in pipes.values()]
            expect(left == [len(LISTS["sources"])] * 2, f"{line}: {left} bytes are left in the pipes")


# ---- lists that are not read, and lists that are not read on


@contextlib.contextmanager
def open_pipe(path, front):
    """A named pipe of which so much was written and which nobody ends: who reads on waits for ever."""
    os.mkfifo(path)
    pipe = os.open(path, os.O_RDWR)  # so that opening it waits for nobody
    try:
        os.write(pipe, front)
        yield pipe
    finally:
        os.close(pipe)
        path.unlink()


def leaves_the_list_of_an_unknown_architecture_unread(folder):
    """What stands in its pipe is still there, and nobody waits for the rest of it."""
    offices = Offices(folder, BEGIN)
    front = LISTS["packages"].encode()
    with open_pipe(folder / "pipe", front) as pipe:
        offices.ask("merge ../sources armhf=../pipe", UNKNOWN_ARCH, 1)
        unknown = refused_part("armhf", code=1, refused="UnknownArch")
        offices.ask("merge ../sources armhf=../pipe amd64=../packages", merged(3, unknown, part("amd64", added=2)), 0)
        expect(in_pipe(pipe) == len(front), f"{in_pipe(pipe)} bytes of {len(front)} are left in the pipe")


# A first paragraph with a fault, by the name of the fault.
FAULTY = {
    "NotUtf8": b"Package: a\xff\n\n",
    "Orphan": b" aa\n\n",
    "NoColon": b"Package\n\n",
    "BadName": b"Pack age: aa\n\n",
    "Duplicate": b"Package: aa\nPackage: aa\n\n",
}


def reads_no_more_after_a_fault(folder):
    """Nobody waits for what stands after a paragraph with a fault."""
    offices = Offices(folder, BEGIN)
    lines = [("merge ../sources amd64=../pipe", "Packages"), ("merge ../pipe amd64=../packages", "Sources")]
    for kind, front in FAULTY.items():
        for line, which in lines:
            for office, way in offices.ways:
                with open_pipe(folder / "pipe", front):
                    met = way(office, line)
                expect(met == (1, text(fault(which, kind))), f"{kind}, {line}, {way.__name__}: {met}")


# ---- lists of which a read fails

# Merges of which no part is merged, and their refusals. A folder can be opened, and a read of it fails.
REFUSED = [
    ("merge ../sources amd64=../folder", fault("Packages")),
    ("merge ../folder amd64=../packages", fault("Sources")),
    ("merge ../folder amd64=../folder", fault("Sources")),
    ("merge ../folder amd64=../packages arm64=../others", fault("Sources")),
    ("merge ../sources amd64=../folder arm64=../folder", fault("Packages")),
    ("merge /proc/self/mem amd64=../packages", fault("Sources")),
    ("merge ../sources amd64=/proc/self/mem", fault("Packages")),
    ("merge ../bad amd64=../folder", fault("Sources", "Missing", 2, field="Version")),
    ("merge ../folder amd64=../bad", fault("Sources")),
    ("merge ../sources amd64=../bad arm64=../folder", fault("Packages", "Missing", 2, field="Version")),
    ("merge ../sources amd64=../folder arm64=../bad", fault("Packages")),
    ("merge ../folder armhf=../packages", UNKNOWN_ARCH),
    ("merge ../sources armhf=../folder", UNKNOWN_ARCH),
    ("merge ../folder armhf=../packages amd64=../packages", UNKNOWN_ARCH),
    ("merge ../folder amd64=../folder amd64=../folder", REPEATED_ARCH),
    ("merge ../folder all=../folder", BAD_NAME),
]


def refuses_lists_of_which_a_read_fails(folder):
    """The office refuses the part, or all parts for Sources; nothing is changed, and no command is counted."""
    offices = Offices(folder, [*BEGIN, "merge ../sources amd64=../packages arm64=../none"])
    before = offices.state()
    for line, wanted in REFUSED:
        offices.ask(line, wanted, 1)
        expect(offices.state() == before, f"{line}: kept is {offices.state()} in place of {before}")
    return f"{len(REFUSED)} lines"


def merges_the_other_parts(folder):
    """A part of which a read fails stands in the answer with its refusal, and its records stay."""
    offices = Offices(folder, [*BEGIN, "merge ../sources amd64=../packages arm64=../others"])
    failed = fault("Packages")
    cases = [
        (
            "merge ../fewer amd64=../packages arm64=../folder",
            [part("amd64", kept=1, removed=1), refused_part("arm64", **failed)], ["aa"], ["aa", "bb"],
        ),
        (
            "merge ../sources amd64=../folder arm64=../none",
            [refused_part("amd64", **failed), part("arm64", changed=1, kept=1)], ["aa"], ["aa", "bb"],
        ),
        (
            "merge ../none armhf=../folder amd64=../folder arm64=../none",
            [
                refused_part("armhf", code=1, refused="UnknownArch"), refused_part("amd64", **failed),
                part("arm64", removed=2),
            ],
            ["aa"],
            [],
        ),
        ("merge ../sources amd64=../packages arm64=../bad", [part("amd64", added=1, kept=1), None], ["aa", "bb"], []),
    ]
    for at, (line, parts, *names) in enumerate(cases):
        parts = [one or refused_part("arm64", **fault("Packages", "Missing", 2, field="Version")) for one in parts]
        offices.ask(line, merged(4 + at, *parts), 0)
        met = [offices.names("amd64"), offices.names("arm64")]
        expect(met == names, f"{line}: there are {met} in place of {names}")
    return f"{len(cases)} lines"


def traced(folder, path, at):
    """The answer to a merge of which the read of this number of this list fails, by strace, or none if strace does not
    work here."""
    rule = f"inject=read:error=EIO:when={at}"
    words = [
        "strace", "-f", "-o", "/dev/null", "-P", str(path), "-e", "trace=read", "-e", rule, WB, "--store", "store",
        "merge", "../sources",
    ]
    done = subprocess.run(
        [*words, f"amd64={path}", "arm64=../others"], cwd=folder, capture_output=True, timeout=WAIT, check=False
    )
    return None if b"strace: " in done.stderr else json.loads(done.stdout)


def takes_back_what_was_read_before_a_read_failed(folder):
    """The paragraph is the one that was being read; what was kept of those before it is taken back, and the other part
    is merged."""
    if not shutil.which("strace"):
        raise LeftOut("strace is not installed, by which a read fails")
    offices = Offices(folder, [*BEGIN, "merge ../sources amd64=../packages arm64=../others"])
    before = offices.names("amd64")
    office, path = folder / "words", folder / "long"
    path.write_text("".join(package(f"p{at}", "amd64", "2.0") for at in range(2000)))
    for at in (1, 2, 5):
        answer = traced(office, path, at)
        if not answer:
            raise LeftOut("strace does not work here")
        failed, good = answer["parts"]
        expect((failed["fault"], failed["which"]) == ("Read", "Packages"), f"read {at}: {answer}")
        expect((failed["paragraph"] == 1) == (at == 1) and failed["paragraph"] <= 2000, f"read {at}: {answer}")
        expect(good == part("arm64", kept=2), f"read {at}: {answer}")
        rows = [row[1] for row in rows_of(office, ROWS) if row[0] == "amd64"]
        expect(rows == before, f"read {at}: the records are {rows}")
    return None


# ---- pipes


def reads_lists_from_pipes(folder):
    """Whatever their pieces are, the answers and the rows are those of the same lists in files."""
    offices = Offices(folder, BEGIN)
    pipes = {"pipe-s": LISTS["sources"], "pipe-a": LISTS["packages"], "pipe-b": LISTS["others"]}
    offices.ask(
        "merge ../pipe-s amd64=../pipe-a arm64=../pipe-b", merged(3, part("amd64", added=2), part("arm64", added=2)), 0,
        pipes,
    )
    rows = offices.state()[0]
    answers_of(folder, [*BEGIN, "merge sources amd64=packages arm64=others"])
    expect(rows == rows_of(folder, ROWS), "the rows are others than from files")
    wanted = merged(4, part("amd64", kept=2), part("arm64", kept=2))
    for office, way in offices.ways:
        with Pipes(folder, pipes, by_bytes=True):
            met = way(office, "merge ../pipe-s amd64=../pipe-a arm64=../pipe-b")
        expect(met == (0, text(wanted)), f"byte by byte, {way.__name__}: {met}")
    offices.ask(
        "merge ../pipe-s amd64=../packages arm64=../others", merged(5, part("amd64", kept=2), part("arm64", kept=2)), 0,
        {"pipe-s": LISTS["sources"]},
    )
    offices.ask(
        "merge ../sources amd64=../pipe-a", merged(6, part("amd64", changed=1, kept=1)), 0,
        {"pipe-a": package("bb", "amd64")},
    )


def reads_lists_from_other_programs(folder):
    """By a shell's `<(..)`, and from its own standard input."""
    for name in ("sources", "packages"):
        (folder / f"{name}.gz").write_bytes(gzip.compress(LISTS[name].encode()))
    answers_of(folder, BEGIN)
    for command, parts in (
        ('"$WB" --store store merge <(gzip -dc sources.gz) amd64=<(gzip -dc packages.gz)', part("amd64", added=2)),
        (
            'gzip -dc packages.gz | "$WB" --store store merge <(gzip -dc sources.gz) amd64=/dev/stdin',
            part("amd64", kept=2),
        ),
    ):
        done = subprocess.run(
            ["bash", "-c", command], cwd=folder, env={**os.environ, "WB": WB}, capture_output=True, timeout=WAIT,
            check=False,
        )
        accepted = 3 if parts["added"] else 4
        expect(
            (done.returncode, done.stdout.decode()) == (0, text(merged(accepted, parts)) + "\n"), f"{command}: {done}"
        )


def piped(line, folder, pipes):
    """A line in which a named pipe of its own stands for each file that a merge names, and is added to these pipes."""
    head, *words = line.split()
    for at, word in enumerate(words if head == "merge" else []):
        front, equals, name = word.rpartition("=")
        if (folder / name).is_file():
            pipe = f"pipe-{len(pipes)}"
            pipes[pipe] = (folder / name).read_bytes()
            words[at] = f"{front}{equals}{pipe}"
    return " ".join([head, *words]) if head == "merge" else line


def answers_the_examples_through_pipes(folder):
    """Each example with a merge, with a pipe in the place of each list, has the answers that are stated for it."""
    examples = [path.parent for path in sorted((ROOT / "examples").glob("*/lines")) if b"\nmerge " in path.read_bytes()]
    for example in examples:
        place, pipes = folder / example.name, {}
        shutil.copytree(example, place)
        lines = [
            piped(line, place, pipes) if line.split() else line
            for line in (example / "lines").read_bytes().decode().split("\n")
        ]
        with Pipes(place, pipes):
            status, said = run(place, "\n".join(lines).encode())
        met = [
            line
            for line, wanted in zip(said.splitlines(), (example / "answers").read_bytes().splitlines())
            if line != wanted
        ]
        expect(
            not met and status == int((example / "status").read_text()),
            f"{example.name}: status {status}, these answers are others: {met[:3]}",
        )
        expect(
            said.count(b"\n") == (example / "answers").read_bytes().count(b"\n"),
            f"{example.name}: {len(said.splitlines())} answers",
        )
    return f"{len(examples)} examples"


# A list that is cut off after so many bytes, as by a writer that ends early, and the answer to its merge as Packages of
# amd64.
CUT = package("aa", "amd64") + package("bb", "amd64")
CUTS = [
    (0, [part("amd64", changed=2)]),
    (len("Package: a"), fault("Packages", "BadValue", 1, field="Package")),
    (len("Package: aa\n"), fault("Packages", "Missing", 1, field="Version")),
    (CUT.index("Architecture"), fault("Packages", "Missing", 1, field="Architecture")),
    (CUT.index("\n\n") + 2, [part("amd64", changed=1, kept=1)]),
    (CUT.index("\n\n") + len("\n\nPac"), fault("Packages", "NoColon", 2)),
    (len(CUT) - 2, [part("amd64", kept=2)]),
    (len(CUT), [part("amd64", kept=2)]),
]


def takes_the_end_of_a_pipe_for_the_end_of_the_list(folder):
    """Also if its writer was killed: what came counts as the whole list, as if a file were cut off there."""
    for size, wanted in CUTS:
        for is_killed in (False, True):
            place = folder / f"{size}-{is_killed}"
            place.mkdir()
            offices = Offices(place, [*BEGIN, "merge ../sources amd64=../packages"])
            if is_killed:
                met = [killed_early(place, office, way, CUT[:size]) for office, way in offices.ways]
                answer = text(merged(4, *wanted)) if isinstance(wanted, list) else text(wanted)
                expect(
                    met == [(0 if isinstance(wanted, list) else 1, answer)] * 2,
                    f"{size} bytes of a writer that was killed: {met}",
                )
            elif isinstance(wanted, list):
                offices.ask("merge ../sources amd64=../pipe", merged(4, *wanted), 0, {"pipe": CUT[:size]})
            else:
                offices.ask("merge ../sources amd64=../pipe", wanted, 1, {"pipe": CUT[:size]})
                expect(offices.state()[1] == [(3,)], f"{size} bytes: a refused merge was counted")
    return f"{len(CUTS)} cuts"


def killed_early(folder, office, way, front):
    """The answer to a merge of a pipe whose writer is killed once it has written this."""
    pipe = folder / "pipe"
    os.mkfifo(pipe)
    code = (
        "import os, signal, sys; pipe = open(sys.argv[1], 'wb', 0); pipe.write(sys.argv[2].encode()); "
        "os.kill(os.getpid(), signal.SIGKILL)"
    )
    with subprocess.Popen([sys.executable, "-I", "-c", code, str(pipe), front]) as writer:
        met = way(office, "merge ../sources amd64=../pipe")
        expect(writer.wait(timeout=WAIT) == -signal.SIGKILL, "the writer was not killed")
    pipe.unlink()
    return met


# ---- lists that are larger than the memory

MEMORY = 64 << 20


def limited():
    resource.setrlimit(resource.RLIMIT_AS, (MEMORY, MEMORY))


def needs_no_memory_for_whole_lists(folder):
    """Lists of 100 MB each, in 64 MB of address space."""
    offices = Offices(folder, BEGIN)
    rest = f"Description: {'x' * 50000}\n"
    (folder / "large").write_text(
        "".join(package(f"p{at}", "all")[:-1] + f"{rest}\n" for at in range(2000)) + package("aa", "amd64")
    )
    (folder / "large-sources").write_text(
        "".join(source(f"s{at}").replace("any", "all")[:-1] + f"{rest}\n" for at in range(2000)) + source("aa")
    )
    offices.ask("merge ../large-sources amd64=../large", merged(3, part("amd64", added=1)), 0, limit=limited)
    offices.ask(
        "merge ../large-sources amd64=../large arm64=../large",
        merged(4, part("amd64", kept=1), part("arm64", added=1)), 0, limit=limited,
    )


def refuses_a_list_without_end(folder):
    """A paragraph that has no end is too large, and no more of it is read."""
    offices = Offices(folder, BEGIN)
    offices.ask("merge ../sources amd64=/dev/zero", fault("Packages", "TooLarge"), 1, limit=limited)
    offices.ask("merge /dev/zero amd64=../packages", fault("Sources", "TooLarge"), 1, limit=limited)


TESTS = [
    takes_a_list_that_cannot_be_opened_for_a_file_fault,
    names_the_list_that_cannot_be_opened,
    opens_lists_in_the_order_of_the_words,
    leaves_pipes_unread_if_another_list_cannot_be_opened,
    leaves_the_list_of_an_unknown_architecture_unread,
    reads_no_more_after_a_fault,
    refuses_lists_of_which_a_read_fails,
    merges_the_other_parts,
    takes_back_what_was_read_before_a_read_failed,
    reads_lists_from_pipes,
    reads_lists_from_other_programs,
    answers_the_examples_through_pipes,
    takes_the_end_of_a_pipe_for_the_end_of_the_list,
    needs_no_memory_for_whole_lists,
    refuses_a_list_without_end,
]

if __name__ == "__main__":
    sys.exit(main(TESTS))
