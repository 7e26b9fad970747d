#!/usr/bin/env python3
"""Tests of the journal that `wb run` and `wb serve` keep with --journal: which commands have an entry and what it says,
the same answers as without one, a journal that cannot be written, one that ends within a line, one that is moved away,
and kills.

    tools/tests/test_journal.py [NAME..]     these tests, or all

From the environment: WB is the program, ./wb of this repository where it is not set.
"""
import datetime
import http.client
import json
import os
import re
import signal
import socket
import subprocess
import sys
import time

from harness import WAIT, WB, expect, limit_files, main
from store_runs import rows_of

SOURCES = (
    "Package: hello\nVersion: 2.0\nArchitecture: any\nPriority: optional\nSection: devel\n\nPackage: new\nVersion: 2\n"
    "Architecture: any\n"
)
TIME = re.compile(r"\d{4}-\d\d-\d\dT\d\d:\d\d:\d\dZ")

# Lines, each with the command of its entry, or None if it has none: a refusal, a query, a retry, a blank line.
LINES = [
    ("add-arch amd64 linux amd64", {"command": "add-arch", "cpu": "amd64", "name": "amd64", "os": "linux"}),
    ("add-arch amd64 linux amd64", None),
    ("add-builder b1 amd64", {"arch": "amd64", "command": "add-builder", "name": "b1"}),
    ("", None),
    (
        "enter amd64 hello 1.0 optional devel",
        {
            "arch": "amd64", "command": "enter", "priority": "optional", "section": "devel", "source": "hello",
            "version": "1.0",
        },
    ),
    (
        "build-priority amd64 hello 1.0 -- -50",
        {"arch": "amd64", "command": "build-priority", "source": "hello", "value": -50, "version": "1.0"},
    ),
    ("queue amd64", None),
    ("next amd64 b1", {"after": None, "arch": "amd64", "builder": "b1", "command": "next"}),
    ("next amd64 b1 --after 0", None),
    ("put-back 1", {"command": "put-back", "take": 1}),
    ("next amd64 b1 --after 1", {"after": 1, "arch": "amd64", "builder": "b1", "command": "next"}),
    ("waits 2 libc6 (>= 2.36)", {"command": "waits", "relations": "libc6 (>= 2.36)", "take": 2}),
    ("give-back amd64 hello 1.0", {"arch": "amd64", "command": "give-back", "source": "hello", "version": "1.0"}),
    (
        "take amd64 b1 hello 1.0",
        {"arch": "amd64", "builder": "b1", "command": "take", "source": "hello", "version": "1.0"},
    ),
    ('attempted 3 a "test" failed \\ é', {"command": "attempted", "reason": 'a "test" failed \\ é', "take": 3}),
    (
        "dep-wait amd64 hello 1.0 libc6",
        {"arch": "amd64", "command": "dep-wait", "relations": "libc6", "source": "hello", "version": "1.0"},
    ),
    ("fail amd64 hello 1.0", {"arch": "amd64", "command": "fail", "note": "", "source": "hello", "version": "1.0"}),
    (
        "not-for-us amd64 hello 1.0 no",
        {"arch": "amd64", "command": "not-for-us", "note": "no", "source": "hello", "version": "1.0"},
    ),
    ("give-back amd64 hello 1.0", {"arch": "amd64", "command": "give-back", "source": "hello", "version": "1.0"}),
    ("next amd64 b1", {"after": None, "arch": "amd64", "builder": "b1", "command": "next"}),
    ("built 4", {"command": "built", "take": 4}),
    ("uploaded 4", {"command": "uploaded", "take": 4}),
    ("built 4", None),
    (
        "merge Sources amd64=Packages armhf=Packages",
        {
            "command": "merge",
            "parts": [
                {
                    "arch": "amd64",
                    "changes": [["hello", "Uploaded", "Needs-Build", "2.0"], ["new", None, "Needs-Build", "2"]],
                },
                {"arch": "armhf"},
            ],
        },
    ),
    ("merge Sources armhf=Packages", None),
    (
        "report amd64 report",
        {
            "arch": "amd64", "bytes": 33, "changes": [["new", "Needs-Build", "BD-Uninstallable", "2"]],
            "command": "report",
        },
    ),
    (
        "merge Sources amd64=Installed",
        {
            "command": "merge",
            "parts": [{"arch": "amd64", "changes": [["hello", "Needs-Build", "Installed", "2.0"]]}],
        },
    ),
    ("merge Sources amd64=Installed", {"command": "merge", "parts": [{"arch": "amd64", "changes": []}]}),
    ("report amd64 empty", {"arch": "amd64", "bytes": 0, "changes": [], "command": "report"}),
    (
        "rebuild amd64 hello 2.0 1 new libc",
        {
            "arch": "amd64", "command": "rebuild", "message": "new libc", "number": 1, "source": "hello",
            "version": "2.0",
        },
    ),
    ("summary amd64", None),
    (
        "forget amd64 hello 2.0",
        {"arch": "amd64", "command": "forget", "source": "hello", "version": "2.0"},
    ),
    ("forget amd64 hello 2.0", None),
    ("remove-builder b1 amd64", {"arch": "amd64", "command": "remove-builder", "name": "b1"}),
    ("remove-builder b1 amd64", None),
    ("remove-arch amd64", {"command": "remove-arch", "name": "amd64"}),
    ("remove-arch amd64", None),
]


def fill(folder):
    (folder / "Sources").write_text(SOURCES)
    (folder / "Packages").write_text("")
    (folder / "Installed").write_text("Package: hello\nVersion: 2.0\nArchitecture: amd64\n")
    (folder / "report").write_text("new 2 uninstallable libfoo is no\n")
    (folder / "empty").write_text("")


def program(folder, *words, lines=(), prepare=None):
    """The status, standard output and standard error of a run."""
    text = "".join(f"{line}\n" for line in lines).encode()
    done = subprocess.run(
        [WB, *words], cwd=folder, input=text, capture_output=True, timeout=WAIT, preexec_fn=prepare, check=False
    )
    return done.returncode, done.stdout.decode(), done.stderr.decode()


def entries_of(path):
    text = path.read_text()
    expect(text.endswith("\n"), f"the journal ends in {text[-50:]!r}")
    return [json.loads(line) for line in text.splitlines() if line]


def expect_entries(found, wanted, answers):
    """`wanted` are the commands with their answers, in order."""
    expect(len(found) == len(wanted), f"{len(found)} entries, {len(wanted)} are wanted")
    for entry, command, answer in zip(found, wanted, answers):
        expect(sorted(entry) == ["accepted", "answer", "command", "time"], f"{entry}: other keys")
        expect(entry["command"] == command, f"{entry['command']} stands where {command} is wanted")
        expect(entry["answer"] == answer, f"{entry['answer']} stands where {answer} is wanted")
        expect(entry["accepted"] == answer["accepted"], f"{entry}: another count")
        expect(TIME.fullmatch(entry["time"]), f"no time: {entry['time']}")


# ---- a run


def has_an_entry_for_each_accepted_command(folder):
    fill(folder)
    began = datetime.datetime.now(datetime.timezone.utc).replace(microsecond=0)
    status, said, _ = program(folder, "--store", "store", "run", "--journal", "log", lines=[line for line, _ in LINES])
    ended = datetime.datetime.now(datetime.timezone.utc)
    expect(status == 1, f"status {status}")
    answers = [json.loads(line) for line in said.splitlines()]
    asked = [(line, command) for line, command in LINES if line]
    expect(len(answers) == len(asked), f"{len(answers)} answers to {len(asked)} lines: {said[-200:]}")
    wanted = [(command, answer) for (_, command), answer in zip(asked, answers) if command is not None]
    for (line, command), answer in zip(asked, answers):
        is_accepted = "ok" in answer and answer["ok"] not in ("again",)
        expect(is_accepted == (command is not None), f"{line}: {answer}")
    found = entries_of(folder / "log")
    expect_entries(found, [command for command, _ in wanted], [answer for _, answer in wanted])
    expect([entry["accepted"] for entry in found] == list(range(1, len(found) + 1)), "the counts have gaps")
    for entry in found:
        at = datetime.datetime.strptime(entry["time"], "%Y-%m-%dT%H:%M:%SZ").replace(tzinfo=datetime.timezone.utc)
        expect(began <= at <= ended, f"{entry['time']} is not between {began} and {ended}")


def keys_stand_in_order_without_spaces(folder):
    program(folder, "run", "--journal=log", lines=["add-arch amd64 linux amd64"])
    text = (folder / "log").read_text()
    expect(
        re.fullmatch(
            r'\{"accepted":1,"answer":\{"accepted":1,"ok":"add-arch"\},"command":\{"command":"add-arch","cpu":"amd64",'
            r'"name":"amd64",'
            r'"os":"linux"\},"time":"[^"]*"\}\n',
            text,
        ),
        text,
    )


def answers_are_the_same_with_and_without(folder):
    (folder / "one").mkdir()
    (folder / "other").mkdir()
    fill(folder / "one")
    fill(folder / "other")
    lines = [line for line, _ in LINES]
    one = program(folder / "one", "--store", "store", "run", lines=lines)
    other = program(folder / "other", "--store", "store", "run", "--journal", "log", lines=lines)
    expect(one == other, f"{one}\n{other}")
    for table in ("office", "source_record"):
        query = f"SELECT * FROM {table}"
        expect(rows_of(folder / "one", query) == rows_of(folder / "other", query), f"{table} differs")


def says_what_a_merge_of_requests_changed(folder):
    """The line of a merge over HTTP has the architectures with what was changed, and no names of lists; and a removed
    record has neither a state nor a version."""
    fill(folder)
    (folder / "few").mkdir()
    (folder / "few" / "Sources").write_text(SOURCES)
    (folder / "few" / "none").write_text("")
    program(folder, "--store", "store", "run", lines=["add-arch amd64 linux amd64", "add-arch armhf linux arm"])
    wb, port = serving(folder, "--journal", "log", "--lists", "few")
    try:
        for sources in ("Sources", "none"):
            parts = [{"arch": arch, "packages": "none"} for arch in ("armhf", "amd64")]
            answer = ask(port, "/v1/merge", {"parts": parts, "sources": sources})
            expect(answer["ok"] == "merge", f"{answer}")
    finally:
        wb.terminate()
        wb.wait(WAIT)
    came = [["hello", None, "Needs-Build", "2.0"], ["new", None, "Needs-Build", "2"]]
    went = [["hello", "Needs-Build", None, None], ["new", "Needs-Build", None, None]]
    found = [entry["command"] for entry in entries_of(folder / "log")]
    for command, changes in zip(found, (came, went), strict=True):
        parts = [{"arch": arch, "changes": changes} for arch in ("armhf", "amd64")]
        expect(command == {"command": "merge", "parts": parts}, f"{command}")


def says_nothing_of_a_part_that_is_refused(folder):
    """Each part that is merged has its changes once, wherever it stands among others that are refused."""
    fill(folder)
    (folder / "Malformed").write_text("no field\n")
    words = ("amd64=none armhf=Malformed", "armhf=Malformed sparc=none amd64=none")
    lines = ["add-arch amd64 linux amd64", "add-arch armhf linux arm", *(f"merge Sources {one}" for one in words)]
    (folder / "none").write_text("")
    program(folder, "run", "--journal", "log", lines=lines)
    found = [entry["command"]["parts"] for entry in entries_of(folder / "log") if "parts" in entry["command"]]
    came = [["hello", None, "Needs-Build", "2.0"], ["new", None, "Needs-Build", "2"]]
    wanted = [
        [{"arch": "amd64", "changes": came}, {"arch": "armhf"}],
        [{"arch": "armhf"}, {"arch": "sparc"}, {"arch": "amd64", "changes": []}],
    ]
    expect(found == wanted, f"{found}")


def goes_on_after_an_earlier_run(folder):
    program(folder, "--store", "store", "run", "--journal", "log", lines=["add-arch amd64 linux amd64"])
    program(folder, "--store", "store", "run", lines=["add-arch armhf linux arm"])
    program(folder, "--store", "store", "run", "--journal", "log", lines=["add-arch arm64 linux arm64"])
    counts = [entry["accepted"] for entry in entries_of(folder / "log")]
    expect(counts == [1, 3], f"{counts}")


def a_line_fault_has_no_entry(folder):
    status, _, _ = program(
        folder, "run", "--journal", "log",
        lines=["add-arch amd64 linux amd64", "no command", "add-arch armhf linux arm"],
    )
    expect(status == 2, f"status {status}")
    expect([entry["command"]["name"] for entry in entries_of(folder / "log")] == ["amd64", "armhf"], "other entries")


def is_for_its_owner_and_group(folder):
    program(folder, "run", "--journal", "log", lines=["add-arch amd64 linux amd64"], prepare=lambda: os.umask(0))
    mode = (folder / "log").stat().st_mode & 0o777
    expect(mode == 0o640, oct(mode))


def no_entry_makes_no_file(folder):
    program(folder, "run", "--journal", "log", lines=["queue amd64"])
    expect(not (folder / "log").exists(), "a journal was made")


# ---- a journal that cannot be written


def cannot_be_written_and_stops_nothing(folder):
    lines = ["add-arch amd64 linux amd64", "add-arch armhf linux arm", "add-builder b1 amd64"]
    for name in ("nowhere/log", "."):
        status, said, errors = program(folder, "run", "--journal", name, lines=lines)
        expect(status == 0 and len(said.splitlines()) == 3, f"{name}: status {status}, {said}")
        expect(
            errors.startswith(f"wb: the journal {name} cannot be written, and commands go on without it: ")
            and errors.count("\n") == 1,
            f"{name}: {errors}",
        )


def tells_how_many_entries_it_lacks(folder):
    folder = folder / "inner"
    folder.mkdir()
    wb = subprocess.Popen(
        [WB, "run", "--journal", "there/log"], cwd=folder, stdin=subprocess.PIPE, stdout=subprocess.PIPE,
        stderr=subprocess.PIPE,
    )

    def say(line):
        wb.stdin.write(f"{line}\n".encode())
        wb.stdin.flush()
        return json.loads(wb.stdout.readline())

    say("add-arch amd64 linux amd64")
    say("add-arch armhf linux arm")
    (folder / "there").mkdir()
    say("add-arch arm64 linux arm64")
    wb.stdin.close()
    errors = wb.stderr.read().decode().splitlines()
    wb.wait(WAIT)
    expect(errors[1:] == ["wb: the journal there/log is written again, and lacks 2 entries"], f"{errors}")
    counts = [entry["accepted"] for entry in entries_of(folder / "there" / "log")]
    expect(counts == [3], f"{counts}")


def a_full_disk_stops_nothing(folder):
    lines = [f"add-arch a{at} linux a{at}" for at in range(40)]
    status, said, errors = program(folder, "run", "--journal", "log", lines=lines, prepare=limit_files(1000))
    expect(status == 0 and len(said.splitlines()) == 40, f"status {status}")
    expect("cannot be written" in errors, errors)
    expect((folder / "log").stat().st_size <= 1000, "it grew")


def a_cut_line_is_ended_first(folder):
    (folder / "log").write_text('{"accepted":7,"ans')
    program(folder, "run", "--journal", "log", lines=["add-arch amd64 linux amd64"])
    lines = (folder / "log").read_text().splitlines()
    expect(len(lines) == 2 and lines[0] == '{"accepted":7,"ans', f"{lines}")
    json.loads(lines[1])


def may_be_moved_away(folder):
    wb = subprocess.Popen(
        [WB, "run", "--journal", "log"], cwd=folder, stdin=subprocess.PIPE, stdout=subprocess.PIPE,
        stderr=subprocess.PIPE,
    )
    for at, arch in enumerate(("amd64", "armhf"), 1):
        wb.stdin.write(f"add-arch {arch} linux {arch}\n".encode())
        wb.stdin.flush()
        wb.stdout.readline()
        expect(len(entries_of(folder / "log")) == 1, "another number of entries")
        (folder / "log").rename(folder / f"log.{at}")
    wb.stdin.close()
    wb.wait(WAIT)
    expect(wb.stderr.read() == b"", "something was said")


# ---- serving, and kills


def free_port():
    with socket.socket() as listener:
        listener.bind(("127.0.0.1", 0))
        return listener.getsockname()[1]


def serving(folder, *words):
    port = free_port()
    wb = subprocess.Popen(
        [WB, "--store", "store", "serve", "--port", str(port), *words],
        cwd=folder,
        stdout=subprocess.DEVNULL,
        stderr=subprocess.PIPE,
    )
    for _ in range(WAIT * 20):
        with socket.socket() as client:
            if client.connect_ex(("127.0.0.1", port)) == 0:
                return wb, port
        time.sleep(0.05)
    wb.kill()
    raise AssertionError("it does not serve")


def ask(port, path, body):
    connection = http.client.HTTPConnection("127.0.0.1", port, timeout=WAIT)
    connection.request("POST", path, json.dumps(body), {"Content-Type": "application/json"})
    answer = json.loads(connection.getresponse().read())
    connection.close()
    return answer


def requests_have_entries_too(folder):
    program(
        folder, "--store", "store", "run",
        lines=["add-arch amd64 linux amd64", "add-builder b1 amd64", "enter amd64 hello 1.0 optional devel"],
    )
    wb, port = serving(folder, "--journal", "log")
    try:
        job = ask(port, "/v1/next", {"arch": "amd64", "builder": "b1"})
        again = ask(port, "/v1/next", {"arch": "amd64", "builder": "b1", "after": 0})
        refused = ask(port, "/v1/built", {"take": 9})
        built = ask(port, "/v1/built", {"take": job["take"]})
    finally:
        wb.terminate()
        wb.wait(WAIT)
    expect(again["ok"] == "again" and refused["refused"] == "NotHeld", f"{again} {refused}")
    wanted = [{"after": None, "arch": "amd64", "builder": "b1", "command": "next"}, {"command": "built", "take": 1}]
    expect_entries(entries_of(folder / "log"), wanted, [job, built])


def what_a_kill_leaves_is_a_front_of_what_was_accepted(folder):
    """Each entry is of a command that was committed: the counts rise by one, and none is above that of the file."""
    lines = [f"add-arch a{at} linux a{at}" for at in range(3000)]
    for turn in range(4):
        wb = subprocess.Popen(
            [WB, "--store", "store", "run", "--journal", "log"], cwd=folder, stdin=subprocess.PIPE,
            stdout=subprocess.PIPE, stderr=subprocess.DEVNULL,
        )
        wb.stdin.write("".join(f"{line}{turn}\n".replace(" linux", f"{turn} linux") for line in lines).encode()[:60000])
        wb.stdin.flush()
        for _ in range(100 + 150 * turn):
            wb.stdout.readline()
        wb.send_signal(signal.SIGKILL)
        wb.wait(WAIT)
        wb.stdin.close()
        accepted = rows_of(folder, "SELECT accepted FROM office")[0][0]
        counts = [
            json.loads(line)["accepted"] for line in (folder / "log").read_text().splitlines() if line.endswith("}")
        ]
        expect(counts == sorted(set(counts)), "the counts do not rise")
        expect(counts[-1] in (accepted, accepted - 1), f"the last entry is {counts[-1]}, and the file has {accepted}")


# ---- words


def words_that_name_no_journal(folder):
    for words in (
        ["run", "--journal"],
        ["--journal", "log", "run"],
        ["run", "--journal", "a", "--journal", "b"],
        ["queue", "amd64", "--journal", "log"],
    ):
        status, said, _ = program(folder, *words)
        expect(status == 2 and said == '{"fault":"line"}\n', f"{words}: status {status}, {said}")
    expect(list(folder.iterdir()) == [], "a file was made")


TESTS = [
    has_an_entry_for_each_accepted_command,
    keys_stand_in_order_without_spaces,
    answers_are_the_same_with_and_without,
    says_what_a_merge_of_requests_changed,
    says_nothing_of_a_part_that_is_refused,
    goes_on_after_an_earlier_run,
    a_line_fault_has_no_entry,
    is_for_its_owner_and_group,
    no_entry_makes_no_file,
    cannot_be_written_and_stops_nothing,
    tells_how_many_entries_it_lacks,
    a_full_disk_stops_nothing,
    a_cut_line_is_ended_first,
    may_be_moved_away,
    requests_have_entries_too,
    what_a_kill_leaves_is_a_front_of_what_was_accepted,
    words_that_name_no_journal,
]

if __name__ == "__main__":
    sys.exit(main(TESTS))
