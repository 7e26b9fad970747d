#!/usr/bin/env python3
"""Tests of tools/bin/office, the command of an operator, over offices whose service it starts and whose program fails
where a test asks for it. Each test has a folder of its own, and the office another in it, with a blank in its name.

    tools/tests/test_office.py [NAME..]     these tests, or all
    tools/tests/test_office.py merges

From the environment: WB is the program, crates/wb/out/wb of this repository where it is not set. In place of systemctl
a script is called that notes what it is asked for.
"""
import contextlib
import fcntl
import gzip
import json
import os
import pwd
import shutil
import signal
import socket
import stat
import subprocess
import sys
import time
import urllib.error
import urllib.request
from pathlib import Path

from harness import WAIT, LeftOut, call, expect, limit_files, main, program
from package_runs import OFFICE, OPENING, Trial, lives, wait_until

SOURCES = "Package: {}\nVersion: {}\nArchitecture: any\nPriority: optional\nSection: misc\n\n"


def starts_once_and_stops(folder):
    with Trial(folder) as office:
        _, said = office.do("start", wanted=1)
        expect(
            "create" in said and not office.store.exists(), "a start without an office makes one, or does not say how"
        )
        office.do("ready", wanted=1)
        office.do("create")
        office.do("create", wanted=1)
        office.do("ready")
        with socket.socket() as other:
            other.setsockopt(socket.SOL_SOCKET, socket.SO_REUSEADDR, 1)
            other.bind(("127.0.0.1", office.port))
            other.listen()
            expect("another program has port" in office.do("start", wanted=3)[1], "a port that is taken is not said")
        expect("would serve" in office.do("--dry-run", "keep")[1], "keep serves in a dry run")
        office.do("start")
        keeper = office.keeper()
        _, said = office.do("start", wanted=1)
        expect("runs already" in said and office.keeper() == keeper, f"a second start: {said}")
        said, _ = office.do("status")
        expect("answers" in said and str(office.store) in said and "backup: none" in said, said)
        office.do("stop")
        office.do("status", wanted=3)
        office.do("stop")
        expect(not lives(keeper), "the process is still there")


def dry_run_changes_nothing(folder):
    with Trial(folder) as office:
        office.do("--dry-run", "create")
        expect(not office.tree(), "a dry run makes a file")
        office.fill()
        (folder / "Sources").write_text(SOURCES.format("new", "1.0"))
        saved = Path(office.do("backup")[0].strip())
        merge = ("merge", "--most-removed", "0", folder / "Sources", f"amd64={folder / 'Sources'}")
        before = office.tree()
        for words in (("start",), ("backup",), ("restore", "--force", saved), merge, ("run",)):
            said, steps = office.do("--dry-run", *words, stdin=office.lines(OPENING))
            expect(not said and "would " in steps, f"{words[0]}: {said}{steps}")
            expect(office.tree() == before, f"a dry run of {words[0]} changes files")
        office.do("start")
        before, keeper = office.tree(), office.keeper()
        for words in (("stop",), ("backup", "--stop"), merge):
            _, steps = office.do("--dry-run", *words, stdin=office.lines(OPENING))
            expect("would stop" in steps, f"{words[0]}: {steps}")
            expect(words[0] == "stop" or "would start" in steps, f"{words[0]}: {steps}")
        expect(
            office.keeper() == keeper and office.runs() and office.tree() == before,
            "a dry run stops the service, or changes files",
        )


def refuses_wrong_settings(folder):
    good = {"STORE": "/s", "BACKUPS": "/b", "SERVICE": "pidfile", "PID_FILE": "/p", "LOG": "/l"}
    cases = [
        ({"STORE": ""}, "STORE is missing"),
        ({"STORE": "/a\\b"}, ":1: STORE"),
        ({"BACKUPS": "b"}, ":2: BACKUPS has to be a path"),
        ({"SERVICE": "upstart"}, "upstart"),
        ({"PID_FILE": ""}, "PID_FILE is missing"),
        ({"LOG": '"/l'}, ":5: LOG"),
        ({"PORT": "0"}, ":6: PORT"),
        ({"PORT": "65536"}, "65535"),
        ({"PROT": "1"}, ":6: PROT is no setting"),
        ({"REQUESTS": "1e3"}, ":6: REQUESTS"),
        ({"KEEP_BACKUPS": "0"}, ":6: KEEP_BACKUPS has to be a number from 1"),
        ({"SNAPSHOT_MAKE": "true"}, "SNAPSHOT_DROP is missing"),
        ({"OWNER": "no-such-user"}, "no-such-user"),
    ]
    file = folder / "office.conf"
    for change, wanted in cases:
        file.write_text("".join(f"{key}={value}\n" for key, value in {**good, **change}.items()))
        _, said = call([OFFICE, "--settings", file, "status"], 2)
        expect(wanted in said and str(file) in said or "no-such-user" in said, f"{change}: {said}")
    file.write_text("STORE=/a\nSTORE=/b\n")
    expect(":2: STORE is set twice" in call([OFFICE, "--settings", file, "status"], 2)[1], "a setting may stand twice")
    call([OFFICE, "--settings", folder / "none", "status"], 2)
    call([OFFICE, "--settings", file, "merge", "Sources"], 2)
    call([OFFICE, "--settings", file], 2)
    expect("examples:" in call([OFFICE, "--help"])[0], "help has no example")


def backs_up_what_is_served_or_stands_still(folder):
    """A backup stops nothing while the office is served; --stop does. What a run by hand has is not copied."""
    with Trial(folder) as office:
        office.fill()
        office.do("start")
        keeper = office.keeper()
        first = Path(office.do("backup")[0].strip())
        expect(office.runs() and office.keeper() == keeper, "the service was stopped")
        saved = Path(office.do("backup", "--stop")[0].strip())
        expect(office.runs() and office.keeper() != keeper, "the service was not stopped, or not started again")
        expect(office.saved() == [first, saved], f"there are {office.saved()}")
        for one in (first, saved):
            expect((one / "office.db").exists() and not (one / "trial").exists(), "the trial is left in the backup")
            call(["sha256sum", "--check", "--strict", "SHA256SUMS"], cwd=one)
        office.do("stop")
        # a run by hand has the file
        with subprocess.Popen(
            [program(), "--store", office.store, "run"], stdin=subprocess.PIPE, stdout=subprocess.PIPE
        ) as run:
            run.stdin.write(b"add-builder b2 amd64\n")
            run.stdin.flush()
            run.stdout.readline()
            for words in (("backup",), ("start",), ("restore", "--force", saved)):
                _, said = office.do(*words, wanted=1)
                expect("has " in said and "open" in said, f"{words[0]} beside a run: {said}")
            run.stdin.close()
        expect(office.saved() == [first, saved], "a backup was made while a run had the file")


def backs_up_the_log_after_a_kill(folder):
    with Trial(folder) as office:
        office.fill()
        run = subprocess.Popen(
            [program(), "--store", office.store, "run"], stdin=subprocess.PIPE, stdout=subprocess.PIPE
        )
        run.stdin.write(b"enter amd64 late 1.0 optional devel\n")
        run.stdin.flush()
        run.stdout.readline()
        run.kill()
        run.communicate()
        files = office.store.read_bytes(), office.log.read_bytes()
        saved = Path(office.do("backup")[0].strip())
        expect((office.store.read_bytes(), office.log.read_bytes()) == files, "a backup changes the office")
        expect(
            ((saved / "office.db").read_bytes(), (saved / "office.db-wal").read_bytes()) == files,
            "a backup is not what was there",
        )
        office.store.unlink()
        office.log.unlink()
        office.do("restore", saved)
        expect(office.has("late") and office.has("hello"), "what was in the log is not restored")


def keeps_no_copy_that_does_not_open(folder):
    with Trial(folder) as office:
        office.fill()
        whole = office.store.read_bytes()
        for broken in (whole[:100] + b"damaged" * 100 + whole[800:], whole[: len(whole) // 2], b"", b"text" * 1000):
            office.store.write_bytes(broken)
            before = office.tree()
            _, said = office.do("backup", wanted=1)
            expect(not office.saved() and office.tree() == before, f"a copy that does not open was kept: {said}")
        office.store.write_bytes(whole)
        office.fault("speak")
        office.do("backup", wanted=1)
        expect(not office.saved(), "a copy in which a new office begins was kept")
        (office.faults / "speak").unlink()
        office.do("backup")


def keeps_no_half_copy_on_a_full_disk(folder):
    with Trial(folder) as office:
        office.fill()
        saved = Path(office.do("backup")[0].strip())
        before = office.tree()
        for words in (("backup",), ("restore", "--force", saved)):
            office.do(*words, wanted=1, preexec_fn=limit_files(8))
            expect(office.tree() == before, f"a {words[0]} that finds no room changes files")
        office.do("start")


def restores_and_keeps_what_was_there(folder):
    with Trial(folder) as office:
        office.fill()
        saved = Path(office.do("backup")[0].strip())
        office.do("run", stdin=office.lines(["enter amd64 later 1.0 optional devel"]))
        before = office.tree()
        _, said = office.do("restore", saved, wanted=1)
        expect("--force" in said and office.tree() == before, f"a restore over an office: {said}")
        office.do("start")
        _, said = office.do("restore", "--force", saved, wanted=1)
        expect("stop it first" in said and office.runs(), f"a restore of what runs: {said}")
        office.do("stop")
        files = office.store.read_bytes(), office.log.read_bytes()
        office.do("restore", "--force", saved)
        kept = [folder for folder in office.saved() if folder.name.startswith("kept-")]
        expect(len(kept) == 1, f"there are {office.saved()}, and what was there is not kept")
        expect(
            ((kept[0] / "office.db").read_bytes(), (kept[0] / "office.db-wal").read_bytes()) == files,
            "what is kept is not what was there",
        )
        expect(office.has("hello") and not office.has("later"), "the office is not that of the backup")
        left = sorted(path.name for path in office.folder.iterdir())
        expect(left == ["backups", "messages", "office.db", "office.db.lock"], f"a restore leaves {left}")
        office.do("start")
        expect(not office.has("later"), "the old log was taken for that of the backup")
        office.do("stop")
        office.do("restore", "--force", kept[0])
        expect(office.has("later"), "what was kept cannot be restored")


def restores_no_backup_that_changed(folder):
    with Trial(folder) as office:
        office.fill()
        saved = Path(office.do("backup")[0].strip())
        before = {name: data for name, data in office.tree().items() if not name.startswith("backups/")}
        for name in ("office.db", "office.db-wal"):
            whole = (saved / name).read_bytes()
            (saved / name).write_bytes(whole[:-1] + bytes([whole[-1] ^ 1]))
            _, said = office.do("restore", "--force", saved, wanted=1)
            expect("not as it was" in said, said)
            (saved / name).write_bytes(whole)
        (saved / "SHA256SUMS").rename(saved / "sums")
        office.do("restore", "--force", saved, wanted=1)
        office.do("restore", "--force", folder, wanted=1)
        after = {name: data for name, data in office.tree().items() if not name.startswith("backups/")}
        expect(after == before, "an office was changed by a restore that was refused")
        expect(office.saved() == [saved], "what was there was kept though nothing was put in")


def does_not_start_half_restored(folder):
    with Trial(folder) as office:
        office.fill()
        saved = Path(office.do("backup")[0].strip())
        (office.folder / "office.db.restoring").write_text("")
        (office.folder / "office.db.restored").mkdir()
        for word in ("start", "ready", "run", "create"):
            office.do(word, wanted=1, stdin=office.lines(OPENING))
        office.do("status", wanted=1)
        office.do("restore", "--force", saved)
        office.do("start")


def lists_of(folder, *names):
    """A Sources list of these packages and an empty Packages list, whose names no line can hold."""
    (folder / "the lists").mkdir(exist_ok=True)
    (folder / "the lists/Sources é").write_text("".join(SOURCES.format(name, "1.30") for name in names))
    (folder / "the lists/Packages").write_text("")
    return folder / "the lists/Sources é", f"amd64={folder}/the lists/Packages"


STEPS = ("stop the service", "copy ", "give the office", "start the service", "check the sums", "name the copy")


def merges_several_in_one_stop(folder):
    """Each with a Sources list of its own, and reports after them, before the service starts."""
    with Trial(folder) as office:
        office.fill()
        office.do("run", stdin=office.lines(["add-arch arm64 linux arm64"]))
        office.do("start")
        sources, part = lists_of(folder, "hello", "new")
        (folder / "the lists/more").write_text(SOURCES.format("more", "1.0"))
        (folder / "the lists/report").write_text("new 1.30 uninstallable libx is missing\n")
        words = [sources, part, folder / "the lists/more", part.replace("amd64=", "arm64=")]
        said, steps = office.do("merge", "--report", f"amd64={folder}/the lists/report", *words)
        answers = [json.loads(line) for line in said.splitlines()[:3]]
        expect([one["ok"] for one in answers] == ["merge", "merge", "report"] and answers[2]["changed"] == 1, said)
        expect(steps.count("stop the service") == 1 and len(office.saved()) == 1, f"it stops or copies twice: {steps}")
        office.do("merge", "--report", f"arm64={folder}/the lists/report", sources, part, wanted=2)
        office.do("merge", sources, part, sources, part, wanted=2)
        office.do("merge", sources, folder / "the lists/more", part, wanted=2)


def looks_before_it_stops(folder):
    """A list that the office would refuse and an architecture that it does not have cost no stop and no backup."""
    with Trial(folder) as office:
        office.fill()
        office.do("start")
        keeper = office.keeper()
        sources, part = lists_of(folder, "hello")
        good = sources.read_bytes()
        for data, message in [
            (gzip.compress(good), "it is compressed by gzip"),
            (good + b"Package: \xff\n\n", "paragraph 2: it is not UTF-8"),
            (good.replace(b"Version:", b"Version"), "it is no field"),
        ]:
            sources.write_bytes(data)
            _, said = office.do("merge", sources, part, wanted=1)
            expect(message in said and "stop the service" not in said, f"of {message!r} it says {said}")
        sources.write_bytes(good.rstrip(b"\n"))
        _, said = office.do("merge", sources, part.replace("amd64=", "arm64="), wanted=1)
        expect("no architecture arm64" in said and "stop the service" not in said, said)
        expect(not office.saved() and office.keeper() == keeper, "a backup was made, or the service was stopped")
        office.do("merge", sources, part)
        office.do("stop")
        _, said = office.do("merge", sources, part.replace("amd64=", "arm64="), wanted=1)
        expect("no architecture arm64" in said and len(office.saved()) == 1, said)


def keeps_no_bad_copy_of_a_merge(folder):
    """The copy is checked after the start; one that does not open is removed, and the merge stands."""
    with Trial(folder) as office:
        office.fill()
        office.do("start")
        office.fault("bad-trial")
        _, said = office.do("merge", *lists_of(folder, "hello", "new"), wanted=1)
        expect("the copy does not open" in said and office.runs() and not office.saved(), said)
        office.do("stop")
        expect(office.has("new"), "the merge does not stand")


def merges(folder):
    with Trial(folder) as office:
        office.fill()
        office.do("start")
        said, steps = office.do("merge", *lists_of(folder, "hello", "new"))
        answer, saved = said.splitlines()
        part = json.loads(answer)["parts"][0]
        expect((part["added"], part["removed"]) == (1, 1), f"the merge answers {answer}")
        order = [steps.index(step) for step in STEPS]
        expect(order == sorted(order), f"the steps are {steps}")
        expect(office.runs(), "the service does not run")
        office.do("stop")
        expect(office.has("new") and not office.has("tar"), "the merge was not carried out")
        office.do("restore", "--force", saved)
        expect(office.has("tar") and not office.has("new"), "the backup is not of before the merge")
        _, steps = office.do("merge", *lists_of(folder, "hello", "new"))
        expect("is not started" in steps and not office.runs(), "a service that did not run is started")


def starts_again_after_a_merge_that_failed(folder):
    with Trial(folder) as office:
        office.fill()
        office.do("start")
        sources, part = lists_of(folder, "hello", "new")
        _, said = office.do("merge", folder / "none", part, wanted=2)
        expect("stop the service" not in said, "the service is stopped for a list that is not there")
        office.do("merge", sources, "amd64", wanted=2)
        office.do("merge", sources, "Amd 64=x", wanted=2)
        _, said = office.do("merge", sources, part.replace("amd64=", "arm64="), wanted=1)
        expect(office.runs(), f"after a refusal the service does not run: {said}")
        _, said = office.do("merge", sources, part, part.replace("amd64=", "arm64="), wanted=1)
        expect("arm64" in said and "UnknownArch" in said and office.runs(), f"a part that was refused: {said}")
        office.fault("kill")
        _, said = office.do("merge", sources, part, wanted=1)
        expect(office.runs(), f"after a kill the service does not run: {said}")
        (office.faults / "kill").unlink()
        office.backups.rename(office.folder / "gone")
        office.do("merge", sources, part, wanted=1)
        expect(office.runs(), "after a backup that failed the service does not run")


def says_that_it_could_not_start_again(folder):
    with Trial(folder, WAIT=10) as office:
        office.fill()
        office.do("start")
        office.fault("serve")
        said, steps = office.do("merge", *lists_of(folder, "hello", "new"), wanted=3)
        expect('"ok":"merge"' in said and "NOT STARTED AGAIN" in steps, steps)
        (office.faults / "serve").unlink()
        office.do("stop")
        office.do("start")


def starts_again_after_a_signal(folder):
    with Trial(folder) as office:
        office.fill()
        office.do("start")
        office.fault("sleep")
        words = [OFFICE, "--settings", office.conf, "run"]
        with subprocess.Popen(
            words, stdin=office.lines(["merge /nowhere amd64=/nowhere"]), stderr=subprocess.PIPE, text=True
        ) as run:
            for line in run.stderr:
                if "give 1 lines" in line:
                    break
            wait_until(lambda: (office.faults / "sleep").read_text(), "the program is not called")
            called = int((office.faults / "sleep").read_text())
            (office.faults / "sleep").unlink()
            run.send_signal(signal.SIGTERM)
            said = run.stderr.read()
        expect(run.returncode == 128 + signal.SIGTERM, f"it ended with {run.returncode}")
        expect(office.runs() and not lives(called), f"the service does not run, or what was called still does: {said}")


def tries_a_merge_first(folder):
    with Trial(folder) as office:
        office.fill()
        office.do("start")
        lists = lists_of(folder, "new")
        _, said = office.do("merge", "--most-removed", "1", *lists, wanted=1)
        expect("would remove 2" in said and office.runs(), said)
        office.do("stop")
        expect(office.has("tar") and not office.has("new"), "a merge that removes too much was carried out")
        office.do("merge", "--most-removed", "2", *lists)
        expect(
            office.has("new") and not office.has("tar"), "a merge that removes as much as allowed was not carried out"
        )
        expect(not list(office.backups.glob(".*")), "the trial is left")
        office.do("merge", "--most-removed", "-1", *lists, wanted=2)


def gives_lines(folder):
    with Trial(folder) as office:
        office.fill()
        office.do("start")
        said, _ = office.do("run", stdin=office.lines(["add-builder b9 amd64"]))
        expect('"ok":"add-builder"' in said and office.runs(), said)
        _, said = office.do("run", wanted=2)
        expect("stop the service" not in said, "the service is stopped for no line")
        said, _ = office.do("run", stdin=office.lines(["add-builder b9 amd64"]), wanted=1)
        expect("AlreadyThere" in said and office.runs(), said)


def keeps_a_journal(folder):
    journal = folder / "journal"
    with Trial(folder, JOURNAL=journal) as office:
        office.fill()
        kept = len(journal.read_text().splitlines())
        office.do("start")
        body = json.dumps({"arch": "amd64", "builder": "b1"}).encode()
        with urllib.request.urlopen(f"http://127.0.0.1:{office.port}/v1/next", body, timeout=WAIT) as answer:
            job = json.loads(answer.read())
        office.do("run", stdin=office.lines(["add-builder b9 amd64"]))
        office.do("backup", "--stop")
        entries = [json.loads(line) for line in journal.read_text().splitlines()]
        expect(len(entries) == kept + 2 and entries[kept]["answer"] == job, f"{entries}")
        expect(
            [entry["accepted"] for entry in entries] == list(range(1, kept + 3)),
            "the counts have gaps, or a copy's commands are among them",
        )


def is_called_once_at_a_time(folder):
    with Trial(folder) as office, open(office.conf, "rb") as handle:
        fcntl.flock(handle, fcntl.LOCK_EX)
        _, said = office.do("create", wanted=1)
        expect("under way" in said and not office.store.exists(), said)
        office.do("status", wanted=3)


def ends_no_other_process(folder):
    with Trial(folder) as office, subprocess.Popen(["sleep", "100"]) as other:
        office.do("create")
        (office.folder / "wb.pid").write_text(f"{other.pid}\n1\n")
        office.do("stop")
        office.do("status", wanted=3)
        expect(other.poll() is None, "another process with the number was ended")
        (office.folder / "wb.pid").write_text("no number")
        office.do("stop", wanted=1)
        (office.folder / "wb.pid").unlink()
        other.kill()


def starts_nothing_that_no_file_names(folder):
    """The folder of PID_FILE is made if it is gone, as after a boot; if it cannot be made, nothing is started."""
    with Trial(folder) as office:
        office.fill()
        office.settings["PID_FILE"] = folder / "run" / "wb.pid"
        office.write_settings()
        office.do("start")
        office.do("status")
        office.do("stop")
        expect(not os.listdir(folder / "run"), f"there is {os.listdir(folder / 'run')}")
        office.settings["PID_FILE"] = folder / "not" / "there" / "wb.pid"
        office.write_settings()
        _, said = office.do("start", wanted=1)
        expect("No such file" in said, said)
        office.do("backup")


def says_that_another_program_has_the_port(folder):
    with Trial(folder) as office, socket.create_server(("127.0.0.1", office.port)):
        office.fill()
        shown, _ = office.do("status", wanted=3)
        expect(f"port {office.port}: another program has it\n" in shown, shown)


def ask(port):
    try:
        with urllib.request.urlopen(f"http://127.0.0.1:{port}/v1/mine/b1", timeout=WAIT) as answer:
            return answer.status
    except urllib.error.HTTPError as error:
        return error.code


def serves_on_when_its_connections_are_used_up(folder):
    with Trial(folder, REQUESTS=2) as office:
        office.fill()
        office.do("start")  # which takes one connection
        first = office.server()
        ask(office.port)
        wait_until(lambda: office.server() not in (None, first), "it is not started again")
        second = office.server()
        os.kill(second, signal.SIGKILL)
        wait_until(lambda: office.server() not in (None, second), "it is not started again after a kill")
        last = office.server()
        office.do("stop")
        expect(not lives(last), "the program outlives its keeper")
        office.do("backup")


def backs_up_from_a_snapshot(folder):
    shown = folder / "a snapshot"
    make, drop = f"cp -a '{folder}/an office' '{shown}'", f"rm -r '{shown}'"
    with Trial(folder, SNAPSHOT_MAKE=make, SNAPSHOT_DROP=drop, SNAPSHOT_FOLDER=shown) as office:
        office.fill()
        office.do("start")
        keeper = office.keeper()
        saved = Path(office.do("backup", "--snapshot")[0].strip())
        expect(office.keeper() == keeper and not shown.exists(), "the service was stopped, or the snapshot stays")
        call(["sha256sum", "--check", "--strict", "SHA256SUMS"], cwd=saved)
        shutil.copytree(office.folder, shown)
        _, said = office.do("backup", "--snapshot", wanted=1)
        expect("older snapshot" in said and shown.exists(), said)
        shutil.rmtree(shown)
        cases = [
            ({"SNAPSHOT_MAKE": "false"}, "false ended with 1"),
            ({"SNAPSHOT_MAKE": f"mkdir '{shown}'"}, "does not show"),
            (
                {"SNAPSHOT_MAKE": f"ln -s '{office.folder}' '{shown}'", "SNAPSHOT_DROP": f"rm '{shown}'"},
                "is the office itself",
            ),
        ]
        for change, wanted in cases:
            office.settings.update({"SNAPSHOT_DROP": f"rm -rf '{shown}'", **change})
            office.write_settings()
            _, said = office.do("backup", "--snapshot", wanted=1)
            expect(wanted in said and not os.path.lexists(shown), f"{change}: {said}")
        office.settings.update({"SNAPSHOT_MAKE": make, "SNAPSHOT_DROP": "false"})
        office.write_settings()
        _, said = office.do("backup", "--snapshot", wanted=1)
        expect(
            "NOT DROPPED" in said and len([path for path in office.saved() if path.name[0] != "."]) == 2,
            f"a snapshot that stays: {said}",
        )
    bare = folder / "bare"
    bare.mkdir()
    with Trial(bare) as office:
        office.do("create")
        expect("SNAPSHOT_MAKE" in office.do("backup", "--snapshot", wanted=2)[1], "a snapshot without settings")


def prunes_by_count_and_by_days(folder):
    """Of nine backups, of the days before; what a restore kept stays, and what a broken call left does not."""
    now = time.time()
    names = [time.strftime("%Y-%m-%dT%H%M%SZ", time.gmtime(now - days * 86400 - 60)) for days in range(8, -1, -1)]
    names.insert(8, f"{names[7]}-2")
    kept = ["kept-2020-01-01T000000Z", "2020-01-01T000000Z", f".x.{os.getpid()}.new", "my notes"]
    with Trial(folder) as office:
        office.fill()
        saved = Path(office.do("backup")[0].strip())
        expect("refused" not in office.do("prune", wanted=2)[1] and office.saved() == [saved], "it prunes by itself")
        for change, wanted in [
            ({"KEEP_BACKUPS": 12}, names), ({"KEEP_BACKUPS": 1}, names[-1:]), ({"KEEP_BACKUPS": 3}, names[-3:]),
            ({"KEEP_DAYS": 3}, names[-4:]), ({"KEEP_DAYS": 3, "KEEP_BACKUPS": 6}, names[-6:]),
            ({"KEEP_DAYS": 4, "KEEP_BACKUPS": 2}, names[-5:]),
        ]:
            shutil.rmtree(office.backups)
            office.backups.mkdir()
            for name in [*names, *kept, ".2026-01-01T000000Z.4194305.new", ".rehearsal.4194305"]:
                (office.backups / name).mkdir()
                (office.backups / name / "office.db").write_text("records")
            for name in names:
                (office.backups / name / "SHA256SUMS").write_text("sums")
            office.settings = {key: value for key, value in office.settings.items() if not key.startswith("KEEP")}
            office.settings.update(change)
            office.write_settings()
            before = office.tree()
            office.do("--dry-run", "prune")
            office.do("prune", "--dry-run")
            expect(office.tree() == before, "a dry run removes a backup")
            _, said = office.do("prune")
            left = sorted(path.name for path in office.saved())
            expect(left == sorted([*wanted, *kept]), f"{change} keeps {left}: {said}")
            expect(f"{len(wanted)} of {len(names)} backups are kept" in said, said)
        expect(f"one of {len(wanted)}; " in office.do("status", wanted=3)[0], "status does not count the backups")


SYSTEMCTL = """#!/bin/bash
# In place of systemctl: notes what it is asked for, and has tools/bin/office keep the service.
cd '{folder}' || exit 1
echo "$*" >>asked
if [[ -s pid ]] && kill -0 "$(<pid)" 2>/dev/null; then state=active; else state=inactive; fi
case $1 in
    show) echo "$state" ;;
    start) [[ ! -e refuse ]] || exit 1
        setsid '{office}' --settings '{conf}' keep </dev/null >>kept 2>&1 & echo $! >pid ;;
    stop) [[ $state == inactive ]] || {{ kill "$(<pid)"; while kill -0 "$(<pid)" 2>/dev/null; do sleep 0.1; done; }} ;;
esac
"""


NO_SYSTEMD = """#!/bin/sh
echo "System has not been booted with systemd as init system (PID 1). Can't operate." >&2
exit 1
"""


def says_what_to_say_without_systemd(folder):
    """Where systemctl is installed and is not of the first process, and where it is not installed: the setting that
    helps is said."""
    if Path("/run/systemd/system").is_dir():
        raise LeftOut("systemd runs here")
    bin_folder = folder / "bin"
    bin_folder.mkdir()
    with Trial(folder, OWNER=pwd.getpwuid(os.geteuid()).pw_name) as office:
        office.fill()
        office.settings.update({"SERVICE": "systemd", "UNIT": "a.service"})
        office.write_settings()
        (bin_folder / "python3").symlink_to(sys.executable)
        for is_there in (False, True):
            if is_there:
                (bin_folder / "systemctl").write_text(NO_SYSTEMD)
                (bin_folder / "systemctl").chmod(0o755)
            for words in (["start"], ["status"], ["stop"]):
                path = {**os.environ, "PATH": f"{bin_folder}"}
                _, said = office.do(*words, env=path, wanted=1)
                expect(f"without systemd say SERVICE=pidfile in {office.conf}" in said, f"{words}: {said}")
                expect("not been booted" not in said and "journalctl" not in said, f"{words}: {said}")


def speaks_with_systemd(folder):
    bin_folder = folder / "bin"
    bin_folder.mkdir()
    path = {**os.environ, "PATH": f"{bin_folder}:{os.environ['PATH']}"}
    with Trial(folder, OWNER=pwd.getpwuid(os.geteuid()).pw_name) as office:
        office.fill()
        office.settings.update({"SERVICE": "systemd", "UNIT": "a.service"})
        office.write_settings()
        (bin_folder / "systemctl").write_text(SYSTEMCTL.format(folder=folder, office=OFFICE, conf=office.conf))
        (bin_folder / "systemctl").chmod(0o755)
        try:
            office.do("start", env=path)
            office.do("start", env=path, wanted=1)
            expect("active" in office.do("status", env=path)[0], "it is not active")
            expect("while it is served" in office.do("backup", env=path)[1], "a backup of what systemd serves")
            (folder / "asked").unlink()
            office.do("merge", *lists_of(folder, "hello"), env=path)
            asked = [line for line in (folder / "asked").read_text().splitlines() if not line.startswith("show")]
            expect(asked == ["stop a.service", "start a.service"], f"it asks {asked}")
            (folder / "refuse").write_text("")
            _, said = office.do("backup", "--stop", env=path, wanted=3)
            expect("NOT STARTED AGAIN" in said and "systemctl start a.service ended with 1" in said, said)
        finally:
            call([bin_folder / "systemctl", "stop"])


def runs_as(owner, words):
    """Whether a call succeeds as this user."""
    try:
        done = subprocess.run(
            words, user=owner.pw_uid, group=owner.pw_gid, extra_groups=[], cwd="/", capture_output=True, check=False
        )
    except OSError:
        return False
    return done.returncode == 0


def works_as_the_owner_of_its_files(folder):
    if os.geteuid() != 0:
        raise LeftOut("root does not call")
    owner = pwd.getpwnam("nobody")
    with contextlib.ExitStack() as undone:
        undone.callback(os.chmod, folder, stat.S_IMODE(folder.stat().st_mode))
        folder.chmod(0o755)
        office = undone.enter_context(Trial(folder, OWNER="nobody"))
        python = next(
            (python for python in (sys.executable, "/usr/bin/python3") if runs_as(owner, [python, OFFICE, "--help"])),
            None,
        )
        if python is None or not runs_as(owner, [office.program, "--version"]):
            raise LeftOut("nobody can run no python, or not the program")
        office.command = [python, OFFICE]
        for path in (office.folder, office.backups):
            os.chown(path, owner.pw_uid, owner.pw_gid)
        office.fill()
        office.do("start")
        served_by = Path(f"/proc/{office.server()}").stat().st_uid
        saved = Path(office.do("backup", "--stop")[0].strip())
        office.do("stop")
        office.do("restore", "--force", saved)
        wrong = [str(path) for path in office.folder.rglob("*") if path.stat().st_uid != owner.pw_uid]
        expect(not wrong and served_by == owner.pw_uid, f"these are not the owner's, or the service is not: {wrong}")
    return None


TESTS = [
    starts_once_and_stops, dry_run_changes_nothing, refuses_wrong_settings, backs_up_what_is_served_or_stands_still,
    backs_up_the_log_after_a_kill, keeps_no_copy_that_does_not_open, keeps_no_half_copy_on_a_full_disk,
    restores_and_keeps_what_was_there, restores_no_backup_that_changed,
    does_not_start_half_restored, merges, merges_several_in_one_stop,
    looks_before_it_stops, keeps_no_bad_copy_of_a_merge, starts_again_after_a_merge_that_failed,
    says_that_it_could_not_start_again,
    starts_again_after_a_signal, tries_a_merge_first, gives_lines, keeps_a_journal, is_called_once_at_a_time,
    ends_no_other_process,
    starts_nothing_that_no_file_names,
    says_that_another_program_has_the_port,
    serves_on_when_its_connections_are_used_up, backs_up_from_a_snapshot, prunes_by_count_and_by_days,
    speaks_with_systemd, says_what_to_say_without_systemd,
    works_as_the_owner_of_its_files,
]  # fmt: skip

if __name__ == "__main__":
    sys.exit(main(TESTS))
