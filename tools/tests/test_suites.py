#!/usr/bin/env python3
"""Tests of the offices of several suites on one machine: their settings beside each other, as tools/bin/office and
tools/bin/wanna-build find them, and the units and the settings that the package has for them.

    tools/tests/test_suites.py [NAME..]     these tests, or all

From the environment: WB is the program, crates/wb/out/wb of this repository where it is not set.
"""
import os
import re
import shutil
import subprocess
import sys
import urllib.request

from harness import BIN, ROOT, LeftOut, call, expect, free_port, main, program
from wb_tools.office.settings import read_settings

SUITES = ("sid", "experimental")


class Machine:
    """A machine with the offices of two suites, whose settings are in one folder."""

    def __init__(self, folder):
        self.folder, self.settings = folder, folder / "etc"
        self.settings.mkdir()
        self.ports = {}
        for suite in SUITES:
            place = folder / "lib" / suite
            self.ports[suite] = free_port()
            (self.settings / f"{suite}.conf").write_text(
                f"PROGRAM={program()}\nSTORE={place}/office.db\nBACKUPS={place}/backups\nPORT={self.ports[suite]}\n"
                f"SERVICE=pidfile\nPID_FILE={place}/pid\nLOG={place}/messages\nWAIT=20\n"
            )
        (self.settings / "wanna-build.conf").write_text(
            f"SUITES=sid={self.ports['sid']}\nARCH=amd64\nSTATE={folder}/state\nLOG={folder}/log\nTRY=1\n"
        )

    def __enter__(self):
        return self

    def __exit__(self, *_):
        for suite in SUITES:
            command = [BIN / "office", "--suite", suite, "stop"]
            subprocess.run(command, env=self.environment(), capture_output=True, timeout=60, check=False)

    def environment(self):
        return {**os.environ, "OFFICE_SETTINGS": str(self.settings / "office.conf")}

    def office(self, suite, *words, lines="", wanted=0):
        (self.folder / "lines").write_text(lines)
        with open(self.folder / "lines", encoding="utf-8") as given:
            return call([BIN / "office", "--suite", suite, *words], wanted, stdin=given, env=self.environment())

    def listed(self, suite, wanted=0):
        words = ["--settings", self.settings / "wanna-build.conf", f"--dist={suite}", "--arch=amd64"]
        return call([BIN / "wanna-build", *words, "--list=needs-build"], wanted)


def serve_side_by_side(folder):
    """Each with files, a port and backups of its own; wanna-build finds also the one that its settings do not name, and
    one page shows both."""
    with Machine(folder) as machine:
        for suite in SUITES:
            machine.office(suite, "create")
            lines = f"add-arch amd64 linux amd64\nadd-builder b1 amd64\nenter amd64 of-{suite} 1.0 optional devel\n"
            lines += "add-arch arm64 linux arm64\n" if suite == "sid" else ""
            machine.office(suite, "run", lines=lines)
            machine.office(suite, "start")
        for suite, other in (SUITES, SUITES[::-1]):
            status, _ = machine.office(suite, "status")
            expect(f"port {machine.ports[suite]}: answers" in status, f"{suite} is not served: {status}")
            said, _ = machine.listed(suite)
            expect(f"of-{suite}" in said and f"of-{other}" not in said, f"wanna-build -d {suite} says {said}")
        urls = (word for suite in SUITES for word in ("--url", f"{suite}=http://127.0.0.1:{machine.ports[suite]}"))
        page, _ = call([BIN / "wb-status", *urls, "--arch", "amd64", "--arch", "arm64"])
        heads = re.findall("<h2 [^>]*>(.*?)</h2>", page)
        expect(heads == ["sid amd64", "sid arm64", "experimental amd64"], f"the page has {heads}")
        expect(all(page.count(f"<b>of-{suite}</b>") == 1 for suite in SUITES), "the page lacks a package")
        machine.office("experimental", "backup", "--stop")
        expect(not list((folder / "lib/sid/backups").iterdir()), "the backup is not of its suite")
        machine.office("experimental", "stop")
        machine.office("sid", "status")
        machine.office("experimental", "status", wanted=3)


def are_refused_if_they_are_unknown(folder):
    with Machine(folder) as machine:
        for suite, message in [("stable", "the settings cannot be read"), ("../x", "is no name of a suite")]:
            expect(message in machine.office(suite, "status", wanted=2)[1], f"of {suite} it is not said: {message}")
        for suite in ("stable", "wanna-build", "../etc/experimental"):
            machine.listed(suite, 1)
        _, said = call([BIN / "office", "--suite", "sid", "--settings", "x", "status"], 2)
        expect("not allowed with" in said, said)


def have_settings_and_units_in_the_package(folder):
    """The shipped settings, filled in as they say, are of a unit that the package has, and of folders that it makes."""
    made, _ = call([ROOT / "tools/dev/make-deb", "--program", program(), "--into", folder])
    call(["dpkg-deb", "-x", made.strip(), folder / "root"])
    text = (folder / "root/usr/share/doc/wb/examples/suite.conf").read_text().replace("SUITE", "experimental")
    (folder / "experimental.conf").write_text(text.replace("#MERGE", "MERGE").replace("#PAGE", "PAGE"))
    settings = read_settings(folder / "experimental.conf")
    expect(settings.unit == "wb@experimental.service" and settings.merge and settings.page, f"it is {settings}")
    units = folder / "root/usr/lib/systemd/system"
    unit = (units / "wb@.service").read_text().replace("%i", "experimental")
    expect("/etc/wb/office.conf" not in unit and "EnvironmentFile=/etc/wb/experimental.conf" in unit, unit)
    places = re.search("^StateDirectory=(.*)$", unit, re.M)[1].split()
    wanted = [str(path) for path in (settings.store.parent, settings.backups, settings.lists)]
    expect([f"/var/lib/{place}" for place in places] == wanted, f"the folders are {places} and {wanted}")
    expect(unit.count("\n") == (units / "wb.service").read_text().count("\n"), "the units differ in more than these")
    expect(not (folder / "root/etc/systemd").exists(), "the package enables a unit")
    for name in ("merge", "report", "page", "prune", "index"):
        service, timer = ((units / f"wb-{name}@.{kind}").read_text() for kind in ("service", "timer"))
        used = re.findall(r"\$\{?([A-Z]+)", service)
        expect(all(hasattr(settings, key.lower()) for key in used), f"wb-{name} uses {used}")
        expect("${PORT}" not in service or "\nEnvironment=PORT=8080\n" in service, f"wb-{name} without PORT: {service}")
        expect("WantedBy=timers.target" in timer and f"wb-{name}@office.timer" in timer, f"the timer is {timer}")
        for program_file in re.findall("^ExecStart=(/[^ ]+)", service, re.M):
            expect((folder / "root" / program_file[1:]).exists(), f"wb-{name} calls {program_file}")


def have_units_that_can_be_verified(folder):
    if not shutil.which("systemd-analyze"):
        raise LeftOut("systemd-analyze is not installed, and verified no unit")
    made, _ = call([ROOT / "tools/dev/make-deb", "--program", program(), "--into", folder])
    root = folder / "root"
    call(["dpkg-deb", "-x", made.strip(), root])
    units = []
    place = root / "usr/lib/systemd/system"
    for unit in [*sorted(place.glob("*@.*")), place / "wb-web.service"]:
        text = re.sub(r"/usr/(s?bin|share/wb)/([a-z]\S*)", lambda found: f'"{root}{found[0]}"', unit.read_text())
        units.append(folder / unit.name.replace("@", "@sid"))
        units[-1].write_text(text)
    expect(len(units) == 12, f"the units are {units}")
    _, noted = call(["systemd-analyze", "--man=no", "verify", *units])
    expect("wb" not in noted, f"it says {noted}")
    return None


def rotate_journals_and_messages(folder):
    """logrotate takes the shipped file; without a stop the program begins a new journal, and the messages go on in
    their file."""
    rotate = shutil.which("logrotate", path=f"{os.environ['PATH']}:/usr/sbin")
    if rotate is None:
        raise LeftOut("logrotate is not installed")
    with Machine(folder) as machine:
        place = folder / "lib/sid"
        with open(machine.settings / "sid.conf", "a", encoding="utf-8") as settings:
            settings.write(f"JOURNAL={place}/office.journal\n")
        machine.office("sid", "create")
        machine.office("sid", "run", lines="add-arch amd64 linux amd64\nadd-builder b1 amd64\n")
        machine.office("sid", "start")
        (place / "messages").write_text("a message\n")
        text = (ROOT / "packaging/wb.logrotate").read_text().replace("/var/lib/wb", str(folder / "lib"))
        (folder / "rotate").write_text(re.sub("\n    su wb wb", "", text))
        folder.chmod(0o755)
        (folder / "rotate").chmod(0o644)
        call([rotate, "--force", "--state", folder / "state-of-logrotate", folder / "rotate"])
        expect((place / "office.journal.1").exists() and not (place / "office.journal").exists(), "the journal stays")
        expect((place / "messages.1").read_text() == "a message\n", "the messages were not copied")
        url = f"http://127.0.0.1:{machine.ports['sid']}/v1/report"
        with urllib.request.urlopen(urllib.request.Request(url, b'{"arch":"amd64","text":""}'), timeout=30) as answer:
            answer.read()
        expect("report" in (place / "office.journal").read_text(), "no new journal begins")
    return None


TESTS = [
    serve_side_by_side, are_refused_if_they_are_unknown, have_settings_and_units_in_the_package,
    have_units_that_can_be_verified, rotate_journals_and_messages,
]

if __name__ == "__main__":
    sys.exit(main(TESTS))
