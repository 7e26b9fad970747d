#!/usr/bin/env python3
"""Tests of ./check around its gate and its scripts, for which stand-ins are called: what is counted, what was left out,
and how it ends; and of what it installs for the tests, with stand-ins for apt-get and dpkg, which ask no network.

    tools/tests/test_check.py [NAME..]     these tests, or all
"""
import os
import re
import shutil
import subprocess
import sys
import time

from harness import DEV, ROOT, expect, expect_none, main

INSTALL = DEV / "install-test-packages"
PACKAGES = re.findall(r'^    "([a-z0-9-]+): ', INSTALL.read_text(encoding="utf-8"), re.M)


def put(file, text):
    file.parent.mkdir(parents=True, exist_ok=True)
    file.write_text(f"#!/bin/sh\n{text}\n")
    file.chmod(0o755)


# ---- ./check


def checked(folder, gate="echo '5 passed, 0 failed'", install="exit 0", **says):
    """The status and the lines of ./check in a repository whose scripts print `ok NAME`, or what they are given."""
    shutil.rmtree(folder / "repository", ignore_errors=True)
    here = folder / "repository"
    put(folder / "bin" / "rt", gate)
    put(here / "tools/dev/install-test-packages", install)
    text = (ROOT / "check").read_text(encoding="utf-8")
    names = re.search(r"scripts=\((.*?)\)", text, re.S)[1].split()
    for name in names:
        put(here / "tools/tests" / name, says.get(name.partition(".")[0], f"echo 'ok {name}'"))
    shutil.copy(ROOT / "check", here)
    words = {"env": {**os.environ, "PATH": f"{folder}/bin:{os.environ['PATH']}"}, "capture_output": True, "text": True}
    done = subprocess.run([here / "check"], check=False, **words)
    return done.returncode, done.stdout.splitlines(), len(names), done.stderr


def counts_the_gate_and_the_scripts(folder):
    """Passed and failed tests of both stand in the last line, also of a script that ends before it says what failed."""
    status, lines, count, _ = checked(folder)
    expect((status, lines[-1]) == (0, f"{count + 5} passed, 0 failed"), f"{status}: {lines[-3:]}")
    expect("left out" not in lines[-2], f"nothing was left out: {lines[-3:]}")
    status, lines, count, _ = checked(folder, test_run="echo 'ok a'; echo 'failed b: no'; exit 1", test_web="exit 1")
    expect((status, lines[-1]) == (1, f"{count + 4} passed, 2 failed"), f"{status}: {lines[-3:]}")
    again = ["What failed in the scripts:", "failed b: no", "check: test_web.py ended with status 1"]
    expect(lines[-4:-1] == again, f"what failed is not said once more at the end: {lines[-4:]}")
    status, lines, _, _ = checked(folder, gate="echo '5 passed, 1 failed'; exit 1")
    expect((status, lines[-1], len(lines)) == (1, "5 passed, 1 failed", 2), f"{status}: {lines}")


def names_what_was_left_out(folder):
    """The line before the last has how many tests were left out, and their names."""
    page = "echo 'left out page_fits: no chromium is installed'; echo 'ok page_has'; echo '1 passed, 0 failed'"
    web = "echo 'left out web_serves: Flask: it is missing'; echo '0 passed, 0 failed, 1 left out'; exit 0"
    status, lines, count, _ = checked(folder, test_page=page, test_web=web)
    expect((status, lines[-1]) == (0, f"{count - 1 + 5} passed, 0 failed"), f"{status}: {lines[-3:]}")
    expect(lines[-2] == "2 left out: page_fits web_serves", lines[-2])


def goes_on_without_packages(folder):
    """What could not be installed is said, and fails nothing; it is installed before the first test."""
    status, lines, count, said = checked(folder, install="echo 'chromium is missing' >&2; exit 1")
    expect((status, lines[-1]) == (0, f"{count + 5} passed, 0 failed"), f"{status}: {lines[-3:]}")
    expect("chromium is missing" in said, said)
    lines = checked(folder, install="echo installed")[1]
    expect(lines.index("installed") < lines.index("ok test_shipped_program.py"), f"{lines}")


# ---- what is installed

DPKG = """
for name in "$@"; do :; done
grep -qx -- "$name" "$STATE/installed" && printf installed || { echo "no package $name" >&2; exit 1; }"""
APT = """
echo "$*" >> "$STATE/calls"
case " $* " in
    *" --no-download "*) ;;
    *) [ ! -e "$STATE/hangs" ] || exec sleep 60 ;;
esac
case " $* " in
    *" update "*) rm -f "$STATE/old"; exit 0 ;;
esac
[ ! -e "$STATE/old" ] || exit 100
case " $* " in
    *" --download-only "*) given=archive put=here ;;
    *" --no-download "*) given=here put=installed ;;
esac
while [ "$1" != install ]; do shift; done; shift
for name in "$@"; do grep -qx -- "$name" "$STATE/$given" || exit 100; done
for name in "$@"; do echo "$name" >> "$STATE/$put"; done"""


def installed(folder, lacks, *words, user=0, seconds="60", **files):
    """The status, the messages, the calls of apt-get and what is installed, where these packages are lacking."""
    state = folder / "state"
    shutil.rmtree(state, ignore_errors=True)
    state.mkdir()
    (state / "installed").write_text("".join(f"{name}\n" for name in PACKAGES if name not in lacks))
    for name, text in ({"here": "", "archive": "\n".join(PACKAGES)} | files).items():
        (state / name).write_text(text)
    for name, text in (("dpkg-query", DPKG), ("apt-get", APT), ("id", f"echo {user}")):
        put(folder / "bin" / name, text)
    variables = {"PATH": f"{folder}/bin:/usr/bin:/bin", "STATE": str(state), "WAIT": seconds}
    done = subprocess.run([INSTALL, *words], env=variables, capture_output=True, text=True, check=False)
    calls = (state / "calls").read_text().splitlines() if (state / "calls").exists() else []
    return done.returncode, done.stderr, calls, (state / "installed").read_text().split()


def installs_what_is_missing(folder):
    """Root gets what is missing, after an update if the lists are old; what apt does not have is named."""
    status, said, calls, _ = installed(folder, [])
    expect((status, said, calls) == (0, "", []), f"all are there: {status}, {said}, {calls}")
    for files in ({}, {"old": ""}):
        status, said, calls, there = installed(folder, ["chromium", "strace"], **files)
        expect(status == 0 and set(there) == set(PACKAGES), f"{status}: {said}")
        expect(("update" in "".join(calls)) == bool(files), f"{calls}")
        kinds = ("--download-only", "--no-download", "update")
        expect_none(call for call in calls if not any(kind in call for kind in kinds))
    status, said, _, there = installed(folder, ["chromium", "strace"], archive="chromium\nman-db\n")
    expect(status == 1 and "strace is missing; not tried without it: reads that fail" in said, said)
    expect("chromium" in there and "chromium is missing" not in said, said)


def names_what_it_may_not_install(folder):
    """Whoever is not root, only looks, or gives no time for a network is told what is missing, and no apt is called."""
    for words, options in (([], {"user": 1000}), (["--look"], {}), ([], {"seconds": "0"})):
        status, said, calls, _ = installed(folder, ["chromium", "lintian"], *words, **options)
        expect((status, calls) == (1, []), f"{words}, {options}: {status}, {calls}")
        expect("chromium is missing; not tried without it: pages in a browser" in said, said)
        expect("to install them, as root: apt-get install lintian chromium" in said, said)
    expect(installed(folder, [], "--help")[0] == 2, "another word")


def waits_for_no_network(folder):
    """Where a network does not answer, all calls that ask it end in the time that is given; what came is installed."""
    begun, lacking = time.monotonic(), PACKAGES[:4]
    status, said, calls, there = installed(folder, lacking, seconds="2", hangs="", here=f"{PACKAGES[2]}\n")
    expect(status == 1 and time.monotonic() - begun < 20, f"{status} after {time.monotonic() - begun:.0f} s: {calls}")
    expect([name for name in lacking if f"{name} is missing" in said] == [*lacking[:2], lacking[3]], said)
    expect(PACKAGES[2] in there, f"what came before is not installed: {there}")


def is_what_the_documents_say():
    """The table of docs/TESTING.md has the same packages."""
    text = (ROOT / "docs/TESTING.md").read_text(encoding="utf-8")
    table = text.partition("| Debian package |")[2].partition("\n\n")[0]
    met = {name for row in table.splitlines()[2:] for name in re.findall("`([a-z0-9-]+)`", row.split("|")[1])}
    expect(met == set(PACKAGES), f"docs/TESTING.md has {sorted(met ^ set(PACKAGES))} and the script has not, or so")


TESTS = [
    counts_the_gate_and_the_scripts, names_what_was_left_out, goes_on_without_packages, installs_what_is_missing,
    names_what_it_may_not_install, waits_for_no_network, is_what_the_documents_say,
]

if __name__ == "__main__":
    sys.exit(main(TESTS))
