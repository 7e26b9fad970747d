#!/usr/bin/env python3
"""Tests of the keys of an office as its operator keeps them: `tools/bin/office key`, the keys that `create` makes, what
a start refuses, and what an upgrade of the package adds. No office is served. Each test has a folder of its own, and
the files of the office are in another in it, with a blank in its name.

    tools/tests/test_office_keys.py [NAME..]     these tests, or all

From the environment: WB is the program, crates/wb/out/wb of this repository where it is not set; it begins the offices
of a few tests, and the package is made of it.
"""
import contextlib
import fcntl
import hashlib
import io
import os
import pwd
import random
import re
import shutil
import stat
import subprocess
import sys
import threading
import time
from pathlib import Path

from harness import BIN, DEV, ROOT, SEED, LeftOut, call, expect, limit_files, main, program
from key_model import KEY, Keys, Malformed
from key_runs import BAD, HASH, OPEN_MODES, hash_of, holders, key, lines_of, put
from package_runs import OFFICE, wait_until
from wb_tools.office import keys
from wb_tools.office.keys import checked, parse
from wb_tools.office.settings import Refusal, read_settings

HEAD = "# Who may ask this office for what: NAME RIGHT.. HASH, kept by office key add, change and remove.\n"


class Desk:
    """The settings of an office with keys, and the command of its operator. The program is not called, unless `wb` is
    given."""

    def __init__(self, folder, wb="/nowhere/wb", **more):
        self.folder = folder / "an office"
        self.folder.mkdir()
        self.keys, self.own = self.folder / "office.keys", self.folder / "operator.key"
        self.conf = folder / "office.conf"
        self.settings = {
            "PROGRAM": wb, "STORE": self.folder / "office.db", "BACKUPS": self.folder / "backups", "PORT": 9,
            "KEYS": self.keys, "KEY_FILE": self.own, "SERVICE": "pidfile", "PID_FILE": self.folder / "wb.pid",
            "LOG": self.folder / "messages", **more,
        }  # fmt: skip
        lines = [f'{name}="{value}"\n' for name, value in self.settings.items() if value is not None]
        self.conf.write_text("".join(lines))

    def do(self, *words, wanted=0, **options):
        return call([OFFICE, "--settings", self.conf, *words], wanted, **options)

    def key(self, *words, **options):
        return self.do("key", *words, **options)

    def make(self, name, *rights):
        """Adds a key, and gives it."""
        return self.key("add", name, *rights)[0].removesuffix("\n")

    def has(self, text, what="the file"):
        """That the file of keys has these lines."""
        met = self.keys.read_text()
        expect(met == text, f"{what} is {met!r} in place of {text!r}")

    def refuses(self, message, *words, wanted=1, **options):
        """That a call is refused with this message, prints nothing, and leaves all files as they are."""
        before = self.files()
        said, noted = self.key(*words, wanted=wanted, **options)
        expect(message in noted and not said and "Traceback" not in noted, f"{words}: it says {said}{noted}")
        expect(self.files() == before, f"{words}: it changes the files")
        return noted

    def files(self):
        """The files of the office, but for the lock, with their bytes and modes."""
        found = [path for path in self.folder.rglob("*") if path.is_file() and path.suffix != ".lock"]
        return {path: (path.read_bytes(), path.stat().st_mode) for path in found if os.access(path, os.R_OK)}


def sum_of(text):
    return hashlib.sha256(text.encode()).hexdigest()


def mode_of(path):
    return stat.S_IMODE(path.stat().st_mode)


# ---- adding, changing, removing, listing


def print_a_key_once_and_keep_its_hash(folder):
    """A key is printed alone on standard output, is as long and of such bytes as a request may show, and stands
    nowhere; the line has its hash. No two are alike."""
    desk, met = Desk(folder), set()
    for name, rights in (("b1", ["build=b1"]), ("p", ["port=amd64", "port=i386"]), ("o", ["operate"]), ("r", ["read"])):
        said, noted = desk.key("add", name, *rights)
        made = said.removesuffix("\n")
        expect(said.endswith("\n") and KEY.match(made.encode()) and len(made) >= 40, f"it prints {said!r}")
        expect(made not in noted and made not in desk.keys.read_text(), "the key stands elsewhere too")
        expect(desk.keys.read_text().splitlines()[-1] == f"{name} {' '.join(rights)} {sum_of(made)}", f"of {name}")
        expect(Keys(desk.keys.read_bytes()).name([f"Bearer {made}".encode()]) == name, "a second reading")
        met.add(made)
    expect(len(met) == 4, f"the keys are {met}")
    expect(sorted(path.name for path in desk.folder.iterdir()) == ["office.keys", "office.keys.lock"], "what is left")


def are_kept_from_others(folder):
    """The file has the mode 0600, whatever the umask and the mode of its lock, and after each change."""
    desk = Desk(folder)
    for words in (("add", "b1", "read"), ("change", "b1", "operate"), ("add", "*", "read"), ("remove", "b1")):
        desk.key(*words, umask=0)
        expect(mode_of(desk.keys) == 0o600, f"{words}: mode {mode_of(desk.keys):04o}")
    expect(mode_of(desk.folder / "office.keys.lock") == 0o600, "the lock")
    desk.keys.chmod(0o400)
    desk.key("add", "b2", "read")
    expect(mode_of(desk.keys) == 0o600, "a file that could not be written")


def belong_to_the_owner_of_the_office(folder):
    """If root calls, the files are made and read by OWNER: a file of root alone is not opened."""
    if os.geteuid() != 0:
        raise LeftOut("root does not call")
    owner = pwd.getpwnam("nobody")
    folder.chmod(0o755)
    desk = Desk(folder, OWNER="nobody")
    os.chown(desk.folder, owner.pw_uid, owner.pw_gid)
    desk.make("b1", "build=b1")
    desk.key("change", "b1", "read")
    wrong = [path.name for path in desk.folder.iterdir() if path.stat().st_uid != owner.pw_uid]
    expect(not wrong and mode_of(desk.keys) == 0o600, f"these are not the owner's: {wrong}")
    put(desk.keys, lines_of({"b1": "read"}))
    for words in (["list"], ["add", "b2", "read"]):
        desk.refuses("are not read: Permission denied", *words)


def change_one_line_alone(folder):
    """Comments, blank lines, the order and the form of all other lines stay."""
    desk = Desk(folder)
    other = f"\tb2  build=b2\t{hash_of('b2')}"
    put(desk.keys, f"# mine\n\nb1 read {hash_of('b1')}\n{other}\n* read\n# end")
    desk.key("change", "b1", "build=b1", "port=amd64", "build=b1")
    desk.has(f"# mine\n\nb1 build=b1 port=amd64 {hash_of('b1')}\n{other}\n* read\n# end\n", "after a change")
    made = desk.make("b3", "build=b3")
    desk.key("change", "*", "operate")
    last = f"b3 build=b3 {sum_of(made)}\n"
    mine = f"b1 build=b1 port=amd64 {hash_of('b1')}"
    desk.has(f"# mine\n\n{mine}\n{other}\n* operate\n# end\n{last}", "after an addition")
    desk.key("remove", "b1")
    desk.has(f"# mine\n\n{other}\n* operate\n# end\n{last}", "after a removal")
    desk.key("remove", "*")
    desk.key("add", "*", "read")
    desk.has(f"# mine\n\n{other}\n# end\n{last}* read\n", "the line * anew")
    said, _ = desk.key("add", "*", "read", "port=amd64")
    expect(not said, f"the line * has no key, and {said!r} is printed")
    desk.has(f"# mine\n\n{other}\n# end\n{last}* read port=amd64\n", "the line * added again")


def list_names_and_rights(folder):
    """The list has no key, and of a hash its front alone, by which nobody gets further."""
    desk = Desk(folder)
    made = desk.make("builder-one", "build=b1", "port=amd64")
    desk.key("add", "*", "read")
    said, noted = desk.key("list")
    front = sum_of(made)[:8]
    rows = [line.split() for line in said.splitlines()]
    wanted = [["NAME", "HASH", "RIGHTS"], ["builder-one", front, "build=b1", "port=amd64"], ["*", "read"]]
    expect(rows == wanted and not noted, f"the list is {said}{noted}")
    expect(sum_of(made)[:9] not in said and made not in said, "more of the hash is told")
    expect(len({line.index(word) for line, word in zip(said.splitlines(), ("RIGHTS", "build=", "read"))}) == 1, said)


def say_what_is_missing(folder):
    """What a change leaves that an operator may not want is said: nobody who may do everything, and no line *."""
    desk = Desk(folder)
    expect("there is no line *" in desk.key("add", "operator", "operate")[1], "the first key")
    _, noted = desk.key("add", "b1", "read")
    expect("there is no line *" not in noted, f"it is said of the second: {noted}")
    wanted = "no line has the right operate"
    expect(wanted in desk.key("change", "operator", "read")[1], "a change")
    expect(wanted not in desk.key("change", "b1", "operate")[1], "one is left")
    expect(wanted in desk.key("remove", "b1")[1], "a removal")


def dry_run_makes_nothing(folder):
    desk = Desk(folder)
    said, noted = desk.do("--dry-run", "key", "add", "b1", "read")
    expect(not said and "would make a key for b1 (read)" in noted and not desk.keys.exists(), f"{said}{noted}")
    put(desk.keys, lines_of({"b1": "read"}))
    before = desk.files()
    for words in (("add", "b2", "read"), ("add", "*", "operate"), ("change", "b1", "operate"), ("remove", "b1")):
        for front in (["--dry-run", "key", words[0]], ["key", words[0], "--dry-run"]):
            said, noted = desk.do(*front, *words[1:])
            expect(not said and "would " in noted, f"{front}: {said}{noted}")
            expect(desk.files() == before, f"{front}: it changes the files")


# ---- what is refused


RIGHTS_OF_NONE = [
    "write", "read=x", "operate=", "build", "build=", "build=.x", f"build={'x' * 65}", "build=a/b", "port=",
    "port=AMD64", "port=any", "port=all", "port=source", "Read", "*", HASH, "read ", "read\nx operate", "build=b\n", "",
]
NAMES_OF_NONE = ["", ".x", "-x", "a b", "a/b", "x" * 65, "é", "a\n", "#", "**", "a\tread"]


def refuse_words(folder):
    """Rights and names that are malformed, with status 2 and before a file is looked at."""
    desk = Desk(folder)
    put(desk.keys, lines_of({"b1": "read"}))
    cases = [("x", ["read", right]) for right in RIGHTS_OF_NONE] + [(name, ["read"]) for name in NAMES_OF_NONE]
    for name, rights in cases:
        with contextlib.suppress(Refusal):
            expect(not checked(name, rights), f"{name!r} may have the rights {rights}")
    expect(", which is read, build=BUILDER, port=ARCH or operate" in desk.refuses("", "add", "x", "w", wanted=2), "why")
    expect("is no name: 1 to 64 of" in desk.refuses("", "add", "--", "-x", "read", wanted=2), "why no name")
    desk.refuses("'read\\nx operate' is no right", "change", "b1", "read\nx operate", wanted=2)
    for words in ([], ["add", "x"], ["change", "x"], ["remove"], ["remove", "x", "y"], ["list", "x"], ["no"]):
        desk.refuses("usage:", *words, wanted=2)
    desk.make("x" * 64, "build=" + "y" * 64, "port=" + "z" * 40)
    desk.key("list")


def refuse_names_that_are_there_or_not(folder):
    desk = Desk(folder)
    put(desk.keys, lines_of({"b1": "read"}))
    desk.refuses("b1 stands in ", "add", "b1", "operate")
    for what in (["change", "b2", "read"], ["remove", "b2"], ["remove", "B1"]):
        desk.refuses(f"{what[1]} does not stand in ", *what)
    put(desk.keys, lines_of({"b1": "read"}, anyone=None))
    desk.refuses("* does not stand in ", "remove", "*")
    desk.refuses("* does not stand in ", "change", "*", "read")


def refuse_without_a_file(folder):
    """Without KEYS there is nothing to keep; a file that is not there is made by the first addition alone."""
    desk = Desk(folder)
    desk.refuses("there is no such file; office key add makes one", "list")
    for words in (["change", "b1", "read"], ["remove", "b1"]):
        desk.refuses("b1 does not stand in ", *words)
    expect(not desk.keys.exists(), "a file is made")
    (folder / "other").mkdir()
    bare = Desk(folder / "other", KEYS=None)
    for words in (["add", "b1", "read"], ["change", "b1", "read"], ["remove", "b1"], ["list"]):
        bare.refuses("has no KEYS, so the office lets all requests through", *words, wanted=2)
    (folder / "third").mkdir()
    Desk(folder / "third", KEYS=folder / "none/keys").refuses("No such file or directory", "add", "b1", "read")


def refuse_what_a_second_reading_refuses(folder):
    """A file that the program does not serve with is refused by each word, with the same line, and stays as it is."""
    for text in BAD:
        data = text if isinstance(text, bytes) else text.encode()
        met = [refusal_of(reading, data, error) for reading, error in ((Keys, Malformed), (parse, ValueError))]
        expect(met[0] and met[0].split(": ")[0] == met[1].split(": ")[0], f"{data[:80]}: {met}")
    desk = Desk(folder)
    put(desk.keys, f"* read\n\nb1 read {hash_of('b1')}\nb1 operate {HASH}\n")
    for words in (["list"], ["add", "b2", "read"], ["change", "b1", "read"], ["remove", "b1"]):
        desk.refuses(f"the keys in {desk.keys} are not read: line 4: the name b1 stands on an earlier line", *words)
    return f"{len(BAD)} files"


def refusal_of(reading, data, error):
    """Why a reading refuses a file; empty if it takes it."""
    try:
        reading(data)
    except error as why:
        return str(why)
    return ""


def refuse_open_files(folder):
    """A file that others may read or write is not mended silently: who may have read it knows hashes, and who may have
    written it has a line."""
    desk = Desk(folder)
    for mode in OPEN_MODES:
        put(desk.keys, lines_of({"b1": "read"}), mode)
        for words in (["list"], ["add", "b2", "read"], ["remove", "b1"]):
            desk.refuses(f"its group or others may read or write it (mode {mode:04o}): give it the mode 0600", *words)
    desk.keys.unlink()
    desk.keys.mkdir()
    desk.refuses("are not read: Is a directory", "add", "b2", "read")
    desk.keys.rmdir()
    os.mkfifo(desk.keys, 0o600)
    desk.refuses("it is no regular file", "list")
    desk.refuses("it is no regular file", "add", "b2", "read")
    expect(stat.S_ISFIFO(desk.keys.lstat().st_mode), "it is replaced")


def know_their_limits(folder):
    """A thousand lines with a key, besides the line * and comments, and a mebibyte."""
    desk = Desk(folder)
    put(desk.keys, lines_of({f"k{at}": "read" for at in range(999)}))
    desk.make("last", "read")
    desk.refuses("there are more than 1000 lines with a key", "add", "more", "read")
    desk.key("change", "*", "operate")
    desk.key("change", "last", "operate")
    desk.key("remove", "k0")
    desk.make("more", "read")
    Keys(desk.keys.read_bytes())
    line = f"b1 read {hash_of('b1')}\n"
    size = 1048576 - len(line) - 1
    put(desk.keys, line + "#" * size + "\n")
    desk.key("list")
    desk.refuses("it would have more than 1048576 bytes", "add", "b2", "read")
    put(desk.keys, line + "#" * (size + 1) + "\n")
    desk.refuses("it has more than 1048576 bytes", "list")


# ---- several at once, and calls that are broken off


def stand_after_many_calls_at_once(folder):
    """Each of many additions and removals at once stands, and whoever reads the file meanwhile finds it whole."""
    desk, ends, amiss = Desk(folder), threading.Event(), []
    put(desk.keys, lines_of({f"old{at}": "read" for at in range(8)} | {"operator": "operate"}))

    def look():
        while not ends.is_set():
            try:
                names = {name for name, _ in Keys(desk.keys.read_bytes()).by_hash.values()}
                amiss.extend([] if "operator" in names and mode_of(desk.keys) == 0o600 else [f"{names}"])
            except (Malformed, OSError) as why:
                amiss.append(str(why))

    watch = threading.Thread(target=look)
    watch.start()
    words = [["add", f"new{at}", "read"] for at in range(8)] + [["remove", f"old{at}"] for at in range(8)]
    random.Random(SEED + 7).shuffle(words)
    full = [[OFFICE, "--settings", desk.conf, "key", *one] for one in words]
    calls = [subprocess.Popen(one, stdout=subprocess.PIPE, stderr=subprocess.PIPE) for one in full]
    said = [process.communicate() for process in calls]
    ends.set()
    watch.join()
    expect(not any(process.returncode for process in calls), f"{said}")
    expect(not amiss, f"who reads it finds {amiss[:3]}")
    found = Keys(desk.keys.read_bytes())
    names = {name for name, _ in found.by_hash.values()}
    expect(names == {"operator"} | {f"new{at}" for at in range(8)}, f"there are {names}")
    printed = [out.decode().strip() for out, _ in said if out]
    expect(len(printed) == 8 and all(found.name([f"Bearer {one}".encode()]) for one in printed), "a key was lost")


def wait_for_another_call(folder):
    """A call waits for one that changes the file, and says so if that takes long; a list waits for nobody."""
    desk = Desk(folder)
    put(desk.keys, lines_of({"b1": "read"}))
    with open(desk.folder / "office.keys.lock", "ab") as lock:
        (desk.folder / "office.keys.lock").chmod(0o600)
        fcntl.flock(lock, fcntl.LOCK_EX)
        desk.key("list")
        began = time.monotonic()
        desk.refuses("another call has changed ", "add", "b2", "read")
        expect(5 < time.monotonic() - began < 40, "it does not wait")
        waiting = subprocess.Popen(
            [OFFICE, "--settings", desk.conf, "key", "remove", "b1"], stdout=subprocess.PIPE, stderr=subprocess.PIPE
        )
        time.sleep(0.5)
        put(desk.keys, lines_of({"b1": "read", "b3": "read"}))  # what the other call changes
        fcntl.flock(lock, fcntl.LOCK_UN)
        waiting.communicate(timeout=30)
    desk.has(lines_of({"b3": "read"}), "what the other call wrote")


STEPS = [(os, "open"), (os, "fsync"), (os, "rename"), (keys, "print_key"), (keys, "sync_folder")]


def keep_what_was_there_if_a_call_is_killed(folder):
    """A call that is killed before or after any of its steps leaves the file of before, or that of after, of mode 0600;
    what is left beside it stops no later call."""
    path, changed = folder / "office.keys", 0
    for module, name in STEPS:
        for is_after in (False, True):
            put(path, lines_of({"operator": "operate"}))
            before = path.read_bytes()
            killed_at(module, name, is_after, lambda: keys.Desk(path, lambda _: True).add("b1", ["build=b1"]))
            after = path.read_bytes()
            is_new = after != before
            expect(not is_new or re.fullmatch(re.escape(before) + rb"b1 build=b1 [0-9a-f]{64}\n", after), f"{after}")
            expect(mode_of(path) == 0o600, f"mode {mode_of(path):04o}")
            expect(is_new == (name in ("rename", "sync_folder") and (is_after or name == "sync_folder")), f"at {name}")
            changed += is_new
    put(folder / ".office.keys.new", "what a call left\n", 0o644)
    with contextlib.redirect_stderr(io.StringIO()):
        keys.Desk(path, lambda _: True).change("operator", ["read"])
    left = sorted(found.name for found in folder.iterdir())
    expect(left == ["office.keys", "office.keys.lock"] and mode_of(path) == 0o600, f"there is {left}")
    return f"{changed} of {2 * len(STEPS)} had changed it"


def killed_at(module, name, is_after, call_of):
    """Has a process of its own call this, and end at once before or after it first calls a function."""
    process = os.fork()
    if process:
        expect(os.waitpid(process, 0)[1] == 9 << 8, f"{name} is not called, or something fails")
        return
    try:
        os.dup2(os.open(os.devnull, os.O_WRONLY), 2)
        keys.print_key = lambda _: None
        whole = getattr(module, name)

        def ending(*words, **more):
            if is_after:
                whole(*words, **more)
            os._exit(9)

        setattr(module, name, ending)
        call_of()
    finally:
        os._exit(1)


def keep_what_was_there_on_a_full_disk(folder):
    """A file that cannot be written whole replaces nothing, and no key is printed for it; and where the key cannot be
    printed, no line is added for it."""
    desk = Desk(folder)
    put(desk.keys, lines_of({"operator": "operate"}))
    desk.refuses("File too large", "add", "b1", "read", preexec_fn=limit_files(20))
    desk.refuses("File too large", "change", "operator", "read", preexec_fn=limit_files(20))
    before = desk.files()
    words = [OFFICE, "--settings", desk.conf, "key", "add", "b1", "read"]
    for line, why in (
        ('"$@" >/dev/full', "No space left on device"), ('"$@" >&-', "standard output is closed"),
        ('"$@" | exec true; exit "${PIPESTATUS[0]}"', "Broken pipe"),
    ):
        options = {"capture_output": True, "text": True, "timeout": 60, "check": False}
        done = subprocess.run(["bash", "-c", line, "bash", *words], **options)
        expect(done.returncode == 1 and why in done.stderr and "Traceback" not in done.stderr, f"{line}: {done.stderr}")
        expect(desk.files() == before, f"{line}: a line was added whose key nobody has")


def follow_a_link_and_make_no_other(folder):
    """The file that a link names is replaced, and the link stays; a link in place of the new file is not followed."""
    desk = Desk(folder)
    real = folder / "elsewhere"
    put(real, lines_of({"b1": "read"}))
    desk.keys.symlink_to(real)
    desk.make("b2", "read")
    expect(desk.keys.is_symlink() and "b2 read" in real.read_text() and mode_of(real) == 0o600, "the link is replaced")
    victim = folder / "victim"
    victim.write_text("whole")
    (folder / ".elsewhere.new").symlink_to(victim)
    desk.make("b3", "read")
    expect(victim.read_text() == "whole" and "b3 read" in real.read_text(), "a link was followed")


# ---- an office that is made, and its start


def are_made_with_an_office(folder):
    """`create` makes the key of the operator, who may do everything, and lets everybody else read."""
    desk = Desk(folder, program(), KEYS=folder / "an office/more/office.keys")
    desk.keys = folder / "an office/more/office.keys"
    _, noted = desk.do("--dry-run", "create")
    expect("would make the key of the operator" in noted and not list(desk.folder.iterdir()), "a dry run")
    said, noted = desk.do("create", umask=0)
    made = desk.own.read_text()
    expect(KEY.match(made.removesuffix("\n").encode()) and made.count("\n") == 1, f"the key is {made!r}")
    desk.has(f"{HEAD}operator operate {sum_of(made.strip())}\n* read\n")
    expect(mode_of(desk.keys) == mode_of(desk.own) == 0o600, "the modes")
    expect(not mode_of(desk.keys.parent) & 0o007, "others may look into the folder")
    expect(made.strip() not in said + noted, "the key is told")
    expect(f"keys: {desk.keys}" in desk.do("status", wanted=3)[0], "the status names no keys")
    desk.do("ready")
    saved = Path(desk.do("backup")[0].strip())
    files = holders(saved, made.strip()) + holders(saved, sum_of(made.strip()))
    expect((saved / "office.db").exists() and not files, f"a backup has keys: {files}")


def that_are_there_are_not_made(folder):
    """Keys that are there stay, and a key of the operator that is there is taken; one that is none is refused."""
    desk = Desk(folder, program())
    put(desk.own, f"{key('mine')}\n")
    desk.do("create")
    desk.has(f"{HEAD}operator operate {hash_of('mine')}\n* read\n")
    expect(desk.own.read_text() == f"{key('mine')}\n", "the key was replaced")
    for file in desk.folder.glob("office.db*"):
        file.unlink()
    text = lines_of({"b1": "operate"})
    put(desk.keys, text)
    _, noted = desk.do("create")
    expect("stay as they are" in noted, noted)
    desk.has(text)
    (folder / "other").mkdir()
    other = Desk(folder / "other", program())
    for data, mode in ((f"{key('mine')}\n", 0o640), ("short\n", 0o600), ("", 0o600)):
        put(other.own, data, mode)
        _, noted = other.do("create", wanted=1)
        expect(str(other.own) in noted and key("mine") not in noted, noted)
        expect(not (other.folder / "office.db").exists() and not other.keys.exists(), "something was made")


def want_a_place_for_the_operators_key(folder):
    desk = Desk(folder, program(), KEY_FILE=None)
    _, noted = desk.do("create", wanted=2)
    expect("has KEYS and no KEY_FILE" in noted and not (desk.folder / "office.db").exists(), noted)
    put(desk.keys, lines_of({"b1": "operate"}))
    desk.do("create")
    (folder / "other").mkdir()
    bare = Desk(folder / "other", program(), KEYS=None, KEY_FILE=None)
    _, noted = bare.do("create")
    expect("every program of this machine may send the office any request" in noted, noted)
    expect("keys: none" in bare.do("status", wanted=3)[0], "the status of an office without keys")


def that_are_malformed_start_nothing(folder):
    """`start` and `ready`, which the unit asks, refuse keys that the program would not serve with, and say the line."""
    desk = Desk(folder, program())
    desk.do("create")
    text = desk.keys.read_text()
    for change, message in (
        (lambda: put(desk.keys, f"{text}x read\n"), "line 4: "), (lambda: put(desk.keys, text, 0o644), "(mode 0644)"),
        (desk.keys.unlink, "there is no such file"),
    ):
        change()
        for word in ("start", "ready"):
            _, noted = desk.do(word, wanted=1)
            expect(f"the keys in {desk.keys} are not read: " in noted and message in noted, f"{word}: {noted}")
        expect(not (desk.folder / "wb.pid").exists(), "it is started")


def reach_the_program_by_its_words(folder):
    """The process that serves is started with --keys and the file's name, and without KEYS with none; no word is a
    key."""
    stub = folder / "stub"
    stub.write_text(f'#!/bin/sh\nprintf "%s\\n" "$@" >>\'{folder}/words\'\nenv >>\'{folder}/words\'\ncat >/dev/null\n'
                    "exec sleep 60\n")
    stub.chmod(0o755)
    for name, more in (("with", {}), ("without", {"KEYS": None})):
        (folder / name).mkdir()
        desk = Desk(folder / name, stub, **more)
        put(desk.keys, lines_of({"b1": "read"}))
        put(desk.own, f"{key('operator')}\n")
        (desk.folder / "office.db").write_text("records")
        (folder / "words").write_text("")
        process = subprocess.Popen([OFFICE, "--settings", desk.conf, "keep"], stderr=subprocess.DEVNULL)
        try:
            wait_until(lambda: "PATH=" in (folder / "words").read_text(), "the program is not started")
        finally:
            process.terminate()
            process.wait(timeout=30)
        words = (folder / "words").read_text()
        expect((f"--keys\n{desk.keys}\n" in words) == (name == "with"), f"{name}: the words are {words[:400]}")
        expect(("--keys" in words) == (name == "with") and key("operator") not in words, f"{name}: {words[:400]}")


# ---- the package


def name_a_file_in_each_settings_of_the_package(_folder):
    """The settings of the package name both files, of each suite its own, and the unit gives the program the first."""
    for name, place in (("office.conf", ""), ("suite.conf", "SUITE/")):
        found = read_settings(ROOT / "packaging" / name)
        wanted = (Path(f"/var/lib/wb/{place}office.keys"), Path(f"/var/lib/wb/{place}operator.key"))
        expect((found.keys, found.key_file) == wanted, f"{name}: {found.keys} and {found.key_file}")
    unit = (ROOT / "packaging/wb.service").read_text(encoding="utf-8")
    expect('$${KEYS:+--keys "$$KEYS"}' in unit, "the unit does not leave --keys out by itself")


def unit_gives_the_program_the_words(folder):
    """The command line of the unit, as systemd and the shell read it: --keys stands in it if KEYS is set."""
    unit = (ROOT / "packaging/wb.service").read_text(encoding="utf-8")
    line = re.search(r"^ExecStart=/bin/sh -c '(.*?)'$", unit, re.M | re.S)
    expect(line, "the unit does not start a shell")
    stub = folder / "wb"
    stub.write_text('#!/bin/sh\nprintf "<%s>" "$@"\n')
    stub.chmod(0o755)
    script = line[1].replace("\\\n", " ").replace("$$", "$").replace("/usr/bin/wb", str(stub))
    variables = {"STORE": "/a b", "PORT": "1", "REQUESTS": "2", "JOURNAL": "/dev/null", "LISTS": "/l"}
    front = "<--store></a b><serve><--port><1><--requests><2><--journal></dev/null><--lists></l>"
    for more, rest in (({}, ""), ({"KEYS": ""}, ""), ({"KEYS": "/k k"}, "<--keys></k k>")):
        said, _ = call(["/bin/sh", "-c", script], env={**variables, **more})
        expect(said == front + rest, f"with {more} it is {said}")


def of_an_upgrade_leave_an_office_open(folder):
    """An office that had no keys stays open to all after an upgrade whose settings name some; keys that are there, and
    an office that is yet to be made, stay as they are."""
    said, _ = call([DEV / "make-deb", "--program", program(), "--into", folder / "deb"],
                   env={**os.environ, "SOURCE_DATE_EPOCH": "1776000000"})
    call(["dpkg-deb", "-e", said.strip(), folder / "scripts"])
    commands = folder / "commands"
    commands.mkdir()
    (commands / "wb-office").symlink_to(BIN / "office")
    for name in ("systemd-sysusers", "systemd-tmpfiles", "systemctl", "deb-systemd-invoke"):
        (commands / name).write_text("#!/bin/sh\n")
        (commands / name).chmod(0o755)
    desk = Desk(folder)
    shutil.copy(ROOT / "packaging/wanna-build.conf", folder)
    variables = {**os.environ, "PATH": f"{commands}:{os.environ['PATH']}", "OFFICE_SETTINGS": str(desk.conf)}

    def configure(*words, **more):
        return call([folder / "scripts/postinst", "configure", *words], env={**variables, **more})[1]

    configure("0.1")
    expect(not desk.keys.exists(), "an office that is yet to be made gets keys")
    (desk.folder / "office.db").write_text("records")
    configure("")
    configure("0.1", DPKG_ROOT="/nowhere")
    expect(not desk.keys.exists(), "an installation that is no upgrade, or in a folder, makes keys")
    noted = configure("0.1")
    desk.has("* operate\n")
    expect(mode_of(desk.keys) == 0o600 and "* operate" in noted, noted)
    desk.do("ready")
    expect(read_settings(desk.conf).key.fields() == {}, "a key that was not made is wanted")
    text = lines_of({"b1": "read"})
    put(desk.keys, text)
    configure("0.2")
    desk.has(text)


TESTS = [
    print_a_key_once_and_keep_its_hash, are_kept_from_others, belong_to_the_owner_of_the_office, change_one_line_alone,
    list_names_and_rights,
    say_what_is_missing, dry_run_makes_nothing, refuse_words, refuse_names_that_are_there_or_not, refuse_without_a_file,
    refuse_what_a_second_reading_refuses, refuse_open_files, know_their_limits, stand_after_many_calls_at_once,
    wait_for_another_call, keep_what_was_there_if_a_call_is_killed, keep_what_was_there_on_a_full_disk,
    follow_a_link_and_make_no_other, are_made_with_an_office, that_are_there_are_not_made,
    want_a_place_for_the_operators_key, that_are_malformed_start_nothing, reach_the_program_by_its_words,
    name_a_file_in_each_settings_of_the_package, unit_gives_the_program_the_words, of_an_upgrade_leave_an_office_open,
]

if __name__ == "__main__":
    sys.exit(main(TESTS))
