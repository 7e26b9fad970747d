"""What tools/bin/office does with an office: starts and stops, backups and restores, lines and merges, each in steps
that are said before they are taken."""
from __future__ import annotations

import contextlib
import json
import os
import shlex
import shutil
import signal
import subprocess
import sys
import time
from collections.abc import Iterator, Sequence
from dataclasses import dataclass, field
from pathlib import Path

from wb_tools.office.copies import copy_written
from wb_tools.office.files import (
    DATABASE, LOG, MAGIC, Files, beside, copy_file, is_locked, links_to_lists, read_sums,
    removed_after, removed_on_failure, sync_folder, word_for, write_sums,
)
from wb_tools.office.keys import Desk, first_keys, key_in, read_keys, write_private
from wb_tools.office.lines import Line, line_of, read_lines
from wb_tools.office.merges import (
    Merge, archs_of, ask_served, lines_of, look_at_lists, parts_of, report_parts,
)
from wb_tools.office.prune import backups_in, bytes_of
from wb_tools.office.sending import Sender, write_answers
from wb_tools.office.service import ASK_AGAIN, PidFile, Systemd, answers, listens
from wb_tools.office.settings import DONE, FAILED, NOT_RUNNING, WRONG_WORDS, Owner, Refusal, Settings, tell

SPARE_ROOM = 16 << 20  # bytes that a backup leaves free
STARTING = 10  # seconds for an office that begins to serve
SOON = 60  # seconds: a service that ends earlier than this counts as one that failed to start
MOST_FAILURES = 5


@dataclass
class Office:
    """An office, and what its operator does with it."""

    settings: Settings
    owner: Owner
    dry: bool
    status: int = DONE
    service: Systemd | PidFile = field(init=False)
    files: Files = field(init=False)

    def __post_init__(self) -> None:
        kind = Systemd if self.settings.service == "systemd" else PidFile
        self.service = kind(self.settings, self.owner)
        database = Path(os.path.realpath(self.settings.store))
        self.files = Files(database, beside(database, "-wal"))

    @property
    def marker(self) -> Path:
        return beside(self.files.database, ".restoring")

    def step(self, text: str) -> bool:
        """Says a step, and answers whether it is to be taken."""
        tell(f"would {text}" if self.dry else text)
        return not self.dry

    # -- the service

    def require_ready(self) -> None:
        """Refuses to start where an office is missing or half restored: the program would begin a new one."""
        if self.marker.exists():
            raise Refusal(
                f"a restore was broken off, as {self.marker} says; do it again: office restore --force BACKUP"
            )
        if self.files.sizes()[0] == 0:
            raise Refusal(
                f"there is no office in {self.settings.store}: see STORE of {self.settings.file}, or office create"
            )

    def require_keys(self) -> None:
        """Refuses to start with keys that the program would not read."""
        if self.settings.keys:
            read_keys(self.settings.keys)

    def start(self) -> None:
        self.require_ready()
        self.require_keys()
        if self.service.runs():
            raise Refusal(f"the service runs already: {self.service.describe()}")
        self.require_unlocked()
        self.start_service()

    def start_service(self) -> None:
        if not self.step(self.service.starting):
            return
        if listens(self.settings.port):
            raise Refusal(
                f"another program has port {self.settings.port} of 127.0.0.1: see PORT of {self.settings.file}",
                NOT_RUNNING,
            )
        self.service.start()
        end = time.monotonic() + self.settings.wait
        while not answers(self.settings.port, max(ASK_AGAIN, end - time.monotonic())):
            if not self.service.runs():
                raise Refusal(f"the service ended at once; {self.service.where()} says why", NOT_RUNNING)
            if time.monotonic() > end:
                raise Refusal(f"the service does not answer on port {self.settings.port} after {self.settings.wait} s")
            time.sleep(ASK_AGAIN)
        tell(f"the service answers on port {self.settings.port}")

    def stop(self) -> None:
        if not self.service.runs():
            tell(f"the service does not run: {self.service.describe()}")
        elif self.step(self.service.stopping):
            self.service.stop()

    @contextlib.contextmanager
    def stopped(self) -> Iterator[None]:
        """Stops the service, and starts it again afterwards if it ran, whatever happened meanwhile."""
        ran = self.service.runs()
        try:
            self.stop()
            yield
        except Refusal as refusal:
            tell(f"this failed: {refusal}")
            raise
        finally:
            if ran:
                self.start_again()
            else:
                tell("the service did not run before, and is not started")

    def start_again(self) -> None:
        try:
            if self.service.runs() and not self.dry:
                return
            self.start_service()
        except (Refusal, OSError) as error:
            tell(f"THE SERVICE WAS NOT STARTED AGAIN: {error}")
            self.status = NOT_RUNNING

    def keep(self) -> int:
        """Serves, in the foreground, and starts again when the connections are used up or the office closed itself."""
        if not self.step(f"serve {self.settings.store} on port {self.settings.port}"):
            return DONE
        child: subprocess.Popen[bytes] | None = None
        ending = False

        def end(_number: int, _frame: object) -> None:
            nonlocal ending
            ending = True
            if child:
                child.terminate()

        signal.signal(signal.SIGTERM, end)
        signal.signal(signal.SIGINT, end)
        words = [
            "serve", "--port", str(self.settings.port), "--requests", str(self.settings.requests),
            *self.settings.journal_words(), *self.settings.lists_words(), *self.settings.keys_words(),
        ]
        failures = 0
        while True:
            self.require_ready()
            began = time.monotonic()
            child = self.owner.start(
                [self.settings.program, "--store", self.settings.store, *words], stdin=subprocess.DEVNULL
            )
            if ending:
                child.terminate()
            status = child.wait()
            if ending:
                return DONE
            tell(f"the program ended with {status}" + (", since its connections are used up" if status == 0 else ""))
            failures = failures + 1 if status != 0 and time.monotonic() - began < SOON else 0
            if failures >= MOST_FAILURES:
                tell(f"it ended {failures} times in a row within {SOON} s: it is not started again")
                return NOT_RUNNING
            if status != 0:
                time.sleep(1)

    # -- the lock

    @contextlib.contextmanager
    def closed_to_others(self) -> Iterator[None]:
        """Holds the lock of the office, so that no program opens it meanwhile; refuses if one has it open."""
        name = beside(self.settings.store, ".lock")
        if self.dry:
            yield
            return
        with open(name, "ab") as lock:
            if is_locked(lock):
                raise Refusal(
                    f"a program has {self.settings.store} open: stop it first (fuser {shlex.quote(str(name))} shows it)"
                )
            yield

    def require_unlocked(self) -> None:
        with self.closed_to_others():
            pass

    # -- copies

    def fresh_folder(self, prefix: str = "") -> Path:
        """A name in the folder of the backups that is not there yet."""
        now = prefix + time.strftime("%Y-%m-%dT%H%M%SZ", time.gmtime())
        names = (now if count == 1 else f"{now}-{count}" for count in range(1, 1000))
        return next(folder for name in names if not (folder := self.settings.backups / name).exists())

    def copy_into(self, files: Files, folder: Path, is_written: bool) -> None:
        """Copies both files and their sums into a new folder; those of an office that is served are written
        meanwhile."""
        folder.mkdir()
        if is_written:
            sums = copy_written(files, folder, tell)
        else:
            sums = {DATABASE: copy_file(files.database, folder / DATABASE)}
            if files.log.exists():
                sums[LOG] = copy_file(files.log, folder / LOG)
        write_sums(folder, sums)
        sync_folder(folder)

    def open_copy(self, backup: Path, folder: Path) -> Path:
        """Copies a backup once more into a new folder, compares the sums, and has the program open and close it, which
        leaves all in the database. Answers the file that was opened."""
        folder.mkdir()
        for name, digest in read_sums(backup).items():
            if copy_file(backup / name, folder / name) != digest:
                raise Refusal(f"{backup / name} is not as it was when the backup was made")
        with open(folder / DATABASE, "rb") as copy:
            if copy.read(len(MAGIC)) != MAGIC:
                raise Refusal(f"{backup / DATABASE} is no database")
        status, answered, said = self.call_program(folder / DATABASE, b"")
        if status != 0 or answered or said:
            raise Refusal(
                f"the copy does not open as an office: status {status}, {answered.strip() or 'no answer'}, "
                f"{said.strip() or 'no message'}"
            )
        return folder / DATABASE

    def require_room(self, files: Files, folder: Path, copies: int) -> None:
        wanted = copies * sum(files.sizes()) + SPARE_ROOM
        free = shutil.disk_usage(folder).free
        if free < wanted:
            raise Refusal(f"{folder} has {free} bytes free, and {wanted} are needed")

    def copy_office(self, files: Files, is_written: bool = False) -> Path:
        """Copies both files into a folder that has no name of a backup yet, and answers the folder."""
        if not files.database.exists():
            raise Refusal(f"{files.database} is not there")
        made = self.settings.backups / f".{self.fresh_folder().name}.{os.getpid()}.new"
        while_served = ", while it is served" if is_written else ""
        if self.step(f"copy {files.database} and its log, {sum(files.sizes())} bytes, into {made}{while_served}"):
            self.require_room(files, self.settings.backups, 2)
            with removed_on_failure(made):
                self.copy_into(files, made, is_written)
        return made

    # Only the program can say whether two copied files are an office, and an opening writes: so it opens a copy of the
    # copy.
    def name_copy(self, made: Path) -> Path:
        """Opens a copy of the copy, gives the copy its name only then, and answers it. The service may run
        meanwhile."""
        folder = self.settings.backups / made.name[1:].rsplit(".", 2)[0]
        with removed_on_failure(made):
            if self.step("check the sums of the copy, and that the program opens it"):
                with removed_after(made / "trial"):
                    self.open_copy(made, made / "trial")
            if self.step(f"name the copy {folder}"):
                os.rename(made, folder)
                sync_folder(self.settings.backups)
        return folder

    @contextlib.contextmanager
    def snapshot(self) -> Iterator[Files]:
        """The files in a snapshot of the file system, which is dropped afterwards."""
        shown = self.settings.snapshot_folder
        if shown is None:
            raise Refusal(
                f"{self.settings.file} has no SNAPSHOT_MAKE, SNAPSHOT_DROP and SNAPSHOT_FOLDER; without one say --stop",
                WRONG_WORDS,
            )
        files = Files(shown / self.files.database.name, shown / self.files.log.name)
        if files.database.exists():
            raise Refusal(f"{files.database} is there already: an older snapshot was not dropped")
        made = self.step(f"make a snapshot: {shlex.join(self.settings.snapshot_make)}")
        if made:
            self.call_as_caller(self.settings.snapshot_make)
        try:
            if made:
                if not files.database.exists():
                    raise Refusal(f"the snapshot does not show {files.database}: see SNAPSHOT_FOLDER")
                if files.database.samefile(self.files.database):
                    raise Refusal(f"{shown} is no snapshot: {files.database} is the office itself")
            yield files
        finally:
            if self.step(f"drop the snapshot: {shlex.join(self.settings.snapshot_drop)}"):
                try:
                    self.call_as_caller(self.settings.snapshot_drop)
                except Refusal as error:
                    tell(f"THE SNAPSHOT WAS NOT DROPPED: {error}")
                    self.status = FAILED

    def call_as_caller(self, words: Sequence[str]) -> None:
        with self.owner.caller():
            try:
                done = subprocess.run(words, stdin=subprocess.DEVNULL, stdout=sys.stderr, check=False)
            except OSError as error:
                raise Refusal(f"{words[0]} cannot be started: {error.strerror}") from None
        if done.returncode != 0:
            raise Refusal(f"{shlex.join(words)} ended with {done.returncode}")

    def show_name(self, backup: Path) -> None:
        if not self.dry:
            print(backup, flush=True)

    def backup(self, snapshot: bool, stop: bool) -> Path:
        if snapshot:
            with self.snapshot() as files:
                return self.name_copy(self.copy_office(files if not self.dry else self.files))
        if stop:
            with self.stopped(), self.closed_to_others():
                made = self.copy_office(self.files)
            return self.name_copy(made)
        if self.service.runs():
            return self.name_copy(self.copy_office(self.files, is_written=True))
        with self.closed_to_others():
            made = self.copy_office(self.files)
        return self.name_copy(made)

    def restore(self, backup: Path, force: bool) -> None:
        """Puts a backup in the place of the office, and keeps what is there."""
        read_sums(backup)
        if self.service.runs():
            raise Refusal("the service runs: stop it first, and let the builders forget their take numbers")
        found = self.files.database.exists() or self.files.log.exists()
        if found and not force:
            raise Refusal(
                f"there is an office in {self.settings.store}: --force keeps it under another name and puts the backup "
                "in its place"
            )
        trial = beside(self.files.database, ".restored")
        with self.closed_to_others():
            if trial.exists() and self.step(f"remove {trial}, which a restore that was broken off left"):
                shutil.rmtree(trial)
            with removed_after(trial):
                if self.step(f"copy {backup} into {trial}, check its sums, and have the program open it"):
                    self.require_room(Files(backup / DATABASE, backup / LOG), trial.parent, 1)
                    self.open_copy(backup, trial)
                if found:
                    self.keep_old()
                self.put_in(trial)
        tell("commands that were answered since the backup are gone, and their take numbers will be given again:")
        tell("let all builders forget their numbers, office start, and merge the lists before they ask")

    def keep_old(self) -> None:
        """Copies what is there, whatever it is, into the folder of the backups."""
        kept = self.fresh_folder("kept-")
        if not self.step(f"keep what is there in {kept}"):
            return
        self.require_room(self.files, self.settings.backups, 1)
        made = self.settings.backups / f".{kept.name}.{os.getpid()}.new"
        with removed_on_failure(made):
            made.mkdir()
            sums = {
                name: copy_file(file, made / name)
                for file, name in ((self.files.database, DATABASE), (self.files.log, LOG))
                if file.exists()
            }
            write_sums(made, sums)
            sync_folder(made)
            os.rename(made, kept)
        sync_folder(self.settings.backups)

    def put_in(self, trial: Path) -> None:
        """Takes the old log away and the new database in. Between the two, a file beside them says that neither stands
        for the office."""
        if not self.step(
            f"put the database that was opened in the place of {self.files.database}, and take the old log away"
        ):
            return
        folder = self.files.database.parent
        self.marker.write_text(f"{trial}\n", encoding="utf-8")
        sync_folder(folder)
        self.files.log.unlink(missing_ok=True)
        sync_folder(folder)
        os.rename(trial / DATABASE, self.files.database)
        sync_folder(folder)
        self.marker.unlink()
        sync_folder(folder)

    # -- lines

    def call_program(self, store: Path, lines: bytes, words: Sequence[str] = ()) -> tuple[int, str, str]:
        """Has the program answer lines over a file, and answers its status, its answers and its messages."""
        pipe = subprocess.PIPE
        called = [self.settings.program, "--store", store, "run", *words]
        process = self.owner.start(called, stdin=pipe, stdout=pipe, stderr=pipe)
        try:
            answered, said = process.communicate(lines)
        except BaseException:
            # the file has to be free before the service starts again
            with self.owner.caller():
                process.kill()
            process.wait()
            raise
        return process.returncode, answered.decode(errors="replace"), said.decode(errors="replace")

    def give(self, lines: bytes) -> str:
        """Gives the office lines, shows its answers, and answers them."""
        status, answered, said = self.call_program(self.settings.store, lines, self.settings.journal_words())
        write_answers(answered.encode())
        sys.stderr.write(said)
        if status != 0:
            raise Refusal(f"the program ended with {status}: " + MEANING.get(status, "it was killed, or failed"))
        return answered

    def give_all(self, lines: Sequence[str]) -> str:
        """Gives the office lines, each of which is said, and answers its answers."""
        if not self.step("give the office: " + "; ".join(lines)):
            return ""
        return self.give("".join(f"{line}\n" for line in lines).encode())

    def run(self, lines: bytes) -> None:
        """Sends lines to the office while it is served, if each of them can be answered so. Else it stops the service,
        gives the program the lines, and starts the service again."""
        if not lines.strip():
            raise Refusal("standard input has no line for the office", WRONG_WORDS)
        self.require_ready()
        sent = self.lines_to_send(lines)
        if sent is not None:
            self.send(sent)
            return
        with self.stopped():
            if self.step(f"give {lines.count(10)} lines to {self.settings.program} --store {self.settings.store} run"):
                self.give(lines)

    def command(self, words: Sequence[str]) -> None:
        """Gives the office one command, by a request while it is served, which stops nothing, and else by its file. Of
        a report the last word is its file."""
        self.require_ready()
        with links_to_lists(self.dry) as links:
            line = line_of(words[:-1] if words[0] == "report" else words)
            if words[0] == "report":
                line += f" {word_for(links, words[-1], 0)}"
            if not self.service.runs():
                if self.step(f"give {self.settings.program} --store {self.settings.store} run: {line}"):
                    self.give(f"{line}\n".encode())
                return
            found = next(read_lines(line.encode()))
            if not found.is_known:
                raise Refusal(f"{found.why}; nothing was done: office run stops the service for such a line")
            if not self.takes("/v1/enter"):
                raise Refusal(
                    f"what serves on port {self.settings.port} takes no commands; nothing was done: office run stops "
                    "the service for one"
                )
            self.send([found])

    def lines_to_send(self, lines: bytes) -> list[Line] | None:
        """The lines that are sent to the office; none if it is not served, or one of them needs the file."""
        if not self.service.runs():
            return None
        found = list(read_lines(lines))
        alone = next((line for line in found if not line.is_known), None)
        merge = next((line for line in found if line.merge), None)
        if alone is not None:
            tell(f"{alone}: {alone.why}, so the service is stopped for these lines")
        elif not self.takes("/v1/enter"):
            tell(f"what serves on port {self.settings.port} takes no lines, so the service is stopped for them")
        elif merge and not self.takes_merges():
            tell(
                f"{merge}: a merge has no request, since the office was not started with --lists, so the service is "
                "stopped for these lines"
            )
        else:
            return found
        return None

    def takes(self, path: str) -> bool:
        """Whether the office answers, and knows the request of a command; one that begins to serve has some seconds."""
        end = time.monotonic() + min(self.settings.wait, STARTING)
        while True:
            said = ask_served(self.settings.port, path, self.settings.key)
            if said or time.monotonic() > end:
                return said.get("http") == "WrongMethod"
            time.sleep(ASK_AGAIN)

    def takes_merges(self) -> bool:
        """Whether the office is served with the folder of the settings, from which it merges lists. One into which no
        list can be put is refused."""
        lists = self.settings.lists
        if not (lists and self.service.runs() and self.takes("/v1/merge")):
            return False
        if not lists.is_dir() or not os.access(lists, os.W_OK | os.X_OK, effective_ids=True):
            raise Refusal(f"no list can be put into {lists}: see LISTS of {self.settings.file}", WRONG_WORDS)
        return True

    def send(self, lines: Sequence[Line]) -> str:
        """Sends the serving office lines, shows its answers, and answers them."""
        if not self.step(f"send {len(lines)} lines to the office that serves on port {self.settings.port}"):
            return ""
        told = self.settings
        sender = Sender(told.port, self.service.runs, told.wait, told.lists, told.key)
        status = sender.send(lines)
        if status != 0:
            raise Refusal(f"the lines ended with {status}: {MEANING[status]}")
        return "".join(f"{answer}\n" for answer in sender.answered)

    def merge(
        self, merges: Sequence[Merge], reports: Sequence[tuple[str, str]], most_removed: int | None, looks: bool,
        stops: bool,
    ) -> None:
        """Copies the office, merges, and gives the reports: by requests if it is served with a folder of lists, which
        stops nothing. Else the service is stopped once for all of it, and started again, also if this failed. What can
        be looked at is looked at before, and the copy is checked after it."""
        self.require_ready()
        with links_to_lists(self.dry) as links:
            lines = lines_of(links, merges, reports)
            if looks:
                look_at_lists(merges)
            self.require_archs(archs_of(merges))
            sent = list(read_lines("\n".join(lines).encode()))
            made = None
            try:
                if not stops and all(line.is_known for line in sent) and self.takes_merges():
                    made = self.copy_office(self.files, is_written=True)
                    self.rehearse(made, lines[: len(merges)], most_removed)
                    answered = self.send(sent)
                else:
                    with self.stopped():
                        with self.closed_to_others():
                            made = self.copy_office(self.files)
                        self.rehearse(made, lines[: len(merges)], most_removed)
                        answered = self.give_all(lines)
                if not self.dry:
                    report_parts(answered)
            finally:
                if made:
                    self.show_name(self.name_copy(made))

    def require_archs(self, archs: Sequence[str]) -> None:
        """Refuses an architecture that the office does not have; it is asked while it is served, or before a backup. If
        it gives no answer, the merge says so later."""
        for arch in archs:
            if self.service.runs():
                answer = ask_served(self.settings.port, f"/v1/summary/{arch}", self.settings.key)
            elif self.dry:
                return
            else:
                _, said, _ = self.call_program(self.settings.store, f"summary {arch}\n".encode())
                answer = json.loads(said) if said.startswith("{") else {}
            if answer.get("refused") == "UnknownArch":
                raise Refusal(f"the office has no architecture {arch} (UnknownArch); nothing was done: see add-arch")

    def rehearse(self, backup: Path, lines: Sequence[str], most_removed: int | None) -> None:
        """Merges into a copy of the backup, and refuses to go on if a part removes too much. Without a number nothing
        is too much."""
        if most_removed is None:
            return
        if not self.step(f"try the merge on a copy, and go on if each part removes at most {most_removed}"):
            return
        trial = self.settings.backups / f".rehearsal.{os.getpid()}"
        with removed_after(trial):
            copy = self.open_copy(backup, trial)
            status, answered, said = self.call_program(copy, "".join(f"{line}\n" for line in lines).encode())
        if status != 0:
            said = f"{answered.strip()} {said.strip()}".rstrip()
            raise Refusal(f"the merge was tried on a copy, and not carried out: status {status}, {said}".rstrip())
        for part in parts_of(answered):
            if part.get("removed", 0) > most_removed:
                raise Refusal(
                    f"the merge would remove {part['removed']} of {part['arch']}, more than {most_removed}; it was not "
                    "carried out"
                )

    def desk(self) -> Desk:
        """What changes the keys of the office."""
        if self.settings.keys is None:
            raise Refusal(f"{self.settings.file} has no KEYS, so the office lets all requests through", WRONG_WORDS)
        return Desk(Path(os.path.realpath(self.settings.keys)), self.step)

    def create(self) -> None:
        """Makes an empty office where none is, the folders of its files, and the key of its operator."""
        if self.marker.exists() or any(self.files.sizes()):
            raise Refusal(f"{self.files.database} or its log is there already")
        keys, key_file = self.settings.keys, self.settings.key_file
        if keys and not key_file and not keys.exists():
            raise Refusal(f"{self.settings.file} has KEYS and no KEY_FILE, for the key of the operator", WRONG_WORDS)
        folders = [self.files.database.parent, self.settings.backups, self.settings.lists]
        for folder in [*folders, *(file.parent for file in (keys, key_file) if file)]:
            if folder and not folder.exists() and self.step(f"make the folder {folder}"):
                folder.mkdir(mode=0o750, parents=True)
        self.create_keys(keys, key_file)
        if self.step(f"make an empty office in {self.settings.store}"):
            self.give(b"")

    def create_keys(self, keys: Path | None, key_file: Path | None) -> None:
        """Makes the key of the operator, and the file of keys, if there is none, with its line and that of everybody
        else."""
        if keys is None:
            tell(f"{self.settings.file} has no KEYS: every program of this machine may send the office any request")
        elif keys.exists():
            tell(f"the keys in {keys} stay as they are")
        elif key_file and self.step(
            f"make the key of the operator, which may do everything, in {key_file}, and the keys of the office in "
            f"{keys}: who shows no key may read, and do nothing else"
        ):
            write_private(Path(os.path.realpath(keys)), first_keys(key_in(key_file)))

    # -- status

    def show(self) -> int:
        """Prints how the office is, and answers the status for it."""
        runs = self.service.runs()
        print(f"service: {self.service.describe()}")
        does_answer = runs and answers(self.settings.port, 5)
        taken = not runs and listens(self.settings.port)
        said = "another program has it" if taken else "answers" if does_answer else "does not answer"
        print(f"port {self.settings.port}: {said}")
        database, log = self.files.sizes()
        print(f"records: {self.files.database}, {database} bytes, and {log} in its log")
        print(f"room: {shutil.disk_usage(self.files.database.parent).free} bytes free beside them")
        print(f"keys: {self.settings.keys or 'none, so every program of this machine may send any request'}")
        print(f"backup: {self.last_backup()}")
        if self.marker.exists():
            print(f"broken off: a restore, as {self.marker} says")
            return FAILED
        return NOT_RUNNING if not runs else DONE if does_answer else FAILED

    def last_backup(self) -> str:
        try:
            folders = backups_in(self.settings.backups)
            if not folders:
                return f"none in {self.settings.backups}"
            hours = (time.time() - folders[-1].stat().st_mtime) / 3600
            size = bytes_of(self.settings.backups)
        except OSError as error:
            return f"none can be seen: {error}"
        return f"{folders[-1]}, {hours:.1f} hours old, one of {len(folders)}; {size} bytes in {self.settings.backups}"


MEANING = {1: "a line was refused", 2: "a line was malformed", 3: "a list, a report or the file of the records failed"}
