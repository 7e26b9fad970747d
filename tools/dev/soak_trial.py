"""Tries the serving program for an hour as builders and hostile clients would, with kills; `--help` says how."""
from __future__ import annotations

import argparse
import contextlib
import json
import os
import random
import resource
import shutil
import signal
import subprocess
import sys
import tempfile
import time
from collections import Counter
from pathlib import Path

from harness import ROOT, free_port, listens
from soak_audit import Rows, Sent, Soaked, audit, next_lists, removals
from soak_load import Board, Builder, Client, begin, first_queries

DESCRIPTION = """Tries the serving program before a release, and is no part of ./check. The program serves an office of
two architectures on a port of 127.0.0.1. Three builders, a porter, an operator and hostile clients ask it, each in a
thread: the operator adds and removes records, builders and a third architecture; the last dribble, hold, reset and
break off connections, send heads and bodies at their limits, garbage, and forms of web pages. After some seconds it is
ended: by SIGKILL, by SIGTERM, or since its files may not grow, or with a limit of memory, under which it has served.
Between two lives lists are merged, and some merges are killed.

After each life and each merge a copy of the file is audited by sqlite3 and by a model of the office in Python: all
commands that were answered have to stand, in the order of their counts, with the answers that the model gives, no take
number is given twice, nothing is held by two builders, no record is gone that no command removed, and the rows are
those of the model; of the commands without an answer those stand that the counts and the rows show."""
EPILOG = """example:
  tools/dev/soak                            an hour of crates/wb/out/wb
  tools/dev/soak --minutes 5 --seed 7       five minutes, with other choices

Status: 0 if nothing differed; 1 if something did: it is printed, and the folder with the files and with what was sent
is kept; 2 if the words are wrong; 3 if the trial itself could not go on. It stops by itself after its minutes, or its
requests; by Ctrl-C after the life under way."""
KINDS = ["SIGKILL", "SIGKILL", "SIGTERM", "files may not grow", "little memory"]
NAMES = [f"p{at}" for at in range(120)]
SETUP = [
    "add-arch amd64 linux amd64", "add-arch arm64 linux arm64", "add-builder b1 amd64", "add-builder b2 arm64",
    "add-builder b3 amd64",
]
SETUP += ["add-builder b3 arm64"]
START = 60  # seconds for the program to start, and to end once it was told to


class Broken(Exception):
    """Why the trial cannot go on."""


def limits(files: int | None, memory: int | None):  # type: ignore[no-untyped-def]
    """For a program that is about to start: how large a file of it, and its memory, may become."""

    def prepare() -> None:
        if files is not None:
            signal.signal(signal.SIGXFSZ, signal.SIG_IGN)
            resource.setrlimit(resource.RLIMIT_FSIZE, (files, files))
        if memory is not None:
            resource.setrlimit(resource.RLIMIT_AS, (memory, memory))
        resource.setrlimit(resource.RLIMIT_CORE, (0, 0))
        os.nice(5)

    return prepare


class Soak:
    """A trial: its folder, the office as it has to stand, and what was counted."""

    def __init__(self, words: argparse.Namespace, folder: Path) -> None:
        self.words, self.folder, self.chance = words, folder, random.Random(words.seed)
        self.office, self.counts, self.differences = Soaked(), Counter(), []  # type: ignore[var-annotated]
        self.builders = [Builder(name, archs, random.Random(self.chance.random())) for name, archs in BUILDERS]
        self.end = time.monotonic() + 60 * words.minutes
        self.lives = 0

    def run(self) -> None:
        self.set_up()
        while time.monotonic() < self.end and self.counts["requests that were answered"] < self.words.requests:
            self.live(self.chance.choice(KINDS))
            if self.chance.random() < 0.5:
                self.merge(self.chance.random() < 0.4)
            if len(self.differences) > 20:
                raise Broken("there are too many differences")

    # -- the program

    def wb(self, *words: str) -> list[str]:
        return [str(self.words.program), "--store", "store", *words]

    def set_up(self) -> None:
        lines = "".join(f"{line}\n" for line in SETUP)
        said = subprocess.run(
            self.wb("run"), cwd=self.folder, input=lines, capture_output=True, text=True, timeout=START, check=False
        )
        if said.returncode != 0:
            raise Broken(f"the first lines end with {said.returncode}: {said.stdout[-300:]}{said.stderr[-300:]}")
        self.merge(False)

    def start(self, kind: str) -> tuple[subprocess.Popen[bytes], int] | None:
        """The program once it serves; none if it could not start under its limits."""
        port, files, memory = free_port(), None, None
        if kind == "files may not grow":
            files = max(
                (self.folder / name).stat().st_size for name in ("store", "store-wal") if (self.folder / name).exists()
            )
            files += self.chance.randrange(60000)
        elif kind == "little memory":
            memory = self.chance.choice((400 << 20, 64 << 20, self.chance.randrange(8 << 20, 80 << 20)))
        with open(self.folder / "messages", "ab") as messages:
            words = self.wb("serve", "--port", str(port))
            process = subprocess.Popen(
                words, cwd=self.folder, stdin=subprocess.DEVNULL, stdout=messages, stderr=messages,
                preexec_fn=limits(files, memory),
            )
        end = time.monotonic() + START
        while not listens(port):
            status = process.poll()
            if status is not None:
                if kind not in ("files may not grow", "little memory"):
                    raise Broken(f"the program ended with {status} at its start; see messages")
                self.counts[f"starts that end with {status}, {kind}"] += 1
                return None
            if time.monotonic() > end:
                process.kill()
                raise Broken("the program does not listen")
            time.sleep(0.002)
        return process, port

    def live(self, kind: str) -> None:
        """One life of the program, its end, and the audit."""
        self.lives += 1
        seconds = min(self.chance.choice((0.3, 1, 3, 8, 15)), max(0.1, self.end - time.monotonic()))
        self.judge(self.serve(kind, seconds), f"life {self.lives}, {kind}")

    def serve(self, kind: str, seconds: float) -> list[Sent]:
        """What was sent to the program in one life of so many seconds, with the answers."""
        started = self.start(kind)
        if started is None:
            return []
        process, port = started
        board = Board(port)
        board.seen = self.office.accepted
        first_queries(Client(board, self.chance), self.office)
        threads = begin(board, self.office, self.builders, self.chance)
        try:
            self.finish(process, kind, seconds)
        finally:
            board.ends.set()
            process.kill()
            process.wait()
        for thread in threads:
            thread.join(3 * START)
        if any(thread.is_alive() for thread in threads):
            raise Broken("a client does not end")
        self.counts += board.counts
        self.differences += [f"life {self.lives}: {fault}" for fault in board.faults]
        return board.sent

    def finish(self, process: subprocess.Popen[bytes], kind: str, seconds: float) -> None:
        """Waits, and ends the program if it did not end by itself."""
        with contextlib.suppress(subprocess.TimeoutExpired):
            status = process.wait(timeout=seconds)
            self.counts[f"ends by itself with {status}, {kind}"] += 1
            if kind.startswith("SIG") or status not in (3,):
                self.differences.append(f"life {self.lives}, {kind}: the program ended by itself with {status}")
            return
        sign = signal.SIGTERM if kind == "SIGTERM" else signal.SIGKILL
        process.send_signal(sign)
        try:
            status = process.wait(timeout=START)
        except subprocess.TimeoutExpired:
            raise Broken(f"the program does not end by {sign.name}") from None
        self.counts[f"kills by {sign.name}" + ("" if kind.startswith("SIG") else f", {kind}")] += 1
        if status not in (-sign, 0):
            self.differences.append(f"life {self.lives}: the program ended with {status} by {sign.name}")

    def merge(self, is_killed: bool) -> None:
        """A merge by the program, while it does not serve; or one that is killed, which then stands whole or not at
        all."""
        lists = next_lists(self.office, NAMES, self.chance)
        lists.write(self.folder)
        words = self.wb("merge", "Sources", "amd64=Packages-amd64", "arm64=Packages-arm64")
        process = subprocess.Popen(
            words, cwd=self.folder, stdin=subprocess.DEVNULL, stdout=subprocess.PIPE, stderr=subprocess.DEVNULL
        )
        if is_killed:
            time.sleep(self.chance.uniform(0, 0.06))
            process.kill()
        said = process.communicate(timeout=START)[0]
        merged = self.office.twin()
        wanted = merged.merge(lists)
        rows = Rows(self.folder)
        if said.endswith(b"\n") and json.loads(said) != wanted:
            self.differences.append(f"a merge is answered {said!r}, and the model has {wanted}")
        stands = said.endswith(b"\n") or rows.accepted > self.office.accepted
        self.counts[
            "merges" if said.endswith(b"\n") else f"merges that were killed and {'stand' if stands else 'do not stand'}"
        ] += 1
        if stands:
            self.office = merged
        self.conclude(rows.faults + rows.differences(self.office), rows, "a merge" + " that was killed" * is_killed)

    # -- the audit

    def judge(self, sent: list[Sent], what: str) -> None:
        handed = self.office.handed
        found = audit(self.office, sent, self.folder)
        self.office = found.office
        self.counts["commands that were accepted"] += sum(one.accepted is not None for one in sent)
        self.counts["commands without an answer that stand"] += found.stood
        self.counts["hand-outs"] += max(0, found.office.handed - handed)
        self.counts += Counter({f"{name}, {said}": count for (name, said), count in removals(sent).items()})
        self.counts["audits"] += 1
        if found.faults:
            lines = [json.dumps(vars(one), ensure_ascii=False) for one in sent]
            (self.folder / f"sent-{self.lives}").write_text("\n".join(lines))
            for name in ("store", "store-wal"):
                if (self.folder / name).exists():
                    shutil.copy(self.folder / name, self.folder / f"{name}-of-{self.lives}")
        self.differences += [f"{what}: {fault}" for fault in found.faults]

    def conclude(self, faults: list[str], rows: Rows, what: str) -> None:
        self.counts["audits"] += 1
        if faults:
            self.differences += [f"after {what}: {fault}" for fault in faults[:5]]
            self.office = rows.office()


BUILDERS = [("b1", ["amd64"]), ("b2", ["arm64"]), ("b3", ["amd64", "arm64"])]


def show(soak: Soak, words: argparse.Namespace) -> None:
    print(
        f"seed {words.seed}, {soak.lives} lives of the program in {words.minutes:g} minutes; {soak.office.accepted:,} "
        "commands stand"
    )
    for name in sorted(soak.counts):
        print(f"    {name}: {soak.counts[name]:,}")
    print(f"{len(soak.differences)} differences")
    for difference in soak.differences:
        print(f"    {difference[:600]}")


def number(word: str) -> float:
    with contextlib.suppress(ValueError):
        if 0 < float(word) <= 1e9:
            return float(word)
    raise argparse.ArgumentTypeError(f"{word[:100]!r} is no number above 0")


def read_words() -> argparse.Namespace:
    parser = argparse.ArgumentParser(
        prog="soak", description=DESCRIPTION, epilog=EPILOG, formatter_class=argparse.RawDescriptionHelpFormatter
    )
    parser.add_argument("--minutes", metavar="N", type=number, default=60, help="for how long, else %(default)s")
    parser.add_argument(
        "--requests", metavar="N", type=number, default=10_000_000, help="how many answers at most, else %(default)s"
    )
    parser.add_argument(
        "--seed", metavar="S", type=int, default=0,
        help="the number of all choices but those of the moment, else %(default)s",
    )
    parser.add_argument(
        "--program", metavar="PATH", type=Path, default=ROOT / "crates/wb/out/wb",
        help="the program, else crates/wb/out/wb",
    )
    words = parser.parse_args()
    words.program = words.program.absolute()
    if not os.access(words.program, os.X_OK):
        parser.error(f"there is no program {words.program}: ./wb builds it")
    return words


def main() -> int:
    words = read_words()
    folder = Path(tempfile.mkdtemp(prefix="soak-"))
    soak = Soak(words, folder)
    status = 0
    try:
        soak.run()
    except (Broken, OSError, subprocess.SubprocessError) as why:
        print(f"soak: {why}; its folder is {folder}", file=sys.stderr)
        status = 3
    except KeyboardInterrupt:
        print("soak: it was ended", file=sys.stderr)
    show(soak, words)
    if soak.differences or status:
        print(f"the files are in {folder}")
        return status or 1
    shutil.rmtree(folder)
    return 0
