"""Starts, stops, backs up, restores and merges an office: the one command of its operator.

Each step is said on standard error before it is taken; answers of the office, the lines of `status` and the names of
backups come on standard output. But for `prune` and `remove-arch`, nothing is ever removed but copies that were found
bad and what this command made for a trial.
"""
from __future__ import annotations

import argparse
import contextlib
import fcntl
import os
import re
import signal
import sys
from collections.abc import Iterator, Sequence
from pathlib import Path
from typing import Any, NoReturn

from wb_tools import outlive_readers
from wb_tools.office.lines import COMMANDS as OFFICE_COMMANDS
from wb_tools.office.merges import read_merges, read_reports
from wb_tools.office.prune import prune
from wb_tools.office.removing import remove_arch
from wb_tools.office.settings import FAILED, Owner, Refusal, Settings, read_settings, tell
from wb_tools.office.steps import Office
from wb_tools.suites import default_settings, settings_of_suite

EPILOG = """\
examples:
  %(prog)s status
  %(prog)s --dry-run merge Sources-0412 amd64=Packages-amd64-0412
  %(prog)s merge --most-removed 100 Sources-0412 amd64=Packages-amd64-0412
  %(prog)s --suite experimental status
  %(prog)s merge Sources-amd64 amd64=Packages-amd64 Sources-armhf armhf=Packages-armhf
  %(prog)s add-builder b1 amd64
  %(prog)s report amd64 report-0412
  %(prog)s --dry-run remove-arch armhf
  %(prog)s key add b1 build=b1 > b1.key
  %(prog)s run < lines
  %(prog)s restore --force /var/lib/wb/backups/2026-04-12T031500Z

settings, lines of KEY=VALUE as systemd's EnvironmentFile has them, a value with a blank in quotes:
  PROGRAM          the program wb                       /usr/bin/wb
  STORE            the file of the records              (required)
  BACKUPS          the folder of the backups            (required)
  PORT             the port of 127.0.0.1                8080
  REQUESTS         connections until it starts anew     1000000
  JOURNAL          a file to which a line for each accepted command is appended
  LISTS            a folder from which the serving office merges lists, so that a merge stops nothing
  KEYS             the file of keys, by which the serving office lets requests through; without it all are
  KEY_FILE         the file with the key that this command shows to it, which nobody but its owner may open
  SERVICE          systemd or pidfile                   systemd
  UNIT             the unit, with systemd               wb.service
  PID_FILE, LOG    its process and messages, with pidfile
  OWNER            the user who owns STORE and BACKUPS, if root calls
  WAIT             seconds for a start and a stop       60
  KEEP_BACKUPS, KEEP_DAYS
                   which backups prune keeps: the newest so many, and those that are younger than so many days
  MERGE, PAGE      the words that timers give to merge-archive and to wb-status
  SNAPSHOT_MAKE, SNAPSHOT_DROP
                   commands, without a shell, that make and drop a snapshot of the file system that has STORE, of
                   both its files at one moment
  SNAPSHOT_FOLDER  where the snapshot shows the folder of STORE

exit statuses:
  0  done; of status: the service runs and answers
  1  a step failed or was refused, or the office refused a line; the message says which
  2  the words or the settings are wrong; nothing was done
  3  the service does not run; of merge, run and backup: it ran before and could not be started again; of merge, run,
     report, enter, add-.. and remove-arch: an answer was lost, and the message names the line that is in doubt
"""


# Commands of the office that go to it without a stop while it is served.
COMMANDS = {
    "add-arch": "add an architecture, without a stop",
    "add-builder": "let a builder build for an architecture, without a stop",
    "enter": "put a source package that has no record into the queue, without a stop",
    "report": "take in which source packages can be built now, without a stop",
}

KEY_COMMANDS = {
    "add": "make a key with these rights, and print it, this once",
    "change": "give a key other rights",
    "remove": "take a key away, at once",
    "list": "show the names and the rights of all keys",
}


# ---- words


def whole_number(text: str) -> int:
    if not re.fullmatch("[0-9]{1,9}", text):
        raise argparse.ArgumentTypeError(f"{text} has to be a whole number")
    return int(text)


def suite_settings(suite: str) -> Path:
    try:
        return settings_of_suite(suite, default_settings().parent)
    except ValueError as why:
        raise argparse.ArgumentTypeError(str(why)) from None


def add_merge(below: Any) -> None:
    """The command `merge` and its options."""
    merge = below.add_parser("merge", help="look at the lists, back up, merge; with a stop if LISTS is not set")
    merge.add_argument(
        "--stop", action="store_true",
        help="stop the service for all of it, so that nothing comes between the backup, the merges and the reports",
    )
    merge.add_argument(
        "--most-removed", metavar="N", type=whole_number,
        help="merge into a copy first; go on if no part removes more than N",
    )
    merge.add_argument(
        "--report", metavar="ARCH=FILE", action="append", default=[],
        help="a report that is given after the merges, before the service starts if it was stopped",
    )
    merge.add_argument("--no-look", dest="looks", action="store_false", help="do not read the lists before")
    merge.add_argument(
        "lists", metavar="LIST", nargs="+",
        help="SOURCESFILE ARCH=PACKAGESFILE.., which may stand several times",
    )


def add_remove_arch(below: Any) -> None:
    """The command `remove-arch` and its option."""
    remove = below.add_parser(
        "remove-arch", help="back up, ask, and remove an architecture with its records, without a stop"
    )
    remove.add_argument("--yes", action="store_true", help="do not ask, as without a terminal")
    remove.add_argument("name", metavar="NAME")


def add_key(below: Any) -> None:
    """The command `key` and what is done with keys."""
    key = below.add_parser("key", help="add, change, remove or list the keys by which the office lets requests through")
    what = key.add_subparsers(dest="what", metavar="WHAT", required=True)
    for name, about in KEY_COMMANDS.items():
        one = what.add_parser(name, help=about, description=f"{about}.")
        one.add_argument("--dry-run", action="store_true", default=argparse.SUPPRESS, help=argparse.SUPPRESS)
        if name != "list":
            one.add_argument("name", metavar="NAME", help="the name on the line of the key; * is who shows no key")
        if name in ("add", "change"):
            one.add_argument(
                "rights", metavar="RIGHT", nargs="+",
                help="read, build=BUILDER, port=ARCH or operate; each of the last three has read in it",
            )


def parser() -> argparse.ArgumentParser:
    whole = argparse.ArgumentParser(
        prog=Path(sys.argv[0]).name, description=(__doc__ or "").split("\n\n")[0], epilog=EPILOG,
        formatter_class=argparse.RawDescriptionHelpFormatter,
    )
    which = whole.add_mutually_exclusive_group()
    which.add_argument(
        "--settings", metavar="FILE", type=Path, default=default_settings(),
        help="the settings (OFFICE_SETTINGS, or /etc/wb/office.conf)",
    )
    which.add_argument(
        "--suite", dest="settings", metavar="SUITE", type=suite_settings,
        help="the office of this suite, whose settings are SUITE.conf beside those, as /etc/wb/SUITE.conf",
    )
    whole.add_argument("--dry-run", action="store_true", help="say each step, and take none")
    below = whole.add_subparsers(dest="command", metavar="COMMAND", required=True)
    below.add_parser("create", help="make an empty office where none is")
    below.add_parser("start", help="start the service, and wait until it answers")
    below.add_parser("stop", help="stop the service by SIGTERM, and wait for its end")
    below.add_parser("status", help="show whether it runs and answers, its files and its last backup")
    backup = below.add_parser("backup", help="copy both files, also while the service runs, and open the copy")
    how = backup.add_mutually_exclusive_group()
    how.add_argument("--stop", action="store_true", help="stop the service first, and start it again afterwards")
    how.add_argument("--snapshot", action="store_true", help="copy from a snapshot of the file system")
    restore = below.add_parser("restore", help="put a backup in, and keep what is there")
    restore.add_argument("backup", metavar="BACKUP", help="the folder of a backup")
    restore.add_argument(
        "--force", action="store_true", help="also where there is an office, which is kept under another name"
    )
    below.add_parser("prune", help="remove the backups that neither KEEP_BACKUPS nor KEEP_DAYS keeps")
    add_merge(below)
    for name, about in COMMANDS.items():
        command = below.add_parser(name, help=about)
        for word in OFFICE_COMMANDS[name].split():
            command.add_argument(word, metavar=word.upper())
    add_remove_arch(below)
    add_key(below)
    below.add_parser("run", help="give the office the lines of standard input, without a stop if each has a request")
    below.add_parser("ready", help="end with 0 if there is an office that may be served; what the unit asks first")
    below.add_parser("keep", help="serve in the foreground, again and again, for those without systemd")
    for command in below.choices.values():  # it may stand after the command too
        command.add_argument("--dry-run", action="store_true", default=argparse.SUPPRESS, help=argparse.SUPPRESS)
    return whole


def act(office: Office, settings: Settings, words: argparse.Namespace) -> int:
    match words.command:
        case "status":
            return office.show()
        case "ready":
            office.require_ready()
            office.require_keys()
        case "key":
            keys(office, words)
        case "keep":
            return office.keep()
        case "create":
            office.create()
        case "start":
            office.start()
        case "stop":
            office.stop()
        case "backup":
            office.show_name(office.backup(words.snapshot, words.stop))
        case "restore":
            office.restore(Path(os.path.abspath(words.backup)), words.force)
        case "prune":
            prune(settings, office.step)
        case "merge":
            merges = read_merges(words.lists)
            reports = read_reports(words.report, merges)
            office.merge(merges, reports, words.most_removed, words.looks, words.stop)
        case name if name in COMMANDS:
            office.command([name, *(getattr(words, word) for word in OFFICE_COMMANDS[name].split())])
        case "remove-arch":
            remove_arch(office, words.name, words.yes)
        case "run":
            office.run(sys.stdin.buffer.read())
    return office.status


def keys(office: Office, words: argparse.Namespace) -> None:
    desk = office.desk()
    match words.what:
        case "add":
            desk.add(words.name, words.rights)
        case "change":
            desk.change(words.name, words.rights)
        case "remove":
            desk.remove(words.name)
        case "list":
            desk.show()


@contextlib.contextmanager
def alone(settings: Settings, command: str) -> Iterator[None]:
    """Refuses if another call of this command changes the office; those that only look do not count, and keys have a
    lock of their own."""
    if command in ("status", "ready", "keep", "key"):
        yield
        return
    with open(settings.file, "rb") as handle:
        try:
            fcntl.flock(handle, fcntl.LOCK_EX | fcntl.LOCK_NB)
        except OSError:
            raise Refusal("another call of this command is under way") from None
        yield


def end_by_signal(number: int, _frame: object) -> NoReturn:
    raise SystemExit(128 + number)


def main(arguments: Sequence[str]) -> int:
    outlive_readers()
    words = parser().parse_args(arguments)
    os.umask(0o027)
    signal.signal(signal.SIGTERM, end_by_signal)
    signal.signal(signal.SIGHUP, end_by_signal)
    office = None
    try:
        settings = read_settings(Path(os.path.abspath(words.settings)))
        owner = Owner(settings.owner)
        with alone(settings, words.command):
            owner.become()
            office = Office(settings, owner, words.dry_run)
            return act(office, settings, words)
    except Refusal as refusal:
        tell(str(refusal))
        return office.status if office and office.status else refusal.status
    except OSError as error:
        tell(str(error))
        return office.status if office and office.status else FAILED
    except KeyboardInterrupt:
        return 130
