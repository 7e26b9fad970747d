"""The command wanna-build, as buildd, buildd-mail and buildd-uploader call it; `--help` says how. buildd empties the
environment, so the settings are in a file."""

# buildd looks at no status, so a report is safe only once it is written down where buildd runs: this runs there, and
# asks the office through a tunnel. By a forced command of ssh the file would be on the office's machine; a builder may
# say less then, and loses what buildd says while the link is down.

from __future__ import annotations

import os
import sys
from collections.abc import Callable, Iterator, Sequence
from dataclasses import replace
from functools import cache, cached_property
from typing import Any

from wb_tools import outlive_readers
from wb_tools.lists import is_arch_name
from wb_tools.wanna_build.answers import info, list_of, taken_as_yaml, taken_in_words, total
from wb_tools.wanna_build.by_name import ByName, Order, cut, order_of
from wb_tools.wanna_build.changes import arch_of, read_changes, suite_of
from wb_tools.wanna_build.forced import read_words
from wb_tools.wanna_build.listing import check_format, check_order, formatted, ordered
from wb_tools.wanna_build.office import NoAnswer, NotKnown, Office, Record, Refusal, held_by, is_of
from wb_tools.wanna_build.reports import Reports, reason_of, take_of, tried
from wb_tools.wanna_build.settings import (
    DONE, FILE, NOT_SENT, REFUSED, WRONG_WORDS, Fault, Settings, caller, read_settings,
)
from wb_tools.wanna_build.simulation import Simulation
from wb_tools.wanna_build.state import ATTEMPTED, BUILDING, BUILT, Debt, StateFile, Take
from wb_tools.wanna_build.words import BUILDER, Call, states_of

HELP = f"""\
usage: wanna-build [--settings FILE] [--arch=A] [--dist=S] [--user=B] WORDS

Debian's buildd calls this in place of wanna-build. It translates what buildd, buildd-mail and buildd-uploader say to
requests of an office that `wb serve` answers on this machine. A report that the office does not get is kept and synced,
and is sent again, in order, before the next command.

what buildd, buildd-mail and buildd-uploader say:
  --list=STATE                     what is in a state, or in `all`; Needs-Build in the order of the queue
  [--api 1 | -v] SOURCE_VERSION    takes it, and answers as YAML or in words; also --take
  --built, --attempted, --uploaded, --give-back SOURCE_VERSION
  --dep-wait SOURCE_VERSION        with the relations on standard input
  --failed SOURCE_VERSION          with the reason on standard input, up to a line with a full stop alone
  --no-build SOURCE_VERSION        it is not for this architecture
  --info SOURCE                    its record

what porters and the release team say besides:
  --binNMU=N -m TEXT SOURCE_VERSION     builds an installed version once more
  --build-priority=N SOURCE_VERSION     builds it before, or after, those of other build priorities; also
                                        --permbuildpri, --perm-build-priority, --permanent-build-priority
  --give-back, --dep-wait, --failed, --no-build, with -m TEXT in place of standard input; --override if another builder
                                        holds it
  --forget-user BUILDER                 gives back all that a builder holds, one that is gone, and shows it; with --arch
                                        of one architecture
  --simulate                            shows what a word would change, and sends nothing
  --list=STATE --order=LETTERS          in the order of p, priority, s, section, n, name, b, builder, or c, what was
                                        built before; of several letters the first decides
  --list=STATE --format=TEXT            a line of this text for each, and no total: %p is the source package, %v its
                                        version, %V that of its binaries, %a the architecture, %d the suite, %S the
                                        state, %u the builder, %c the section, %B the number of a rebuild, %E what it
                                        waits for, or its place in the queue, %D why it cannot be installed, %F the
                                        reason of another state, %X what a list has in brackets, %n a new line, %% a
                                        per cent sign; %{{TEXT}}B is the text if %B is not empty, %{{!TEXT}}B if it is
  --may-upload FILE.changes             status 0 if what it names is held as built; for a hook of dupload; - is
                                        standard input
  --owed                                sends what is owed to the offices, and shows what is left, and what is held
  --forget TAKE                         drops what is owed under a take number, or of SOURCE_VERSION

SOURCE_VERSION is hello_1.0-1 as a list shows it, or with the version of the binaries, hello_1.0-1+b1. --user is the
builder's name in the office, that of the caller if it is not given. --database=ARCH/NAME stands for --arch. --dist may
name several suites, as in sid,experimental, or `all` of them: each is asked in turn. A take, and what came of a build,
is of one. --min-age, --max-age and --category are refused, but for 0: the office has no clock, and no categories.

--forced, with --user and --arch, is for a forced command of ssh: the words are those of SSH_ORIGINAL_COMMAND, and what
stands beside --forced is all that they may say of it; --arch and --dist may be lists. --forced=builder lets through
what buildd, buildd-mail, buildd-uploader and the hook say, and no word of porters.

settings, lines of KEY=VALUE with a value with a blank in quotes, in {FILE} or FILE:
  SUITES   the port of 127.0.0.1 on which the office of each suite serves, as "sid=8080 experimental=8081" (required)
  KEY_FILE the file with the key that is shown to the offices, which nobody but its owner
           may open, or of each its own, as "sid=~/sid.key experimental=~/exp.key"    ~/wanna-build.key, if it is there
  ARCH     the architecture, if --arch is not given; without both that of an office which has one
  ALL      the office's architecture for builds of `all`, which buildd names `all`    indep
  STATE    the file of what is held and owed, of its caller alone; its folder is made ~/wanna-build.state
  LOG      the file of reports that were owed, or refused later                       ~/wanna-build.log
  TRY      seconds that a report is tried before it is kept, and that --info and
           --may-upload are tried before they fail                                    300
  ANSWER   seconds that an answer may take                                            40
  RETAKE   yes or no: whether a list of Needs-Build begins with what its builder
           is building already, as after buildd was killed                            yes

examples:
  wanna-build --arch=amd64 --dist=sid --user=b1 --api 1 --list=needs-build
  wanna-build -A amd64 -d sid --list=build-attempted
  wanna-build -A amd64 -d all --list=failed --format='%p_%v (%d): %F'
  wanna-build -A amd64 -d sid --binNMU=1 -m 'Rebuild against libfoo2' hello_1.0-1
  wanna-build -A amd64 -d sid --simulate --give-back hello_1.0-1
  echo 'libfoo-dev (>= 2)' | wanna-build -A amd64 -d sid --dep-wait hello_1.0-1

exit statuses: 0 done; 1 the office refused it, also for want of a key, or has not such a suite; 2 the words or the
settings are wrong; 3 the office does not answer, or refuses a report for want of a key, or a file cannot be written: a
report of a builder is kept then, if it can be, and all else is not done, or it is not known. Standard error says which.
"""
TAKE_FOR = 30  # seconds at most that a take is tried: buildd hears no signal meanwhile
REPORTS = ("built", "attempted", "uploaded")  # what a builder alone says
ON_HOLDS = ("give-back", "dep-wait")  # what a builder says of what it holds, and a porter by name
OF_ONE_SUITE = ("take", *REPORTS)


def tell(text: str) -> None:
    print(f"wanna-build: {text}", file=sys.stderr, flush=True)


def told(said: Record | Refusal | list[Record]) -> Any:
    """An answer that is no refusal."""
    if isinstance(said, Refusal):
        raise Fault(str(said))
    return said


def text_of(call: Call) -> str:
    """The reason or the relations: those of -m, or what stands on standard input up to its end or a line with a full
    stop alone."""
    if "message" in call.said:
        return call.said["message"]
    if call.action not in ("dep-wait", "failed"):
        return ""
    lines = []
    for line in sys.stdin.buffer.read(1 << 20).decode(errors="replace").split("\n"):
        if line == ".":
            break
        lines.append("." if line == ".." else line)
    return "\n".join(lines).strip()


class WannaBuild:
    """A call to the office of one suite."""

    def __init__(
        self, call: Call, settings: Settings, suite: str, text: Callable[[], str], mark: str = ""
    ) -> None:
        """`mark` stands after the names of packages of which something is said on standard error."""
        self.call, self.settings, self.suite, self.text, self.mark = call, settings, suite, text, mark
        self.builder = call.said.get("user") or caller()
        self.arch = settings.arch_of(call.arch)
        self.state = StateFile(settings.state)
        self.reports = Reports(settings, self.state)

    @property
    def office(self) -> Office:
        return self.reports.office(self.suite)

    def carry_out(self) -> int:
        action = self.call.action
        if action == "list" and self.settings.port_of(self.suite) is None:
            print(f"Database for {self.suite} doesn't exist")  # buildd passes over a suite of which it reads this
            return REFUSED
        if action == "forget-user":
            return self.forget_users()
        if not self.arch:
            self.arch = self.only_arch()
        if not is_arch_name(self.arch):
            raise Fault(f"{self.arch!r} is no architecture", WRONG_WORDS)
        if action in OF_ONE_SUITE and not BUILDER.fullmatch(self.builder):
            raise Fault(f"{self.builder!r} is no name of a builder", WRONG_WORDS)
        if action == "list":
            return self.show_list()
        if action == "info":
            return self.show_info()
        if self.call.simulates:
            return self.each(self.simulate)
        if action == "take":
            return self.take()
        self.text()  # no lock is held while it is read
        return self.each(self.say)

    def only_arch(self) -> str:
        """The architecture of an office that has one, besides that of builds of `all`."""

        def once() -> list[Record] | Refusal | NotKnown:
            try:
                return self.office.archs()
            except NotKnown as why:
                return why

        said = tried(self.settings.try_for, once)
        if isinstance(said, NotKnown):
            raise Fault(f"--arch is missing, and the settings have none; {said}", WRONG_WORDS)
        names = [one["arch"] for one in told(said)]
        found = [name for name in names if name != self.settings.all_arch]
        if len(found) != 1:
            has = ", ".join(names) or "no architecture"
            raise Fault(f"--arch is missing, and the settings have none: the office has {has}", WRONG_WORDS)
        only: str = found[0]
        return only

    def each(self, step: Callable[[str, str], str]) -> int:
        """Takes a step for each package, which answers why it was refused, if it was. Once an office was waited for in
        vain it is asked once for each of the others."""
        status = DONE
        for source, version in self.call.packages():
            try:
                why, end = step(source, version), REFUSED
            except NoAnswer as fault:
                why, end = str(fault), NOT_SENT
                self.settings = replace(self.settings, try_for=0)
            if why:
                tell(f"{source}_{version}{self.mark}: {why}")
                status = max(status, end)
        return status

    def locked(self) -> Any:
        return self.state.locked(self.settings.try_for + 2 * self.settings.answer)

    def settle(self, is_builders: bool = False) -> None:
        """Sends what is owed to this suite; NoAnswer if it cannot be sent."""
        if self.call.simulates:
            return
        self.state.look(is_builders)
        if self.reports.owed(self.suite):
            with self.locked():
                self.reports.send_owed(self.suite)

    # -- what is asked

    def show_list(self) -> int:
        wanted, count = states_of(self.call.value), 0
        order, form = (self.call.said.get(name, "") for name in ("order", "format"))
        check_order(order)
        check_format(form)
        self.settle("user" in self.call.said and wanted == ["Needs-Build"])
        for state in wanted:
            records = self.waiting() if state == "Needs-Build" else told(self.office.in_state(self.arch, state))
            lines = formatted(form, records, self.suite, order) if form else list_of(ordered(records, order), state)
            print("".join(f"{line}\n" for line in lines), end="")
            count += len(records)
        if not form:
            print(total(count, wanted[0] if len(wanted) == 1 else "all"))
        return DONE

    def waiting(self) -> list[Record]:
        """What waits, in the order of the queue, after what this builder is building already. The queue names what is
        built, and the state the versions; a package that a command moved between the two requests is left out."""
        queue = told(self.office.queue(self.arch))
        records = {
            (record["source"], record["build"]): record
            for record in told(self.office.in_state(self.arch, "Needs-Build"))
        }
        found = [records[key] for entry in queue if (key := (entry["source"], entry["build"])) in records]
        if "user" not in self.call.said or not self.settings.retake:
            return found
        mine = self.office.mine(self.builder)
        if isinstance(mine, Refusal):
            return found
        return [record for record in mine if record["arch"] == self.arch and record["state"] == "Building"] + found

    def show_info(self) -> int:
        """Shows records. An office that is stopped is waited for: buildd-mail would send an answer to a log back."""
        if not self.call.words:
            raise Fault(f"{self.call.word} wants a package, as in hello", WRONG_WORDS)

        def once() -> list[str]:
            self.settle()
            return [line for word in self.call.words for line in self.info_of(word)]

        print("\n".join(tried(self.settings.try_for, once)))
        return DONE

    def info_of(self, word: str) -> list[str]:
        source = word.rpartition("/")[2].partition("_")[0]
        record = self.office.item(self.arch, source)
        if isinstance(record, Refusal) and record.name == "UnknownSource":
            return [f"{source}({self.suite}): not registered"]
        return list(info(told(record), self.suite))

    # -- a take

    def take(self) -> int:
        lines, status = [], DONE
        show = taken_as_yaml if self.call.wants_yaml else taken_in_words
        for source, version in self.call.packages():
            assignment, why = None, ""
            try:
                assignment = self.take_one(source, version)
            except (Fault, NoAnswer) as fault:
                why, status = str(fault), fault.status if isinstance(fault, Fault) else NOT_SENT
            lines += show(source, assignment, why)
        print("\n".join(lines))
        return status

    def take_one(self, source: str, version: str) -> Record:
        """Takes a package, and keeps its take number. What is kept can be written before the office is asked."""
        with self.locked():
            self.reports.send_owed(self.suite)
            self.state.write()
            asked = {"arch": self.arch, "builder": self.builder, "source": source, "version": version}
            tries = 0

            def once() -> Record:
                nonlocal tries
                tries += 1
                said = self.office.ask("POST", "/v1/take", asked)
                return self.taken_before(said, source, version, tries > 1) if isinstance(said, Refusal) else said

            assignment = tried(min(self.settings.try_for, TAKE_FOR), once)
            debt = Debt(self.suite, self.arch, self.builder, source, version, "built", assignment["take"])
            self.state.kept.put(take_of(debt, assignment, BUILDING))
            self.state.write()
            return assignment

    def taken_before(self, refusal: Refusal, source: str, version: str, again: bool) -> Record:
        """What this builder holds already: it was killed while it built it, or the answer to its take was lost."""
        record = self.office.item(self.arch, source) if refusal.name == "WrongState" else refusal
        if isinstance(record, Refusal):
            raise Fault(str(refusal))
        if (
            record["holder"] == self.builder
            and record["state"] == "Building"
            and record["version"] == version
            and (again or self.settings.retake)
        ):
            return record
        raise Fault(f"it is {record['state']}{held_by(record)}")

    # -- what is said

    def say(self, source: str, version: str) -> str:
        """Why it was refused, if it was. Only the reports of a builder need the file and its lock."""
        if self.is_report(source, version):
            with self.locked():
                debt = self.debt_of(source, version)
                if debt:
                    return self.reports.report(debt, self.settings.try_for)
        tried(self.settings.try_for, self.settle)
        return self.by_name.say(self.order, source, version)

    def is_report(self, source: str, version: str) -> bool:
        """Whether it is a report on what the builder holds, or may hold; give-back and dep-wait are else said by
        name."""
        if self.call.action in ON_HOLDS:
            take = self.state.look().find(self.suite, self.arch, self.builder, source)
            return bool(take and take.is_held_as(version)) or bool(self.held(source, version))
        return self.call.action in REPORTS

    def debt_of(self, source: str, version: str) -> Debt | None:
        """The report that the words are, under the take number of what the builder holds; none if they are said by
        name."""
        word = self.call.action
        take = self.state.kept.find(self.suite, self.arch, self.builder, source)
        take = take if take and take.is_of(version) else None
        if word in ON_HOLDS and not (take and take.is_held_as(version)):
            take = self.adopted(source, version)
            if take is None:
                return None
        text = cut(self.text() or reason_of(self.builder)) if word == "attempted" else self.text()
        debt = Debt(self.suite, self.arch, self.builder, source, version, word, take and take.take, text)
        if take and take.stage == ATTEMPTED:
            # buildd was told by mail to build it once more, and does not take it
            debt.anew, debt.sent = word == "built", word == "attempted"
            debt.take = None if debt.anew else debt.take
        debt.anew = debt.anew or word == "dep-wait"
        return debt

    def held(self, source: str, version: str) -> list[Record]:
        """What the office shows as held by the builder of a package; a porter is no builder of the office."""

        def once() -> list[Record]:
            records = self.office.mine(self.builder)
            return [
                record
                for record in ([] if isinstance(records, Refusal) else records)
                if (record["arch"], record["source"]) == (self.arch, source) and is_of(record, version)
            ]

        return tried(self.settings.try_for, once)

    def adopted(self, source: str, version: str) -> Take | None:
        """What the builder holds of a package of whose take number nothing is kept; it is kept then."""
        for record in self.held(source, version):
            stage = BUILDING if record["state"] == "Building" else BUILT
            take = Take(
                self.suite, self.arch, self.builder, source, record["version"], record["build"], record["take"], stage
            )
            self.state.kept.put(take)
            return take
        return None

    @cached_property
    def order(self) -> Order:
        return order_of(self.call, self.text())

    @property
    def by_name(self) -> ByName:
        overrides, is_builders = "override" in self.call.flags, self.call.is_builders
        return ByName(self.office, self.arch, self.builder, self.settings.try_for, overrides, is_builders)

    # -- what would change, and a builder that is gone

    def simulate(self, source: str, version: str) -> str:
        """Shows what a word would change, and sends nothing. Why it would be refused, if it would be."""
        builder = Simulation(self.office, self.arch, self.builder)
        take = self.state.look().find(self.suite, self.arch, self.builder, source)
        take = take if take and take.is_of(version) else None
        try:
            if self.call.action == "take":
                change = builder.taken(source, version, self.settings.retake)
            elif builder.is_report(self.call.action, source, take):
                change = builder.reported(self.call.action, source, version, take)
            else:
                change = self.by_name.simulated(self.order, source, version)
        except Fault as fault:
            if fault.status != REFUSED:
                raise
            return str(fault)
        self.show_change(source, version, self.arch, change)
        return ""

    def show_change(self, source: str, version: str, arch: str, change: str) -> None:
        print(f"{source}_{version} ({self.suite}, {arch}): {change}")

    def forget_users(self) -> int:
        """Gives back all that builders hold, of --arch alone if it is given, and shows it."""
        if not self.call.words:
            raise Fault(f"{self.call.word} wants a builder, as in b1", WRONG_WORDS)
        return max([self.forget_user(builder) for builder in self.call.words])

    def forget_user(self, builder: str) -> int:
        records = tried(self.settings.try_for, lambda: self.office.mine(builder))
        if isinstance(records, Refusal):
            tell(f"{builder}{self.mark}: {records}")
            return REFUSED
        status = DONE
        for record in (record for record in records if not self.call.arch or record["arch"] == self.arch):
            name, arch = (record["source"], record["version"]), record["arch"]
            why = "" if self.call.simulates else self.by_name.release(record)
            if why:
                tell(f"{name[0]}_{name[1]}{self.mark}: {why}")
                status = REFUSED
            else:
                self.show_change(*name, arch, f"{record['state']}{held_by(record)} -> Needs-Build")
        return status


# ---- what is kept, and what may be uploaded


def show_owed(call: Call, settings: Settings, reports: Reports) -> int:
    """Sends what is owed, and shows what is left, and what is held."""
    faults = []
    if reports.state.read().owed and not call.simulates:
        with reports.state.locked(settings.try_for + 2 * settings.answer) as kept:
            for suite in sorted({debt.suite for debt in kept.owed}):
                try:
                    reports.send_owed(suite)
                except NoAnswer as why:
                    faults.append(str(why))
    for debt in reports.kept.owed:
        print(f"owed: {debt}")
    for take in reports.kept.takes:
        print(f"{take.stage}: {take.source}_{take.build} ({take.suite}, {take.arch}, {take.builder}, take {take.take})")
    for fault in faults:
        tell(fault)
    return NOT_SENT if faults else DONE


def forget(call: Call, settings: Settings, reports: Reports) -> int:
    """Drops what is owed under a take number, or of a package, and shows it."""
    if len(call.words) != 1:
        raise Fault(f"{call.word} wants one take number, as --owed shows it, or one package", WRONG_WORDS)
    suites = settings.suites_of(call.said["dist"]) if call.said.get("dist") else []
    arch = settings.arch_of(call.arch) if call.arch else ""
    with reports.state.locked(settings.try_for + 2 * settings.answer):
        found = reports.owed_as(call.words[0], suites, arch, call.said.get("user", ""))
        if not call.simulates:
            reports.forget(found)
    for debt in found:
        print(f"forgotten: {debt}")
    return DONE


def may_upload(call: Call, settings: Settings, reports: Reports) -> int:
    """Whether the office shows what a .changes file names as built under the take number under which it was reported.
    An office that is stopped is waited for: dupload would mail that the upload failed."""
    if len(call.words) != 1:
        raise Fault(f"{call.word} wants one .changes file", WRONG_WORDS)
    changes, builder = read_changes(call.words[0]), call.said.get("user") or caller()
    suite, arch = suite_of(call, settings, changes), arch_of(call, settings, changes)

    def once() -> list[Record]:
        reports.state.read()
        if reports.owed(suite):
            with reports.state.locked(settings.try_for + 2 * settings.answer):
                reports.send_owed(suite)
        held: list[Record] = told(reports.office(suite).mine(builder))
        return held

    records = tried(settings.try_for, once)
    take = reports.kept.find(suite, arch, builder, changes.source)
    for record in records:
        if (
            (record["arch"], record["source"]) == (arch, changes.source)
            and is_of(record, changes.version)
            and record["state"] in ("Built", "Uploaded")
        ):
            if take is None or take.take == record["take"]:
                return DONE
    raise Fault(f"{changes.source}_{changes.version} ({suite}, {arch}) is not held as built by {builder}")


# ---- a call


def carried_out(call: Call, settings: Settings) -> int:
    """What a call ends with: of one to several suites the greatest status."""
    of_no_suite = {"owed": show_owed, "forget": forget, "may-upload": may_upload}
    if call.action in of_no_suite:
        return of_no_suite[call.action](call, settings, Reports(settings, StateFile(settings.state)))
    suites = settings.suites_of(call.said.get("dist", ""))
    if not suites:
        raise Fault("--dist is missing, and the settings have several suites", WRONG_WORDS)
    if len(suites) > 1 and call.action in OF_ONE_SUITE:
        raise Fault(f"{call.word} is of one suite, and --dist names {', '.join(suites)}", WRONG_WORDS)
    unknown = [suite for suite in suites if settings.port_of(suite) is None]
    if unknown and call.action != "list":
        raise Fault(f"the settings have no suite {unknown[0]}", WRONG_WORDS)
    text = cache(lambda: text_of(call))
    if len(suites) == 1:
        return WannaBuild(call, settings, suites[0], text).carry_out()
    return max([carried_out_in(WannaBuild(call, settings, suite, text, f" ({suite})")) for suite in suites])


def carried_out_in(of_suite: WannaBuild) -> int:
    """What a call to several suites ends with in one of them; what is said of it names the suite."""
    if of_suite.call.action == "list" and "format" not in of_suite.call.said:
        print(f"{of_suite.suite}:")
    try:
        return of_suite.carry_out()
    except NoAnswer as fault:
        why, status = str(fault), NOT_SENT
    except Fault as fault:
        why, status = str(fault), fault.status
        if status == WRONG_WORDS:
            raise
    tell(f"{of_suite.suite}: {why}")
    return status


def answered(call: Call, carry_out: Callable[[], int]) -> int:
    """What a call ends with; why it fails is said in the form that its caller reads."""
    try:
        return carry_out()
    except Fault as fault:
        why, status = str(fault), fault.status
    except NoAnswer as fault:
        why, status = str(fault), NOT_SENT
    except OSError as error:
        why, status = str(error), NOT_SENT
    except Exception as error:  # a trace would end buildd, which reads YAML here
        why, status = f"the office's answer is not as it has to be: {error!r}", NOT_SENT
    if call.wants_yaml:
        print("\n".join(failed_takes(call, why)))
    else:
        tell(why)
    return status


def failed_takes(call: Call, why: str) -> Iterator[str]:
    for word in call.words or ["-"]:
        yield from taken_as_yaml(word.rpartition("/")[2].partition("_")[0], None, why)


def main(arguments: Sequence[str]) -> int:
    outlive_readers()
    for stream in (sys.stdout, sys.stderr):
        stream.reconfigure(encoding="utf-8", errors="replace")  # type: ignore[union-attr]
    call = read_words([os.fsencode(word).decode(errors="replace") for word in arguments])
    if call.action == "help":
        print(HELP, end="")
        return DONE

    def carry_out() -> int:
        if call.fault:
            raise Fault(call.fault, WRONG_WORDS)
        return carried_out(call, read_settings(call.settings))

    return answered(call, carry_out)
