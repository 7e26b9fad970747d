#!/usr/bin/env python3
"""Tests of what a user gets with the program: the pages of the manual and the completion against the tree of
subcommands, the package, installed into a folder that is thrown away, and the files of a release. Each test has a
folder of its own.

    tools/tests/test_package.py [NAME..]                 these tests, or all
    tools/tests/test_package.py page_has_each_subcommand

From the environment: WB is the program, crates/wb/out/wb of this repository where it is not set. lintian,
systemd-analyze and man are called where they are installed.
"""
import argparse
import gzip
import json
import os
import re
import resource
import shutil
import stat
import subprocess
import sys
import tarfile
from pathlib import Path

from harness import BIN, ROOT, LeftOut, call, expect, main, program
from manual_page import NAMES
from package_runs import Trial
from wb_tools.commands import office
from wb_tools.wanna_build import words as wanna_build_words

WAIT = 30
PAGES = ("wb.1", "wanna-build.1", "wb-office.8", "wb-table.1", "wb-status.1", "wb-history.1", "wb-web.1")
DATE = "1776000000"
TABLES_PAGES = ("wb-table.1", "wb-status.1")
SOURCES = "Package: {}\nVersion: {}\nArchitecture: any\nPriority: optional\nSection: misc\n\n"
OPTION, STATED = r"^  (?:-h, )?(--[a-z-]+)", r"^\.BI? ?R? ?(--[a-z-]+)"  # of a help, and of a page


# ---- the pages and the completion


def usages():
    """The subcommands, as the tree has them: the name, and the kind of each argument."""
    found = {}
    for module in sorted((ROOT / "crates/wb_words/src").glob("*.rt")):
        tree = re.search(r"pub static USAGES: [^=]*= \[(.*?)\n?\];", module.read_text(encoding="utf-8"), re.S)
        for name, arguments in re.findall(r'\(\s*"([a-z-]+)",\s*&\[(.*?)\]', tree[1] if tree else "", re.S):
            found[name] = re.findall(r'\("([a-z-]+)", ArgumentKind::([A-Za-z]+)\)', arguments)
    expect(len(found) > 10, f"only {len(found)} subcommands were found")
    return found


def help_heads():
    """The lines of the program's help that begin a command, such as `take ARCH BUILDER SOURCE VERSION`."""
    text = (ROOT / "crates/wb_words/src/start.rt").read_text(encoding="utf-8")
    said = re.search(r'pub const HELP: &str = "\\\n(.*?)";', text, re.S)
    expect(said, "start.rt has no HELP")
    return re.findall(r"^  ([a-z-]+(?: [A-Z\[].*)?)$", said[1].partition("The commands are:")[2], re.M)


def help_examples():
    """Under the head of each command, its example in the program's help."""
    text = (ROOT / "crates/wb_words/src/start.rt").read_text(encoding="utf-8")
    return dict(re.findall(r"^  ([a-z-]+(?: [A-Z\[].*)?)\n(?: {10}.*\n)* {10}Example: (.*)$", text, re.M))


def page_text(name):
    return (
        (ROOT / "docs" / name)
        .read_text(encoding="utf-8")
        .replace("\\-", "-")
        .replace("\\(aq", "'")
        .replace("\\e", "\\")
    )


def page_commands(name):
    """The commands of a page: the head of each, and its example, if it has one."""
    section = re.search(r"^\.SH COMMANDS$(.*?)^\.SH ", page_text(name), re.S | re.M)
    expect(section, f"{name} has no COMMANDS")
    found = {}
    for part in section[1].split("\n.TP\n")[1:]:
        example = re.search(r"^\.EX\n(.*)\n\.EE$", part, re.M)
        found[part.partition("\n")[0].removeprefix(".B ")] = example and example[1]
    return found


def form_of(kinds):
    """How an argument of each kind stands in a usage: required, named, or of several words."""
    forms = {
        "Word": "[A-Z]+", "NamedWord": r"\[--{} [A-Z]+\]", "SomeWords": r"[A-Z]+\.\.", "AnyWords": r"\[[A-Z]+\.\.\]",
    }
    return "".join(" " + forms[kind].format(name) for name, kind in kinds)


def page_has_each_subcommand(_folder):
    commands = list(page_commands("wb.1"))
    expect(
        commands == help_heads(), f"docs/wb.1 and help differ: {set(commands) ^ set(help_heads()) or 'in their order'}"
    )
    expect(help_examples() == page_commands("wb.1"), f"the examples of docs/wb.1 and help differ: {help_examples()}")
    expect(
        sorted(head.split()[0] for head in commands) == sorted(usages()),
        "docs/wb.1 has not just the subcommands of the tree",
    )
    for head in commands:
        name = head.split()[0]
        expect(
            re.fullmatch(name + form_of(usages()[name]), head),
            f"docs/wb.1: {head} is not as the tree has it: {usages()[name]}",
        )


def page_has_an_example_of_each(_folder):
    for head, example in page_commands("wb.1").items():
        name = head.split()[0]
        expect(example and example.split()[0] == name, f"docs/wb.1 has no example of {name}")
        words = [word for word in re.sub(r" --after \S+", "", example).split()[1:] if word != "--"]
        least = sum(kind in ("Word", "SomeWords") for _, kind in usages()[name])
        most = 1000 if any(kind.endswith("Words") for _, kind in usages()[name]) else least
        expect(least <= len(words) <= most, f"docs/wb.1: the example of {name} has {len(words)} arguments")


def page_examples_are_commands(folder):
    (folder / "Sources-0412").write_text(SOURCES.format("hello", "1.0-1"))
    (folder / "Packages-amd64-0412").write_text("")
    (folder / "report-0412").write_text("hello 1.0-1 installable\n")
    lines = [example for example in page_commands("wb.1").values()]
    done = subprocess.run(
        [program(), "run"], cwd=folder, input="\n".join(lines), capture_output=True, text=True, timeout=WAIT,
        check=False,
    )
    answers = done.stdout.splitlines()
    expect(len(answers) == len(lines), f"{len(answers)} answers to {len(lines)} examples: {done.stderr[-300:]}")
    for line, answer in zip(lines, answers):
        expect(
            "fault" not in json.loads(answer) or "refused" in json.loads(answer),
            f"{line}: {answer} {done.stderr[-300:]}",
        )
    expect(done.returncode < 2, f"status {done.returncode}")


def page_has_the_version_and_the_options(_folder):
    stated = re.search('VERSION: &str = "(wb [0-9.]+),', (ROOT / "crates/wb/src/main.rt").read_text(encoding="utf-8"))
    service = (ROOT / "crates/wb_words/src/service.rt").read_text(encoding="utf-8")
    start = (ROOT / "crates/wb_words/src/start.rt").read_text(encoding="utf-8")
    options = re.findall(r'\.long\("([a-z-]+)"\)', service)
    options += re.findall(r'\("([a-z-]+)", ArgumentKind::NamedWord\)', start)
    wanted = {"store", "port", "requests", "journal", "lists", "keys"}
    expect(wanted <= set(options), f"the options were not found: {options}")
    for name in PAGES:
        expect(
            stated and f'"{stated[1]}"' in page_text(name).splitlines()[0],
            f"docs/{name} is not of {stated and stated[1]}",
        )
        expect("Apache License, version 2.0" in page_text(name), f"docs/{name} names no licence")
    for option in options:
        expect(re.search(rf"^\.BI --{option} ", page_text("wb.1"), re.M), f"docs/wb.1 does not have --{option}")


def page_of_the_office_has_each_command(_folder):
    commands = {head.split()[0]: head for head in page_commands("wb-office.8")}
    tree = office_parser()
    expect(list(commands) == list(tree), f"docs/wb-office.8 has {list(commands)}, and tools/bin/office {list(tree)}")
    for name, options in tree.items():
        missing = [option for option in options if option not in commands[name]]
        expect(not missing, f"docs/wb-office.8: {name} lacks {missing}")


def page_of_wanna_build_has_each_word(_folder):
    text = page_text("wanna-build.1")
    for name in [*wanna_build_words.ACTIONS, *wanna_build_words.OPTIONS]:
        expect(f"--{name}" in text, f"docs/wanna-build.1 does not have --{name}")
    help_text, _ = call([BIN / "wanna-build", "--help"])
    for key in re.findall("^#?([A-Z_]+)=", (ROOT / "packaging/wanna-build.conf").read_text(), re.M):
        expect(f"\n  {key} " in help_text, f"help does not have the setting {key}")


def pages_are_formatted(_folder):
    if not shutil.which("man"):
        raise LeftOut("man is not installed, and formatted no page")
    environment = {**os.environ, "MANWIDTH": "80", "MAN_KEEP_STDERR": "1", "LC_ALL": "C.UTF-8"}
    for name in PAGES:
        said, warned = call(["man", "--warnings", "-l", str(ROOT / "docs" / name)], env=environment)
        expect(not warned and "EXIT STATUS" in said, f"docs/{name}: {warned[-300:] or 'there is no text'}")
    return None


def pages_of_the_tables_have_each_option(_folder):
    """The pages and the completion of wb-table and wb-status have the options that these scripts say that they have,
    and no others."""
    for page in TABLES_PAGES:
        name = page.partition(".")[0]
        said, _ = call([BIN / name, "--help"])
        options = sorted(set(re.findall(OPTION, said, re.M)))
        section = re.search(r"^\.SH OPTIONS$(.*?)^\.SH ", page_text(page), re.S | re.M)
        stated = sorted(re.findall(STATED, section[1], re.M) if section else [])
        expect(len(options) > 3 and stated == options, f"docs/{page} has {stated}, and the script {options}")
        expect(completed(name, "-") == options, f"after {name}: {completed(name, '-')}")


def page_of_history_has_each_question(_folder):
    """The page and the completion of wb-history have the questions of the script, and the options of each."""
    said, _ = call([BIN / "wb-history", "--help"])
    questions = re.findall(r"^    ([a-z]+) ", said.partition("QUESTION\n")[2].partition("options:")[0], re.M)
    text = page_text("wb-history.1")
    stated = re.findall(r"^\.BI? ([a-z]+)", text.partition(".SH QUESTIONS")[2].partition(".SH OPTIONS")[0], re.M)
    expect(len(questions) == 9 and stated == questions, f"docs/wb-history.1 has {stated}, and the script {questions}")
    expect(
        completed("wb-history", "journal", "") == sorted(questions),
        f"after wb-history: {completed('wb-history', 'journal', '')}",
    )
    every = set()
    for question in questions:
        said, _ = call([BIN / "wb-history", "-", question, "--help"])
        options = sorted(set(re.findall(OPTION, said, re.M)))
        expect(
            completed("wb-history", "journal", question, "-") == options,
            f"after {question}: {completed('wb-history', 'journal', question, '-')}",
        )
        every |= set(options)
    stated = re.findall(STATED, text.partition(".SH OPTIONS")[2].partition(".SH EXIT STATUS")[0], re.M)
    expect(sorted(stated) == sorted(every), f"docs/wb-history.1 has {stated}, and the script {sorted(every)}")


def office_parser():
    """The commands of tools/bin/office, each with its own options, but for --dry-run, which each of them takes too."""
    below = next(action for action in office.parser()._actions if action.dest == "command")
    shown = {name: [a for a in one._actions if a.help != argparse.SUPPRESS] for name, one in below.choices.items()}
    return {
        name: sorted(o for a in actions for o in a.option_strings if o not in ("-h", "--help"))
        for name, actions in shown.items()
    }


def completed(*words, **variables):
    """What bash offers for the last of the words."""
    script = (
        'source "$1"; shift; COMP_WORDS=("$@"); COMP_CWORD=$(($# - 1)); "_${1//-/_}"; printf "%s\\n" "${COMPREPLY[@]}"'
    )
    said, _ = call(["bash", "-c", script, "bash", str(ROOT / "packaging/wb.bash-completion"), *words],
                   env={**os.environ, **variables})
    return sorted(said.split("\n")[:-1]) if said.strip() else []


def completion_has_each_subcommand(folder):
    expect(completed("wb", "help", "") == sorted(usages()), f"after help: {completed('wb', 'help', '')}")
    starts = ["--store", "--version", "--help", "run", "serve", "help", *usages()]
    expect(completed("wb", "") == sorted(starts), f"after wb: {completed('wb', '')}")
    expect(
        completed("wb", "--store", "serve", "s") == ["serve", "summary"],
        "a store with the name of a subcommand is taken for one",
    )
    expect(
        completed("wb", "by-state", "amd64", "B") == ["BD-Uninstallable", "Build-Attempted", "Building", "Built"],
        "states",
    )
    expect(
        completed("wb", "--store", "=", "x", "by-state", "") == completed("wb", "built", "") == [],
        "something is offered for other words",
    )
    expect(
        completed("wb", "serve", "--") == ["--journal", "--keys", "--lists", "--port", "--requests"],
        f"after serve: {completed('wb', 'serve', '--')}",
    )
    tree = office_parser()
    offered = [word for word in completed("wb-office", "") if not word.startswith("-")]
    expect(offered == sorted(tree), f"after wb-office: {offered}")
    for name, options in tree.items():
        expect(
            [word for word in completed("wb-office", name, "-")] == options,
            f"after {name}: {completed('wb-office', name, '-')}",
        )
    (folder / "a list").write_text("")
    expect(completed("wb", "--store", f"{folder}/a l") == [f"{folder}/a list"], "no file with a blank is offered")
    for words in ([f"{folder}/a l"], ["Sources", "amd64", "=", f"{folder}/a l"]):
        expect(
            completed("wb-office", "merge", *words) == [f"{folder}/a list"], f"no list is offered after {words[:-1]}"
        )
        expect(completed("wb", "merge", *words) == [f"{folder}/a list"], f"no list is offered after {words[:-1]}")
    expect(completed("wb", "report", "amd64", f"{folder}/a l") == [f"{folder}/a list"], "no report is offered")
    key_file = ["--key-file", f"{folder}/a l"]
    for words in (
        ["wb-table", f"{folder}/a l"], ["wb-status", "--to", f"{folder}/a l"], ["wb-history", f"{folder}/a l"],
        ["wb-table", *key_file], ["wb-status", *key_file], ["wb-history", "journal", "ages", *key_file],
        ["wb-requests", *key_file], ["wb", "serve", "--keys", f"{folder}/a l"],
    ):
        expect(completed(*words) == [f"{folder}/a list"], f"no file is offered after {words[:-1]}")
    expect(
        completed("wb-table", "--url", "http", ":", "//127.0.0.1", ":", "8080", "su") == ["summary"],
        "no query is offered",
    )
    expect(
        completed("wb-status", "--arch", "") == completed("wb-table", "--first", "") == [],
        "something is offered for an option's word",
    )


def completion_of_keys(_folder):
    """After wb-office key what is done with keys is offered, and after the name of a key its rights."""
    for words, wanted in (
        ([""], ["add", "change", "list", "remove"]), (["a"], ["add"]), (["add", ""], []), (["remove", ""], []),
        (["add", "b1", ""], ["build=", "operate", "port=", "read"]), (["change", "b1", "read", "o"], ["operate"]),
        (["remove", "b1", ""], []), (["list", ""], []),
    ):
        found = completed("wb-office", "--suite", "sid", "key", *words)
        expect(found == wanted, f"after key {words}: {found}")


def completion_has_states_of_wb_table(_folder):
    url = ["--url", "http", ":", "//127.0.0.1", ":", "8080"]
    states = ["BD-Uninstallable", "Build-Attempted", "Building", "Built"]
    expect(completed("wb-table", *url, "by-state", "amd64", "B") == states, "no state is offered after wb-table")
    for words in (["by-state", ""], ["archs", ""], ["mine", "b"]):
        expect(completed("wb-table", *url, *words) == [], f"something is offered after {words}")
    expect(completed("wb-table", *url, "a") == ["archs"], "the query of architectures is not offered")


def completion_of_wanna_build(folder):
    """After wanna-build the words of its help are offered, and the states of a list."""
    with_it = {"PATH": f"{BIN}:{os.environ['PATH']}"}
    offered = completed("wanna-build", "--", **with_it)
    expect(len(offered) > 15 and {"--give-back", "--list", "--help", "--arch"} <= set(offered), f"words: {offered}")
    expect(completed("wanna-build", "--give", **with_it) == ["--give-back"], "after --give")
    for words in (["--list", "=", "b"], ["--list", "b"], ["-l", "B"]):
        found = completed("wanna-build", *words, **with_it)
        expect(found == ["bd-uninstallable", "build-attempted", "building", "built"], f"after {words}: {found}")
    expect(len(completed("wanna-build", "--list", "=", **with_it)) == 11, "all states")
    (folder / "a file").write_text("")
    expect(completed("wanna-build", "--settings", f"{folder}/a") == [f"{folder}/a file"], "no settings are offered")


def completion_of_wb_requests(folder):
    said, _ = call([BIN / "wb-requests", "--help"])
    options = sorted(set(re.findall(OPTION, said, re.M)))
    found = completed("wb-requests", "-")
    expect(len(options) == 8 and found == options, f"after wb-requests: {found}, and the script has {options}")
    (folder / "some lines").write_text("")
    expect(completed("wb-requests", f"{folder}/so") == [f"{folder}/some lines"], "no file of lines is offered")
    expect(completed("wb-requests", "--arch", "") == [], "something is offered for an architecture")


# ---- the package and the release


def make_deb(into):
    said, noted = call(
        [ROOT / "tools/dev/make-deb", "--program", program(), "--into", into],
        env={**os.environ, "SOURCE_DATE_EPOCH": DATE},
    )
    return Path(said.strip()), noted


def is_the_same_again(folder):
    first, noted = make_deb(folder / "one")
    second, _ = make_deb(folder / "two")
    expect(first.read_bytes() == second.read_bytes(), "two packages of one program differ")
    expect("lintian" in noted, "nothing says whether lintian judged the package")
    return noted.strip().splitlines()[-1]


def install(package, root):
    """Installs the package into a folder, by dpkg and its scripts if root calls, and otherwise by its files alone."""
    if os.geteuid() != 0 or not shutil.which("dpkg"):
        call(["dpkg-deb", "-x", package, root])
        return False
    (root / "var/lib/dpkg/updates").mkdir(parents=True)
    (root / "var/lib/dpkg/info").mkdir()
    for name in ("status", "available"):
        (root / "var/lib/dpkg" / name).write_text("")
    (root / "etc").mkdir(exist_ok=True)
    for name in ("passwd", "group"):
        (root / "etc" / name).write_text("")
    call([*dpkg(root), "--install", package])
    return True


def dpkg(root):
    return [
        "dpkg", f"--root={root}", "--force-depends", "--force-script-chrootless", "--force-not-root", "--log=/dev/null",
    ]


def runs_the_five_lines(folder):
    root = folder / "a root"
    root.mkdir()
    is_whole = install(make_deb(folder)[0], root)
    gigabytes = re.search("^LimitAS=([0-9]+)G$", (root / "usr/lib/systemd/system/wb.service").read_text(), re.M)
    expect(gigabytes, "the unit has no limit of memory in gigabytes")
    limit = int(gigabytes[1]) << 30
    with open(ROOT / "examples/five-lines", encoding="utf-8") as lines:
        limited = {"preexec_fn": lambda: resource.setrlimit(resource.RLIMIT_AS, (limit, limit))}
        said, _ = call([root / "usr/bin/wb", "run"], 1, stdin=lines, cwd=folder, **limited)
    expect(said == (ROOT / "crates/wb/stdout").read_text(), f"the five lines are answered by {said}")
    expect(
        (root / "usr/bin/wb").read_bytes() == program().read_bytes(), "the program is not byte by byte as it was built"
    )
    for name, mode in (
        ("usr/share/wb/office", 0o755), ("etc/wb/office.conf", 0o644), ("usr/lib/systemd/system/wb.service", 0o644),
    ):
        expect(stat.S_IMODE((root / name).stat().st_mode) == mode, f"{name} has other rights")
    call([root / "usr/sbin/wb-office", "--help"])
    if not is_whole:
        return "dpkg was not tried, since root does not call"
    if shutil.which("systemd-sysusers"):
        expect("\nwb:" in "\n" + (root / "etc/passwd").read_text(), "there is no user wb")
    records = root / "var/lib/wb/office.db"
    records.parent.mkdir(parents=True, exist_ok=True)
    records.write_text("records")
    _, noted = call([*dpkg(root), "--purge", "wb"])
    expect(
        records.read_text() == "records" and "/var/lib/wb" in noted,
        "a purge takes the records, or does not say where they are",
    )
    expect(not (root / "usr/bin/wb").exists() and not (root / "etc/wb/office.conf").exists(), "a purge leaves files")
    return None


def has_its_scripts(folder):
    """Each finds the modules and the other scripts that it needs."""
    call(["dpkg-deb", "-x", make_deb(folder)[0], folder / "root"])
    scripts = folder / "root/usr/share/wb"
    for name in [path.name for path in BIN.iterdir()]:
        if name != "office":
            found = folder / "root/usr/bin" / name
            expect(found.is_symlink() and found.resolve() == (scripts / "bin" / name).resolve(), f"PATH: {name}")
            expect((folder / f"root/usr/share/man/man1/{name}.1.gz").exists(), f"{name} has no page of the manual")
        expect((scripts / name).read_bytes().startswith(b"#!/usr/bin/python3\n"), f"{name} names another interpreter")
        call([scripts / name, "--help"])
    call([folder / "root/usr/bin/wanna-build", "--help"], env={})
    expect((folder / "root/etc/wb/wanna-build.conf").exists(), "the settings of wanna-build are not there")
    lists = folder / "lists"
    lists.mkdir()
    (lists / "Sources").write_text("Package: aa\nVersion: 1\nArchitecture: any\n\n")
    (lists / "Packages-amd64").write_text("Package: aa\nVersion: 1\nArchitecture: amd64\n\n")
    (folder / "cputable").write_text("amd64\tx86_64\tamd64\t64\tlittle\n")
    (folder / "tupletable").write_text("base-gnu-linux-<cpu>\t<cpu>\n")
    words = ["--no-fetch", "--arch", "amd64", "--tables", folder, "--settings", folder / "none", lists]
    for name in ("wb-table", "wb-status", "wb-history"):
        call([folder / "root/usr/bin" / name, "--help"])
    _, noted = call([scripts / "merge-archive", *words], 2)
    expect("the settings cannot be read" in noted and (lists / "ready/Sources-amd64").exists(), f"it says {noted}")


def pages_of_lists_are_those_of_their_help(folder):
    """The pages of the commands on lists, which are made of their help, have each option, and are formatted without a
    warning."""
    call(["dpkg-deb", "-x", make_deb(folder)[0], folder / "root"])
    for name in NAMES:
        packed = folder / f"root/usr/share/man/man1/{name}.1.gz"
        text = gzip.decompress(packed.read_bytes()).decode().replace("\\-", "-")
        said, _ = call([BIN / name, "--help"])
        options = set(re.findall(OPTION, said, re.M))
        stated = set(re.findall(r"^\.B (?:-h, )?(--[a-z-]+)", text, re.M))
        expect(len(options) > 2 and options == stated, f"{name}: {sorted(options ^ stated)}")
        for part in ("SYNOPSIS", "DESCRIPTION", "EXIT STATUS", "EXAMPLES"):
            expect(f".SH {part}\n" in text, f"the page of {name} has no {part}")
        expect(f'"{version_stated()}"' in text.splitlines()[0], f"the page of {name} is of another version")
        if shutil.which("man"):
            environment = {**os.environ, "MANWIDTH": "80", "MAN_KEEP_STDERR": "1", "LC_ALL": "C.UTF-8"}
            _, warned = call(["man", "--warnings", "-l", packed], env=environment)
            expect(not warned, f"{name}: {warned[-300:]}")


def version_stated():
    return re.search('VERSION: &str = "(wb [0-9.]+),', (ROOT / "crates/wb/src/main.rt").read_text(encoding="utf-8"))[1]


def ends_what_a_file_names(folder):
    """With SERVICE=pidfile an upgrade starts each office anew with the new program, and a removal ends it; one that
    does not run is not started, and a folder in which dpkg installs has no service."""
    call(["dpkg-deb", "-e", make_deb(folder)[0], folder / "scripts"])
    trial, other = Trial(folder), Trial(folder / "other")
    shutil.move(other.conf, folder / "experimental.conf")  # the office of a suite beside it
    other.conf = folder / "experimental.conf"
    (folder / "wanna-build.conf").write_text("SUITES=sid=8080\n")
    trial.do("create")
    other.do("create")
    commands = folder / "commands"
    commands.mkdir()
    (commands / "wb-office").symlink_to(BIN / "office")
    for name in ("systemd-sysusers", "systemd-tmpfiles", "systemctl", "deb-systemd-invoke"):
        (commands / name).write_text("#!/bin/sh\n")
        (commands / name).chmod(0o755)
    variables = {**os.environ, "PATH": f"{commands}:{os.environ['PATH']}", "OFFICE_SETTINGS": str(trial.conf)}

    def script(name, *words, **more):
        return call([folder / "scripts" / name, *words], env={**variables, **more})[1]

    pid_file = trial.folder / "wb.pid"
    script("postinst", "configure", "0.1")
    expect(not pid_file.exists(), "an upgrade starts an office that did not run")
    trial.do("start")
    other.do("start")
    try:
        before, keeper = pid_file.read_text(), other.keeper()
        for words, more in (
            (("postinst", "configure", ""), {}), (("prerm", "upgrade", "0.2"), {}),
            (("prerm", "remove"), {"DPKG_ROOT": "/nowhere"}),
        ):
            script(*words, **more)
            expect(pid_file.read_text() == before, f"{words} ends the office")
        script("postinst", "configure", "0.1")
        expect(pid_file.read_text() != before, "an upgrade leaves the old program running")
        expect(other.keeper() != keeper, "an upgrade leaves the old program running for another suite")
        trial.do("status")
        other.do("status")
        script("prerm", "remove")
        trial.do("status", wanted=3)
        other.do("status", wanted=3)
        expect(not pid_file.exists(), "a removal leaves the program running")
        pid_file.write_text("what no command wrote")
        expect("may go on being served" in script("prerm", "remove"), "what cannot be ended is not said")
    finally:
        pid_file.unlink(missing_ok=True)
        other.do("stop")


def has_all_pages(folder):
    call(["dpkg-deb", "-x", make_deb(folder)[0], folder / "root"])
    packed = folder / "root/usr/share/doc/wb"
    missing = [
        page for page in sorted((ROOT / "docs").rglob("*.md")) if not (packed / page.relative_to(ROOT)).is_file()
    ]
    expect(
        not missing and (packed / "docs/operations/FAULTS.md").is_file(),
        f"the package lacks {missing or 'the pages of operations'}",
    )


def of_another_version_is_not_made(folder):
    other = folder / "wb"
    other.write_text("#!/bin/sh\necho 'wb 9.9.9, proved with a kit'\n")
    other.chmod(0o755)
    _, noted = call(
        [ROOT / "tools/dev/make-deb", "--program", other, "--into", folder / "out"], 1,
        env={**os.environ, "SOURCE_DATE_EPOCH": DATE},
    )
    expect("9.9.9" in noted and not (folder / "out").exists(), f"it says {noted}")
    call([ROOT / "tools/dev/make-deb", "--program", folder / "none", "--into", folder / "out"], 1)


def unit_can_be_verified(folder):
    if not shutil.which("systemd-analyze"):
        raise LeftOut("systemd-analyze is not installed, and verified no unit")
    root = folder / "root"
    call(["dpkg-deb", "-x", make_deb(folder)[0], root])
    unit = folder / "wb.service"
    text = (root / "usr/lib/systemd/system/wb.service").read_text()
    unit.write_text(re.sub(r"/usr/(s?bin)/(wb\S*)", lambda found: f'"{root}/usr/{found[1]}/{found[2]}"', text))
    _, noted = call(["systemd-analyze", "--man=no", "verify", unit])
    expect("wb.service" not in noted, f"it says {noted}")
    return None


def unit_reads_the_settings_of_the_office(folder):
    settings = office.read_settings(ROOT / "packaging/office.conf")
    unit = (ROOT / "packaging/wb.service").read_text()
    used = set(re.findall(r"\$\$\{?([A-Z]+)", unit))
    expect(used == {"STORE", "PORT", "REQUESTS", "JOURNAL", "LISTS", "KEYS"}, f"the unit uses {used}")
    for name in used:
        expect(hasattr(settings, name.lower()), f"the unit uses {name}, which is no setting")
    assumed = dict(word.split("=") for word in re.search("^Environment=(.*)$", unit, re.M)[1].split())
    bare = office.Settings(settings.file, settings.store, settings.backups)
    # STORE has to be in the settings, and without KEYS the shell leaves the option out
    expect(bare.keys is None and '$${KEYS:+--keys "$$KEYS"}' in unit, "the unit names keys without KEYS")
    for name in used - {"STORE", "KEYS"}:
        wanted = getattr(bare, name.lower()) or "/dev/null"
        expect(assumed[name] == str(wanted), f"without {name} the unit takes {assumed[name]}, not {wanted}")
    expect(unit.index("\nEnvironment=") < unit.index("\nEnvironmentFile="), "the settings do not count")
    for key in re.findall(r"^#([A-Z_]+)=", (ROOT / "packaging/office.conf").read_text(), re.M):
        expect(key.lower() in settings.__dataclass_fields__, f"office.conf names {key}, which is no setting")
    expect(f"User={settings.owner}\n" in unit and settings.unit == "wb.service", "the user or the unit is another")
    expect(
        re.search("^LimitAS=", unit, re.M) and not re.search("^Memory(Max|High)=", unit, re.M),
        "the limit of memory kills",
    )


def release_has_its_sums(folder):
    if not (ROOT / ".git").exists():
        raise LeftOut("this is no git repository, of which a release is made")
    said, _ = call(
        [ROOT / "tools/dev/make-release", "--trial", "--into", folder / "out"], env={**os.environ, "WB": str(program())}
    )
    files = [Path(line) for line in said.splitlines()]
    expect(len(files) == 4 and all(file.exists() for file in files), f"it says {said}")
    call(["sha256sum", "--check", "--strict", "SHA256SUMS"], cwd=folder / "out")
    kit = next(file for file in files if file.suffix == ".kit").read_text().splitlines()
    expect(kit[0] in (ROOT / "README.md").read_text().splitlines(), f"the kit is {kit[0]}")
    with tarfile.open(files[0]) as archive:
        names = archive.getnames()
    expect(any(name.endswith("/COPYING") for name in names), "the archive has no licence")
    expect(not any("/out/" in name or "/.git/" in name for name in names), "the archive has what was built")
    return None


TESTS = [
    page_has_each_subcommand, page_has_an_example_of_each, page_examples_are_commands,
    page_has_the_version_and_the_options,
    page_of_the_office_has_each_command, pages_of_the_tables_have_each_option, page_of_history_has_each_question,
    page_of_wanna_build_has_each_word, pages_are_formatted,
    completion_has_each_subcommand, completion_of_keys, completion_has_states_of_wb_table, completion_of_wanna_build,
    completion_of_wb_requests,
    is_the_same_again, runs_the_five_lines, has_its_scripts,
    pages_of_lists_are_those_of_their_help, ends_what_a_file_names, has_all_pages,
    of_another_version_is_not_made,
    unit_can_be_verified, unit_reads_the_settings_of_the_office, release_has_its_sums,
]  # fmt: skip

if __name__ == "__main__":
    sys.exit(main(TESTS))
