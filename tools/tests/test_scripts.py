#!/usr/bin/env python3
"""Tests that all scripts of the repository can be read: those in Python by its own compiler and pyflakes, those of a
shell by that shell and shellcheck, and the one in Perl by that, of which one that is not installed is left out by name;
and that no line is too wide.

    tools/tests/test_scripts.py [NAME..]     these tests, or all
"""
import collections
import functools
import os
import shutil
import subprocess
import sys
import warnings
from pathlib import Path

from harness import BIN, ROOT, Failure, LeftOut, expect, expect_none, main

# By SC2317 a test that is called by its name seems out of reach; by SC2016 a single-quoted word has a dollar or a
# backquote by mistake.
PASSED_OVER = "SC2317,SC2016"
# The columns that a line may have: of code, and of proofs, pages and scripts.
CODE, TEXT = 100, 120
LANGUAGES = ("python3", "bash", "/bin/sh", "perl")  # as first lines of scripts have them
# What is stored and compared byte for byte, and lists of a line each, have lines as wide as they need.
STORED = ("examples/*/*", "crates/*/data/*", "crates/*/std*", "crates/*/args", "*.edit", "*.tsv", "*.sql", "*.png")
STORED += ("*.gz", "COPYING", "HANDLES", "crates.txt", "memory_exceptions")
# How many wider lines there are today, by the ending, or by the name of a file without one. They may become fewer, and
# then these numbers fall.
WIDER = {".rt": 1285, ".antt": 10109}


def files():
    """All files but those that are built or git's own, as paths from the root, in an order that does not depend on the
    disk."""
    for folder, folders, names in os.walk(ROOT):
        folders[:] = sorted(set(folders) - {".git", "out", "__pycache__"})
        yield from ((Path(folder) / name).relative_to(ROOT) for name in sorted(names))


@functools.cache
def scripts():
    """The scripts of each language, by the first line of a file or the end of its name."""
    found = collections.defaultdict(list)
    for path in files():
        if path.suffix in (".rt", ".antt") or is_stored(path):
            continue
        first = (ROOT / path).read_bytes()[:80].split(b"\n")[0].decode(errors="replace")
        if first.startswith("#!") and not first.startswith("#!["):
            kinds = (kind for kind in LANGUAGES if kind in first)
            found[next(kinds, "unknown")].append(str(path))
        elif path.suffix in (".py", ".bash-completion"):
            found["python3" if path.suffix == ".py" else "bash"].append(str(path))
    return found


def is_stored(path):
    return any(path.match(pattern) for pattern in STORED)


def amiss_by(*words):
    """What a program that judges scripts says of them: nothing, if it ends well."""
    done = subprocess.run(words, cwd=ROOT, capture_output=True, text=True, check=False)
    said = (done.stdout + done.stderr).splitlines()
    return said or ([f"status {done.returncode}"] if done.returncode else [])


def judged_by(program, kind, *words):
    """Fails unless this program, if it is installed, finds nothing in the scripts of this kind."""
    if not shutil.which(program):
        raise LeftOut(f"{program} is not installed, and judged none of {len(scripts()[kind])} scripts")
    expect_none(amiss_by(program, *words, *scripts()[kind]))


def are_of_known_languages():
    expect_none(scripts()["unknown"])
    expect(all(scripts()[kind] for kind in LANGUAGES), "there are no scripts of some language")


def in_python_compile():
    """A warning of the compiler, as of an escape that is none, counts too. Nothing is written."""
    with warnings.catch_warnings():
        warnings.simplefilter("error")
        for script in scripts()["python3"]:
            compile((ROOT / script).read_bytes(), script, "exec", dont_inherit=True)


def in_python_pass_pyflakes():
    judged_by("pyflakes3", "python3")


def in_bash_are_read():
    expect_none(line for script in scripts()["bash"] for line in amiss_by("bash", "-n", "--", script))


def in_sh_are_read():
    expect_none(line for script in scripts()["/bin/sh"] for line in amiss_by("sh", "-n", "--", script))


def in_perl_are_read():
    """By Perl, with the library of dpkg that it loads."""
    if not shutil.which("perl") or amiss_by("perl", "-MDpkg::Deps", "-e", ""):
        raise LeftOut("the library Dpkg::Deps, of libdpkg-perl, is not installed")
    for script in scripts()["perl"]:
        expect_none(set(amiss_by("perl", "-wc", script)) - {f"{script} syntax OK"})


def in_bash_pass_shellcheck():
    judged_by("shellcheck", "bash", f"--exclude={PASSED_OVER}", "--")


def in_sh_pass_shellcheck():
    judged_by("shellcheck", "/bin/sh", f"--exclude={PASSED_OVER}", "--")


def are_executable():
    """What is called can be executed, and what is loaded cannot."""
    for script in (script for found in scripts().values() for script in found):
        is_loaded = script.endswith((".py", ".bash-completion")) and not Path(script).name.startswith("test_")
        expect(os.access(ROOT / script, os.X_OK) != is_loaded, f"{script} is executable, or is not, against its name")


def wide_lines(path):
    """The lines of a file that are too wide. In a page a table and a block of code are as wide as they need to be."""
    is_page, is_block = path.suffix == ".md", False
    for number, line in enumerate((ROOT / path).read_text(encoding="utf-8").splitlines(), 1):
        is_block ^= is_page and line.lstrip().startswith("```")
        is_free = is_page and (is_block or line.lstrip().startswith("|"))
        if len(line) > (CODE if path.suffix == ".rt" else TEXT) and not is_free:
            yield f"{path}:{number} has {len(line)} columns"


def have_no_line_too_wide():
    wide = collections.defaultdict(list)
    for path in (path for path in files() if not is_stored(path)):
        wide[path.suffix or path.name] += wide_lines(path)
    for kind, found in wide.items():
        most = WIDER.get(kind, 0)
        if len(found) > most:
            raise Failure(f"{most} lines of {kind} may be too wide, and {len(found)} are, such as {found[-8:]}")
    return ", ".join(f"{len(wide[kind])} lines of {kind} are wider" for kind in WIDER)


def commands_outlive_their_readers(folder):
    """No command says a word of a reader that is gone, as that of `| head`; it goes on, and ends with its own
    status."""
    answers = "".join(f'{{"arch":"a{at}","depends":"","source":"x"}}\n' for at in range(20000))
    (folder / "answers").write_text(answers + '{"refused":"x"}\n')
    settings = {"STORE": "store", "BACKUPS": "copies", "SERVICE": "pidfile", "PID_FILE": "pid", "LOG": "log"}
    (folder / "settings").write_text("".join(
        f"{key}={value if key == 'SERVICE' else folder / value}\n" for key, value in settings.items()
    ))
    calls = {(path.name, "--help"): 0 for path in sorted(BIN.iterdir())}
    calls |= {("wb-table", "answers"): 1, ("wb-status", "--arch", "amd64", "--queries"): 0}
    calls |= {("office", "--settings", "settings", "status"): 3, ("wanna-build", "--settings", "none", "--owed"): 2}
    for words, status in calls.items():
        ours, theirs = os.pipe()
        os.close(ours)
        try:
            done = subprocess.run(
                [BIN / words[0], *words[1:]], cwd=folder, stdin=subprocess.DEVNULL, stdout=theirs,
                stderr=subprocess.PIPE, timeout=60, check=False,
            )
        finally:
            os.close(theirs)
        said = done.stderr.decode()
        expect("roken pipe" not in said and "Traceback" not in said, f"{words}: {said[-300:]}")
        expect(done.returncode == status, f"{words} ends with {done.returncode}: {said[-300:]}")
    return f"{len(calls)} calls"


TESTS = [
    are_of_known_languages, in_python_compile, in_python_pass_pyflakes, in_bash_are_read, in_sh_are_read,
    in_perl_are_read, are_executable,
    commands_outlive_their_readers, in_bash_pass_shellcheck, in_sh_pass_shellcheck, have_no_line_too_wide,
]

if __name__ == "__main__":
    sys.exit(main(TESTS))
