"""Calls of the scripts on lists, with stubs of what these call, for tools/tests/test_lists.py and
tools/tests/test_merge_archive.py."""
import importlib
import os
import resource
import subprocess
import sys
from pathlib import Path
from types import ModuleType

from harness import BIN, expect
from list_cases import TABLES


def tables(folder: Path) -> Path:
    place = folder / "tables"
    place.mkdir(exist_ok=True)
    for name, text in TABLES.items():
        (place / name).write_text(text)
    return place


def stub(folder: Path, name: str, text: str) -> None:
    """A command of this name, before all others on the PATH."""
    place = folder / "stubs"
    place.mkdir(exist_ok=True)
    (place / name).write_text(f"#!/bin/sh\n{text}")
    (place / name).chmod(0o755)


def tool(folder: Path, *words: object, said: str = "", limit: int = 0, **environment: str) -> tuple[int, str, str]:
    """The status of a script, what it wrote on standard output, and what on standard error. With a limit it gets so
    many bytes of memory."""

    def prepare() -> None:
        if limit:
            resource.setrlimit(resource.RLIMIT_AS, (limit, limit))

    command = [sys.executable, str(BIN / str(words[0])), *map(str, words[1:])]
    variables = {**os.environ, "PATH": f"{folder / 'stubs'}:{os.environ['PATH']}", "STUB": str(folder), **environment}
    done = subprocess.run(
        command, cwd=folder, input=said.encode(), env=variables, capture_output=True, timeout=60, preexec_fn=prepare,
        check=False,
    )
    return done.returncode, done.stdout.decode(), done.stderr.decode()


def expect_status(wanted: int, done: tuple[int, str, str], message: str = "") -> str:
    """That it ended so and said this, and what it wrote."""
    status, said, errors = done
    expect(
        status == wanted and message in errors and "Traceback" not in errors,
        f"status {status} with {errors!r}, not {wanted} with {message!r}",
    )
    return said


def expect_text(met: str | bytes, wanted: str | bytes, what: str) -> None:
    expect(met == wanted, f"{what} is {met!r} in place of {wanted!r}")


def loaded(name: str) -> ModuleType:
    """The module of a command, for what has to be tried often."""
    return importlib.import_module(f"wb_tools.commands.{name.replace('-', '_')}")
