#!/usr/bin/env python3
"""Tests of what faults and refusals say for a person to read. thiserror derives it from the text beside each variant,
and what it derives has no contract. The program of crates/trials prints a line for each value, and
tools/tests/messages.tsv has what it has to print, byte for byte: the type, the value and its message.

    tools/tests/test_messages.py [NAME..]     these tests, or all

From the environment: TRIALS is the program, that of crates/trials where it is not set, which is then built if need be.
"""
import re
import subprocess
import sys

from harness import HERE, ROOT, expect, main, trial_program

HEAD = b"type\tvalue\tmessage\n"
# A type that derives the error, with what stands between its braces.
DERIVED = re.compile(
    r"^#\[derive\([^)]*\bError\)\]\n(?:#\[[^\n]*\]\n)*pub (enum|struct) (\w+) \{\n(.*?)^\}", re.MULTILINE | re.DOTALL
)
VARIANT = re.compile(r"^    (\w+)", re.MULTILINE)


def table():
    """The lines that the program has to print."""
    text = (HERE / "messages.tsv").read_bytes()
    expect(text.startswith(HEAD), "the first line of the table does not name its columns")
    return text[len(HEAD) :]


def difference(said, wanted):
    """The first line that differs, or nothing if all bytes are the same."""
    if said == wanted:
        return None
    found, rows = said.splitlines(keepends=True), wanted.splitlines(keepends=True)
    at = next((n for n, (one, other) in enumerate(zip(found, rows)) if one != other), min(len(found), len(rows)))
    one, other = b"".join(found[at : at + 1]), b"".join(rows[at : at + 1])
    return f"line {at + 1} is {one!r}, and not {other!r}"


# ---- the tests


def messages():
    """The program prints the table."""
    process = subprocess.run([trial_program()], input=b"messages\n", capture_output=True, check=False)
    expect(process.returncode == 0, f"the program ended with status {process.returncode}: {process.stderr[-300:]!r}")
    wanted = table()
    why = difference(process.stdout, wanted)
    expect(why is None, why)
    return f"{len(wanted.splitlines())} lines"


def variants():
    """The table has each variant of each type that derives the error, of the crates that the program stands on, and no
    type besides."""
    rows = [line.split("\t") for line in table().decode().splitlines()]
    expect(all(len(row) == 3 for row in rows), "a line of the table has not three columns")
    expect(len({(kind, value) for kind, value, _ in rows}) == len(rows), "the table has a value twice")
    shown = {(kind, re.match(r"\w+", value)[0]) for kind, value, _ in rows}
    below = re.search(r"^trials: (.*)$", (ROOT / "crates.txt").read_text(encoding="utf-8"), re.M)[1].split()
    files = [path for name in below for path in sorted(ROOT.glob(f"crates/{name}/src/**/*.rt"))]
    sources = [path.read_text(encoding="utf-8") for path in files]
    derived = sum(text.count("thiserror::Error") for text in sources)
    there, files = set(), 0
    for found in map(DERIVED.findall, sources):
        files += bool(found)
        for kind, name, inside in found:
            there |= {(name, variant) for variant in (VARIANT.findall(inside) if kind == "enum" else [name])}
    expect(files == derived, f"{derived} files use thiserror, and of {files} of them the types are found")
    expect(shown == there, f"the table and the types differ in {sorted(shown ^ there)}")
    return f"{len(rows)} lines"


def planted():
    """A changed byte of a message, a line that is missing, twice or elsewhere, and an end that is cut off are found."""
    wanted = table()
    lines = wanted.splitlines(keepends=True)
    for at, line in enumerate(lines):
        changed = line[:-2] + bytes([line[-2] ^ 1]) + b"\n"
        for there in ([changed], [], [line, line]):
            expect(
                difference(b"".join(lines[:at] + there + lines[at + 1 :]), wanted), f"a change of {line!r} is not found"
            )
    for wrong in (b"".join(lines[1:2] + lines[:1] + lines[2:]), wanted[:-1], wanted + b"\n", b""):
        expect(difference(wrong, wanted), "a change of the whole is not found")
    expect(difference(wanted, wanted) is None, "a difference is made up")
    return f"{len(lines)} lines"


TESTS = {"messages": messages, "table_has_each_variant": variants, "planted_differences_are_found": planted}


if __name__ == "__main__":
    sys.exit(main(TESTS))
