#!/usr/bin/env python3
"""Runs each example: in its folder the lines are given to `wb run`, whose answers and status have to be those that
stand beside them. The answers of the examples in examples/ were written by hand from the rules, and those of the large
ones are computed from them by tools/dev/large_examples; none by the program.

    tools/tests/test_examples.py [NAME..]     these examples, or all

From the environment: WB is the program, ./wb of this repository where it is not set.
"""

# Examples as test functions would each cost the gate minutes of proof. What no answer shows, such as build
# dependencies, test_run.py reads by sqlite3.

import difflib
import itertools
import subprocess
import sys
import tempfile
from pathlib import Path

from harness import DEV, ROOT, WB, expect, expect_none, main


def as_stated(folder):
    """A test of the example in this folder."""

    def test():
        with open(folder / "lines", "rb") as lines:
            done = subprocess.run([WB, "run"], cwd=folder, stdin=lines, capture_output=True, check=False)
        wanted, met = ((folder / "answers").read_bytes(), done.stdout)
        if met != wanted:
            texts = (text.decode(errors="replace").splitlines() for text in (wanted, met))
            lines = (line[:500] for line in difflib.unified_diff(*texts, "wanted", "met", n=0, lineterm=""))
            expect_none(itertools.islice(lines, 20))
        status = (folder / "status").read_text(encoding="ascii").strip()
        expect(met == wanted and str(done.returncode) == status, f"status {done.returncode} in place of {status}")

    return test


def run_all():
    with tempfile.TemporaryDirectory() as scratch:
        large = Path(scratch) / "large"
        subprocess.run([DEV / "large_examples", large], check=True)
        folders = sorted(path.parent for root in (ROOT / "examples", large) for path in root.glob("*/lines"))
        return main({folder.name.replace("-", "_"): as_stated(folder) for folder in folders})


if __name__ == "__main__":
    sys.exit(run_all())
