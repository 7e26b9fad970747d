#!/usr/bin/env python3
"""Tests of merges of lists that readers give: the program of crates/trials merges the lists of the examples, and some
of its own, over an office in memory, once as a command that has them whole and then as readers give them: one byte a
read, 7, and 4096, and with a read that fails, which is each read of each list in turn. What is answered and each row
that is found are those of the command; where a read failed, the part is refused at the paragraph that did not end, by a
count stated here apart from the program, and the other parts are as they were.

    tools/tests/test_merges.py [NAME..]     these tests, or all

From the environment: TRIALS is the program, that of crates/trials where it is not set, which is then built if need be.
"""
import json
import subprocess
import sys
import tempfile
from pathlib import Path

from harness import ROOT, expect, main, trial_program

NO_LIST = 99  # a place at which no list stands
ALL_READS = 2**40  # more reads than a list takes
STEPS = [1, 7, 4096]
MOST = 250  # bytes of all lists of a merge of the examples of which each read is let fail
NAMES = (11, 22)  # what the names of architectures are refused with, before a list is read


# ---- the program


class Found:
    """What a trial shows: the answer, and the rows at the end."""

    def __init__(self, said):
        self.answer = json.loads(said[0])
        self.rows = said[1:]

    def accepts(self):
        """Whether the merge is accepted."""
        return "ok" in self.answer

    def rows_of(self, arch):
        """The records of an architecture."""
        return [row for row in self.rows if row.startswith(f'source_record "{arch}" ')]

    def others_than(self, arch):
        """The rows but the records of an architecture, and the count of accepted commands."""
        return [row for row in self.rows if not row.startswith((f'source_record "{arch}" ', "office "))]


def found(folder, trials):
    """What each of these trials shows."""
    said = subprocess.run(
        [trial_program()], cwd=folder, input="merges\n" + "".join(f"{trial}\n" for trial in trials),
        capture_output=True, text=True, check=False,
    )
    expect(said.returncode == 0, f"the program ended with status {said.returncode}: {said.stderr[-300:]}")
    shown, lines = [], []
    for line in said.stdout.splitlines():
        if line == "end":
            shown.append(Found(lines))
            lines = []
        else:
            lines.append(line)
    expect(len(shown) == len(trials), f"{len(trials)} trials, and {len(shown)} are shown")
    return shown


class Merge:
    """A merge of lists in files of a folder, after lines that are in another."""

    def __init__(self, folder, lines, sources, parts):
        self.folder, self.lines = folder, lines
        self.archs = [part.partition("=")[0] for part in parts]
        self.lists = [
            (Path(folder) / name).read_bytes() for name in [sources] + [part.partition("=")[2] for part in parts]
        ]
        self.words = " ".join([sources] + parts)

    def whole(self):
        """The trial of it as a command."""
        return f"whole {self.lines} {self.words}"

    def pieces(self, step, place=NO_LIST, reads=ALL_READS):
        """The trial of it in pieces of so many bytes, where the list at a place fails after so many reads."""
        return f"pieces {self.lines} {step} {place} {reads} {self.words}"


# ---- what is to be answered


def ended(text):
    """How many paragraphs of this front of a list ended: each at a line of spaces and tabs, which has its line feed."""
    count, is_inside = 0, False
    for line in text.split(b"\n")[:-1]:
        if line.strip(b" \t"):
            is_inside = True
        elif is_inside:
            count, is_inside = count + 1, False
    return count


def is_fault_before(end, which, count):
    """Whether a part ended with a fault of this list that is among its first so many paragraphs, or with one that comes
    before all of this list."""
    return end.get("code") == 1 or (
        end.get("code") == 15
        and (end["which"] != which and which == "Packages" or end["which"] == which and end["paragraph"] <= count)
    )


def read_fault(arch, which, paragraph):
    """The end of a part that is refused since a list could not be read on."""
    return {"arch": arch, "code": 15, "fault": "Read", "paragraph": paragraph, "refused": "BadListing", "which": which}


def ends_of(merge, whole):
    """The end of each part by the answer to the command; of a refused merge only the first is known."""
    return whole.answer["parts"] if whole.accepts() else [dict(whole.answer, arch=merge.archs[0])]


def judge(merge, whole, before, cut, place, reads):
    """The merge of which the list at a place fails after so many reads of one byte answers so, and leaves these
    rows."""
    where = f"{merge.words}: list {place} cut after {reads} bytes"
    count = ended(merge.lists[place][:reads])
    if reads > len(merge.lists[place]) or whole.answer.get("code") in NAMES:
        expect((cut.answer, cut.rows) == (whole.answer, whole.rows), f"{where}: {cut.answer}")
        return
    wanted = [dict(end) for end in ends_of(merge, whole)]
    if place == 0:
        wanted = [
            end if is_fault_before(end, "Sources", count) else read_fault(end["arch"], "Sources", count + 1)
            for end in wanted
        ]
    else:
        wanted = [
            read_fault(end["arch"], "Packages", count + 1)
            if end["arch"] == merge.archs[place - 1] and not is_fault_before(end, "Packages", count)
            else end
            for end in wanted
        ]
    if whole.accepts() and any("added" in end for end in wanted):
        expect(cut.answer == dict(whole.answer, parts=wanted), f"{where}: {cut.answer}, and not {wanted}")
        arch = merge.archs[place - 1]
        expect(cut.rows_of(arch) == before.rows_of(arch), f"{where}: records of the refused part are changed")
        expect(cut.others_than(arch) == whole.others_than(arch), f"{where}: other rows than the refused part's differ")
    else:
        first = {name: value for name, value in wanted[0].items() if name != "arch"}
        expect(cut.answer == first, f"{where}: {cut.answer}, and not {first}")
        expect(cut.rows == before.rows, f"{where}: a refused merge changes rows")


# ---- the tests


def same(merge):
    """In pieces of each size, the merge answers and leaves what it does as a command."""
    whole, *pieces = found(merge.folder, [merge.whole()] + [merge.pieces(step) for step in STEPS])
    for step, one in zip(STEPS, pieces):
        expect(
            (one.answer, one.rows) == (whole.answer, whole.rows),
            f"{merge.words} in pieces of {step}: {one.answer}, and not {whole.answer}",
        )
    return len(pieces)


def cut(merge):
    """A read that fails, each of each list in turn."""
    places = [(place, reads) for place, text in enumerate(merge.lists) for reads in range(len(text) + 2)]
    whole, before, *cuts = found(
        merge.folder,
        [merge.whole(), merge.pieces(1, 0, 0)] + [merge.pieces(1, place, reads) for place, reads in places],
    )
    expect(not before.accepts(), f"{merge.words}: accepted, though Sources cannot be read")
    for (place, reads), one in zip(places, cuts):
        judge(merge, whole, before, one, place, reads)
    return len(cuts)


def merges_of_examples(folder):
    """Each merge of an example whose lists are there, after the lines before it."""
    for example in sorted((ROOT / "examples").iterdir()):
        lines = (example / "lines").read_text(encoding="utf-8").splitlines() if (example / "lines").exists() else []
        for at, line in enumerate(lines):
            words = line.split()
            names = (
                [words[1]] + [part.partition("=")[2] for part in words[2:]]
                if words[:1] == ["merge"] and len(words) > 2
                else []
            )
            if (
                names
                and all((example / name).is_file() for name in names)
                and all(part.partition("=")[0] for part in words[2:])
            ):
                before = Path(folder) / f"{example.name}-{at}"
                before.write_text("".join(f"{line}\n" for line in lines[:at]), encoding="utf-8")
                yield Merge(example, before, words[1], words[2:])


SOURCES = "".join(
    f"Package: {name}\nVersion: {version}\nArchitecture: any\nSection: {section}\n\n"
    for name, version, section in [("hello", "1.1", "devel"), ("new", "2.0", "libs")]
)
LISTS = {
    "sources": SOURCES + " \t\n\nPackage: tar\nVersion: 1.30\nArchitecture: any\n",
    "packages": (
        "\n\nPackage: tar\nVersion: 1.30\nArchitecture: amd64\n\n\nPackage: libx\nVersion: 3\nSource: new (1.9)\n"
        "Architecture: amd64\n\n"
    ),
    "faulty": (
        "Package: hello\nVersion: 1.0\nArchitecture: arm64\n\nPackage: gone\nArchitecture: arm64\n\nPackage: last\n"
    ),
    "none": "",
    "lines": (
        "add-arch amd64 linux amd64\nadd-arch arm64 linux arm64\nadd-arch armhf linux armhf\n"
        "enter amd64 hello 1.0 optional devel\nenter arm64 gone 1.0 extra net\n"
    ),
}


def of_examples(try_merge, most=None):
    """A test of each merge of the examples, or of those whose lists have at most so many bytes, and are not those of
    another."""
    with tempfile.TemporaryDirectory() as folder:
        merges = list(merges_of_examples(folder))
        if most is not None:
            merges = list(
                {tuple(merge.lists): merge for merge in merges if sum(map(len, merge.lists)) <= most}.values()
            )
        counts = [try_merge(merge) for merge in merges]
    expect(len(counts) >= 5, f"only {len(counts)} merges are found in the examples")
    return f"{sum(counts)} merges"


def of_parts(try_merge):
    """A test of merges of several parts, of which one is refused, or is of an architecture that was never added."""
    with tempfile.TemporaryDirectory() as folder:
        for name, text in LISTS.items():
            (Path(folder) / name).write_text(text, encoding="utf-8")
        given = [
            ["amd64=packages", "arm64=faulty", "armhf=none"], ["arm64=faulty", "amd64=packages"], ["arm64=faulty"],
            ["sparc=packages", "amd64=packages"],
        ]
        count = sum(try_merge(Merge(folder, "lines", "sources", parts)) for parts in given)
    return f"{count} merges"


TESTS = {
    "examples_in_pieces": lambda: of_examples(same), "examples_cut": lambda: of_examples(cut, MOST),
    "parts_in_pieces": lambda: of_parts(same), "parts_cut": lambda: of_parts(cut),
}


if __name__ == "__main__":
    sys.exit(main(TESTS))
