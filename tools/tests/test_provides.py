#!/usr/bin/env python3
"""Tests of waits for names that packages provide (Debian Policy 7.5). Each wait that is stated here, with the packages
of a list and with its end by hand, is held to three judges: the program, over tables in memory and over a file; the
second reading of line_model.py; and dpkg-checkbuilddeps over the same packages as installed ones, but for what this
project decided by itself. Each wait has its own names, so one merge and one call of dpkg answer for all.

    tools/tests/test_provides.py [NAME..]     these tests, or all

From the environment: WB is the program, ./wb of this repository where it is not set.
"""
import os
import re
import sys

import provides_runs as runs
from harness import DEV, answers_of, call, expect, expect_none, main
from line_model import LineOffice
from list_runs import stub

# Packages, with semicolons between them, each with an architecture if it is another than amd64, and perhaps the text of
# its field Provides; waits that these end; and waits that they do not end.
CASES = [
    ("bar 1.0 provides foo", ["foo", "bar, foo", "foo:any"], ["foo (>= 1.0)", "foo (<= 9)", "foo (= 1.0)", "baz"]),
    ("bar 1.0 provides foo (= 3.0)", [
        "foo", "foo (<< 4.0)", "foo (<= 3.0)", "foo (<= 4.0)", "foo (= 3.0)", "foo (>= 2.0)", "foo (>= 3.0)",
        "foo (>> 2.0)", "foo (= 3.0-0)", "foo:any (>= 2.0)", "foo (>= 1), foo (<< 4)",
    ], [
        "foo (<< 2.0)", "foo (<< 3.0)", "foo (<= 2.0)", "foo (= 2.0)", "foo (= 4.0)", "foo (>= 4.0)", "foo (>> 3.0)",
        "foo (>> 4.0)", "foo (= 3.0-1)", "foo (= 1:3.0)", "bar (>= 3.0)", "foo (>= 1), foo (<< 3)",
    ]),
    ("bar 1.0 provides foo (= 1:1.0~rc1-2)", ["foo (>= 2.0)", "foo (<< 1:1.0)"], ["foo (>= 1:1.0)"]),
    ("bar 1.0 provides foo (= 0~1-0~2)", ["foo (<< 0~1)", "foo (>= 0~~)"], ["foo (>= 0)"]),
    ("bar 1.0 provides foo (= 1), foo (= 3)", [
        "foo (>= 2)", "foo (<< 2)", "foo (>= 3), foo (<= 1)",
    ], ["foo (= 2)", "foo (>> 3)"]),
    ("bar 1.0 provides foo (= 1); baz 1.0 provides foo", ["foo", "foo (>= 1)"], ["foo (>= 2)"]),
    ("bar 1.0 provides foo (= 1); baz 1.0 provides foo (= 3)", ["foo (>= 2)", "foo (= 1)"], ["foo (= 2)"]),
    ("foo 2.0; bar 1.0 provides foo (= 1.0)", ["foo (<< 2.0)", "foo (= 2.0)"], ["foo (>> 2.0)"]),
    ("foo 0.5; bar 1.0 provides foo", ["foo", "foo (= 0.5)"], ["foo (>= 1.0)"]),
    ("foo 1.0 provides foo (= 2.0)", ["foo (= 1.0)", "foo (= 2.0)"], ["foo (= 1.5)"]),
    ("foo 1.0", ["foo", "foo (>= 1.0)"], ["foo (>> 1.0)", "foo, bar"]),
    ("foo:all 1.0", ["foo (= 1.0)"], []),
    ("bar:all 1.0 provides foo (= 2.0)", ["foo", "foo (>= 2.0)"], ["foo (>> 2.0)"]),
    ("bar:i386 1.0 provides foo", [], ["foo", "bar"]),
    ("foo:i386 2.0; bar 1.0 provides foo (= 1.0)", ["foo"], ["foo (>= 2.0)"]),
    ("bar 1.0 provides foo (= 1.0), baz", [
        "quux | foo", "quux | foo (= 1.0)", "foo (>= 2.0) | baz", "foo, baz", "baz (>= 1) | foo",
        "quux [i386], baz", "foo [linux-any] <!nocheck>",
    ], ["quux | foo (>= 2.0)", "foo, baz (>= 1)", "foo, quux", "quux | baz (>= 1)"]),
    ("bar 1.0 provides quux; foo 1.0 provides bar", ["bar (>= 1.0)", "quux"], ["bar (>> 1.0)", "quux (>= 1.0)"]),
    ("bar 1.0 provides foo+baz-dev (= 1.0)", ["foo+baz-dev (>= 1.0)"], ["foo", "baz-dev"]),
    ("bar 1.0 provides  foo(=2.0),baz  ( =  3.0 ) ,, quux,", ["foo (= 2.0), baz (= 3.0), quux"], ["quux (>= 0)"]),
    ("bar 1.0 provides foo:any (= 2.0)", ["foo (>= 2.0)"], ["foo (>= 3.0)"]),
    ("bar 1.0 provides foo, baz (=", [], ["foo", "baz"]),
    ("bar 1.0 provides foo (== 1), baz", [], ["foo", "baz"]),
    ("bar 1.0 provides ", ["bar"], ["foo"]),
]

# The same, of what Policy 7.5 does not settle and docs/DEVIATIONS.md does, and of fields of several lines, which
# dpkg-checkbuilddeps does not read.
OWN_CASES = [
    ("bar 1.0 provides foo (>= 1.0), baz", ["baz"], ["foo", "foo (>= 1.0)"]),
    ("bar 1.0 provides foo (<< 3), foo (= 4)", ["foo (= 4)"], ["foo (<< 3)"]),
    ("bar 1.0 provides foo | baz, quux", ["quux"], ["foo | baz"]),
    ("bar 1.0 provides foo [amd64], baz <!nocheck>, quux", ["quux"], ["foo", "baz"]),
    ("bar 1.0 provides Foo, baz", [], ["baz"]),
    ("bar 1.0 provides foo (= 1_0), baz", [], ["foo", "baz"]),
    ("bar 1.0 provides foo,\n baz\n\t(= 2.0)", ["foo, baz (= 2.0)"], ["baz (>> 2.0)"]),
]

NAMES = re.compile(r"\b(foo|bar|baz|quux)\b")
LONG = 100_000  # bytes at least of a field that is longer than other relations may be
MERGES = ["merge sources amd64=none", runs.in_state("Dep-Wait"), "merge sources amd64=packages"]
MERGES += [runs.in_state("Needs-Build"), runs.in_state("Dep-Wait")]


# ---- the waits and the lists


def paragraph_of(package):
    """The paragraph of a package in the form of the cases."""
    own, provides, text = package.partition(" provides ")
    name, version = own.split()
    name, _, arch = name.partition(":")
    fields = f"Package: {name}\nVersion: {version}\nArchitecture: {arch or 'amd64'}\nMulti-Arch: allowed\n"
    return fields + (f"Provides: {text}\n" if provides else "")


class Waits:
    """The waits of cases and the packages of all of them, where the names of each wait end in its number."""

    def __init__(self, cases):
        self.relations, self.ends, paragraphs = {}, set(), []
        for packages, ends, others in cases:
            for relations in [*ends, *others]:
                number = f"{len(self.relations):03}"
                name, renamed = f"wait-{number}", rf"\1-{number}"
                self.relations[name] = NAMES.sub(renamed, relations)
                self.ends |= {name} if relations in ends else set()
                paragraphs += (NAMES.sub(renamed, paragraph_of(package)) for package in packages.split("; "))
        self.packages = "\n".join(paragraphs)
        self.lines = [*runs.lines_into_waits(self.relations), *MERGES]

    def lists(self):
        return {"sources": runs.listed(self.relations), "none": "", "packages": self.packages}

    def amiss(self, ended):
        """What is amiss if these are the waits that a judge finds ended."""
        for name in sorted(self.ends ^ ended):
            yield f"{self.relations[name]} ends by hand: {name in self.ends}, and not so by the judge"


def answers_by_both(folder, lists, lines):
    """The answers to lines about these lists: of the model, and of the program over tables in memory and over a new
    file, which have to be the same."""
    for name, text in lists.items():
        (folder / name).write_text(text, encoding="utf-8")
    wanted = answers_of_model(lists, lines)
    for store in (None, f"store-{len(list(folder.iterdir()))}"):
        found = answers_of(folder, lines, store)
        expect_none(f"{line} is answered {one} over {store}, and not {other}"
                    for line, one, other in zip(lines, found, wanted) if one != other)
    return wanted


def answers_of_model(lists, lines):
    office = LineOffice(lists)
    return [office.looked_up(line) if line.startswith(("by-state ", "item ")) else office.answer(line)
            for line in lines]


def expect_ended(waits, answers):
    """That none of the waits ended at the first merge, and at the second those that do by hand."""
    before, merged, ended, others = answers[-4:]
    expect(runs.sources_in(before) == set(waits.relations), f"without packages only these wait: {before}")
    expect_none(waits.amiss(runs.sources_in(ended)))
    expect(runs.sources_in(others) == waits.relations.keys() - waits.ends, f"these wait: {others}")
    kept = len(waits.relations) - len(waits.ends)
    wanted = [{"added": 0, "arch": "amd64", "changed": len(waits.ends), "kept": kept, "removed": 0}]
    expect(merged["parts"] == wanted, f"the merge answered {merged}")


# ---- the judges


def of_the_program(folder):
    """It answers each line as the model does."""
    waits = Waits(CASES + OWN_CASES)
    answers_by_both(folder, waits.lists(), waits.lines)
    return f"{len(waits.relations)} waits, of which {len(waits.ends)} end"


def of_the_model():
    """Its waits end as they do by hand."""
    waits = Waits(CASES + OWN_CASES)
    expect_ended(waits, answers_of_model(waits.lists(), waits.lines))


def of_dpkg(folder):
    """But for what this project decided by itself."""
    waits = Waits(CASES)
    expect_none(waits.amiss(runs.met_by_dpkg(folder, waits.packages, waits.relations)))
    return f"{len(waits.relations)} waits, of which {len(waits.ends)} end"


# ---- the rest of a merge


def of_another_part(folder):
    """What the list of one architecture provides ends no wait of another."""
    provider = "Package: bar\nVersion: 1.0\nArchitecture: {}\nProvides: {}\n"
    lists = {"sources": runs.listed(["wait"])}
    lists |= {f"{name}-{arch}": provider.format(arch, name) for name in ("foo", "baz") for arch in ("all", "arm64")}
    lines = [*runs.lines_into_waits({"wait": "foo"}), "add-arch arm64 linux arm64"]
    lines += ["enter arm64 wait 1.0 optional misc", "dep-wait arm64 wait 1.0 baz"]
    for parts, wanted in [
        ("amd64=baz-all arm64=foo-arm64", ["Dep-Wait", "Dep-Wait"]),
        ("arm64=foo-arm64 amd64=foo-all", ["Needs-Build", "Dep-Wait"]),
        ("amd64=foo-arm64 arm64=baz-arm64", ["Dep-Wait", "Needs-Build"]),
        ("arm64=baz-all amd64=foo-all", ["Needs-Build", "Needs-Build"]),
    ]:
        asked = [*lines, f"merge sources {parts}", "item amd64 wait", "item arm64 wait"]
        states = [answer["state"] for answer in answers_by_both(folder, lists, asked)[-2:]]
        expect(states == wanted, f"after merge sources {parts} the states are {states}, and not {wanted}")


def are_no_builds(folder):
    """A source package whose name is provided in its own version is not built by that; and one is built by its
    packages, also if what these provide is waited for."""
    built = "Package: {}\nSource: made (1.0)\nVersion: 1.0+b2\nArchitecture: amd64\n"
    packages = [built.format("aa"), built.format("bb") + "Provides: foo (= 1.0), wait\n", built.format("cc")]
    packages += [built.format("dd") + "Provides: baz\n", built.format("ee")]
    waits = {"wait": "foo (>= 1)", "wait-too": "baz"}
    lists = {"sources": runs.listed(["foo", "made", *waits]), "packages": "\n".join(packages)}
    asked = ["item amd64 foo", "item amd64 wait", "item amd64 wait-too", "item amd64 made"]
    lines = [*runs.lines_into_waits(waits), "merge sources amd64=packages", *asked]
    *others, made = answers_by_both(folder, lists, lines)[-len(asked):]
    for found in others:
        expect((found["state"], found["earlier"]) == ("Needs-Build", False), f"of these nothing is built: {found}")
    expect((made["state"], made["number"]) == ("Installed", 2), f"it is built: {made}")


def of_a_long_field(folder):
    """A field that is longer than what may be waited for is read to its end."""
    names = [f"name-{at}" for at in range(LONG // len("name-0, "))]
    field = ", ".join([*names, "foo (= 2.0)"])
    expect(len(field) > LONG, f"the field has {len(field)} bytes")
    waits = {"wait": f"foo (>= 2.0), {names[0]}, {names[-1]}", "wait-on": f"{names[-1]} (>= 0)"}
    lists = {"sources": runs.listed(waits), "packages": paragraph_of(f"bar 1.0 provides {field}"), "none": ""}
    ended = runs.sources_in(answers_by_both(folder, lists, [*runs.lines_into_waits(waits), *MERGES])[-2])
    expect(ended == {"wait"}, f"these ended: {ended}")


# ---- groups of real lists

GROUPS = "foo, foo (>= 1.0), bar | baz, quux (>= 2.0), foo (>= 2) <!nocheck>, bar, baz [any] | bar, quux:any"
PACKAGES = "real 1.0 provides foo; other:all 1.0 provides quux (= 2.0), quux (= 1.0); baz 1.0 provides bar"
FOUND = """\
8 groups, 3 left out for architectures, profiles or qualifiers
4 groups of provided names alone, 4 tried
wait: 3 ended, 1 wait, 0 differ
opposite: 1 ended, 3 wait, 0 differ
"""
# What is found if dpkg always said that foo is unmet, and all else met.
WRONG = """\
8 groups, 3 left out for architectures, profiles or qualifiers
4 groups of provided names alone, 4 tried
wait-0001 for foo: it ended, and by dpkg it is unmet
wait: 3 ended, 1 wait, 1 differ
opposite-0000 for bar (>= 0): it waits, and by dpkg it is met
opposite: 1 ended, 3 wait, 1 differ
"""
UNMET = "echo 'dpkg-checkbuilddeps: error: Unmet build dependencies: foo' >&2; exit 1\n"


def of_real_lists(folder):
    """tools/dev/provides_waits tries the groups that provided names alone can meet, and finds a wait that differs."""
    sources = runs.listed(["user"]).replace("Architecture:", f"Build-Depends: {GROUPS}\nArchitecture:")
    (folder / "Sources").write_text(sources)
    (folder / "Packages").write_text("\n".join(map(paragraph_of, PACKAGES.split("; "))))
    stub(folder, "dpkg-checkbuilddeps", UNMET)
    words = [DEV / "provides_waits", "Sources", "Packages"]
    path = f"{folder / 'stubs'}:{os.environ['PATH']}"
    said, _ = call(words, 1, cwd=folder, env={**os.environ, "PATH": path})
    expect(said == WRONG, f"of a wrong dpkg-checkbuilddeps it says {said}")
    runs.need_dpkg()
    said, _ = call(words, cwd=folder)
    expect(said == FOUND, f"it says {said}")
    said, _ = call([*words, "2"], cwd=folder)
    expect("\n4 groups of provided names alone, 2 tried\n" in said, f"of two waits it says {said}")


TESTS = [of_the_program, of_the_model, of_dpkg, of_another_part, are_no_builds, of_a_long_field, of_real_lists]

if __name__ == "__main__":
    sys.exit(main(TESTS))
