#!/usr/bin/env python3
"""Tests of tools/dev/try_edits: how an edit is read, and what is made of the prover's answer about many of them. The
answers are planted in the form that the prover gives them; no crate is proved.

    tools/tests/test_try_edits.py [NAME..]     these tests, or all
"""
import runpy
import subprocess
import sys
from types import SimpleNamespace

from harness import DEV, expect, main

SCRIPT = runpy.run_path(str(DEV / "try_edits"))
SOURCES = {
    "src/main.rt": "fn total(n: u8) -> u8 {\n    n + 1\n}\n",
    "src/line/words.rt": "pub fn total(n: u8) -> u8 {\n    n + 2\n}\n\npub fn longest(n: u8) -> u8 {\n    n + 3\n}\n",
    "src/text.rt": "impl Text {\n    pub fn longest(n: u8) -> u8 {\n        n + 4\n    }\n}\n\nconst MOST: u8 = 5;\n",
}
# The edits of this crate by their names: the file, and the number that another stands in place of.
EDITS = {
    "total": ("src/main.rt", "1"), "words_total": ("src/line/words.rt", "2"),
    "words_longest": ("src/line/words.rt", "3"), "text_longest": ("src/text.rt", "4"),
}


def made(folder):
    """The sources in this folder, and the edits, read from files beside them."""
    for file, text in SOURCES.items():
        (folder / file).parent.mkdir(parents=True, exist_ok=True)
        (folder / file).write_text(text, encoding="utf-8")
    return {
        name: read(folder, f"file: {file}\nold: n + {number}\nnew: n + 9\n", name)
        for name, (file, number) in EDITS.items()
    }


def read(folder, text, name="edit"):
    """The edit of this text."""
    (folder / f"{name}.edit").write_text(text, encoding="utf-8")
    return SCRIPT["read_edit"](str(folder / f"{name}.edit"), str(folder))


# ---- reading edits

PAIR = "file: src/main.rt\nold: n + 1\nnew: n + 9\n"
COMMENTED = [
    "# a test finds it\n" + PAIR, "// the prover finds it\n\n" + PAIR,
    PAIR.replace("old", "  # of a slip: a count\nold"), PAIR + "\t// old: n\n", "#\n//\n" + PAIR,
]
# Texts that are no edits, and why.
BAD = [
    (PAIR + "-- a comment\n", "a line is none of"),
    (PAIR + "a # comment\n", "a line is none of"),
    (PAIR.replace("new:", "# new:"), "it has no 'new:' line"),
    (PAIR.replace("old:", "# old:"), "a 'new:' line stands before"),
    (PAIR.replace("file:", "// file:"), "a 'new:' line stands before"),
]


def takes_comments(folder):
    """A line that begins with a mark of comments is passed over, whatever stands in it, and no other is."""
    made(folder)
    for text in COMMENTED:
        pairs = read(folder, text).pairs
        expect(pairs == [("src/main.rt", "n + 1", "n + 9")], f"{text!r} is read as {pairs}")
    for text, wanted in BAD:
        try:
            said = f"it is read as {read(folder, text).pairs}"
        except SCRIPT["Bad"] as why:
            said = str(why)
        expect(wanted in said, f"{text!r}: {said}")
    return f"{len(COMMENTED)} edits with comments and {len(BAD)} bad ones"


# ---- the prover's answers

LAST = "logic=not-proved functions=5"
SEARCH = "no proof: expected answers in ./proofs/total/Answers.antt; `search` did not prove `value`"
CALLS = "no proof: it calls `office::total`, which is not proved"
MISSED = "./proofs/line/words/total/Answers.antt:4:9: error: `n` is not in scope"
# The lines that the prover says before its last, and the edits that they refuse, by a goal or by a name alone.
ANSWERS = [
    ([], [], []),
    (["src/main.rt:2:5: error: not proved: value"], ["total"], []),
    (["note: src/text.rt:3:9: `value` must prove: 9 ≡ 4"], ["text_longest"], []),
    # by the name of a function alone, without a place
    ([f"fn office::total: {SEARCH}"], ["total"], []),
    ([f"fn office::line::words::total: {SEARCH}"], ["words_total"], []),
    ([f"fn office::line::words::longest: {SEARCH}"], ["words_longest"], []),
    ([f"fn office::text::Text::longest: {SEARCH}"], ["text_longest"], []),
    ([f"fn office::line::words::fn::longest::all+FnMut::call_mut: {SEARCH}"], ["words_longest"], []),
    (
        ["src/main.rt:2:5: error: not proved: value", f"fn office::text::Text::longest: {SEARCH}"],
        ["total", "text_longest"], [],
    ),
    # of other functions, and of those that are proved or only call what is not
    ([f"fn office::line::total: {SEARCH}", f"fn office::text::total: {SEARCH}"], [], []),
    ([f"fn office::line::words::totals: {SEARCH}", f"fn office::line::words::subtotal: {SEARCH}"], [], []),
    (["fn office::total: proved", "fn office::line::words::total: not proved"], [], []),
    # one that is proved by search and calls an edited function is not refused for that
    ([f"fn office::total: {SEARCH}", f"fn office::line::words::total: {CALLS}"], ["total"], []),
    # a name that a proof cites is gone, which the search that failed then does not make a goal of the contract
    ([MISSED], [], ["words_total"]),
    ([MISSED, f"fn office::line::words::total: {SEARCH}"], [], ["words_total"]),
]


def answer_of(lines):
    """What is made of an answer of these lines."""
    kit = SimpleNamespace(rt=SimpleNamespace(unread=lambda line, texts: False))
    ran = subprocess.CompletedProcess([], 1, "".join(f"{line}\n" for line in [*lines, LAST]))
    return SCRIPT["Answer"](kit, {}, ran)


def refuses_what_the_prover_names(folder):
    """Of edits in one check those are refused that the prover names, by a line of a file or by the function."""
    edits = made(folder)
    for lines, refused, named in ANSWERS:
        verdicts = SCRIPT["judge_batch"](answer_of(lines), list(edits.values()))
        for name, edit in edits.items():
            wanted = "REFUSED" if name in refused else "BY NAME" if name in named else "PROVED"
            expect(verdicts[edit.path][0] == wanted, f"{lines}: {name} is {verdicts[edit.path]} in place of {wanted}")
    return f"{len(ANSWERS)} answers"


def stands_alone_outside_functions(folder):
    """An edit outside every function is named by no function, and is refused alone, whatever is said."""
    made(folder)
    edit = read(folder, "file: src/text.rt\nold: u8 = 5\nnew: u8 = 9\n")
    line = f"fn office::text::Text::longest: {SEARCH}"
    expect(not edit.places[0].is_named_in(line), "it is named by a function")
    verdicts = SCRIPT["judge_batch"](answer_of([line]), [edit])
    expect(verdicts[edit.path][0] == "REFUSED", f"it is {verdicts[edit.path]}")


# The prover's names of functions: one of a type that another file declares has that file's module.
NAMES = [
    "office::total", "office::line::words::total", "office::line::words::totals", "office::line::words::longest",
    "office::line::words::fn::longest::all", "office::line::words::fn::longest::all+FnMut::call_mut",
    "office::text::Text::longest", "office::text::TextClone::clone",
]
CHANGED = {
    "total": ["office::total"], "words_total": ["office::line::words::total"], "words_longest": NAMES[3:6],
    "text_longest": ["office::text::Text::longest"],
}
# Heads of what has a method, and what the prover writes before its name.
ELSEWHERE = [
    ("impl Text", "Text"), ("impl<S: Of<u8> + Drop> Text<'_, S>", "Text"),
    ("impl<D: Drop> Text<Kept<D>>", "Text+Kept+D"),
    ("impl fmt::Display for Text", "TextDisplay"), ("impl<S: Drop> Text for Kept<S>", "KeptText"),
    ("impl From<AllocFailed<Text>> for Kept", "KeptFromAllocFailed"),
]


def names_what_is_changed(folder):
    """The functions that an edit changes have the names that the prover gives them, with closures in them."""
    edits = made(folder)
    for name, edit in edits.items():
        found = edit.places[0].names_among(NAMES)
        expect(found == CHANGED[name], f"{name} changes {found}")
    shortest = "    pub(super) fn shortest(n: u8) -> u8 {\n        n + 6\n    }\n"
    for head, owner in ELSEWHERE:
        (folder / "src/other.rt").write_text(f"{head} {{\n{shortest}}}\n")
        edit = read(folder, "file: src/other.rt\nold: n + 6\nnew: n + 9\n")
        name = f"office::text::{owner}::shortest"
        found = edit.places[0].names_among([*NAMES, "office::shortest", "office::text::Other::shortest", name])
        expect(found == [name], f"an edit of a function of `{head}` elsewhere changes {found}")
        line = f"fn office::text::Other::shortest: {SEARCH}"
        expect(not edit.places[0].is_named_in(line), f"`{head}` is named by a function of another type")
        proof = f"./proofs/text/{owner}/shortest/Answers.antt:4:9: error: `value`: not admitted"
        expect(edit.places[0].is_named_in(proof), f"`{head}` is not named by its proof")
        expect(not edit.places[0].is_named_in(proof.replace(owner, "Other")), f"`{head}` is named by another's proof")


def judges_what_is_changed(folder):
    """A check of some functions alone is a verdict too."""
    edits = made(folder)
    ran = subprocess.CompletedProcess([], 1, f"fn office::total: {SEARCH}\nonly=2 proved=1\n")
    kit = SimpleNamespace(rt=SimpleNamespace(unread=lambda line, texts: False))
    both = [edits["total"], edits["words_total"]]
    verdicts = [SCRIPT["judge_batch"](SCRIPT["Answer"](kit, {}, ran), both)[it.path][0] for it in both]
    expect(verdicts == ["REFUSED", "PROVED"], f"they are {verdicts}")


def leaves_out_closures_that_are_gone(_folder):
    """The functions that an edit leaves are checked, without a closure that it took away."""
    asked = []

    def checked(_crate, _texts, flags, _kept):
        asked.append(flags[3::2])
        gone = "rattle: error: `office` has no function `office::fn::total::all`: help: write the name"
        is_gone = "office::fn::total::all" in flags
        return subprocess.CompletedProcess([], 2 if is_gone else 0, gone if is_gone else "only=1 proved=1")

    kit = SCRIPT["Kit"].__new__(SCRIPT["Kit"])
    kit.rt = SimpleNamespace(checked=checked, unread=lambda line, texts: False)
    answer = kit.check(None, {}, None, ["office::fn::total::all", "office::total"])
    expect(answer.is_proved, f"it is {answer.last}")
    expect(asked == [["office::fn::total::all", "office::total"], ["office::total"]], f"{asked} are asked for")


TESTS = [
    takes_comments, refuses_what_the_prover_names, stands_alone_outside_functions, names_what_is_changed,
    judges_what_is_changed, leaves_out_closures_that_are_gone,
]

if __name__ == "__main__":
    sys.exit(main(TESTS))
