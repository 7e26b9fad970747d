#!/usr/bin/env python3
"""Tests of the table of moves: each of the 110 pairs of a state and a move, as stated here by hand, is held to the
table of docs/PROTOCOL.md, to the definition in crates/wb_states/specs/Moves.antt, and to what the program answers; and
so are the versions of builds.

    tools/tests/test_moves.py [NAME..]     these tests, or all

From the environment: WB is the program, ./wb of this repository where it is not set.
"""
import re
import sys
import tempfile
from pathlib import Path

import harness
from harness import ROOT, expect, main

STATES = (
    "Needs-Build Building Built Uploaded Installed Dep-Wait BD-Uninstallable Failed Not-For-Us Build-Attempted".split()
)

# Each move: the states from which it goes, by their places above, and the state in which it ends.
TABLE = {
    "take": ([0], "Building"),
    "built": ([1], "Built"),
    "uploaded": ([1, 2], "Uploaded"),
    "waits": ([1], "Dep-Wait"),
    "put-back": ([1], "Needs-Build"),
    "attempted": ([1], "Build-Attempted"),
    "give-back": ([1, 2, 3, 5, 6, 7, 8, 9], "Needs-Build"),
    "dep-wait": ([0, 1, 6, 7, 9], "Dep-Wait"),
    "fail": ([0, 1, 2, 5, 6, 9], "Failed"),
    "not-for-us": ([0, 1, 5, 6, 7, 9], "Not-For-Us"),
    "rebuild": ([4], "Needs-Build"),
}
MOVES = {(move, STATES[at]): goal for move, (places, goal) in TABLE.items() for at in places}
DONE = 33

# The names of moves in the definition.
DEFINED = {
    "Take": "take",
    "ToBuilt": "built",
    "ToUploaded": "uploaded",
    "Waits": "waits",
    "PutBack": "put-back",
    "Attempted": "attempted",
    "GiveBack": "give-back",
    "ToDepWait": "dep-wait",
    "Fail": "fail",
    "ToNotForUs": "not-for-us",
    "Rebuild": "rebuild",
}

# Rebuild numbers, and the versions of their builds of 1.0 (Debian Policy 5.6.12.2).
BUILDS = {0: "1.0", 7: "1.0+b7", 999: "1.0+b999"}

FILES = {
    "sources": "Package: hello\nVersion: 1.0\nArchitecture: any\n",
    "packages": "Package: hello\nVersion: 1.0\nArchitecture: amd64\n",
    "report": "hello 1.0 uninstallable libx is missing\n",
}
BEGUN = ["add-arch amd64 linux amd64", "add-builder b1 amd64", "enter amd64 hello 1.0 optional devel"]
TAKEN = [*BEGUN, "take amd64 b1 hello 1.0"]
# Lines after which the record is in a state.
INTO = {
    "Needs-Build": BEGUN,
    "Building": TAKEN,
    "Built": [*TAKEN, "built 1"],
    "Uploaded": [*TAKEN, "uploaded 1"],
    "Installed": [*BEGUN[:2], "merge sources amd64=packages"],
    "Dep-Wait": [*BEGUN, "dep-wait amd64 hello 1.0 libx"],
    "BD-Uninstallable": [*BEGUN, "report amd64 report"],
    "Failed": [*BEGUN, "fail amd64 hello 1.0"],
    "Not-For-Us": [*BEGUN, "not-for-us amd64 hello 1.0"],
    "Build-Attempted": [*TAKEN, "attempted 1"],
}
HELD = ("Building", "Built", "Uploaded")
LINES = {
    "take": "take amd64 b1 hello 1.0",
    "built": "built 1",
    "uploaded": "uploaded 1",
    "waits": "waits 1 liby",
    "put-back": "put-back 1",
    "attempted": "attempted 1 it broke",
    "give-back": "give-back amd64 hello 1.0",
    "dep-wait": "dep-wait amd64 hello 1.0 liby",
    "fail": "fail amd64 hello 1.0 no",
    "not-for-us": "not-for-us amd64 hello 1.0 no",
    "rebuild": "rebuild amd64 hello 1.0 1 new",
}


def difference(found):
    """How a table differs from the one that is stated here."""
    more = [
        f"{move} from {state} to {goal}" for (move, state), goal in found.items() if MOVES.get((move, state)) != goal
    ]
    less = [f"{move} from {state}" for move, state in MOVES if (move, state) not in found]
    return f"it has {more}, and lacks {less}"


# ---- the page


def states_of(cell):
    """The states that a cell of the page names."""
    if cell.startswith("all but "):
        left = states_of(cell.removeprefix("all but "))
        return [state for state in STATES if state not in left]
    found = re.split(r", | and ", cell)
    expect(set(found) <= set(STATES), f"the page names states {found}")
    return found


def moves_on(page):
    """The table of a page: each pair of a move and a state from which it goes, with the state in which it ends."""
    part = re.search(r"^## Moves\n(.*?)^## ", page, re.DOTALL | re.MULTILINE)
    found = {}
    for commands, before, after in re.findall(r"^\| (`.*?`) \| (.*?) \| (.*?) \|$", part[1], re.MULTILINE):
        goal = re.split(r", ", after)[0]
        expect(goal in STATES, f"the page names a state {goal}")
        for command in re.findall(r"`([^`]*)`", commands):
            if command != "next":  # it takes what `take` would, and is the same move
                found |= {(command, state): goal for state in states_of(before)}
    return found


def the_page():
    """The table of docs/PROTOCOL.md is the one that is stated here; a page that differs is found."""
    page = (ROOT / "docs" / "PROTOCOL.md").read_text(encoding="utf-8")
    found = moves_on(page)
    expect(found == MOVES and len(MOVES) == DONE, difference(found))
    for old, new in [
        ("| `built` | Building | Built |", "| `built` | Building | Uploaded |"),
        ("| Building, Built | Uploaded |", "| Building | Uploaded |"),
    ]:
        expect(page.count(old) == 1 and moves_on(page.replace(old, new)) != MOVES, f"a page with {new} is not found")


# ---- the definition


def state_named(word):
    """The state that a variant stands for."""
    return next((state for state in STATES if state.replace("-", "").lower() == word.lower()), word)


def equations(text, name):
    """The right side of each equation of a definition, by the move on the left side."""
    return {
        line.split()[1].strip("()"): line.split(" = ", 1)[1]
        for line in text.splitlines()
        if line.startswith(f"{name} ") and " = " in line
    }


def moves_in(text):
    """The table of the definition."""
    goals = {move: state_named(right) for move, right in equations(text, "goal_of").items()}
    found = {}
    for move, right in equations(text, "may_go").items():
        which, listed = right.split(" ", 1)
        named = [state_named(word) for word in re.findall(r"\w+", listed)]
        expect(
            which in ("one_of", "all_but") and set(named) <= set(STATES),
            f"the definition of {move} is not understood: {right}",
        )
        states = named if which == "one_of" else [state for state in STATES if state not in named]
        found |= {(DEFINED.get(move, move), state): goals.get(move) for state in states}
    return found


def the_definition():
    """The table of the definition is the one that is stated here; a definition that differs is found."""
    text = (ROOT / "crates" / "wb_states" / "specs" / "Moves.antt").read_text(encoding="utf-8")
    found = moves_in(text)
    expect(found == MOVES, difference(found))
    for old, new in [
        ("may_go ToBuilt = one_of (Building ∷ [])", "may_go ToBuilt = one_of (Built ∷ [])"),
        ("goal_of PutBack = NeedsBuild", "goal_of PutBack = BuildAttempted"),
        ("all_but (NeedsBuild ∷ Installed ∷ [])", "all_but (NeedsBuild ∷ [])"),
    ]:
        expect(
            text.count(old) == 1 and moves_in(text.replace(old, new)) != MOVES, f"a definition with {new} is not found"
        )


# ---- the program


def answers_of(lines):
    """What a run over tables in memory answers."""
    with tempfile.TemporaryDirectory() as folder:
        for name, text in FILES.items():
            (Path(folder) / name).write_text(text, encoding="utf-8")
        found = harness.answers_of(folder, lines, None)
    expect(len(found) == len(lines), f"{len(lines)} lines have {len(found)} answers")
    return found


def the_program():
    """Each move from each state ends where the table says, or is refused: by the state, or since nothing is held."""
    done = 0
    for state, before in INTO.items():
        for move, line in LINES.items():
            *_, first, answer, last = answers_of([*before, "item amd64 hello", line, "item amd64 hello"])
            expect(first["state"] == state, f"the record is in {first['state']}, and not in {state}")
            goal = MOVES.get((move, state))
            if goal is not None:
                done += 1
                expect(
                    "accepted" in answer and last["state"] == goal,
                    f"{move} from {state} is answered {answer}, and ends in {last['state']}",
                )
                continue
            by_take = line.split()[1] == "1"
            wanted = ("WrongState", state) if state in HELD or not by_take else ("NotHeld", None)
            expect((answer.get("refused"), answer.get("state")) == wanted, f"{move} from {state} is answered {answer}")
            expect(last == first, f"{move} from {state} is refused, and changes the record to {last}")
    expect(done == DONE, f"{done} moves are done")


def versions_of_builds():
    """The build of a package is its version, and of a rebuild that and its number."""
    for number, build in BUILDS.items():
        lines = [*INTO["Installed"], *([f"rebuild amd64 hello 1.0 {number} new"] if number else []), "item amd64 hello"]
        found = answers_of(lines)[-1]
        expect(
            (found["number"], found["build"]) == (number, build),
            f"rebuild {number} is shown as {found['number']}, {found['build']}",
        )


TESTS = [the_page, the_definition, the_program, versions_of_builds]

if __name__ == "__main__":
    sys.exit(main(TESTS))
