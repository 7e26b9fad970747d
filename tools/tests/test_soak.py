#!/usr/bin/env python3
"""Tests of the audit of tools/dev/soak: after a second of its load and a kill it finds nothing amiss, and it finds each
of the losses that are planted then, in the file and in what was answered.

    tools/tests/test_soak.py [NAME..]     these tests, or all

From the environment: WB is the program, crates/wb/out/wb of this repository where it is not set; SEED is the number of
the choices.
"""
import argparse
import copy
import shutil
import sys

from harness import SEED, expect, main, program
from office_model import REMOVED
from store_runs import edit
from soak_audit import Sent, audit, losses
from soak_trial import Soak

SECONDS = (2, 6, 20)  # how long the program lives: longer only where the machine is so busy that little was done

# Changes of the file by sqlite3, each with what the audit says of it.
CHANGES = {
    "UPDATE office SET accepted = accepted - 1": "the file",  # the last command may be one without an answer
    # more than there are commands without an answer
    "UPDATE office SET accepted = accepted + 100": "no command without an answer",
    "UPDATE office SET handed = handed + 1": "and the model",
    "DELETE FROM source_record WHERE source = 'p1'": "the file has None",
    "INSERT INTO builder VALUES ('b9', 'amd64')": "('b9', 'amd64')",
    "INSERT INTO arch VALUES ('s390x', 'linux', 's390x')": "('s390x', 'linux', 's390x')",
    "UPDATE source_record SET note = 'x' WHERE source = 'p2'": "'p2'): the file has",
    "UPDATE source_record SET holder = 'b3' "
    "WHERE source = (SELECT min(source) FROM source_record WHERE holder = 'b1')": "the file has",
    "UPDATE source_record SET state = 0, holder = NULL, take = NULL "
    "WHERE take = (SELECT max(take) FROM source_record)": "the file has",
    "UPDATE source_record SET rank = rank + 1 WHERE source = 'p3'": "'p3'): the file has",
    "UPDATE source_record SET take = (SELECT max(take) FROM source_record) WHERE state IN (1, 2, 3)": "is held twice",
    "UPDATE source_record SET take = NULL WHERE take IS NOT NULL": "has a holder without a take number",
    "INSERT INTO scratch_source VALUES (1, 'p1', '1', 'any', 0, '', '', '', '')": "scratch rows [1, 0]",
}


def lived(folder):
    """An office, what was sent to the program from there on until it was killed, and the folder of its files."""
    for seconds in SECONDS:
        inner = folder / f"{seconds}-seconds"
        inner.mkdir()
        soak = Soak(argparse.Namespace(program=program(), seed=SEED, minutes=1, requests=1e6), inner)
        soak.set_up()
        before = soak.office.twin()
        sent = soak.serve("SIGKILL", seconds)
        expect(not soak.differences, f"{soak.differences[:3]}")
        accepted = [one for one in sent if one.accepted is not None]
        if len(accepted) > 20 and sum(one.name == "next" for one in accepted) > 5:
            break
    return before, sent, inner


def finds_what_is_lost_in_the_file(folder):
    before, sent, folder = lived(folder)
    found = audit(before, sent, folder)
    accepted = sum(one.accepted is not None for one in sent)
    expect(not found.faults, f"without a loss: {found.faults[:3]}")
    expect(
        accepted > 20 and found.office.handed > 5,
        f"only {accepted} commands were accepted, and {found.office.handed} packages handed out",
    )
    for number, (change, wanted) in enumerate(CHANGES.items()):
        planted = folder / f"planted-{number}"
        planted.mkdir()
        for file in folder.glob("store*"):
            shutil.copy(file, planted)
        edit(planted / "store", change)
        faults = audit(before, sent, planted).faults
        expect(any(wanted in fault for fault in faults), f"{change}: {faults[:3]}")
    return f"{len(CHANGES)} changes, {accepted} commands, {found.stood} without an answer that stand"


def finds_what_was_answered_wrongly(folder):
    before, sent, folder = lived(folder)
    handed = [one for one in sent if one.accepted is not None and one.name == "next"]
    handed[1] = next(one for one in handed if one.said["source"] != handed[0].said["source"])
    refused = [
        one for one in sent if one.status == 409 and one.said["refused"] in ("NotHeld", "WrongState", "QueueEmpty")
    ]
    accepted = [one for one in sent if one.accepted is not None]
    summary = next(one for one in sent if one.name == "summary" and one.said)
    wrong = {
        "a take number that was given twice": (
            handed[1], {**handed[1].said, "take": handed[0].said["take"]}, "and the model has",
        ),
        "a package for two builders": (
            handed[1], {**handed[1].said, "source": handed[0].said["source"]}, "and the model has",
        ),
        "a count that stands twice": (
            handed[1], {**handed[1].said, "accepted": handed[0].said["accepted"]}, "two commands have one count",
        ),
        "a count that is lost": (accepted[-1], {**accepted[-1].said, "accepted": 10**6}, "acknowledged and lost"),
        "a summary that never was": (
            summary, {**summary.said, "counts": {**summary.said["counts"], "Failed": 10**6}}, "at no count",
        ),
    }
    removed = [one for one in accepted if one.name in REMOVED]
    if removed:
        held = {"code": 23, "refused": "StillHeld"}
        wrong["a removal that stands and was refused"] = (removed[0], held, "")  # another may take its count
    if refused:
        wrong["a refusal without a reason"] = (refused[0], {"code": 1, "refused": "UnknownArch"}, "at no count")
    for name, (one, said, wanted) in wrong.items():
        other = copy.copy(one)
        other.said = said
        faults = audit(before, [other if each is one else each for each in sent], folder).faults
        expect(any(wanted in fault for fault in faults), f"{name}: {faults[:3]}")
    return f"{len(wrong)} answers"


def finds_records_that_are_gone(folder):
    """Of the records that an office had each has to be there still, or a command has to have removed it."""
    before, sent, folder = lived(folder)
    commands = [one for one in sent if one.accepted is not None]
    keys = set(before.records)
    gone = min(keys)
    removes = dict(zip(("arch", "source"), gone))
    cases = [
        ([], keys, []), (commands, keys, []), ([], keys - {gone}, [f"{gone} is gone, and no command removed it"]),
        ([Sent("forget", removes, 0)], keys - {gone}, []),
        ([Sent("remove-arch", {"name": "amd64"}, 0)], {key for key in keys if key[0] != "amd64"}, []),
        ([Sent("merge", {"parts": [{"arch": "amd64"}]}, 0)], keys - {gone}, []),
        ([Sent("forget", {**removes, "arch": "arm64"}, 0)], keys - {gone}, [f"{gone} is gone, and no command"]),
        ([Sent("next", {}, 0, 200, {"take": before.handed + at}) for at in (1, 2, 2, 3)], keys, ["take 2 came twice"]),
        ([Sent("next", {}, 0, 200, {"take": before.handed})], keys, [f"take {before.handed} came twice"]),
    ]
    for given, after, wanted in cases:
        met = losses(keys, before.handed, given, after)
        expect(len(met) == len(wanted) and all(map(str.startswith, met, wanted)), f"{met} in place of {wanted}")
    return f"{len(cases)} cases"


def holds_answers_that_broke_off_to_their_status(folder):
    before, sent, folder = lived(folder)
    accepted = [one for one in sent if one.accepted is not None and one.name != "next"][-1]
    refused = next(one for one in sent if one.status == 409 and one.name != "next")
    # another command without an answer may take the count of one that was refused, and then the rows differ
    lost = ("no command without an answer", "the file")
    for one, begun, wanted in [
        (accepted, 200, ()), (accepted, 409, lost), (refused, 409, ()), (refused, 200, ("does not stand",)),
    ]:
        other = copy.copy(one)
        other.status, other.said, other.begun = None, None, begun
        faults = audit(before, [other if each is one else each for each in sent], folder).faults
        found = any(part in fault for fault in faults for part in wanted)
        expect(found if wanted else not faults, f"{one} with {begun}: {faults[:3]}")
    return "4 answers"


TESTS = [
    finds_what_is_lost_in_the_file, finds_what_was_answered_wrongly, finds_records_that_are_gone,
    holds_answers_that_broke_off_to_their_status,
]

if __name__ == "__main__":
    sys.exit(main(TESTS))
