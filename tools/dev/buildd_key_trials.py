"""The trials of tools/dev/try-buildd in which the office has keys, and buildd that of its builder. Who shows none is
answered nothing."""
from pathlib import Path

from buildd_system import HOME, run, wait_for
from harness import expect

CALL = "wanna-build --arch=amd64 --dist=sid --user=b1"


def builds_with_a_key(trial):
    """By the key of its builder, in the place of the page, buildd builds, reports and uploads, and what fails and what
    the machine cannot build is reported too. The journal has the name on the line of the key."""
    trial.with_keys()
    trial.office.add_key("key-of-b1", "build=b1")
    trial.office.give_key("key-of-b1")
    trial.put("good", "fails-a", "local-a")
    trial.put("other", version="2:1.30-1", number=0)
    trial.post("rebuild", arch="amd64", source="other", version="2:1.30-1", number=1, message="it's new")
    trial.start_buildd()
    for source, state in (("good", "Built"), ("other", "Built"), ("fails-a", "Build-Attempted")):
        trial.until(source, state)
    wait_for(lambda: len(trial.calls()) == 4, "sbuild was not called for each")
    trial.until("local-a", "Needs-Build")
    sent = trial.upload()
    expect(sent == ["good_1.0-1_amd64.changes", "other_1.30-1+b1_amd64.changes"], f"uploaded was {sent}")
    for source in ("good", "other"):
        trial.until(source, "Uploaded")
    trial.put("good", number=0)
    trial.expect("good", "Installed")
    reports = "built uploaded built uploaded attempted put-back".split()
    trial.expect_journal("key-of-b1", *["take"] * 4, *reports)
    trial.expect_untold()


def builds_once_it_shows_a_key(trial):
    """Without a key buildd is told what is missing, and goes on asking; it builds once the key lies there, without a
    start of its own."""
    trial.with_keys()
    trial.put("good")
    said = trial.ends(1, f"{CALL} --list=needs-build")
    where = "/var/lib/buildd/wanna-build.key (KEY_FILE of /etc/wb/wanna-build.conf)"
    expect(f"NoKey: it wants a key, and there is no {where}" in said, f"it says {said}")
    expect(trial.office.status_of("", "GET", "/v1/office") == (401, {"http": "NoKey"}), "who shows no key is answered")
    trial.start_buildd()
    wait_for(lambda: "status 1/0" in trial.text("daemon.log"), "no list fails")
    trial.expect("good", "Needs-Build")
    trial.office.add_key("key-of-b1", "build=b1")
    trial.office.give_key("key-of-b1")
    trial.until("good", "Built")
    expect(trial.text("daemon.log").count("Daemon started") == 1, "buildd was started again")
    trial.expect_journal("key-of-b1", "take", "built")
    trial.expect_untold()


def neither_takes_nor_reports_by_the_key_of_another(trial):
    """By the key of b3, in the file that its settings name: it may look, and no more. What it built by its own key it
    reports once that is back."""
    place = "~buildd/of-this-suite.key"
    trial.with_keys("sid=~/of-this-suite.key")
    trial.office.add_key("key-of-b1", "build=b1")
    trial.office.add_key("key-of-b3", "build=b3")
    trial.office.give_key("key-of-b3", place=place)
    trial.put("slow")
    expect("devel/slow_1.0-1 " in trial.ends(0, f"{CALL} --list=needs-build"), "it may not look")
    lacking = "NotAllowed: the key in /var/lib/buildd/of-this-suite.key lacks the right build=b1"
    said = trial.ends(1, f"{CALL} '--api 1' slow_1.0-1")
    expect(said.startswith("- slow:\n    - status: ") and lacking in said, f"buildd reads {said}")
    taken = {"arch": "amd64", "builder": "b1", "source": "slow", "version": "1.0-1"}
    found = trial.office.status_of("key-of-b3", "POST", "/v1/take", taken)
    expect(found == (403, {"http": "NotAllowed"}), f"a take by the key of another is answered {found}")
    trial.start_buildd()
    wait_for(lambda: lacking in trial.text("daemon.log"), "buildd is not told why it may not take")
    trial.expect("slow", "Needs-Build")
    trial.office.give_key("key-of-b1", place=place)
    take = int(trial.until("slow", "Building").split()[-1])
    trial.office.give_key("key-of-b3", place=place)
    trial.let_go()
    wait_for(lambda: "owed: built slow" in trial.text("wanna-build.log"), "nothing is owed")
    said = trial.ends(3, "wanna-build --owed")
    expect("owed: built slow" in said and lacking in said, f"it says {said}")
    found = trial.office.status_of("key-of-b3", "POST", "/v1/built", {"take": take})
    expect(found == (403, {"http": "NotAllowed"}), f"a report by the key of another is answered {found}")
    trial.expect("slow", f"Building b1 {take}")
    trial.office.give_key("key-of-b1", place=place)
    trial.until("slow", "Built")
    trial.expect("slow", f"Built b1 {take}")
    expect(len(trial.calls()) == 1, f"sbuild was called {len(trial.calls())} times")
    trial.expect_journal("key-of-b1", "take", "built")
    trial.expect_untold()


def reports_by_a_new_key(trial):
    """Its key was stolen, and is taken away while it builds: the report waits for the one that takes its place, under
    the same name."""
    trial.with_keys()
    trial.office.add_key("key-of-b1", "build=b1")
    trial.office.give_key("key-of-b1")
    trial.put("slow")
    trial.start_buildd()
    take = trial.until("slow", "Building").split()[-1]
    trial.office.says("key", "remove", "key-of-b1")
    trial.let_go()
    unknown = "NoKey: the key in /var/lib/buildd/wanna-build.key is on no line of its keys"
    wait_for(lambda: unknown in trial.text("wanna-build.log"), "nothing is owed for want of a key")
    said = trial.ends(3, "wanna-build --owed")
    expect("owed: built slow" in said and unknown in said, f"it says {said}")
    trial.office.add_key("key-of-b1", "build=b1")
    trial.office.give_key("key-of-b1")
    trial.until("slow", "Built")
    trial.expect("slow", f"Built b1 {take}")
    expect(len(trial.calls()) == 1, f"sbuild was called {len(trial.calls())} times")
    trial.expect_journal("key-of-b1", "take", "built")
    trial.expect_untold()


def obeys_answers_by_a_right_of_porters(trial):
    """What is answered to the log of a build that failed names no take number: by the key of a builder alone it is
    refused, and mailed back. It is obeyed once the line of the key has port= of the architecture."""
    trial.with_keys()
    trial.office.add_key("key-of-b1", "build=b1")
    trial.office.give_key("key-of-b1")
    trial.put("fails-a", "fails-b")
    trial.start_buildd()
    for source in ("fails-a", "fails-b"):
        trial.until(source, "Build-Attempted")
    trial.system.answer("fails-a_1.0-1", "dep-wait libfoo-dev (>= 2)\n")
    refused = "Your mail could not be processed:\nwanna-build --dep-wait failed with status 1/0"
    wait_for(lambda: refused in trial.mailed(), "the porter is mailed nothing")
    said = trial.ends(1, f"echo 'libfoo-dev (>= 2)' | {CALL} --dep-wait fails-a_1.0-1")
    expect("lacks the right port=amd64" in said, f"it says {said}")
    trial.expect("fails-a", "Build-Attempted")
    trial.office.says("key", "change", "key-of-b1", "build=b1", "port=amd64")
    trial.system.answer("fails-a_1.0-1", "dep-wait libfoo-dev (>= 2)\n")
    trial.until("fails-a", "Dep-Wait")
    trial.system.answer("fails-b_1.0-1", "fail\n\nIt needs a newer compiler.\n")
    trial.until("fails-b", "Failed")
    trial.expect_journal("key-of-b1", "take", "take", "attempted", "attempted", "dep-wait", "fail")
    trial.expect_untold()


def finds_a_key_where_it_stands(trial):
    """What the trials with keys look for is found among the words of a process, in an environment and in a log."""
    trial.with_keys()
    trial.office.add_key("key-of-b1", "build=b1")
    trial.office.give_key("key-of-b1")
    trial.put("good")
    trial.ends(0, f"{CALL} '--api 1' good_1.0-1")
    trial.expect_untold()
    key = trial.office.keys["key-of-b1"]
    for words, where in ((["sh", "-c", "sleep 1; :", key], "cmdline"), (["env", f"A={key}", "sleep", "1"], "environ")):
        run(trial.system.inside(words))
        expect(any(met.startswith(where) for met in trial.office.watch.met), f"none is found in {where}")
    trial.system.put(f"{HOME}/daemon.log", f"Authorization: Bearer {key}\n", owner="buildd")
    met = trial.office.files_with_keys()
    expect([Path(file).name for file in met] == ["daemon.log"], f"found is {met}")
