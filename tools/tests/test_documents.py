#!/usr/bin/env python3
"""Tests that the documents and the repository name the same things.

    tools/tests/test_documents.py [NAME..]     these tests, or all
"""
import contextlib
import functools
import re
import runpy
import shutil
import sqlite3
import subprocess
import sys
from pathlib import Path

from harness import DEV, ROOT, expect, expect_none, main
from buildd_system import (
    accepting_command, archive_settings, buildd_settings, ending_command, key_commands, line_of_key, tunnel_command,
)


def text_of(name):
    return (ROOT / name).read_text(encoding="utf-8")


@functools.cache
def pages():
    return [path for pattern in ("*.md", "docs/**/*.md", "tools/*.md") for path in sorted(ROOT.glob(pattern))]


def said_by(*words):
    """What a script of the repository prints, and says on standard error."""
    done = subprocess.run(words, cwd=ROOT, capture_output=True, text=True, check=False)
    return done.returncode, (done.stdout + done.stderr).splitlines()


# ---- wrong bodies


def wrong_bodies_can_be_applied():
    """Each can be applied to the code as it is."""
    status, said = said_by(DEV / "try_edits", "--list")
    expect_none([line for line in said if line.startswith("BAD EDIT")] or said[-5:] if status else [])


def wrong_bodies_stand_once():
    """None stands in both folders of a crate."""
    for folder in sorted(ROOT.glob("crates/*/wrong-bodies")):
        tried_by_the_gate = {path.name for path in (folder.parent / "must-fail").glob("*")}
        both = {path.name for path in folder.iterdir()} & tried_by_the_gate
        expect(not both, f"{folder} and must-fail have {sorted(both)}")


# ---- definitions, laws and claims


def definitions_are_said_and_cited():
    """Each public definition has a line that says what it means, and something cites it."""
    expect_none(said_by(DEV / "list_definitions", "--amiss")[1])


# Lines added to a file of specs, each with what the scan says of it.
DEFINED = [
    ("-- the number one\nabbrev pub one_more : ℕ\none_more = 1\n", "one_more is cited nowhere"),
    ("abbrev pub one_more : ℕ\none_more = 1\n", "one_more has no comment"),
    ("lemma pub one_more : ℕ\n", "cannot read: lemma pub one_more"),
]


def definitions_that_are_amiss_are_found(copy):
    """The scan of the definitions finds what it is there for, and prints those that are not amiss."""
    for name in ("tools/dev", "crates/deb_version/specs", "crates/deb_version/src", "crates/deb_version/proofs"):
        shutil.copytree(ROOT / name, copy / name)
    (copy / "crates.txt").write_text("deb_version:\n", encoding="utf-8")
    script, specs = copy / "tools/dev/list_definitions", copy / "crates/deb_version/specs/Order.antt"
    was = specs.read_text(encoding="utf-8")
    missing = said_by(script, "--amiss")[1]
    for lines, fault in DEFINED:
        specs.write_text(f"{was}\n{lines}", encoding="utf-8")
        said = "\n".join(said_by(script, "--amiss")[1])
        expect(fault in said, f"{fault!r} is not found: {said[:500]}")
    expect(not [line for line in missing if "cited nowhere" not in line], f"{missing} are found")
    row = "| `version_cmp` | the order of the texts of two versions, by their parts | Policy 5.6.12 |"
    expect(row in said_by(script)[1], f"the page lacks the row {row}")


def laws_in_documents_exist():
    """Each law that a document names is a public function."""
    code = "".join(path.read_text(encoding="utf-8") for path in ROOT.glob("crates/*/src/laws.rt"))
    laws = set(re.findall(r"^pub fn (\w+)[(<]", code, re.M))
    for page in pages():
        lost = set(re.findall(r"laws::([a-z_0-9]+)", page.read_text(encoding="utf-8"))) - laws
        expect(not lost, f"{page} names {sorted(lost)}")


def claims_and_contracts_fit():
    """The pages of claims name functions and clauses that are there, and each public contract with all its clauses; and
    what a script makes of them is as it makes it."""
    expect_none(said_by(DEV / "list_claims", "--amiss")[1])


FIRST, STEP = "docs/PROVED.md", "docs/proved/wb_step.md"
RISE = "`laws::takes_rise` (rise)"
# Changes of a page in a copy, each with what the scan says of it: a clause that is not there, a row that is lost, a
# function that is not there, a row that cannot be read, and claims of no crate.
CHANGES = [
    (STEP, lambda text: text.replace(RISE, "`laws::takes_rise` (rises)"), "has no clause rises"),
    (STEP, lambda text: re.sub(f".*{re.escape(RISE)} .*\n", "", text), "lacks laws::takes_rise rise"),
    (STEP, lambda text: text.replace(RISE, "`laws::takes_raise`"), "has no function laws::takes_raise"),
    (STEP, lambda text: re.sub(r"(?m)^(\| Over every list.*)$", r"\1 further |", text), "cannot read: | "),
    (FIRST, lambda text: text.replace("(proved/wb_step.md) `laws::", "`laws::"), "no crate has no function"),
    (FIRST, lambda text: text.replace(RISE, "`laws::takes_rise` (rises)"), "has no clause rises"),
]


def claims_that_do_not_fit_are_found(copy):
    """The scan of the pages of claims finds what it is there for."""
    for name in ("tools/dev", "docs"):
        shutil.copytree(ROOT / name, copy / name)
    shutil.copy(ROOT / "crates.txt", copy)
    for folder in ROOT.glob("crates/*/src"):
        shutil.copytree(folder, copy / folder.relative_to(ROOT))
    scan = [copy / "tools/dev/list_claims", "--amiss"]
    expect_none(said_by(*scan)[1])
    for name, change, fault in CHANGES:
        page = copy / name
        was = page.read_text(encoding="utf-8")
        page.write_text(change(was), encoding="utf-8")
        said = "\n".join(said_by(*scan)[1])
        is_found = change(was) != was and fault in said
        expect(is_found, f"{name}: {fault!r} is not found: {said[:500]}")
        page.write_text(was, encoding="utf-8")
    table = said_by(scan[0], "--functions", "wb_step")[1]
    expect("| `laws::takes_rise` | rise, ends | crates/wb_step/src/laws.rt |" in table, f"no table: {table[:5]}")
    shutil.copy(copy / STEP, copy / "docs/proved/wb_none.md")
    said = "\n".join(said_by(*scan)[1])
    expect("wb_none.md is the page of no crate" in said, f"a page of no crate is not found: {said[:500]}")


# A crate's sources before and after, with what has to be said of them.
BEFORE = """\
pub trait Tables { ghost kept : { Self → Type 0 } = { λ _. ⊤ };
    fn put(&mut self, row: [u8; 2])
        requires fits { row.now.size < 2 }
        ensures ok { kept self.new }; }
impl<S: Fn(u8) -> u8 + Drop> Store<S> {
    pub fn open(&self) -> Result<u8, Fault>
        // a comment { of no clause
        ensures value { IfOk result (λ n. n ≡ codes "{") } ensures err { ⊤ } { f(self) }
    pub fn same() -> u8 ensures value { result   ≡
        1 } { 1 }
    pub(crate) fn within() -> u8 ensures value { result ≡ 1 } { 1 }
    pub fn put(&mut self) ensures others { ⊤ } {} }
pub fn gone() -> u8 ensures value { result ≡ 0 } { 0 }
#[cfg(test)] mod tests { pub fn seven() ensures value { ⊤ } {} }
"""
AFTER = """\
impl<S: Fn(u8) -> u8 + Drop> Store<S> {
    pub fn same() -> u8 ensures value { result ≡ 1 } { 1 }
    pub fn open(&self) -> Result<u8, Fault>
        requires idle { ⊤ } ensures value { IfOk result (λ n. n ≡ codes "}") } { f(self) } }
pub trait Tables { ghost kept : { Self → Type 0 } = { λ it. HasRows it };
    fn put(&mut self, row: [u8; 2]) ensures ok { kept self.new }; }
impl<S> Tables for Store<S> { fn put(&mut self, row: [u8; 2]) {} fn read(&self) ensures rows { HasRows self.now } {} }
fn gone() -> u8 ensures value { result ≡ 0 } { 0 }
"""
COMPARED = """\
store gone: no longer public
    went: ensures value
store Store::open
    went: ensures err
    came: requires idle
    changed: ensures value
store Store::put: a method of Tables
    went: ensures others
store Store::read: new
    came: ensures rows
store Tables
    changed: ghost kept
store Tables::put
    went: requires fits
4 clauses went, 2 came, 2 changed, 2 are as they were
"""


def clauses_that_went_are_found():
    """The comparison of two revisions says which clauses of public functions went, came, or are others."""
    script = runpy.run_path(str(DEV / "compare_clauses"))
    old, new = (script["functions_of"]([("crates/store/src/lib.rt", text)]) for text in (BEFORE, AFTER))
    said = "".join(f"{line}\n" for line in script["report"](old, new, False))
    expect(said == COMPARED, f"it says {said}")


# ---- the README


def readme_shows_the_stored_run():
    """The five lines stand there as they are, with the answers that the stored run wants."""
    text = text_of("README.md")
    lines = re.search(r"^\$ cat examples.five-lines\n(.*?)^\$ ", text, re.M | re.S)
    expect(lines and lines[1] == text_of("examples/five-lines"), "README.md has other lines than examples/five-lines")
    answers = re.search(r"^\$ .*wb run .*?^```$", text, re.M | re.S)
    shown = re.findall(r"^\{.*\n", answers[0] if answers else "", re.M)
    expect("".join(shown) == text_of("crates/wb/stdout"), f"README.md has the answers {shown}")


def readme_names_the_kit():
    """It names the version of the kit that the program answers."""
    kit = re.search(r"^rattle-kit-.*$", text_of("README.md"), re.M)
    expect(kit and f'proved with {kit[0]}"' in text_of("crates/wb/src/main.rt"), f"README.md: {kit and kit[0]}")


def readme_of_tools_names_each_file():
    """The README of tools/ says of each command, module and file what it is for, and names none that is not there."""
    named = set(re.findall("`([a-z_./-]+)`", text_of("tools/README.md")))
    there = [path for path in ROOT.glob("tools/**/*") if path.is_file() and path.suffix != ".pyc"]
    is_aside = re.compile(r"__init__|/(commands|stores)/|test_|README")
    lost = [path for path in there if path.name not in named and not is_aside.search(str(path))]
    expect_none(f"tools/README.md does not name {path.relative_to(ROOT)}" for path in lost)
    known = {path.name for path in ROOT.glob("tools/**/*")}
    gone = {name for name in named if name.endswith((".py", ".c", ".tsv")) and Path(name).name not in known}
    expect(not gone, f"tools/README.md names {sorted(gone)}")


# ---- links


def links_of(page):
    """The pages to which a page links, and the headings, without those of the network."""
    found = re.findall(r"\]\(([^)#]*)(?:#([^)]*))?\)", page.read_text(encoding="utf-8"))
    return sorted({link for link in found if not link[0].startswith("http")})


def headings_of(page):
    """The headings of a page as the second half of a link has them."""
    text = re.sub(r"^ *```.*?^ *```", "", page.read_text(encoding="utf-8"), flags=re.M | re.S)
    titles = (re.sub(r"\]\(.*", "", title).lower() for title in re.findall(r"^#+ +(.*)$", text, re.M))
    return {re.sub("[^a-z0-9_ -]", "", title).replace(" ", "-") for title in titles}


def link_to_pages():
    links = ((page, name) for page in pages() for name, _ in links_of(page))
    expect_none(f"{page}: {name}" for page, name in links if not (page.parent / name).exists())


def link_to_headings():
    for page in pages():
        for name, heading in links_of(page):
            linked = page.parent / name if name else page
            expect(not heading or heading in headings_of(linked), f"{page}: {name}#{heading}")


# ---- the architecture


def sources_of_the_architecture():
    """The files that ARCHITECTURE names: `x.rt` before "of" or "in" and a crate, or after a crate, and so on in a list;
    files of specs; and the modules in its table of those of wb_step."""
    page, listed = text_of("docs/ARCHITECTURE.md"), r"((?:`[\w/]+\.rt`(?:, | and )?)+)"
    found = [(crate, names) for names, crate in re.findall(rf"{listed} (?:of|in)\s`(\w+)`", page)]
    for crate, names in found + re.findall(rf"`(\w+)` {listed}", page):
        yield from (f"crates/{crate}/src/{name}" for name in re.findall(r"[\w/]+\.rt", names))
    for crate, names in re.findall(r"`(\w+)/specs/((?:\w+\.antt`(?:, `)?)+)", page):
        yield from (f"crates/{crate}/specs/{name}" for name in re.findall(r"\w+\.antt", names))
    modules = re.search(r"(?m)^The modules of `wb_step` .*\n\n(?:\|.*\n)+", page)
    rows = re.findall(r"(?m)^\| (`.*?`) \|", modules[0]) if modules else []
    yield from (f"crates/wb_step/src/{name}.rt" for row in rows for name in re.findall(r"`(\w+)`", row))


def sources_of_the_architecture_exist():
    named = sorted(set(sources_of_the_architecture()))
    expect(len(named) > 80, f"only {len(named)} names of files are found in docs/ARCHITECTURE.md")
    expect_none(f"docs/ARCHITECTURE.md names {name}" for name in named if not (ROOT / name).exists())


# ---- the schema


def statements_in(text):
    """The statements of a text, without comments and without the blanks that say nothing."""
    bare = re.sub(r"--.*", "", text)
    parts = (" ".join(part.split()) for part in bare.split(";"))
    return [re.sub(r"(?<=\() | (?=\))", "", part) for part in parts if part]


def schema_has_the_tables():
    """The page has the statements of the program, in its order, and the questions are ones over these tables."""
    code = re.sub(r"\\\n *", "", text_of("crates/wb_sql/src/create.rt"))
    blocks = re.findall(r"^```sql\n(.*?)^```$", text_of("docs/SCHEMA.md"), re.M | re.S)
    made, questions = statements_in(blocks[0]), [statements_in(block)[0] for block in blocks[1:]]
    wanted = statements_in(";".join(re.findall(r'"(CREATE .*)"', code)))
    expect(made == wanted, f"docs/SCHEMA.md has other tables: {set(made) ^ set(wanted)}")
    expect(len(made) == 11 and len(questions) == 5, f"docs/SCHEMA.md has {len(made)} statements and {len(questions)}")
    with contextlib.closing(sqlite3.connect(":memory:")) as tables:
        for statement in made + questions:
            tables.execute(statement)


QUEUE = "crates/wb_states/specs/Queue.antt"


def schema_has_the_numbers():
    """The page has each state's number, and what the rank is made of."""
    page, code, queue = (text_of(name) for name in ("docs/SCHEMA.md", "crates/wb_states/src/state.rt", QUEUE))
    numbers = dict(re.findall(r"State::(\w+) => (\d),", code))
    names = dict(re.findall(r'State::(\w+) => "(.+)",', code))
    rows = [f"| {number} | {names[state]} |" for state, number in sorted(numbers.items(), key=lambda found: found[1])]
    expect(len(rows) == 10 and "\n".join(rows) in page, f"docs/SCHEMA.md has not the rows {rows}")
    for name, rest in (("priorities", 5), ("sections", 28)):
        listed = re.findall(r'codes "(\w+)"', re.search(rf"^{name} =.*?\[\]$", queue, re.M | re.S)[0])
        row = f"{', '.join(listed)} | {rest} |"
        expect(len(listed) == rest and row in page, f"docs/SCHEMA.md has not the row {row}")
    rank = "below_greatest current * 348 + (newness current * 6 + place.priority) * 29 + place.section"
    expect(rank in queue and "* 348 + (6 * new + priority) * 29 + section" in page, "the rank is another")


# ---- buildd


def page_of_buildd_has_what_is_tried():
    """The settings, hooks, keys and commands that tools/dev/try-buildd takes from the page stand there."""
    for is_forced in (False, True):
        for made in (buildd_settings(1, not is_forced, is_forced), archive_settings(is_forced)):
            expect("example.org" in made, f"docs/BUILDD.md has {made}")
        line = line_of_key(is_forced, 9999, "ssh-ed25519 KEY\n")
        expect(line.endswith(" ssh-ed25519 KEY\n") and (is_forced or ":9999" in line), f"docs/BUILDD.md has {line}")
    command = tunnel_command(9998, 9999)
    expect(command.startswith("/usr/bin/ssh -N ") and "127.0.0.1:9998:127.0.0.1:9999" in command, f"it is {command}")
    expect(accepting_command().endswith(" true"), f"docs/BUILDD.md has {accepting_command()}")
    expect(ending_command() == "touch ~/EXIT-DAEMON-PLEASE", f"docs/BUILDD.md has {ending_command()}")
    made, put = key_commands("a", ["build=b1"], place="~buildd/b.key")
    expect("key add a build=b1 > a.key" in made and "buildd -m 600 a.key ~buildd/b.key" in put, f"it has {made}, {put}")


# ---- deviations and faults


def own_definitions():
    """The definitions whose comments say "this project's own"."""
    found, said = set(), ""
    head = re.compile(r" *(?:(?:abbrev|unfoldable) )?(?:pub )?(?:(?:record|data) )?([a-zA-Z_]+)")
    for path in ROOT.glob("crates/*/specs/*.antt"):
        for line in path.read_text(encoding="utf-8").splitlines():
            if re.match(r" *-- ", line):
                said += " " + line.strip().removeprefix("-- ")
                continue
            name = head.match(line)
            if name and re.search("this project.s own", said):
                found.add(name[1])
            said = ""
    return found


def deviations_name_definitions():
    """Each definition that a row of deviations names is there, and public; and these and no others say that they are
    this project's own."""
    last = r"^\| .* \| (`[a-zA-Z_]*`(?: of `[a-z_]*`)?(?:, `[a-zA-Z_]*`)*) \|$"
    rows = re.findall(last, text_of("docs/DEVIATIONS.md"), re.M)
    named = {name for row in rows for name in re.findall("`([a-zA-Z_]*)`", re.sub(" of `[a-z_]*`", "", row))}
    specs = "".join(path.read_text(encoding="utf-8") for path in ROOT.glob("crates/*/specs/*.antt"))
    public = set(re.findall(r"pub (?:record |data )?(\w+)(?= |$)", specs, re.M))
    expect(named, "no row of deviations names a definition")
    expect(named <= public, f"docs/DEVIATIONS.md names {sorted(named - public)}")
    own = own_definitions()
    expect(named <= own, f"{sorted(named - own)} do not say that they are this project's own")
    expect(own <= named, f"docs/DEVIATIONS.md has no row of {sorted(own - named)}")


def faults_speak_of_each_answer():
    """FAULTS says what to do about each refusal, each fault of a list and each cause for which a run stops. `Ended` is
    answered to no list: a merge asks no reader again after a fault."""
    page = text_of("docs/operations/FAULTS.md")
    form = re.compile(r'^ *(?:Refusal|ListingFault|ControlFaultKind|Cause)::[^=]*=> "(.*)",$', re.M)
    sources = ("wb_states/src/refusal.rt", "deb_control/src/fault.rt", "wb_daemon/src/message.rt")
    said = {found for name in sources for found in form.findall(text_of(f"crates/{name}"))} - {"Ended"}
    expect(len(said) > 20, f"only {len(said)} answers were found")
    lost = [one for one in sorted(said) if f"`{one}`" not in page and f"stopped: {one}`" not in page]
    expect_none(f"docs/operations/FAULTS.md lacks {one}" for one in lost)


TESTS = [
    wrong_bodies_can_be_applied, wrong_bodies_stand_once, definitions_are_said_and_cited,
    definitions_that_are_amiss_are_found, laws_in_documents_exist,
    claims_and_contracts_fit, claims_that_do_not_fit_are_found, clauses_that_went_are_found,
    readme_shows_the_stored_run, readme_names_the_kit, readme_of_tools_names_each_file,
    link_to_pages, link_to_headings, sources_of_the_architecture_exist, schema_has_the_tables,
    schema_has_the_numbers, page_of_buildd_has_what_is_tried, deviations_name_definitions, faults_speak_of_each_answer,
]

if __name__ == "__main__":
    sys.exit(main(TESTS))
