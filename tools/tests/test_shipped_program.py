#!/usr/bin/env python3
"""Tests of the shipped program. Those on this repository hold release/ to what the gate has just built; ./check calls
them right after the gate. The others try what ./wb does with such a folder on copies of the sources, with a made-up
release/ whose program is a script, and a PATH with Debian's essential tools and without the kit.

    tools/tests/test_shipped_program.py [NAME..]     these tests, or all
"""
import functools
import gzip
import os
import shutil
import subprocess
import sys
import tempfile
import time
from pathlib import Path

sys.dont_write_bytecode = True
from harness import DEV, ROOT, Failure, LeftOut, expect, main  # noqa: E402
from shipped_program import (  # noqa: E402
    PARTS, Fault, crate_lines, gates_program, machine, program_of, read_manifest, source_files, sources_sum, unpacked,
    write_shipped,
)  # fmt: skip

KIT = "a kit of the tests"
PROGRAM = b'#!/bin/sh\n# not a program that anybody proved\necho "shipped $*"\ncat\nexit 3\n'
# all that ./wb calls until it runs a shipped program, from packages that each Debian has
TOOLS = "bash cat chmod dirname find flock grep gzip mkdir mktemp mv readlink rm sed sha256sum sh sleep sort stat tail"
TOOLS = f"{TOOLS} touch uname xargs".split()
SAID = f"wb: this is the program of release/, which {KIT} proved and built elsewhere from just these sources;"
SAID += " ./check proves it here"
LACKS_KIT = "wb: the program must be built first, and the Rattle kit's command rt is not on the PATH"
REFUSED = "wb: release/wb.gz is not the program that release/manifest names, so it is not run"
NOBODY = 65534
KEPT = tempfile.TemporaryDirectory()  # until the tests end
HELD = Path(KEPT.name)
HELD.chmod(0o711)


# ---- release/ of this repository


def is_whole(_folder, root=ROOT):
    unpacked(root, read_manifest(root))


def is_of_these_sources(_folder, root=ROOT):
    expect(
        read_manifest(root).sources == sources_sum(root),
        "release/ holds a program of other sources: after rt ci has passed, tools/dev/make-shipped-program makes it",
    )


def kit_here():
    done = subprocess.run(["rt", "version"], stdout=subprocess.PIPE, text=True, timeout=60, check=True)
    return done.stdout.strip()


def is_what_the_gate_built(_folder, root=ROOT, kit=None):
    """Another kit than that which built it may make other bytes of the same sources."""
    manifest = read_manifest(root)
    if manifest.sources != sources_sum(root):
        return "not compared, since it is of other sources"
    kit = kit or kit_here()
    if manifest.kit != kit:
        raise LeftOut(f"{manifest.kit} built the bytes of release/, and the kit here is {kit}")
    why = f"the gate built other bytes than those in release/wb.gz, which {manifest.kit} built"
    expect(gates_program(root) == unpacked(root, manifest), why)
    return None


def is_not_in_this_checkout(_folder):
    expect(not (ROOT / "release").exists(), "release/ has no manifest")
    return "there is no release/, so ./wb proves and builds the program"


# ---- ./wb on copies


@functools.cache
def sources(whole=False):
    """A folder with ./wb and the sources of the program, or a few files of each crate. Each test gets a copy."""
    folder = Path(tempfile.mkdtemp(dir=HELD))
    names = source_files(ROOT)
    if not whole:
        parts = {(crate, part): [] for crate in crate_lines(ROOT) for part in PARTS}
        for name in names[1:]:
            parts[tuple(name.split("/")[1:3])].append(name)
        few = [{*found[:2], *(name for name in found if name.endswith("/src/lib.rt"))} for found in parts.values()]
        names = ["HANDLES", *(name for found in few for name in found)]
    for name in ["wb", "crates.txt", *names]:
        (folder / name).parent.mkdir(parents=True, exist_ok=True)
        shutil.copy(ROOT / name, folder / name)
    (folder / "crates/vectors/src").mkdir(parents=True)
    (folder / "crates/vectors/src/main.rt").write_text("// nothing\n")
    return folder


def checkout(folder, name="checkout", whole=False):
    """A copy with a made-up release/."""
    subprocess.run(["cp", "-a", sources(whole), folder / name], check=True)
    write_shipped(folder / name, PROGRAM, KIT)
    return folder / name


@functools.cache
def tools():
    folder = Path(tempfile.mkdtemp(dir=HELD))
    folder.chmod(0o755)
    for name in TOOLS:
        found = shutil.which(name)
        expect(found, f"there is no {name}")
        (folder / name).symlink_to(found)
    return folder


def start(script, *words, before=(), path=None, scratch=None, cwd=None):
    """Starts ./wb, after the words of another command, with this PATH and this folder for temporary files."""
    environment = {"PATH": str(path or tools()), "LC_ALL": "C.UTF-8", "TMPDIR": str(scratch or HELD)}
    pipes = dict.fromkeys(("stdin", "stdout", "stderr"), subprocess.PIPE)
    return subprocess.Popen([*before, script, *words], env=environment, cwd=cwd, text=True, **pipes)


def ended(process, given=""):
    """The status, what was printed, and the lines on standard error."""
    out, said = process.communicate(given, timeout=60)
    return process.returncode, out, said.splitlines()


def run(root, *words, given="", **options):
    return ended(start(root / "wb", *words, **options), given)


def runs(root, says=True, **options):
    """./wb runs the shipped program, with its words, its standard input and its status, and says once what it is."""
    found = run(root, "two words", "and a third", given="a line\n", **options)
    expect(found == (3, "shipped two words and a third\na line\n", [SAID] * says), f"{found}")


def does_not_run(root, why, **options):
    status, out, said = run(root, "run", **options)
    expect(status == 70 and not out and said and said[-1].startswith(why), f"{status} {out!r} {said}")


def left(root):
    """What ./wb left in crates/wb/out."""
    return sorted(file.name for file in (root / "crates/wb/out").iterdir())


def starts_at_once(folder):
    root = checkout(folder, whole=True)
    expect(sources_sum(root) == sources_sum(ROOT), "the checksum is not that of the same sources elsewhere")
    runs(root)
    expect(left(root) == ["wb", "wb.built"], f"{left(root)}")
    expect((root / "crates/wb/out/wb").read_bytes() == PROGRAM, "the program is another")
    runs(root, says=False)


def starts_from_elsewhere(folder):
    root = checkout(folder, "a path with blanks, a * and a 'quote'")
    (folder / "link").symlink_to(root / "wb")
    found = ended(start(folder / "link", "x", cwd="/"))
    expect(found == (3, "shipped x\n", [SAID]), f"{found}")
    runs(root, says=False, cwd=folder)


def starts_many_at_once(folder):
    root = checkout(folder)
    found = [ended(process, "a line\n") for process in [start(root / "wb", str(number)) for number in range(6)]]
    for number, (status, out, said) in enumerate(found):
        expect((status, out) == (3, f"shipped {number}\na line\n") and said in ([], [SAID]), f"{found}")
    expect(sum(len(said) for _, _, said in found) == 1, f"not said once: {found}")
    expect(left(root) == ["wb", "wb.built"], f"{left(root)}")


def starts_where_nothing_can_be_written(folder):
    """From a checkout that is read alone it runs each time from a temporary file, which is gone by then."""
    root = checkout(folder)
    subprocess.run(["chmod", "-R", "a-w,a+rX", root], check=True)
    before = []
    if os.geteuid() == 0:  # root writes everywhere
        setpriv = shutil.which("setpriv")
        if not setpriv:
            raise LeftOut("setpriv is not there, and root writes everywhere")
        before = [setpriv, f"--reuid={NOBODY}", f"--regid={NOBODY}", "--clear-groups"]
    folder.chmod(0o755)
    scratch = folder / "scratch"
    scratch.mkdir()
    scratch.chmod(0o777)
    for _ in range(2):
        runs(root, before=before, scratch=scratch)
        expect(not list(scratch.iterdir()), f"{list(scratch.iterdir())}")
    expect(not (root / "crates/wb/out").exists(), "something was written")
    subprocess.run(["chmod", "-R", "u+w", root], check=True)
    return None


def changed(root, name, change):
    file = root / name
    file.parent.mkdir(parents=True, exist_ok=True)
    time.sleep(0.02)  # the clock of a disk has wide steps
    file.write_text(change(file.read_text() if file.exists() else ""))


CHANGES = {
    "a source": ("crates/wb_api/src/lib.rt", lambda text: text + "\n"),
    "a definition": ("crates/deb_text/specs/Another.antt", lambda text: "-- nothing\n"),
    "a proof": ("crates/wb_store/proofs/more/Another.antt", lambda text: "-- nothing\n"),
    "HANDLES": ("HANDLES", lambda text: text.replace("Net", "Wait, Net")),
    "a line of crates.txt": ("crates.txt", lambda text: text.replace("deb_text:\n", "deb_text: memchr\n")),
}


def is_not_run_where_a_source_differs(folder):
    root = checkout(folder)
    runs(root)
    for what, (name, change) in CHANGES.items():
        old = (root / name).read_text() if (root / name).exists() else None
        sum_before = sources_sum(root)
        changed(root, name, change)
        expect(sources_sum(root) != sum_before, f"{what} is not part of the checksum")
        does_not_run(root, LACKS_KIT)
        time.sleep(0.02)
        (root / name).write_text(old) if old is not None else (root / name).unlink()
        runs(root, says=name != "crates.txt")  # it is unpacked again where a file is newer, and says so
        runs(root, says=False)


def is_run_where_other_files_differ(folder):
    root = checkout(folder)
    runs(root)
    changed(root, "crates/vectors/src/main.rt", lambda text: text + "// more\n")
    changed(root, "crates.txt", lambda text: f"# a comment\n{text}another: deb_text\n")
    runs(root, says=False)
    (root / "crates/wb/out/wb").unlink()
    runs(root)


def is_not_run_before_it_is_whole(folder):
    """A removed source counts too, and so does a program of an earlier release/."""
    root = checkout(folder)
    next((root / "crates/wb_step/proofs").rglob("*.antt")).unlink()
    does_not_run(root, LACKS_KIT)
    write_shipped(root, PROGRAM, KIT)
    runs(root)
    time.sleep(0.02)
    write_shipped(root, PROGRAM.replace(b"exit 3", b"exit 4"), KIT)
    status, _, said = run(root)
    expect(status == 4 and said == [SAID], f"{status} {said}")
    shutil.rmtree(root / "release")
    does_not_run(root, LACKS_KIT)


def is_refused_where_it_is_damaged(folder):
    root = checkout(folder)
    packed = root / "release/wb.gz"
    whole = packed.read_bytes()
    flipped = bytearray(whole)
    flipped[len(whole) // 2] ^= 1
    for damaged in (bytes(flipped), whole[:-9], b"", PROGRAM, gzip.compress(PROGRAM + b"# more\n", mtime=0)):
        packed.write_bytes(damaged)
        does_not_run(root, REFUSED)
        expect(not left(root), f"{left(root)}")
    packed.unlink()
    does_not_run(root, REFUSED)
    packed.write_bytes(whole)
    runs(root)


def is_refused_where_its_manifest_is_malformed(folder):
    root = checkout(folder)
    manifest = root / "release/manifest"
    whole = manifest.read_text()
    program = read_manifest(root).program
    lacking = whole.replace(f"kit {KIT}\n", ""), whole.replace("sources ", "source ")
    for text in ("", "program\n", whole.replace(program, program[:-1]), *lacking):
        manifest.write_text(text)
        does_not_run(root, "wb: release/manifest is malformed")
        try:
            read_manifest(root)
        except Fault:
            continue
        expect(False, f"it is read: {text}")
    manifest.write_text(whole.rstrip("\n"))
    runs(root)


def is_not_run_on_another_machine(folder):
    root = checkout(folder)
    manifest = root / "release/manifest"
    manifest.write_text(manifest.read_text().replace(f"machine {machine()}", "machine Linux vax"))
    does_not_run(root, LACKS_KIT)


def is_what_a_package_takes(folder):
    """The program of a package is the one that ./wb runs, and never another where release/ has one of these sources."""
    root = checkout(folder)
    write_shipped(root, PROGRAM.replace(b"exit 3", b"exit 0"), KIT)
    expect(program_of(root).read_bytes() == unpacked(root, read_manifest(root)), "it is another")
    program_of(root).write_bytes(PROGRAM.replace(b"exit 3", b"echo; exit 0"))
    try:
        program_of(root)
    except Fault as fault:
        expect("is not the program of release/" in str(fault), f"{fault}")
        return
    expect(False, "another program is taken")


def is_run_beside_another_kit(folder):
    """A kit that is there is not asked; it is once a source differs, and then for each crate, since it has proved none
    of them."""
    root, kit = checkout(folder), folder / "kit"
    kit.mkdir()
    for tool in [*tools().iterdir(), *(Path(shutil.which(name)) for name in ("cp", "nproc", "head"))]:
        (kit / tool.name).symlink_to(tool)
    (kit / "rt").write_text(
        f"""#!/bin/sh
echo "${{PWD##*/}} $1" >>'{folder}/asked'
case $1 in
    version) echo another ;;
    lib) mkdir -p out/rlib && touch out/rlib/stamp ;;
    run) printf '#!/bin/sh\\necho built\\n' >out/wb && chmod +x out/wb ;;
esac
"""
    )
    (kit / "rt").chmod(0o755)
    runs(root, path=kit)
    expect(not (folder / "asked").exists(), "the kit was asked")
    changed(root, *CHANGES["a source"])
    status, out, said = run(root, path=kit)
    asked = (folder / "asked").read_text().splitlines()
    expect((status, out) == (0, "built\n"), f"{status} {out!r} {said}")
    expect(sum(line.endswith(" check") for line in asked) == len(crate_lines(root)), f"{asked}")
    expect(run(root, path=kit) == (0, "built\n", []), "what was built is not run")


# ---- how release/ is made


def is_what_that_gate_built(folder, root):
    return is_what_the_gate_built(folder, root, KIT)


def submission(folder):
    """A copy as it is once the gate has passed: committed, with a program that names the kit, and what the gate kept of
    its run."""
    root = folder / "submission"
    subprocess.run(["cp", "-a", sources(), root], check=True)
    (root / ".gitignore").write_text("out/\n*.bak\n")
    for name, text in (("args", "run\n"), ("status", "1\n"), ("stdin", "a line\n"), ("stdout", "a line\n")):
        (root / "crates/wb" / name).write_text(text)
    who = ["-c", "user.name=a", "-c", "user.email=a@b.example"]
    for words in (["init", "-q"], ["add", "-A"], [*who, "commit", "-q", "-m", "All"]):
        subprocess.run(["git", "-C", root, *words], check=True)
    bin_folder = folder / "bin"
    bin_folder.mkdir()
    (bin_folder / "rt").write_text(f"#!/bin/sh\necho '{KIT}'\n")
    (bin_folder / "rt").chmod(0o755)
    (root / "crates/wb/out").mkdir()
    gate(root)
    return root


def gate(root, more=""):
    """Does as the gate: builds the program, with more at its end, and runs it."""
    time.sleep(0.02)
    program = root / "crates/wb/out/wb"
    version = f"[ \"$1\" = --version ] && exec echo 'wb 0.1, proved with {KIT}'"
    program.write_text(f"#!/bin/sh\n{version}\ncat\nexit 1\n{more}")
    program.chmod(0o755)
    (root / "crates/wb/out/wb.built").unlink(missing_ok=True)
    time.sleep(0.02)
    (root / "crates/wb/out/stdout").write_text("a line\n")


def made(root):
    path = f"{root.parent / 'bin'}:{os.environ['PATH']}"
    words = [DEV / "make-shipped-program", "--root", root]
    environment = {**os.environ, "PATH": path}
    return subprocess.run(words, env=environment, capture_output=True, text=True, timeout=60, check=False)


def is_not_made(root, why):
    done = made(root)
    expect(done.returncode == 1 and why in done.stderr, f"{done.returncode} {done.stderr}")
    expect(not (root / "release").exists(), "release/ is made all the same")


def is_made_of_what_the_gate_built(folder):
    root = submission(folder)
    program = root / "crates/wb/out/wb"
    done = made(root)
    expect(done.returncode == 0, f"{done.stderr}")
    expect(unpacked(root, read_manifest(root)) == gates_program(root) == program.read_bytes(), "the program is another")
    manifest = read_manifest(root)
    expect(manifest.kit == KIT and manifest.sources == sources_sum(root), f"{manifest}")
    first = {file.name: file.read_bytes() for file in (root / "release").iterdir()}
    expect(sorted(first) == ["manifest", "wb.gz"], f"{sorted(first)}")
    expect(made(root).returncode == 0, "it is not made again")
    expect(first == {file.name: file.read_bytes() for file in (root / "release").iterdir()}, "not the same again")
    program.unlink()
    status, _, said = run(root, "run")
    expect(status == 1 and said == [SAID], f"{status} {said}")
    shutil.rmtree(root / "release", ignore_errors=True)
    is_not_made(root, "was unpacked from release/")


def is_held_to_the_gate(folder):
    """The tests on this repository find, in a copy, what they are there for."""
    root = submission(folder)
    expect(made(root).returncode == 0, "release/ is not made")
    for test in (is_whole, is_of_these_sources, is_what_that_gate_built):
        expect(test(folder, root) is None, test.__name__)
    out, packed = root / "crates/wb/out", root / "release/wb.gz"
    whole = (out / "wb").read_text()
    (out / "wb").write_text(f"{whole}# other bytes\n")
    finds(is_what_that_gate_built, folder, root, "the gate has not run crates/wb/out/wb")
    gate(root, "# other bytes\n")
    finds(is_what_that_gate_built, folder, root, "the gate built other bytes")
    gate(root)
    expect(is_what_that_gate_built(folder, root) is None, "the same bytes are others")
    packed.write_bytes(gzip.compress(f"{whole}# other bytes\n".encode(), mtime=0))
    finds(is_whole, folder, root, "is not the program that release/manifest names")
    finds(is_what_that_gate_built, folder, root, "is not the program that release/manifest names")
    changed(root, *CHANGES["a proof"])
    finds(is_of_these_sources, folder, root, "of other sources")


def finds(test, folder, root, why):
    try:
        test(folder, root)
    except (Failure, Fault) as fault:
        expect(why in str(fault), f"{test.__name__}: {fault}")
        return
    expect(False, f"{test.__name__} does not find: {why}")


def is_made_of_nothing_else(folder):
    root = submission(folder)
    out = root / "crates/wb/out"
    (out / "stdout").unlink()
    is_not_made(root, "the gate has not run")
    (out / "stdout").write_text("another line\n")
    is_not_made(root, "wrote something else")
    gate(root)
    time.sleep(0.02)
    (out / "wb").touch()
    is_not_made(root, "the gate has not run")
    gate(root)
    changed(root, *CHANGES["a source"])
    is_not_made(root, "1 files of the sources are not as they were committed, among them crates/wb_api/src/lib.rt")
    subprocess.run(["git", "-C", root, "checkout", "-q", "."], check=True)
    is_not_made(root, "is newer than crates/wb/out/wb")
    gate(root)
    (root / "crates/wb/src/a.bak").write_text("")
    is_not_made(root, "among them crates/wb/src/a.bak")
    (root / "crates/wb/src/a.bak").unlink()
    gate(root)
    (root.parent / "bin/rt").write_text("#!/bin/sh\necho 'another kit'\n")
    is_not_made(root, "and the kit is 'another kit'")
    (out / "wb").unlink()
    is_not_made(root, "there is no crates/wb/out/wb")


HERE = [is_not_in_this_checkout]
if (ROOT / "release/manifest").exists():
    HERE = [is_whole, is_of_these_sources, is_what_the_gate_built]
TESTS = [
    *HERE, starts_at_once, starts_from_elsewhere, starts_many_at_once, starts_where_nothing_can_be_written,
    is_not_run_where_a_source_differs, is_run_where_other_files_differ, is_not_run_before_it_is_whole,
    is_refused_where_it_is_damaged, is_refused_where_its_manifest_is_malformed, is_not_run_on_another_machine,
    is_what_a_package_takes, is_run_beside_another_kit, is_made_of_what_the_gate_built, is_held_to_the_gate,
    is_made_of_nothing_else,
]  # fmt: skip

if __name__ == "__main__":
    sys.exit(main(TESTS))
