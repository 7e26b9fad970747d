"""Source packages that wait for relations, and whether dpkg-checkbuilddeps finds these met by the packages of a list,
for tools/tests/test_provides.py and tools/dev/provides_waits."""
import os
import re
import shutil
import subprocess

from harness import LeftOut, expect

ARCH = "amd64"
BEGUN = [f"add-arch {ARCH} linux amd64"]
ENTERED = "1.0"  # the version of each source package that waits

READ_BY_DPKG = re.compile(r"(?m)^(?:Package|Version|Architecture|Multi-Arch|Provides):.*\n")
FOREIGN = re.compile(rf"(?m)^Architecture:(?! *(?:{ARCH}|all) *$)")
UNMET = re.compile(r"(?m)^dpkg-checkbuilddeps: error: Unmet build dependencies: (.*)$")
ASIDE = re.compile(r"\([^)]*\)|\[[^]]*\]|<[^>]*>|:[a-z0-9-]+")  # what relations have beside names and the signs between


def lines_into_waits(waits):
    """The lines after which the source packages of these names wait, each for its relations."""
    pairs = ([f"enter {ARCH} {name} {ENTERED} optional misc", f"dep-wait {ARCH} {name} {ENTERED} {relations}"]
             for name, relations in waits.items())
    return [*BEGUN, *(line for pair in pairs for line in pair)]


def listed(names):
    """A Sources list of these source packages."""
    fields = f"Version: {ENTERED}\nArchitecture: any\nPriority: optional\nSection: misc\n"
    return "\n".join(f"Package: {name}\n{fields}" for name in names)


def in_state(state):
    """The line that asks for the records in a state."""
    return f"by-state {ARCH} {state}"


def sources_in(answer):
    """The names of the source packages of an answer."""
    return {record["source"] for record in answer["records"]}


def names_of(relations):
    """The names of packages in relations."""
    return set(re.findall(r"[^\s,|]+", ASIDE.sub(" ", relations)))


def batches_of(waits):
    """The waits in batches in which no two have a name in common: if one group of relations implies another, dpkg says
    only of the first that it is unmet."""
    batches = []
    for name, relations in waits.items():
        named = dict.fromkeys(names_of(relations), name)
        batch = next((batch for batch in batches if not batch[0].keys() & named.keys()), None)
        if batch is None:
            batches.append(({}, []))
            batch = batches[-1]
        batch[0].update(named)
        batch[1].append(relations)
    return batches


def need_dpkg():
    """Leaves the test out where there is no dpkg-checkbuilddeps."""
    if not shutil.which("dpkg-checkbuilddeps"):
        raise LeftOut("dpkg-checkbuilddeps, of dpkg-dev, is not installed")


def met_by_dpkg(folder, packages, waits):
    """The names of those waits that dpkg-checkbuilddeps finds met, if what of this Packages list can be installed is
    installed. It reads fields of one line."""
    need_dpkg()
    with open(folder / "status", "w", encoding="utf-8") as status:
        for paragraph in packages.split("\n\n"):
            if paragraph.strip() and not FOREIGN.search(paragraph):
                fields = "".join(READ_BY_DPKG.findall(f"{paragraph}\n"))
                status.write(f"Status: install ok installed\n{fields}\n")
    unmet = set()
    for wait_of, relations in batches_of(waits):
        unmet |= {wait_of[name] for name in names_of(unmet_by_dpkg(folder, ", ".join(relations)))}
    return waits.keys() - unmet


def unmet_by_dpkg(folder, relations):
    """Those of these relations that dpkg-checkbuilddeps finds unmet by what is installed, as it prints them."""
    control = f"Source: waits\nBuild-Depends: {relations}\n\nPackage: waits\nArchitecture: any\n"
    (folder / "control").write_text(control, encoding="utf-8")
    done = subprocess.run(
        ["dpkg-checkbuilddeps", "-I", f"-a{ARCH}", f"--admindir={folder}", folder / "control"],
        env={**os.environ, "LC_ALL": "C", "DEB_BUILD_ARCH": ARCH, "DEB_BUILD_PROFILES": ""},
        stdin=subprocess.DEVNULL, capture_output=True, text=True, check=False,
    )
    unmet = UNMET.findall(done.stderr)
    expect(done.returncode == len(unmet), f"dpkg-checkbuilddeps ended with {done.returncode}: {done.stderr[-500:]}")
    return unmet[0] if unmet else ""
