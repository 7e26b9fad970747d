"""An archive of Debian's size, for tools/tests/test_real_size.py: its Sources and its Packages list on two days, and
the records that an office has of it. Nothing of it is left to chance. Its paragraphs have the fields, the sizes and the
relations of real ones.

What each source package is (whether the architecture builds it, what of it is built) is laid down first. From that the
lists are written, and, by the table of docs/PROTOCOL.md, the records: none is computed by the program.
"""
import hashlib
from dataclasses import dataclass, replace

ARCH = "amd64"
PARAGRAPHS = 70_000  # of the Sources list of the first day
NAMES = 66_499  # source packages of that list, but for the largest paragraph's, which stands last
LATER_NAMES = 1_500  # those that the second day adds
TWICE = 19  # of so many source packages one has a second paragraph, of an earlier version
LARGEST = 4_194_304  # bytes of the largest paragraph that is read
PRIORITIES = ("required", "important", "standard", "optional", "extra")
SECTIONS = (  # in the order of the queue; a section of none of these comes after them
    "libs base devel kernel shells perl python admin utils text net web mail database editors interpreters graphics "
    "sound video x11 gnome kde science math doc misc oldlibs games"
).split()
WRITTEN = ("libs", "devel", "python", "perl", "net", "web", "science", "doc", "rust", "contrib/net", "non-free/libs")
STEMS = ("lib", "python-", "golang-github-", "r-cran-", "node-", "rust-", "", "haskell-", "ruby-", "kf6-")
WORDS = ("pixel", "quartz", "ledger", "harbor", "signal", "meadow", "cipher", "ribbon", "anchor", "velvet", "timber")
ENDS = ("", "-perl", "-java", "-utils", "-core")
UNLISTED = (("all", False), ("s390x", False), ("any-arm64 hurd-any", False), ("any", True))  # also by Extra-Source-Only
BUILT_FOR = ("any", "any", "any all", "linux-any", "any-amd64 arm64", "amd64 i386", "any")
# Relations, each with what is left of it for the architecture if no build profile is active, if anything is.
RELATIONS = (
    ("debhelper-compat (= 13)", "debhelper-compat (= 13)"), ("dh-sequence-python3 <!nopython>", "dh-sequence-python3"),
    ("python3-all:any (>= 3.11~)", "python3-all:any (>= 3.11~)"), ("gcc-multilib [i386 x32]", ""),
    ("libgl-dev | libgl1-mesa-dev (<< 24)", "libgl-dev | libgl1-mesa-dev (<< 24)"), ("pkgconf", "pkgconf"),
    ("valgrind [!hurd-any]", "valgrind"), ("doxygen <!nodoc>", "doxygen"), ("crossbuild-essential-arm64 <cross>", ""),
    ("default-jdk-headless [linux-any] | openjdk-17-jdk [ppc64el]", "default-jdk-headless"),
    ("libssl-dev(>=3.0.0)", "libssl-dev (>= 3.0.0)"), ("gnulib", "gnulib"), ("libfuse3-dev [kfreebsd-any]", ""),
)


@dataclass(frozen=True)
class Source:
    """A source package of the archive. `built` is the source version of which Packages has binaries, if it has some,
    and `how` whether that is "earlier" than its version, "equal" or "later"; `number` is that of their rebuild."""

    at: int
    name: str
    version: str
    archs: str = "any"
    is_extra: bool = False
    built: str = ""
    how: str = ""
    number: int = 0

    @property
    def priority(self):
        return PRIORITIES[self.at * 7 % 5] if self.at % 3 else "optional"

    @property
    def section(self):
        return WRITTEN[self.at // 5 % len(WRITTEN)]

    @property
    def is_listed(self):
        return not self.is_extra and (self.archs, False) not in UNLISTED


def earlier(version):
    return f"0~{version.split(':')[-1]}"


def later(version):
    return f"{version}.1"


def version_of(at):
    one, two, three, four = at % 9 + 1, at % 31, at // 31 % 13, at % 4 + 1
    forms = (
        f"{one}.{two}.{three}-{four}", f"{one}:{two}.{three}+dfsg-{four}",
        f"0.{one}~git2024{two:02}{three:02}.{at:07x}-{four}", f"{one}.{two}+dfsg1-{four}+deb12u{three + 1}",
        f"20{two:02}{three:02}{one:02}",
    )
    return forms[at % len(forms)]


def source_of(at):
    """The source package of this number, as it stands on the first day."""
    stem, word, end = STEMS[at % 10], WORDS[at // 10 % len(WORDS)], ENDS[at // 7 % 5]
    source = Source(at, f"{stem}{word}{at:05}{end}", version_of(at), archs=BUILT_FOR[at % 7])
    kind = at % 10
    if at % 500 == 1:
        return replace(source, built=later(source.version), how="later")
    if kind < 3:
        return replace(source, built=source.version, how="equal", number=at // 10 % 12 + 1 if kind == 2 else 0)
    if kind == 3:
        return replace(source, built=earlier(source.version), how="earlier", number=at % 2)
    if kind == 9:
        archs, is_extra = UNLISTED[at // 10 % len(UNLISTED)]
        return replace(source, archs=archs, is_extra=is_extra)
    return source


def first_day():
    """The source packages of the first day, in an order that is not that of their names."""
    return [source_of(number * 7919 % NAMES) for number in range(NAMES)]


def next_day(source):
    """What became of a source package on the second day; none if it is gone."""
    if source.at % 101 == 1:
        return None
    if source.at % 23 == 2:
        how = {"earlier": "earlier", "equal": "earlier", "later": "equal", "": ""}[source.how]
        return replace(source, version=later(source.version), how=how)
    if source.at % 29 == 3 and source.is_listed and not source.built:
        return replace(source, built=source.version, how="equal")
    return source


def second_day():
    """The source packages of the second day, those that are new among them."""
    left = filter(None, map(next_day, first_day()))
    return [*left, *(source_of(at) for at in range(NAMES, NAMES + LATER_NAMES))]


# ---- the lists


def needs_of(source):
    """The relations of a source package: those of Build-Depends and of Build-Depends-Arch, each with what is left."""
    count, start = source.at % 6 + 3, source.at * 5
    plain = [RELATIONS[(start + at) % len(RELATIONS)] for at in range(count)]
    needed = (source.at * 31 + 17) % NAMES
    library = f"lib{WORDS[needed % 11]}{needed:05}-dev (>= 1.{source.at % 9}~)"
    plain.append((f"{library} [linux-any]", library))
    return plain, ([("libsystemd-dev", "libsystemd-dev"), ("lld [riscv64]", "")] if source.at % 12 == 5 else [])


def depends_of(source):
    """What is left of all its relations for the architecture."""
    return ", ".join(left for part in needs_of(source) for _, left in part if left)


def relation_lines(relations):
    """Relations, some of them over several lines."""
    texts = [text for text, _ in relations]
    return ", ".join(texts) if len(texts) % 2 else ",\n ".join(texts) + ","


def files_of(source, version, width):
    """The lines of a field of checksums, of this many digits."""
    digest = hashlib.sha512(f"{source.name} {version}".encode()).hexdigest()
    plain = version.split(":")[-1]
    ends = (".dsc", ".orig.tar.xz", ".debian.tar.xz")[: 3 if "-" in plain and source.at % 4 == 0 else 2]
    return "".join(
        f"\n {digest[at : at + width]} {int(digest[at : at + 5], 16)} {source.name}_{plain}{end}"
        for at, end in enumerate(ends)
    )


def source_paragraph(source, version=None):
    """The paragraph of a source package in Sources."""
    version, name, at = version or source.version, source.name, source.at
    plain, of_arch = needs_of(source)
    binaries = [name, f"{name}-dev", f"{name}-tools"][: at % 3 + 1]
    fields = [
        ("Package", name), ("Binary", ", ".join(binaries)), ("Version", version),
        ("Maintainer", f"Debian {WORDS[at % 11].title()} Team <team+{WORDS[at % 11]}@tracker.debian.org>"),
        ("Uploaders", "Somebody Else <somebody@debian.org>,\n Änne Weiß <aenne@example.org>"),
        ("Build-Depends", relation_lines(plain)),
        ("Architecture", source.archs), ("Standards-Version", "4.6.2"), ("Format", "3.0 (quilt)"),
        ("Files", files_of(source, version, 32)), ("Vcs-Browser", f"https://salsa.debian.org/debian/{name}"),
        ("Vcs-Git", f"https://salsa.debian.org/debian/{name}.git -b debian/unstable"),
        ("Checksums-Sha256", files_of(source, version, 64)), ("Homepage", f"https://example.org/{name}/"),
        ("Package-List", "".join(f"\n {it} deb {source.section} {source.priority} arch=any" for it in binaries)),
        ("Directory", f"pool/main/{name[:1]}/{name}"), ("Priority", source.priority), ("Section", source.section),
    ]
    fields += [("Build-Depends-Indep", "sphinx-doc <!nodoc>, python3-sphinx")] * (at % 6 == 0)
    fields += [("Build-Depends-Arch", relation_lines(of_arch))] * bool(of_arch)
    fields += [("Extra-Source-Only", "yes")] * source.is_extra
    return paragraph(fields)


def paragraph(fields):
    return "".join(f"{field}:{'' if value.startswith(chr(10)) else ' '}{value}\n" for field, value in fields)


def enlarged(text):
    """A paragraph with a field more, of many lines, which makes it the largest."""
    lines, rest = divmod(LARGEST - len(text.encode()) - len("Checksums-Sha512:\n"), 100)
    return f"{text}Checksums-Sha512:\n" + f" {'0' * 98}\n" * (lines - 1) + f" {'1' * (98 + rest)}\n"


LARGEST_SOURCE = Source(0, "zz-largest", "1.0-1")


def sources_of(sources):
    """The paragraphs of a Sources list of these source packages. The last is the largest."""
    paragraphs = []
    for source in sources:
        pair = [source_paragraph(source)]
        if source.at % TWICE == 0:
            pair.append(source_paragraph(source, earlier(source.version)))
        paragraphs += pair if source.at % 2 else reversed(pair)
    paragraphs.append(enlarged(source_paragraph(LARGEST_SOURCE)))
    return paragraphs


def binary_paragraph(source, name, version, arch, is_plain):
    """The paragraph of a package in Packages; if it is not plain, its Source has the version too."""
    digest = hashlib.sha512(f"{name} {version}".encode()).hexdigest()
    of = source.name if is_plain else f"{source.name} ({source.built})"
    fields = [("Package", name)] + [("Source", of)] * (of != name)
    return paragraph(
        fields + [
            ("Version", version), ("Installed-Size", str(source.at % 5000)),
            ("Maintainer", "Debian Team <team@tracker.debian.org>"), ("Architecture", arch),
            ("Depends", f"libc6 (>= 2.36), libgcc-s1 (>= 4.0), {name}-common (= {version}), debconf | cdebconf"),
            ("Description", f"package {name} of an archive of tests"), ("Multi-Arch", "same"),
            ("Homepage", f"https://example.org/{source.name}/"), ("Description-md5", digest[:32]),
            ("Tag", "devel::library, implemented-in::c,\n role::devel-lib, role::shared-lib"),
            ("Section", source.section), ("Priority", source.priority),
            ("Filename", f"pool/main/{source.name[:1]}/{source.name}/{name}_{version.split(':')[-1]}_{arch}.deb"),
            ("Size", str(int(digest[:6], 16))), ("MD5sum", digest[32:64]), ("SHA256", digest[64:]),
        ]
    )


def packages_of(sources, last):
    """The paragraphs of a Packages list: two packages of the architecture, or three, for each source package of which
    something is built, and one of `all` for some. The last, of a package of this name, is the largest."""
    paragraphs = []
    for source in sources:
        if not source.built:
            continue
        is_plain = not source.number and source.at % 4 > 0
        version = f"{source.built}+b{source.number}" if source.number else source.built
        paragraphs.append(binary_paragraph(source, source.name, version, ARCH, is_plain))
        own = f"1:{version}" if not is_plain and source.at % 8 == 0 else version
        paragraphs.append(binary_paragraph(source, f"{source.name}-dev", own, ARCH, is_plain))
        if source.at % 3:
            paragraphs.append(binary_paragraph(source, f"{source.name}-tools", version, ARCH, is_plain))
        if source.at % 5 == 0:
            paragraphs.append(binary_paragraph(source, f"{source.name}-doc", source.built, "all", True))
    owner = replace(LARGEST_SOURCE, name="zz-elsewhere")
    paragraphs.append(enlarged(binary_paragraph(owner, last, "1.0-1", ARCH, True)))
    return paragraphs


# ---- the records


def record_of(source, before=None):
    """The record of a listed source package after a merge, which had the record before, if it had any, in a state that
    no builder and no operator gave it."""
    is_built = source.how in ("equal", "later")
    number = source.number if source.how == "equal" else 0
    return {
        "arch": ARCH, "source": source.name, "state": "Installed" if is_built else "Needs-Build",
        "version": source.version, "build": f"{source.version}+b{number}" if number else source.version,
        "number": number, "message": "", "build_priority": 0, "holder": None, "take": None, "note": "", "waits": "",
        "earlier": bool(source.built) or before is not None and before["earlier"],
        "priority": source.priority, "section": source.section,
    }


def records_of(sources, before=None):
    """The records of an archive by name, which had those before."""
    before = before or {}
    listed = [source for source in [*sources, LARGEST_SOURCE] if source.is_listed]
    return {source.name: record_of(source, before.get(source.name)) for source in listed}


def place_of(record):
    """Where a record stands in the queue."""
    section = record["section"].split("/", 1)[-1]
    places = {name: at for at, name in enumerate(SECTIONS)}
    return (
        -record["build_priority"], not record["earlier"], PRIORITIES.index(record["priority"]),
        places.get(section, len(places)), record["source"].encode(),
    )


def queue_of(records):
    """What waits for a builder, in the order of the queue."""
    return sorted((record for record in records.values() if record["state"] == "Needs-Build"), key=place_of)
