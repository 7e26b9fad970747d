"""An office that answers lines, for tools/tests/test_stops.py: that of office_model.py, which begins empty, with the
commands that lines alone have, merges of lists and reports in files of a folder, and the rows of its tables as the
trials show them. It is written from docs/PROTOCOL.md and shares nothing with the program.

It reads lists whose lines are well-formed, with the faults of their fields, and relations that are well-formed. Others
of these end with a ValueError, and never with an answer.
"""
import copy
import json
import re
from pathlib import Path

from office_model import (
    CODES, FORMS, LABEL, PRIORITIES, SECTIONS, STATUSES, Listed, Office, Refused, check, lines_of, order, parts_of,
)

ALL_CODES = CODES | {"BadListing": 15, "RepeatedArch": 22}
# The states by their numbers in the tables.
CODE_OF_STATE = (
    "Needs-Build Building Built Uploaded Installed Dep-Wait BD-Uninstallable Failed Not-For-Us Build-Attempted".split()
)
FORMAT = 2  # of the tables

# The arguments of each subcommand that HTTP has too; two dots mark a last one of several words.
ARGUMENTS = {
    "add-arch": "name os cpu",
    "add-builder": "name arch",
    "remove-arch": "name",
    "remove-builder": "name arch",
    "enter": "arch source version priority section",
    "next": "arch builder",
    "take": "arch builder source version",
    "built": "take",
    "uploaded": "take",
    "put-back": "take",
    "waits": "take relations..",
    "attempted": "take reason..",
    "give-back": "arch source version",
    "dep-wait": "arch source version relations..",
    "fail": "arch source version note..",
    "not-for-us": "arch source version note..",
    "rebuild": "arch source version number message..",
    "build-priority": "arch source version value",
    "forget": "arch source version",
}
NUMBERS = {"take", "number", "value", "after"}
QUERIES = {
    "queue": "queue", "summary": "summary", "by-state": "state", "item": "item", "depends": "depends", "mine": "mine",
    "office": "office", "archs": "archs", "builders": "builders",
}


# ---- relations


ALTERNATIVE = re.compile(
    r"([a-z0-9][a-z0-9+.-]+)(?::([a-z0-9-]+))?\s*(?:\(\s*(<<|<=|>=|>>|=|<|>"
    r")\s*([^\s()]+)\s*\))?\s*(?:\[([^\]]*)\])?\s*((?:<[^>]*>\s*)*)\Z"
)
COMPARED = {
    "<<": lambda one, other: one < other,
    "<=": lambda one, other: one <= other,
    "=": lambda one, other: one == other,
    ">=": lambda one, other: one >= other,
    ">>": lambda one, other: one > other,
}


def matches(arch, word):
    """Whether a word of architectures matches one, which is a name, its operating system and its processor."""
    name, os, cpu = arch
    return word in (name, "any", "any-any", f"{os}-any", f"any-{cpu}")


def is_left(arch, words, profiles):
    """Whether an alternative with these lists of architectures and of profiles is left for an architecture."""
    words = words.split() if words else []
    negated = [word[1:] for word in words if word.startswith("!")]
    plain = [word for word in words if not word.startswith("!")]
    if plain and negated:
        raise ValueError("the model reads no list of architectures that is mixed")
    if plain and not any(matches(arch, word) for word in plain) or any(matches(arch, word) for word in negated):
        return False
    lists = re.findall(r"<([^>]*)>", profiles or "")
    return not lists or any(all(term.startswith("!") for term in one.split()) for one in lists)


def reduced(text, arch):
    """What of relations is left for an architecture: a list of groups of alternatives, each a name, a qualifier, an
    operator and a version."""
    groups = []
    for group in text.split(","):
        left = []
        for alternative in group.split("|") if group.strip() else ():
            match = ALTERNATIVE.match(alternative.strip())
            if not match:
                raise ValueError(f"the model does not read the relations {text}")
            name, qualifier, operator, version, words, profiles = match.groups()
            if version:
                parts_of(version)
            if is_left(arch, words, profiles):
                left.append((name, qualifier, {"<": "<=", ">": ">="}.get(operator, operator), version))
        if left:
            groups.append(left)
    return groups


def printed(groups):
    """The relations as they are kept."""

    def of(name, qualifier, operator, version):
        return name + (f":{qualifier}" if qualifier else "") + (f" ({operator} {version})" if operator else "")

    return ", ".join(" | ".join(of(*alternative) for alternative in group) for group in groups)


def provided(text):
    """What a field Provides gives: names, each with its version or with None; nothing if it has no reading."""
    given = []
    for group in text.split(","):
        alternatives = [ALTERNATIVE.match(one.strip()) for one in group.split("|")] if group.strip() else []
        if not all(one and (one[4] is None or is_version(one[4])) for one in alternatives):
            return []
        if len(alternatives) == 1:
            name, _, operator, version, words, profiles = alternatives[0].groups()
            if operator in (None, "=") and not words and not profiles:
                given.append((name, version))
    return given


def are_met(groups, available):
    """Whether what is available, pairs of a name and a version or None, meets relations."""

    def is_met(name, _, operator, version):
        return any(
            name == has and (not operator or of is not None and COMPARED[operator](order(of), order(version)))
            for has, of in available
        )

    return all(any(is_met(*alternative) for alternative in group) for group in groups)


# ---- lists


def paragraphs_of(text):
    """The paragraphs of a list, each the folded values of its fields by their names in small letters."""
    found, fields, last = [], {}, None
    for line in [*text.split("\n"), ""]:
        if not line.strip(" \t"):
            found, fields, last = found + [fields] * bool(fields), {}, None
        elif line[0] in " \t":
            if last is None:
                raise ValueError(f"the model does not read the line {line}")
            fields[last] = f"{fields[last]} {line.strip()}"
        else:
            last, colon, value = line.partition(":")
            last = last.lower()
            if not colon or last in fields:
                raise ValueError(f"the model does not read the line {line}")
            fields[last] = value.strip(" \t")
    return found


def check_paragraphs(which, paragraphs):
    """The first field of the first paragraph that is missing or malformed is answered."""
    for number, fields in enumerate(paragraphs, 1):

        def test(holds, fault, field):
            check(holds, "BadListing", fault=fault, field=field, paragraph=number, which=which)

        for field in ("Package", "Version", "Architecture"):
            test(field.lower() in fields, "Missing", field)
            test(is_good(field, fields[field.lower()]), "BadValue", field)
        for field in {"Sources": ["Priority", "Section"], "Packages": ["Source"]}[which]:
            test(field.lower() not in fields or is_good(field, fields[field.lower()]), "BadValue", field)


def is_good(field, value):
    """Whether a field has its form."""
    if field == "Architecture":
        return value != ""
    if field in ("Priority", "Section"):
        return value == "" or LABEL.match(value)
    if field == "Version":
        return is_version(value)
    name, bracket, version = value.partition(" (") if field == "Source" else (value, "", "")
    return FORMS["source"].match(name) and (not bracket or version.endswith(")") and is_version(version[:-1]))


def is_version(text):
    try:
        return parts_of(text)
    except Refused:
        return None


def source_of(fields):
    """From which source package and of which version a binary package comes, and the number of its rebuild."""
    source, bracket, version = fields.get("source", fields["package"]).partition(" (")
    number = re.search(r"\+b([0-9]{1,3})\Z", fields["version"]) if bracket else None
    return source, version[:-1] if bracket else fields["version"], int(number[1]) if number else 0


class ArchLists:
    """What lists say for one architecture, which is a name, an operating system and a processor."""

    def __init__(self, arch, sources, packages):
        self.arch, self.sources, self.built = arch, {}, {}
        for fields in sources:
            is_listed = (
                any(matches(arch, word) for word in fields["architecture"].split())
                and fields.get("extra-source-only") != "yes"
            )
            name, known = fields["package"], self.sources.get(fields["package"])
            if is_listed and (not known or order(fields["version"]) > order(known.version)):
                self.sources[name] = Listed(
                    fields["version"], fields.get("priority", ""), fields.get("section", ""), self.depends_of(fields)
                )
        self.available = [
            offer
            for fields in packages
            if fields["architecture"] in (arch[0], "all")
            for offer in [(fields["package"], fields["version"]), *provided(fields.get("provides", ""))]
        ]
        for fields in packages:
            name, version, number = source_of(fields)
            known = self.built.get(name)
            if fields["architecture"] == arch[0] and (
                not known or (order(version), number) > (order(known[0]), known[1])
            ):
                self.built[name] = (version, number)

    def depends_of(self, fields):
        """What the source package needs to be built, as it is kept."""
        texts = [printed(reduced(fields.get(name, ""), self.arch)) for name in ("build-depends", "build-depends-arch")]
        return ", ".join(text for text in texts if text)

    def meets(self, waits):
        return are_met(reduced(waits, self.arch), self.available)


# ---- the office


class LineOffice(Office):
    """An office that answers lines; lists and reports are files of a folder, or of a table of texts by their names."""

    def __init__(self, files):
        super().__init__([])
        self.files, self.archs, self.builders, self.accepted = files, {}, {}, 0

    def twin(self):
        """An office that is as this one."""
        other = copy.copy(self)
        other.records = {key: copy.copy(record) for key, record in self.records.items()}
        other.archs, other.builders = dict(self.archs), {name: set(archs) for name, archs in self.builders.items()}
        return other

    def text(self, name):
        return self.files[name] if isinstance(self.files, dict) else (Path(self.files) / name).read_bytes().decode()

    def answer(self, line):
        """The object that is answered to a line."""
        name, *words = re.findall("[^ \t]+", line)
        try:
            return getattr(self, f"line_{name.replace('-', '_')}", lambda *words: self.ask(name, words))(*words)
        except Refused as why:
            return {"code": ALL_CODES[why.name], "refused": why.name, **why.more}

    def answers(self, lines):
        return [self.answer(line) for line in lines]

    def looked_up(self, line):
        """The object that is answered to a query."""
        name, *words = line.split()
        return self.query(QUERIES[name], words, None)[1]

    def count(self, lines):
        """How many commands are accepted after these lines."""
        self.answers(lines)
        return self.accepted

    def ask(self, name, words):
        """What is answered to a command that HTTP has too."""
        words, body = [word for word in words if word != "--"], {"after": None} if name == "next" else {}
        if name == "next" and "--after" in words:
            at = words.index("--after")
            body["after"], words = int(words[at + 1]), words[:at] + words[at + 2 :]
        keys = ARGUMENTS[name].split()
        for at, key in enumerate(keys):
            word = " ".join(words[at:]) if key.endswith("..") else words[at]
            key = key.removesuffix("..")
            body[key] = int(word) if key in NUMBERS else word
        if len(words) > len(keys) and not keys[-1].endswith(".."):
            raise ValueError(f"a word too many: {words}")
        self.said = None
        return self.carry_out(name, body)

    def relations_of(self, text, arch):
        """What is printed of the relations for this architecture; nothing if there is none."""
        return printed(reduced(text, self.archs.get(arch, ("", "", ""))))

    def check_waits(self, text, waits):
        check(waits, "BadRelations", fault="Nothing")

    def command(self, name, body, said):
        """The status and the object that are answered to a command over HTTP."""
        if name != "merge":
            return super().command(name, body, said)
        try:
            parts = (f"{part['arch']}={part['packages']}" for part in body["parts"])
            answer = self.line_merge(body["sources"], *parts)
        except Refused as why:
            answer = {"code": ALL_CODES[why.name], "refused": why.name, **why.more}
        return STATUSES.get(answer["refused"], 422) if "refused" in answer else 200, answer

    # -- the commands that are given otherwise over HTTP

    def line_report(self, arch, name):
        check(FORMS["arch"].match(arch), "BadName")
        lines = lines_of(self.text(name))
        check(arch in self.archs, "UnknownArch")
        return self.take_report(arch, lines)

    def line_merge(self, sources, *parts):
        parts = [part.partition("=")[::2] for part in parts]
        check(all(FORMS["arch"].match(arch) for arch, _ in parts), "BadName")
        check(len({arch for arch, _ in parts}) == len(parts), "RepeatedArch")
        paragraphs = paragraphs_of(self.text(sources))
        ends = []
        for arch, name in parts:
            try:
                ends.append(self.merge_lists(arch, paragraphs, name))
            except Refused as why:
                ends.append({"arch": arch, "code": ALL_CODES[why.name], "refused": why.name, **why.more})
        if all("refused" in end for end in ends):
            return {key: value for key, value in ends[0].items() if key != "arch"}
        return self.accept("merge", parts=ends)

    def merge_lists(self, arch, paragraphs, name):
        """The end of a part of a merge."""
        check(arch in self.archs, "UnknownArch")
        check_paragraphs("Sources", paragraphs)
        packages = paragraphs_of(self.text(name))
        check_paragraphs("Packages", packages)
        lists = ArchLists(self.archs[arch], paragraphs, packages)
        return self.merge_part(arch, lists.sources, lists.built, lists.meets)

    # -- rows

    def rows(self):
        """Each row of the tables: the name of its table and its values."""
        records = [
            row_of(record)
            for _, record in sorted(self.records.items(), key=lambda entry: [part.encode() for part in entry[0]])
        ]
        pairs = sorted((name, arch) for name, archs in self.builders.items() for arch in archs)
        rows = [("office", 1, FORMAT, self.handed, self.accepted)]
        tables = [("arch", sorted(self.archs.values())), ("builder", pairs), ("source_record", records)]
        rows += [(table, *values) for table, entries in tables for values in entries]
        return [" ".join([table, *map(shown, values)]) for table, *values in rows]


def row_of(record):
    """The values of a record's row."""
    state, earlier = CODE_OF_STATE.index(record.state), int(record.earlier)
    values = [
        record.arch, record.source, state, record.version, record.priority, record.section, earlier, record.number,
        record.holder,
    ]
    values += [record.take, record.waits, record.depends, record.note, record.message, record.build_priority]
    return [*values, rank_of(record)]


def rank_of(record):
    """The number by which the tables order the queue."""
    below, is_new, priority, section, _ = record.place()
    return (
        (1000 + below) * 2 * (len(PRIORITIES) + 1) * (len(SECTIONS) + 1)
        + (is_new * (len(PRIORITIES) + 1) + priority) * (len(SECTIONS) + 1)
        + section
    )


def shown(value):
    """A value as the trials show it."""
    if value is None:
        return "null"
    return str(value) if isinstance(value, int) else json.dumps(value, ensure_ascii=False)
