"""Pages of the manual for tools/dev/make-deb, of the commands on lists and of requests: made of what their --help says,
so that both say the same."""
import re
from collections.abc import Iterator

# What each command does, as its page names it.
NAMES = {
    "merge-archive": "bring a wanna-build office up to its archive",
    "fetch-lists": "fetch the lists of an archive by apt",
    "prepare-lists": "prepare lists of an archive for a merge",
    "report-from-dose": "ask dose which source packages can be built",
    "rebuild-from-ben": "make lines for the rebuilds of a transition",
    "wb-requests": "send the request lines of a release team to a wanna-build office",
}
END = """\
.SH AUTHORS
The Gevvarin maintainers <maintainers@users.noreply.gevvarin.example>.
.SH COPYRIGHT
Apache License, version 2.0.
.SH SEE ALSO
.BR wb (1),
.BR wb\\-office (8)
"""


def escaped(text: str) -> str:
    """A line of text, as roff takes it for itself."""
    text = text.replace("tools/bin/office", "wb-office").replace("tools/bin/", "")
    text = text.replace("\\", "\\e").replace("-", "\\-").replace("'", "\\(aq")
    return f"\\&{text}" if text.startswith(".") else text


def paragraphs(text: str) -> Iterator[str]:
    """Paragraphs; a line that begins with a hyphen is an item of a list, and an indented paragraph is shown as it
    stands."""
    for number, part in enumerate(re.split(r"\n\s*\n", text.strip("\n"))):
        if number:
            yield ".PP"
        lines = part.splitlines()
        if all(line.startswith("  ") for line in lines):
            yield from (".EX", *(escaped(line.strip()) for line in lines), ".EE")
            continue
        for line in lines:
            if line.startswith("- "):
                yield ".IP \\(bu 2"
            yield escaped(line.removeprefix("- ").strip())


def options(text: str) -> Iterator[str]:
    """Each argument of a help, with what is said of it."""
    for line in text.splitlines():
        found = re.fullmatch(r"  (\S.*?)(?:  +(\S.*))?", line)
        if found:
            yield ".TP"
            yield f".B {escaped(found[1])}"
        said = (found[2] or "") if found else line.strip()
        if said and not line.endswith(":"):
            yield escaped(said)


def page(name: str, said: str, version: str) -> str:
    """The page of a command, of what its --help says."""
    usage, _, rest = said.removeprefix("usage: ").partition("\n\n")
    about = re.split(r"^(?=positional arguments:|options:|example:)", rest, maxsplit=1, flags=re.M)[0]
    arguments, _, rest = rest[len(about) :].partition("\nexample:\n")
    examples, _, statuses = rest.partition("\nStatus: ")
    lines = [f'.TH {escaped(name.upper())} 1 "" "{version}" "User Commands"', ".SH NAME"]
    lines += [f"{escaped(name)} \\- {NAMES[name]}", ".SH SYNOPSIS", escaped(" ".join(usage.split()))]
    lines += [".SH DESCRIPTION", *paragraphs(about), ".SH OPTIONS", *options(arguments)]
    lines += [".SH EXIT STATUS", *paragraphs(statuses)]
    lines += [".SH EXAMPLES", ".EX", *(escaped(line.strip()) for line in examples.splitlines() if line.strip()), ".EE"]
    return "\n".join(lines) + "\n" + END
