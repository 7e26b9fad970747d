"""Request lines as they are read, for tools/bin/wb-requests. Each asks for something of source packages on
architectures, as the lines of Debian's release team do:

    nmu 2 foo_1-1 bar_2-3 . ANY -i386 . unstable . -m "Rebuild against libfoo2"
"""
import re
import shlex
from collections.abc import Callable, Iterable, Iterator, Sequence
from dataclasses import dataclass

from wb_tools.lists import compressor_of, is_arch_name, is_package_name, is_version
from wb_tools.requests.relations import are_relations
from wb_tools.suites import NAME as SUITE

TEXT_LIMIT = 1000  # bytes of a message or a note
LINE_LIMIT = 65536  # bytes
# A word of a line, with quotes and backslashes as in a shell; or a comment.
WORD = re.compile(r"""[ \t]*(?:(#.*)|((?:[^ \t"'\\]|\\.|"(?:[^"\\]|\\.)*"|'[^']*')+))""")
FORM = "WORD PACKAGE.. . ARCH.. . SUITE . -m TEXT"


@dataclass(frozen=True)
class Kind:
    """What a word asks for: the command of the office, what stands after -m, which may have to be there, and the range
    of a number before the packages, which may have to be there."""

    command: str
    text: str = ""
    has_text: bool = False
    numbers: range = range(0)
    has_number: bool = False


KINDS = {
    "nmu": Kind("rebuild", "message", has_text=True, numbers=range(1, 1000)),
    "gb": Kind("give-back"),
    "dw": Kind("dep-wait", "relations", has_text=True),
    "bp": Kind("build-priority", numbers=range(-1000, 1001), has_number=True),
    "fail": Kind("fail", "note", has_text=True),
    "nfu": Kind("not-for-us", "note"),
}


class Malformed(Exception):
    """What is wrong with a line."""


@dataclass(frozen=True)
class Package:
    """A source package, and the version that the line names; empty if it names none."""

    source: str
    version: str

    def __str__(self) -> str:
        return f"{self.source}_{self.version}" if self.version else self.source


@dataclass(frozen=True)
class Request:
    """What a line asks for. Of each architecture it says whether the line has its name; if not, ANY or ALL stands for
    it."""

    line: int
    word: str
    packages: tuple[Package, ...]
    archs: dict[str, bool]
    suite: str = ""
    text: str = ""
    number: int | None = None
    ends_holds: bool = False

    @property
    def kind(self) -> Kind:
        return KINDS[self.word]


@dataclass(frozen=True)
class Archs:
    """The architectures of the offices, for which ALL stands; ANY stands for all of them but that of builds of `all`,
    which is meant by `all`. If none is named, the office of a suite is asked, if it can be."""

    names: tuple[str, ...]
    of_all: str
    ask: Callable[[str], Sequence[str]] = lambda suite: ()

    def meant_by(self, words: Sequence[str], suite: str = "") -> dict[str, bool]:
        """The architectures that the words of a line mean, each with whether the line has its name."""
        found: dict[str, bool] = {}
        for word in words:
            if word in ("ANY", "ALL"):
                names = self.names or self.ask(suite)
                if not names:
                    raise Malformed(f"{word} stands for the architectures of the office: name each by --arch")
                some = (name for name in names if word == "ALL" or name != self.of_all)
                found = {**dict.fromkeys(some, False), **found}
            elif not word.startswith("-"):
                found[self.named(word)] = True
        for word in (word for word in words if word.startswith("-")):
            if found.pop(self.named(word[1:]), None) is None:
                raise Malformed(f"{word} leaves out an architecture that the line does not mean")
        if not found:
            raise Malformed("no architecture is left")
        return found

    def named(self, word: str) -> str:
        if word == "all":
            return self.of_all
        if not is_arch_name(word):
            raise Malformed(f"{word!r} is no architecture, no ANY and no ALL")
        return word


# ---- words


def words_of(line: str) -> list[str]:
    """The words of a line. One that begins with # begins a comment."""
    words, at, line = [], 0, line.rstrip(" \t")
    while at < len(line):
        found = WORD.match(line, at)
        if not found:
            raise Malformed("a quote is not closed, or the line ends with a backslash")
        if found[1]:
            break
        words += shlex.split(found[2])
        at = found.end()
    return words


@dataclass
class Parts:
    """The words of a line between its dots, and its options."""

    words: list[list[str]]
    options: dict[str, str]
    ends_holds: bool = False


def parts_of(words: Sequence[str]) -> Parts:
    parts, rest = Parts([[]], {}), list(words)
    while rest:
        word = rest.pop(0)
        if word == ".":
            parts.words.append([])
        elif word in ("-m", "-d"):
            if word in parts.options or not rest:
                raise Malformed(f"{word} stands there twice" if rest else f"nothing stands after {word}")
            parts.options[word] = rest.pop(0)
        elif word == "-o":
            parts.ends_holds = True
        elif word.startswith("--"):
            more = ": the office has no such thing; say dw in a line after it" if "--extra" in word else ""
            raise Malformed(f"{word} is no option of a line, which are -m TEXT, -d SUITE and -o{more}")
        else:
            parts.words[-1].append(word)
    while parts.words and not parts.words[-1]:
        parts.words.pop()
    return parts


# ---- a line


def number_before(kind: Kind, word: str, words: list[str]) -> int | None:
    """Takes the number off the words before the first dot, if one stands there."""
    if kind.numbers and words and re.fullmatch("-?[0-9]{1,9}", words[0]):
        number = int(words.pop(0))
        if number not in kind.numbers:
            raise Malformed(f"{number} is not from {kind.numbers[0]} to {kind.numbers[-1]}")
        return number
    if kind.has_number:
        raise Malformed(f"a number from {kind.numbers[0]} to {kind.numbers[-1]} has to stand after {word}")
    return None


def package_of(word: str) -> Package:
    source, underscore, version = word.partition("_")
    if not is_package_name(source) or (underscore and not is_version(version)):
        raise Malformed(f"{word!r} is no package, as hello or hello_1.0-1")
    return Package(source, version)


def text_after(kind: Kind, word: str, options: dict[str, str]) -> str:
    """The text of -m, which has to be one that the office takes."""
    text = " ".join(options.get("-m", "").split())
    if "-m" in options and not kind.text:
        raise Malformed(f"{word} has no -m")
    if kind.has_text and not text:
        raise Malformed(f"the {kind.text} of {word} is missing, after -m")
    if kind.text == "relations" and not are_relations(text):
        raise Malformed(f"{text!r} are no relations, as 'libfoo-dev (>= 2), bar | baz' (Debian Policy 7.1)")
    if kind.text != "relations" and len(text.encode()) > TEXT_LIMIT:
        raise Malformed(f"the {kind.text} has more than {TEXT_LIMIT} bytes")
    return text


def suite_of(words: Sequence[Sequence[str]], options: dict[str, str]) -> str:
    """The suite that stands after the architectures, or after -d; empty if none does."""
    found = {*(words[2] if len(words) > 2 else ()), *(options[name] for name in ("-d",) if name in options)}
    if len(words) > 3 or len(found) > 1:
        raise Malformed(f"after the architectures there is more than one suite: a line is {FORM}")
    suite = found.pop() if found else ""
    if suite and not SUITE.fullmatch(suite):
        raise Malformed(f"{suite!r} is no suite")
    return suite


def request_of(number: int, line: str, archs: Archs) -> Request | None:
    """What a line asks for; nothing if it is blank, or a comment."""
    if len(line.encode()) > LINE_LIMIT or not line.expandtabs(1).isprintable():
        raise Malformed(f"it has more than {LINE_LIMIT} bytes, or a character that is not printed")
    words = words_of(line)
    if not words:
        return None
    word, kind = words[0], KINDS.get(words[0])
    if kind is None:
        raise Malformed(f"{word!r} is no request, which are {', '.join(KINDS)}")
    parts = parts_of(words[1:])
    if len(parts.words) < 2 or not all(parts.words):
        raise Malformed(f"the packages or the architectures are missing: a line is {FORM}")
    value = number_before(kind, word, parts.words[0])
    packages = tuple(dict.fromkeys(map(package_of, parts.words[0])))
    if not packages:
        raise Malformed(f"the packages are missing: a line is {FORM}")
    suite = suite_of(parts.words, parts.options)
    return Request(
        number, word, packages, archs.meant_by(parts.words[1], suite), suite,
        text_after(kind, word, parts.options), value, parts.ends_holds,
    )


def read_requests(lines: Iterable[bytes], archs: Archs) -> Iterator[Request | tuple[int, Malformed]]:
    """What each line asks for, or its number and what is wrong with it."""
    for number, line in enumerate(lines, 1):
        try:
            request = request_of(number, line.decode().rstrip("\r\n"), archs)
        except UnicodeDecodeError:
            program = compressor_of(line) if number == 1 else ""
            yield number, Malformed(f"it is compressed by {program}; uncompress it" if program else "it is not UTF-8")
            if program:
                return
        except Malformed as why:
            yield number, why
        else:
            if request is not None:
                yield request
