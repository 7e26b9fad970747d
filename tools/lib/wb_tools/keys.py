"""The key that a command shows to a serving office (docs/HTTP.md, "Keys"). It stands in a file that nobody but its
owner can open: so no other user of the machine sees it, and it is in no argument and in no environment. The office has
only its hash, in a file that tools/bin/office keeps (office/keys.py)."""
from __future__ import annotations

import argparse
import errno
import os
import pwd
import re
import stat
from collections.abc import Mapping
from dataclasses import dataclass, field
from pathlib import Path

LEAST, MOST = 20, 200  # bytes of a key
FORM = re.compile(r"[A-Za-z0-9._~+/-]+=*")  # RFC 6750, section 2.1
NOT_ADMITTED = ("NoKey", "NotAllowed")  # faults of a request whose key is missing or lacks a right
BUILDERS = ("next", "take", "built", "uploaded", "waits", "attempted", "put-back")
PORTERS = ("give-back", "dep-wait", "fail", "not-for-us", "rebuild", "build-priority", "report")


class BadKey(OSError):
    """Why no key can be shown: `filename` is the file, and `strerror` has none of its bytes."""


def home() -> Path:
    """The folder of the user who calls; buildd empties the environment, HOME too."""
    return Path(pwd.getpwuid(os.geteuid()).pw_dir)


def is_key(text: str) -> bool:
    return LEAST <= len(text) <= MOST and FORM.fullmatch(text) is not None


@dataclass(frozen=True)
class KeyFile:
    """The file whose first line is the key that is shown; without one no key is. `named_by` is what names it, in a
    message; one that need not be there may be missing."""

    path: Path | None = None
    named_by: str = "--key-file"
    may_be_missing: bool = False

    def read(self) -> str:
        """The key, as the file has it now; empty if none is shown."""
        if self.path is None:
            return ""
        try:
            with open(self.path, "rb", opener=lambda name, flags: os.open(name, flags | os.O_NONBLOCK)) as file:
                mode = os.fstat(file.fileno()).st_mode
                if not stat.S_ISREG(mode):
                    raise self.fault(errno.EINVAL, "it is no regular file")
                if mode & 0o077:
                    said = f"its group or others may open it (mode {stat.S_IMODE(mode):04o}); give it the mode 0600"
                    raise self.fault(errno.EACCES, said)
                line = file.read(MOST + 2).split(b"\n")[0].strip()
        except FileNotFoundError as error:
            if self.may_be_missing:
                return ""
            raise self.fault(errno.ENOENT, error.strerror or "it is not there") from None
        except BadKey:
            raise
        except OSError as error:
            raise self.fault(error.errno or errno.EIO, error.strerror or "it cannot be read") from None
        key = line.decode(errors="replace")
        if not is_key(key):
            raise self.fault(errno.EINVAL, f"its first line is no key, which has {LEAST} to {MOST} bytes")
        return key

    def fault(self, number: int, why: str) -> BadKey:
        return BadKey(number, f"the key cannot be shown: {why}", str(self.path))

    def fields(self) -> dict[str, str]:
        """The field of a request that shows the key."""
        key = self.read()
        return {"Authorization": f"Bearer {key}"} if key else {}

    def lines(self) -> str:
        """The same as a line of a head."""
        return "".join(f"{name}: {value}\r\n" for name, value in self.fields().items())

    def missing(self, fault: str, right: str) -> str:
        """What is missing if a request is answered NoKey or NotAllowed: a key, or this right."""
        if self.path is None or (self.may_be_missing and not self.path.exists()):
            file = "no file of one is named" if self.path is None else f"there is no {self.path}"
            wanted = "it wants a key" if fault == "NoKey" else f"without a key nobody has the right {right}"
            return f"{wanted}, and {file} ({self.named_by})"
        if fault == "NoKey":
            return f"the key in {self.path} is on no line of its keys"
        return f"the key in {self.path} lacks the right {right}"


NONE = KeyFile()


def right_for(path: str, body: Mapping[str, object] | None = None) -> str:
    """The least right with which a request is answered, in words of a file of keys."""
    said, word = body or {}, path.removeprefix("/v1/")
    if word in BUILDERS:
        return f"build={said.get('builder', 'BUILDER')}"
    if word in PORTERS:
        return f"port={said.get('arch', 'ARCH')}"
    return "read" if "/" in word or word in ("office", "archs", "builders") else "operate"


# ---- the words of a call


@dataclass(frozen=True)
class Keys:
    """The files of keys for offices, by their suites; that without a suite is for all others."""

    files: Mapping[str, KeyFile] = field(default_factory=dict)

    def of(self, suite: str) -> KeyFile:
        return self.files.get(suite) or self.files.get("") or NONE


def parted(word: str) -> tuple[str, str]:
    """The suite, empty if none is named, and the file of a word SUITE=FILE or FILE."""
    suite, equals, file = word.partition("=")
    return (suite, file) if equals and suite and "/" not in suite else ("", word)


def keys_of(words: str, named_by: str) -> Keys:
    """The files of keys that a setting names: one for all suites, or a word SUITE=FILE for each. A ValueError says that
    it does not."""
    found: dict[str, KeyFile] = {}
    for word in words.split():
        suite, file = parted(word)
        if not file.startswith(("/", "~/")) or suite in found:
            raise ValueError("has to be a path that begins with / or ~/, or words SUITE=PATH, a suite once")
        found[suite] = KeyFile(home() / file[2:] if file.startswith("~/") else Path(file), named_by)
    return Keys(found)


class AddKeyFile(argparse.Action):
    """For argparse: FILE or SUITE=FILE, each suite once."""

    def __call__(
        self, parser: argparse.ArgumentParser, words: argparse.Namespace, value: object, option: str | None = None
    ) -> None:
        suite, file = parted(str(value))
        before: Keys = getattr(words, self.dest)
        given = {name: one for name, one in before.files.items() if one.named_by == "--key-file"}
        if suite in given or not file:
            parser.error(f"{option} {value}: it is no FILE or SUITE=FILE, or stands there twice")
        setattr(words, self.dest, Keys(given | {suite: KeyFile(Path(file).expanduser())}))


def add_key_option(parser: argparse.ArgumentParser) -> None:
    """The option of commands that ask a serving office by its address; WB_KEY_FILE of the environment stands for it."""
    named = os.environ.get("WB_KEY_FILE")
    parser.add_argument(
        "--key-file", metavar="FILE", dest="keys", action=AddKeyFile,
        default=Keys({"": KeyFile(Path(named).expanduser(), "WB_KEY_FILE")} if named else {}),
        help="show the office the key in this file (WB_KEY_FILE); of several offices each after its suite, SUITE=FILE",
    )
