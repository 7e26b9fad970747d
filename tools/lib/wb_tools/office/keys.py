"""The file of keys of an office, for tools/bin/office: which line has which rights (docs/operations/KEYS.md). It has
the hash of each key, and no key.

The file is replaced as a whole, so that the serving office finds the one before or the one after, and takes over the
new one by itself. Comments and the order of the lines stay. A lock beside it lets one call at a time change it.
"""
from __future__ import annotations

import contextlib
import errno
import fcntl
import hashlib
import os
import re
import secrets
import stat
import sys
import time
from collections.abc import Callable, Iterator, Sequence
from dataclasses import dataclass
from pathlib import Path

from wb_tools.keys import BadKey, KeyFile
from wb_tools.lists import is_arch_name
from wb_tools.office.files import beside, sync_folder
from wb_tools.office.settings import WRONG_WORDS, Refusal, tell

MOST_LINES, MOST_BYTES = 1000, 1 << 20  # of a file of keys; its lines with a key alone are counted
ANYONE = "*"  # in the place of a name: a request that shows no key
NAME = re.compile(r"[A-Za-z0-9][A-Za-z0-9._-]{0,63}")  # that of a builder has the same form
HASH = re.compile("[0-9a-f]{64}")
SHOWN = 8  # digits of a hash that are shown
RANDOM = 32  # bytes of which a key is made
WAIT = 10  # seconds for another call that changes the file
ASK_AGAIN = 0.05
RIGHTS = "read, build=BUILDER, port=ARCH or operate"


@dataclass(frozen=True)
class Line:
    """A line with rights: of a key, by its hash, or of a request without one."""

    name: str
    rights: tuple[str, ...]
    hash: str = ""

    def __str__(self) -> str:
        return " ".join([self.name, *self.rights, *([self.hash] if self.hash else [])])


def fault_of(right: str) -> str:
    """What is wrong with the word of a right; empty if nothing is."""
    kind, equals, name = right.partition("=")
    if right in ("read", "operate"):
        return ""
    if not equals or kind not in ("build", "port"):
        return f"{right[:100]!r} is no right, which is {RIGHTS}"
    if kind == "build" and not NAME.fullmatch(name):
        return f"{right[:100]!r} has no name of a builder: 1 to 64 of A-Z a-z 0-9 . _ -, first a letter or a digit"
    if kind == "port" and not is_arch_name(name):
        return f"{right[:100]!r} has no name of an architecture"
    return ""


def line_of(name: str, rights: Sequence[str], digest: str) -> Line:
    """A line of this name; a ValueError says why it cannot be one."""
    if name != ANYONE and not NAME.fullmatch(name):
        raise ValueError(f"{name[:100]!r} is no name: 1 to 64 of A-Z a-z 0-9 . _ -, first a letter or a digit; or *")
    if not rights:
        raise ValueError(f"{name} has no right, which is {RIGHTS}")
    why = next(filter(None, map(fault_of, rights)), "")
    if why:
        raise ValueError(why)
    return Line(name, tuple(dict.fromkeys(rights)), digest)


def read_line(text: str) -> Line | None:
    """What a line says, if it says something; a ValueError says what is wrong with it."""
    words = [] if text.startswith("#") else [word for word in re.split("[ \t]+", text) if word]
    if not words:
        return None
    if words[0] == ANYONE:
        if HASH.fullmatch(words[-1]):
            raise ValueError("the line * has a hash: it is for requests without a key")
        return line_of(ANYONE, words[1:], "")
    if not HASH.fullmatch(words[-1]):
        raise ValueError("it does not end with a hash of 64 lower-case hexadecimal digits")
    return line_of(words[0], words[1:-1], words[-1])


def check(lines: Sequence[Line]) -> None:
    """A ValueError says why these lines cannot stand in one file, the last of them for what is before it."""
    last, before = lines[-1], lines[:-1]
    if last.name == ANYONE:
        if any(line.name == ANYONE for line in before):
            raise ValueError("there is an earlier line *")
        return
    if sum(line.name != ANYONE for line in lines) > MOST_LINES:
        raise ValueError(f"there are more than {MOST_LINES} lines with a key")
    if any(line.name == last.name for line in before):
        raise ValueError(f"the name {last.name} stands on an earlier line")
    if any(line.hash == last.hash for line in before):
        raise ValueError("the hash stands on an earlier line")


def hash_of(key: str) -> str:
    return hashlib.sha256(key.encode()).hexdigest()


def new_key() -> str:
    """A key that nobody can guess."""
    return secrets.token_urlsafe(RANDOM)


def print_key(key: str) -> None:
    """Writes a key to standard output. An OSError says that nobody reads it."""
    if sys.stdout is None:  # the caller has closed it, and its number may be that of another file
        raise OSError(errno.EBADF, "standard output is closed")
    sys.stdout.flush()
    left = f"{key}\n".encode()
    while left:
        left = left[os.write(sys.stdout.fileno(), left) :]


@dataclass
class KeyLines:
    """The lines of a file of keys as they stand there, and what each says, if it says something."""

    texts: list[str]
    said: list[Line | None]

    @property
    def lines(self) -> list[Line]:
        return [line for line in self.said if line]

    def find(self, name: str) -> int | None:
        """Where the line of a name stands."""
        return next((at for at, line in enumerate(self.said) if line and line.name == name), None)

    def put(self, line: Line) -> None:
        """Has a line in the place of that of its name, or after all others. A ValueError says why it cannot stand
        there."""
        at = self.find(line.name)
        if at is None:
            check([*self.lines, line])
            self.texts.append(str(line))
            self.said.append(line)
        else:
            self.texts[at], self.said[at] = str(line), line

    def drop(self, at: int) -> None:
        del self.texts[at], self.said[at]

    def data(self) -> bytes:
        return "".join(f"{text}\n" for text in self.texts).encode()


def parse(data: bytes) -> KeyLines:
    """The lines of a file; a ValueError says which of them is malformed."""
    if len(data) > MOST_BYTES:
        raise ValueError(f"it has more than {MOST_BYTES} bytes")
    found = KeyLines([], [])
    for number, raw in enumerate(data.removesuffix(b"\n").split(b"\n") if data else [], 1):
        try:
            text = raw.decode()
            line = read_line(text)
            if line:
                check([*found.lines, line])
        except UnicodeDecodeError:
            raise ValueError(f"line {number}: it is not UTF-8") from None
        except ValueError as why:
            raise ValueError(f"line {number}: {why}") from None
        found.texts.append(text)
        found.said.append(line)
    return found


def read_keys(path: Path) -> KeyLines:
    """The lines of a file of keys. Refused is one that the program would not serve with."""
    try:
        with open(path, "rb", opener=lambda name, flags: os.open(name, flags | os.O_NONBLOCK)) as file:
            mode = os.fstat(file.fileno()).st_mode
            if not stat.S_ISREG(mode):
                raise ValueError("it is no regular file")
            if mode & 0o066:
                mode = stat.S_IMODE(mode)
                raise ValueError(f"its group or others may read or write it (mode {mode:04o}): give it the mode 0600")
            return parse(file.read(MOST_BYTES + 1))
    except FileNotFoundError:
        raise Refusal(f"the keys in {path} are not read: there is no such file; office key add makes one") from None
    except OSError as error:
        raise Refusal(f"the keys in {path} are not read: {error.strerror}") from None
    except ValueError as why:
        raise Refusal(f"the keys in {path} are not read: {why}") from None


def write_private(path: Path, data: bytes) -> None:
    """Puts a file that its owner alone can open in the place of what is there, once the disk has it."""
    with made_beside(path, data) as made:
        replace(made, path)


@contextlib.contextmanager
def made_beside(path: Path, data: bytes) -> Iterator[Path]:
    """A file beside another with these bytes, on the disk, that its owner alone can open; it is gone afterwards, unless
    it was put in place."""
    made = path.with_name(f".{path.name}.new")  # one that a call left which was broken off is replaced
    with contextlib.suppress(FileNotFoundError):
        made.unlink()
    try:
        with open(made, "xb", opener=lambda name, flags: os.open(name, flags | os.O_NOFOLLOW, 0o600)) as file:
            file.write(data)
            file.flush()
            os.fsync(file.fileno())
        yield made
    finally:
        made.unlink(missing_ok=True)


def replace(made: Path, path: Path) -> None:
    os.rename(made, path)
    sync_folder(path.parent)


@contextlib.contextmanager
def locked(path: Path) -> Iterator[None]:
    """Lets no other call change the file meanwhile."""
    end = time.monotonic() + WAIT
    name = beside(path, ".lock")
    with open(name, "ab", opener=lambda name, flags: os.open(name, flags | os.O_NOFOLLOW, 0o600)) as lock:
        while True:
            try:
                fcntl.flock(lock, fcntl.LOCK_EX | fcntl.LOCK_NB)
                break
            except BlockingIOError:
                if time.monotonic() > end:
                    raise Refusal(f"another call has changed {path} for {WAIT} s") from None
            time.sleep(ASK_AGAIN)
        yield


@dataclass(frozen=True)
class Desk:
    """What changes the file of keys that the settings name: each step is said before it is taken."""

    path: Path
    step: Callable[[str], bool]

    def add(self, name: str, rights: Sequence[str]) -> None:
        """Makes a key, whose line has these rights, and prints it; the line of requests without a key has none, and is
        changed if it is there."""
        line = checked(name, rights)
        with self.changed() as keys:
            if line.name != ANYONE:
                if keys.find(name) is not None:
                    raise Refusal(f"{name} stands in {self.path} already: office key remove {name} takes its key away")
                self.add_key(keys, line)
                return
            was = keys.find(ANYONE)
            self.put(keys, line)
            if self.step(f"{'change' if was is not None else 'add'} the line of {self.path}: {line}"):
                write_private(self.path, keys.data())

    def add_key(self, keys: KeyLines, line: Line) -> None:
        key = new_key()
        self.put(keys, Line(line.name, line.rights, hash_of(key)))
        said = f"make a key for {line.name} ({' '.join(line.rights)}), whose hash comes into {self.path}"
        if not self.step(f"{said}; it is printed this once"):
            return
        with made_beside(self.path, keys.data()) as made:
            print_key(key)  # if it cannot be printed, the file stays as it is
            replace(made, self.path)
        if len(keys.lines) == 1:
            tell("there is no line *, so who shows no key may ask nothing: office key add '*' read lets them read")

    def change(self, name: str, rights: Sequence[str]) -> None:
        """Gives the key of a line other rights."""
        line = checked(name, rights)
        with self.changed() as keys:
            was = keys.said[self.place_of(keys, name)]
            assert was
            self.put(keys, Line(name, line.rights, was.hash))
            if self.step(f"change the rights of {name} in {self.path}: {' '.join(line.rights)}"):
                write_private(self.path, keys.data())
            mind_operators(keys)

    def remove(self, name: str) -> None:
        with self.changed() as keys:
            keys.drop(self.place_of(keys, name))
            what = "what requests without a key may do" if name == ANYONE else f"the key of {name}"
            if self.step(f"take {what} out of {self.path}"):
                write_private(self.path, keys.data())
            mind_operators(keys)

    def place_of(self, keys: KeyLines, name: str) -> int:
        at = keys.find(name)
        if at is None:
            raise Refusal(f"{name} does not stand in {self.path}: office key list shows who does")
        return at

    def put(self, keys: KeyLines, line: Line) -> None:
        try:
            keys.put(line)
            if len(keys.data()) > MOST_BYTES:
                raise ValueError(f"it would have more than {MOST_BYTES} bytes")
        except ValueError as why:
            raise Refusal(f"{self.path}: {why}") from None

    @contextlib.contextmanager
    def changed(self) -> Iterator[KeyLines]:
        """The lines of the file, none if it is not there yet, which no other call changes meanwhile."""
        with locked(self.path):
            yield read_keys(self.path) if os.path.lexists(self.path) else KeyLines([], [])

    def show(self) -> None:
        """Prints who has which rights, and the front of each hash."""
        rows = [("NAME", "HASH", "RIGHTS")]
        rows += [(line.name, line.hash[:SHOWN], " ".join(line.rights)) for line in read_keys(self.path).lines]
        widths = [max(len(row[at]) for row in rows) for at in (0, 1)]
        for name, digest, rights in rows:
            print(f"{name:{widths[0]}}  {digest:{widths[1]}}  {rights}")


def mind_operators(keys: KeyLines) -> None:
    if not any("operate" in line.rights for line in keys.lines):
        tell("no line has the right operate: while the office is served nobody may add or merge anything")


def checked(name: str, rights: Sequence[str]) -> Line:
    """The line of a name without its hash; words that are malformed are refused."""
    try:
        return line_of(name, rights, "")
    except ValueError as why:
        raise Refusal(str(why), WRONG_WORDS) from None


# ---- the keys of an office that is made


def first_keys(operator: str) -> bytes:
    """The file of keys of a new office: its operator may do everything, and everybody else of the machine read."""
    return (
        "# Who may ask this office for what: NAME RIGHT.. HASH, kept by office key add, change and remove.\n"
        f"{Line('operator', ('operate',), hash_of(operator))}\n"
        f"{Line(ANYONE, ('read',))}\n"
    ).encode()


def key_in(file: Path) -> str:
    """The key in a file that is there; a new one, which is put there, if there is no file."""
    if not os.path.lexists(file):
        key = new_key()
        write_private(file, f"{key}\n".encode())
        return key
    try:
        return KeyFile(file).read()
    except BadKey as error:
        raise Refusal(f"{file}: {error.strerror}; or move it away") from None
