"""A second reading of what keys let through (docs/HTTP.md, "Keys", and docs/operations/KEYS.md), for
tools/tests/test_keys.py and the stand-ins of other tests: what a file of keys says, what a request shows of a key, and
whether it is refused for that. It shares nothing with the program, nor with tools/lib."""
import hashlib
import re

NAME = re.compile(rb"[A-Za-z0-9][A-Za-z0-9._-]{0,63}")
ARCH = re.compile(rb"(?!(?:all|any|source)\Z)[a-z0-9][a-z0-9-]{0,39}")
HASH = re.compile(rb"[0-9a-f]{64}")
KEY = re.compile(rb"(?=.{20,200}\Z)[A-Za-z0-9._~+/-]+=*\Z", re.DOTALL)
MOST = 1000

# What each request is for, as far as its path says; a command that is not named here is the operator's.
BUILDERS = ("next", "take", "built", "uploaded", "waits", "attempted", "put-back")
PORTERS = ("give-back", "dep-wait", "fail", "not-for-us", "rebuild", "build-priority", "report")
BY_TAKE = ("built", "uploaded", "waits", "attempted", "put-back")
QUERIES = ("queue", "state", "item", "mine", "depends", "summary", "office", "archs", "builders")

BAD_NAME = "the name is malformed: 1 to 64 of A-Z a-z 0-9 . _ -, first a letter or a digit"
BAD_HASH = "the line does not end with a hash of 64 lower-case hexadecimal digits"
NO_RIGHT = "the line has no right: a right is read, build=BUILDER, port=ARCH or operate"
UNKNOWN = "a right is unknown: it is read, build=BUILDER, port=ARCH or operate"


class Malformed(Exception):
    """Why a file of keys is not read, as the program says it."""


class Keys:
    """What a file of keys says: the name and the rights of each hash, and the rights of who shows no key, if any."""

    def __init__(self, data):
        self.by_hash, self.anyone = {}, None
        for number, line in enumerate(data.split(b"\n"), 1):
            try:
                self.read(line)
            except Malformed as why:
                raise Malformed(f"line {number}: {why}") from None

    def read(self, line):
        if not is_utf8(line):
            raise Malformed("the line is not UTF-8")
        words = [] if line.startswith(b"#") else [word for word in re.split(b"[ \t]+", line) if word]
        if not words:
            return
        name, *rest = words
        if name == b"*":
            self.read_anyone(rest)
            return
        if not NAME.fullmatch(name):
            raise Malformed(BAD_NAME)
        if not rest or not HASH.fullmatch(rest[-1]):
            raise Malformed(BAD_HASH)
        rights = rights_in(rest[:-1])
        if len(self.by_hash) >= MOST:
            raise Malformed("there are more than 1000 lines with a key")
        if name.decode() in {known for known, _ in self.by_hash.values()}:
            raise Malformed("the name stands on an earlier line")
        if rest[-1] in self.by_hash:
            raise Malformed("the hash stands on an earlier line")
        self.by_hash[rest[-1]] = name.decode(), rights

    def read_anyone(self, words):
        if words and HASH.fullmatch(words[-1]):
            raise Malformed("the line '*' has a hash: it is for requests without a key")
        rights = rights_in(words)
        if self.anyone is not None:
            raise Malformed("there is an earlier line '*'")
        self.anyone = rights

    def rights(self, values):
        """The rights of a request with these values of the field Authorization; none if it is answered NoKey."""
        if not values:
            return self.anyone
        key = key_in(values)
        return self.by_hash.get(digest(key), (None, None))[1] if key else None

    def name(self, values):
        """Who a request is by, if it shows a key of a line."""
        key = key_in(values)
        return self.by_hash.get(digest(key), (None, None))[0] if key else None


def is_utf8(data):
    try:
        data.decode()
    except UnicodeDecodeError:
        return False
    return True


def rights_in(words):
    """The rights that words name, each as its kind and its name."""
    if not words:
        raise Malformed(NO_RIGHT)
    found = []
    for word in words:
        kind, equals, name = word.partition(b"=")
        if word in (b"read", b"operate"):
            found.append((word.decode(), ""))
            continue
        if not equals or kind not in (b"build", b"port"):
            raise Malformed(UNKNOWN)
        if kind == b"build" and not NAME.fullmatch(name):
            raise Malformed("the name of a builder in a right is malformed")
        if kind == b"port" and not ARCH.fullmatch(name):
            raise Malformed("the name of an architecture in a right is malformed")
        found.append((kind.decode(), name.decode()))
    return found


def digest(key):
    return hashlib.sha256(key).hexdigest().encode()


def key_in(values):
    """The key that the values of the field Authorization show; none if they are malformed, or several."""
    if len(values) != 1:
        return None
    found = re.fullmatch(rb"(?i:bearer) +(.*)", values[0], re.DOTALL)
    return found[1] if found and KEY.match(found[1]) else None


def may_by_path(rights, word):
    """Whether these rights may let a request through, as far as the first word of its path says."""
    kinds = {kind for kind, _ in rights}
    if word in QUERIES or "operate" in kinds:
        return True
    return ("build" in kinds and word in BUILDERS) or ("port" in kinds and word in PORTERS)


def may(rights, word, arguments, holder_of):
    """Whether these rights let a command through, with its arguments. A function says who holds a take number, none if
    nobody does."""
    for kind, name in rights:
        if kind == "operate" or (kind == "port" and word in PORTERS and arguments["arch"] == name):
            return True
        if kind == "build" and word in BY_TAKE and holder_of(arguments["take"]) in (None, name):
            return True
        if kind == "build" and word in ("next", "take") and arguments["builder"] == name:
            return True
    return False
