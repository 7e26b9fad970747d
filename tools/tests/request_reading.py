"""A second reading of docs/HTTP.md, for tools/tests/test_requests.py and tools/tests/test_merge_requests.py: of what a
request is or which fault it is, and of the bytes of an answer. It shares nothing with the program."""
import http.client
import io
import json
import math
import re
import urllib.parse

from harness import expect


# ---- the second reader of answers (docs/HTTP.md, "Answers")

PHRASES = {
    200: "OK", 400: "Bad Request", 404: "Not Found", 405: "Method Not Allowed", 409: "Conflict", 411: "Length Required",
}
PHRASES |= {
    403: "Forbidden", 413: "Payload Too Large", 422: "Unprocessable Entity", 431: "Request Header Fields Too Large",
    501: "Not Implemented",
}
PHRASES |= {503: "Service Unavailable"}


class Wire:
    """What http.client takes for a socket."""

    def __init__(self, data):
        self.data = data

    def makefile(self, _mode):
        return io.BytesIO(self.data)


def read_answer(answered):
    """The status and the object of an answer, each byte of which was tested; nothing, if there is none."""
    word, status, data = answered
    if word == "nothing":
        expect(status == 0 and data == b"", "an answer to nothing")
        return None
    expect(word == "answered", f"the exchange ended as {word}")
    head, _, body = data.partition(b"\r\n\r\n")
    lines = [
        f"HTTP/1.1 {status} {PHRASES.get(status)}", "Content-Type: application/json", f"Content-Length: {len(body)}",
        "Connection: close",
    ]
    expect(head.decode("ascii").split("\r\n") == lines, f"the head is {head}")
    other = http.client.HTTPResponse(Wire(data))
    other.begin()
    expect(
        (other.status, other.reason, other.version, other.will_close) == (status, PHRASES[status], 11, True),
        "http.client reads another head",
    )
    expect(
        other.read() == body and other.headers.keys() == ["Content-Type", "Content-Length", "Connection"],
        "http.client reads another answer",
    )
    found = json.loads(body.decode("utf-8"))
    text = json.dumps(found, ensure_ascii=False, separators=(",", ":"), sort_keys=True)
    expect(isinstance(found, dict) and text.encode() == body, f"the body is not written as the page says: {body}")
    return status, found


# ---- the second reading of requests (docs/HTTP.md, "Requests" and "Faults of a request"; RFC 9112, sections 2 to 6)

HEAD_LIMIT, FIELD_LIMIT, BODY_LIMIT, DEPTH_LIMIT = 8192, 32, 16777216, 127
SUBJECT = {"arch": str, "source": str, "version": str}
FORMS = {
    "add-arch": {"name": str, "os": str, "cpu": str}, "add-builder": {"name": str, "arch": str},
    "remove-arch": {"name": str}, "remove-builder": {"name": str, "arch": str}, "forget": SUBJECT,
    "enter": {**SUBJECT, "priority": str, "section": str}, "next": {"arch": str, "builder": str, "after": int},
    "take": {**SUBJECT, "builder": str}, "built": {"take": int},
    "uploaded": {"take": int}, "waits": {"take": int, "relations": str}, "attempted": {"take": int, "reason": str},
    "put-back": {"take": int}, "give-back": SUBJECT, "dep-wait": {**SUBJECT, "relations": str},
    "fail": {**SUBJECT, "note": str}, "not-for-us": {**SUBJECT, "note": str},
    "rebuild": {**SUBJECT, "number": int, "message": str}, "build-priority": {**SUBJECT, "value": int},
    "report": {"arch": str, "text": str},
}
QUERIES = {
    "item": 2, "mine": 1, "queue": 1, "state": 2, "depends": 2, "summary": 1, "office": 0, "archs": 0, "builders": 0,
}  # how many parts the path has after this word
FAULTS = {
    "HeadTooLarge": 431, "BadHead": 400, "NoRoute": 404, "WrongMethod": 405, "BadPath": 400, "NotSupported": 501,
    "NoLength": 411,
}
FAULTS |= {"FromBrowser": 403, "BadLength": 400, "BodyTooLarge": 413, "BodyCut": 400, "BadBody": 400}
NO_LIST = {"NoList": 404}  # of a program that is started with --lists alone
TOKEN = rb"[A-Za-z0-9!#$%&'*+.^_`|~-]"


class Fault(Exception):
    """A fault of a request, by its name."""


def test(holds, fault):
    if not holds:
        raise Fault(fault)


class Unfinished(Exception):
    """The bytes end inside a head."""


class Cursor:
    """The bytes of a head, from a place on."""

    def __init__(self, data):
        self.data, self.at = data, 0

    def some(self, pattern, ends):
        """The bytes of this form, which one of `ends` follows; the place moves behind that one."""
        found = re.compile(pattern, re.DOTALL).match(self.data, self.at)
        rest = self.data[found.end() : found.end() + 2]
        for end in ends:
            if rest.startswith(end):
                self.at = found.end() + len(end)
                return found[0]
        if any(end.startswith(rest) for end in ends):
            raise Unfinished
        raise Fault("BadHead")

    def text(self, wanted):
        met = self.data[self.at : self.at + len(wanted)]
        if met != wanted:
            raise Unfinished if wanted.startswith(met) else Fault("BadHead")
        self.at += len(wanted)


ENDS = (b"\r\n", b"\n")


def head_of(data):
    """The method, the target, the fields and the length of a head."""
    cursor = Cursor(data)
    while data[cursor.at : cursor.at + 1] == b"\n" or data[cursor.at : cursor.at + 2] == b"\r\n":
        cursor.at = data.index(b"\n", cursor.at) + 1
    if data[cursor.at :] == b"\r":
        raise Unfinished
    method = cursor.some(TOKEN + b"*", (b" ",))
    test(method, "BadHead")
    target = cursor.some(rb"[!-~\x80-\xff]*", (b" ",))
    test(target and is_utf8(target), "BadHead")
    cursor.text(b"HTTP/1.")
    test(cursor.some(b"[01]?", ENDS), "BadHead")
    return method, target, fields_of(cursor), cursor.at


def fields_of(cursor):
    fields = []
    while True:
        met = cursor.data[cursor.at : cursor.at + 1]
        if met in (b"\r", b"\n"):
            cursor.some(b"", ENDS)
            return fields
        name = cursor.some(TOKEN + b"*", (b":",))
        test(name, "BadHead")
        value = cursor.some(rb"[\t\x20-\x7e\x80-\xff]*", ENDS)
        test(len(fields) < FIELD_LIMIT, "HeadTooLarge")
        fields.append((name.lower(), value.strip(b" \t")))


def is_utf8(data):
    try:
        data.decode("utf-8")
    except UnicodeDecodeError:
        return False
    return True


def request_of(data, lists=None):
    """What a request asks for: the name of a command, and its arguments; or that of a query, and its parts. The fault
    is the first of the page. With lists, the names of those that can be opened, a merge is a command too."""
    try:
        method, target, fields, length = head_of(data[:HEAD_LIMIT])
    except Unfinished:
        raise Fault("HeadTooLarge" if len(data) >= HEAD_LIMIT else "BadHead") from None
    test(not is_of_page(fields), "FromBrowser")
    name = target.removeprefix(b"/v1/").decode("utf-8")
    if target.startswith(b"/v1/") and name in FORMS:
        test(method == b"POST", "WrongMethod")
        return name, arguments_in(name, body_of(fields, data[length:]))
    if lists is not None and target == b"/v1/merge":
        test(method == b"POST", "WrongMethod")
        sources, parts = merge = merge_in(body_of(fields, data[length:]))
        test(all(name in lists for name in (sources, *(packages for _, packages in parts))), "NoList")
        return "merge", merge
    word, *parts = name.split("/")
    test(target.startswith(b"/v1/") and QUERIES.get(word) == len(parts) and all(parts), "NoRoute")
    test(method == b"GET", "WrongMethod")
    parts = [urllib.parse.unquote_to_bytes(part) for part in parts]
    test(all(map(is_utf8, parts)), "BadPath")
    return word, [part.decode("utf-8") for part in parts]


def is_of_page(fields):
    """Whether a browser sends these fields for a page."""
    return any(name == b"origin" or name == b"sec-fetch-site" and value != b"none" for name, value in fields)


def body_of(fields, rest):
    test(all(name != b"transfer-encoding" for name, _ in fields), "NotSupported")
    values = [value for name, value in fields if name == b"content-length"]
    test(values, "NoLength")
    test(
        all(re.fullmatch(b"[0-9]+", value) for value in values) and len({value.lstrip(b"0") for value in values}) == 1,
        "BadLength",
    )
    digits = values[0].lstrip(b"0") or b"0"
    test(len(digits) < 10 and int(digits) <= BODY_LIMIT, "BodyTooLarge")
    test(len(rest) >= int(digits), "BodyCut")
    return rest[: int(digits)]


class Other(str):
    """A number that is not a whole number in digits, perhaps after a minus sign."""


def refuse(name):
    raise ValueError(name)


def arguments_in(name, body):
    """The arguments of the command that a body gives."""
    arguments = arguments_of(name, json_in(body))
    test(arguments is not None, "BadBody")
    return arguments


def json_in(body):
    """What a body has as JSON."""
    try:
        text = body.decode("utf-8")
        found = json.loads(
            text, parse_int=whole_of, parse_float=float_of, parse_constant=refuse, object_pairs_hook=object_of
        )
        test(depth_of(text) <= DEPTH_LIMIT and not has_half(found), "BadBody")
    except (ValueError, RecursionError):
        raise Fault("BadBody") from None
    return found


def merge_in(body):
    """The Sources list that a body names, and its parts, each an architecture and a Packages list."""
    found = json_in(body)
    parts = found.get("parts") if isinstance(found, dict) else None
    test(isinstance(parts, list) and parts and all(isinstance(part, dict) for part in parts), "BadBody")
    sources, pairs = found.get("sources"), [(part.get("arch"), part.get("packages")) for part in parts]
    test(all(type(arch) is str for arch, _ in pairs), "BadBody")
    test(all(is_list_name(name) for name in (sources, *(packages for _, packages in pairs))), "BadBody")
    return sources, pairs


def is_list_name(name):
    return type(name) is str and 1 <= len(name.encode()) <= 255 and "/" not in name and name[0] != "."


def whole_of(text):
    return float_of(text) if text == "-0" or len(text) > 25 else int(text)


def float_of(text):
    if math.isinf(float(text)):
        refuse(text)
    return Other(text)


def object_of(members):
    """An object, of which the last member of a name counts; none may have half a surrogate pair."""
    if has_half([part for member in members for part in member]):
        refuse("half a pair")
    return dict(members)


def has_half(value):
    """Whether a text or a list has half a surrogate pair; an object was asked before."""
    if isinstance(value, list):
        return any(map(has_half, value))
    return isinstance(value, str) and bool(re.search("[\ud800-\udfff]", value))


def depth_of(text):
    """How many arrays and objects stand in one another, at most."""
    depth = most = 0
    for mark in re.findall(r"[][{}]", re.sub(r'"(?:[^"\\]|\\.)*"', "", text)):
        depth += (mark in "[{") - (mark in "]}")
        most = max(most, depth)
    return most


def arguments_of(name, found):
    """The keys of a command; None if the body is not of its form."""
    if not isinstance(found, dict):
        return None
    if name == "next":
        found.setdefault("after", None)
    arguments = {key: found.get(key, ()) for key in FORMS[name]}
    for key, value in arguments.items():
        is_good = type(value) is FORMS[name][key]
        if is_good and key != "value" and isinstance(value, int):
            is_good = 0 <= value < 2**64
        if key == "value" and is_good:
            is_good = -(2**63) <= value < 2**63
        if not is_good and not (key == "after" and value is None):
            return None
    return arguments


def wanted_of(office, data, met):
    """The status and the object that a request has to be answered; it was answered `met`. The office carries it out."""
    try:
        name, what = request_of(data)
    except Fault as fault:
        return FAULTS[str(fault)], {"http": str(fault)}
    if name not in FORMS:
        return office.query(name, what, met[1])
    return office.command(name, what, met[1])


def judge(office, data, answered):
    """Tests an answer, and gives for what it stands: a status, and the name of a fault, a refusal or what was
    accepted."""
    met = read_answer(answered)
    if not data:
        expect(met is None, "an answer to nothing")
        return "nothing"
    expect(met is not None, "no answer")
    wanted = wanted_of(office, data, met)
    expect(met == wanted, f"{met} in place of {wanted}")
    status, found = met
    return f"{status} {found.get('http') or found.get('refused') or found.get('ok') or query_of(found)}"


def query_of(found):
    """The word of the path whose query this object answers."""
    keys = {
        "waits": "item", "builder": "mine", "queue": "queue", "records": "state", "depends": "depends",
        "counts": "summary", "handed": "office", "archs": "archs", "builders": "builders",
    }
    return next((word for key, word in keys.items() if key in found), "nothing")
