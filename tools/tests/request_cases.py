"""Cases of requests, for tools/tests/test_requests.py: what a client sends, and what is answered to it. All outcomes
are stated here by hand, after docs/HTTP.md and docs/PROTOCOL.md; none is computed from what is sent. An outcome is a
status and the name of a fault, a status and the object of the answer, or how the exchange ends without an answer.

The office of all cases has three source packages, which are built on amd64 and wait on arm64. So on amd64 `next` is
answered that the queue is empty.
"""
import json
from office_model import Record

SOURCES = [
    ("hello", "1.0-1", "optional", "devel"), ("libsigc++-2.0", "2.12.0-1", "optional", "libs"),
    ("zlib", "1:1.2", "required", "libs"),
]

# The build dependencies of two of them, and how they are printed; None if they cannot be read.
NEEDED = {
    "hello": (
        "Build-Depends: debhelper-compat (= 13), gcc-multilib [i386], libx-dev <!nocheck>\n"
        "Build-Depends-Arch: libz-dev (> 1)\n",
        "debhelper-compat (= 13), libx-dev, libz-dev (>= 1)",
    ),
    "libsigc++-2.0": ("Build-Depends: m4 (1)\n", None),
}


def lists():
    """The lists that the office begins with, and its records."""
    sources, packages, records = "", "", []
    for name, version, priority, section in SOURCES:
        needed, depends = NEEDED.get(name, ("", ""))
        sources += (
            f"Package: {name}\nVersion: {version}\nArchitecture: any\nPriority: {priority}\nSection: {section}\n"
            f"{needed}\n"
        )
        packages += f"Package: {name}-bin\nSource: {name}\nVersion: {version}\nArchitecture: amd64\n\n"
        records.append(Record("amd64", name, version, priority, section, "Installed", depends=depends))
        records.append(Record("arm64", name, version, priority, section, "Needs-Build", depends=depends))
    return [sources.encode(), packages.encode(), b""], records


# ---- what is sent, and what is answered


def posted(path, body):
    """A command with this body."""
    data = body.encode()
    return b"POST /v1/%s HTTP/1.1\r\nContent-Length: %d\r\n\r\n%s" % (path.encode(), len(data), data)


def reported(arch, text):
    """The command `report` with these lines."""
    return posted("report", json.dumps({"arch": arch, "text": text}))


def got(path):
    return b"GET /v1/%s HTTP/1.1\r\n\r\n" % path.encode()


def ok(**found):
    """An answer of these keys."""
    return "200 " + json.dumps(found, ensure_ascii=False, separators=(",", ":"), sort_keys=True)


def assigned(accepted, take, name, source, version, arch="arm64"):
    """The answer to `next` or `take`, the `accepted`th command."""
    return ok(
        accepted=accepted, arch=arch, build=version, message="", number=0, ok=name, source=source, take=take,
        version=version,
    )


INSTALLED = {
    "arch": "amd64", "build_priority": 0, "earlier": True, "holder": None, "message": "", "note": "", "number": 0,
    "state": "Installed",
}
INSTALLED |= {"take": None, "waits": ""}
HELLO = INSTALLED | {
    "source": "hello", "version": "1.0-1", "build": "1.0-1", "priority": "optional", "section": "devel",
}
LIBSIGC = INSTALLED | {
    "source": "libsigc++-2.0", "version": "2.12.0-1", "build": "2.12.0-1", "priority": "optional", "section": "libs",
}
ZLIB = INSTALLED | {"source": "zlib", "version": "1:1.2", "build": "1:1.2", "priority": "required", "section": "libs"}
WAITING = {"arch": "arm64", "earlier": False, "state": "Needs-Build"}
ENTERED = INSTALLED | WAITING | {"arch": "armhf", "source": "bash", "version": "5.2-1", "build": "5.2-1"}
ENTERED |= {"priority": "required", "section": "shells"}
HELD = {"holder": "b2", "take": 1}


def listed(state, *records):
    """The answer to the query of this state on arm64."""
    return ok(arch="arm64", records=list(records), state=state)


def counted(accepted, arch, **counts):
    """The answer to `summary`, with the counts that are not 0; an underscore stands for a hyphen."""
    states = (
        "BD-Uninstallable Build-Attempted Building Built Dep-Wait Failed Installed Needs-Build Not-For-Us Uploaded"
    ).split()
    return ok(accepted=accepted, arch=arch, counts={state: counts.get(state.replace("-", "_"), 0) for state in states})


def queued(arch, **builds):
    """The answer to `queue`, with what is built of each source package in its order; a plus sign and hyphens are left
    out of names."""
    names = {"hello": "hello", "libsigc": "libsigc++-2.0", "zlib": "zlib"}
    return ok(arch=arch, queue=[{"build": build, "source": names[name]} for name, build in builds.items()])


def needs(arch, source, depends):
    return ok(arch=arch, depends=depends, source=source)


BAD_NAME = '422 {"code":11,"refused":"BadName"}'
BAD_NUMBER = '422 {"code":14,"refused":"BadNumber"}'
UNKNOWN_SOURCE = '404 {"code":4,"refused":"UnknownSource"}'
UNKNOWN_ARCH = '404 {"code":1,"refused":"UnknownArch"}'
UNKNOWN_BUILDER = '404 {"code":2,"refused":"UnknownBuilder"}'
WRONG_ARCH = '409 {"code":3,"refused":"WrongArch"}'
OTHER_VERSION = '409 {"code":5,"have":"1.0-1","refused":"OtherVersion"}'
ALREADY_THERE = '409 {"code":10,"refused":"AlreadyThere"}'
NOT_HELD = '409 {"code":8,"refused":"NotHeld"}'
STILL_HELD = '409 {"code":23,"refused":"StillHeld"}'
QUEUE_EMPTY = '409 {"code":7,"refused":"QueueEmpty"}'
MINE = '200 {"builder":"b1","records":[]}'

# Sent after cases that are to change nothing: the first command that is accepted after those that the office begins
# with.
LAST = (posted("next", '{"arch":"arm64","builder":"b2"}'), assigned(8, 1, "next", "zlib", "1:1.2"))
# The same builder asks again, since it lost the answer.
LAST_AGAIN = (posted("next", '{"arch":"arm64","builder":"b2","after":0}'), assigned(8, 1, "again", "zlib", "1:1.2"))

# ---- heads, and bodies that play no part

HEADS = [
    (b"", "nothing"),
    (b"\x01", "400 BadHead"),
    (b"GET /v1/item/a/b HTTP/1.1\r\n", "400 BadHead"),
    (b"GET /v1/item/a/b HTTP/2.0\r\n\r\n", "400 BadHead"),
    (b"GET /v1/item/a/b HTTP/1.0\n\n", BAD_NAME),
    (b"GET /v1/item/amd64/hello HTTP/1.0\n\n", ok(**HELLO)),
    (b"\r\n\r\nGET /v1/item/a/b HTTP/1.1\r\n\r\n", BAD_NAME),
    (b"\r\n\r\nGET /v1/item/amd64/hello HTTP/1.1\r\n\r\n", ok(**HELLO)),
    (b"GET /v1/mine/b1 HTTP/1.1\r\nContent-Length: 99\r\n\r\n", MINE),
    (b"GET /v1/item/a%2Fb/c HTTP/1.1\r\n\r\n", BAD_NAME),
    (b"GET /v1/item/%2561/c HTTP/1.1\r\n\r\n", BAD_NAME),
    (b"GET /v1/item/%61md64/hell%6F HTTP/1.1\r\n\r\n", ok(**HELLO)),
    (b"GET /v1/item/amd64/hell%256F HTTP/1.1\r\n\r\n", BAD_NAME),
    (b"GET /v1/item/a/%ff HTTP/1.1\r\n\r\n", "400 BadPath"),
    (b"GET /v1/mine/%C3%28 HTTP/1.1\r\n\r\n", "400 BadPath"),
    (b"PUT /v1/mine/%ff HTTP/1.1\r\n\r\n", "405 WrongMethod"),
    (b"GET /v1/item//b HTTP/1.1\r\n\r\n", "404 NoRoute"),
    (b"GET /v1/item/a/ HTTP/1.1\r\n\r\n", "404 NoRoute"),
    (b"GET /v1/item/a HTTP/1.1\r\n\r\n", "404 NoRoute"),
    (b"GET /v1/item/amd64%2Fhello HTTP/1.1\r\n\r\n", "404 NoRoute"),
    (b"GET /v1/item/a/b/ HTTP/1.1\r\n\r\n", "404 NoRoute"),
    (b"GET /v1/item/a/b/c HTTP/1.1\r\n\r\n", "404 NoRoute"),
    (b"GET /v1/mine/ HTTP/1.1\r\n\r\n", "404 NoRoute"),
    (b"GET /v1/mine/b1/ HTTP/1.1\r\n\r\n", "404 NoRoute"),
    (b"POST /v1/next/ HTTP/1.1\r\n\r\n", "404 NoRoute"),
    (b"POST /v1/next?x HTTP/1.1\r\n\r\n", "404 NoRoute"),
    (b"POST /v1/%6eext HTTP/1.1\r\n\r\n", "404 NoRoute"),
    (b"POST http://x/v1/next HTTP/1.1\r\n\r\n", "404 NoRoute"),
    (b"OPTIONS * HTTP/1.1\r\n\r\n", "404 NoRoute"),
    (b"POST /v1/build_priority HTTP/1.1\r\n\r\n", "404 NoRoute"),
    (b"POST /v1/report/amd64 HTTP/1.1\r\n\r\n", "404 NoRoute"),
    (b"POST /v1/add-arch/ HTTP/1.1\r\n\r\n", "404 NoRoute"),
    (b"POST /v1/add-architecture HTTP/1.1\r\n\r\n", "404 NoRoute"),
    (b"POST /v1/add-b HTTP/1.1\r\n\r\n", "404 NoRoute"),
    (b"POST /v1/merge HTTP/1.1\r\n\r\n", "404 NoRoute"),
    (b"GET /v1/by-state/amd64/Failed HTTP/1.1\r\n\r\n", "404 NoRoute"),
    (b"GET /v1/next HTTP/1.1\r\n\r\n", "405 WrongMethod"),
    (b"GET /v1/attempted HTTP/1.1\r\n\r\n", "405 WrongMethod"),
    (b"GET /v1/add-arch HTTP/1.1\r\n\r\n", "405 WrongMethod"),
    (b"PUT /v1/add-builder HTTP/1.1\r\n\r\n", "405 WrongMethod"),
    (b"DELETE /v1/remove-builder HTTP/1.1\r\n\r\n", "405 WrongMethod"),
    (b"GET /v1/remove-arch HTTP/1.1\r\n\r\n", "405 WrongMethod"),
    (b"DELETE /v1/forget HTTP/1.1\r\n\r\n", "405 WrongMethod"),
    (b"GET /v1/enter HTTP/1.1\r\n\r\n", "405 WrongMethod"),
    (b"PUT /v1/build-priority HTTP/1.1\r\n\r\n", "405 WrongMethod"),
    (b"HEAD /v1/mine/b1 HTTP/1.1\r\n\r\n", "405 WrongMethod"),
    (b"GET /v1/report HTTP/1.1\r\n\r\n", "405 WrongMethod"),
    (b"POST /v1/queue/amd64 HTTP/1.1\r\nContent-Length: x\r\n\r\n", "405 WrongMethod"),
    (b"DELETE /v1/state/amd64/Failed HTTP/1.1\r\n\r\n", "405 WrongMethod"),
    (b"PUT /v1/depends/%ff/hello HTTP/1.1\r\n\r\n", "405 WrongMethod"),
    (b"HEAD /v1/summary/amd64 HTTP/1.1\r\n\r\n", "405 WrongMethod"),
    (b"post /v1/next HTTP/1.1\r\n\r\n", "405 WrongMethod"),
    (b"POST /v1/item/a/b HTTP/1.1\r\nContent-Length: x\r\n\r\n", "405 WrongMethod"),
    (b"POST /v1/next HTTP/1.1\r\nTransfer-Encoding: chunked\r\n\r\n", "501 NotSupported"),
    (b"POST /v1/next HTTP/1.1\r\nTRANSFER-encoding:\r\nContent-Length: x\r\n\r\n", "501 NotSupported"),
    (b"POST /v1/next HTTP/1.1\r\nHost: x\r\n\r\n", "411 NoLength"),
    (b"POST /v1/next HTTP/1.1\r\nContent-Length:\r\n\r\n", "400 BadLength"),
    (b"POST /v1/next HTTP/1.1\r\nContent-Length: 1, 1\r\n\r\n", "400 BadLength"),
    (b"POST /v1/next HTTP/1.1\r\nContent-Length: x\r\nContent-Length: 16777217\r\n\r\n", "400 BadLength"),
    (b"POST /v1/next HTTP/1.1\r\ncontent-LENGTH: 16777217\r\n\r\n", "413 BodyTooLarge"),
    (b"POST /v1/next HTTP/1.1\r\nContent-Length: 16777216\r\n\r\n{}", "400 BodyCut"),
]

NEXT_BODY = b'{"arch":"amd64","builder":"b1"}'

# What a browser adds to the requests of a page, and to an address that a person types, and what a request with it is.
# The fault comes after those of the head and before that of the target.
FROM_BROWSER = "403 FromBrowser"
PAGES = [
    (b"GET /v1/mine/b1 HTTP/1.1\r\n" + fields + b"\r\n\r\n", outcome)
    for fields, outcome in (
        (b"Origin: http://127.0.0.1:8080", FROM_BROWSER),
        (b"ORIGIN: null", FROM_BROWSER),
        (b"origin:", FROM_BROWSER),
        (b"Host: localhost\r\nOrigin: http://localhost", FROM_BROWSER),
        (b"Sec-Fetch-Site: cross-site", FROM_BROWSER),
        (b"Sec-Fetch-Site: same-site", FROM_BROWSER),
        (b"sec-fetch-site: same-origin", FROM_BROWSER),
        (b"Sec-Fetch-Site:", FROM_BROWSER),
        (b"Sec-Fetch-Site: None", FROM_BROWSER),
        (b"Sec-Fetch-Site: none, none", FROM_BROWSER),
        (b"Sec-Fetch-Site: none\r\nSec-Fetch-Site: cross-site", FROM_BROWSER),
        (b"Sec-Fetch-Site: none\r\nOrigin: null", FROM_BROWSER),
        (b"Sec-Fetch-Site: none", MINE),
        (b"SEC-FETCH-SITE: \tnone ", MINE),
        (b"Sec-Fetch-Site: none\r\nSec-Fetch-Site: none", MINE),
        (b"Sec-Fetch-Mode: cors\r\nReferer: http://localhost/", MINE),
        (b"Origins: null\r\nX-Origin: null", MINE),
        (b"Origin : null", "400 BadHead"),
        (b"Origin: null\r\n" * 33, "431 HeadTooLarge"),
    )
]
PAGES += [
    (b"POST /v1/next HTTP/1.1\r\nOrigin: null\r\nContent-Length: 31\r\n\r\n" + NEXT_BODY, FROM_BROWSER),
    (b"POST /v1/next HTTP/1.1\r\nOrigin: null\r\n\r\n", FROM_BROWSER),
    (b"GET /v1/next HTTP/1.1\r\nOrigin: null\r\n\r\n", FROM_BROWSER),
    (b"GET / HTTP/1.1\r\nSec-Fetch-Site: cross-site\r\n\r\n", FROM_BROWSER),
    (b"OPTIONS /v1/next HTTP/1.1\r\nOrigin: null\r\nAccess-Control-Request-Method: POST\r\n\r\n", FROM_BROWSER),
    (b"GET /v1/item/a/%ff HTTP/1.1\r\nOrigin: null\r\n\r\n", FROM_BROWSER),
]

# The lengths that fields state, and what `next` with them and that body is.
LENGTHS = [
    (b"POST /v1/next HTTP/1.1\r\n" + fields + b"\r\n\r\n" + NEXT_BODY, outcome)
    for fields, outcome in (
        (b"Content-Length: 31", QUEUE_EMPTY),
        (b"Content-Length: 0031", QUEUE_EMPTY),
        (b"Content-Length: \t31 ", QUEUE_EMPTY),
        (b"Content-Length: 31\r\nContent-Length: 031", QUEUE_EMPTY),
        (b"Content-Length: 31\r\nContent-Length: 32", "400 BadLength"),
        (b"Content-Length: 32", "400 BodyCut"),
        (b"Content-Length: 30", "400 BadBody"),
        (b"Content-Length: +31", "400 BadLength"),
        (b"Content-Length: 99999999999999999999999999", "413 BodyTooLarge"),
    )
]

# A request with a head of 63 bytes and a body of 31, the outcome if it is cut off after so many bytes, and with more
# behind it.
NEXT = b"POST /v1/next HTTP/1.1\r\nHost: localhost\r\nContent-Length: 31\r\n\r\n" + NEXT_BODY
CUTS = [(NEXT[:0], "nothing")]
CUTS += [(NEXT[:length], "400 BadHead") for length in range(1, 63)]
CUTS += [(NEXT[:length], "400 BodyCut") for length in range(63, 94)]
CUTS += [(NEXT[:94], QUEUE_EMPTY)]
FOLLOWED = [(NEXT + b"}garbage\r\n\r\n", QUEUE_EMPTY)]

# The numbers of fields and the lengths of a further value that a head may have. The first line has 26 bytes; 5 stand
# around the value and 2 at the end, which leaves 8159 for it.
LIMITS = [
    (b"GET /v1/mine/b1 HTTP/1.1\r\n" + b"a: b\r\n" * 32 + b"\r\n", MINE),
    (b"GET /v1/mine/b1 HTTP/1.1\r\n" + b"a: b\r\n" * 33 + b"\r\n", "431 HeadTooLarge"),
    (b"GET /v1/mine/b1 HTTP/1.1\r\nx: " + b"y" * 8159 + b"\r\n\r\n", MINE),
    (b"GET /v1/mine/b1 HTTP/1.1\r\nx: " + b"y" * 8160 + b"\r\n\r\n", "431 HeadTooLarge"),
    (b"GET /v1/mine/b1 HTTP/1.1\r\nx: " + b"y" * 9000 + b"\r\n\r\n", "431 HeadTooLarge"),
]

# ---- bodies

# Values of `after`: in a request for an architecture that nobody added, and in one for an empty queue.
AFTERS = [
    case
    for value, unknown, known in (
        ("null", UNKNOWN_ARCH, QUEUE_EMPTY),
        ("0", UNKNOWN_ARCH, QUEUE_EMPTY),
        ("18446744073709551615", UNKNOWN_ARCH, '409 {"code":9,"handed":0,"refused":"AfterAhead"}'),
        ("18446744073709551616", "400 BadBody", "400 BadBody"),
        ("1.0", "400 BadBody", "400 BadBody"),
        ("1e3", "400 BadBody", "400 BadBody"),
        ("-0", "400 BadBody", "400 BadBody"),
        ("-1", "400 BadBody", "400 BadBody"),
        ('"1"', "400 BadBody", "400 BadBody"),
    )
    for case in (
        (posted("next", f'{{"arch":"a","builder":"b","after":{value}}}'), unknown),
        (posted("next", f'{{"arch":"amd64","builder":"b1","after":{value}}}'), known),
    )
]

# Bodies for each path. Those that are a command's are refused by the office, for names that are malformed or that it
# does not know.
BODIES = [
    (posted(path, body), outcome)
    for path, body, outcome in (
        ("next", '{"arch":"a","builder":null}', "400 BadBody"),
        ("next", '{"arch":"a","builder":7}', "400 BadBody"),
        ("next", '{"arch":"a"}', "400 BadBody"),
        ("next", '["arch","builder"]', "400 BadBody"),
        ("next", '{"arch":"a","builder":"b"} x', "400 BadBody"),
        ("next", "", "400 BadBody"),
        ("next", r' { "builder" : "b\u00e9" , "arch" : "a" , "x" : {"y":[1.5,true]} } ', BAD_NAME),
        ("next", r' { "builder" : "b\u0031" , "arch" : "amd64" , "x" : {"y":[1.5,true]} } ', QUEUE_EMPTY),
        ("next", r'{"arch":"\ud800","builder":"b"}', "400 BadBody"),
        ("next", '{"arch":"a","builder":"b","x":1e400}', "400 BadBody"),
        ("next", "[" * 16000, "400 BadBody"),
        ("next", '{"arch":"amd64","builder":"b1","x":' + "[" * 100 + "]" * 100 + "}", QUEUE_EMPTY),
        ("next", '{"arch":"amd64","builder":"b1","x":' + "[" * 200 + "]" * 200 + "}", "400 BadBody"),
        ("next", '{"arch":1,"builder":"b","arch":"a"}', UNKNOWN_ARCH),
        ("next", '{"arch":1,"builder":"b1","arch":"amd64"}', QUEUE_EMPTY),
        ("next", '{"arch":"amd64","builder":"b1","arch":1}', "400 BadBody"),
        ("take", '{"arch":"a","builder":"b","source":"s","version":"1"}', BAD_NAME),
        ("take", '{"arch":"a","builder":"b","source":"s"}', "400 BadBody"),
        ("built", '{"take":1}', NOT_HELD),
        ("built", '{"take":"1"}', "400 BadBody"),
        ("built", '{"take":null}', "400 BadBody"),
        ("uploaded", '{"take":0}', NOT_HELD),
        ("waits", '{"take":1,"relations":"a"}', '422 {"code":13,"fault":"BadName","refused":"BadRelations"}'),
        ("waits", '{"take":1}', "400 BadBody"),
        ("put-back", '{"take":1}', NOT_HELD),
        ("attempted", '{"take":1,"reason":"r"}', NOT_HELD),
        ("attempted", '{"reason":"","take":18446744073709551615}', NOT_HELD),
        ("attempted", '{"reason":"","take":18446744073709551616}', "400 BadBody"),
        ("attempted", '{"take":-1,"reason":"r"}', "400 BadBody"),
        ("attempted", '{"take":1,"reason":null}', "400 BadBody"),
        ("attempted", '{"take":1,"relations":"a"}', "400 BadBody"),
        ("attempted", '{"reason":"r"}', "400 BadBody"),
        ("give-back", '{"arch":"a","source":"s","version":"1"}', BAD_NAME),
        ("give-back", '{"arch":"a","version":"1"}', "400 BadBody"),
        ("dep-wait", '{"arch":"a","source":"s","version":"1","relations":""}', BAD_NAME),
        ("dep-wait", '{"arch":"a","source":"s","version":"1"}', "400 BadBody"),
        ("fail", '{"arch":"a","source":"s","version":"1","note":""}', BAD_NAME),
        ("fail", '{"arch":"a","source":"s","version":"1"}', "400 BadBody"),
        ("not-for-us", '{"arch":"a","source":"s","version":"1","note":"n"}', BAD_NAME),
        ("rebuild", '{"arch":"a","source":"s","version":"1","number":1,"message":"m"}', BAD_NAME),
        ("rebuild", '{"arch":"a","source":"s","version":"1","number":1}', "400 BadBody"),
        ("rebuild", '{"arch":"a","source":"s","version":"1","number":"1","message":"m"}', "400 BadBody"),
        ("rebuild", '{"arch":"a","source":"s","version":"1","message":"m"}', "400 BadBody"),
        ("build-priority", '{"arch":"a","source":"s","version":"1","value":-5}', BAD_NAME),
        ("build-priority", '{"arch":"a","source":"s","version":"1"}', "400 BadBody"),
        ("build-priority", '{"arch":"a","source":"s","value":5}', "400 BadBody"),
        ("build-priority", '{"arch":"a","version":"1","value":5}', "400 BadBody"),
        ("build-priority", '{"source":"s","version":"1","value":5}', "400 BadBody"),
        ("report", '{"arch":"a","text":""}', UNKNOWN_ARCH),
        ("report", '{"arch":"A","text":""}', BAD_NAME),
        ("report", '{"arch":"amd64","lines":""}', "400 BadBody"),
        ("report", '{"text":"hello 1.0-1 installable"}', "400 BadBody"),
        ("report", '{"arch":"amd64","text":null}', "400 BadBody"),
        ("report", '{"arch":"amd64","text":["hello 1.0-1 installable"]}', "400 BadBody"),
        ("report", r'{"arch":"amd64","text":"\ud800"}', "400 BadBody"),
        ("add-arch", '{"os":"linux","cpu":"arm"}', "400 BadBody"),
        ("add-arch", '{"name":"armhf","cpu":"arm"}', "400 BadBody"),
        ("add-arch", '{"name":"armhf","os":"linux"}', "400 BadBody"),
        ("add-arch", '{"arch":"armhf","os":"linux","cpu":"arm"}', "400 BadBody"),
        ("add-arch", '{"name":"armhf","os":"linux","cpu":null}', "400 BadBody"),
        ("add-arch", '{"name":"armhf","os":["linux"],"cpu":"arm"}', "400 BadBody"),
        ("add-arch", '{"name":"all","os":"linux","cpu":"arm"}', BAD_NAME),
        ("add-arch", '{"name":"armhf","os":"","cpu":"arm"}', BAD_NAME),
        ("add-arch", '{"name":"armhf","os":"linux","cpu":"any"}', BAD_NAME),
        ("add-arch", '{"name":"amd64","os":"linux","cpu":"arm"}', ALREADY_THERE),
        ("add-builder", '{"arch":"amd64"}', "400 BadBody"),
        ("add-builder", '{"name":"b4"}', "400 BadBody"),
        ("add-builder", '{"builder":"b4","arch":"amd64"}', "400 BadBody"),
        ("add-builder", '{"name":4,"arch":"amd64"}', "400 BadBody"),
        ("add-builder", '{"name":"-","arch":"armhf"}', BAD_NAME),
        ("add-builder", '{"name":"b4","arch":"any"}', BAD_NAME),
        ("add-builder", '{"name":"b4","arch":"armhf"}', UNKNOWN_ARCH),
        ("add-builder", '{"name":"b1","arch":"amd64"}', ALREADY_THERE),
        ("remove-arch", '{"arch":"armhf"}', "400 BadBody"),
        ("remove-arch", '{"name":["armhf"]}', "400 BadBody"),
        ("remove-arch", '{"name":"all"}', BAD_NAME),
        ("remove-arch", '{"name":"armhf"}', UNKNOWN_ARCH),
        ("remove-builder", '{"arch":"amd64"}', "400 BadBody"),
        ("remove-builder", '{"name":"b4"}', "400 BadBody"),
        ("remove-builder", '{"builder":"b4","arch":"amd64"}', "400 BadBody"),
        ("remove-builder", '{"name":"-","arch":"armhf"}', BAD_NAME),
        ("remove-builder", '{"name":"b4","arch":"any"}', BAD_NAME),
        ("remove-builder", '{"name":"b4","arch":"armhf"}', UNKNOWN_ARCH),
        ("remove-builder", '{"name":"b4","arch":"amd64"}', UNKNOWN_BUILDER),
        ("remove-builder", '{"name":"b2","arch":"amd64"}', WRONG_ARCH),
        ("forget", '{"arch":"a","source":"s","version":"1"}', BAD_NAME),
        ("forget", '{"arch":"amd64","source":"hello"}', "400 BadBody"),
        ("forget", '{"arch":"amd64","version":"1.0-1"}', "400 BadBody"),
        ("forget", '{"source":"hello","version":"1.0-1"}', "400 BadBody"),
        ("forget", '{"arch":"armhf","source":"hello","version":"1.0-1"}', UNKNOWN_ARCH),
        ("forget", '{"arch":"amd64","source":"bash","version":"1.0-1"}', UNKNOWN_SOURCE),
        ("forget", '{"arch":"amd64","source":"hello","version":"1.0-2"}', OTHER_VERSION),
    )
]
BODIES += [
    (posted("enter", f'{{"arch":{arch},"source":{source},"version":"1"{more}}}'), outcome)
    for arch, source, more, outcome in (
        ('"amd64"', '"bash"', ',"priority":"extra"', "400 BadBody"),
        ('"amd64"', '"bash"', ',"section":"devel"', "400 BadBody"),
        ('"amd64"', '"bash"', ',"priority":1,"section":"devel"', "400 BadBody"),
        ('"amd64"', '"bash"', ',"priority":"extra","section":null', "400 BadBody"),
        ("null", '"bash"', ',"priority":"extra","section":"devel"', "400 BadBody"),
        ('"amd64"', "[]", ',"priority":"extra","section":"devel"', "400 BadBody"),
        ('"amd64"', '"bash"', ',"priority":"extra","section":"devel","version":1', "400 BadBody"),
        ('"amd64"', '"bash"', ',"priority":"","section":"devel"', BAD_NAME),
        ('"amd64"', '"bash"', ',"priority":"extra","section":"a b"', BAD_NAME),
        ('"amd64"', '"b"', ',"priority":"extra","section":"devel"', BAD_NAME),
        ('"any"', '"bash"', ',"priority":"extra","section":"devel"', BAD_NAME),
        (
            '"amd64"', '"bash"', ',"priority":"extra","section":"devel","version":":"',
            '422 {"code":12,"fault":"EpochEmpty","refused":"BadVersion"}',
        ),
        ('"armhf"', '"bash"', ',"priority":"extra","section":"devel"', UNKNOWN_ARCH),
        ('"amd64"', '"hello"', ',"priority":"extra","section":"devel"', ALREADY_THERE),
    )
]

# A body of each command that the office accepts, with the record after it: these show which command a body is.
COMMANDS = [
    (posted("next", '{"arch":"arm64","builder":"b2"}'), assigned(8, 1, "next", "zlib", "1:1.2")),
    (posted("built", '{"take":1}'), ok(accepted=9, ok="built")),
    (got("item/arm64/zlib"), ok(**ZLIB | WAITING | {"state": "Built", "holder": "b2", "take": 1})),
    (posted("uploaded", '{"take":1}'), ok(accepted=10, ok="uploaded")),
    (got("item/arm64/zlib"), ok(**ZLIB | WAITING | {"state": "Uploaded", "holder": "b2", "take": 1})),
    (
        posted("take", '{"arch":"arm64","builder":"b3","source":"hello","version":"1.0-1"}'),
        assigned(11, 2, "take", "hello", "1.0-1"),
    ),
    (posted("waits", '{"take":2,"relations":"debhelper (>= 13)"}'), ok(accepted=12, ok="waits")),
    (got("item/arm64/hello"), ok(**HELLO | WAITING | {"state": "Dep-Wait", "waits": "debhelper (>= 13)"})),
    (posted("give-back", '{"arch":"arm64","source":"hello","version":"1.0-1"}'), ok(accepted=13, ok="give-back")),
    (got("item/arm64/hello"), ok(**HELLO | WAITING)),
    (
        posted("take", '{"arch":"arm64","builder":"b3","source":"hello","version":"1.0-1"}'),
        assigned(14, 3, "take", "hello", "1.0-1"),
    ),
    (posted("put-back", '{"take":3}'), ok(accepted=15, ok="put-back")),
    (got("item/arm64/hello"), ok(**HELLO | WAITING)),
    (
        posted("take", '{"arch":"arm64","builder":"b3","source":"hello","version":"1.0-1"}'),
        assigned(16, 4, "take", "hello", "1.0-1"),
    ),
    (posted("attempted", '{"reason":"r","take":4}'), ok(accepted=17, ok="attempted")),
    (got("item/arm64/hello"), ok(**HELLO | WAITING | {"state": "Build-Attempted", "note": "r"})),
    (
        posted("dep-wait", '{"arch":"arm64","source":"hello","version":"1.0-1","relations":"libz"}'),
        ok(accepted=18, ok="dep-wait"),
    ),
    (got("item/arm64/hello"), ok(**HELLO | WAITING | {"state": "Dep-Wait", "waits": "libz"})),
    (posted("fail", '{"arch":"arm64","source":"hello","version":"1.0-1","note":"b\\n1"}'), ok(accepted=19, ok="fail")),
    (got("item/arm64/hello"), ok(**HELLO | WAITING | {"state": "Failed", "note": "b\n1"})),
    (
        posted("not-for-us", '{"arch":"arm64","source":"hello","version":"1.0-1","note":"n"}'),
        ok(accepted=20, ok="not-for-us"),
    ),
    (got("item/arm64/hello"), ok(**HELLO | WAITING | {"state": "Not-For-Us", "note": "n"})),
    (
        posted("rebuild", '{"arch":"amd64","source":"hello","version":"1.0-1","number":1,"message":"m"}'),
        ok(accepted=21, ok="rebuild"),
    ),
    (got("item/amd64/hello"), ok(**HELLO | {"state": "Needs-Build", "build": "1.0-1+b1", "number": 1, "message": "m"})),
    (
        posted("build-priority", '{"arch":"amd64","source":"hello","version":"1.0-1","value":-5}'),
        ok(accepted=22, ok="build-priority"),
    ),
    (
        got("item/amd64/hello"),
        ok(**HELLO | {"state": "Needs-Build", "build": "1.0-1+b1", "number": 1, "message": "m", "build_priority": -5}),
    ),
    (posted("add-arch", '{"cpu":"arm","name":"armhf","os":"linux"}'), ok(accepted=23, ok="add-arch")),
    (got("summary/armhf"), counted(23, "armhf")),
    (posted("add-builder", '{"name":"b4","arch":"armhf"}'), ok(accepted=24, ok="add-builder")),
    (got("mine/b4"), '200 {"builder":"b4","records":[]}'),
    (posted("next", '{"arch":"armhf","builder":"b4"}'), QUEUE_EMPTY),
    (
        posted("enter", '{"arch":"armhf","source":"bash","version":"5.2-1","priority":"required","section":"shells"}'),
        ok(accepted=25, ok="enter"),
    ),
    (got("item/armhf/bash"), ok(**ENTERED)),
    (got("depends/armhf/bash"), needs("armhf", "bash", "")),
    (
        posted(
            "dep-wait",
            '{"arch":"armhf","source":"bash","version":"5.2-1","relations":"libz [any-arm], liba [arm-any]"}',
        ),
        ok(accepted=26, ok="dep-wait"),
    ),
    (got("item/armhf/bash"), ok(**ENTERED | {"state": "Dep-Wait", "waits": "libz"})),
    (posted("give-back", '{"arch":"armhf","source":"bash","version":"5.2-1"}'), ok(accepted=27, ok="give-back")),
    (posted("next", '{"arch":"armhf","builder":"b4"}'), assigned(28, 5, "next", "bash", "5.2-1", arch="armhf")),
    (posted("forget", '{"arch":"armhf","source":"bash","version":"5.2-1"}'), STILL_HELD),
    (posted("remove-builder", '{"name":"b4","arch":"armhf"}'), STILL_HELD),
    (posted("remove-arch", '{"name":"armhf"}'), STILL_HELD),
    (posted("put-back", '{"take":5}'), ok(accepted=29, ok="put-back")),
    (posted("forget", '{"arch":"armhf","source":"bash","version":"5.2-1"}'), ok(accepted=30, ok="forget")),
    (got("item/armhf/bash"), UNKNOWN_SOURCE),
    (posted("remove-builder", '{"name":"b4","arch":"armhf"}'), ok(accepted=31, ok="remove-builder")),
    (got("mine/b4"), UNKNOWN_BUILDER),
    (posted("next", '{"arch":"armhf","builder":"b4"}'), UNKNOWN_BUILDER),
    (posted("remove-arch", '{"name":"armhf"}'), ok(accepted=32, ok="remove-arch")),
    (got("summary/armhf"), UNKNOWN_ARCH),
]

# ---- reports

# Reports that cannot be read, with the number of the first line that is at fault.
BAD_LINES = [
    ("hello", 1),
    ("hello 1.0-1", 1),
    ("hello installable", 1),
    ("hello 1.0-1 built", 1),
    ("hello 1.0-1 Installable", 1),
    ("hello 1.0-1 installable now", 1),
    ("hello 1.0-1 uninstallable-yet x", 1),
    ("hello 1.0-1 installable\r\n", 1),
    ("hello 1.0-1 uninstallable\r\n", 1),
    ("\r", 1),
    ("hello 1.0-1 installable\n\r\n", 2),
    ("\n \t\nHello 1.0-1 installable\n", 3),
    ("h 1.0-1 installable", 1),
    ("h" * 201 + " 1.0-1 installable", 1),
    ("hello 1.0- installable", 1),
    ("hello 1_0 uninstallable x", 1),
    ("hello " + "1" * 1001 + " installable", 1),
    ("hello 1.0-1 uninstallable " + "x" * 1001, 1),
    ("hello 1.0-1 uninstallable " + "\u00e4" * 501, 1),
    ("hello 1.0-1 installable\nhello 1.0-1 installable", 2),
    ("hello 1.0-1 installable\n\n\thello 2.0 uninstallable x", 3),
    ("nosuch 1 installable\nzlib 1:1.2 installable\nnosuch 2 installable\nx", 3),
    ("zlib 1:1.2 installable\nx\nzlib 1:1.2 installable", 2),
    ("\ufeffhello 1.0-1 installable", 1),
    ("# hello 1.0-1 installable", 1),
    ("hello 1.0-1\u00a0installable", 1),
    ("hello 1.0-1 installable\u000b", 1),
    ("hello\u00001.0-1 installable", 1),
]
BAD_REPORTS = [
    (reported("arm64", text), f'422 {{"code":16,"line":{line},"refused":"BadReport"}}') for text, line in BAD_LINES
]
BAD_REPORTS += [
    (reported("AMD64", "x"), BAD_NAME),
    (reported("armhf", "x"), '422 {"code":16,"line":1,"refused":"BadReport"}'),
    (reported("armhf", "hello 1.0-1 installable"), UNKNOWN_ARCH),
    (reported("armhf", ""), UNKNOWN_ARCH),
]


def told(accepted, changed):
    return ok(accepted=accepted, changed=changed, ok="report")


# Reports in a row, with records after them.
UNMET = WAITING | {"state": "BD-Uninstallable"}
REPORTS = [
    (reported("arm64", "hello 1.0-1 uninstallable libfoo missing"), told(8, 1)),
    (got("item/arm64/hello"), ok(**HELLO | UNMET | {"note": "libfoo missing"})),
    (got("queue/arm64"), queued("arm64", zlib="1:1.2", libsigc="2.12.0-1")),
    (reported("arm64", "hello 1.0-1 uninstallable libfoo missing\n"), told(9, 0)),
    (reported("arm64", "hello 1.0-1 uninstallable libbar missing\n"), told(10, 1)),
    (got("item/arm64/hello"), ok(**HELLO | UNMET | {"note": "libbar missing"})),
    (reported("arm64", "hello 2.0 installable\n"), told(11, 0)),
    (reported("arm64", "hello 1.0-1 installable\n"), told(12, 1)),
    (got("item/arm64/hello"), ok(**HELLO | WAITING)),
    (reported("arm64", "hello 1.0-1 installable\n"), told(13, 0)),
    (reported("arm64", "hello 2.0 uninstallable x"), told(14, 0)),
    (reported("arm64", "hello 0:1.0-01 uninstallable"), told(15, 1)),
    (got("item/arm64/hello"), ok(**HELLO | UNMET)),
    (reported("arm64", ""), told(16, 0)),
    (reported("arm64", "\n\n \t\n"), told(17, 0)),
    (reported("arm64", "nosuch 1.0 uninstallable x"), told(18, 0)),
    (reported("amd64", "hello 1.0-1 uninstallable x\nzlib 1:1.2 installable"), told(19, 0)),
    (got("item/amd64/hello"), ok(**HELLO)),
    (
        reported(
            "arm64", " \thello\t1.0-1  uninstallable \t a\tb \t\n\n \t\nzlib 1:1.2 uninstallable\nnosuch 1 installable"
        ),
        told(20, 2),
    ),
    (got("state/arm64/BD-Uninstallable"), listed("BD-Uninstallable", HELLO | UNMET | {"note": "a\tb"}, ZLIB | UNMET)),
    (reported("arm64", "zlib 1:1.2 uninstallable " + "x" * 1000), told(21, 1)),
    (got("item/arm64/zlib"), ok(**ZLIB | UNMET | {"note": "x" * 1000})),
    (reported("arm64", "zlib 1:1.2 uninstallable   " + "\u00e4" * 500 + "\t "), told(22, 1)),
    (got("item/arm64/zlib"), ok(**ZLIB | UNMET | {"note": "\u00e4" * 500})),
    (reported("arm64", "zlib 1:1.2 uninstallable x\r\nhello 1.0-1 uninstallable \r\n"), told(23, 2)),
    (
        got("state/arm64/BD-Uninstallable"),
        listed("BD-Uninstallable", HELLO | UNMET | {"note": "\r"}, ZLIB | UNMET | {"note": "x\r"}),
    ),
    (reported("arm64", 'zlib 1:1.2 uninstallable a\u0000b\u001f"\\ installable'), told(24, 1)),
    (got("item/arm64/zlib"), ok(**ZLIB | UNMET | {"note": 'a\0b\x1f"\\ installable'})),
    (
        posted("report", r'{"text":7,"x":[],"arch":"arm64","text":"zlib\u00201:1.2\u0009installable\u000a"}'),
        told(25, 1),
    ),
    (posted("next", '{"arch":"arm64","builder":"b2"}'), assigned(26, 1, "next", "zlib", "1:1.2")),
    (
        reported(
            "arm64", "zlib 1:1.2 uninstallable x\nlibsigc++-2.0 2.12.0-1 uninstallable y\nhello 1.0-1 uninstallable \r"
        ),
        told(27, 1),
    ),
    (got("item/arm64/zlib"), ok(**ZLIB | WAITING | HELD | {"state": "Building"})),
    (posted("next", '{"arch":"arm64","builder":"b3"}'), QUEUE_EMPTY),
    (posted("give-back", '{"arch":"arm64","source":"hello","version":"1.0-1"}'), ok(accepted=28, ok="give-back")),
    (got("item/arm64/hello"), ok(**HELLO | WAITING)),
    (
        posted("dep-wait", '{"arch":"arm64","source":"libsigc++-2.0","version":"2.12.0-1","relations":"libz"}'),
        ok(accepted=29, ok="dep-wait"),
    ),
    (reported("arm64", "libsigc++-2.0 2.12.0-1 installable"), told(30, 0)),
    (got("item/arm64/libsigc++-2.0"), ok(**LIBSIGC | WAITING | {"state": "Dep-Wait", "waits": "libz"})),
]

# ---- numbers and texts

# Values of a build priority, with what is answered and the build priority after it. An integer of 64 bits that the
# office refuses is a BadNumber.
VALUES = [
    case
    for value, outcome, after in (
        ("5", ok(accepted=8, ok="build-priority"), 5),
        ("-5", ok(accepted=9, ok="build-priority"), -5),
        ("0", ok(accepted=10, ok="build-priority"), 0),
        ("1000", ok(accepted=11, ok="build-priority"), 1000),
        ("1001", BAD_NUMBER, 1000),
        ("-1000", ok(accepted=12, ok="build-priority"), -1000),
        ("-1001", BAD_NUMBER, -1000),
        ("9223372036854775807", BAD_NUMBER, -1000),
        ("9223372036854775808", "400 BadBody", -1000),
        ("-9223372036854775808", BAD_NUMBER, -1000),
        ("-9223372036854775809", "400 BadBody", -1000),
        ("-0", "400 BadBody", -1000),
        ("5.0", "400 BadBody", -1000),
        ("-5.0", "400 BadBody", -1000),
        ("1e3", "400 BadBody", -1000),
        ("+5", "400 BadBody", -1000),
        ("05", "400 BadBody", -1000),
        ('"5"', "400 BadBody", -1000),
        ("null", "400 BadBody", -1000),
    )
    for case in (
        (posted("build-priority", f'{{"arch":"amd64","source":"zlib","version":"1:1.2","value":{value}}}'), outcome),
        (got("item/amd64/zlib"), ok(**ZLIB | {"build_priority": after})),
    )
]

# Texts and numbers, once they are decoded. Seven take numbers are handed out, of which the last is held.
TEXTS = [
    (got("item/amd64/libsigc%2B%2B-2.0"), ok(**LIBSIGC)),
    (got("item/amd64/libsigc++-2.0"), ok(**LIBSIGC)),
    (got("item/amd64/libsigc%2B%2B-2.0%2541"), BAD_NAME),
    (got("item/amd64/libsigc%2B%2B-2.0%41"), BAD_NAME),
    (got("item/amd64/libsigc%2B%2B-2.0%2561"), BAD_NAME),
    (got("item/amd64/libsigc%2B%2B-2.0%61"), '404 {"code":4,"refused":"UnknownSource"}'),
    (got("mine/b1"), MINE),
    (got("mine/b%zz%2"), BAD_NAME),
    (got("mine/b1%"), BAD_NAME),
    (got("mine/b1%2"), BAD_NAME),
]
for take in range(1, 7):
    TEXTS += [
        (posted("next", '{"arch":"arm64","builder":"b2"}'), assigned(6 + 2 * take, take, "next", "zlib", "1:1.2"))
    ]
    TEXTS += [(posted("put-back", f'{{"take":{take}}}'), ok(accepted=7 + 2 * take, ok="put-back"))]
TEXTS += [
    (posted("next", r'{"arch":"amd64","builder":"b\n1","after":7}'), BAD_NAME),
    (posted("next", '{"arch":"arm64","builder":"b2","after":7}'), '409 {"code":9,"handed":6,"refused":"AfterAhead"}'),
    (posted("next", '{"arch":"arm64","builder":"b2","after":6}'), assigned(20, 7, "next", "zlib", "1:1.2")),
    (posted("next", '{"arch":"arm64","builder":"b2","after":6}'), assigned(20, 7, "again", "zlib", "1:1.2")),
    (posted("next", '{"arch":"arm64","builder":"b2","after":7}'), assigned(21, 8, "next", "libsigc++-2.0", "2.12.0-1")),
    (posted("attempted", r'{"take":7,"reason":"no\t-lm"}'), ok(accepted=22, ok="attempted")),
    (got("item/arm64/zlib"), ok(**ZLIB | WAITING | {"state": "Build-Attempted", "note": "no\t-lm"})),
]

# ---- answers

# A request for each fault, in their order, and one without, with the first line of the answer and its body.
WRITTEN = [
    (
        b"GET / HTTP/1.1\r\n" + b"a: b\r\n" * 33 + b"\r\n", b"HTTP/1.1 431 Request Header Fields Too Large",
        b'{"http":"HeadTooLarge"}',
    ),
    (b"\r", b"HTTP/1.1 400 Bad Request", b'{"http":"BadHead"}'),
    (b"GET / HTTP/1.1\r\nOrigin: null\r\n\r\n", b"HTTP/1.1 403 Forbidden", b'{"http":"FromBrowser"}'),
    (b"GET / HTTP/1.1\r\n\r\n", b"HTTP/1.1 404 Not Found", b'{"http":"NoRoute"}'),
    (b"GET /v1/next HTTP/1.1\r\n\r\n", b"HTTP/1.1 405 Method Not Allowed", b'{"http":"WrongMethod"}'),
    (b"GET /v1/mine/%ff HTTP/1.1\r\n\r\n", b"HTTP/1.1 400 Bad Request", b'{"http":"BadPath"}'),
    (
        b"POST /v1/next HTTP/1.1\r\nTransfer-Encoding: chunked\r\n\r\n", b"HTTP/1.1 501 Not Implemented",
        b'{"http":"NotSupported"}',
    ),
    (b"POST /v1/next HTTP/1.1\r\n\r\n", b"HTTP/1.1 411 Length Required", b'{"http":"NoLength"}'),
    (b"POST /v1/next HTTP/1.1\r\nContent-Length: x\r\n\r\n", b"HTTP/1.1 400 Bad Request", b'{"http":"BadLength"}'),
    (
        b"POST /v1/next HTTP/1.1\r\nContent-Length: 16777217\r\n\r\n", b"HTTP/1.1 413 Payload Too Large",
        b'{"http":"BodyTooLarge"}',
    ),
    (b"POST /v1/next HTTP/1.1\r\nContent-Length: 1\r\n\r\n", b"HTTP/1.1 400 Bad Request", b'{"http":"BodyCut"}'),
    (b"POST /v1/next HTTP/1.1\r\nContent-Length: 0\r\n\r\n", b"HTTP/1.1 400 Bad Request", b'{"http":"BadBody"}'),
    (b"GET /v1/mine/b1 HTTP/1.1\r\n\r\n", b"HTTP/1.1 200 OK", b'{"builder":"b1","records":[]}'),
]
WHOLE = (
    b'HTTP/1.1 400 Bad Request\r\nContent-Type: application/json\r\nContent-Length: 18\r\nConnection: close\r\n\r\n'
    b'{"http":"BadHead"}'
)
