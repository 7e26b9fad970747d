"""Cases of requests that ask, for tools/tests/test_requests.py, with what is answered to each, as request_cases.py has
those of commands: stated here by hand, after docs/HTTP.md and docs/PROTOCOL.md.
"""
from request_cases import (
    BAD_NAME, HELD, HELLO, LIBSIGC, UNKNOWN_ARCH, UNKNOWN_SOURCE, WAITING, ZLIB, assigned, counted, got, listed, needs,
    ok, posted, queued, reported,
)

# Queries of the office that begins, in which all is built on amd64 and nothing on arm64: good ones, and faults and
# refusals at their limits.
ALL_BUILT = counted(7, "amd64", Installed=3)
BEGUN_WITH = ok(accepted=7, handed=0)
ARCHS = [{"arch": arch, "cpu": arch, "os": "linux"} for arch in ("amd64", "arm64")]
PAIRS = [("b1", "amd64"), ("b2", "arm64"), ("b3", "amd64"), ("b3", "arm64")]
BUILDERS = [{"arch": arch, "builder": name} for name, arch in PAIRS]
QUERIES = [
    (got(path), outcome)
    for path, outcome in (
        ("queue/amd64", '200 {"arch":"amd64","queue":[]}'),
        ("queue/arm64", queued("arm64", zlib="1:1.2", libsigc="2.12.0-1", hello="1.0-1")),
        ("queue/%61%72m64", queued("arm64", zlib="1:1.2", libsigc="2.12.0-1", hello="1.0-1")),
        ("queue/armhf", UNKNOWN_ARCH),
        ("queue/any", BAD_NAME),
        ("queue/amd64%2Fhello", BAD_NAME),
        ("queue/amd64%20", BAD_NAME),
        ("queue/%ff", "400 BadPath"),
        ("queue/%", BAD_NAME),
        ("queue/", "404 NoRoute"),
        ("queue/amd64/", "404 NoRoute"),
        ("queue/amd64/hello", "404 NoRoute"),
        ("queue?arch=amd64", "404 NoRoute"),
        ("state/amd64/Needs-Build", '200 {"arch":"amd64","records":[],"state":"Needs-Build"}'),
        ("state/amd64/BD-Uninstallable", '200 {"arch":"amd64","records":[],"state":"BD-Uninstallable"}'),
        ("state/amd64/Build%2DAttempted", '200 {"arch":"amd64","records":[],"state":"Build-Attempted"}'),
        ("state/arm64/Needs-Build", listed("Needs-Build", HELLO | WAITING, LIBSIGC | WAITING, ZLIB | WAITING)),
        ("state/arm64/%4E%65eds-Build", listed("Needs-Build", HELLO | WAITING, LIBSIGC | WAITING, ZLIB | WAITING)),
        ("state/amd64/needs-build", BAD_NAME),
        ("state/amd64/Needs_Build", BAD_NAME),
        ("state/amd64/Needs-Build%20", BAD_NAME),
        ("state/amd64/Failed%00", BAD_NAME),
        ("state/amd64/Failed%2", BAD_NAME),
        ("state/amd64/Failed?x", BAD_NAME),
        ("state/amd64/0", BAD_NAME),
        ("state/amd64/Auto-Not-For-Us", BAD_NAME),
        ("state/armhf/Auto-Not-For-Us", BAD_NAME),
        ("state/AMD64/Failed", BAD_NAME),
        ("state/armhf/Failed", UNKNOWN_ARCH),
        ("state/amd64/%c3%28", "400 BadPath"),
        ("state/%ff/Auto-Not-For-Us", "400 BadPath"),
        ("state/amd64", "404 NoRoute"),
        ("state/amd64/", "404 NoRoute"),
        ("state//Failed", "404 NoRoute"),
        ("state/amd64/Failed/", "404 NoRoute"),
        ("state/amd64/Failed/hello", "404 NoRoute"),
        ("depends/amd64/hello", needs("amd64", "hello", "debhelper-compat (= 13), libx-dev, libz-dev (>= 1)")),
        ("depends/amd64/libsigc%2B%2B-2.0", needs("amd64", "libsigc++-2.0", None)),
        ("depends/arm64/libsigc++-2.0", '200 {"arch":"arm64","depends":null,"source":"libsigc++-2.0"}'),
        ("depends/arm64/zlib", '200 {"arch":"arm64","depends":"","source":"zlib"}'),
        ("depends/amd64/bash", UNKNOWN_SOURCE),
        ("depends/armhf/bash", UNKNOWN_ARCH),
        ("depends/armhf/Bash", BAD_NAME),
        ("depends/source/bash", BAD_NAME),
        ("depends/amd64/%fe", "400 BadPath"),
        ("depends/amd64", "404 NoRoute"),
        ("summary/amd64", ALL_BUILT),
        ("summary/arm64", counted(7, "arm64", Needs_Build=3)),
        ("summary/amd6%34", ALL_BUILT),
        ("summary/armhf", UNKNOWN_ARCH),
        ("summary/all", BAD_NAME),
        ("summary/amd64?", BAD_NAME),
        ("summary/amd64%0A", BAD_NAME),
        ("summary/" + "a" * 40, UNKNOWN_ARCH),
        ("summary/" + "a" * 41, BAD_NAME),
        ("summary/\u00e9", BAD_NAME),
        ("summary/%e9", "400 BadPath"),
        ("summary", "404 NoRoute"),
        ("office", BEGUN_WITH),
        ("office/", "404 NoRoute"),
        ("office/amd64", "404 NoRoute"),
        ("office?", "404 NoRoute"),
        ("offic%65", "404 NoRoute"),
        ("Office", "404 NoRoute"),
        ("archs", ok(accepted=7, archs=ARCHS)),
        ("archs/", "404 NoRoute"),
        ("archs/amd64", "404 NoRoute"),
        ("archs%2F", "404 NoRoute"),
        ("arch", "404 NoRoute"),
        ("builders", ok(accepted=7, builders=BUILDERS)),
        ("builders/", "404 NoRoute"),
        ("builders/b1", "404 NoRoute"),
        ("builder", "404 NoRoute"),
    )
]
QUERIES += [
    (b"GET /v1/summary/amd64 HTTP/1.0\nContent-Length: x\nTransfer-Encoding: chunked\n\n{", ALL_BUILT),
    (b"GET /v1/queue/amd64 HTTP/1.1\r\nContent-Length: 5\r\n\r\n", '200 {"arch":"amd64","queue":[]}'),
    (b"GET /v1/office HTTP/1.0\n\n", BEGUN_WITH),
    (posted("office", "{}"), "405 WrongMethod"),
    (posted("archs", '{"arch":"amd64"}'), "405 WrongMethod"),
    (b"HEAD /v1/builders HTTP/1.1\r\n\r\n", "405 WrongMethod"),
]

# Commands that bring records of arm64 into each state, with queries after them.
NOTED = {"note": "n"}
LIBSIGC_TAKES = '{"arch":"arm64","builder":"b3","source":"libsigc++-2.0","version":"2.12.0-1"}'
STATES_AND_QUERIES = [
    (posted("next", '{"arch":"arm64","builder":"b2"}'), assigned(8, 1, "next", "zlib", "1:1.2")),
    (got("queue/arm64"), queued("arm64", libsigc="2.12.0-1", hello="1.0-1")),
    (got("office"), ok(accepted=8, handed=1)),
    (got("state/arm64/Building"), listed("Building", ZLIB | WAITING | HELD | {"state": "Building"})),
    (got("state/arm64/Needs-Build"), listed("Needs-Build", HELLO | WAITING, LIBSIGC | WAITING)),
    (got("summary/arm64"), counted(8, "arm64", Building=1, Needs_Build=2)),
    (got("summary/amd64"), counted(8, "amd64", Installed=3)),
    (posted("built", '{"take":1}'), ok(accepted=9, ok="built")),
    (got("state/arm64/Building"), listed("Building")),
    (got("state/arm64/Built"), listed("Built", ZLIB | WAITING | HELD | {"state": "Built"})),
    (got("summary/arm64"), counted(9, "arm64", Built=1, Needs_Build=2)),
    (posted("uploaded", '{"take":1}'), ok(accepted=10, ok="uploaded")),
    (got("state/arm64/Uploaded"), listed("Uploaded", ZLIB | WAITING | HELD | {"state": "Uploaded"})),
    (posted("take", LIBSIGC_TAKES), assigned(11, 2, "take", "libsigc++-2.0", "2.12.0-1")),
    (posted("attempted", '{"take":2,"reason":"n"}'), ok(accepted=12, ok="attempted")),
    (
        got("state/arm64/Build-Attempted"),
        listed("Build-Attempted", LIBSIGC | WAITING | NOTED | {"state": "Build-Attempted"}),
    ),
    (
        posted("dep-wait", '{"arch":"arm64","source":"hello","version":"1.0-1","relations":"libz (> 1)"}'),
        ok(accepted=13, ok="dep-wait"),
    ),
    (got("state/arm64/Dep-Wait"), listed("Dep-Wait", HELLO | WAITING | {"state": "Dep-Wait", "waits": "libz (>= 1)"})),
    (got("queue/arm64"), '200 {"arch":"arm64","queue":[]}'),
    (got("summary/arm64"), counted(13, "arm64", Build_Attempted=1, Dep_Wait=1, Uploaded=1)),
    (got("depends/arm64/hello"), needs("arm64", "hello", "debhelper-compat (= 13), libx-dev, libz-dev (>= 1)")),
    (posted("fail", '{"arch":"arm64","source":"hello","version":"1.0-1","note":"n"}'), ok(accepted=14, ok="fail")),
    (got("state/arm64/Failed"), listed("Failed", HELLO | WAITING | NOTED | {"state": "Failed"})),
    (
        posted("not-for-us", '{"arch":"arm64","source":"hello","version":"1.0-1","note":"n"}'),
        ok(accepted=15, ok="not-for-us"),
    ),
    (got("state/arm64/Not-For-Us"), listed("Not-For-Us", HELLO | WAITING | NOTED | {"state": "Not-For-Us"})),
    (posted("give-back", '{"arch":"arm64","source":"zlib","version":"1:1.2"}'), ok(accepted=16, ok="give-back")),
    (reported("arm64", "zlib 1:1.2 uninstallable n"), ok(accepted=17, changed=1, ok="report")),
    (
        got("state/arm64/BD-Uninstallable"),
        listed("BD-Uninstallable", ZLIB | WAITING | NOTED | {"state": "BD-Uninstallable"}),
    ),
    (got("summary/arm64"), counted(17, "arm64", BD_Uninstallable=1, Build_Attempted=1, Not_For_Us=1)),
    (
        posted("rebuild", '{"arch":"amd64","source":"hello","version":"1.0-1","number":7,"message":"m"}'),
        ok(accepted=18, ok="rebuild"),
    ),
    (
        posted("rebuild", '{"arch":"amd64","source":"zlib","version":"1:1.2","number":1,"message":""}'),
        ok(accepted=19, ok="rebuild"),
    ),
    (got("queue/amd64"), queued("amd64", zlib="1:1.2+b1", hello="1.0-1+b7")),
    (
        posted("build-priority", '{"arch":"amd64","source":"hello","version":"1.0-1","value":1}'),
        ok(accepted=20, ok="build-priority"),
    ),
    (got("queue/amd64"), queued("amd64", hello="1.0-1+b7", zlib="1:1.2+b1")),
    (got("state/amd64/Installed"), ok(arch="amd64", records=[LIBSIGC], state="Installed")),
    (got("summary/amd64"), counted(20, "amd64", Installed=1, Needs_Build=2)),
]
