"""Queries and reports with what is answered to them, for tools/tests/test_run.py, which asks by lines of a run and by
words of the program, and for tools/tests/test_serve.py, which asks over HTTP. The answers are stated here by hand,
after docs/PROTOCOL.md; none by the program.
"""
FIVE = [
    "add-arch amd64 linux amd64", "add-builder b1 amd64", "enter amd64 hello 1.0 optional devel", "next amd64 b1",
    "next amd64 b1",
]

HELLO = (
    '{"arch":"amd64","build":"1.0","build_priority":0,"earlier":false,"holder":%s,"message":"","note":"%s","number":0,'
    '"priority":"optional",'
    '"section":"devel","source":"hello","state":"%s","take":%s,"version":"1.0","waits":""}'
)
HELD = HELLO % ('"b1"', "", "Building", "1")


def hello(state, note):
    """The record of `hello` without a holder."""
    return HELLO % ("null", note, state, "null")


def counts(accepted, **others):
    """The answer to `summary amd64`, with the counts that are not 0; an underscore stands for a hyphen."""
    states = (
        "BD-Uninstallable Build-Attempted Building Built Dep-Wait Failed Installed Needs-Build Not-For-Us Uploaded"
    ).split()
    shown = ",".join(f'"{state}":{others.get(state.replace("-", "_"), 0)}' for state in states)
    return f'{{"accepted":{accepted},"arch":"amd64","counts":{{{shown}}}}}'


def refused(code, name):
    return f'{{"code":{code},"refused":"{name}"}}'


BAD_NAME = refused(11, "BadName")

# Queries after the five lines: as a line, as a path, the status of the answer to the path, and the answer. Refused are
# those with another than 200.
QUERIES = [
    ("queue amd64", "queue/amd64", 200, '{"arch":"amd64","queue":[]}'),
    ("queue armhf", "queue/armhf", 404, refused(1, "UnknownArch")),
    ("queue all", "queue/all", 422, BAD_NAME),
    ("by-state amd64 Failed", "state/amd64/Failed", 200, '{"arch":"amd64","records":[],"state":"Failed"}'),
    (
        "by-state amd64 Building", "state/amd64/Building", 200,
        '{"arch":"amd64","records":[' + HELD + '],"state":"Building"}',
    ),
    ("by-state armhf Building", "state/armhf/Building", 404, refused(1, "UnknownArch")),
    ("by-state armhf Removed", "state/armhf/Removed", 422, BAD_NAME),
    ("by-state amd64 building", "state/amd64/building", 422, BAD_NAME),
    ("item amd64 hello", "item/amd64/hello", 200, HELD),
    ("item amd64 bash", "item/amd64/bash", 404, refused(4, "UnknownSource")),
    ("item armhf bash", "item/armhf/bash", 404, refused(1, "UnknownArch")),
    ("item armhf Bash", "item/armhf/Bash", 422, BAD_NAME),
    ("mine b1", "mine/b1", 200, '{"builder":"b1","records":[' + HELD + "]}"),
    ("mine b9", "mine/b9", 404, refused(2, "UnknownBuilder")),
    ("mine .b", "mine/.b", 422, BAD_NAME),
    ("depends amd64 hello", "depends/amd64/hello", 200, '{"arch":"amd64","depends":"","source":"hello"}'),
    ("depends amd64 bash", "depends/amd64/bash", 404, refused(4, "UnknownSource")),
    ("depends armhf hello", "depends/armhf/hello", 404, refused(1, "UnknownArch")),
    ("depends amd64 h", "depends/amd64/h", 422, BAD_NAME),
    ("summary amd64", "summary/amd64", 200, counts(4, Building=1)),
    ("summary armhf", "summary/armhf", 404, refused(1, "UnknownArch")),
    ("summary AMD64", "summary/AMD64", 422, BAD_NAME),
    ("office", "office", 200, '{"accepted":4,"handed":1}'),
    ("archs", "archs", 200, '{"accepted":4,"archs":[{"arch":"amd64","cpu":"amd64","os":"linux"}]}'),
    ("builders", "builders", 200, '{"accepted":4,"builders":[{"arch":"amd64","builder":"b1"}]}'),
]

# Reports in a row after the first three lines: the architecture, the text, the status over HTTP, the answer, and what
# `item amd64 hello` is answered then.
WAITS = hello("Needs-Build", "")
UNMET = hello("BD-Uninstallable", "libfoo missing")
REPORTS = [
    ("amd64", "hello 1.0 uninstallable libfoo missing\n", 200, '{"accepted":4,"changed":1,"ok":"report"}', UNMET),
    ("amd64", "hello 1.0 uninstallable \t libfoo missing \t\n", 200, '{"accepted":5,"changed":0,"ok":"report"}', UNMET),
    (
        "amd64",
        "hello 1.0 installable\nhello 1.0 installable\n",
        422,
        '{"code":16,"line":2,"refused":"BadReport"}',
        UNMET,
    ),
    ("amd64", "\n\nhello 1.0 installable\r\n", 422, '{"code":16,"line":3,"refused":"BadReport"}', UNMET),
    ("amd64", f"hello 1.0 uninstallable {'x' * 1001}", 422, '{"code":16,"line":1,"refused":"BadReport"}', UNMET),
    ("armhf", "hello 1.0 installable", 404, refused(1, "UnknownArch"), UNMET),
    ("armhf", "hello 1.0", 422, '{"code":16,"line":1,"refused":"BadReport"}', UNMET),
    ("AMD64", "hello 1.0", 422, BAD_NAME, UNMET),
    ("amd64", "\n \t\nhello 1.0 installable", 200, '{"accepted":6,"changed":1,"ok":"report"}', WAITS),
    ("amd64", "hello 2.0 uninstallable x\n", 200, '{"accepted":7,"changed":0,"ok":"report"}', WAITS),
    ("amd64", "", 200, '{"accepted":8,"changed":0,"ok":"report"}', WAITS),
    ("amd64", "bash 5 uninstallable x\n", 200, '{"accepted":9,"changed":0,"ok":"report"}', WAITS),
    (
        "amd64",
        f"hello 0:1.00 uninstallable {'x' * 1000}",
        200,
        '{"accepted":10,"changed":1,"ok":"report"}',
        hello("BD-Uninstallable", "x" * 1000),
    ),
    (
        "amd64",
        "hello 1.0 uninstallable\r\n",
        422,
        '{"code":16,"line":1,"refused":"BadReport"}',
        hello("BD-Uninstallable", "x" * 1000),
    ),
    (
        "amd64",
        "hello 1.0 uninstallable \r\n",
        200,
        '{"accepted":11,"changed":1,"ok":"report"}',
        hello("BD-Uninstallable", r"\r"),
    ),
]
COUNTED = counts(11, BD_Uninstallable=1)

# A list of two source packages, of which the second has build dependencies that cannot be read, and what `depends` is
# answered once it is merged.
SOURCES = """Package: xx
Version: 1.0
Architecture: any
Build-Depends: debhelper-compat (= 13), gcc-multilib [i386], libx-dev <!nocheck>
Build-Depends-Arch: libz-dev (> 1)

Package: yy
Version: 1.0
Architecture: any
Build-Depends: libx-dev (1)
"""
DEPENDS = [
    (
        "depends amd64 xx", "depends/amd64/xx",
        '{"arch":"amd64","depends":"debhelper-compat (= 13), libx-dev, libz-dev (>= 1)","source":"xx"}',
    ),
    ("depends amd64 yy", "depends/amd64/yy", '{"arch":"amd64","depends":null,"source":"yy"}'),
]
