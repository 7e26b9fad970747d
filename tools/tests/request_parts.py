"""What tools/tests/test_requests.py makes requests of: parts of reports, build dependencies, and what mutation puts
into requests."""
from office_model import ARCHS

# Build dependencies, and how they are printed for each architecture; nothing if they cannot be read.
NEEDED = [
    ("", dict.fromkeys(ARCHS, "")), ("libz (> 1) [amd64], cc", {"amd64": "libz (>= 1), cc", "arm64": "cc"}),
    ("aa (1)", {}),
]
NEEDED += [
    ("libq [!arm64] <!nocheck>", {"amd64": "libq", "arm64": ""}),
    ("gcc:native | cc <doc>, perl", dict.fromkeys(ARCHS, "gcc:native, perl")),
]

# Reasons of a report, and lines of which most are bad.
REASONS = [
    "libfoo missing", "", " x\t y ", "x" * 1000, "x" * 1001, "\u00e4" * 501, "g\u00fcltig\r", "installable",
    "\x00\u2028",
]
ODD_LINES = [
    "", " \t", "\r", "src1", "src1 1.0", "src1 1.0 built", "src1 1.0 installable now", "src1 1.0 installable\r",
    "# src1 1.0 installable",
]
ODD_LINES += [
    "nosuch 1.0 installable", "_ 1.0 installable", "src1 1: uninstallable x", "src1\u00a01.0 installable x",
    "Src1 1.0 installable",
]

# Names of architectures that are added, words of their systems and processors, and priorities and sections of what is
# entered, of which some are malformed.
ARCH_NAMES = ["riscv64", "s390x", "ppc64el", "loong64", "x32", "armhf", "amd64", "any", "Hurd", "a" * 40, "a" * 41, ""]
ARCH_WORDS = ["linux", "hurd", "arm", "s390x", "a" * 20, "any", "x86_64", "a" * 21, ""]
LABELS = ["required", "extra", "devel", "contrib/net", "a/b/net", '"', "\\", "~" * 64, "~" * 65, "", "a b", "\x7f"]
LABELS += ["\u00e4"]

# What is put into requests: versions, parts of targets, whole targets, fields, bytes, and values as JSON or nearly so.
VERSIONS = [
    b"HTTP/1.0", b"HTTP/1.1", b"HTTP/1.2", b"HTTP/2.0", b"HTTP/0.9", b"http/1.1", b"HTTP/1.10", b"HTTP/11", b"HTTP/1,1",
    b"", b"HTTP/1.1 ",
]
TARGET_PARTS = [
    b"%2f", b"%2F", b"%", b"%%", b"%4", b"%zz", b"%00", b"%ff", b"%c3%a4", b"%C3", b"%252b", b"%2b", b"/", b"?a=1",
    b"#x", b"..",
]
TARGET_PARTS += [b"\xc3\xa4", b"\xff", b" "]
TARGETS = [
    b"*", b"/", b"//v1/next", b"/v1/next/", b"/V1/next", b"http://localhost/v1/next", b"/v1/item/amd64", b"/v1/item//",
    b"/v1/mine/", b"/v1/merge", b"",
]
FIELDS = [
    b"Transfer-Encoding: chunked", b"transfer-encoding: identity", b"Expect: 100-continue", b"Connection: keep-alive",
    b"Content-Length : 3",
]
FIELDS += [
    b"Content-Type: text/plain", b"X:", b": x", b"no colon", b"X: \x00", b"X: \x7f", b"X: \xff\tb", b"X: a\rb",
    b"X\x80: b", b'"X": b', b"", b"\t",
]
FIELDS += [b" folded", b"Origin: null", b"sec-fetch-site: cross-site", b"Sec-Fetch-Site: none"]
BYTES = [b"\r\n", b"\n", b"\r", b"\x00", b'"', b"\\", b" ", b"{", b"\xc3"]
OTHERS = [
    "null", "true", "[]", "{}", '""', "0", "1", "-1", "-0", "1.0", "1e0", "1E400", "1e-400", "01", "+1", ".5", "0x1",
    "NaN", "Infinity", "1,",
]
OTHERS += [str(value) for limit in (2**64, 2**63, -(2**63)) for value in (limit - 1, limit)] + [
    "9" * 400, '"1"', '"amd64"', '"AMD64"', '"any"', '"b1"',
]
OTHERS += [
    '"src1"', '"1.0"', '"\\u0000"', '"\\ud83d\\ude00"', '"\\ud800"', '"\\udc00\\ud800"', '"\\x"', '"a\tb"', '"a', "'a'",
    ",", "", "/**/1", "tru",
]
OTHERS += [
    '"' + "a" * 41 + '"', '"' + "a" * 201 + '"', '"' + "1" * 1001 + '"', '{"a":{"a":1},"a":2}', '"\u00e4\u4e2d"',
    '"' + "liba | " * 10000 + 'libb"',
]
OTHERS += ["[" * 127 + "]" * 127, "[" * 200 + "]" * 200, "[" * 3000 + "]" * 3000, "[" * 3000]
