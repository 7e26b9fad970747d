"""What tools/tests/test_lists.py and tools/tests/test_merge_archive.py are made of: lists, what is wanted of them,
stubs of other programs, and what these say. All was written by hand: lists after Debian Policy, and answers after what
dose-builddebcheck 7.0 and ben 0.10 write.
"""

# ---- dpkg's tables, made small

TABLES = {
    "cputable": "# Version=1.0\namd64\tx86_64\t(amd64|x86_64)\t64\tlittle\narm\tarm\tarm.*\t32\tlittle\n"
    "arm64\taarch64\taarch64\t64\tlittle\n"
    "i386\ti686\ti686\t32\tlittle\n",
    "tupletable": "# Version=1.0\n#\nbase-musl-linux-<cpu>\tmusl-linux-<cpu>\neabihf-gnu-linux-arm\t\tarmhf\n"
    "x32-gnu-linux-amd64\tx32\n"
    "base-gnu-linux-<cpu>\t<cpu>\nbase-gnu-hurd-<cpu>\thurd-<cpu>\nbase-gnu-kfreebsd-<cpu>\tkfreebsd-<cpu>\n",
}


# ---- lists to prepare


def source(entries: str = "", archs: str = "any", keys: str = "Priority: optional\nSection: misc\n") -> str:
    """A paragraph of a Sources list with these lines of Package-List."""
    package_list = "Package-List:\n" + "".join(f" {line}\n" for line in entries.splitlines()) if entries else ""
    return (
        f"Package: aa\nBinary: aa, bb,\n cc\nVersion: 1:1.0~rc1-2\n{keys}Architecture: {archs}\n{package_list}Files:\n"
        " 0123 45 aa.dsc\n"
    )


# Lines of Package-List, and the priority and section that a build for amd64 and one for armhf has of them.
KEYS = [
    ("aa deb libs optional arch=any\nbb deb admin required arch=any", "required admin", "required admin"),
    ("aa deb libs optional arch=any\nbb deb admin required arch=all", "optional libs", "optional libs"),
    (
        "aa deb net standard arch=any\nbb deb web standard arch=any\ncc deb doc extra arch=any", "standard net",
        "standard net",
    ),
    ("aa deb libs optional arch=any\nbb deb shells important arch=amd64,i386", "important shells", "optional libs"),
    ("aa deb libs optional arch=any-arm,hurd-any\nbb deb shells extra arch=linux-any", "extra shells", "optional libs"),
    ("aa deb libs optional arch=any\nbb deb shells required arch=any-linux-amd64", "required shells", "optional libs"),
    ("aa deb libs optional arch=any\nbb deb kernel required arch=any profile=stage1", "optional libs", "optional libs"),
    (
        "aa deb libs optional arch=any\nbb deb kernel required arch=any profile=!stage1,!nocheck", "required kernel",
        "required kernel",
    ),
    (
        "aa deb libs optional arch=any\nbb deb kernel required arch=any profile=!stage1,cross", "optional libs",
        "optional libs",
    ),
    (
        "aa deb libs optional arch=any\nbb deb kernel required arch=any profile=stage1,cross+!nodoc", "required kernel",
        "required kernel",
    ),
    (
        "aa deb contrib/games optional arch=any protected=yes essential=yes", "optional contrib/games",
        "optional contrib/games",
    ),
    ("aa-udeb udeb debian-installer standard arch=any\nbb deb net optional arch=any", "optional net", "optional net"),
    (
        "aa-udeb udeb debian-installer standard arch=any\nbb deb net optional arch=amd64", "optional net",
        "standard debian-installer",
    ),
    ("aa deb web extra\nbb deb net optional", "optional net", "optional net"),
    ("aa deb web unknown arch=any\nbb deb net extra arch=any", "extra net", "extra net"),
    ("aa deb web unknown arch=any", "optional misc", "optional misc"),
    ("aa deb doc extra arch=all", "optional misc", "optional misc"),
    ("aa\tdeb  doc\textra \tarch=any ", "extra doc", "extra doc"),
]


GOOD = source("aa deb libs extra arch=any") + "\n"
MALFORMED = [
    (GOOD + GOOD[:-1], "paragraph 2, the last: no empty line ends it"),
    (GOOD + GOOD[:-2], "paragraph 2, the last: no empty line ends it"),
    (
        GOOD + GOOD[: GOOD.index("Files") + 3],
        "paragraph 2, line 22: it is no field, which has a name and a colon; no empty line ends it",
    ),
    (GOOD + GOOD[: GOOD.index("Version")] + "\n", "paragraph 2: it has no Version"),
    (GOOD.replace("\n", "\r\n"), "Sources: paragraph 1, line 1: it ends with a carriage return"),
    ((GOOD * 40000).replace("\n", "\r\n"), "Sources: paragraph 1, line 1: it ends with a carriage return"),
    (GOOD + GOOD.replace("Files:", "Files:\r"), "paragraph 2, line 22: it ends with a carriage return"),
    ("\ufeff" + GOOD, "Sources: paragraph 1, line 1: it begins with a byte order mark"),
    (GOOD + GOOD.replace("Version:", "Version"), "paragraph 2, line 16: it is no field"),
    (GOOD + " x\n\n", "paragraph 2, line 13: it continues no field"),
    (GOOD[:-1] + GOOD, "paragraph 1, line 12: a second field package"),
    (GOOD + "# a comment\n\n", "paragraph 2, line 13: it is no field"),
    (GOOD.encode() + GOOD.encode().replace(b"aa.dsc", b"\xe4"), "paragraph 2: it is not UTF-8"),
    (GOOD + GOOD.replace("1:1.0~rc1-2", "1:"), "paragraph 2: its Version is malformed: '1:'"),
    (GOOD + GOOD.replace("Package: aa", "Package: A"), "paragraph 2: its Package is malformed: 'A'"),
    (GOOD + GOOD.replace("Architecture: any", "Architecture:"), "paragraph 2: its Architecture is malformed"),
    (GOOD + GOOD.replace("libs extra arch=any", "libs"), "paragraph 2: a line of its Package-List"),
    (GOOD + GOOD.replace("libs", "\xe4"), "paragraph 2: a line of its Package-List"),
    (GOOD + "\xfd7zXZ" + "x" * 4194304, "paragraph 2 has more than 4194304 bytes"),
    (b"\x1f\x8b\x08\0\0", "Sources: it is compressed by gzip; uncompress it"),
    (b"\xfd7zXZ\0\0", "Sources: it is compressed by xz; uncompress it"),
    (b"\x28\xb5\x2f\xfd\0", "Sources: it is compressed by zstd; uncompress it"),
    (b"BZh9\0", "Sources: it is compressed by bzip2; uncompress it"),
    ("", "it has no paragraph"),
    ("\n \n", "it has no paragraph"),
]


# ---- stubs of apt

# A stub of apt-get: `update` puts the files of the folder `archive` where apt keeps what it fetched, and `indextargets`
# names those that are there.
APT_GET = r"""
case $* in
*update*)
    cp "$APT_CONFIG" "$STUB/config"
    root=$(sed -n 's/^Dir "\(.*\)";$/\1/p' "$APT_CONFIG")
    cp "$root"/etc/apt/sources.list.d/* "$STUB/asked"
    cp "$STUB"/archive/* "$root/state/lists/"
    echo "Get:1 all" >&2
    exit "${UPDATE:-0}" ;;
*indextargets*Created-By*) cat "$STUB/machine" ;;
*indextargets*)
    root=$(sed -n 's/^Dir "\(.*\)";$/\1/p' "$APT_CONFIG")
    mirror=$(sed -n 's/^URIs: //p' "$STUB/asked" | head -n 1)
    while IFS='|' read -r kind suite component arch file; do
        [ -e "$root/state/lists/$file" ] && echo "$mirror|$kind|$suite|$component|$arch|$root/state/lists/$file"
    done < "$STUB/targets" ;;
*) exit 9 ;;
esac
exit 0
"""
APT_CONFIG = r"""
case $1 in
dump) printf '%s\n' 'Acquire::http::Proxy "proxy";' 'APT::Update::Post-Invoke:: "false";' \
    'Acquire::GzipIndexes "true";' ;;
shell) printf "%s\n" "trusted='/keys/trusted.gpg'" "trustedparts='/keys/trusted.gpg.d/'" ;;
esac
"""
PACKAGE = "Package: {}\nVersion: 1\n"


# ---- the program

# A stub of wb: it keeps of each source package its version, and whether a Packages list has it, and answers the lines
# of an operator and requests.
WB = r"""#!/usr/bin/env python3
import http.server, json, os, sys

MAGIC = b"SQLite format 3\0"
store, word = sys.argv[2:4]
LISTS = sys.argv[sys.argv.index("--lists") + 1] if "--lists" in sys.argv else None


class Answer(http.server.BaseHTTPRequestHandler):
    def say(self, status, answer):
        body = json.dumps(answer, separators=(",", ":")).encode()
        self.send_response(status)
        self.send_header("Content-Length", str(len(body)))
        self.end_headers()
        self.wfile.write(body)

    def do_GET(self):
        _, _, query, *words = self.path.split("/")
        if not words:
            is_known = query == "merge" and LISTS
            return self.say(405 if is_known else 404, {"http": "WrongMethod" if is_known else "NoRoute"})
        is_lost = query == "summary" and words[0] not in read_records()
        self.say(404 if is_lost else 200, {"refused": "UnknownArch"} if is_lost else {})

    def do_POST(self):
        asked, records = json.loads(self.rfile.read(int(self.headers["Content-Length"]))), read_records()
        if self.path == "/v1/report":
            return self.say(200, {"accepted": 1, "changed": 0, "ok": "report"})
        [part] = asked["parts"]
        answer = merge(records, f"{LISTS}/{asked['sources']}", f"{part['arch']}={LISTS}/{part['packages']}")
        write_records(records)
        self.say(404 if "refused" in answer else 200, answer)


def read_records():
    data = open(store, "rb").read() if os.path.exists(store) else b""
    return json.loads(data[len(MAGIC) :] or b"{}")


def write_records(records):
    open(store, "wb").write(MAGIC + json.dumps(records).encode())


def names_of(path, arch):
    found = {}
    for paragraph in open(path, encoding="utf-8", errors="replace").read().split("\n\n"):
        fields = dict(line.split(": ", 1) for line in paragraph.split("\n") if ": " in line and line[0] != " ")
        if fields and fields["Architecture"] in ("any", arch):
            found[fields["Package"]] = fields["Version"]
    return found


def merge(records, sources, part):
    arch, _, packages = part.partition("=")
    if arch not in records:
        return {"code": 5, "refused": "UnknownArch"}
    old, built = records[arch], names_of(packages, arch)
    new = {name: [version, built.get(name) == version] for name, version in names_of(sources, arch).items()}
    records[arch] = new
    both = old.keys() & new.keys()
    changed = sum(old[name] != new[name] for name in both)
    counts = {"added": len(new) - len(both), "changed": changed}
    counts |= {"kept": len(both) - changed, "removed": len(old) - len(both)}
    return {"accepted": 1, "ok": "merge", "parts": [{"arch": arch, **counts}]}


def carry_out(records, word, first, *rest):
    if word == "merge":
        return merge(records, first, *rest)
    if word == "summary":
        return {} if first in records else {"code": 5, "refused": "UnknownArch"}
    if word == "add-arch":
        records[first] = {}
    if word == "enter":
        if rest[0] in records[first]:
            return {"code": 6, "refused": "AlreadyThere"}
        records[first][rest[0]] = [rest[1], False]
    return {"accepted": 1, "ok": word}


if word == "serve":
    http.server.HTTPServer(("127.0.0.1", int(sys.argv[5])), Answer).serve_forever()
records = read_records()
refused = False
while True:
    write_records(records)
    line = sys.stdin.readline()
    if not line:
        sys.exit(refused)
    answer = carry_out(records, *line.split())
    refused = refused or "refused" in answer
    print(json.dumps(answer, separators=(",", ":")), flush=True)
"""


# ---- dose-builddebcheck

# A stub of dose-builddebcheck, which keeps what it was asked.
DOSE = (
    'printf "%s\\n" "$@" > "$STUB/words"; for last; do :; done; cp "$last" "$STUB/picked"; cat "$STUB/answer"; exit '
    '"${STATUS:-1}"\n'
)


def broken(source: str, version: str, reasons: str) -> str:
    head = (
        f" -\n  package: {source}\n  version: {version}\n  architecture: amd64\n  type: src\n  status: broken\n"
        "  reasons:\n"
    )
    return head + reasons.format(source=source, version=version)


def answer(entries: list[str], sources: int, native: str = "amd64") -> str:
    head = f"output-version: 1.2\nnative-architecture: {native}\nhost-architecture: {native}\nreport:\n"
    return (
        head
        + "".join(entries)
        + f" \nbinary-packages: 11\nsource-packages: {sources}\nbroken-packages: {len(entries)}\n"
    )


MISSING = """   -
    missing:
     pkg:
      package: {source}
      version: {version}
      architecture: amd64
      type: src
      unsat-dependency: libx-dev:amd64 (>= 2) | liby:any
"""
DEEP = """   -
    missing:
     pkg:
      package: libz-dev
      version: 1:1.0-1+b1
      architecture: amd64
      unsat-dependency: cc:amd64
     depchains:
      -
       depchain:
        -
         package: {source}
         version: {version}
         architecture: amd64
         type: src
         depends: libz-dev:amd64 (>= 1:1.0)
"""
CONFLICT = """   -
    conflict:
     pkg1:
      package: bb
      version: 1.0
      architecture: amd64
      unsat-conflict: dd:amd64
     pkg2:
      package: dd
      version: 1.0
      architecture: amd64
     depchain1:
      -
       depchain:
        -
         package: {source}
         version: {version}
         architecture: amd64
         type: src
         depends: bb:amd64
"""
ENTRIES = [broken("s1", "1:1.0~rc1-1", MISSING), broken("s3", "3", DEEP + CONFLICT + DEEP)]
REPORT = """s1 1:1.0~rc1-1 uninstallable libx-dev (>= 2) | liby:any is missing
s2 2.00-1 installable
s3 3 uninstallable cc is missing, on which libz-dev depends; bb conflicts with dd
"""
ASKED = "s1 1:1.0~rc1-1\n\n s2\t2.00-1 \ns3 3\n"


# ---- ben

LEVELS = {
    "0": {"liba": {"amd64": "bad", "armhf": "bad"}, "libg": {"amd64": "good"}, "libn": {"amd64": "bad"}},
    "1": {"app": {"amd64": "bad", "armhf": "unknown"}, "half": {"amd64": "partial"}, "tool": {"amd64": "bad"}},
    "10": {"late": {"amd64": "bad"}, "gone": {"amd64": "bad"}, "peer": {"amd64": "bad"}},
    "11": {"top": {"amd64": "bad"}},
}
BEN_SOURCES = """Package: liba
Version: 1:1.0-1
Architecture: any all

Package: app
Version: 2.0-1
Architecture: any
Build-Depends: debhelper, libg-dev, liba-dev (>= 1:0.9) [linux-any], liba-data, other [!amd64] | libn-dev:native,
 no-dev <cross> | liba-tools <!nocheck> <cross>, first | liba-other

Package: libn
Version: 3.0-2
Architecture: any

Package: libn
Version: 3.0-3
Architecture: any
Extra-Source-Only: yes

Package: half
Version: 4+b1
Architecture: any
Build-Depends: liba-dev

Package: tool
Version: 5-1
Architecture: linux-amd64

Package: tool
Version: 5-0
Architecture: any

Package: late
Version: 6-1
Architecture: any
Build-Depends: app
Build-Depends-Arch: peer, tool | app, liba-dev [armhf]

Package: peer
Version: 7-1
Architecture: any

Package: top
Version: 9-1
Architecture: any
Build-Depends: peer, late (>= 6)

Package: gone
Version: 8-1
Architecture: armhf

"""
BEN_PACKAGES = [
    "liba-dev amd64 1:1.0-1+b4 liba (1:1.0-1)",
    "liba-tools amd64 9:1.0+b4 liba (1:1.0-1)",
    "liba-other amd64 1:1.0-1+b4 liba (1:1.0-1)",
    "liba-old amd64 1:0.8-1+b9 liba (1:0.8-1)",
    "liba-data all 1:1.0-1 liba",
    "app amd64 2.0-1 ",
    "libn-dev amd64 3.0-1+b7 libn (3.0-1)",
    "libn-doc all 3.0-2 libn",
    "half amd64 4+b1 ",
    "tool amd64 5-1+b998 tool (5-1)",
    "late amd64 6-1+b1 late (6-1)",
    "peer amd64 7-1+b999 peer (7-1)",
    "top amd64 9-1 ",
]
REBUILDS = """rebuild amd64 liba 1:1.0-1 5 against libx2
rebuild amd64 app 2.0-1 1 against libx2
dep-wait amd64 app 2.0-1 liba-dev (>= 1:1.0-1+b5), libn-dev (>= 3.0-2), liba-tools (>= 9:1.0+b5)
rebuild amd64 tool 5-1 999 against libx2
rebuild amd64 late 6-1 2 against libx2
dep-wait amd64 late 6-1 app (>= 2.0-1+b1), tool (>= 5-1+b999)
rebuild amd64 top 9-1 1 against libx2
dep-wait amd64 top 9-1 late (>= 6-1+b2)
"""
BEN_MESSAGES = [
    "armhf liba: no rebuild: 1:1.0-1 is still to be built",
    "amd64 libn: no rebuild: 3.0-2 is still to be built",
    "amd64 app: no wait for liba-data, of which liba builds no later version that can be told",
    "amd64 top: no wait for peer, of which peer builds no later version that can be told",
    "amd64 gone: no rebuild: the Sources list does not have it",
    "amd64 peer: no rebuild: it was rebuilt 999 times",
]
