#!/usr/bin/env python3
"""Tests of the page of tools/bin/wb-status as a person sees it: what stands in it of builders, days and journals; and
in a browser, at the widths of phones and desks, in light and dark, that no text is broken inside a word, that nothing
is wider than the screen, and that an old page says so in red.

    tools/tests/test_page.py [NAME..]     these tests, or all

chromium is called where it is installed; without it the tests in a browser are left out. All that is wanted was written
by hand.
"""
import re
import sys
import time

from harness import ROOT, expect, main
from look_runs import in_browser
from test_history import Journal, call, example, on
from test_status import StandIn, counts, expect_the_example, line, page_of, record
from wb_tools.style import STYLE

EXAMPLE = ROOT / "examples" / "status"
WIDTHS = (320, 390, 768, 1280)
DARK, LIGHT = ("--blink-settings=preferredColorScheme=%d" % which for which in (0, 1))
NAMES = "libreoffice datefudge devscripts node-babel-plugin-add-module-exports openjdk-21 gcc-14".split()
NAMES.append("golang-github-containernetworking-plugin-dnsname")


def page(folder, said, *words, **options):
    return call(folder, *words, script="wb-status", said=said, **options)


def sample(archs=("amd64", "arm64")):
    """Answers, and the journal of them, of architectures on which each package is in each state that a page lists."""
    journal, said = Journal(), b""
    for arch in archs:
        lists = {state: [] for state in ("Building", "Built", "Uploaded", "Dep-Wait", "Build-Attempted")}
        for at, name in enumerate(NAMES):
            take = journal.hand_out(on(10, f"{at:02}:13:00"), f"x86-csail-{at:02}", name, "4:25.2.3-2", arch=arch)
            state = ("Building", "Built", "Uploaded")[at % 3]
            for reported in ("built", "uploaded")[: at % 3]:
                journal.add(on(11 if reported == "built" else 12, f"{at:02}:40:00"), reported, take=take)
            fields = {"arch": arch, "build": "4:25.2.3-2+b1"}
            held = {"holder": f"x86-csail-{at:02}", "take": take, "message": "Rebuild against libfoo2"}
            lists[state].append(record(name, state, **fields, **held))
            lists["Dep-Wait"].append(record(name, "Dep-Wait", **fields, waits="libclucene-dev (>= 3), liborcus-dev"))
            note = "dh_auto_test: error: /usr/lib/x86_64-linux-gnu/perl5/auto.so returned exit code 2"
            lists["Build-Attempted"].append(record(name, "Build-Attempted", **fields, note=note))
        numbers = counts(Needs_Build=7, Building=3, Built=2, Uploaded=2, Installed=15000, Dep_Wait=7, Build_Attempted=7)
        said += line(accepted=4711, arch=arch, counts=numbers | {"Failed": 2, "BD-Uninstallable": 4})
        said += line(arch=arch, queue=[{"build": "4:25.2.3-2+b1", "source": name} for name in NAMES])
        said += b"".join(line(arch=arch, records=found, state=state) for state, found in lists.items())
    return said, journal


# ---- what stands in it


def parts_builds_from_uploads(folder):
    """What is building now stands before what is built and what is uploaded, each in a table to which its state leads,
    with the time from which on it is there; of many uploads none pushes a build out."""
    said, journal = sample()
    (folder / "journal").write_bytes(journal.data())
    text = page(folder, said, "--journal", "journal", "--rows", "2")
    found = page_of(text)
    captions = ["Who builds what", "What is built, and not uploaded"]
    captions.append("What is uploaded, and not yet seen in the archive")
    places = [text.index(f"<caption>{caption}<") for caption in captions]
    expect(places == sorted(places), "the order of the tables")
    rows = [found.tables[caption][0][1:] for caption in captions]
    expect([len(one) for one in rows] == [3, 2, 2] and rows[0][2] == ["and 1 more"], f"{rows}")
    wanted = ["x86-csail-00", "1", "2026-04-10 00:13"], ["x86-csail-01", "2", "2026-04-11 01:40"]
    expect(tuple(one[0][1:] for one in rows[:2]) == wanted, f"since when: {rows}")
    expect(rows[2][0][1:] == ["x86-csail-02", "3", "2026-04-12 02:40"], f"since when it was uploaded: {rows[2]}")
    for state in ("building", "built", "uploaded"):
        expect(f'href="#amd64-{state}"' in text and f'id="amd64-{state}"' in text, f"no link leads to {state}")


def has_numbers_beside_bars(folder):
    """The first table has numbers beside its bars, failures among them, and a legend of the colors that it uses;
    numbers stand under their heads; and each place has a way back to the top."""
    text = page(folder, sample()[0])
    rows = page_of(text).tables["All architectures"][0]
    heads = ["Architecture", "States", "To build", "Building", "Waiting", "Failed", "Installed"]
    expect(rows[0] == heads, f"{rows[0]}")
    expect(rows[1] == ["amd64", "", "7", "3", "11", "9", "15,000"], f"{rows[1]}")
    legend = re.search('<ul class="legend"[^>]*>(.*?)</ul>', text)[1]
    marks = re.findall('<i class="([a-z-]+)"></i>([A-Za-z-]+)</li>', legend)
    expect(len(marks) == 9 and all(name.lower() == mark for mark, name in marks), f"the legend: {marks}")
    expect('<th scope="col" class="take">Take</th>' in text, "the head of Take")
    expect('href="#top"' in text and '<body id="top">' in text, "a way back to the top")
    expect("legend" not in page(folder, sample(("amd64",))[0]).partition("</style>")[2], "a legend without bars")


def reads_several_journals(folder):
    """A journal that was moved away and the one after it, in whatever order, and one on standard input; days before the
    first line are left out, and a day without a build is not."""
    said = line(accepted=20, arch="amd64", counts=counts(Building=1))
    said += line(arch="amd64", records=[record("zlib", "Building", holder="b1", take=4)], state="Building")
    (folder / "answers").write_bytes(said)
    lines = example().data().splitlines(keepends=True)
    (folder / "journal.1").write_bytes(b"".join(lines[:11]))
    (folder / "journal").write_bytes(b"".join(lines[11:]))

    def days(*words, given=b""):
        text = page(folder, given, *words, "answers")
        return dict(re.findall(r'<td class="day">2026-04-([0-9]+)</td><td class="number">([0-9,]+)</td>', text))

    whole = {"12": "0", "11": "0", "10": "1", "09": "1"}
    expect(days("--journal", "journal.1", "--journal", "journal") == whole, "two journals")
    expect(days("--journal", "journal", "--journal", "journal.1") == whole, "two journals, the later one first")
    expect(days("--journal", "-", given=b"".join(lines)) == whole, "a journal on standard input")
    expect(list(days("--journal", "journal")) == ["12", "11", "10"], "days before the first line")
    expect(days("--journal", "journal.1", "--journal", "-", given=b"".join(lines[11:])) == whole, "one of them there")
    for words in (["--journal", "-"], ["--journal", "-", "-"], ["--journal", "-", "--journal", "-", "answers"]):
        page(folder, b"", *words, status=2, message="standard input is read only once")
    page(folder, b"", "--journal", "none", "--journal", "journal", "answers", status=3, message="none: No such file")


def says_before_when(folder):
    """If the journal begins later than the office, what it does not name was there before its first line."""
    journal = Journal(4)
    take = journal.hand_out(on(11, "13:00:00"), "b7", "zlib", "1:1.4~rc1-1")
    (folder / "journal").write_bytes(journal.data())
    held = [record("hello", "Building", holder="b6", take=1), record("zlib", "Building", holder="b7", take=take)]
    said = line(accepted=5, arch="amd64", counts=counts(Building=2))
    said += line(arch="amd64", records=held, state="Building")
    found = page_of(page(folder, said, "--journal", "journal")).tables["Who builds what"][0]
    expect([row[3] for row in found[1:]] == ["before 2026-04-11 13:01", "2026-04-11 13:00"], f"{found}")


UNKNOWN = (404, b'{"code":1,"refused":"UnknownArch"}')


def shows_several_suites(folder):
    """One page of the offices of several suites, each with what its own journal says; what one of them lacks is left
    out there. The suite of a single office is not shown."""
    journal = Journal(4)
    take = journal.hand_out(on(11, "13:00:00"), "b7", "zlib", "1:1.4~rc1-1")
    (folder / "of=experimental").write_bytes(journal.data())
    held = record("zlib", "Building", holder="b7", take=take, build="1:1.4~rc1-1")
    others = {
        "/v1/summary/arm64": UNKNOWN,
        "/v1/summary/amd64": (200, line(accepted=5, arch="amd64", counts=counts(Building=1, Installed=40))),
        "/v1/queue/amd64": (200, line(arch="amd64", queue=[])),
        "/v1/state/amd64/Building": (200, line(arch="amd64", records=[held], state="Building")),
    }
    with StandIn() as sid, StandIn(others) as later:
        archs = ["--arch", "amd64", "--arch", "arm64"]
        urls = ["--url", f"sid={sid.url}", "--url", f"experimental={later.url}"]
        text = page(folder, b"", *urls, *archs, "--journal", "experimental=of=experimental")
        found = page_of(text)
        rows = found.tables["All suites and architectures"][0]
        wanted = [("sid amd64", "2"), ("sid arm64", "1"), ("experimental amd64", "1")]
        expect(rows[0][0] == "Suite and architecture" and [(one[0], one[3]) for one in rows[1:]] == wanted, f"{rows}")
        expect(re.findall("<h2 [^>]*>(.*?)</h2>", text) == [one for one, _ in wanted], "the heads of the parts")
        builds = found.tables["Who builds what"]
        expect([len(one[0]) for one in builds] == [3, 3, 4], f"what has times: {builds}")
        expect(builds[2][1] == ["zlib 1:1.4~rc1-1", "b7", "1", "2026-04-11 13:00"], f"{builds[2]}")
        expect(len(found.tables["Built on each day"]) == 1, "the days of a journal that is not there")
        expect("after 30 accepted commands" in found.text, "the commands of both")
        expect_the_example(page(folder, b"", "--url", f"sid={sid.url}", *archs, now=1776000000))
        alone = page(folder, b"", "--url", later.url, "--arch", "amd64", "--journal", "of=experimental")
        named = page(folder, b"", *urls[2:], "--arch", "amd64", "--journal", "experimental=of=experimental")
        expect("2026-04-11 13:00" in alone and named == alone, "the page of one office")
        for words, status, message in (
            ([*urls, "--arch", "s390x"], 1, "summary s390x"),
            ([*urls[2:], "--arch", "arm64"], 1, "UnknownArch"),
            ([*urls, *urls[:2], *archs], 2, "each has to have its own suite"),
            ([*urls, "--url", sid.url, *archs], 2, "each has to have its own suite"),
            ([*urls, *archs, "--journal", "of=experimental"], 2, "--journal of: it has to begin with the suite"),
            (["--url", "../x=http://127.0.0.1:1", *archs], 2, "is no address of a serving office"),
        ):
            page(folder, b"", *words, status=status, message=message)


# ---- in a browser

# How wide the page is; what is broken inside a word; how many tables and captions it has; the gap of its bars.
LOOK = """(page) => {
  const broken = [], walker = page.createTreeWalker(page.body, NodeFilter.SHOW_TEXT);
  for (let node; (node = walker.nextNode());) {
    if (["SCRIPT", "STYLE"].includes(node.parentElement.tagName)) continue;
    for (const word of node.data.matchAll(/[^\\s-]+-?/g)) {
      const range = page.createRange();
      range.setStart(node, word.index);
      range.setEnd(node, word.index + word[0].length);
      const lines = new Set([...range.getClientRects()].map((one) => Math.round(one.top)));
      if (lines.size > 1 && word[0].length <= %d) broken.push(word[0]);
    }
  }
  const times = [...page.querySelectorAll(".since, .day, time, .build")].filter((one) => {
    const range = page.createRange();
    range.selectNodeContents(one);
    return new Set([...range.getClientRects()].map((found) => Math.round(found.top + found.height / 2))).size > 1;
  }).map((one) => one.textContent);
  const cut = [...page.querySelectorAll("td, th, p, h1, h2, caption, li, a")].filter((one) => {
    const box = one.getBoundingClientRect();
    return box.width > 1 && (box.right > page.documentElement.clientWidth + 1 || box.left < -1);
  }).map((one) => one.textContent.slice(0, 40));
  const bar = page.querySelector(".bar"), age = page.getElementById("age");
  return {wide: page.documentElement.scrollWidth, broken, times, cut, tables: page.querySelectorAll("caption").length,
    gap: bar && getComputedStyle(bar).columnGap, age: age.textContent, late: getComputedStyle(age).color,
    quiet: getComputedStyle(age.parentElement).color, back: getComputedStyle(page.body).backgroundColor};
}"""
UNBROKEN = 22  # characters of a word that stands in one line of the narrowest screen


def odd_page(folder):
    """A page whose names and notes are as long as they can be."""
    long = record("a" * 200, "Building", build="1" * 1000, holder="b" * 64, take=10**12, message="m" * 1000)
    said = line(accepted=10**12, arch="x" * 40, counts=counts(Building=10**6, Dep_Wait=1))
    said += line(arch="x" * 40, records=[long], state="Building")
    said += line(arch="x" * 40, records=[record("aa", "Dep-Wait", waits="n" * 1000)], state="Dep-Wait")
    said += line(arch="y" * 40, accepted=1, counts=counts(Failed=10**6, Installed=10**7, Needs_Build=10**6))
    return page(folder, said, "--title", "T" * 300)


def suites_page(folder):
    """A page of two suites, one of them with a name that no phone shows in one line."""
    with StandIn() as office:
        urls = (word for suite in ("experimental", "s" * 60) for word in ("--url", f"{suite}={office.url}"))
        return page(folder, b"", *urls, "--arch", "amd64", "--arch", "arm64")


def fits_phones_and_desks(folder):
    """Nothing is wider than the screen, and no text is broken inside a word, a version or a time."""
    said, journal = sample()
    (folder / "journal").write_bytes(journal.data())
    pages = [
        page(folder, said, "--journal", "journal"), page(folder, said), page(folder, b"", EXAMPLE / "answers"),
        odd_page(folder), suites_page(folder),
    ]
    for at, text in enumerate(pages):
        looks = in_browser(folder, text, WIDTHS, LOOK % UNBROKEN, DARK if at % 2 else LIGHT)
        for width, met in zip(WIDTHS, looks, strict=True):
            amiss = {key: met[key] for key in ("broken", "times", "cut") if met[key]}
            expect(not amiss, f"page {at} at {width}: {amiss}")
            expect(met["wide"] <= width, f"page {at} is {met['wide']} wide on a screen of {width}")
            expect(met["tables"] == text.count("<caption"), f"page {at} has {met['tables']} tables")
            expect(met["gap"] == "2px", f"page {at}: the parts of a bar are parted by {met['gap']}")
    return f"{len(WIDTHS) * len(pages)} screens"


def says_in_red_that_it_is_old(folder):
    """A fresh page says how old it is, an old one in red, in light and dark; --due says from when on."""
    said = sample()[0]
    now = int(time.time())
    for scheme, red in ((LIGHT, "rgb(179, 38, 30)"), (DARK, "rgb(255, 138, 128)")):
        [met] = in_browser(folder, page(folder, said, now=now - 300), [390], LOOK % UNBROKEN, scheme)
        wanted = ("It is 5\u00a0min old.", "It is 6\u00a0min old.")
        expect(met["age"] in wanted and met["late"] == met["quiet"] != red, f"{met}")
        [met] = in_browser(folder, page(folder, said, now=now - 7200), [390], LOOK % UNBROKEN, scheme)
        wanted = "It is 2\u00a0h old, and should be no older than 15\u00a0min."
        expect(met["age"] == wanted and met["late"] == red, f"{met}")
    [met] = in_browser(folder, page(folder, said, "--due", "180", now=now - 7200), [390], LOOK % UNBROKEN, LIGHT)
    expect(met["age"] == "It is 2\u00a0h old." and met["late"] == met["quiet"], f"{met}")
    page(folder, said, "--due", "0", status=2, message="usage:")


def luminance(color):
    """The relative luminance of a color (WCAG 2.2)."""
    digits = "".join(2 * one for one in color) if len(color) == 3 else color
    parts = [int(digits[at : at + 2], 16) / 255 for at in (0, 2, 4)]
    red, green, blue = (one / 12.92 if one <= 0.04045 else ((one + 0.055) / 1.055) ** 2.4 for one in parts)
    return 0.2126 * red + 0.7152 * green + 0.0722 * blue


def contrast(one, other):
    high, low = sorted((luminance(one), luminance(other)), reverse=True)
    return (high + 0.05) / (low + 0.05)


def has_colors_that_are_seen():
    """Each color of a state differs by 3:1 from the page, which is the gap between two parts of a bar; texts by 4.5:1;
    in light and dark."""
    schemes = [dict(re.findall("--([a-z-]+): #([0-9a-f]+)", part)) for part in STYLE.split("@media", 2)[:2]]
    expect(len(schemes) == 2 and schemes[0].keys() == schemes[1].keys(), f"{schemes}")
    least = {"text": 4.5, "quiet": 4.5, "link": 4.5, "late": 4.5}
    for colors in schemes:
        for name in colors.keys() - {"back", "line", "head"}:
            met = contrast(colors[name], colors["back"])
            expect(met >= least.get(name, 3), f"{name} differs from {colors['back']} by {met:.1f}")
    return f"{2 * len(schemes[0])} colors"


TESTS = [
    parts_builds_from_uploads, has_numbers_beside_bars, reads_several_journals, says_before_when, shows_several_suites,
    fits_phones_and_desks, says_in_red_that_it_is_old, has_colors_that_are_seen,
]
if __name__ == "__main__":
    sys.exit(main(TESTS))
