#!/usr/bin/env python3
"""Tests of the site (tools/bin/wb-web) in a browser, which Chromium's DevTools protocol leads, with each page as it is
served: that it loads nothing from elsewhere and breaks no policy, that nothing is wider than the screen of a phone or a
desk, that each text can be told from its ground, in light and dark, what a reader of the screen is told of tables, and
that a porter can act by keys alone.

    tools/tests/test_screens.py [NAME..]     these tests, or all

From the environment: WB is the program, ./wb of this repository where it is not set. Flask, waitress and chromium have
to be installed: without them all are left out. All that is wanted was written by hand, or stands on the served page.
"""
import contextlib
import sys
import time

from devtools import Browser
from form_cases import failures
from form_runs import acting, record
from harness import expect, expect_none, main
from key_runs import key
from look_runs import browser
from test_web import LONG, PATHS, day, settings
from web_runs import Page, Site, office

WIDTHS = (320, 390, 768, 1280)
DRAWN = ("States", "Each day")  # columns of pictures, which have texts of their own
MORE = ["/", f"/package/{LONG}", "/package/none", "/nowhere", "/arch/amd64/Dep-Wait", "/arch/arm64/Needs-Build"]


# Names as real archives have them, and longer ones, on two architectures of two suites.
NAMES = ["golang-github-containernetworking-plugin-dnsname", "libreoffice", "icu", "n" * 200]
VERSIONS = ["0.0~git20200514.45ce7d9-3+deb13u1", "4:25.2.3-2", "76.1-4", "1:" + "7." * 200 + "1-1"]
BUILDERS = ["x86-conova-02", "arm-ubc-06", "b" * 64]


ARCHS = "amd64 arm64 armel armhf i386 loong64 mips64el ppc64el riscv64 s390x".split()


def lines_of_names(archs):
    """Each package waits, and is then built, fails or waits for others."""
    yield from (f"add-arch {arch} linux {arch}" for arch in archs)
    yield from (f"add-builder {name} {arch}" for name in BUILDERS for arch in ("amd64", "arm64"))
    for at, (name, version) in enumerate(zip(NAMES * 2, VERSIONS * 2), 1):
        arch, builder = "amd64" if at <= len(NAMES) else "arm64", BUILDERS[at % len(BUILDERS)]
        yield f"enter {arch} {name} {version} optional libs"
        yield f"take {arch} {builder} {name} {version}"
        yield [f"built {at}", f"attempted {at} {'e' * 900} died", f"waits {at} {'libx' * 30}-dev (>= 2)"][at % 3]
    for arch in archs[2:]:
        yield from (f"enter {arch} {name} {version} optional libs" for name, version in zip(NAMES, VERSIONS))
        yield from (f"fail {arch} {name} {version} no" for name, version in zip(NAMES, VERSIONS))


@contextlib.contextmanager
def seen_names(folder):
    """A browser, and the address of a site of two suites with long names, the second of ten architectures."""
    browser()
    with office(folder, lines_of_names(ARCHS[:2])) as sid, office(folder, lines_of_names(ARCHS), "later") as later:
        given = {"SUITES": f"sid={sid.port} experimental={later.port}", "LOG": "https://logs.example.org/{source}"}
        given["INDEXES"] = f"sid={folder}/office.journal.index experimental={folder}/later.journal.index"
        with Site(folder, **given) as site, Browser(folder) as led:
            yield led, f"http://127.0.0.1:{site.port}"


@contextlib.contextmanager
def seen(folder):
    """A browser, and the address of the site of a day."""
    browser()
    now = int(time.time()) + 60  # for all pages, so that they say the same ages
    with day(folder) as served, Site(folder, now, **settings(folder, served.port)) as site, Browser(folder) as led:
        yield led, f"http://127.0.0.1:{site.port}", site


def screens(led, url, widths=WIDTHS, paths=(*PATHS, *MORE[1:])):
    """Each page on each screen, every other one in the dark, as the browser shows it."""
    for number, width in enumerate(widths):
        for at, path in enumerate(paths):
            led.show_on(width, is_dark=(number + at) % 2 == 0)
            led.open(url + path)
            yield path, width


# ---- what is loaded


def loads_nothing_from_elsewhere(folder):
    """A page asks for its style and its mark, of this site alone; the browser reports nothing that is forbidden,
    missing or wrong."""
    with seen(folder) as (led, url, _):
        for path, _ in screens(led, url, [1280]):
            wanted = {url + path, f"{url}/style.css", f"{url}/mark.svg"}
            expect_none(f"{path} asks for {one}" for one in led.requests if one not in wanted)
            expect(f"{url}/style.css" in led.requests, f"{path} asks for no style: {led.requests}")
            status = [one for one in led.reports if "404" in one] if path in ("/nowhere", "/package/none") else []
            expect(led.reports == status, f"{path}: {led.reports}")


def has_no_place_for_code(folder):
    """Texts with markup make no elements, and the policy runs no code that a page might be made to have."""
    with seen(folder) as (led, url, _):
        for path in (f"/package/{LONG}", "/arch/amd64/Failed", "/history", "/?q=%3Cimg%20src%3Dx%20onerror%3Dx()%3E"):
            led.open(url + path)
            expect(led.value("document.querySelectorAll('script, style, img, [style], [onerror]').length") == 0, path)
            led.value("""(() => { const one = document.createElement("script"); one.textContent = "window.ran = 1";
                document.body.append(one); const two = document.createElement("img");
                two.src = "http://127.0.0.1:9/x"; document.body.append(two); })()""")
            expect(led.value("window.ran") is None, f"{path}: the policy lets code run")
            led.open(url + "/nowhere")


# ---- screens

# What is wider than the screen or than its cell, what is too small for a finger, and which fields have no name.
LOOK = """(() => {
  const page = document;
  const kinds = "td, th, p, h1, h2, caption, li, a, input, button, svg, dd, dt";
  const cut = [...page.querySelectorAll(kinds)].filter((one) => {
    const box = one.getBoundingClientRect();
    const isHidden = one.closest(".skip, .hidden") || (one.closest("thead")?.getBoundingClientRect().width ?? 9) <= 1;
    return box.width > 1 && !isHidden && (box.right > page.documentElement.clientWidth + 1 || box.left < -1);
  }).map((one) => one.outerHTML.slice(0, 80));
  cut.push(...[...page.querySelectorAll("td, th")].filter((one) => one.clientWidth > 1 &&
    one.scrollWidth > one.clientWidth + 1).map((one) => "cell " + one.outerHTML.slice(0, 80)));
  const seen = [...page.querySelectorAll("input, button")].filter((one) => one.checkVisibility());
  const small = seen.filter((one) => one.getBoundingClientRect().height < 24);
  return {wide: page.documentElement.scrollWidth, cut, small: small.length, fields: seen.length,
    named: seen.every((one) => one.tagName == "BUTTON" || one.labels.length)};
})()"""


def fits_screens(folder):
    """Nothing of a page is wider than the screen, in light and dark."""
    with seen(folder) as (led, url, _):
        count = 0
        for path, width in screens(led, url):
            met = led.value(LOOK)
            expect(not met["cut"] and not met["small"] and met["named"], f"{path} at {width}: {met}")
            expect(met["wide"] <= width, f"{path} is {met['wide']} wide on a screen of {width}")
            count += 1
    return f"{count} screens"


def fits_long_names(folder):
    """The same of names, versions, builders and notes as long as real ones, and as long as they can be."""
    paths = ["/", "/history", "/history?suite=sid", "/arch/amd64", "/?q=icu", f"/?q=icu+libreoffice+{NAMES[0]}"]
    paths += [f"/package/{name}" for name in NAMES] + [f"/builder/{name}" for name in BUILDERS]
    paths += [f"/arch/arm64/{state}" for state in ("Built", "Build-Attempted", "Dep-Wait")]
    with seen_names(folder) as (led, url):
        count = 0
        for path, width in screens(led, url, (*WIDTHS, 1024), paths):
            met = led.value(LOOK)
            expect(not met["cut"] and met["wide"] <= width, f"{path[:60]} at {width}: {met}")
            count += 1
    return f"{count} screens"


# The texts that differ from their ground by less than 4.5:1 (WCAG 2.1, 1.4.3), with both colors as the page has them.
CONTRAST = """(() => {
  const parts = (color) => color.match(/[0-9.]+/g).map(Number);
  const light = (color) => {
    const [r, g, b] = parts(color).map((one) => one / 255).map((one) =>
      one <= 0.04045 ? one / 12.92 : ((one + 0.055) / 1.055) ** 2.4);
    return 0.2126 * r + 0.7152 * g + 0.0722 * b;
  };
  const ground = (one) => {
    for (; one; one = one.parentElement) {
      const color = getComputedStyle(one).backgroundColor;
      if ((parts(color)[3] ?? 1) > 0) return color;
    }
    return "rgb(255, 255, 255)";
  };
  const found = new Map();
  const judge = (color, back, text) => {
    const [a, b] = [light(color), light(back)].sort((x, y) => y - x);
    const ratio = (a + 0.05) / (b + 0.05);
    const key = `${color} on ${back}`;
    if (!found.has(key)) found.set(key, [ratio, text.trim().slice(0, 40)]);
  };
  const walker = document.createTreeWalker(document.body, NodeFilter.SHOW_TEXT);
  for (let node; (node = walker.nextNode());) {
    if (!node.data.trim()) continue;
    judge(getComputedStyle(node.parentElement).color, ground(node.parentElement), node.data);
  }
  for (const one of document.querySelectorAll("*")) {
    const before = getComputedStyle(one, "::before");
    if (before.content != "none" && before.content != "normal") judge(before.color, ground(one), before.content);
    if (one.placeholder) judge(getComputedStyle(one, "::placeholder").color, ground(one), one.placeholder);
    if (one.value && one.tagName == "INPUT") judge(getComputedStyle(one).color, ground(one), one.value);
  }
  return [...found].map(([key, [ratio, text]]) => [key, ratio, text]);
})()"""


def has_texts_that_are_seen(folder):
    """Each text of each page differs from its ground by 4.5:1, in light and dark, as the browser computes both."""
    pairs = set()
    with seen(folder) as (led, url, _):
        for width in (320, 1280):
            for is_dark in (False, True):
                for path in (*PATHS, *MORE):
                    led.show_on(width, is_dark)
                    led.open(url + path)
                    for pair, ratio, text in led.value(CONTRAST):
                        expect(ratio >= 4.5, f"{path} at {width}: {text!r}: {pair} differ by {ratio:.2f}")
                        pairs.add(pair)
    expect(len(pairs) >= 6, f"too few colors: {pairs}")
    return f"{len(pairs)} pairs of colors"


# ---- what a reader of the screen is told


def has_tables_that_are_read(folder):
    """On a phone as on a desk a reader of the screen is told of the same tables: each by its caption, with all its
    heads, a head of each row, and the texts of its cells."""
    count = 0
    with seen(folder) as (led, url, site):
        for path, width in screens(led, url, (320, 1280)):
            status = 404 if path in ("/nowhere", "/package/none") else 200
            wanted = Page(site.ask(path, status)[1])
            met = led.tables()
            expect([one["name"] for one in met] == list(wanted.tables), f"{path} at {width}: {met}")
            for one in met:
                rows = wanted.tables[one["name"]]
                where = f"{path} at {width}: {one['name']}"
                expect(one["heads"] == list(rows[0]), f"{where}: {one['heads']} in place of {list(rows[0])}")
                expect(one["kinds"] == ["rowheader"], f"{where}: rows begin with {one['kinds']}")
                expect([len(row) for row in one["rows"]] == [len(row) for row in rows], f"{where}: {one['rows']}")
                for texts, row in zip(one["rows"], rows, strict=True):
                    told = {head: text for head, text in zip(row, texts, strict=True) if head not in DRAWN}
                    expect_none(f"{where}: {head} {row[head]} is told as {text}" for head, text in told.items()
                                if bare(text) != bare(row[head]))
                count += 1
    return f"{count} tables"


def bare(text):
    """A text without its spaces: of a link in a cell the reader is told on its own."""
    return "".join(text.split())


def is_led_by_keys(folder):
    """The first key leads past the head of the page; each link and field that keys come to is seen, with a frame."""
    with seen(folder) as (led, url, _):
        led.show_on(390)
        led.open(url + "/history")
        names = []
        for _ in range(40):
            press(led, "Tab")
            found = led.value("""(() => { const one = document.activeElement, box = one.getBoundingClientRect();
                return {name: one.textContent.trim() || one.name || "", box: [box.left, box.right, box.height],
                    frame: getComputedStyle(one).outlineStyle}; })()""")
            expect(found["frame"] == "solid" and found["box"][0] >= 0 and found["box"][1] <= 391, f"{found}")
            names.append(found["name"])
    expect(names[0] == "To the content" and {"Search", "Show", "Time", "source"} <= set(names), f"{names}")


def press(led, name):
    """Presses a key: Tab, Enter or Space."""
    code, text = {"Tab": (9, ""), "Enter": (13, "\r"), "Space": (32, " ")}[name]
    what = {"key": text if name == "Space" else name, "code": name, "windowsVirtualKeyCode": code}
    led.say("Input.dispatchKeyEvent", type="keyDown", **what, **({"text": text} if text else {}))
    led.say("Input.dispatchKeyEvent", type="keyUp", **what)


# ---- what a porter is shown, who gave a key


@contextlib.contextmanager
def seen_acting(folder, lines):
    """A browser in which a key was given, of a porter of amd64 and arm64, and the office after these lines."""
    browser()
    with acting(folder, lines) as (served, _, porter), Browser(folder) as led:
        led.open(f"{porter.origin}/key?back=/arch/amd64/Build-Attempted")
        led.value("document.getElementById('key').focus()")
        led.say("Input.insertText", text=key("anna"))
        press(led, "Enter")
        led.wait_for("Page.loadEventFired")
        yield led, porter.origin, served


def expect_form(led, where, width):
    """A page with forms is as wide as its screen, its boxes and fields have names and are large enough for a finger,
    its texts differ from their ground, its tables have a cell for each head, and the browser reports nothing."""
    led.value("document.querySelectorAll('details').forEach((one) => { one.open = true; })")
    met = led.value(LOOK)
    expect(not met["cut"] and not met["small"] and met["named"] and met["fields"] > 2, f"{where}: {met}")
    expect(met["wide"] <= width, f"{where}: it is {met['wide']} wide")
    for pair, ratio, text in led.value(CONTRAST):
        expect(ratio >= 4.5, f"{where}: {text!r}: {pair} differ by {ratio:.2f}")
    for table in led.tables():
        expect({len(row) for row in table["rows"]} == {len(table["heads"])}, f"{where}: {table}")
        expect(table["kinds"] == ["rowheader"] or table["heads"][0] == "Mark", f"{where}: {table}")


def has_forms_that_fit(folder):
    """Pages with boxes and forms, and those that say what came of them, on each screen."""
    paths = ["/arch/amd64/Build-Attempted?marked=all", "/package/p00", "/?q=p00+p01+p02", "/key", "/"]
    count = 0
    with seen_acting(folder, failures(40, ("amd64", "arm64"))) as (led, url, _):
        for path, width in screens(led, url, WIDTHS, paths):
            expect_form(led, f"{path} at {width}", width)
            expect(not led.reports, f"{path}: {led.reports}")
            count += 1
    return f"{count} screens"


def has_forms_that_fit_long_names(folder):
    """The same with names, versions and reasons as long as they can be."""
    paths = ["/arch/arm64/Build-Attempted?marked=all", f"/?q={'+'.join(NAMES)}&marked=all"]
    paths += [f"/package/{name}" for name in NAMES[2:]]
    count = 0
    with seen_acting(folder, lines_of_names(ARCHS[:2])) as (led, url, _):
        for path, width in screens(led, url, (*WIDTHS, 1024), paths):
            expect_form(led, f"{path[:60]} at {width}", width)
            count += 1
        for width in (*WIDTHS, 1024):
            led.show_on(width)
            led.open(f"{url}{paths[1]}")
            led.value(f"document.getElementById('act-reason').value = '{'r' * 1000}'")
            led.value("document.querySelector('[value=fail]').click()")
            led.wait_for("Page.loadEventFired")
            expect("refused" in led.value("document.title"), led.value("document.title"))
            expect_form(led, f"what came of it at {width}", width)
            count += 1
    return f"{count} screens"


def acts_by_keys(folder):
    """A key marks a box, Enter in a field does nothing, and a button that is pressed by a key carries out what it says,
    with the browser's own fields of where a form comes from."""
    with seen_acting(folder, failures(40, ("amd64", "arm64"))) as (led, url, served):
        led.show_on(390)
        expect(led.value("location.pathname") == "/arch/amd64/Build-Attempted", led.value("location.href"))
        expect(led.value("document.cookie") == "", "a script could read the cookie")
        led.value("document.querySelector('#main table input').focus()")
        press(led, "Space")
        expect(led.value("document.querySelectorAll(':checked').length") == 1, "a key marks no box")
        for _ in range(2000):
            if led.value("document.activeElement.id") == "act-reason":
                break
            press(led, "Tab")
        led.say("Input.insertText", text='it wants "more"')
        press(led, "Enter")
        expect(led.value("document.activeElement.id") == "act-reason", "Enter in a field sends the form")
        press(led, "Tab")
        expect(led.value("document.activeElement.value") == "fail", led.value("document.activeElement.outerHTML"))
        press(led, "Space")
        led.wait_for("Page.loadEventFired")
        expect(led.value("document.querySelector('h1').textContent") == "Fail: 1 accepted", led.value("document.title"))
        expect(not led.reports, f"{led.reports}")
        now = record(served, "amd64", "p00")
        expect((now["state"], now["note"]) == ("Failed", 'it wants "more"'), f"{now}")
        led.open(f"{url}/package/p01")
        led.value("document.querySelector('summary').focus()")
        press(led, "Enter")
        expect(led.value("document.querySelector('details').open"), "a key opens no form")


TESTS = [
    loads_nothing_from_elsewhere, has_no_place_for_code, fits_screens, fits_long_names, has_texts_that_are_seen,
    has_tables_that_are_read, is_led_by_keys, has_forms_that_fit,
    has_forms_that_fit_long_names, acts_by_keys,
]

if __name__ == "__main__":
    sys.exit(main(TESTS))
