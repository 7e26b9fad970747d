"""Tests of the forms of the site, for tools/tests/test_web.py: who is shown one, what each does at an office with keys,
what is refused, and that a key stays where it was given."""
import contextlib
import json
import re
import subprocess
import time

from form_runs import RIGHTS, FormPage, Porter, acting, command, record, with_forms
from harness import LIB, expect, expect_none
from key_runs import holders, key, lines_of, put, tellers
from web_runs import Site, interpreter, office, silent_office
from wb_tools.web import sessions

BEGIN = ["add-arch amd64 linux amd64", "add-arch arm64 linux arm64", "add-builder x1 amd64", "add-builder x2 arm64"]
REASON = "tests need <b>\"time zones\"</b> & 'more' <script>x()</script>"
WAITS = "libfoo-dev (>= 2), bar | baz-dev"
# The commands that each state allows, and what leads to it from Needs-Build.
ALLOWED = {
    "Needs-Build": ("", "dep-wait fail not-for-us"),
    "Building": ("take amd64 x1 hello 1", "dep-wait fail give-back not-for-us"),
    "Built": ("take amd64 x1 hello 1;built 1", "fail give-back"),
    "Uploaded": ("take amd64 x1 hello 1;uploaded 1", "give-back"),
    "Dep-Wait": ("dep-wait amd64 hello 1 libfoo-dev", "fail give-back not-for-us"),
    "Failed": ("fail amd64 hello 1 no", "dep-wait give-back not-for-us"),
    "Not-For-Us": ("not-for-us amd64 hello 1 no", "give-back"),
    "Build-Attempted": ("take amd64 x1 hello 1;attempted 1 no", "dep-wait fail give-back not-for-us"),
}


def failures(count, archs=("amd64",)):
    """So many packages that failed on each architecture."""
    yield from BEGIN
    take = 0
    for at in range(count):
        for arch in archs:
            take += 1
            yield f"enter {arch} p{at:02} 1.0-{at} optional libs"
            yield f"take {arch} {'x1' if arch == 'amd64' else 'x2'} p{at:02} 1.0-{at}"
            yield f"attempted {take} cc died"


def accepted(served):
    return json.loads(served.ask("GET", "/v1/office")[1])["accepted"]


def stop(served):
    """Ends an office, and waits until its port is free."""
    served.process.kill()
    served.process.wait()


def states(served, *sources, arch="amd64"):
    return [record(served, arch, source)["state"] for source in sources]


# ---- who is shown a form


def offers_nothing_without_a_key(folder):
    """A page has no form and no box until a key is given, and none without FORMS; its JSON is always the same."""
    paths = ["/", "/package/p00", "/arch/amd64", "/arch/amd64/Build-Attempted", "/?q=p00+p01", "/history"]
    with acting(folder, failures(2)) as (served, site, porter):
        texts = []
        for path in paths:
            page = porter.page(path)
            expect(not page.forms and 'type="checkbox"' not in page.source, f"{path} has a form")
            expect(page.links["Give a key"].startswith("/key?back="), f"{path}: {page.links}")
            expect("Set-Cookie" not in porter.fields and porter.fields["Vary"] == "Cookie", f"{porter.fields}")
            texts.append(site.json(json_of(path)))
        porter.give(key("anna"))
        for path, text in zip(paths, texts, strict=True):
            page = porter.page(path)
            expect(page.links["Your key"] and page.form_to("/forget"), path)
            met = json.loads(porter.site.ask(json_of(path))[1])
            porter.page(json_of(path))
            shown = json.loads(porter.seen[-1].split("\n\n")[-1])
            expect(without_times(met) == without_times(shown) == without_times(text), f"{path}: its JSON differs")
        with Site(folder, SUITES=f"sid={served.port}") as plain:
            other = Porter(plain)
            other.cookies = porter.cookies
            page = other.page("/arch/amd64/Build-Attempted")
            expect(not page.forms and "Give a key" not in page.links, "a site without FORMS")
            other.page("/key", 404)
            for path, status in {"/key": 404, "/act": 404, "/forget": 404, "/package/p00": 405}.items():
                other.send("POST", path, status=status)


def json_of(path):
    return f"/index.json{path[1:]}" if path[1:2] in ("", "?") else f"{path}.json"


def without_times(found):
    return re.sub(r'"(age|now)": \d+', "", json.dumps(found))


def finds_out_what_a_key_may_do(folder):
    """A key that the office does not know, or that lacks a porter's right, is refused in its words; one has boxes on
    its architectures alone. An office that asks for no keys takes none."""
    refusals = {"x" * 30: "NoKey: your key is on no line of its keys"}
    refusals |= {key(name): "NotAllowed: your key lacks the right port=ARCH" for name in ("reader", "b1")}
    with acting(folder, failures(2, ("amd64", "arm64"))) as (served, site, porter):
        before = accepted(served)
        for text, why in refusals.items():
            page = porter.give(text, 403)
            expect(f"sid: the office answered {why}" in page.text, page.text)
            expect("Set-Cookie" not in porter.fields and text not in page.source, f"{porter.fields}")
        for text in ("short", "x" * 201, "ü" * 30, "has a blank in it, though it is long", "x" * 30 + "\r\nX: y"):
            expect("This is no key" in porter.give(text, 400).text, text)
        for name, archs in {"bert": ["arm64"], "anna": ["amd64", "arm64"], "operator": ["amd64", "arm64"]}.items():
            one = Porter(site)
            one.give(key(name))
            page = one.page("/key")
            expect(f"sid {', '.join(archs)}, by the key whose hash begins with " in page.text, page.text)
            for arch in ("amd64", "arm64"):
                page = one.page(f"/arch/{arch}/Build-Attempted")
                wanted = ["build-priority", "dep-wait", "fail", "give-back", "not-for-us"] if arch in archs else []
                expect(page.commands == wanted, f"{name} on {arch}: {page.commands}")
            met = {box.split()[1] for box in one.page("/package/p00").form_of("give-back").boxes}
            expect(met == set(archs), f"{name}: {met}")
        expect(accepted(served) == before, "to find out a right is accepted as a command")
        put(folder / "office.keys", lines_of(RIGHTS, "operate"))
        porter.give("x" * 30, 403)
        porter.give(key("anna"))
    (folder / "open").mkdir()
    with office(folder / "open", failures(1)) as served, with_forms(folder / "open", served) as site:
        page = Porter(site).give(key("anna"), 403)
        expect("sid: the office asks for no keys, and pages act only on one that does" in page.text, page.text)


def offers_what_a_state_allows(folder):
    """Of a package and of a list: what may be said in each state, as the office has it."""
    for at, (state, (lines, commands)) in enumerate(ALLOWED.items()):
        place = folder / str(at)
        place.mkdir()
        with acting(place, [*BEGIN, "enter amd64 hello 1 optional devel", *filter(None, lines.split(";"))]) as (
            served, _, porter,
        ):
            porter.give(key("anna"))
            expect(states(served, "hello") == [state], f"{state}: {states(served, 'hello')}")
            for path in ("/package/hello", f"/arch/amd64/{state}"):
                met = porter.page(path).commands
                expect(met == ["build-priority", *commands.split()], f"{state}, {path}: {met}")
    return f"{len(ALLOWED)} states"


# ---- what is done


def carries_out_what_is_said(folder):
    """Each command of one row on the page of a package, with the record before and after, and its name in the
    journal."""
    build = ["take amd64 x1 hello 1.0-1", "attempted 1 cc died"]
    steps = [
        ("give-back", {}, "Build-Attempted becomes Needs-Build", {"state": "Needs-Build", "note": ""}),
        ("build-priority", {"priority": "-50"}, "build priority 0 becomes -50", {"build_priority": -50}),
        ("dep-wait", {"relations": WAITS}, "Needs-Build becomes Dep-Wait", {"state": "Dep-Wait", "waits": WAITS}),
        ("fail", {"reason": REASON}, "Dep-Wait becomes Failed", {"state": "Failed", "note": REASON, "waits": ""}),
        ("not-for-us", {"reason": "  two   blanks "}, "Failed becomes Not-For-Us", {"note": "two blanks"}),
    ]
    with acting(folder, [*BEGIN, "enter amd64 hello 1.0-1 optional devel", *build]) as (served, _, porter):
        porter.give(key("anna"))
        for word, fields, change, after in steps:
            met = porter.act("/package/hello", word, **fields)
            expect(met == [("hello", "amd64", "accepted", change)], f"{word}: {met}")
            now = record(served, "amd64", "hello")
            expect({name: now[name] for name in after} == after, f"{word}: {now}")
        lines = list(map(json.loads, (folder / "office.journal").read_text().splitlines()))[-len(steps):]
        met = [(line["command"]["command"], line.get("by")) for line in lines]
        expect(met == [(word, "anna") for word, *_ in steps], f"the journal: {met}")
        [text] = [text for text in porter.seen if "Fail: 1 accepted" in text]
        expect("<script" not in text and "<b>" not in text, f"markup of a reason: {text}")
        page = FormPage(text.split("\n\n", 1)[1])
        expect(REASON in page.text and page.links["Back to the page"] == "/package/hello", page.text)


def rebuilds(folder):
    """What is installed is built once more, under one number above that of each row."""
    (folder / "Sources").write_text("Package: hello\nVersion: 1.0-1\nArchitecture: any\n\n")
    for arch, version in {"amd64": "1.0-1", "arm64": "1.0-1+b3"}.items():
        text = f"Package: hello\nSource: hello (1.0-1)\nVersion: {version}\nArchitecture: {arch}\n\n"
        (folder / f"Packages-{arch}").write_text(text)
    lines = [*BEGIN, "merge Sources amd64=Packages-amd64 arm64=Packages-arm64"]
    with acting(folder, lines) as (served, _, porter):
        porter.give(key("anna"))
        expect(porter.page("/arch/amd64/Installed").commands == ["build-priority", "rebuild"], "what is installed")
        porter.act("/?q=hello+none", "rebuild", reason="libfoo2")
        for arch in ("amd64", "arm64"):
            now = record(served, arch, "hello")
            met = now["state"], now["build"], now["message"]
            expect(met == ("Needs-Build", "1.0-1+b4", "libfoo2"), f"{arch}: {met}")
        body = [("row", "sid amd64 hello 1.0-1 1.0-1 Needs-Build -"), ("do", "fail"), ("reason", "no")]
        form = porter.page("/arch/amd64/Needs-Build").form_of("fail")
        page = porter.send("POST", "/act", [*form.hidden, *body], 409)
        expect("its build is 1.0-1+b4, and was 1.0-1 when the page was made" in page.text, page.text)


def carries_out_what_is_marked(folder):
    """Of a list and of several names: the rows that are marked and no others, each with its answer; a link marks all,
    or those of a state."""
    with acting(folder, failures(40, ("amd64", "arm64"))) as (served, _, porter):
        porter.give(key("anna"))
        path = "/arch/amd64/Build-Attempted"
        met = porter.act(path, "give-back", "p03", "p17")
        expect(met == [(name, "amd64", "accepted", "Build-Attempted becomes Needs-Build") for name in ("p03", "p17")],
               f"{met}")
        expect(states(served, "p03", "p17", "p04") == ["Needs-Build", "Needs-Build", "Build-Attempted"], "the others")
        page = porter.page(path)
        expect(list(page.form_of("fail").boxes.values()) == [False] * 38, "boxes are marked")
        page = porter.page(path + page.links["all"])
        form = page.form_of("give-back")
        expect(list(form.boxes.values()) == [True] * 38 and page.links["none"] == "?", "all rows are marked")
        expect(dict(form.hidden)["back"] == path, f"the way back marks all: {form.hidden}")
        met = porter.act(path, "give-back")
        expect(len(met) == 38 and {row[2] for row in met} == {"accepted"}, f"{met}")
        expect("Give back: 38 accepted" in porter.seen[-1], porter.seen[-1][:900])
        expect(porter.page(path).text.count("none.") and not porter.page(path).commands, "the list is empty")
        page = porter.page("/?q=p03+p04+none")
        expect(page.links["Build-Attempted"].endswith("marked=Build-Attempted"), f"{page.links}")
        page = porter.page("/" + page.links["Build-Attempted"])
        met = sorted(box.split()[1:3] for box, is_marked in page.form_of("fail").boxes.items() if is_marked)
        expect(met == [["arm64", "p03"], ["arm64", "p04"]], f"{met}")
        met = porter.act("/?q=p03+p04", "not-for-us", "arm64", reason="no")
        expect(sorted(row[:3] for row in met) == [(name, "arm64", "accepted") for name in ("p03", "p04")], f"{met}")
        expect(states(served, "p03", "p04", "p05", arch="arm64") == ["Not-For-Us"] * 2 + ["Build-Attempted"], "arm64")
    return "40 rows"


# ---- what is refused


def shows_what_the_office_refuses(folder):
    """In its words, with a status that says so; what it accepted of the same form stands."""
    lines = [*failures(3), "enter arm64 p00 1.0-0 optional libs"]
    with acting(folder, lines) as (served, site, porter):
        porter.give(key("anna"))
        path = "/arch/amd64/Build-Attempted"
        refusals = [
            ("dep-wait", {"relations": "libfoo-dev (>= "}, 409, "the office answered BadRelations (fault Unclosed)"),
            ("dep-wait", {"relations": "x [arm64]"}, 409, "the office answered BadRelations (fault BadName)"),
            ("dep-wait", {"relations": "libx [arm64]"}, 409, "nothing of the relations is left for this architecture"),
            ("fail", {"reason": "ü" * 501}, 409, "the office answered TextTooLong"),
            ("build-priority", {"priority": "1001"}, 409, "the office answered BadNumber"),
        ]
        for word, fields, status, why in refusals:
            met = porter.act(path, word, "p00", status=status, **fields)
            expect(met == [("p00", "amd64", "refused", why)], f"{word} {fields}: {met}")
        body = porter.body_of(porter.page(path), "give-back", "p01", "p02")
        other = [(name, value.replace("1.0-1 1.0-1", "0.9 0.9")) for name, value in body]
        page = porter.send("POST", "/act", other, 409)
        rows = page.tables["What the office answered"]
        expect([row["Change or reason"] for row in rows] == [
            "the office has version 1.0-1", "Build-Attempted becomes Needs-Build",
        ], f"{rows}")
        expect("Give back: 1 refused, 1 accepted" in page.text, page.text)
        gone = [("row", "sid amd64 none 1 1 Failed -")]
        page = porter.send("POST", "/act", [*porter.page(path).form_of("fail").hidden, *gone, ("do", "give-back")], 409)
        expect("the office has no such package" in page.text, page.text)
        bert = Porter(site)
        bert.give(key("bert"))
        form = bert.page("/arch/arm64/Needs-Build").form_of("fail")
        rows = [("row", "sid amd64 p00 1.0-0 1.0-0 Build-Attempted -")]
        page = bert.send("POST", "/act", [*form.hidden, *rows, ("do", "give-back")], 403)
        expect("the office answered NotAllowed: your key lacks the right port=amd64" in page.text, page.text)
        put(folder / "office.keys", lines_of({"bert": "port=arm64"}))
        met = porter.act(path, "give-back", "p00", status=403)
        expect(met[0][3] == "the office answered NoKey: your key is on no line of its keys", f"{met}")
        expect(not porter.page(path).forms, "a key that the office does not know any more is held")
        expect(states(served, "p00", "p01", "p02") == ["Build-Attempted"] * 2 + ["Needs-Build"], "the records")


def refuses_forms_that_lack_something(folder):
    """No row, an empty field, a command or a row that is none, too many rows, too large a form."""
    with acting(folder, failures(2)) as (served, _, porter):
        porter.give(key("anna"))
        before = accepted(served)
        form = porter.page("/arch/amd64/Build-Attempted").form_of("give-back")
        box = ("row", next(iter(form.boxes)))
        cases = [
            ([("do", "give-back")], "No row is marked."), ([box], "The form does not say what is to be done."),
            ([box, ("do", "merge")], "The form does not say what is to be done."),
            ([box, ("do", "fail"), ("reason", " ")], "Fail: the field Reason is empty."),
            ([box, ("do", "dep-wait")], "the field Relations is empty"),
            ([box, ("do", "build-priority"), ("priority", "high")], "is a number from -1000 to 1000"),
            ([("row", f"sid amd64 p{at} 1 1 Failed -") for at in range(1001)] + [("do", "give-back")], "1000 may be"),
        ]
        odd = ("", "sid amd64 p00 1.0-0", "old amd64 p00 1.0-0 1.0-0 Failed -", "sid ../x p00 1.0-0 1.0-0 Failed -")
        odd += ("sid amd64 p00 1.0-0 1.0-0 Failed x", "sid amd64 p00 _ 1.0-0 Failed -", "sid amd64 p00 1 1 Broken -")
        cases += [([("row", text), ("do", "give-back")], "A row of the form is not as the pages") for text in odd]
        for body, why in cases:
            page = porter.send("POST", "/act", [*form.hidden, *body], 400)
            expect(why in page.text and "Nothing was done." in page.text, f"{body[:3]}: {page.text}")
        page = porter.send("POST", "/act", "row=" + "x" * (1 << 19), 413)
        expect("The form is too large: mark fewer rows." in page.text, page.text)
        porter.send("GET", "/act", status=405)
        expect(accepted(served) == before, "something was carried out")
    return f"{len(cases)} forms"


def acts_on_nothing_that_went_on(folder):
    """A record that another hand moved since the page was made stays, and so does a new hold; a form that is sent again
    is not carried out twice."""
    with acting(folder, failures(3)) as (served, _, porter):
        porter.give(key("anna"))
        path = "/arch/amd64/Build-Attempted"
        body = porter.body_of(porter.page(path), "give-back")
        command(served, "give-back", arch="amd64", source="p00", version="1.0-0")
        command(served, "take", arch="amd64", builder="x1", source="p00", version="1.0-0")
        command(served, "fail", arch="amd64", source="p01", version="1.0-1", note="no")
        page = porter.send("POST", "/act", body, 409)
        met = [(row["Answer"], row["Change or reason"]) for row in page.tables["What the office answered"]]
        expect(met == [
            ("refused", "it is Building, held by x1, and was Build-Attempted when the page was made"),
            ("refused", "it is Failed, and was Build-Attempted when the page was made"),
            ("accepted", "Build-Attempted becomes Needs-Build"),
        ], f"{met}")
        expect(states(served, "p00", "p01", "p02") == ["Building", "Failed", "Needs-Build"], "the records")
        before = accepted(served)
        expect("This form was sent already" in porter.send("POST", "/act", body, 409).text, "a form that is sent again")
        body = porter.body_of(porter.page("/package/p02"), "build-priority", priority="5")
        porter.send("POST", "/act", body)
        command(served, "build-priority", arch="amd64", source="p02", version="1.0-2", value=9)
        porter.send("POST", "/act", body, 409)
        expect(record(served, "amd64", "p02")["build_priority"] == 9, "a priority is set a second time by a reload")
        expect(accepted(served) == before + 2, "what was refused is counted")
        body = porter.body_of(porter.page("/arch/amd64/Building"), "give-back")
        command(served, "give-back", arch="amd64", source="p00", version="1.0-0")
        command(served, "take", arch="amd64", builder="x1", source="p00", version="1.0-0")
        page = porter.send("POST", "/act", [*body, ("holds", "end")], 409)
        expect("it is Building, held by x1 under take number 5, and was under 4 when" in page.text, page.text)


def ends_holds_only_if_told(folder):
    """What a builder holds is left to it, unless the form says otherwise; its build priority may be set."""
    lines = [*failures(1), "enter amd64 hello 1 optional devel", "take amd64 x1 hello 1"]
    with acting(folder, lines) as (served, _, porter):
        porter.give(key("anna"))
        why = "it is Building, held by x1, and the form does not say to end holds"
        for path in ("/arch/amd64/Building", "/package/hello", "/?q=hello+p00"):
            for word, fields in {"give-back": {}, "fail": {"reason": "no"}}.items():
                met = porter.act(path, word, "hello", status=409, **fields)
                expect(met == [("hello", "amd64", "refused", why)], f"{path}, {word}: {met}")
        expect(porter.act("/package/hello", "build-priority", priority="7")[0][2] == "accepted", "its build priority")
        expect("holds" not in porter.page("/package/p00").form_of("give-back").fields, "nobody holds it")
        met = porter.act("/arch/amd64/Building", "give-back", holds="end")
        expect(met == [("hello", "amd64", "accepted", "Building, held by x1, becomes Needs-Build")], f"{met}")
        command(served, "take", arch="amd64", builder="x1", source="hello", version="1")
        met = porter.act("/package/hello", "fail", reason="no", holds="end")
        expect(met == [("hello", "amd64", "accepted", "Building, held by x1, becomes Failed")], f"{met}")


def refuses_other_sites(folder):
    """A form counts only from the address of the site, in the session of its token; else nothing is looked at."""
    with acting(folder, failures(2)) as (served, site, porter):
        porter.give(key("anna"))
        other = Porter(site)
        other.give(key("operator"))
        before = accepted(served)
        body = porter.body_of(porter.page("/arch/amd64/Build-Attempted"), "give-back")
        origins = ("https://evil.example", "null", "", f"{porter.origin}0", "https://127.0.0.1")
        evil = [{"Origin": text} for text in origins]
        evil += [{"Sec_Fetch_Site": text} for text in ("cross-site", "same-site", "none", "x")]
        for path, form in {"/act": body, "/key": [("key", key("bert"))], "/forget": body[:1]}.items():
            for fields in evil:
                page = porter.send("POST", path, form, 403, **fields)
                expect("was not sent by a page of" in page.text and "Set-Cookie" not in porter.fields, page.text)
        porter.send("POST", "/act", body, 415, Content_Type="text/plain")
        porter.send("POST", "/act", body, 415, Content_Type="multipart/form-data; boundary=x")
        token, of_other = (dict(one.page("/key").form_to("/forget").hidden)["token"] for one in (porter, other))
        for text in ("", "x", token[:-1], token + "x", "ü", of_other):
            wrong = [(name, text if name == "token" else value) for name, value in body]
            for path in ("/act", "/forget"):
                expect("not of the session" in porter.send("POST", path, wrong, 403).text, f"{path}, token {text}")
        page = porter.send("POST", "/act", body, 403, Cookie="")
        expect("No key is held for this browser" in page.text and "Give a key" in page.links, page.text)
        expect("the key" in porter.page("/").text and accepted(served) == before, "something was done")
        porter.send("POST", "/act", body, Sec_Fetch_Site="")
        expect(accepted(served) == before + 2, "a browser that does not say Sec-Fetch-Site")
    return f"{3 * len(evil)} requests of other sites"


# ---- the key


def forgets_keys(folder):
    """When it is told to, without use, and once a key is given anew: each time the old cookie is good for nothing. A
    cookie that somebody chose is not taken over."""
    with acting(folder, failures(2)) as (served, site, porter):
        porter.cookies["wb"] = "chosen"
        porter.give(key("bert"))
        first = dict(porter.cookies)
        expect(first["wb"] not in ("chosen", "") and len(first["wb"]) > 40, f"{first}")
        porter.give(key("anna"))
        body = porter.body_of(porter.page("/arch/amd64/Build-Attempted"), "give-back")
        old = Porter(site)
        old.cookies = first
        expect(old.page("/key").links["Give a key"], "the cookie before")
        stolen = dict(porter.cookies)
        porter.send("POST", "/forget", porter.page("/").form_to("/forget").hidden, 303)
        expect(porter.cookies["wb"] == "" and "Max-Age=0" in porter.fields["Set-Cookie"], f"{porter.fields}")
        porter.cookies = stolen
        expect("No key is held" in porter.send("POST", "/act", body, 403).text, "a key that was forgotten")
        porter.send("POST", "/forget", [], 303)
        expect(states(served, "p00", "p01") == ["Build-Attempted"] * 2, "the records")
        for back, leads in {"/arch/amd64?x=1": "/arch/amd64?x=1", "//evil.example": "/key", "/\\evil": "/key",
                            "https://evil.example": "/key", "/a b": "/key"}.items():
            porter.give(key("anna"), back=back)
            expect(porter.fields["Location"] == leads, f"{back} leads to {porter.fields['Location']}")
    (folder / "short").mkdir()
    with acting(folder / "short", failures(1), FORGET="1") as (served, _, porter):
        porter.give(key("anna"))
        body = porter.body_of(porter.page("/arch/amd64/Build-Attempted"), "give-back")
        time.sleep(1.5)
        porter.send("POST", "/act", body, 403)
        expect(states(served, "p00") == ["Build-Attempted"], "a session that ended")


def bounds_sessions():
    """How long they last, how many are held, and how many of one key: the one that was used last stays."""
    clock = [0.0]
    held = sessions.Sessions(100, lambda: clock[0])

    def right(text):
        return {"sid": sessions.Right(sessions.GivenKey(text=text), frozenset(["amd64"]))}

    first = held.begin(right("a" * 20))
    for clock[0] in range(90, sessions.LONGEST - 10, 90):
        expect(held.of(first) is not None, f"it ends after {clock[0]} seconds, though it is used")
    clock[0] = sessions.LONGEST
    expect(held.of(first) is None and not held.held, "it lasts for ever if it is used")
    kept = held.begin(right("c" * 20), clock[0] - sessions.LONGEST + 1)
    clock[0] += 1
    expect(held.of(kept) is None, "a key that is taken over lasts longer")
    names = [held.begin(right("b" * 20)) for _ in range(sessions.OF_ONE_KEY + 1)]
    expect(held.of(names[0]) is None and all(map(held.of, names[1:])), "sessions of one key")
    for at in range(sessions.MOST):
        held.of(names[1])
        held.begin(right(f"{at:020}"))
    expect(len(held.held) == sessions.MOST and held.of(names[1]) and held.of(names[2]) is None, "sessions in all")
    clock[0] += 100
    expect(held.of(names[1]) is None and held.of("") is None and not held.held, "it lasts without use")


def keeps_keys_to_itself(folder):
    """A key stands in no page, no field, no file, no message and no environment, also if the site fails over it."""
    secret = key("anna")
    with acting(folder, failures(2)) as (served, site, porter):
        porter.give("x" * 30, 403)
        porter.give(secret)
        met = porter.act("/arch/amd64/Build-Attempted", "give-back")
        porter.page("/key")
        porter.give(secret, back="/package/p00")
        porter.page("/package/p00")
        stop(served)
        porter.give(secret, 503)
        expect(len(met) == 2 and not list(tellers(secret)), f"{list(tellers(secret))}")
        expect_none(f"an answer has the key: {text[:80]}" for text in porter.seen if secret in text)
        expect_none(f"the cookie is the key: {text}" for text in porter.cookies.values() if secret in text)
    expect(secret not in site.said and not holders(folder, secret), f"{site.said} {holders(folder, secret)}")
    shown = sessions.GivenKey(text=secret)
    expect(secret not in f"{shown!r} {shown} {vars(sessions.Session({'x': sessions.Right(shown, [])}, 0, 0))}", "repr")
    done = subprocess.run([interpreter(), "-c", FAILS, LIB, secret], capture_output=True, text=True, check=True)
    expect("Traceback" in done.stderr and "planted" in done.stderr, f"{done}")
    expect(secret not in done.stderr + done.stdout and "500" in done.stdout, f"{done}")


# A site that fails while it looks at a key, and while it acts by one.
FAILS = """
import sys
sys.path.insert(0, sys.argv[1])
sys.dont_write_bytecode = True
from wb_tools.web import app, forms, orders, sessions
from wb_tools.web.settings import Settings, Suite
def fail(*_):
    raise RuntimeError("planted")
flask = app.create(Settings((Suite("sid", "http://127.0.0.1:1"),), forms="http://localhost"))
client = flask.test_client()
fields = {"Origin": "http://localhost"}
forms.right_at = fail
print(client.post("/key", data={"key": sys.argv[2]}, headers=fields).status)
forms.right_at = lambda suite, key, end: sessions.Right(key, frozenset(["amd64"]))
print(client.post("/key", data={"key": sys.argv[2]}, headers=fields).status)
orders.office_of = fail
token = client.get("/key").text.split('name="token" value="')[1].split('"')[0]
row = "sid amd64 hello 1 1 Failed -"
print(client.post("/act", data={"token": token, "row": row, "do": "give-back"}, headers=fields).status)
"""


def has_strict_cookies_and_headers(folder):
    """The cookie is for this site alone, and over TLS alone if browsers reach it so; what has a token is kept
    nowhere."""
    with acting(folder, failures(1)) as (served, site, porter):
        porter.give(key("anna"))
        said = porter.fields["Set-Cookie"]
        expect(re.fullmatch(r"wb=[\w-]{43}; HttpOnly; Path=/; SameSite=Strict", said), said)
        for path in ("/", "/key", "/arch/amd64/Build-Attempted", "/package/none"):
            porter.page(path, 404 if "none" in path else 200)
            wanted = {"Cache-Control": "no-store", "X-Accel-Expires": "0", "Referrer-Policy": "same-origin",
                      "Vary": "Cookie"}
            expect({name: porter.fields[name] for name in wanted} == wanted, f"{path}: {porter.fields}")
            policy = porter.fields["Content-Security-Policy"]
            expect("form-action 'self'" in policy and "frame-ancestors 'none'" in policy, policy)
        for path in ("/style.css", "/index.json"):
            porter.page(path)
            expect("Cookie" not in porter.fields.get("Vary", ""), f"{path}: {porter.fields}")
        address = "https://builds.example.org"
        with with_forms(folder, served, FORMS=address) as secure:
            one = Porter(secure, address)
            expect(one.page("/key").form_to("/key").action == f"{address}/key", "a key goes over http")
            one.give(key("anna"))
            said = one.fields["Set-Cookie"]
            expect(re.fullmatch(r"__Host-wb=[\w-]{43}; Secure; HttpOnly; Path=/; SameSite=Strict", said), said)
            one.act("/arch/amd64/Build-Attempted", "give-back")
            one.give(key("anna"), 403, Origin=f"http://127.0.0.1:{secure.port}")


# ---- what is missing


def says_if_an_office_is_gone(folder):
    """One that is stopped or slow is sent nothing more, and the page says what is known; of two offices the other is
    acted on."""
    with acting(folder, failures(3)) as (served, site, porter):
        porter.give(key("anna"))
        body = porter.body_of(porter.page("/arch/amd64/Build-Attempted"), "give-back")
        stop(served)
        page = porter.send("POST", "/act", body, 503)
        rows = page.tables["What the office answered"]
        expect([row["Answer"] for row in rows] == ["not sent"] * 3 and "Connection refused" in page.text, f"{rows}")
        expect("Connection refused" in Porter(site).give(key("anna"), 503).text, "a key without an office")
    with silent_office() as port, with_forms(folder, SilentOffice(port), WAIT="1") as site:
        begun = time.monotonic()
        Porter(site).give(key("anna"), 503)
        expect(time.monotonic() - begun < 20, "the site waits as long as its office likes")
    two = folder / "two"
    two.mkdir()
    with contextlib.ExitStack() as stack:
        put(two / "office.keys", lines_of({"anna": "port=amd64"}))
        put(two / "other.keys", lines_of({"operator": "operate"}))
        one, other = (stack.enter_context(office(two, failures(2), name, ["--keys", f"{name}.keys"]))
                      for name in ("office", "other"))
        names = {"SUITES": f"sid={one.port} old={other.port}", "INDEXES": f"sid={two}/office.journal.index"}
        porter = Porter(stack.enter_context(with_forms(two, one, **names)))
        porter.give(key("anna"))
        expect(porter.page("/arch/amd64/Build-Attempted?suite=sid").commands, "the office that knows the key")
        expect(not porter.page("/arch/amd64/Build-Attempted?suite=old").commands, "the office that does not")
        porter.give(key("operator"))
        text = porter.page("/key").text
        expect("sid amd64, by the key" in text and "old amd64, arm64, by the key" in text, text)
        page = porter.page("/package/p00")
        expect(len(page.form_of("give-back").boxes) == 2, f"{page.form_of('give-back').boxes}")
        stop(other)
        body = porter.body_of(page, "give-back")
        rows = porter.send("POST", "/act", body, 503).tables["What the office answered"]
        met = [(row["Suite"], row["Answer"]) for row in rows]
        expect(sorted(met) == [("old", "not sent"), ("sid", "accepted")], f"{met}")
        expect(states(one, "p00", "p01") == ["Needs-Build", "Build-Attempted"], "the office that is there")


class SilentOffice:
    """For with_forms: an office of which only the port is known."""

    def __init__(self, port):
        self.port = port


TESTS = [
    offers_nothing_without_a_key, finds_out_what_a_key_may_do, offers_what_a_state_allows, carries_out_what_is_said,
    rebuilds, carries_out_what_is_marked, shows_what_the_office_refuses, refuses_forms_that_lack_something,
    acts_on_nothing_that_went_on, ends_holds_only_if_told, refuses_other_sites, forgets_keys, bounds_sessions,
    keeps_keys_to_itself, has_strict_cookies_and_headers, says_if_an_office_is_gone,
]
