"""What the tests of the forms of the site share: an office with keys, and a browser in which a porter gives one."""
import contextlib
import http.client
import json
import urllib.parse

from harness import WAIT, expect, free_port
from key_runs import key, lines_of, put
from web_runs import Page, Site, office

RIGHTS = {
    "anna": "port=amd64 port=arm64", "bert": "port=arm64", "reader": "read", "b1": "build=b1", "operator": "operate",
}
FORM = "application/x-www-form-urlencoded"


class Form:
    """A form of a page: its address, what it sends unseen, its boxes and whether they are marked, its fields and the
    commands of its buttons."""

    def __init__(self, action, name):
        self.action, self.name = action, name
        self.hidden, self.boxes, self.fields, self.commands, self.labels = [], {}, [], [], []


class FormPage(Page):
    """A page with its forms that are sent by POST; a box may stand outside of its form, which it names."""

    def __init__(self, text):
        self.forms, self.form, self.outside = [], None, []
        super().__init__(text)
        for name, value, is_marked in self.outside:
            next(form for form in self.forms if form.name == name).boxes[value] = is_marked

    def handle_starttag(self, tag, attributes):
        super().handle_starttag(tag, attributes)
        given = dict(attributes)
        if tag == "form" and given.get("method") == "post":
            self.form = Form(given["action"], given.get("id"))
            self.forms.append(self.form)
        elif tag == "input" and given.get("form"):
            self.outside.append((given["form"], given["value"], "checked" in given))
        elif tag == "input" and self.form:
            self.take_field(given)
        elif tag == "button" and self.form and given.get("name") == "do":
            self.form.commands.append(given["value"])

    def take_field(self, given):
        if given.get("name") == "do":
            self.form.commands.append(given["value"])
        elif given.get("type") == "hidden":
            self.form.hidden.append((given["name"], given.get("value", "")))
        elif given.get("name") == "row":
            self.form.boxes[given["value"]] = "checked" in given
        else:
            self.form.fields.append(given["name"])

    def handle_endtag(self, tag):
        super().handle_endtag(tag)
        if tag == "form":
            self.form = None

    @property
    def commands(self):
        """The commands that the page offers."""
        return sorted({command for form in self.forms for command in form.commands})

    def form_of(self, command):
        found = [form for form in self.forms if command in form.commands]
        expect(len(found) == 1, f"the page has {len(found)} forms for {command}: {self.text[:600]}")
        return found[0]

    def form_to(self, path):
        found = [form for form in self.forms if urllib.parse.urlsplit(form.action).path == path]
        expect(found, f"the page has no form to {path}: {self.text[:600]}")
        return found[0]


class Porter:
    """A browser in which a key may be given: it keeps the cookie, sends the forms of pages, and says of each from where
    it comes. `fields` are those of the last answer, and `seen` all that was answered."""

    def __init__(self, site, origin=None):
        self.site, self.cookies, self.fields, self.seen = site, {}, {}, []
        self.origin = origin or f"http://127.0.0.1:{site.port}"

    def send(self, method, path, body=None, status=200, **fields):
        """The page that is answered; a field that is empty is not sent."""
        given = {"Cookie": "; ".join(f"{name}={value}" for name, value in self.cookies.items())}
        if method == "POST":
            given |= {"Origin": self.origin, "Sec-Fetch-Site": "same-origin", "Content-Type": FORM}
        given |= {name.replace("_", "-"): value for name, value in fields.items()}
        link = http.client.HTTPConnection("127.0.0.1", self.site.port, timeout=WAIT)
        with contextlib.closing(link):
            text = urllib.parse.urlencode(body) if isinstance(body, list) else body
            link.request(method, path, text, {name: value for name, value in given.items() if value})
            answer = link.getresponse()
            said = answer.read().decode()
        self.fields = answer.headers
        self.seen.append(f"{path}\n{answer.headers}\n{said}")
        expect(answer.status == status, f"{method} {path}: status {answer.status} in place of {status}: {said[-900:]}")
        for one in answer.headers.get_all("Set-Cookie") or ():
            name, _, value = one.partition(";")[0].partition("=")
            self.cookies[name] = value
        return FormPage(said)

    def page(self, path, status=200):
        return self.send("GET", path, status=status)

    def give(self, text, status=303, back="", **fields):
        """Gives a key on its page."""
        form = self.page(f"/key?back={urllib.parse.quote(back)}").form_to("/key")
        return self.send("POST", "/key", [*form.hidden, ("key", text)], status, **fields)

    def body_of(self, page, command, *rows, **words):
        """What is sent if these rows of a page are marked, each as its package or its architecture, or all."""
        form = page.form_of(command)
        marked = [("row", box) for box in form.boxes if not rows or set(rows) & set(box.split()[1:3])]
        expect(set(words) <= set(form.fields), f"the form of {command} has the fields {form.fields}")
        return [*form.hidden, *marked, ("do", command), *words.items()]

    def act(self, path, command, *rows, status=200, **words):
        """Opens a page, marks rows and presses the button of a command: what was answered of each row."""
        page = self.send("POST", "/act", self.body_of(self.page(path), command, *rows, **words), status)
        return [(row["Package"], row["Architecture"], row["Answer"], row["Change or reason"])
                for row in page.tables["What the office answered"]]


@contextlib.contextmanager
def acting(folder, lines, anyone="read", **settings):
    """An office with keys after these lines, a site over it with forms, and a browser in which no key was given."""
    put(folder / "office.keys", lines_of(RIGHTS, anyone))
    more = ["--keys", "office.keys", "--journal", "office.journal"]
    with office(folder, lines, more=more) as served, with_forms(folder, served, **settings) as site:
        yield served, site, Porter(site)


@contextlib.contextmanager
def with_forms(folder, served, **settings):
    port = free_port()
    given = {"SUITES": f"sid={served.port}", "INDEXES": f"sid={folder}/office.journal.index"}
    given["FORMS"] = f"http://127.0.0.1:{port}"
    with Site(folder, port=port, **given | settings) as site:
        yield site


def record(served, arch, source):
    """A record as the office has it."""
    return json.loads(served.ask("GET", f"/v1/item/{arch}/{source}")[1])


def command(served, word, name="operator", **body):
    """Sends a command by somebody else's key, past the site."""
    link = http.client.HTTPConnection("127.0.0.1", served.port, timeout=WAIT)
    with contextlib.closing(link):
        link.request("POST", f"/v1/{word}", json.dumps(body), {"Authorization": f"Bearer {key(name)}"})
        answer = link.getresponse()
        said = answer.read()
    expect(answer.status == 200, f"{word} {body}: {said}")
