"""The site as a program that a web server of Python calls: which address has which page, what each answer says of
itself, and what templates show of texts and times."""
import os
import time
from collections.abc import Callable
from pathlib import Path
from typing import Any

from flask import Flask, Response, g, jsonify, render_template, request
from werkzeug.exceptions import HTTPException, RequestURITooLarge

import wb_tools
from wb_tools.answers import printable
from wb_tools.journal import seconds_of, time_of
from wb_tools.style import STYLE
from wb_tools.web import feeds, lists, pages, search
from wb_tools.web.forms import LARGEST, Forms
from wb_tools.web.orders import FIELDS
from wb_tools.web.pages import Page
from wb_tools.web.settings import Settings
from wb_tools.web.tables import Row
from wb_tools.web.visit import Visit

POLICY = (
    "default-src 'none'; style-src 'self'; img-src 'self'; form-action 'self'; base-uri 'none'; frame-ancestors 'none'"
)
HEADERS = {
    "Content-Security-Policy": POLICY, "X-Content-Type-Options": "nosniff", "Referrer-Policy": "no-referrer",
    "Cross-Origin-Resource-Policy": "same-origin", "Cache-Control": "no-cache",
}
# Of a page of who acts: it is kept nowhere, also not by a web server, and its forms say where they come from.
HEADERS_OF_ACTING = {"Cache-Control": "no-store", "X-Accel-Expires": "0", "Referrer-Policy": "same-origin"}
# What only a template needs.
HIDDEN = ("template", "title", "query", "archs_known", "choices", "meanings", "meaning", "acts", "marks", "is_held")
LONGEST = 8192  # bytes of an address
FAULTS = {
    404: "There is no such page.", 405: "A page is only read, and a form is only sent.",
    413: "The form is too large: mark fewer rows.", 414: "The address is too long.",
    415: "This is no form of a page of this site.",
}


def folder() -> Path:
    """Where templates and styles are: `web` of a checkout, or of the Debian package."""
    found = Path(wb_tools.__file__).resolve().parents
    return next(path / "web" for path in (found[2], found[3]) if (path / "web").is_dir())


# ---- what templates show


def span_text(seconds: int) -> str:
    """How long something took, in its greatest units."""
    for unit, name, part, part_name in ((86400, "d", 3600, "h"), (3600, "h", 60, "min"), (60, "min", 1, "s")):
        if seconds >= unit:
            rest = seconds % unit // part
            return f"{seconds // unit} {name} {rest} {part_name}" if rest else f"{seconds // unit} {name}"
    return f"{seconds} s"


def clock(text: str, is_exact: bool = True) -> str:
    """A time of an answer to the minute: that within which it is, or the end of it, before which something was."""
    at = text if is_exact else time_of(seconds_of(text) + 59)
    return at[:16].replace("T", " ")


def kind_of(state: str) -> str:
    """The name of a state in the style."""
    return state.lower()


# ---- pages


class Site:
    """The pages of these settings."""

    def __init__(self, settings: Settings) -> None:
        self.settings = settings
        static = folder() / "static"
        self.style = STYLE + (static / "site.css").read_text(encoding="utf-8")
        self.mark = (static / "mark.svg").read_text(encoding="utf-8")
        self.forms = Forms(settings, self.rendered) if settings.forms else None

    def shown(self, make: Callable[..., Page], *words: str) -> Response:
        """A page, or what stands on it if the address ends in .json."""
        is_json = request.path.endswith(".json")
        if is_json and words:
            words = (*words[:-1], words[-1].removesuffix(".json"))
        acting = self.forms.acting() if self.forms and not is_json else None
        visit = Visit(self.settings, request.args.to_dict(), now(), acting)
        try:
            page = make(visit, *words)
        finally:
            visit.close()
        query = "?" + request.query_string.decode(errors="replace") if request.query_string else ""
        page |= {"faults": list(map(str, visit.faults)), "notes": visit.notes, "now": now(), "query": query}
        page["archs_known"] = visit.archs_heard()
        if is_json:
            return answered(jsonify(plain(page)), page["status"])
        return self.rendered(page)

    def rendered(self, page: Page) -> Response:
        name = page["template"]
        if page["status"] >= 400 and name.endswith(".html") and not page.get("is_shown"):
            name = "fault.html"
        page.setdefault("archs_known", [arch for suite in self.settings.suites for arch in suite.archs])
        page |= self.forms.shown() if self.forms else {}
        text = render_template(name, settings=self.settings, page=page)
        kind = "application/atom+xml" if name.endswith(".xml") else "text/html"
        return answered(Response(text, content_type=f"{kind}; charset=utf-8"), page["status"])

    def front(self) -> Response:
        words = request.args.get("q", "").strip()
        return self.shown(search.search, words) if words else self.shown(pages.front)

    def failed(self, why: HTTPException) -> Response:
        """The page of an address that is none, and of a fault of the program."""
        status = why.code or 500
        page = {"template": "fault.html", "title": str(status), "status": status, "faults": [], "now": now()}
        said = why.description if status == 403 else FAULTS.get(status, "The site failed; its messages say why.")
        return self.rendered(page | {"notes": [said]})


def now() -> int:
    return int(os.environ.get("SOURCE_DATE_EPOCH") or time.time())


def plain(page: Page) -> dict[str, Any]:
    """What stands on a page, without what only a template needs."""
    return {key: without_links(value) for key, value in page.items() if key not in HIDDEN}


def without_links(value: Any) -> Any:
    """A table as its rows and how many there are in all."""
    if isinstance(value, list):
        return [without_links(one) for one in value]
    if not isinstance(value, dict):
        return value
    if "columns" in value:
        return {"rows": list(map(plain_row, value["rows"])), "total": value["total"], "page": value["page"]}
    return {key: without_links(one) for key, one in value.items() if key != "bar"}


def plain_row(row: Row) -> Row:
    """A row without what is drawn of it; a key such as counts/Built is Built within counts."""
    found: Row = {}
    for key, value in row.items():
        name, _, inner = key.partition("/")
        if inner:
            found.setdefault(name, {})[inner] = value
        elif key == "waits":
            found[key] = "".join(part["text"] for part in value)
        elif key == "chart":
            found["days"] = [{name: day[name] for name in ("day", "built", "failed")} for day in value["days"]]
        elif key not in ("bar", "href", "box", "boxes"):
            found[key] = value
    return found


def answered(response: Response, status: int) -> Response:
    response.status_code = status
    return response


def create(settings: Settings) -> Flask:
    """The program."""
    here = folder()
    flask = Flask("wb-web", template_folder=str(here / "templates"), static_folder=None)
    flask.jinja_env.trim_blocks = flask.jinja_env.lstrip_blocks = True
    flask.jinja_env.filters |= {"shown": printable, "span": span_text, "clock": clock, "kind": kind_of}
    flask.config["MAX_CONTENT_LENGTH"] = LARGEST
    site = Site(settings)
    add_pages(flask, site)
    if site.forms:
        add_forms(flask, site.forms)
    flask.register_error_handler(HTTPException, site.failed)

    @flask.before_request
    def refuse_long_addresses() -> Response | None:
        if len(request.full_path) <= LONGEST:
            return None
        return site.failed(RequestURITooLarge())

    @flask.after_request
    def add_headers(response: Response) -> Response:
        response.headers.update(HEADERS)
        if settings.forms and response.mimetype == "text/html":
            response.headers["Vary"] = "Cookie"
            if g.get("acting") or request.path in ("/key", "/act", "/forget"):
                response.headers.update(HEADERS_OF_ACTING)
        return response

    return flask


def add_forms(flask: Flask, forms: Forms) -> None:
    """The addresses of forms, and that of the page where a key is given."""
    flask.before_request(forms.refuse_others)
    flask.jinja_env.globals["fields"] = FIELDS
    flask.add_url_rule("/key", "key", forms.key, methods=["GET"])
    for rule, name, view in (("/key", "give", forms.give), ("/forget", "forget", forms.forget),
                             ("/act", "act", forms.act)):
        flask.add_url_rule(rule, name, view, methods=["POST"])


def add_pages(flask: Flask, site: Site) -> None:
    """The address of each page; each has another one, with .json at its end."""

    def text(content: str, kind: str) -> Callable[[], Response]:
        return lambda: Response(content, content_type=f"{kind}; charset=utf-8")

    def one(make: Callable[..., Page]) -> Callable[..., Response]:
        return lambda **words: site.shown(make, *words.values())

    rules: list[tuple[str, str, Callable[..., Response]]] = [
        ("/", "front", site.front), ("/index.json", "front_json", site.front),
        ("/style.css", "style", text(site.style, "text/css")),
        ("/mark.svg", "mark", text(site.mark, "image/svg+xml")),
        ("/package/<name>", "package", one(pages.package)), ("/arch/<arch>", "arch", one(lists.arch)),
        ("/arch/<arch>/<state>", "state", one(lists.state)), ("/builder/<name>", "builder", one(lists.builder)),
        ("/history", "history", one(lists.history)), ("/history.json", "history_json", one(lists.history)),
        ("/feed/package/<name>", "package_feed", one(feeds.package_feed)),
        ("/feed/arch/<arch>", "failures_feed", one(feeds.failures_feed)),
    ]
    for rule, name, view in rules:
        flask.add_url_rule(rule, name, view, methods=["GET"])
