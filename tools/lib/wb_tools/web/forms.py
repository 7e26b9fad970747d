"""What porters send to the site: a key, that it be forgotten, and what is to be done with marked rows. A form counts
only if a page of this site sent it, in the session of its token."""
from __future__ import annotations

import hashlib
import re
import secrets
import time
from collections import Counter
from collections.abc import Callable
from urllib.parse import quote

from flask import Response, g, make_response, redirect, request
from werkzeug.exceptions import Forbidden, UnsupportedMediaType

from wb_tools.keys import LEAST, MOST, is_key
from wb_tools.requests.sending import ACCEPTED, NO_ANSWER
from wb_tools.web.orders import Desk, Malformed, Said, all_marked, said_of
from wb_tools.web.pages import ARCH, PACKAGE, Page
from wb_tools.web.rights import NoRight, right_at
from wb_tools.web.sessions import GivenKey, Right, Session, Sessions
from wb_tools.web.settings import Settings
from wb_tools.web.tables import Column, Order, Row, address, table

LARGEST = 1 << 19  # bytes of a form
KIND = "application/x-www-form-urlencoded"
HERE = re.compile(r"/(?![/\\])[!-\[\]-~]{0,16000}")  # an address of this site
FROM_ELSEWHERE = "This form was not sent by a page of {}, so nothing was done. Forms are sent from that address alone."
NO_SESSION = "No key is held for this browser: none was given, or it was forgotten. Nothing was done."
WRONG_TOKEN = "This page is not of the session that sent it, so nothing was done. Open it anew."
SENT_ALREADY = "This form was sent already, and is not carried out twice. Open the page anew to see what became of it."


class Forms:
    """The forms of a site whose settings have FORMS. `rendered` makes an answer of a page."""

    def __init__(self, settings: Settings, rendered: Callable[[Page], Response]) -> None:
        self.settings, self.rendered = settings, rendered
        self.sessions = Sessions(settings.forget)
        self.is_secure = settings.forms.startswith("https:")
        self.cookie = "__Host-wb" if self.is_secure else "wb"

    def acting(self) -> Session | None:
        """The session of the browser that asks, which is looked up once for a request."""
        if "acting" not in g:
            g.acting = self.sessions.of(request.cookies.get(self.cookie, ""))
        found: Session | None = g.acting
        return found

    def shown(self) -> Page:
        """What each page has of the forms: how a key is given, or who acts."""
        here = g.get("back", "")
        if request.method in ("GET", "HEAD") and request.path != "/key":
            here = quote(request.path) + address({key: word for key, word in request.args.items() if key != "marked"})
        here = here.rstrip("?") if HERE.fullmatch(here) else "/"
        acting = self.acting()
        archs = {arch for right in acting.rights.values() for arch in right.archs} if acting else set()
        return {"acting": acting, "archs_of_key": sorted(archs), "once": secrets.token_urlsafe(16), "here": here}

    def refuse_others(self) -> None:
        """Refuses what no page of this site sent, before anything of it is looked at. A browser says of each POST from
        where it comes (Fetch Metadata Request Headers, section 2.3; RFC 6454, section 7)."""
        if request.method != "POST":
            return
        site = request.headers.get("Sec-Fetch-Site", "same-origin")
        if site != "same-origin" or request.headers.get("Origin") != self.settings.forms:
            g.acting = None
            raise Forbidden(FROM_ELSEWHERE.format(self.settings.forms))
        if request.mimetype != KIND:
            raise UnsupportedMediaType

    # ---- the key

    def key(self) -> Response:
        """The page where a key is given, and forgotten."""
        back = request.args.get("back", "")
        return self.key_page(200, [], back if HERE.fullmatch(back) else "")

    def back(self) -> str:
        """The page of this site that sent a form; empty if it does not say."""
        back: str = request.form.get("back", "")
        return back if HERE.fullmatch(back) else ""

    def key_page(self, status: int, faults: list[str], back: str) -> Response:
        page = {"template": "key.html", "title": "Your key" if self.acting() else "Give a key", "status": status}
        page |= {"faults": faults, "notes": [], "back": back, "is_shown": True}
        return self.rendered(page)

    def give(self) -> Response:
        """Takes a key that an office knows, under a new identifier."""
        text, back = request.form.get("key", "").strip(), self.back()
        if not is_key(text):
            return self.key_page(400, [f"This is no key: one has {LEAST} to {MOST} letters, digits and signs."], back)
        rights, faults, status = self.rights_of(GivenKey(text=text))
        if not rights:
            return self.key_page(status, faults, back)
        before = self.acting()
        kept = {suite: right for suite, right in before.rights.items() if suite not in rights} if before else {}
        identifier = self.sessions.begin({**kept, **rights}, before.begun if before and kept else None)
        self.sessions.forget(request.cookies.get(self.cookie, ""))
        response = make_response(redirect(back or "/key", 303))
        response.set_cookie(self.cookie, identifier, httponly=True, secure=self.is_secure, samesite="Strict", path="/")
        return response

    def rights_of(self, key: GivenKey) -> tuple[dict[str, Right], list[str], int]:
        """What a key may do at each office that knows it; of the others why not, and the status if none does."""
        rights: dict[str, Right] = {}
        faults: list[str] = []
        status, end = 403, time.monotonic() + self.settings.wait
        for suite in self.settings.suites:
            try:
                right = right_at(suite, key, end)
                if right.archs:
                    rights[suite.name] = right
                else:
                    faults.append(f"{suite.name}: your key lacks the right port=ARCH of each architecture")
            except NoRight as why:
                faults.append(f"{suite.name}: {why}")
                status = status if why.is_answer else 503
        return rights, faults, status

    def forget(self) -> Response:
        """Forgets the keys of the browser that asks."""
        acting = self.acting()
        if acting and not acting.has_token(request.form.get("token", "")):
            raise Forbidden(WRONG_TOKEN)
        self.sessions.forget(request.cookies.get(self.cookie, ""))
        g.acting = None
        response = make_response(redirect("/key", 303))
        response.delete_cookie(self.cookie, httponly=True, secure=self.is_secure, samesite="Strict", path="/")
        return response

    # ---- what is done

    def act(self) -> Response:
        """Has the offices carry out what a form says of the rows that were marked, and says what they answered."""
        acting, g.back = self.acting(), self.back()
        if acting is None:
            raise Forbidden(NO_SESSION)
        if not acting.has_token(request.form.get("token", "")):
            raise Forbidden(WRONG_TOKEN)
        try:
            said, marked = said_of(request.form), all_marked(request.form.getlist("row"), self.settings)
        except Malformed as why:
            return self.told(400, f"{why} Nothing was done.")
        if not acting.begin(form := digest_of_form()):
            return self.told(409, SENT_ALREADY)
        desk = Desk(self.settings, acting, said)
        rows = desk.rows(marked)
        if not any(row["answer"] in (ACCEPTED, NO_ANSWER) for row in rows):
            acting.release(form)
        self.drop(acting, desk.unknown)
        return self.acted(said, rows, desk.status(rows))

    def drop(self, acting: Session, suites: set[str]) -> None:
        """Forgets the keys that the offices of these suites do not know any more."""
        acting.rights = {suite: right for suite, right in acting.rights.items() if suite not in suites}
        if not acting.rights:
            self.sessions.forget(request.cookies.get(self.cookie, ""))
            g.acting = None

    def acted(self, said: Said, rows: list[Row], status: int) -> Response:
        """The page that says what came of each row, of those first that were not accepted."""
        rows = sorted(rows, key=lambda row: row["answer"] == ACCEPTED)
        counts = Counter(row["answer"] for row in rows)
        title = f"{said.command.label}: " + ", ".join(f"{count} {answer}" for answer, count in counts.items())
        is_of_several = len(self.settings.suites) > 1
        columns = [*([Column("suite", "Suite", "suite")] if is_of_several else []), PACKAGE, ARCH]
        columns += [Column("build", "Version", "version"), Column("answer", "Answer", "answer")]
        columns += [Column("what", "Change or reason", "note")]
        made = table("What the office answered", columns, rows, len(rows), Order("", False, 1), {}, is_fixed=True)
        page = {"template": "acted.html", "title": title, "status": status, "faults": [], "notes": [], "made": made}
        return self.rendered(page | {"said": said, "is_shown": True})

    def told(self, status: int, why: str) -> Response:
        page = {"template": "fault.html", "title": str(status), "status": status, "faults": [], "notes": [why]}
        return self.rendered(page)


def digest_of_form() -> str:
    """A form as it was sent, of a page as it was made: its field `once` differs each time."""
    return hashlib.sha256(repr(sorted(request.form.items(multi=True))).encode()).hexdigest()
