"""What a key may do at an office, found out from its answers to requests that change nothing, whatever is answered
(docs/HTTP.md, "Keys"). The form of the path is judged first, then the body, and the names in it before any record is
looked at: so `{}` is refused with BadBody, and an empty name with BadName, by whoever has the right for more."""
from __future__ import annotations

import secrets
import time
import urllib.parse
from typing import Any

from wb_tools.wanna_build.office import NoAnswer, Office, Refusal
from wb_tools.web.sessions import GivenKey, Right
from wb_tools.web.settings import Suite

ASKED = "give-back"  # a command for which a porter's right is needed


class NoRight(Exception):
    """Why a key gives no right at an office; `is_answer` if the office said so."""

    def __init__(self, why: str, is_answer: bool = True) -> None:
        super().__init__(why)
        self.is_answer = is_answer


def office_of(suite: Suite, key: GivenKey, end: float) -> Office:
    """The office of a suite, which has until a moment to answer."""
    return Office(urllib.parse.urlsplit(suite.url).port or 80, max(0.1, end - time.monotonic()), key)


def right_at(suite: Suite, key: GivenKey, end: float) -> Right:
    """What a key may do at the office of a suite."""
    try:
        mind_open_office(suite, end)
        answered(suite, key, end, "BadBody")
        archs = suite.archs or archs_of(suite, key, end)
        return Right(key, frozenset(arch for arch in archs if may_port(suite, key, arch, end)))
    except NoAnswer as why:
        raise NoRight(str(why), False) from None


def answered(suite: Suite, key: GivenKey, end: float, wanted: str, **body: Any) -> None:
    """Asks for what the office refuses by this name if the key has the right, and else is NoRight."""
    refusal = office_of(suite, key, end).post(ASKED, **body)
    if refusal is None or refusal.name != wanted:
        is_for_key = refusal is not None and refusal.is_for_want_of_a_key
        raise NoRight(str(refusal or "this is no answer of an office"), is_for_key)


def mind_open_office(suite: Suite, end: float) -> None:
    """An office that asks for no keys lets a key through that is on no line: everybody could act there."""
    stranger = GivenKey(text=secrets.token_urlsafe(32))
    refusal = office_of(suite, stranger, end).post(ASKED)
    if refusal is None or refusal.name != "NoKey":
        raise NoRight("the office asks for no keys, and pages act only on one that does")


def archs_of(suite: Suite, key: GivenKey, end: float) -> list[str]:
    found = office_of(suite, key, end).archs()
    if isinstance(found, Refusal):
        raise NoRight(str(found), False)
    return [str(one.get("arch")) for one in found]


def may_port(suite: Suite, key: GivenKey, arch: str, end: float) -> bool:
    try:
        answered(suite, key, end, "BadName", arch=arch, source="", version="")
        return True
    except NoRight as why:
        if why.is_answer:
            return False
        raise
