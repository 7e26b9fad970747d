"""Relations between packages (Debian Policy 7.1): whether a text has the form that an office reads, for
tools/bin/wb-requests."""
import re

from wb_tools.lists import is_version

NAME = "[a-z0-9][a-z0-9+.-]{1,199}"
BLANK = "[ \t\r\n]*"
# An alternative: its name, what stands in each kind of brackets, and build profiles.
ALTERNATIVE = re.compile(
    rf"{BLANK}{NAME}(?::[a-z0-9-]+)?{BLANK}(?:\(([^()]*)\){BLANK})?(?:\[([^][]*)\]{BLANK})?((?:<[^<>]*>{BLANK})*)"
)
RESTRICTION = re.compile(rf"{BLANK}(<<|<=|<|=|>=|>>|>){BLANK}([^ \t\r\n]+){BLANK}")
ARCHS = re.compile(r"[a-z0-9][a-z0-9-]*")
PROFILE = re.compile(r"!?[A-Za-z0-9.+_-]+")
LIMIT = 65536  # bytes


def are_relations(text: str) -> bool:
    """Whether an office can read them. Groups that are empty are skipped, but one has to be there."""
    groups = [group for group in text.split(",") if group.strip()]
    return (
        bool(groups) and len(text.encode()) <= LIMIT
        and all(is_alternative(one) for group in groups for one in group.split("|"))
    )


def is_alternative(text: str) -> bool:
    found = ALTERNATIVE.fullmatch(text)
    if not found:
        return False
    restriction, archs, profiles = found.groups()
    if restriction is not None:
        asked = RESTRICTION.fullmatch(restriction)
        if not asked or not is_version(asked[2]):
            return False
    return (archs is None or are_archs(archs.split())) and all(
        terms.split() and all(map(PROFILE.fullmatch, terms.split())) for terms in re.findall("<([^<>]*)>", profiles)
    )


def are_archs(words: list[str]) -> bool:
    """Whether they are words of architectures, all of them negated or none."""
    bare = [word.removeprefix("!") for word in words]
    return bool(words) and len({word[0] == "!" for word in words}) == 1 and all(map(ARCHS.fullmatch, bare))
