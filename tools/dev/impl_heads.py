"""Reads the head of an impl or of a trait, for the scripts beside it that name a method by its type."""
import re


def type_and_trait(rest):
    """The type that an impl is for, or the trait that is declared; and the trait that an impl is of, or none."""
    while rest.lstrip().startswith("<"):  # parameters, which may have brackets of their own
        depth, at = 0, rest.index("<")
        for at in range(at, len(rest)):
            depth += (rest[at] == "<") - (rest[at] == ">" and rest[at - 1] not in "-=")
            if depth == 0:
                break
        rest = rest[at + 1 :]
    trait, of, named = rest.rpartition(" for ")
    trait, named = (re.search(r"\w+(?:::\w+)*", it) for it in (trait, named))
    return named[0].split("::")[-1] if named else "", trait[0].split("::")[-1] if of and trait else ""
