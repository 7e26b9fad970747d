#!/usr/bin/env python3
"""Tests that want of memory is never made up: no code makes an `AllocError`, an `AllocFailed`, an `OutOfMemory` or a
`Memory` of a fault or a refusal but where a growth was refused, and none leaves an accepted command without its answer
but where there was no memory for that: it makes no `Mute`, no `Cause::Reply` and no `None` in place of an answer. And
that no code names the error of a formatter, `fmt::Error`, so that each failure to print a fault is one of the writer
that it is printed to.

It reads every source of crates/*/src, its tests aside. Of an occurrence of these names, these are no making:

- a type, a definition, an import, a contract or another ghost part;
- a pattern, of `match`, `matches!`, `let` or `for`, and an operand of `==` or `!=`;
- what stands in an impl of `From<AllocError>` or `From<AllocFailed<..>>`;
- what an arm of a `match` answers whose pattern asks for want of memory itself, in each alternative: it hands that on.

A constant whose value has such a name is such a name too, and so is a function whose listed making is the answer
itself, such as `memory_answer`: its callers are looked at. `Mute`, with which an exchange ends, and `Cause::Reply` and
`Cause::Room`, for which a run stops, are such names; so is, in a function that gives an `Option` of an `HttpAnswer` or
of a `LineAnswer`, each `None`, each `?`, and each call of a method of which a `None` may come. An import of a cause, or
one under another name, is a making too. The makings that are left are those of tools/tests/memory_exceptions, each with
its reason. A making that is not listed there, and a line there that has no making any more, are amiss.

It does not see a growth that is asked for too much on purpose, a listed making whose condition is another than its
reason says, and what a function of another type gives to one of these.
"""

# The system chooses when a growth is refused, so no clause can say it, and a body that answers that memory ran out is
# proved wherever no clause limits that answer. A clause for each size below which a growth must succeed would claim
# what no allocator promises.

import glob
import os
import re
import sys
from dataclasses import dataclass, field, replace

from harness import ROOT, expect_none, main

NAMES = frozenset({"AllocError", "AllocFailed", "OutOfMemory", "Memory", "Mute"})
CAUSES = frozenset({"Reply", "Room"})  # of these a run stops for want of memory, where `Cause::` comes before
VARIANTS = frozenset({"OutOfMemory", "Memory", "Mute"})  # without a path, such a pattern might be a new variable
TOLD = frozenset({"HttpAnswer", "LineAnswer"})  # of such an answer there is none if there is no memory for a reply
EMPTY = frozenset(  # methods of which a `None` may come without that word
    "and and_then checked_add checked_sub cloned copied err filter first get last map next ok or pop take then "
    "then_some xor zip".split()
)
ANSWERS = frozenset(
    {"memory_answer"}
)  # functions that make the answer for their callers, which are looked at in their place
EXCEPTIONS = "tools/tests/memory_exceptions"
TOKEN = re.compile(
    r"""(?P<space>\s+|//[^\n]*)
    |(?P<comment>/\*)
    |(?P<raw>\b(?:b|c)?r(?P<fence>\#*)"(?s:.*?)"(?P=fence))
    |(?P<text>\b[bc]?"(?:[^"\\]|\\(?s:.))*"|"(?:[^"\\]|\\(?s:.))*")
    |(?P<char>b?'(?:\\(?:u\{[^}]*\}|x[0-9a-fA-F]{2}|.)|[^'\\])')
    |(?P<lifetime>'\w+)
    |(?P<word>\w+)
    |(?P<sign>::|->|=>|==|!=|\.\.=|\.\.|&&|\|\||[^\w\s])""",
    re.VERBOSE,
)


@dataclass
class Token:
    """A word or a sign, or a bracket with the tokens in it."""

    text: str
    line: int
    inside: list = field(default_factory=list)


def tokens_of(text):
    """The tokens of a source, without comments, and with nothing in its texts."""
    at, line, found = 0, 1, []
    while at < len(text):
        token = TOKEN.match(text, at)
        end = token.end()
        if token["comment"]:
            depth = 1
            while depth and end < len(text):
                depth += text.startswith("/*", end) - text.startswith("*/", end)
                end += 2 if text.startswith(("/*", "*/"), end) else 1
        elif token["raw"] or token["text"] or token["char"] or token["lifetime"]:
            found.append(Token('""', line))
        elif not token["space"]:
            found.append(Token(token[0], line))
        line += text.count("\n", at, end)
        at = end
    return found


def tree_of(tokens):
    """The tokens with each bracket and what is in it as one."""
    top, closing = [Token("", 0)], {"(": ")", "[": "]", "{": "}"}
    for token in tokens:
        if token.text in closing:
            top[-1].inside.append(token)
            top.append(token)
        elif token.text in closing.values():
            if len(top) == 1 or token.text != closing[top[-1].text]:
                raise ValueError(f"line {token.line} closes a bracket that is not open")
            top.pop()
        else:
            top[-1].inside.append(token)
    if len(top) > 1:
        raise ValueError(f"the bracket of line {top[-1].line} is not closed")
    return top[0].inside


def words_in(tree):
    """All words and signs below, in their order."""
    for token in tree:
        yield token.text
        yield from words_in(token.inside)


def find(tree, start, *texts):
    """The first place from `start` on with one of these texts, or the end."""
    return next((n for n in range(start, len(tree)) if tree[n].text in texts), len(tree))


@dataclass(frozen=True)
class Place:
    """Where a part of a source stands: in which function, whether it may make want of memory, and whether a `None` of
    that function says that there is no memory for a reply."""

    function: str = "-"
    is_allowed: bool = False
    is_told: bool = False


class Scan:
    """Collects the makings of one source: their functions and lines."""

    def __init__(self, names):
        self.names = names
        self.constants = set()
        self.makings = []

    def has_name(self, tree):
        words = list(words_in(tree))
        causes = (before == "Cause" and after in CAUSES for before, after in zip(words, words[2:]))
        return any(it in self.names for it in words) or any(causes)

    def asks_for_it(self, pattern):
        """Whether each alternative of a pattern names want of memory."""
        pieces, before = [False], ""
        for word in words_in(pattern):
            if word == "|":
                pieces.append(False)
            elif word in self.names and (word not in VARIANTS or before == "::"):
                pieces[-1] = True
            before = word
        return all(pieces)

    def walk(self, tree, place):
        """Looks at items, statements and expressions."""
        at, is_test = 0, False
        while at < len(tree):
            word = tree[at].text
            after = tree[at + 1].text if at + 1 < len(tree) else ""
            if word == "#" and after in ("[", "!"):
                bracket = find(tree, at, "[")
                is_test = is_test or is_of_tests(tree[bracket].inside if bracket < len(tree) else [])
                at = bracket + 1
            elif is_test:
                at, is_test = self.end_of_item(tree, at), False
            else:
                at = self.step(tree, at, place)

    def end_of_item(self, tree, at):
        """The place after an item: after its first brace that is no contract's, or its semicolon."""
        while at < len(tree):
            if tree[at].text in ("ensures", "requires", "decreases"):
                at = find(tree, at, "{")
            elif tree[at].text in ("{", ";"):
                break
            at += 1
        return at + 1

    def step(self, tree, at, place):
        """Looks at what begins here; gives the place after what it has looked at."""
        word = tree[at].text
        if word == "ghost":
            return at + 2 if tree[at + 1 :] and tree[at + 1].text == "{" else find(tree, at, ";") + 1
        if word == "use":
            end = find(tree, at, ";")
            if self.is_hidden_by(list(words_in(tree[at:end]))):
                self.makings.append((place.function, tree[at].line))
            return end + 1
        if word in ("struct", "enum", "type"):
            return self.end_of_item(tree, at)
        if word in ("const", "static") and tree[at + 2 : at + 3] and tree[at + 2].text == ":":
            end = find(tree, at, ";")
            if self.has_name(tree[find(tree, at, "=") : end]):
                self.constants.add(tree[at + 1].text)
            return end + 1
        if word in ("fn", "impl", "trait", "mod"):
            end = self.end_of_item(tree, at)
            header = list(words_in(tree[at : end - 1]))
            if word == "fn" and tree[at + 1].text != "(":
                place = replace(place, function=tree[at + 1].text, is_told=gives_told(header))
            is_from = word == "impl" and any(
                a == "From" and b == "<" and c in ("AllocError", "AllocFailed")
                for a, b, c in zip(header, header[1:], header[2:])
            )
            place = replace(place, is_allowed=place.is_allowed or is_from)
            self.walk(tree[end - 1].inside if end <= len(tree) else [], place)
            return end
        if word == "let":
            return find(tree, at, "=", ";", "else")
        if word == "for" and tree[at + 1 :] and tree[at + 1].text != "<":
            return find(tree, at, "in")
        if word == "match":
            end = find(tree, at, "{")
            self.walk(tree[at + 1 : end], place)
            self.arms(tree[end].inside if end < len(tree) else [], place)
            return end + 1
        if word == "matches" and [it.text for it in tree[at + 1 : at + 3]] == ["!", "("]:
            inside = tree[at + 2].inside
            pattern = find(inside, 0, ",")
            self.walk(inside[:pattern], place)
            self.walk(inside[find(inside, pattern, "if") :], place)
            return at + 3
        is_named = word in self.names or is_cause(tree, at) or place.is_told and is_empty(tree, at)
        if is_named and not place.is_allowed and not self.is_used(tree, at):
            self.makings.append((place.function, tree[at].line))
        self.walk(tree[at].inside, place)
        return at + 1

    def is_hidden_by(self, words):
        """Whether an import of these words gives a name of want of memory another name, or a cause none of its own."""
        renamed = any(a in self.names | {"Cause"} and b == "as" for a, b in zip(words, words[1:]))
        after = words[words.index("Cause") + 1 :] if "Cause" in words else []
        return renamed or after[:1] == ["::"] and bool((CAUSES | {"*"}) & set(after))

    def is_used(self, tree, at):
        """Whether the name here is a type among expressions, or is only compared."""
        start = at
        while start >= 2 and tree[start - 1].text == "::":
            start -= 2
        before = tree[start - 1].text if start else ""
        after = tree[at + 1].text if at + 1 < len(tree) else ""
        is_type = before == "<" and start >= 2 and tree[start - 2].text == "::" or after == ">"
        is_parameter = before == ":" and after == "|"
        return is_type or is_parameter or before in ("==", "!=") or after in ("==", "!=")

    def arms(self, tree, place):
        """Looks at the arms of a `match`: at their guards, and at what they answer."""
        at = 0
        while at < len(tree):
            arrow = find(tree, at, "=>")
            guard = find(tree[:arrow], at, "if")
            self.walk(tree[guard + 1 : arrow], place)
            if tree[arrow + 1 : arrow + 2] and tree[arrow + 1].text == "{":
                end = arrow + 2
            else:
                end = find(tree, arrow, ",")
            is_allowed = place.is_allowed or self.asks_for_it(tree[at:guard])
            self.walk(tree[arrow + 1 : end], replace(place, is_allowed=is_allowed))
            at = end + 1 if tree[end : end + 1] and tree[end].text == "," else end


def is_cause(tree, at):
    """Whether a cause is named here for which a run stops for want of memory."""
    before = [it.text for it in tree[max(0, at - 2) : at]]
    return tree[at].text in CAUSES and before in (["Cause", "::"], ["Self", "::"])


def gives_told(header):
    """Whether a function of this header gives an answer, or none if there is no memory for it."""
    parts = zip(header, header[1:], header[2:], header[3:])
    return any(part[:3] == ("->", "Option", "<") and part[3] in TOLD for part in parts)


def is_empty(tree, at):
    """Whether a `None` is made here, or may come of what is called here."""
    before = tree[at - 1].text if at else ""
    after = tree[at + 1].text if at + 1 < len(tree) else ""
    return tree[at].text in ("None", "?") or before == "." and tree[at].text in EMPTY and after in ("(", "::")


def is_of_tests(attribute):
    """Whether the attribute marks an item of tests: `#[test]` or `#[cfg(test)]`."""
    words = list(words_in(attribute))
    return words == ["test"] or words == ["cfg", "(", "test"]


def makings_in(sources, answers=frozenset()):
    """The makings in a crate's sources, each as its file, function and line; `answers` are functions whose calls are
    makings."""
    trees = {path: tree_of(tokens_of(text)) for path, text in sources.items()}
    names, found = NAMES | answers, {}
    while True:
        for path, tree in trees.items():
            found[path] = Scan(names)
            found[path].walk(tree, Place())
        more = names.union(*(it.constants for it in found.values()))
        if more == names:
            return [(path, *making) for path, scan in found.items() for making in scan.makings]
        names = more


def sources_of(crate):
    """The sources of a crate by their paths, without those of modules that are declared for tests alone."""
    found = {
        path: open(path, encoding="utf-8").read() for path in sorted(glob.glob(f"{crate}/src/**/*.rt", recursive=True))
    }
    for path, text in list(found.items()):
        folder = os.path.dirname(path) if os.path.basename(path) in ("lib.rt", "main.rt") else path[: -len(".rt")]
        for module in re.findall(r"#\[cfg\(test\)\]\s*(?:pub(?:\(crate\))? )?mod (\w+);", text):
            found = {
                it: has
                for it, has in found.items()
                if it != f"{folder}/{module}.rt" and not it.startswith(f"{folder}/{module}/")
            }
    return found


# ---- the tests

# Bodies and items with what is made in them; each is tried as the whole of a source.
PLANTED = [
    ("fn f() -> Refusal { Refusal::Memory }", 1),
    ("fn f() -> Result<(), AllocError> { Err(AllocError) }", 1),
    ("fn f() -> Result<(), AllocError> {\n    return Err(\n        AllocError,\n    );\n}", 1),
    ("fn f(n: usize) -> Fault { if n > 1000 { Fault::Memory } else { Fault::TooLong } }", 1),
    ("fn f(x: Fault) -> Refusal { match x { Fault::Late => Refusal::Memory, _ => Refusal::BadName } }", 1),
    (
        "fn f(x: Fault) -> Refusal { match x { Fault::Memory | Fault::Late => Refusal::Memory, _ => Refusal::BadName "
        "} }",
        1,
    ),
    (
        "fn f(x: R) -> Refusal { match x { Err(Fault::Memory | Fault::Late) => Refusal::Memory, _ => Refusal::BadName "
        "} }",
        1,
    ),
    ("fn f(x: Fault) -> Refusal { match x { Memory => Refusal::Memory } }", 1),
    ("fn f(x: Fault) -> Refusal { match x { y if y == Fault::Memory => Refusal::Memory, _ => Refusal::BadName } }", 1),
    (
        "fn f(x: Fault) -> Refusal { match x { Fault::Late => { log(); Refusal::Memory } Fault::Memory => "
        "Refusal::Memory } }",
        1,
    ),
    ("fn f(x: Option<u8>) -> R { let Some(y) = x else { return Err(Refusal::Memory); }; Ok(y) }", 1),
    ("fn f() -> Option<Fault> { Some(Fault { kind: Kind::Memory, place: 1 }) }", 1),
    ("fn f(x: Option<u8>) -> R { x.ok_or(AllocError) }", 1),
    ("fn f(x: Option<u8>) -> R { x.ok_or_else(|| Refusal::Memory) }", 1),
    ("fn f() -> Error { Error::new(ErrorKind::OutOfMemory) }", 1),
    (
        "const SPENT: Refusal = Refusal::Memory; fn f(n: u8) -> Refusal { if n == 0 { SPENT } else { Refusal::BadName "
        "} }",
        1,
    ),
    ("use crate::Refusal::Memory as Full; fn f() -> Refusal { Full }", 1),
    ("impl From<VersionFault> for Refusal { fn from(_fault: VersionFault) -> Refusal { Refusal::Memory } }", 1),
    ('fn f() -> Refusal { /* Refusal::Memory */ let s = "} // Memory"; let c = \'"\'; Refusal::Memory }', 1),
    ("fn f<'a>(x: &'a str) -> Refusal { let c = '{'; Refusal::Memory }", 1),
    ('fn f() -> Refusal { let r = r#"a " quote"#; Refusal::Memory }', 1),
    ("fn f() -> bool { matches!(g(AllocError), Err(_)) }", 1),
    ("fn f() -> RunEnd { RunEnd::Stopped(Cause::Room) }", 1),
    ("fn f(x: Option<u8>) -> R { let Some(y) = x else { return Err(Cause::Reply); }; Ok(y) }", 1),
    ("macro_rules! full { () => { Refusal::Memory }; }", 1),
    # an accepted command without its answer
    ("fn f() -> Served { Served::Mute }", 1),
    ("fn f(x: Option<A>) -> Served { match x { Some(y) => send(y), None => Served::Mute } }", 1),
    ("fn f(x: &Request) -> Served { if let Request::Command(_) = x { return Served::Mute; } g(x) }", 1),
    ("use crate::Served::*; fn f() -> Served { Mute }", 1),
    ("use crate::Served::Mute as Silent; fn f() -> Served { Silent }", 1),
    ("fn f(x: V) -> Served { match x { Served::Mute | Served::Nothing => Served::Mute, y => y } }", 1),
    ("fn f(x: &Command) -> Result<u8, Cause> { if x.is_merge() { Err(Cause::Reply) } else { Ok(0) } }", 1),
    ("fn f(x: R) -> Turn { match x { Err(Cause::Write) => Turn::Stop(Cause::Reply), _ => Turn::More(0) } }", 1),
    ("use crate::Cause::Reply; fn f() -> Result<u8, Cause> { Err(Reply) }", 1),
    ("use crate::message::{Cause::{self, Reply}, Message}; fn f() -> Result<u8, Cause> { Err(Reply) }", 1),
    ("use crate::Cause::*; fn f() -> Result<u8, Cause> { Err(Reply) }", 1),
    ("use crate::Cause as Why; fn f() -> Result<u8, Why> { Err(Why::Reply) }", 1),
    ("impl Cause { fn f() -> Cause { Self::Reply } }", 1),
    ("const NONE: Cause = Cause::Reply; fn f() -> Result<u8, Cause> { Err(NONE) }", 1),
    ("fn f(x: R) -> Option<HttpAnswer> { match x { Ok(Reply::Done(_)) => None, Ok(y) => Some(g(y)) } }", 1),
    ("fn f(x: R) -> Option<LineAnswer> { if x.is_err() { return None; } Some(g(x)) }", 1),
    (
        "pub(crate) fn f<O: CarryOut>(\n    office: &mut O,\n) -> Option<LineAnswer>\n    ensures memory { result ≡ "
        "None → IsFull office.old }\n{\n    let told = None;\n    told\n}",
        1,
    ),
    ("fn f(x: Option<u8>) -> Option<LineAnswer> { let y = x?; Some(g(y)) }", 1),
    ("fn f(x: R) -> Option<LineAnswer> { let Ok(y) = x else { return None }; Some(g(y)) }", 1),
    ("fn f(x: R) -> Option<HttpAnswer> { reply(x).ok().map(g) }", 2),
    ("fn f(x: u8) -> Option<HttpAnswer> { (x < 3).then(|| g(x)) }", 1),
    ("fn f(x: u8) -> Option<HttpAnswer> { Some(g(x)).filter(|it| it.status == 200) }", 1),
    (
        "fn f() -> Option<LineAnswer> { match g() { Err(_) => None, Ok(it) if it == None => None, Ok(it) => Some(it) "
        "} }",
        2,
    ),
    ("#[cfg(test)] fn g() -> Refusal { Refusal::Memory } fn f() -> Refusal { Refusal::Memory }", 1),
    ("#[tactic(auto)] fn f(x: u8) -> Refusal ensures value { IfOk result (λ r. r ≡ Memory) } { Refusal::Memory }", 1),
    # no makings
    ("use std::alloc::{AllocError, AllocFailed}; ghost use Rattle.x.specs.Faults.{Memory};", 0),
    ("pub enum Fault { /// none\n Memory, Late } struct Held { last: AllocError }", 0),
    ("fn f(x: u8) -> Result<u8, AllocError> ensures memory { result ≡ Err Memory → IsMany x } { g(x) }", 0),
    (
        "impl From<AllocError> for Fault { ghost from_gives = { λ _ f. f ≡ Memory }; fn from(_e: AllocError) -> Fault "
        "{ Fault::Memory } }",
        0,
    ),
    ("impl<T: Drop> From<AllocFailed<T>> for Fault { fn from(_e: AllocFailed<T>) -> Fault { Fault::Memory } }", 0),
    ("fn f(x: Fault) -> Refusal { match x { Fault::Memory => Refusal::Memory, Fault::Late => Refusal::BadName } }", 0),
    (
        "fn f(x: R) -> R { match x { Err(Fault::Memory) | Err(Fault::Control { kind: Kind::Memory }) => { "
        "Err(Refusal::Memory) } _ => Ok(()) } }",
        0,
    ),
    ("fn f(x: R) -> R { match x { Err(AllocError) => Err(Refusal::Memory), Ok(y) => Ok(y) } }", 0),
    ('fn f(x: &Refusal) -> &str { match x { Refusal::Memory => "Memory", _ => "" } }', 0),
    ("fn f(x: &Refusal) -> bool { matches!(x, Refusal::Memory | Refusal::Spent) || *x == Refusal::Memory }", 0),
    ("fn f(x: R) -> u8 { if let Err(Refusal::Memory) = x { 1 } else { 0 } }", 0),
    ("fn f(x: V) -> R { let y: Result<u8, AllocError> = g(x); y.map_err(h::<AllocError>) }", 0),
    (
        "const FULL: Refusal = Refusal::Memory; fn f(x: V) -> R { match x { Fault::Memory => FULL, _ => "
        "Refusal::BadName } }",
        0,
    ),
    (
        'fn f(x: &Cause) -> &str { match x { Cause::Room => "room", Cause::Reply => "reply", _ => "" } } fn g() -> '
        'Reply { Reply::Done(1) }',
        0,
    ),
    ("fn f(x: Served) -> &str { match x { Served::Mute => \"mute\", _ => \"\" } }", 0),
    ("fn f(x: Served) -> bool { matches!(x, Served::Mute) || x != Served::Mute }", 0),
    ("fn f(x: Served) -> Told { match x { Served::Mute => told(Served::Mute), _ => Told::Rest } }", 0),
    ("pub enum Served { Nothing, Mute } use crate::{Cause, Served}; use crate::message::{Cause, Message};", 0),
    ("use wb_states::Reply; fn f(x: V) -> Result<Reply, Cause> { Err(Cause::Write) }", 0),
    ("fn f(x: Option<u8>) -> Option<LineAnswer> { match x { None => Some(g(0)), Some(y) => Some(g(y)) } }", 0),
    ("fn f(x: &X) -> Option<LineAnswer> { if let None = x.y { g(x) } else { h(x.map) } }", 0),
    ("fn f(x: R) -> Option<LineAnswer> { match x { Ok(y) => Some(g(y)), Err(Refusal::Memory) => None } }", 0),
    ("fn f(x: R) -> Option<Command> { x.ok().map(g) } fn g(x: Option<HttpAnswer>) -> Option<u8> { None }", 0),
    ("#[cfg(test)] mod tests { fn f() -> Refusal { Refusal::Memory } }", 0),
    ("#[test] fn f(rt: HostRuntime) -> R { assert_eq!(rt; g(), Err(Refusal::Memory)); Ok(()) }", 0),
    ('// Refusal::Memory\n/* Err(AllocError) /* inner */ Memory */ fn f() -> &str { "Refusal::Memory \\" Memory" }', 0),
]


def planted():
    for text in ("fn f() { g( }", "fn f() { g() }}", "fn f() { g()"):
        try:
            yield f"{len(makings_in({'planted': text}))} makings where it cannot be read: {text}"
        except ValueError:
            pass
    for text, wanted in PLANTED:
        found = len(makings_in({"planted": text}))
        if found != wanted:
            yield f"{found} makings in place of {wanted}: {text}"


def excepted():
    """The makings that are listed, as their file and function."""
    for line in open(EXCEPTIONS, encoding="utf-8"):
        if line.strip() and not line.startswith("#"):
            path, function, reason = (line.split(None, 2) + ["", ""])[:3]
            yield (path, function), reason.strip()


def made():
    listed = list(excepted())
    for place, reason in listed:
        if not reason:
            yield f"{EXCEPTIONS}: {' '.join(place)} has no reason"
    left = [place for place, _ in listed]
    for crate in sorted(glob.glob("crates/*")):
        try:
            makings = makings_in(sources_of(crate), ANSWERS)
        except ValueError as why:
            yield f"{crate} cannot be read: {why}"
            continue
        for path, function, line in makings:
            if (path, function) in left:
                left.remove((path, function))
            else:
                yield f"{path}:{line}: {function} makes want of memory, or gives no answer for it"
    for place in left:
        yield f"{EXCEPTIONS}: {' '.join(place)} makes none any more"


# Sources with how many makings of a formatter's error are in each.
FORMATTERS = [
    ("fn f() -> fmt::Result { Err(fmt::Error) }", 1),
    ("fn f() -> fmt::Result { Err(std::fmt::Error) }", 1),
    ("use std::fmt::{self, Error}; fn f() -> fmt::Result { Err(Error) }", 1),
    ("use std::{fmt, io}; fn f(e: io::Error) -> fmt::Result { Ok(()) }", 0),
    ('// fmt::Error\nfn f() -> fmt::Result { write!(w, "fmt::Error") }', 0),
]


def formatter_errors(text):
    """The lines of a source on which the error of a formatter is named or imported."""
    tokens = tokens_of(text)
    for at, token in enumerate(tokens):
        before = [it.text for it in tokens[max(0, at - 2) : at]]
        if token.text == "Error" and before == ["fmt", "::"]:
            yield token.line
        if token.text == "use":
            end = next((n for n in range(at, len(tokens)) if tokens[n].text == ";"), len(tokens))
            words = [it.text for it in tokens[at:end]]
            if "Error" in words and "fmt" in words[:-1] and words[words.index("fmt") + 1] == "::":
                yield token.line


def printed():
    for text, wanted in FORMATTERS:
        found = len(list(formatter_errors(text)))
        if found != wanted:
            yield f"{found} errors of a formatter in place of {wanted}: {text}"
    for crate in sorted(glob.glob("crates/*")):
        for path, text in sources_of(crate).items():
            for line in formatter_errors(text):
                yield f"{path}:{line} makes an error of a formatter"


def finds_what_is_planted():
    expect_none(planted())


def memory_is_wanted_only_where_a_growth_was_refused():
    expect_none(made())


def printing_fails_only_where_the_writer_does():
    expect_none(printed())


TESTS = [
    finds_what_is_planted, memory_is_wanted_only_where_a_growth_was_refused, printing_fails_only_where_the_writer_does,
]

if __name__ == "__main__":
    os.chdir(ROOT)
    sys.exit(main(TESTS))
