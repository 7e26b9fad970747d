"""The call that the words of a command line are, for tools/bin/wanna-build, and with --forced those that come over ssh.

What stands beside --forced, in the command of a key of ssh, is what calls by this key may say, and what is meant if
they do not say it. --forced=builder leaves them what buildd, buildd-mail and buildd-uploader say.
"""
from __future__ import annotations

import os
import shlex
from collections.abc import Sequence

from wb_tools.wanna_build.settings import WRONG_WORDS, Fault
from wb_tools.wanna_build.words import Call, add_words, check_call

# The words of a builder: what each says, and the options beside them.
BUILDERS = {
    "list": "--list=needs-build", "take": "--take", "built": "--built", "attempted": "--attempted",
    "uploaded": "--uploaded", "give-back": "--give-back", "info": "--info", "dep-wait": "--dep-wait",
    "failed": "--failed", "not-for-us": "--no-build", "may-upload": "--may-upload -",
}  # fmt: skip
BUILDERS_OPTIONS = {"arch", "dist", "database", "user", "api", "min-age", "verbose"}
OF_NO_ARCH = ("may-upload", "owed", "forget")  # a file says for which architecture and suite, or all are meant


def read_words(arguments: Sequence[str]) -> Call:
    """The call that the words are; its fault, if they are none, or are not let through."""
    own = call = Call()
    try:
        add_words(own, arguments)
        if "forced" in own.flags:
            call = Call()
            add_words(call, words_over_ssh())
        if call.action != "help":
            check_call(call)
            if call is not own:
                let_through(call, own)
    except Fault as fault:
        call.fault = str(fault)
    return call


def words_over_ssh() -> list[str]:
    asked = os.environ.get("SSH_ORIGINAL_COMMAND", "")
    try:
        words = shlex.split(asked)
    except ValueError:
        raise Fault(f"these words cannot be read: {asked!r}", WRONG_WORDS) from None
    if not words or words[0].rpartition("/")[2] != "wanna-build":
        raise Fault("only wanna-build may be called", WRONG_WORDS)
    return words[1:]


def let_through(call: Call, own: Call) -> None:
    """Lets a call through that says no other than its forced command, and adds what that says; a Fault says what it may
    say."""
    if "settings" in call.said or "forced" in call.flags:
        raise Fault("--settings and --forced stand in the forced command alone", WRONG_WORDS)
    if call.action == "may-upload" and call.words != ["-"]:
        raise Fault("--may-upload is let through with - alone, for standard input", WRONG_WORDS)
    if own.said.get("database"):
        own.said["arch"] = own.said.get("arch") or own.said["database"].partition("/")[0]
    if own.is_builders:
        check_builders(call, own)
    call.may = {name: own.said[name].split(",") for name in ("arch", "dist", "user") if own.said.get(name)}
    if call.may.get("dist") == ["all"]:
        del call.may["dist"]
    held = {name: held_to(call, name) for name in call.may}
    call.said, call.flags = {**own.said, **call.said, **held}, call.flags | own.flags


def held_to(call: Call, name: str) -> str:
    """The value of an option that a forced command has, too: what the call says, if it may, or what is meant if it says
    nothing."""
    may, said = call.may[name], [call.said[name]] if call.said.get(name) else []
    if name == "arch" and call.said.get("database"):
        said.append(call.said["database"].partition("/")[0])
    if name == "dist" and said:
        said = may if said == ["all"] else said[0].split(",")
    let = " or ".join(f"--{name}={value}" for value in may)
    for value in said:
        if value not in may:
            raise Fault(f"--{name}={value} is not let through: this key may say {let}", WRONG_WORDS)
    if not said and len(may) > 1 and (name == "user" or call.action not in OF_NO_ARCH):
        raise Fault(f"--{name} is missing: this key may say {let}", WRONG_WORDS)
    if name == "dist":
        return ",".join(said or may)
    return said[0] if said else may[0] if len(may) == 1 else ""


def check_builders(call: Call, own: Call) -> None:
    """Lets the words of a builder through alone."""
    if not own.said.get("user") or not own.said.get("arch"):
        raise Fault("--forced=builder stands beside --user and --arch", WRONG_WORDS)
    others = [f"--{name}" for name in [*call.said, *call.flags] if name not in BUILDERS_OPTIONS]
    if call.action not in BUILDERS:
        others.append(call.word)
    elif call.action == "list" and call.value.lower() != "needs-build":
        others.append(f"--list={call.value}")
    if others:
        may = ", ".join(BUILDERS.values())
        raise Fault(f"{others[0]} is not let through: this key may say what buildd says, {may}", WRONG_WORDS)
