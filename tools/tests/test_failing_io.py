#!/usr/bin/env python3
"""Tests of reads and writes that fail: the program of crates/trials answers a request over HTTP, and lines in a run, by
a reader and a writer of which one call fails, which is each call in turn, once interrupted, once by a fault of the
device, and once by a write that takes no byte. Each trial has an office of its own, over memory. What is answered is
compared byte for byte, with how it ended, how many commands stand, and what a client that asks again is answered. All
answers are stated here by hand.

    tools/tests/test_failing_io.py [NAME..]     these tests, or all

From the environment: TRIALS is the program, that of crates/trials where it is not set, which is then built if need be;
CALLS are the calls that are let fail, as in 1,94, each where it is not set.

A request of which a read fails is not carried out, and nothing is answered. If a write fails, the command was carried
out, and the bytes before that write were answered. A line is acted on once its line feed was read, or the end of the
input after it; that of which a read fails, be it the read of its line feed, is not. So is the read that would find the
end, after the last line feed: all lines were acted on before it. If a write of its answer fails, a line was acted on,
and those after it were not read.
"""
import collections
import os
import subprocess
import sys

from harness import expect, main, trial_program

ALL = 2**63  # more bytes than a call moves, and more calls than there are
READ_FAILURES = ["interrupted", "device"]
WRITE_FAILURES = ["interrupted", "device", "none"]
CALLS = {int(number) for number in os.environ.get("CALLS", "").split(",") if number}


# ---- the program

Ended = collections.namedtuple("Ended", "word status accepted failed answer")
Ended.__doc__ = (
    "How a run or an exchange ended, its status, how many commands stand then, which of the streams failed, and what "
    "was answered."
)

# What an office is asked, and how that has to end.
Step = collections.namedtuple("Step", "kind data limits wanted")


def asked(kind, data, wanted, step=ALL, reads=ALL, writes=ALL, failure="interrupted"):
    """The step in which a read gives, and a write takes, so many bytes at most, and the one after so many reads or
    writes fails."""
    return Step(kind, data, f"{step} {reads} {writes} {failure}", wanted)


def show(trials):
    """Tests how each step of each trial ends. A trial begins with a new office."""
    sent = b"streams\n"
    for trial in trials:
        sent += b"new\n"
        for step in trial:
            sent += f"{step.kind} {len(step.data)} {step.limits}\n".encode() + step.data
    ran = subprocess.run([trial_program()], input=sent, capture_output=True, check=False)
    expect(
        ran.returncode == 0,
        f"the program ended with status {ran.returncode}: {ran.stderr.decode(errors='replace')[-300:]}",
    )
    rest = ran.stdout
    for trial in trials:
        for number, step in enumerate(trial):
            met, rest = first_in(rest)
            said = [f"{one.kind} {one.limits.replace(str(ALL), 'all')}" for one in trial[: number + 1]]
            expect(met == step.wanted, f"after {said}: {met}, and not {step.wanted}")
    expect(rest == b"", f"the program shows more: {rest[:100]}")
    return len(trials)


def first_in(shown):
    """How the first step that is shown ended, and what is shown after it."""
    line, _, rest = shown.partition(b"\n")
    words = line.decode().split(" ")
    expect(len(words) == 5, f"the program shows {line}")
    length = int(words[4])
    expect(len(rest) >= length, "the program shows less than it says")
    return Ended(words[0], int(words[1]), int(words[2]), words[3], rest[:length]), rest[length:]


def calls_to(last):
    """The calls that are let fail, the first being 1, up to this one."""
    return [call for call in range(1, last + 1) if not CALLS or call in CALLS]


# ---- a request

BEFORE = b"add-arch amd64 linux amd64\nadd-builder b1 amd64\nenter amd64 hello 1.0 optional devel\n"
BEFORE_ANSWERS = b'{"accepted":1,"ok":"add-arch"}\n{"accepted":2,"ok":"add-builder"}\n{"accepted":3,"ok":"enter"}\n'
BEGUN = asked("lines", BEFORE, Ended("ran", 0, 3, "none", BEFORE_ANSWERS))

# 94 bytes, of which the body has 31, and what is answered to it, 212 bytes, of which the body has 121.
REQUEST = b'POST /v1/next HTTP/1.1\r\nHost: localhost\r\nContent-Length: 31\r\n\r\n{"arch":"amd64","builder":"b1"}'
ANSWER = b"HTTP/1.1 200 OK\r\nContent-Type: application/json\r\nContent-Length: 121\r\nConnection: close\r\n\r\n"
ANSWER += (
    b'{"accepted":4,"arch":"amd64","build":"1.0","message":"","number":0,"ok":"next","source":"hello","take":1,'
    b'"version":"1.0"}'
)
ANSWERED = Ended("answered", 200, 4, "none", ANSWER)

# What the builder asks that did not get it all.
MINE = b"GET /v1/mine/b1 HTTP/1.1\r\nHost: localhost\r\n\r\n"
MINE_ANSWER = b"HTTP/1.1 200 OK\r\nContent-Type: application/json\r\nContent-Length: 254\r\nConnection: close\r\n\r\n"
MINE_ANSWER += (
    b'{"builder":"b1","records":[{"arch":"amd64","build":"1.0","build_priority":0,"earlier":false,"holder":"b1",'
    b'"message":"","note":"","number":0,'
)
MINE_ANSWER += (
    b'"priority":"optional","section":"devel","source":"hello","state":"Building","take":1,"version":"1.0",'
    b'"waits":""}]}'
)
RETRY = (
    b'POST /v1/next HTTP/1.1\r\nHost: localhost\r\nContent-Length: 41\r\n\r\n{"arch":"amd64","builder":"b1","after":0}'
)
RETRY_ANSWER = b"HTTP/1.1 200 OK\r\nContent-Type: application/json\r\nContent-Length: 122\r\nConnection: close\r\n\r\n"
RETRY_ANSWER += (
    b'{"accepted":4,"arch":"amd64","build":"1.0","message":"","number":0,"ok":"again","source":"hello","take":1,'
    b'"version":"1.0"}'
)
LOST = [
    asked("request", MINE, Ended("answered", 200, 4, "none", MINE_ANSWER)),
    asked("request", RETRY, Ended("answered", 200, 4, "none", RETRY_ANSWER)),
    asked("request", RETRY, Ended("answered", 200, 4, "none", RETRY_ANSWER)),
]


def reads_of_request(step):
    """How many reads of at most so many bytes give the request."""
    return -(-len(REQUEST) // step)


def answers_a_request_in_pieces():
    """The request and its answer are as long as is said above, and are read and written in pieces of any size."""
    expect(
        (len(REQUEST), REQUEST.index(b"{"), len(ANSWER), ANSWER.index(b"{")) == (94, 63, 212, 91),
        "a length that is stated here is wrong",
    )
    steps = (1, 2, 7, 64, 93, 94, 95, ALL)
    return f"{show([[BEGUN, asked('request', REQUEST, ANSWERED, step), *LOST] for step in steps])} sizes"


def carries_out_no_request_of_which_a_read_fails():
    """One byte a read, seven, and all: no byte is answered, and the request that is sent again is the first that is
    carried out."""
    trials = []
    for step in (1, 7, ALL):
        for call in calls_to(reads_of_request(step)):
            for failure in READ_FAILURES:
                cut = asked(
                    "request", REQUEST, Ended("read-failed", 0, 3, "reader", b""), step, reads=call - 1, failure=failure
                )
                trials.append([BEGUN, cut, asked("request", REQUEST, ANSWERED)])
    return f"{show(trials)} reads"


def needs_no_read_after_a_request():
    """The read that would come after the request is not made: it would fail."""
    trials = []
    for step in (1, 7, ALL):
        for failure in READ_FAILURES:
            trials.append(
                [BEGUN, asked("request", REQUEST, ANSWERED, step, reads=reads_of_request(step), failure=failure), *LOST]
            )
    return f"{show(trials)} requests"


# The greatest length of a head and of a body in bytes (docs/HTTP.md). Each read but the last gives a byte of them, so
# an exchange makes at most one read more.
HEAD, BODY = 8192, 16777216
CUT_ANSWER = b"HTTP/1.1 400 Bad Request\r\nContent-Type: application/json\r\nContent-Length: 18\r\nConnection: close"
CUT_ANSWER += b'\r\n\r\n{"http":"BodyCut"}'
LARGE_HEAD = b"HTTP/1.1 431 Request Header Fields Too Large\r\nContent-Type: application/json\r\nContent-Length: 23\r\n"
LARGE_HEAD += b'Connection: close\r\n\r\n{"http":"HeadTooLarge"}'


def largest_request():
    """The request with so many blanks after its body, and so long a further field, that both have their greatest
    length."""
    head, _, body = REQUEST.partition(b"\r\n\r\n")
    head = head.replace(b"Content-Length: 31", b"Content-Length: %d\r\nX: " % BODY)
    return head.ljust(HEAD - 4, b"x") + b"\r\n\r\n" + body.ljust(BODY)


def makes_no_more_reads_than_the_largest_request_has_bytes():
    """Of one byte each. The read that would come after the last byte is not made; nor is one after the end, if the
    client stops before its last byte, or after 8192 bytes that are no whole head."""
    data = largest_request()
    expect((len(data), data.index(b"{")) == (HEAD + BODY, HEAD), "a length that is stated here is wrong")
    endless = data[: HEAD - 4] + b"x" * HEAD
    cut, large = Ended("answered", 400, 3, "none", CUT_ANSWER), Ended("answered", 431, 3, "none", LARGE_HEAD)
    failed = Ended("read-failed", 0, 3, "reader", b"")
    cases = [(data, len(data), ANSWERED), (data, len(data) - 1, failed), (data[:-1], len(data), cut)]
    cases += [(data[:-1], len(data) - 1, failed), (endless, HEAD, large), (endless, HEAD - 1, failed)]
    show([[BEGUN, asked("request", sent, wanted, 1, reads, failure="device")] for sent, reads, wanted in cases])
    return f"{len(data)} reads"


def carries_out_a_request_of_which_a_write_fails():
    """One byte a write: those before it were answered, the command stands, and a retry is answered with the same take
    number."""
    trials = []
    for call in calls_to(len(ANSWER)):
        for failure in WRITE_FAILURES:
            front = Ended("write-failed", 200, 4, "writer", ANSWER[: call - 1])
            trials.append([BEGUN, asked("request", REQUEST, front, 1, writes=call - 1, failure=failure), *LOST])
    return f"{show(trials)} writes"


def makes_no_write_after_an_answer():
    """The write that would come after the answer is not made: it would fail."""
    trials = [
        [BEGUN, asked("request", REQUEST, ANSWERED, 1, writes=len(ANSWER), failure=failure), *LOST]
        for failure in WRITE_FAILURES
    ]
    trials += [
        [
            BEGUN, asked("request", REQUEST, Ended("write-failed", 200, 4, "writer", b""), writes=0, failure=failure),
            *LOST,
        ]
        for failure in WRITE_FAILURES
    ]
    return f"{show(trials)} requests"


def writes_no_answer_before_a_refusal_is_found():
    """A request that is refused, and one with a fault, are answered so, and change nothing, whichever write fails."""
    empty = REQUEST.replace(b"amd64", b"arm64")
    fault = REQUEST.replace(b"POST", b"HEAD")
    refused = (
        b"HTTP/1.1 404 Not Found\r\nContent-Type: application/json\r\nContent-Length: 34\r\nConnection: close\r\n\r\n"
        + b'{"code":1,"refused":"UnknownArch"}'
    )
    wrong = (
        b"HTTP/1.1 405 Method Not Allowed\r\nContent-Type: application/json\r\nContent-Length: 22\r\n"
        b"Connection: close\r\n\r\n"
        + b'{"http":"WrongMethod"}'
    )
    trials = []
    for data, status, answer in ((empty, 404, refused), (fault, 405, wrong)):
        for call in calls_to(len(answer)):
            front = asked(
                "request", data, Ended("write-failed", status, 3, "writer", answer[: call - 1]), 1, writes=call - 1
            )
            trials.append(
                [
                    BEGUN, front, asked("request", data, Ended("answered", status, 3, "none", answer)),
                    asked("request", REQUEST, ANSWERED),
                ]
            )
    return f"{show(trials)} writes"


# ---- lines

# A line, what is answered to it, how many commands stand then, and its status. No answer to a blank line.
Line = collections.namedtuple("Line", "text answer accepted status")

FIVE = [
    Line(b"add-arch amd64 linux amd64", b'{"accepted":1,"ok":"add-arch"}\n', 1, 0),
    Line(b"add-builder b1 amd64", b'{"accepted":2,"ok":"add-builder"}\n', 2, 0),
    Line(b"enter amd64 hello 1.0 optional devel", b'{"accepted":3,"ok":"enter"}\n', 3, 0),
    Line(
        b"next amd64 b1",
        b'{"accepted":4,"arch":"amd64","build":"1.0","message":"","number":0,"ok":"next","source":"hello","take":1,'
        b'"version":"1.0"}\n',
        4,
        0,
    ),
    Line(b"next amd64 b1", b'{"code":7,"refused":"QueueEmpty"}\n', 4, 1),
]

# Lines of each kind: blank ones, a query, a line fault, a file fault, a refusal, and commands between them.
EACH_KIND = [
    Line(b"", b"", 0, 0),
    Line(b"add-arch amd64 linux amd64", b'{"accepted":1,"ok":"add-arch"}\n', 1, 0),
    Line(b"add-arches amd64", b'{"fault":"line"}\n', 1, 2),
    Line(b"merge Sources amd64=Packages", b'{"fault":"file"}\n', 1, 3),
    Line(b" \t", b"", 1, 0),
    Line(b"\tadd-builder  b1 amd64 ", b'{"accepted":2,"ok":"add-builder"}\n', 2, 0),
    Line(b"mine b1", b'{"builder":"b1","records":[]}\n', 2, 0),
    Line(b"next amd64 b9", b'{"code":2,"refused":"UnknownBuilder"}\n', 2, 1),
    Line(b"next \xff", b'{"fault":"line"}\n', 2, 2),
    Line(b"enter amd64 hello 1.0 optional devel", b'{"accepted":3,"ok":"enter"}\n', 3, 0),
]


def joined(lines, ends=True):
    """These lines, of which the last may lack its line feed."""
    data = b"".join(line.text + b"\n" for line in lines)
    return data if ends else data[:-1]


def answers_of(lines):
    return b"".join(line.answer for line in lines)


def accepted_after(lines):
    """How many commands stand after these lines of an office that began empty."""
    return lines[-1].accepted if lines else 0


def whole_run(lines, count, ends=True, **limits):
    """The run over the lines from this number on, of an office that has acted on those before, and of which no call
    fails."""
    rest = lines[count:]
    status = max((line.status for line in rest), default=0)
    data = joined(rest, ends or not rest)
    return asked("lines", data, Ended("ran", status, accepted_after(lines), "none", answers_of(rest)), **limits)


def lines_read_before(lines, ends, call):
    """How many lines were read whole before this read, of one byte, which fails."""
    return joined(lines, ends)[: call - 1].count(b"\n")


def acts_on_lines_in_pieces():
    """The lines are read, and their answers written, in pieces of any size, and the last line feed may be missing."""
    trials = [
        [whole_run(lines, 0, ends, step=step)]
        for lines in (FIVE, EACH_KIND)
        for ends in (True, False)
        for step in (1, 2, 7, 64, ALL)
    ]
    return f"{show(trials)} runs"


def acts_on_no_line_of_which_a_read_fails():
    """The lines before it are answered and stand, and the run over it and those after it goes on from there. Lines are
    read by bytes, however many bytes a read could give; so a run makes one read more than it has bytes, which finds the
    end."""
    trials = []
    for lines in (FIVE, EACH_KIND):
        for ends in (True, False):
            for call in calls_to(len(joined(lines, ends)) + 1):
                count = lines_read_before(lines, ends, call)
                met = Ended("ran", 3, accepted_after(lines[:count]), "reader", answers_of(lines[:count]))
                for step in (1, ALL):
                    for failure in READ_FAILURES:
                        cut = asked("lines", joined(lines, ends), met, step, reads=call - 1, failure=failure)
                        trials.append([cut, whole_run(lines, count)])
    return f"{show(trials)} reads"


def makes_no_read_after_the_end():
    """The read that would come after the end is not made: it would fail."""
    trials = []
    for lines in (FIVE, EACH_KIND):
        for ends in (True, False):
            for failure in READ_FAILURES:
                trials.append([whole_run(lines, 0, ends, step=1, reads=len(joined(lines, ends)) + 1, failure=failure)])
    return f"{show(trials)} runs"


def writes_of(lines, step):
    """For each write of at most so many bytes that the answers to these lines take: the number of its line, and how
    many bytes of the answer were written before. An answer and its line feed are written together."""
    return [(number, at) for number, line in enumerate(lines) for at in range(0, len(line.answer), step)]


def acts_on_a_line_of_which_a_write_fails():
    """The bytes before it were written, the line stands, and the run over those after it goes on from there. One byte a
    write, seven, and all."""
    trials = []
    for lines in (FIVE, EACH_KIND):
        for step in (1, 7, ALL):
            places = writes_of(lines, step)
            for call in calls_to(len(places)):
                number, at = places[call - 1]
                written = answers_of(lines[:number]) + lines[number].answer[:at]
                met = Ended("ran", 3, lines[number].accepted, "writer", written)
                for failure in WRITE_FAILURES:
                    cut = asked("lines", joined(lines), met, step, writes=call - 1, failure=failure)
                    trials.append([cut, whole_run(lines, number + 1)])
    return f"{show(trials)} writes"


def makes_no_write_after_the_answers():
    """The write that would come after the last answer is not made: it would fail."""
    trials = []
    for lines in (FIVE, EACH_KIND):
        for step in (1, 7, ALL):
            for failure in WRITE_FAILURES:
                trials.append([whole_run(lines, 0, step=step, writes=len(writes_of(lines, step)), failure=failure)])
    return f"{show(trials)} runs"


TESTS = [
    answers_a_request_in_pieces, carries_out_no_request_of_which_a_read_fails, needs_no_read_after_a_request,
    makes_no_more_reads_than_the_largest_request_has_bytes, carries_out_a_request_of_which_a_write_fails,
    makes_no_write_after_an_answer,
    writes_no_answer_before_a_refusal_is_found, acts_on_lines_in_pieces, acts_on_no_line_of_which_a_read_fails,
    makes_no_read_after_the_end, acts_on_a_line_of_which_a_write_fails, makes_no_write_after_the_answers,
]

if __name__ == "__main__":
    sys.exit(main(TESTS))
