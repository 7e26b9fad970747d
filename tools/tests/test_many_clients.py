#!/usr/bin/env python3
"""Tests of the serving program with many clients at once: slow, silent, broken and resetting ones delay nobody and take
little memory; each request that comes whole is answered as if it were alone, once; and the answers of clients at once
are those of one order of their commands, also over kills and a store that fails.

    tools/tests/test_many_clients.py [NAME..]     these tests, or all

From the environment: WB is the program, ./wb of this repository where it is not set; MANY is how many requests 50
clients send at random, 10000 where it is not set; KILLS is how often the program is killed under that load, 15 where it
is not set; LATE is after how many seconds an answer to a quick client counts as delayed, 1 where it is not set; SEED is
added to the number of each random choice.
"""
import asyncio
import contextlib
import json
import os
import random
import resource
import shlex
import shutil
import signal
import subprocess
import sys
import time

import client_orders
from client_runs import (
    BAD_HEAD, NOT_HELD, QUERY, UNKNOWN, asked, beside, connected, peak, pieces, remarks, reset_at_close, rest, send,
    shown, some,
)
from harness import ROOT, SEED, WAIT, Failure, answers_of, expect, expect_none, limit_files, main
from office_model import REMOVED
from serve_runs import Server, answer_bytes, received, request_bytes, with_lists_of_page
from soak_audit import removals
from store_runs import rows_of

MANY, KILLS = int(os.environ.get("MANY", "10000")), int(os.environ.get("KILLS", "15"))
LATE = float(os.environ.get("LATE", "1"))
PLACES, LIMIT = 256, 30  # connections at once, and seconds for each
MEGABYTES = 150  # of memory at most
LONG = "1" * 980
NEXT = request_bytes("/v1/next", '{"arch":"amd64","builder":"b1"}')


def errors(folder):
    """The file for what the program says of clients, of which a pipe would have no room for all."""
    return open(folder / "errors", "wb")


def said(folder):
    return (folder / "errors").read_text(encoding="utf-8")


def large_office(folder, count=3500):
    """An office with so many records of long versions, of which all wait: together more than a socket has room for.
    Gives the request for them."""
    text = "".join(f"Package: s{at:04d}\nVersion: {LONG}.{at}\nArchitecture: any\n\n" for at in range(count))
    (folder / "sources").write_text(text)
    (folder / "packages").write_text("")
    answers = answers_of(folder, ["add-arch amd64 linux amd64", "add-builder b1 amd64", "merge sources amd64=packages"])
    expect(answers[-1].get("accepted") == 3, f"{answers}")
    return request_bytes("/v1/state/amd64/Needs-Build", "", method="GET")


# ---- clients that others do not wait for


async def breaks_off(port, ends, chance):
    """Clients one after another that close or reset within a request, or send what is none."""
    count = 0
    while not ends.is_set():
        count += 1
        async with connected(port) as link:
            with contextlib.suppress(ConnectionError):
                await send(link, chance.choice([NEXT[:20], NEXT[:80], b"", b"\0\xff\r\n\r\n"]))
                if chance.random() < 0.5:
                    reset_at_close(link)
        await asyncio.sleep(0.03)
    return count


async def slow_ones(port):
    """3 clients that say nothing, 20 that send a byte a second, and some that break off."""
    ends, chance = asyncio.Event(), random.Random(SEED)
    broken = [asyncio.create_task(breaks_off(port, ends, chance)) for _ in range(2)]
    silent = [asyncio.create_task(asked(port, b"")) for _ in range(3)]
    await asyncio.sleep(0.1)
    request = [bytes([byte]) for byte in b"GET /v1/mine/b HTTP/1.1\n\n"]
    slow = await asyncio.gather(*(asked(port, *request, gap=1) for _ in range(20)))
    ends.set()
    count = sum(await asyncio.gather(*broken))
    expect(slow == [UNKNOWN] * 20, f"slow clients are answered {set(slow)}")
    expect(await asyncio.gather(*silent) == [b""] * 3, "a silent client is answered")
    return count


def delays_nobody(folder):
    """Quick clients are answered at once beside 3 that say nothing, 20 that send a byte a second, and some that break
    off or reset; the slow ones are answered too, and the silent ones are closed in the end."""
    with errors(folder) as file, Server(folder, store=None, errors=file) as server:
        begun = time.monotonic()
        count, times = asyncio.run(beside(server.port, slow_ones(server.port)))
        took = time.monotonic() - begun
        expect(LIMIT - 2 < took < LIMIT + 6, f"the silent ones were let go after {took:.1f} s")
        expect(times[-1] < LATE, f"a quick client waited: {shown(times)}")
    return f"{shown(times)}; {count} that broke off"


def takes_answers_slowly(folder):
    """Clients that ask for 7 MB and take nothing of it delay nobody, and are let go 30 seconds after they came; one
    that takes it in 8 seconds gets it whole."""
    request = large_office(folder)

    async def taken(port):
        """What a client takes of it, half a second after another."""
        async with connected(port, room=65536) as link:
            await send(link, request)
            parts = [await some(link)]
            for _ in range(16):
                await asyncio.sleep(0.5)
                parts.append(await some(link, 500000))
            return b"".join(parts) + await rest(link)

    async def idle(port):
        async with connected(port, room=4096) as link:
            await send(link, request)
            await asyncio.sleep(LIMIT + 2)
            return len(await rest(link))

    async def all_of(port):
        return await asyncio.gather(taken(port), *(idle(port) for _ in range(4)))

    with errors(folder) as file, Server(folder, errors=file) as server:
        whole = server.says(request)
        (met, *cut), times = asyncio.run(beside(server.port, all_of(server.port)))
        expect(met == whole and len(whole) > 7000000, f"{len(met)} of {len(whole)} bytes")
        expect(all(0 < length < len(whole) for length in cut), f"{cut} of {len(whole)} bytes")
        expect(times[-1] < 4 * LATE, f"a quick client waited: {shown(times)}")  # for the making of five answers
    lines = "wb: an answer of status 200 was not written to its end\n" * 4
    expect(said(folder) == lines, f"{said(folder)}")
    return shown(times)


def makes_room_for_others(folder):
    """Beside 300 connections that say nothing others are answered within some seconds; all that say nothing are closed
    without an answer, the first of them before their time."""

    async def silent(port):
        begun = time.monotonic()
        met = await asked(port, b"")
        expect(met == b"", f"a silent client is answered {met}")
        return time.monotonic() - begun

    async def all_silent(port):
        return await asyncio.gather(*(silent(port) for _ in range(300)))

    with errors(folder) as file, Server(folder, store=None, errors=file) as server:
        closed, times = asyncio.run(beside(server.port, all_silent(server.port), pause=0.5))
        expect(times[-1] < 4 + LATE, f"a quick client waited: {shown(times)}")
        early = sum(taken < LIMIT - 2 for taken in closed)
        expect(early >= 300 - PLACES, f"{early} were closed before their time")
        expect(max(closed) < LIMIT + 8, f"one was closed after {max(closed):.1f} s")
        time.sleep(1.1)
        expect(server.ask("GET", "/v1/mine/b1")[0] == 404, "no answer")
    return f"{shown(times)}; {early} made room"


def lets_go_no_request_that_came(folder):
    """A request that came whole while the office was busy for long is answered, also if all places are taken then and
    others wait; but for one at most, since the signal that stops it here also has it look once without seeing what
    came."""
    with Server(folder, store=None) as server, contextlib.ExitStack() as links:
        first = [links.enter_context(server.connect()) for _ in range(PLACES)]
        time.sleep(0.5)
        server.process.send_signal(signal.SIGSTOP)  # in the place of an exchange that takes long
        later = [links.enter_context(server.connect()) for _ in range(100)]
        for link in first + later:
            link.sendall(QUERY)
        time.sleep(1.5)
        server.process.send_signal(signal.SIGCONT)
        met = [received(link) for link in first + later]
        expect(met.count(UNKNOWN) >= len(met) - 1, f"{met.count(b'')} of {len(met)} have no answer")


# ---- memory


def reads_slow_bodies(folder):
    """200 bodies of 60 KB, each sent in ten seconds: all are answered, others are not delayed, and there is memory for
    all."""
    request = request_bytes("/v1/built", b'{"take":1,"x":"' + b"a" * 60000 + b'"}')

    async def bodies(port):
        return await asyncio.gather(*(asked(port, *pieces(request, 6010), gap=1) for _ in range(200)))

    with Server(folder, store=None) as server:
        met, times = asyncio.run(beside(server.port, bodies(server.port)))
        expect(met == [NOT_HELD] * 200, f"{sum(answer != NOT_HELD for answer in met)} are answered otherwise")
        expect(times[-1] < LATE, f"a quick client waited: {shown(times)}")
        expect(peak(server) < MEGABYTES, f"{peak(server):.0f} MB of memory")
        return f"{shown(times)}; {peak(server):.0f} MB"


def reads_large_bodies(folder):
    """Five bodies of 16 MiB at once, more than there is room for: all are answered, others wait for the reading of one
    at most, and no more memory is taken than for a few."""
    body = b'{"take":1,"x":"'
    request = request_bytes("/v1/built", body + b"a" * (16777216 - len(body) - 2) + b'"}')

    async def bodies(port):
        return await asyncio.gather(*(asked(port, *pieces(request, 500000), gap=0.02) for _ in range(5)))

    with Server(folder, store=None) as server:
        met, times = asyncio.run(beside(server.port, bodies(server.port)))
        expect(met == [NOT_HELD] * 5, f"{sum(answer != NOT_HELD for answer in met)} are answered otherwise")
        expect(times[-1] < 4 * LATE, f"a quick client waited: {shown(times)}")
        expect(peak(server) < MEGABYTES, f"{peak(server):.0f} MB of memory")
        return f"{shown(times)}; {peak(server):.0f} MB"


def keeps_few_answers(folder):
    """30 clients that ask for 7 MB and take nothing of it: only some of the answers are made at a time, there is memory
    for them, and others are answered in the end."""
    request = large_office(folder)

    async def idle(port):
        async with connected(port, room=4096) as link:
            await send(link, request)
            await asyncio.sleep(10)

    async def all_idle(port):
        await asyncio.gather(*(idle(port) for _ in range(30)))

    with errors(folder) as file, Server(folder, errors=file) as server:
        _, times = asyncio.run(beside(server.port, all_idle(server.port)))
        expect(peak(server) < MEGABYTES, f"{peak(server):.0f} MB of memory")
        return f"{shown(times)}; {peak(server):.0f} MB"


def takes_no_steady_client_for_an_idle_one(folder):
    """Of clients that all take 7 MB steadily, at 1 MB a second and together more than there is room for, each gets its
    answer whole, and a report of 100 KB that comes meanwhile is answered; and so is a client that pauses for some
    seconds while five others send 16 MiB steadily."""
    request = large_office(folder)
    report = request_bytes("/v1/report", json.dumps({"arch": "amd64", "text": "\n" * 100000}))
    body = b'{"take":1,"x":"'
    large = request_bytes("/v1/built", body + b"a" * (16777216 - len(body) - 2) + b'"}')

    async def taken(port, pause):
        """How many bytes a client gets that pauses at first, and then takes the rest little by little."""
        async with connected(port, room=65536) as link:
            await send(link, request)
            length = len(await some(link, 1000))
            await asyncio.sleep(pause)
            with contextlib.suppress(ConnectionError):
                while part := await some(link, 65536):
                    length += len(part)
                    await asyncio.sleep(0.05)
            return length

    async def steady(port):
        return await asyncio.gather(asked(port, b"", report, gap=1), *(taken(port, 0) for _ in range(11)))

    async def with_bodies(port):
        bodies = (asked(port, *pieces(large, 300000), gap=0.1) for _ in range(5))
        return await asyncio.gather(taken(port, 6), *bodies)

    with errors(folder) as file, Server(folder, errors=file) as server:
        whole = len(server.says(request))
        answer, *met = asyncio.run(steady(server.port))
        expect(met == [whole] * 11, f"{sum(length < whole for length in met)} of 11 answers were cut: {met}")
        expect(b'"accepted":4,' in answer, f"the report is answered {answer}")
        length, *met = asyncio.run(with_bodies(server.port))
        expect(met == [NOT_HELD] * 5, f"{sum(answer != NOT_HELD for answer in met)} bodies are answered otherwise")
        expect(length == whole, f"a client that paused got {length} of {whole} bytes")


def answers_large_bodies_of_curl(folder):
    """Bodies of 16 MiB by curl, six at once, which each wait a second after their heads (docs/HTTP.md,
    `Expect: 100-continue`): all are answered."""
    body = b'{"take":1,"x":"'
    (folder / "body").write_bytes(body + b"a" * (16777216 - len(body) - 2) + b'"}')
    with errors(folder) as file, Server(folder, store=None, errors=file) as server:
        words = ["curl", "-sS", "-H", "Expect: 100-continue", "--data-binary", "@body", "-w", "%{http_code}"]
        words += ["-o", "/dev/null", f"http://127.0.0.1:{server.port}/v1/built"]
        for number in range(4):
            pipe = {"stdout": subprocess.PIPE, "stderr": subprocess.STDOUT}
            posts = [subprocess.Popen(words, cwd=folder, **pipe) for _ in range(6)]
            met = [post.communicate(timeout=WAIT)[0] for post in posts]
            expect(met == [b"409"] * 6, f"round {number}: {met}")


def waits_for_no_body_that_stops(folder):
    """Beside five bodies of 16 MiB that stop after their heads, which hold all the room, a report of 100 KB is answered
    in a few seconds; and so is a query beside 256 bodies that stop."""
    answers_of(folder, ["add-arch amd64 linux amd64"])
    report = request_bytes("/v1/report", json.dumps({"arch": "amd64", "text": "\n" * 100000}))
    with errors(folder) as file, Server(folder, errors=file) as server, contextlib.ExitStack() as links:

        def stopped(length, data=b""):
            link = links.enter_context(server.connect())
            link.sendall(request_bytes("/v1/built", data, f"Content-Length: {length}", length="given"))

        for request, lengths in ((report, [16777216] * 3 + [16776000, 16775216]), (QUERY, [100] * PLACES)):
            for length in lengths:
                stopped(length, b"{" if length == 100 else b"")
            time.sleep(0.5)
            begun = time.monotonic()
            met = server.says(request, end=False)
            took = time.monotonic() - begun
            expect(met and took < 8 + LATE, f"{request[:20]} is answered {met[:40]} after {took:.1f} s")
            links.pop_all().close()
            time.sleep(0.5)


def goes_on_without_files(folder):
    """With fewer files than clients others are answered, in some seconds, beside idle ones, and the program goes on."""

    def prepare():
        resource.setrlimit(resource.RLIMIT_NOFILE, (64, 64))

    with errors(folder) as file, Server(folder, store=None, errors=file, prepare=prepare) as server:
        with contextlib.ExitStack() as links:
            for _ in range(80):
                links.enter_context(server.connect())
            for _ in range(10):
                begun = time.monotonic()
                expect(server.says(QUERY) == UNKNOWN, "no answer")
                expect(time.monotonic() - begun < 8 + LATE, f"it came after {time.monotonic() - begun:.1f} s")
        expect(server.says(QUERY) == UNKNOWN, "no answer")


# ---- each request alone


def examples():
    """The lines for the store of docs/HTTP.md, and its examples: the bytes of each request and of its answer."""
    page = (ROOT / "docs" / "HTTP.md").read_text(encoding="utf-8").split("## Examples")[1].split("```")
    lines, rows, found = page[1].splitlines()[1:], page[3].splitlines()[1:], []
    for command, answer in zip(rows[::2], rows[1::2], strict=True):
        words = shlex.split(command.removeprefix("$ "))
        path, body = words[-1].partition(":8080")[2], words[2] if "-d" in words else ""
        name = json.loads(answer).get("refused", json.loads(answer).get("http"))
        status = {None: 200, "UnknownSource": 404, "BadReport": 422, "BadName": 422, "BadBody": 400}.get(name, 409)
        status = 404 if name == "NoList" else status
        found.append((request_bytes(path, body, method="POST" if body else "GET"), answer_bytes(status, answer)))
    return lines, found


def answers_cut_requests_as_whole(folder):
    """Each example of docs/HTTP.md, cut at each of its bytes, with the second half of another client's request and its
    answer between: both are answered as when each is alone, byte for byte."""
    lines, found = examples()
    answers_of(folder, lines)
    more = with_lists_of_page(folder)
    other = b"GET /v1/mine/b9 HTTP/1.1\r\n\r\n"
    for cut in range(1, max(len(request) for request, _ in found)):
        place = folder / str(cut)
        place.mkdir()
        for file in folder.glob("store*"):
            shutil.copy(file, place)
        with Server(place, more=more) as server:
            for request, answer in found:
                with server.connect() as first, server.connect() as second:
                    second.sendall(other[: cut % len(other)])
                    first.sendall(request[:cut])
                    second.sendall(other[cut % len(other) :])
                    expect((met := received(second)) == UNKNOWN, f"the other client is answered {met}, cut at {cut}")
                    first.sendall(request[cut:])
                    expect((met := received(first)) == answer, f"{request}, cut at {cut}, is answered {met}")
    return f"{len(found)} examples"


def serves_no_second_request(folder):
    """Bytes after a request play no part, whether they come with it, after it or after its answer: of two commands the
    second is not carried out, and one answer is sent."""
    answers_of(folder, ["add-arch amd64 linux amd64", "add-builder b1 amd64", "enter amd64 aa 1 optional devel"])
    body = '{"arch":"amd64","source":"aa","version":"1","value":%d}'
    accepted = 3
    with Server(folder) as server:
        for cut in range(0, 240, 3):
            one, two = (request_bytes("/v1/build-priority", body % (cut + more)) for more in (0, 1))
            accepted += 1
            met = asyncio.run(asked(server.port, *filter(None, ((one + two)[:cut], (one + two)[cut:])), gap=0.01))
            wanted = answer_bytes(200, '{"accepted":%d,"ok":"build-priority"}' % accepted)
            expect(met == wanted, f"cut at {cut}: {met}")
            with server.connect() as link:
                accepted += 1
                link.sendall(one)
                met = link.recv(65536)
                with contextlib.suppress(ConnectionError):
                    link.sendall(two)
                met += received(link)
            wanted = answer_bytes(200, '{"accepted":%d,"ok":"build-priority"}' % accepted)
            expect(met == wanted, f"a request after the answer: {met}")
        met = json.loads(server.ask("GET", "/v1/item/amd64/aa")[1])["build_priority"]
        expect(met == 237, f"the last value is {met}")
    expect(rows_of(folder, "SELECT accepted FROM office") == [(accepted,)], "more was accepted than answered")


def answers_those_that_end_early(folder):
    """Clients at once that end their side within a request, one at each byte of it, and one after it: each is answered
    as docs/HTTP.md says, and the whole one gets the package."""
    answers_of(folder, ["add-arch amd64 linux amd64", "add-builder b1 amd64", "enter amd64 aa 1 optional devel"])
    head = NEXT.index(b"\r\n\r\n") + 4

    async def all_cuts(port):
        return await asyncio.gather(*(asked(port, NEXT[:cut], end=True) for cut in range(len(NEXT) + 1)))

    with Server(folder) as server:
        *met, whole = asyncio.run(all_cuts(server.port))
        wanted = [b""] + [BAD_HEAD] * (head - 1) + [answer_bytes(400, '{"http":"BodyCut"}')] * (len(NEXT) - head)
        expect_none(f"cut at {at}: {one}" for at, one in enumerate(met) if one != wanted[at])
        expect(b'"take":1,' in whole, f"{whole}")


def carries_out_once_what_was_reset(folder):
    """Clients that reset at once after a command, or within a long answer, cost nobody else anything: of each command
    at most one stands, in the order of its count, and it stands if its answer had begun."""
    request = large_office(folder)
    answers_of(folder, ["add-arch arm64 linux arm64", "add-builder b2 arm64"])
    answers_of(folder, [f"enter arm64 aa{at} 1 optional devel" for at in range(300)])
    chance = random.Random(SEED)

    async def reset(port):
        """Whether a `next` that is reset a little later had its answer then."""
        async with connected(port) as link:
            await send(link, request_bytes("/v1/next", '{"arch":"arm64","builder":"b2"}'))
            await asyncio.sleep(chance.choice([0, 0, 0.003, 0.03, 0.3]))
            reset_at_close(link)
            try:
                return bool(link.recv(1))
            except BlockingIOError:
                return False

    async def reset_within(port):
        async with connected(port, room=4096) as link:
            await send(link, request)
            expect(await some(link, 1000), "no answer begins")
            reset_at_close(link)

    async def all_of(port):
        waves = [await asyncio.gather(*(reset(port) for _ in range(10))) for _ in range(30)]
        await asyncio.gather(*(reset_within(port) for _ in range(3)))
        return sum(map(sum, waves))

    with errors(folder) as file, Server(folder, errors=file) as server:
        answered, times = asyncio.run(beside(server.port, all_of(server.port)))
        expect(times[-1] < 4 * LATE, f"a quick client waited: {shown(times)}")  # for the making of three answers
        held = json.loads(server.ask("GET", "/v1/mine/b2")[1])["records"]
        counted = json.loads(server.ask("GET", "/v1/summary/arm64")[1])["accepted"] - 305
        takes, names = [one["take"] for one in held], {one["source"] for one in held}
        expect(takes == list(range(1, counted + 1)) and len(names) == counted, f"{counted} accepted, and {takes} held")
        expect(answered <= counted <= 300, f"{answered} were answered, and {counted} accepted")
    cut = said(folder).count("wb: an answer of status 200 was not written to its end\n")
    expect(3 <= cut + remarks(said(folder))[1], f"{said(folder)[-300:]}")
    return f"{answered} of 300 had their answer, {counted} stand; {shown(times)}"


# ---- one order


def answers_as_one_order(folder):
    """Requests at random of 50 clients at once over an office of four architectures: the model gives each answer, in an
    order in which nothing comes before what was answered when it was sent."""
    office = client_orders.begun(folder)
    with Server(folder, more=client_orders.SERVED) as server:
        met = asyncio.run(client_orders.under_load(server.port, MANY, 50, SEED))
        client_orders.judge(office, met, client_orders.Looked(server))
    wanted = {(name, said) for name in REMOVED for said in ("accepted", "StillHeld", "refused otherwise")}
    missing = wanted - removals(met).keys() if MANY >= 10000 else ()
    expect(not missing, f"no removal was {sorted(missing)}")
    return client_orders.kinds(met)


def finds_orders_that_cannot_be(folder):
    """What is planted in the answers of such a load is found: a count twice, a lost command, an old answer to a query,
    another answer to a command, and a count from before the command was sent."""
    office = client_orders.begun(folder)
    with Server(folder, more=client_orders.SERVED) as server:
        met = asyncio.run(client_orders.under_load(server.port, 400, 20, SEED))
        looked = client_orders.Looked(server)
    accepted = sorted((one for one in met if one.accepted is not None), key=lambda one: one.accepted)
    query = next(one for one in met if one.name == "summary" and one.said.get("accepted", 0) > office.accepted + 9)
    one, other, last = accepted[3], accepted[4], accepted[-1]
    plants = {
        "a count twice": (one, {"said": {**one.said, "accepted": other.said["accepted"]}}),
        "a lost command": (last, {"said": {"code": 8, "refused": "NotHeld"}, "status": 409}),
        "an old answer": (query, {"said": {**query.said, "accepted": office.accepted}}),
        "another answer": (other, {"said": {**other.said, "ok": "uploaded", "more": 1}}),
        "a late count": (accepted[9], {"sent": 10**9, "got": 10**9 + 1}),
    }
    client_orders.judge(office.twin(), met, looked)
    for name, (planted, values) in plants.items():
        kept = {key: getattr(planted, key) for key in values}
        vars(planted).update(values)
        with contextlib.suppress(Failure):
            client_orders.judge(office.twin(), met, looked)
            raise AssertionError(f"{name} is not found")
        vars(planted).update(kept)
    return f"{len(plants)} plants"


def keeps_what_was_answered(folder):
    """Killed at any moment under that load, again and again: what was answered is there, in an order that can be, no
    take number twice; of the clients without an answer one command each stands at most, and in all no more than one
    that was carried out when the kill came."""
    office, chance = client_orders.begun(folder), random.Random(SEED)
    sent, stood, most = 0, 0, 0
    for number in range(KILLS):
        with Server(folder, more=client_orders.SERVED) as server:

            async def kill():
                await asyncio.sleep(chance.uniform(0.02, 0.4))
                server.process.kill()

            met = asyncio.run(client_orders.under_load(server.port, 10**9, 50, SEED + number, kill()))
        with Server(folder) as server:
            looked = client_orders.Looked(server)
        try:
            found = client_orders.judge(office, met, looked)
        except Failure as why:
            raise Failure(f"kill {number}: {why}") from None
        sent, stood, most = sent + len(met), stood + found, max(most, found)
    expect(most <= 1, f"{most} commands stood after a kill of which nobody was told")
    return f"{KILLS} kills, {sent} requests, {office.accepted} accepted, {stood} without an answer stand"


# ---- ends


def answers_all_when_the_office_closes(folder):
    """If the store fails while clients wait, each whose request had come is answered: as before, with Store, or with
    Closed after it. One that was taking an answer gets it whole, one whose request had not come gets none, and the
    program ends with 3."""
    request = large_office(folder)
    with errors(folder) as file, Server(folder, errors=file, prepare=limit_files(400000)) as server:
        whole = server.says(request)
        with contextlib.ExitStack() as links:
            taking, half = (links.enter_context(server.connect()) for _ in range(2))
            taking.sendall(request)
            begun = taking.recv(1000)
            half.sendall(NEXT[:80])
            time.sleep(0.2)
            server.process.send_signal(signal.SIGSTOP)
            waiting = [links.enter_context(server.connect()) for _ in range(100)]
            for at, link in enumerate(waiting):
                body = {"arch": "amd64", "source": f"s{at:04d}", "version": f"{LONG}.{at}", "note": "x" * 900}
                link.sendall(request_bytes("/v1/fail", json.dumps(body)))
            server.process.send_signal(signal.SIGCONT)
            met = [received(link) for link in waiting]
            expect(begun + received(taking) == whole, "an answer that had begun was cut")
            expect(received(half) == b"", "half a request was answered")
        status = server.process.wait(WAIT)
    counts = {name: sum(name in answer for answer in met) for name in (b'"accepted"', b'"Store"', b'"Closed"')}
    expect(sum(counts.values()) == 100, f"{counts}: {[answer for answer in met if not answer][:3]}")
    good, failed, closed = counts.values()
    expect(good and failed == 1 and closed, f"{counts}")
    expect(all(answer.startswith(b"HTTP/1.1 503 ") for answer in met if b'"accepted"' not in answer), f"{met}")
    expect(status == 3 and "wb: stopped" in said(folder), f"{status}: {said(folder)}")
    [(accepted,)] = rows_of(folder, "SELECT accepted FROM office")
    expect(3 + good <= accepted <= 3 + good + 1, f"{good} were accepted, and {accepted} stand")
    return f"{good} accepted, {closed} after the office was closed"


def says_little_of_many_clients(folder):
    """Of many clients that get no answer within a second 20 lines are printed, and then how many were left out, also if
    nothing comes after them; no client is left uncounted."""
    count = 150
    with errors(folder) as file, Server(folder, store=None, errors=file) as server:
        begun = time.monotonic()
        for _ in range(count):
            with server.connect() as link:
                link.sendall(b"GET /v1/mi")
                reset_at_close(link)
        took = time.monotonic() - begun
        end = time.monotonic() + 5
        while sum(remarks(said(folder))) < count and time.monotonic() < end:
            time.sleep(0.1)
        printed, left_out = remarks(said(folder))
        expect(20 <= printed <= 20 * (int(took) + 2), f"{printed} lines in {took:.1f} s")
        expect(printed + left_out == count, f"{printed} lines, {left_out} left out, of {count}")
    return f"{printed} lines, {left_out} left out"


def ends_after_so_many_at_once(folder):
    """With `--requests N` and more clients at once N are answered, and the program ends with 0."""

    async def one(port):
        try:
            return await asked(port, QUERY[:20], QUERY[20:], gap=0.2)
        except ConnectionError:
            return b""

    async def all_of(port):
        return await asyncio.gather(*(one(port) for _ in range(120)))

    for number in (1, 20, 100):
        with Server(folder, store=None, requests=number) as server:
            met = asyncio.run(all_of(server.port))
            wanted = [b""] * (120 - number) + [UNKNOWN] * number
            expect(sorted(met) == wanted, f"{number}: {met.count(UNKNOWN)} are answered, and so {set(met)}")
            expect((end := server.end()) == (0, b"", b""), f"{number}: {end}")


TESTS = [
    delays_nobody, takes_answers_slowly, makes_room_for_others, lets_go_no_request_that_came, reads_slow_bodies,
    reads_large_bodies, answers_large_bodies_of_curl, keeps_few_answers, takes_no_steady_client_for_an_idle_one,
    waits_for_no_body_that_stops, goes_on_without_files, answers_cut_requests_as_whole, serves_no_second_request,
    answers_those_that_end_early, carries_out_once_what_was_reset, answers_as_one_order, finds_orders_that_cannot_be,
    keeps_what_was_answered, answers_all_when_the_office_closes, says_little_of_many_clients,
    ends_after_so_many_at_once,
]
if __name__ == "__main__":
    sys.exit(main(TESTS))
