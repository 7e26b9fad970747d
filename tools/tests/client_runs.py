"""Clients of the serving program that are there at once, in one thread, for tools/tests/test_many_clients.py: what each
sends and when, quick ones beside others, and what the program takes meanwhile."""
import asyncio
import contextlib
import re
import socket
import struct
import time
from pathlib import Path

from harness import WAIT, expect
from serve_runs import answer_bytes, request_bytes

QUERY = request_bytes("/v1/mine/b9", "", method="GET")
UNKNOWN = answer_bytes(404, '{"code":2,"refused":"UnknownBuilder"}')
BAD_HEAD = answer_bytes(400, '{"http":"BadHead"}')
NOT_HELD = answer_bytes(409, '{"code":8,"refused":"NotHeld"}')


# ---- one client


@contextlib.asynccontextmanager
async def connected(port, room=None):
    """A connection to the program, for whose calls no other client waits. The system keeps about so many bytes for the
    client, if a number is given."""
    with socket.socket() as link:
        link.setblocking(False)
        link.setsockopt(socket.IPPROTO_TCP, socket.TCP_NODELAY, 1)
        if room:
            link.setsockopt(socket.SOL_SOCKET, socket.SO_RCVBUF, room)
        await asyncio.get_running_loop().sock_connect(link, ("127.0.0.1", port))
        yield link


async def send(link, data):
    await asyncio.get_running_loop().sock_sendall(link, data)


async def some(link, size=65536):
    """The next bytes that are answered; none at the end."""
    return await asyncio.get_running_loop().sock_recv(link, size)


async def rest(link):
    """All further bytes that are answered, up to the end or a reset."""
    parts = []
    with contextlib.suppress(ConnectionError):
        while part := await some(link):
            parts.append(part)
    return b"".join(parts)


def reset_at_close(link):
    """Has the connection be reset once it is closed."""
    link.setsockopt(socket.SOL_SOCKET, socket.SO_LINGER, struct.pack("ii", 1, 0))


async def asked(port, *parts, gap=0.0, end=False):
    """All bytes that are answered to these parts of a request, which are sent so many seconds after one another. The
    client then sends no more if end is set."""
    async with connected(port) as link:
        with contextlib.suppress(ConnectionError):
            for at, part in enumerate(parts):
                await asyncio.sleep(gap if at else 0)
                await send(link, part)
            if end:
                link.shutdown(socket.SHUT_WR)
        return await rest(link)


def pieces(data, size):
    """The bytes in parts of so many."""
    return [data[at : at + size] for at in range(0, len(data), size)]


# ---- quick clients beside others


async def quick(port, ends, pause):
    """How many seconds each answer took of a client that asks again and again."""
    times = []
    while not ends.is_set():
        begun = time.monotonic()
        met = await asyncio.wait_for(asked(port, QUERY), WAIT)
        times.append(time.monotonic() - begun)
        expect(met == UNKNOWN, f"a quick client is answered {met}")
        await asyncio.sleep(pause)
    return times


async def beside(port, others, count=4, pause=0.05):
    """What the others come to, and how long answers took that quick clients got meanwhile, from the least on."""
    ends = asyncio.Event()
    clients = [asyncio.create_task(quick(port, ends, pause)) for _ in range(count)]
    try:
        found = await others
    finally:
        ends.set()
        times = await asyncio.gather(*clients)
    return found, sorted(taken for client in times for taken in client)


def shown(times):
    """Times of answers for a reader."""
    middle, late = times[len(times) // 2], times[len(times) * 99 // 100]
    return (
        f"{len(times)} quick answers in {middle * 1000:.1f} ms (half), {late * 1000:.1f} (99 of 100), "
        f"{times[-1] * 1000:.0f} (all)"
    )


# ---- the program


def peak(server):
    """How many MB of memory the program had at most."""
    status = Path(f"/proc/{server.process.pid}/status").read_text(encoding="ascii")
    return int(re.search(r"VmHWM:\s*([0-9]+) kB", status)[1]) / 1024


def remarks(text):
    """How many lines about clients stand in these messages, and how many they say were left out."""
    lines = text.splitlines()
    left_out = [re.fullmatch("wb: ([0-9]+) lines about clients were left out", line) for line in lines]
    said = [line for line in lines if re.match("wb: (a request|an answer|a connection|a command) ", line)]
    return len(said), sum(int(match[1]) for match in left_out if match)
