"""A load of gets, puts, removes and scans over one connection, and how long they took."""

from __future__ import annotations

import random
import time
from collections import Counter, defaultdict, deque
from collections.abc import Iterator
from dataclasses import dataclass, field
from typing import TextIO

from progress import told_time, watched
from rebjauts import (
    SCAN_PAIRS, Connection, Found, Get, Put, RefusedReply, Remove, Reply, Request, Scan, Told)

BAR = 40
PARTS = (50, 90, 95, 99, 99.9)  # of a hundred


@dataclass(frozen=True)
class Bench:
    """How many requests, how many of them at a time, and which: sizes are in bytes."""

    requests: int
    in_flight: int
    puts: int  # in a hundred requests, as the next two; the others are gets
    removes: int
    scans: int
    keys: int
    key_size: int
    value_size: int


@dataclass
class Times:
    """Latencies in seconds, from the sending of a request to its reply, and how they were answered."""

    latencies: dict[str, list[float]] = field(default_factory=lambda: defaultdict(list))
    answers: Counter[str] = field(default_factory=Counter)
    seconds: float = 0.0
    is_refused: bool = False  # whether a request was refused, or told full or no memory


def key_of(number: int, size: int) -> bytes:
    """A key of so many bytes; of fewer than `number` has digits, the last digits are taken."""
    return (b"%0*d" % (size, number))[-size:] if size else b""


def requests_of(bench: Bench, choose: random.Random) -> Iterator[Request]:
    value = b"v" * bench.value_size
    for _ in range(bench.requests):
        key = key_of(choose.randrange(bench.keys), bench.key_size)
        part = choose.randrange(100)
        if part < bench.puts:
            yield Put(key, [(0, value)])
        elif part < bench.puts + bench.removes:
            yield Remove(key)
        elif part < bench.puts + bench.removes + bench.scans:
            yield Scan(key, SCAN_PAIRS)
        else:
            yield Get(key)


def name_of(reply: Reply) -> str:
    match reply:
        case Found():
            return "found"
        case RefusedReply(number):
            return f"refused E{number}"
        case Told():
            return reply.name.lower().replace("_", " ")
    return type(reply).__name__.lower()


def run(connection: Connection, bench: Bench, stream: TextIO | None = None) -> Times:
    """Sends the requests, and takes their times; a stream is told how far they are."""
    began: deque[tuple[str, float]] = deque()

    def timed() -> Iterator[Request]:
        for request in requests_of(bench, random.Random(0)):
            began.append((type(request).__name__.lower(), time.perf_counter()))
            yield request

    times = Times()
    replies = connection.replies(timed(), bench.in_flight)
    start = time.perf_counter()
    for reply in watched(replies, "requests", bench.requests, stream):
        kind, sent = began.popleft()
        times.latencies[kind].append(time.perf_counter() - sent)
        times.answers[name_of(reply)] += 1
        times.is_refused |= isinstance(reply, RefusedReply) or reply in (Told.FULL, Told.NO_MEMORY)
    times.seconds = time.perf_counter() - start
    return times


def quantile(ordered: list[float], part: float) -> float:
    """The least latency that this part of all has at most."""
    return ordered[max(0, -int(-part * len(ordered) // 1) - 1)]


def report(times: Times) -> str:
    """Requests a second, answers, a line of latencies for each kind of request, and a histogram."""
    ordered = {kind: sorted(latencies) for kind, latencies in sorted(times.latencies.items())}
    everything = sorted(latency for latencies in ordered.values() for latency in latencies)
    count = len(everything)
    lines = [
        f"{count} requests in {times.seconds:.2f} s, {count / times.seconds:.0f} a second",
        ", ".join(f"{many} {name}" for name, many in sorted(times.answers.items())),
        "",
        table_line("latency", "requests", [f"p{part}" for part in PARTS] + ["max"]),
    ]
    for kind, latencies in [*ordered.items(), ("all", everything)]:
        parts = [quantile(latencies, part / 100) for part in PARTS] + [latencies[-1]]
        lines.append(table_line(kind, str(len(latencies)), [told_time(part) for part in parts]))
    return "\n".join([*lines, "", *histogram(everything)])


def table_line(name: str, count: str, cells: list[str]) -> str:
    return f"{name:8}{count:>9}" + "".join(f"{cell:>11}" for cell in cells)


def histogram(ordered: list[float]) -> list[str]:
    """A line for each doubling of microseconds in which there are latencies."""
    doublings = Counter(int(latency * 1e6).bit_length() for latency in ordered)
    most = max(doublings.values())
    return [
        f"below {told_time(2 ** doubling / 1e6):>10}  {doublings[doubling]:>9}  "
        + "#" * -(-BAR * doublings[doubling] // most)
        for doubling in range(min(doublings), max(doublings) + 1)
    ]
