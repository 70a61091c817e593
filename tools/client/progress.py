"""A line on a terminal about work that lasts, and times as people read them."""

from __future__ import annotations

import time
from collections.abc import Callable, Iterable, Iterator
from typing import TextIO, TypeVar

PERIOD = 0.5  # seconds between two lines, and before the first
CLEAR = "\r\x1b[K"

Item = TypeVar("Item")


def told_time(seconds: float) -> str:
    """A short time, with its unit."""
    if seconds < 0.001:
        return f"{seconds * 1e6:.0f} us"
    return f"{seconds * 1e3:.2f} ms" if seconds < 1 else f"{seconds:.2f} s"


def told_wait(seconds: float) -> str:
    """A long time, in its two heaviest units."""
    minutes, rest = divmod(round(seconds), 60)
    hours, minutes = divmod(minutes, 60)
    if hours:
        return f"{hours} h {minutes} min"
    return f"{minutes} min {rest} s" if minutes else f"{rest} s"


def line(what: str, count: int, seconds: float, total: int | None) -> str:
    """How many there were, how many a second, and the time left if the total is known."""
    rate = count / seconds
    told = f"{count:,} {what}, {rate:,.0f} a second"
    if total is None:
        return told
    return f"{told}, {100 * count // max(total, 1)} % of {total:,}, {told_wait((total - count) / rate)} left"


def watched(
    items: Iterable[Item],
    what: str,
    total: int | None = None,
    stream: TextIO | None = None,
    clock: Callable[[], float] = time.monotonic,
) -> Iterator[Item]:
    """Gives the items, and says on the stream, if there is one, how far they are."""
    if stream is None:
        yield from items
        return
    start = shown = clock()
    try:
        for count, item in enumerate(items, 1):
            yield item
            now = clock()
            if now - shown >= PERIOD:
                shown = now
                stream.write(CLEAR + line(what, count, now - start, total))
                stream.flush()
    finally:
        if shown > start:
            stream.write(CLEAR)
            stream.flush()
