"""Which logs stand in a store's files, as the first bytes of these say. docs/FORMATS.md has the formats."""

from __future__ import annotations

import re
from dataclasses import dataclass
from pathlib import Path

OPEN = b"\x01"  # a gate
NAME = b"MTLOG"
PLAIN_HEAD, NUMBERED_HEAD = 8, 25  # bytes before the first batch's gate
NUMBERED_FORMAT = 3


@dataclass(frozen=True)
class StandingLog:
    """A log that counts: whose it is, of which generation, after which step it begins, and how many bytes its file has."""

    name: str
    worker: int
    generation: int
    start: int
    length: int


def standing_log(path: Path) -> StandingLog | None:
    """The log of a file, if one stands there."""
    with open(path, "rb") as file:
        head = file.read(NUMBERED_HEAD)
    length = path.stat().st_size
    if re.fullmatch("wal-[0-9]{2}", path.name):
        is_log = len(head) >= PLAIN_HEAD and head[:5] == NAME and head[5] in (1, 2)
        return StandingLog(path.name, head[6], 0, 0, length) if is_log else None
    if len(head) < NUMBERED_HEAD or head[:1] != OPEN or head[1:6] != NAME or head[6] != NUMBERED_FORMAT:
        return None
    return StandingLog(path.name, head[7], int.from_bytes(head[9:17], "big"), int.from_bytes(head[17:25], "big"), length)


def standing_logs(store: Path) -> list[StandingLog]:
    """All logs of a store, worker by worker."""
    paths = sorted(path for path in store.iterdir() if re.fullmatch("wal-[0-9]{2}(-[01])?", path.name))
    return [log for path in paths if (log := standing_log(path))]


def generation_alone(logs: list[StandingLog], workers: int) -> int:
    """The generation of which each of so many workers has a log, and no other; -1 in the midst of a turn."""
    generations = {log.generation for log in logs}
    return generations.pop() if len(logs) == workers and len(generations) == 1 else -1


def last_generation(logs: list[StandingLog]) -> int:
    """The greatest generation of which some worker has a log; 0 if there is no log."""
    return max((log.generation for log in logs), default=0)


def total_length(logs: list[StandingLog]) -> int:
    return sum(log.length for log in logs)


def has_checkpoint(store: Path) -> bool:
    """Whether the gate of one of the slots is open."""
    return any((store / name).read_bytes()[:1] == OPEN for name in ("check-0", "check-1"))
