"""A tenant's pairs in a file: lines of JSON, and a last one with their count and their checksum.

    {"key":"fruit","columns":["apple","red"]}
    {"key":{"base64":"/wA="},"columns":["bytes that are no UTF-8 stand in base64"]}
    {"pairs":2,"sha256":"(of all lines before this one)"}

Keys rise, and nothing else stands there: the same pairs make the same bytes.
"""

from __future__ import annotations

import base64
import contextlib
import hashlib
import itertools
import json
import os
from collections.abc import Iterable, Iterator
from dataclasses import asdict, dataclass
from pathlib import Path

from rebjauts import SCAN_PAIRS, Connection, Full, NoMemory, Put, Refused, put_request, result_of

BATCH = 1_024  # pairs of a load that are looked for, and then put, together

Pair = tuple[bytes, list[bytes]]
Text = str | dict[str, str]

_spelled = json.JSONEncoder(ensure_ascii=False, separators=(",", ":")).encode


class FileFault(Exception):
    """A file that can't be read or written, or that is no whole dump."""


@dataclass(frozen=True)
class End:
    """A dump's last line."""

    pairs: int
    sha256: str


@contextlib.contextmanager
def _system_faults(path: Path) -> Iterator[None]:
    try:
        yield
    except OSError as error:
        raise FileFault(f"{path}: {error.strerror or error}") from None


def dump(pairs: Iterable[Pair], path: Path) -> End:
    """Writes the pairs to a new file, which is there in whole or not at all."""
    with _system_faults(path):
        if path.exists():
            raise FileFault(f"{path} is there already: name another file, or remove it")
        part = path.with_name(path.name + ".part")
        try:
            with part.open("wb") as file:
                end = _write(pairs, file)
                file.flush()
                os.fsync(file.fileno())
            part.rename(path)
        except BaseException:
            part.unlink(missing_ok=True)
            raise
    return end


def _write(pairs: Iterable[Pair], file) -> End:
    digest = hashlib.sha256()
    count = 0
    for count, (key, columns) in enumerate(pairs, 1):
        line = _line({"key": _text_of(key), "columns": [_text_of(column) for column in columns]})
        digest.update(line)
        file.write(line)
    end = End(count, digest.hexdigest())
    file.write(_line(asdict(end)))
    return end


def _line(fields: dict) -> bytes:
    return _spelled(fields).encode() + b"\n"


def _text_of(data: bytes) -> Text:
    try:
        return data.decode()
    except UnicodeDecodeError:
        return {"base64": base64.b64encode(data).decode()}


def _bytes_of(text: Text) -> bytes:
    match text:
        case str():
            return text.encode()
        case {"base64": str(digits)}:
            return base64.b64decode(digits, validate=True)
    raise ValueError(text)


def read_end(path: Path) -> End:
    """The last line of a whole dump; `FileFault` if the file is cut, changed or no dump."""
    digest = hashlib.sha256()
    count, last = 0, b""
    with _system_faults(path), path.open("rb") as file:
        for line in file:
            digest.update(last)
            count += bool(last)
            last = line
    end = _end_of(last)
    if end is None:
        raise FileFault(f"{path} is cut, or no dump: its last line isn't one with a count and a checksum")
    if end.pairs != count:
        raise FileFault(f"{path} has {count} pairs, and its last line says {end.pairs}")
    if end.sha256 != digest.hexdigest():
        raise FileFault(f"{path} was changed: its last line has the checksum of other lines")
    return end


def _end_of(line: bytes) -> End | None:
    with contextlib.suppress(ValueError, RecursionError):
        match json.loads(line):
            case {"pairs": int(pairs), "sha256": str(sha256)} if line.endswith(b"\n"):
                return End(pairs, sha256)
    return None


def read_pairs(path: Path, count: int) -> Iterator[Pair]:
    """The pairs of the first `count` lines; `FileFault` at a line that is none, or whose key doesn't rise."""
    before: bytes | None = None
    with _system_faults(path), path.open("rb") as file:
        for number, line in enumerate(itertools.islice(file, count), 1):
            try:
                key, columns = _pair_of(line)
            except (ValueError, RecursionError):
                raise FileFault(f"{path}, line {number}: it is no pair of a dump") from None
            if before is not None and key <= before:
                raise FileFault(f"{path}, line {number}: its key doesn't rise over the one before")
            before = key
            yield key, columns


def _pair_of(line: bytes) -> Pair:
    match json.loads(line):
        case {"key": key, "columns": [_, *_] as columns}:
            return _bytes_of(key), [_bytes_of(column) for column in columns]
    raise ValueError(line)


def load(connection: Connection, pairs: Iterable[Pair]) -> Iterator[bool]:
    """Puts pairs whose keys rise; gives for each whether it was put, or False if it was there already.

    So a load that was interrupted goes on if it is done again.
    """
    present = _Present(connection)
    source = iter(pairs)
    while batch := list(itertools.islice(source, BATCH)):
        puts = [put_request(key, dict(enumerate(columns)))
                for key, columns in batch if not present.has(key, columns)]
        yield from itertools.repeat(False, len(batch) - len(puts))
        yield from _put_all(connection, puts)


def _put_all(connection: Connection, puts: list[Put]) -> Iterator[bool]:
    """Puts all; what the first of them was refused with is raised when all have their replies."""
    first_fault: Exception | None = None
    for put, reply in zip(puts, connection.replies(puts)):
        try:
            result_of(put, reply)
            yield True
        except (Refused, Full, NoMemory) as fault:
            first_fault = first_fault or fault
    if first_fault is not None:
        raise first_fault


class _Present:
    """What the tenant has of keys that are asked for in rising order, a scan's worth at a time."""

    def __init__(self, connection: Connection) -> None:
        self._connection = connection
        self._rows: dict[bytes, list[bytes]] = {}
        self._last: bytes | None = None  # up to this key the rows are all that there are
        self._is_end = False

    def has(self, key: bytes, columns: list[bytes]) -> bool:
        """Whether a put of these columns would change nothing."""
        if not self._is_end and (self._last is None or key > self._last):
            found = self._connection.scan(key, SCAN_PAIRS)
            self._rows = dict(found)
            self._last = found[-1][0] if found else key
            self._is_end = len(found) < SCAN_PAIRS
        return self._rows.get(key, [])[:len(columns)] == columns
