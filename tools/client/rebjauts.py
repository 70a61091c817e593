"""A client of the Rebjauts key-value server: this one file, with Python's standard library alone.

    with rebjauts.Connection(port=7411) as connection:
        connection.open(7)
        connection.put(b"greeting", {0: b"hello"})
        connection.get(b"greeting")                  # [b"hello"]
        stamp, row = connection.get_stamped(b"greeting")
        connection.put_if(b"greeting", stamp, {0: b"hi"})

The first part spells requests and reads replies, as pure functions over bytes. The second part is the
connection, and a pool of connections for many threads. docs/CLIENTS.md says what the bytes mean.

Keys, columns and counts past the server's limits are not looked for here: the server refuses them by
name. Only what can't be spelled at all is refused by this module (`NotSpellable`).
"""

from __future__ import annotations

import collections
import contextlib
import enum
import functools
import os
import queue
import selectors
import socket
import struct
import threading
import time
from collections.abc import Callable, Collection, Iterable, Iterator, Mapping, Sequence
from dataclasses import dataclass
from pathlib import Path
from typing import ClassVar, NoReturn, TypeVar

DEFAULT_HOST = "127.0.0.1"
DEFAULT_PORT = 7411
PORTS = range(1, 65_536)
DEFAULT_TIMEOUT = 10.0  # seconds that a call waits for the server, if it is told nothing else
LONGEST_WAIT = 1_000_000  # seconds; the system's calls take no more than some two million
DEFAULT_POOL = 8  # connections of a pool
LARGEST_POOL = 65_536

# The longest bodies of frames, in bytes.
REQUEST_BYTES = 32_768
REPLY_BYTES = 1_066_882

Result = TypeVar("Result")

# What the server takes; a reply that goes past these is no reply.
KEY_BYTES = 251
COLUMNS = 16
COLUMN_BYTES = 1_024
SCAN_PAIRS = 64


# ---- Errors --------------------------------------------------------------------------------------


class RebjautsError(Exception):
    """What all errors of this module are."""


class NotSpellable(RebjautsError, ValueError):
    """A request that has no bytes: a field is longer than its length can say, or the frame too long."""


class WrongType(NotSpellable, TypeError):
    """A key or a column that is no bytes, a number that is none, or columns that are no mapping."""


class BadArgument(RebjautsError, ValueError):
    """A port, a time limit or a size of a pool that can't be one."""


class BadMap(RebjautsError):
    """A map of tenants that can't be read, or that hasn't the tenant."""


class NotAReply(RebjautsError):
    """Bytes that are no reply, or a reply that its request can't have: the connection is closed."""


class ConnectionFault(RebjautsError):
    """The connection couldn't be made, or is no more."""


class CannotConnect(ConnectionFault):
    """No connection to the server could be made."""


class ConnectionEnded(ConnectionFault):
    """The connection ended, or took too long, with `unanswered` requests begun and not answered.

    Each of these may have taken effect, or not: the first few may have, the others then haven't.
    """

    def __init__(self, why: str, unanswered: int = 0) -> None:
        super().__init__(f"{why}; requests without a reply: {unanswered}")
        self.unanswered = unanswered


class TookTooLong(ConnectionEnded):
    """The server took longer than the time limit: it may be busy, or hang. The connection is closed."""


class PoolBusy(RebjautsError):
    """All connections of a pool were taken for longer than the time limit: nothing was sent."""


class Full(RebjautsError):
    """The tenant has as many pairs as its quota allows, and the key isn't among them."""

    def __init__(self) -> None:
        super().__init__("full: remove keys, or start the server with a larger quota for this tenant")


class Stale(RebjautsError):
    """The key's row hasn't got the stamp that was asked for: nothing changed.

    `stamp` is the stamp that it has; 0 if the key isn't there.
    """

    def __init__(self, stamp: int) -> None:
        super().__init__(f"stale: the row's stamp is {stamp}; get the row again, and decide by what it is now")
        self.stamp = stamp


class NoMemory(RebjautsError):
    """The server had no memory for the command: nothing changed."""

    def __init__(self) -> None:
        super().__init__("no memory: nothing changed; try again later, or give the server more memory")


class Refused(RebjautsError):
    """A refusal: its number, its name, and what to do about it. Nothing changed."""

    number: int = 0
    name: ClassVar[str] = "Unknown"
    remedy: ClassVar[str] = "this client doesn't know the refusal: use one of the server's own version"

    def __init__(self, number: int | None = None) -> None:
        if number is not None:
            self.number = number
        super().__init__(f"E{self.number} {self.name}: {self.remedy}")


class KeyLong(Refused):
    number, name = 1, "KeyLong"
    remedy = "a key has at most 251 bytes: use a shorter one"


class Memory(Refused):
    number, name = 2, "Memory"
    remedy = "the server had no memory to begin: try again later, or give it more memory"


class TenantThere(Refused):
    number, name = 3, "TenantThere"
    remedy = "a tenant is named twice at the server's start: name each once"


class NoTenant(Refused):
    number, name = 4, "NoTenant"
    remedy = "the server serves no such tenant: open another, or start it with this one"


class ColumnRefused(Refused):
    number, name = 5, "Column"
    remedy = "name columns 0 to 15, each once, in rising order, and at least one in a put"


class ColumnLong(Refused):
    number, name = 6, "ColumnLong"
    remedy = "a column has at most 1,024 bytes: part the value into several columns or keys"


class Quota(Refused):
    number, name = 7, "Quota"
    remedy = "a quota is 1 to 1,048,576 pairs: start the server with such a one"


class ScanCount(Refused):
    number, name = 8, "ScanCount"
    remedy = "a scan shows 1 to 64 pairs: ask for fewer, and go on after the last key"


class Spent(Refused):
    number, name = 9, "Spent"
    remedy = "the server has counted to its end: start it anew; a put may have taken effect"


class Device(Refused):
    number, name = 10, "Device"
    remedy = "the server's disk failed: look after it before you rely on what was settled"


class WrongTurn(Refused):
    number, name = 11, "WrongTurn"
    remedy = "a log was given out of turn: this is a fault of the server, report it"


class BadLog(Refused):
    number, name = 12, "BadLog"
    remedy = "a log of the store isn't in the format: restore the store from a copy"


class StampsFall(Refused):
    number, name = 13, "StampsFall"
    remedy = "the store's logs don't fit together: restore the store from a copy"


class OverQuota(Refused):
    number, name = 14, "OverQuota"
    remedy = "the store has more pairs than the quota allows: start the server with a larger one"


class LogCount(Refused):
    number, name = 15, "LogCount"
    remedy = "the store's logs are not all there: bring back those that are missing"


class BadFrame(Refused):
    number, name = 16, "BadFrame"
    remedy = "the bytes were no request, and the session has ended: mend the client, connect again"


class NotOpen(Refused):
    number, name = 17, "NotOpen"
    remedy = "open a tenant first"


class OpenTwice(Refused):
    number, name = 18, "OpenTwice"
    remedy = "a tenant is open already: make another connection for another tenant"


class NoRoom(Refused):
    number, name = 19, "NoRoom"
    remedy = "no server answers this any more: use a newer one"


class NoStore(Refused):
    number, name = 20, "NoStore"
    remedy = "the server keeps nothing on disk: there is nothing to settle"


REFUSALS: dict[int, type[Refused]] = {
    kind.number: kind for kind in Refused.__subclasses__()
}


def refusal_of(number: int) -> Refused:
    """The refusal of this number, 1 to 127."""
    kind = REFUSALS.get(number)
    return kind() if kind else Refused(number)


# ---- Requests and replies ------------------------------------------------------------------------


@dataclass(frozen=True)
class Open:
    tenant: int


@dataclass(frozen=True)
class Get:
    key: bytes
    columns: Sequence[int] = ()


@dataclass(frozen=True)
class GetStamped:
    """A get that shows the row's stamp too: the number of the change that last wrote the row."""

    key: bytes
    columns: Sequence[int] = ()


@dataclass(frozen=True)
class Put:
    """The columns are pairs of index and bytes, and are spelled in this order."""

    key: bytes
    columns: Sequence[tuple[int, bytes]]


@dataclass(frozen=True)
class PutIf:
    """A put if the key's row has this stamp; with 0, if the key isn't there."""

    key: bytes
    stamp: int
    columns: Sequence[tuple[int, bytes]]


@dataclass(frozen=True)
class Remove:
    key: bytes


@dataclass(frozen=True)
class Scan:
    """Up to `count` pairs, from the key `start` on, or behind it."""

    start: bytes
    count: int
    after: bool = False
    columns: Sequence[int] = ()


@dataclass(frozen=True)
class Settle:
    pass


Request = Open | Get | GetStamped | Put | PutIf | Remove | Scan | Settle


class Told(enum.Enum):
    """Replies without fields."""

    OK = 0x00
    ABSENT = 0x01
    NEW = 0x03
    REPLACED = 0x04
    REMOVED = 0x05
    FULL = 0x08
    NO_MEMORY = 0x09


@dataclass(frozen=True)
class Found:
    columns: list[bytes]


@dataclass(frozen=True)
class FoundStamped:
    stamp: int
    columns: list[bytes]


@dataclass(frozen=True)
class StaleReply:
    stamp: int


@dataclass(frozen=True)
class Pairs:
    pairs: list[tuple[bytes, list[bytes]]]


@dataclass(frozen=True)
class Settled:
    number: int


@dataclass(frozen=True)
class RefusedReply:
    number: int


Reply = Told | Found | FoundStamped | StaleReply | Pairs | Settled | RefusedReply


class Written(enum.Enum):
    """What a put did: the key wasn't there, or it was."""

    NEW = "new"
    REPLACED = "replaced"


# ---- Requests as bytes ---------------------------------------------------------------------------


def _number(value: int, width: int, what: str) -> bytes:
    """A number in so many bytes, the heaviest first."""
    if not isinstance(value, int):
        raise WrongType(f"{what} is {type(value).__name__}, and has to be an int")
    try:
        return value.to_bytes(width, "big")
    except OverflowError:
        raise NotSpellable(f"{what} {value} doesn't fit {8 * width} bits") from None


def _string(text: bytes, what: str) -> bytes:
    """A key or a column: its length in two bytes, then itself."""
    if not isinstance(text, (bytes, bytearray, memoryview)):
        raise WrongType(f"{what} is {type(text).__name__}, and has to be bytes: text.encode() makes them")
    return _number(len(text), 2, f"the length of {what},") + text


def _asked(columns: Sequence[int]) -> bytes:
    """The columns asked for; none for all."""
    if not isinstance(columns, Collection):
        raise WrongType(f"the columns are {type(columns).__name__}, and have to be indexes, as [0, 3]")
    indexes = b"".join(_number(index, 1, "the column's index") for index in columns)
    return _number(len(columns), 1, "the number of columns") + indexes


def _named(columns: Sequence[tuple[int, bytes]]) -> bytes:
    """Columns with their indexes."""
    named = b"".join(
        _number(index, 1, "the column's index") + _string(value, "a column")
        for index, value in columns
    )
    return _number(len(columns), 1, "the number of columns") + named


def _body(request: Request) -> bytes:
    match request:
        case Open(tenant):
            return b"\x01" + _number(tenant, 4, "the tenant")
        case Get(key, columns):
            return b"\x02" + _string(key, "the key") + _asked(columns)
        case GetStamped(key, columns):
            return b"\x07" + _string(key, "the key") + _asked(columns)
        case Put(key, columns):
            return b"\x03" + _string(key, "the key") + _named(columns)
        case PutIf(key, stamp, columns):
            return b"\x08" + _string(key, "the key") + _number(stamp, 8, "the stamp") + _named(columns)
        case Remove(key):
            return b"\x04" + _string(key, "the key")
        case Scan(start, count, after, columns):
            front = b"\x05" + (b"\x01" if after else b"\x00") + _string(start, "the key")
            return front + _number(count, 1, "the number of pairs") + _asked(columns)
        case Settle():
            return b"\x06"
    raise TypeError(f"{request!r} is no request")


def encode_request(request: Request) -> bytes:
    """The request's frame. `NotSpellable` where it has none."""
    body = _body(request)
    if len(body) > REQUEST_BYTES:
        raise NotSpellable(f"the request has {len(body)} bytes, and a frame holds {REQUEST_BYTES}")
    return struct.pack(">I", len(body)) + body


# ---- Replies from bytes --------------------------------------------------------------------------


class _Fields:
    """The fields of a body, read from the front."""

    def __init__(self, body: bytes) -> None:
        self._body = body
        self._at = 0

    def bytes(self, count: int) -> bytes:
        end = self._at + count
        if end > len(self._body):
            raise NotAReply("a reply is shorter than its fields say")
        field = self._body[self._at:end]
        self._at = end
        return field

    def number(self, width: int) -> int:
        return int.from_bytes(self.bytes(width), "big")

    def string(self, limit: int, what: str) -> bytes:
        length = self.number(2)
        if length > limit:
            raise NotAReply(f"{what} of {length} bytes, over {limit}")
        return self.bytes(length)

    def row(self) -> list[bytes]:
        count = self.number(1)
        if not 1 <= count <= COLUMNS:
            raise NotAReply(f"a row of {count} columns")
        return [self.string(COLUMN_BYTES, "a column") for _ in range(count)]

    def pairs(self) -> list[tuple[bytes, list[bytes]]]:
        count = self.number(1)
        if count > SCAN_PAIRS:
            raise NotAReply(f"{count} pairs, over {SCAN_PAIRS}")
        pairs = [(self.string(KEY_BYTES, "a key"), self.row()) for _ in range(count)]
        keys = [key for key, _ in pairs]
        if any(before >= after for before, after in zip(keys, keys[1:])):
            raise NotAReply("keys that don't rise")
        return pairs

    def end(self) -> None:
        if self._at < len(self._body):
            raise NotAReply("a reply is longer than its fields say")


def _reply_of(body: bytes) -> Reply:
    fields = _Fields(body)
    kind = fields.number(1)
    reply: Reply
    if kind == 0x02:
        reply = Found(fields.row())
    elif kind == 0x06:
        reply = Pairs(fields.pairs())
    elif kind == 0x07:
        reply = Settled(fields.number(8))
    elif kind == 0x0A:
        reply = FoundStamped(fields.number(8), fields.row())
    elif kind == 0x0B:
        reply = StaleReply(fields.number(8))
    elif kind > 0x80:
        reply = RefusedReply(kind - 0x80)
    else:
        try:
            reply = Told(kind)
        except ValueError:
            raise NotAReply(f"a reply begins with {kind:02x}") from None
    fields.end()
    return reply


def decode_reply(data: bytes | bytearray, start: int = 0) -> tuple[Reply, int] | None:
    """The reply that begins at `start`, and where it ends; None where more bytes are wanted.

    `NotAReply` where the bytes are no beginning of a reply.
    """
    if len(data) < start + 4:
        return None
    length = int.from_bytes(data[start:start + 4], "big")
    if not 1 <= length <= REPLY_BYTES:
        raise NotAReply(f"a reply's length is {length}")
    end = start + 4 + length
    if len(data) < end:
        return None
    return _reply_of(bytes(data[start + 4:end])), end


# ---- What a reply means to its request -----------------------------------------------------------


def _out_of_place(request: Request, reply: Reply) -> NoReturn:
    raise NotAReply(f"{type(request).__name__} was answered {reply}")


def result_of(request: Request, reply: Reply):
    """What the reply gives who asked: a value, or one of `Refused`, `Full`, `Stale`, `NoMemory` is raised.

    None for an Open, a row or None for a Get. A stamp and a row for a GetStamped, 0 and None if the key
    isn't there. `Written` for a Put or a PutIf, whether the key was there for a Remove, a list of pairs for a
    Scan, a number for a Settle.
    """
    match request, reply:
        case _, RefusedReply(number):
            raise refusal_of(number)
        case (Put() | PutIf()), Told.FULL:
            raise Full()
        case PutIf(), StaleReply(stamp):
            raise Stale(stamp)
        case (Get() | GetStamped() | Put() | PutIf() | Remove() | Scan()), Told.NO_MEMORY:
            raise NoMemory()
        case (Open(), Told.OK) | (Get(), Told.ABSENT):
            return None
        case Get(), Found(columns):
            return columns
        case GetStamped(), Told.ABSENT:
            return 0, None
        case GetStamped(), FoundStamped(stamp, columns):
            return stamp, columns
        case (Put() | PutIf()), Told.NEW:
            return Written.NEW
        case (Put() | PutIf()), Told.REPLACED:
            return Written.REPLACED
        case Remove(), Told.REMOVED:
            return True
        case Remove(), Told.ABSENT:
            return False
        case Scan(), Pairs(pairs):
            return pairs
        case Settle(), Settled(number):
            return number
    _out_of_place(request, reply)


def put_request(key: bytes, columns: Mapping[int, bytes]) -> Put:
    """A put of these columns, in the order of their indexes."""
    return Put(key, _in_order(columns))


def put_if_request(key: bytes, stamp: int, columns: Mapping[int, bytes]) -> PutIf:
    """The same, if the key's row has this stamp."""
    return PutIf(key, stamp, _in_order(columns))


def _in_order(columns: Mapping[int, bytes]) -> list[tuple[int, bytes]]:
    if not isinstance(columns, Mapping):
        raise WrongType(f"the columns are {type(columns).__name__}, and have to be a mapping, as {{0: b'v'}}")
    return sorted(columns.items())


# ---- The connection ------------------------------------------------------------------------------

# How many requests may wait for replies at a time, and how many bytes for being sent.
IN_FLIGHT = 256
UNSENT_BYTES = 65_536
_RECEIVE_BYTES = 262_144


def _check_port(port: int) -> None:
    if not isinstance(port, int) or port not in PORTS:
        raise BadArgument(f"the port is {port!r}, and has to be a number from 1 to {PORTS[-1]}")


def _check_wait(seconds: float | None) -> None:
    if seconds is None:
        return
    if not isinstance(seconds, (int, float)) or not 0 < seconds <= LONGEST_WAIT:
        raise BadArgument(
            f"the time limit is {seconds!r}, and has to be over 0 and at most {LONGEST_WAIT} seconds")


class Connection:
    """A connection to a server: one tenant, one thread at a time, replies in the order of requests.

    It sends and receives at the same time: the server stops reading while its replies aren't taken,
    so a client that sent without reading could wait for ever. `timeout` bounds each wait for the
    server, in seconds; None waits for ever. After `ConnectionFault` or `NotAReply` it is closed.
    """

    def __init__(
        self, host: str = DEFAULT_HOST, port: int = DEFAULT_PORT, timeout: float | None = DEFAULT_TIMEOUT
    ) -> None:
        _check_port(port)
        _check_wait(timeout)
        try:
            self._socket = socket.create_connection((host, port), timeout)
        except (OSError, UnicodeError) as error:
            raise CannotConnect(f"no connection to {host}:{port}: {error}") from error
        self._socket.setsockopt(socket.IPPROTO_TCP, socket.TCP_NODELAY, 1)
        self._socket.setblocking(False)
        self._selector = selectors.DefaultSelector()
        self._selector.register(self._socket, selectors.EVENT_READ)
        self._timeout = timeout
        self._unsent = bytearray()
        self._received = bytearray()
        self._read_at = 0
        self._waiting = 0
        self._is_open = True

    def __enter__(self) -> Connection:
        return self

    def __exit__(self, *_: object) -> None:
        self.close()

    def close(self) -> None:
        """Ends the connection. Requests without a reply may have taken effect."""
        if self._is_open:
            self._is_open = False
            self._selector.close()
            self._socket.close()

    def is_idle(self) -> bool:
        """Whether it can be asked: it is open, no exchange is under way, and nothing has come unasked, as its end would."""
        if not self._is_open or self._waiting or self._read_at < len(self._received):
            return False
        self._selector.modify(self._socket, selectors.EVENT_READ)
        return not self._selector.select(0)

    def open(self, tenant: int) -> None:
        """Opens a tenant: once for each connection, and before anything else."""
        self._ask(Open(tenant))

    def get(self, key: bytes, columns: Sequence[int] = ()) -> list[bytes] | None:
        """The key's row, or its named columns in their order; None where the key isn't there."""
        return self._ask(Get(key, columns))

    def get_stamped(
        self, key: bytes, columns: Sequence[int] = ()
    ) -> tuple[int, list[bytes] | None]:
        """The row's stamp, and the row as `get` shows it; 0 and None if the key isn't there."""
        return self._ask(GetStamped(key, columns))

    def put(self, key: bytes, columns: Mapping[int, bytes]) -> Written:
        """Sets these columns of the key in one change, and leaves its others as they are."""
        return self._ask(put_request(key, columns))

    def put_if(self, key: bytes, stamp: int, columns: Mapping[int, bytes]) -> Written:
        """The same if the row has this stamp, or if the key isn't there and the stamp is 0; else `Stale`.

        A call without a reply may have taken effect. Then the row has another stamp: get it again.
        """
        return self._ask(put_if_request(key, stamp, columns))

    def remove(self, key: bytes) -> bool:
        """Takes the key away; whether it was there."""
        return self._ask(Remove(key))

    def scan(
        self, start: bytes, count: int, after: bool = False, columns: Sequence[int] = ()
    ) -> list[tuple[bytes, list[bytes]]]:
        """Up to `count` pairs in the order of their keys, from `start` on, or behind it."""
        return self._ask(Scan(start, count, after, columns))

    def pairs(
        self, prefix: bytes = b"", columns: Sequence[int] = ()
    ) -> Iterator[tuple[bytes, list[bytes]]]:
        """All pairs whose keys begin with `prefix`, in order, by one scan after the other."""
        key, after = prefix, False
        while True:
            found = self.scan(key, SCAN_PAIRS, after, columns)
            for pair in found:
                if not pair[0].startswith(prefix):
                    return
                yield pair
            if len(found) < SCAN_PAIRS:
                return
            key, after = found[-1][0], True

    def keys(self, prefix: bytes = b"") -> Iterator[bytes]:
        """The keys of `pairs`, without most of the columns' bytes."""
        return (key for key, _ in self.pairs(prefix, [COLUMNS - 1]))

    def count(self, prefix: bytes = b"") -> int:
        """How many keys begin with `prefix`, by one scan after the other."""
        return sum(1 for _ in self.keys(prefix))

    def removals(self, prefix: bytes) -> Iterator[bool]:
        """Removes all keys that begin with `prefix`; gives for each whether it was still there.

        They are removed a scan's worth at a time, in one exchange with the next scan. A key that is put meanwhile may stay.
        After an error some are removed, and the others can be by another call.
        """
        found = self.scan(prefix, SCAN_PAIRS, False, [COLUMNS - 1])
        while keys := [key for key, _ in found if key.startswith(prefix)]:
            with self.pipeline() as pipe:
                for key in keys:
                    pipe.remove(key)
                pipe.scan(keys[-1], SCAN_PAIRS, True, [COLUMNS - 1])
            yield from (result for result in pipe.results[:-1] if isinstance(result, bool))
            for result in pipe.results:
                if isinstance(result, RebjautsError):
                    raise result
            found = pipe.results[-1]

    def clear(self, prefix: bytes) -> int:
        """Removes all keys that begin with `prefix`, with b"" all of the tenant, as `removals` does; how many it removed."""
        return sum(self.removals(prefix))

    def settle(self) -> int:
        """Waits until all that was answered before, to any client, is on the disk; how far the logs reach."""
        return self._ask(Settle())

    def pipeline(self) -> Pipeline:
        """Gathers requests, which are sent together at the end of its `with`."""
        return Pipeline(self)

    def replies(self, requests: Iterable[Request], in_flight: int = IN_FLIGHT) -> Iterator[Reply]:
        """Sends the requests, and gives the reply to each, in their order.

        The requests are taken one by one as replies come; at most `in_flight` have no reply at a time.
        Who leaves before the last reply closes the connection.
        """
        return self._exchange(map(encode_request, requests), in_flight)

    def _ask(self, request: Request):
        (reply,) = self._exchange([encode_request(request)], 1)
        return self._judge(request, reply)

    def _judge(self, request: Request, reply: Reply):
        try:
            return result_of(request, reply)
        except NotAReply:
            self.close()
            raise

    def _exchange(self, frames: Iterable[bytes], in_flight: int) -> Iterator[Reply]:
        if not self._is_open:
            raise ConnectionEnded("the connection is closed")
        if self._waiting:
            raise RuntimeError("an exchange of this connection is under way")
        source = iter(frames)
        try:
            while True:
                self._take_frames(source, in_flight)
                if not self._waiting:
                    return
                reply = self._next_reply()
                self._waiting -= 1
                yield reply
        finally:
            if self._waiting:
                self.close()
                self._waiting = 0

    def _take_frames(self, source: Iterator[bytes], in_flight: int) -> None:
        while self._waiting < in_flight and len(self._unsent) < UNSENT_BYTES:
            frame = next(source, None)
            if frame is None:
                return
            self._unsent += frame
            self._waiting += 1

    def _next_reply(self) -> Reply:
        while True:
            found = decode_reply(self._received, self._read_at)
            if found is not None:
                reply, self._read_at = found
                return reply
            del self._received[:self._read_at]
            self._read_at = 0
            self._move()

    def _move(self) -> None:
        """Sends what can be sent, and receives at least one byte or sends at least one."""
        if self._send() > 0:
            return
        events = selectors.EVENT_READ | (selectors.EVENT_WRITE if self._unsent else 0)
        self._selector.modify(self._socket, events)
        if not self._selector.select(self._timeout):
            raise TookTooLong(f"the server took over {self._timeout} seconds", self._waiting)
        self._receive()

    def _send(self) -> int:
        if not self._unsent:
            return 0
        try:
            count = self._socket.send(self._unsent)
        except BlockingIOError:
            return 0
        except OSError:
            # The server has ended the session. What it answered before can still be received.
            self._unsent.clear()
            return 0
        del self._unsent[:count]
        return count

    def _receive(self) -> None:
        try:
            data = self._socket.recv(_RECEIVE_BYTES)
        except BlockingIOError:
            return
        except OSError as error:
            raise ConnectionEnded(f"the connection failed: {error}", self._waiting) from error
        if not data:
            raise ConnectionEnded("the server ended the connection", self._waiting)
        self._received += data


class Pipeline:
    """Requests that are sent together: `results` has one entry for each, in their order.

    An entry is what the call of the same name of `Connection` gives, or the error that it would raise.
    They are sent at the end of the `with`, unless its body raised. Where the connection ends before
    the last reply, `results` has those that came, and the `with` raises `ConnectionEnded`.
    """

    def __init__(self, connection: Connection) -> None:
        self._connection = connection
        self._requests: list[Request] = []
        self._frames: list[bytes] = []
        self.results: list = []

    def __enter__(self) -> Pipeline:
        return self

    def __exit__(self, kind: type[BaseException] | None, *_: object) -> None:
        if kind is None:
            self._send()

    def open(self, tenant: int) -> None:
        self.add(Open(tenant))

    def get(self, key: bytes, columns: Sequence[int] = ()) -> None:
        self.add(Get(key, columns))

    def get_stamped(self, key: bytes, columns: Sequence[int] = ()) -> None:
        self.add(GetStamped(key, columns))

    def put(self, key: bytes, columns: Mapping[int, bytes]) -> None:
        self.add(put_request(key, columns))

    def put_if(self, key: bytes, stamp: int, columns: Mapping[int, bytes]) -> None:
        self.add(put_if_request(key, stamp, columns))

    def remove(self, key: bytes) -> None:
        self.add(Remove(key))

    def scan(
        self, start: bytes, count: int, after: bool = False, columns: Sequence[int] = ()
    ) -> None:
        self.add(Scan(start, count, after, columns))

    def settle(self) -> None:
        self.add(Settle())

    def add(self, request: Request) -> None:
        """Adds a request; `NotSpellable` where it has no bytes."""
        self._frames.append(encode_request(request))
        self._requests.append(request)

    def _send(self) -> None:
        replies = self._connection._exchange(self._frames, IN_FLIGHT)
        for request, reply in zip(self._requests, replies):
            try:
                self.results.append(self._connection._judge(request, reply))
            except (Refused, Full, Stale, NoMemory) as refused:
                self.results.append(refused)


# ---- Servers -------------------------------------------------------------------------------------


def connect(
    tenant: int, host: str = DEFAULT_HOST, port: int = DEFAULT_PORT, timeout: float | None = DEFAULT_TIMEOUT
) -> Connection:
    """A connection with the tenant opened."""
    connection = Connection(host, port, timeout)
    try:
        connection.open(tenant)
    except BaseException:
        connection.close()
        raise
    return connection


class Pool:
    """Connections to one server with one tenant opened, for many threads: each call takes one, and gives it back.

    At most `size` are made, each when it is wanted, and anew if it has ended. Who finds all taken waits for one, and is told
    `PoolBusy` after `timeout` seconds. A process that forks makes its pool after that.

    A connection that broke in the midst of a request leaves open whether that took effect. A read (`get`, `get_stamped`, `scan`)
    changes nothing, so it is sent once more, over a new connection, but not after `TookTooLong`. Nothing else is ever sent again: the
    call raises `ConnectionEnded`, and its caller decides by what is there.

    There is no `settle` here: over a connection that was made anew it would be answered, though the server was started anew, and the
    changes that it was to cover are lost. Put and settle over one connection, in a `with pool.connection()`.
    """

    def __init__(
        self, tenant: int, host: str = DEFAULT_HOST, port: int = DEFAULT_PORT,
        timeout: float | None = DEFAULT_TIMEOUT, size: int = DEFAULT_POOL,
    ) -> None:
        _check_port(port)
        _check_wait(timeout)
        encode_request(Open(tenant))
        if not isinstance(size, int) or not 1 <= size <= LARGEST_POOL:
            raise BadArgument(f"the pool's size is {size!r}, and has to be a number from 1 to {LARGEST_POOL}")
        self._make = functools.partial(connect, tenant, host, port, timeout)
        self._timeout, self._size = timeout, size
        self._places = threading.Semaphore(size)
        self._free: collections.deque[Connection] = collections.deque()  # whose ends are safe for threads
        self._is_open = True

    def __enter__(self) -> Pool:
        return self

    def __exit__(self, *_: object) -> None:
        self.close()

    def close(self) -> None:
        """Ends the connections that nobody has taken, and the others when they are given back."""
        self._is_open = False
        self._end_free()

    @contextlib.contextmanager
    def connection(self) -> Iterator[Connection]:
        """A connection for this thread alone, until the end of the `with`: for pipelines, and for many calls in a row."""
        if not self._places.acquire(timeout=self._timeout):
            raise PoolBusy(f"all {self._size} connections of the pool were taken for {self._timeout} seconds: "
                           "give it more, or take them for less long")
        try:
            connection = self._taken()
            try:
                yield connection
            finally:
                self._give_back(connection)
        finally:
            self._places.release()

    def _taken(self) -> Connection:
        if not self._is_open:
            raise ConnectionEnded("the pool is closed")
        with contextlib.suppress(IndexError):
            while True:
                connection = self._free.pop()
                if connection.is_idle():
                    return connection
                connection.close()
        return self._make()

    def _give_back(self, connection: Connection) -> None:
        if not connection.is_idle():
            connection.close()
            return
        self._free.append(connection)
        if not self._is_open:
            self._end_free()

    def _end_free(self) -> None:
        with contextlib.suppress(IndexError):
            while True:
                self._free.pop().close()

    def _read(self, ask: Callable[[Connection], Result]) -> Result:
        try:
            with self.connection() as connection:
                return ask(connection)
        except ConnectionEnded as ended:
            if isinstance(ended, TookTooLong) or not ended.unanswered:
                raise
        self._end_free()  # the other connections are likely to be broken too
        with self.connection() as connection:
            return ask(connection)

    def get(self, key: bytes, columns: Sequence[int] = ()) -> list[bytes] | None:
        return self._read(lambda connection: connection.get(key, columns))

    def get_stamped(self, key: bytes, columns: Sequence[int] = ()) -> tuple[int, list[bytes] | None]:
        return self._read(lambda connection: connection.get_stamped(key, columns))

    def scan(
        self, start: bytes, count: int, after: bool = False, columns: Sequence[int] = ()
    ) -> list[tuple[bytes, list[bytes]]]:
        return self._read(lambda connection: connection.scan(start, count, after, columns))

    def put(self, key: bytes, columns: Mapping[int, bytes]) -> Written:
        with self.connection() as connection:
            return connection.put(key, columns)

    def put_if(self, key: bytes, stamp: int, columns: Mapping[int, bytes]) -> Written:
        with self.connection() as connection:
            return connection.put_if(key, stamp, columns)

    def remove(self, key: bytes) -> bool:
        with self.connection() as connection:
            return connection.remove(key)


def ping(
    host: str = DEFAULT_HOST, port: int = DEFAULT_PORT, timeout: float = 1.0, tenant: int | None = None
) -> float:
    """In how many seconds a server answers, connecting included.

    Without a tenant it asks for a key of none, which a server that serves refuses. With one it opens it. `CannotConnect`
    says that nobody listens there. `ConnectionEnded` says that somebody does who is full or hangs: it ended the connection,
    or took over `timeout` seconds in all (`TookTooLong`).
    """
    _check_port(port)
    _check_wait(timeout)
    outcome: queue.SimpleQueue[float | RebjautsError] = queue.SimpleQueue()

    def ask() -> None:
        try:
            outcome.put(_answer_time(host, port, min(timeout + 1, LONGEST_WAIT), tenant))  # the wait below ends first
        except RebjautsError as error:
            outcome.put(error)

    # The thread is left alone after the time, also if it waits for a name to be resolved.
    threading.Thread(target=ask, daemon=True).start()
    try:
        found = outcome.get(timeout=timeout)
    except queue.Empty:
        raise TookTooLong(f"{host}:{port} took over {timeout} seconds", 1) from None
    if isinstance(found, RebjautsError):
        raise found
    return found


def _answer_time(host: str, port: int, timeout: float, tenant: int | None) -> float:
    start = time.monotonic()
    with Connection(host, port, timeout) as connection:
        if tenant is not None:
            connection.open(tenant)
        with contextlib.suppress(NotOpen):
            connection.get(b"")
    return time.monotonic() - start


@dataclass(frozen=True)
class Place:
    """Where a server listens."""

    host: str
    port: int


class TenantMap:
    """Which server has which tenant: of a file with a line `TENANT HOST PORT` for each tenant.

    Empty lines, and what follows a `#`, count for nothing.
    """

    def __init__(self, places: Mapping[int, Place], name: str = "the map") -> None:
        self.places = dict(places)
        self._name = name

    @classmethod
    def read(cls, path: str | os.PathLike[str]) -> TenantMap:
        """The map that the file says; `BadMap` if it can't be read."""
        try:
            lines = Path(path).read_text(encoding="utf-8").splitlines()
        except (OSError, UnicodeError) as error:
            raise BadMap(f"{path}: {getattr(error, 'strerror', None) or error}") from None
        places: dict[int, Place] = {}
        for number, line in enumerate(lines, 1):
            words = line.partition("#")[0].split()
            if not words:
                continue
            try:
                tenant, place = _mapped(words)
            except ValueError:
                raise BadMap(f"{path}, line {number}: it has to be TENANT HOST PORT, and is {line!r}") from None
            if tenant in places:
                raise BadMap(f"{path}, line {number}: tenant {tenant} is there twice")
            places[tenant] = place
        return cls(places, str(path))

    def place(self, tenant: int) -> Place:
        """The tenant's server; `BadMap` if the map has none."""
        try:
            return self.places[tenant]
        except KeyError:
            raise BadMap(f"{self._name} has no line for tenant {tenant}") from None

    def connect(self, tenant: int, timeout: float | None = DEFAULT_TIMEOUT) -> Connection:
        """A connection to the tenant's server, with the tenant opened."""
        place = self.place(tenant)
        return connect(tenant, place.host, place.port, timeout)


def _mapped(words: list[str]) -> tuple[int, Place]:
    """A line's tenant and place; `ValueError` if they are none."""
    tenant, host, port = words
    if not (tenant.isascii() and tenant.isdigit() and int(tenant) < 1 << 32):
        raise ValueError(tenant)
    _check_port(int(port))
    return int(tenant), Place(host, int(port))
