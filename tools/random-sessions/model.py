"""The plain model of a server: a dict for each tenant, and a session as a function of its bytes.

It doesn't count steps, so it can't tell a row's stamp. It learns stamps from what the server replies. Where a
stamp is known it has to stay, and stamps have to rise in the order of the writes.
"""

from __future__ import annotations

import bisect
from collections import Counter
from collections.abc import Callable, Iterator, Sequence
from dataclasses import dataclass, field

REQUEST_BYTES = 32_768
KEY_BYTES = 251
COLUMNS = 16
COLUMN_BYTES = 1_024

SCAN_PAIRS = 64

KEY_LONG, NO_TENANT, COLUMN, COLUMN_LONG, SCAN_COUNT = 1, 4, 5, 6, 8
BAD_FRAME, NOT_OPEN, OPEN_TWICE, NO_STORE = 16, 17, 18, 20

OK, ABSENT, FOUND, NEW, REPLACED = b"\x00", b"\x01", b"\x02", b"\x03", b"\x04"
REMOVED, PAIRS, FULL = b"\x05", b"\x06", b"\x08"
FOUND_STAMPED, STALE = b"\x0a", b"\x0b"

LAST_STEP = 1 << 59


class BadBody(Exception):
    """A body that is no request."""


def refused(number: int) -> bytes:
    return bytes([128 + number])


def framed(body: bytes) -> bytes:
    return len(body).to_bytes(4, "big") + body


class Body:
    """The fields of a request's body, from the front."""

    def __init__(self, rest: bytes) -> None:
        self.rest = rest

    def take(self, count: int) -> bytes:
        if len(self.rest) < count:
            raise BadBody
        taken, self.rest = self.rest[:count], self.rest[count:]
        return taken

    def number(self, width: int) -> int:
        return int.from_bytes(self.take(width), "big")

    def text(self) -> bytes:
        return self.take(self.number(2))

    def asked(self) -> bytes:
        return self.take(self.number(1))

    def named(self) -> list[tuple[int, bytes]]:
        return [(self.number(1), self.text()) for _ in range(self.number(1))]


def request_of(body: bytes) -> tuple:
    """The request's name and its fields."""
    fields = Body(body)
    kind = fields.number(1)
    if kind == 1:
        request: tuple = ("open", fields.number(4))
    elif kind == 2:
        request = ("get", fields.text(), fields.asked())
    elif kind == 3:
        request = ("put", fields.text(), fields.named())
    elif kind == 4:
        request = ("remove", fields.text())
    elif kind == 5:
        behind = fields.number(1)
        if behind > 1:
            raise BadBody
        request = ("scan", behind == 1, fields.text(), fields.number(1), fields.asked())
    elif kind == 6:
        request = ("settle",)
    elif kind == 7:
        request = ("get stamped", fields.text(), fields.asked())
    elif kind == 8:
        request = ("put if", fields.text(), fields.number(8), fields.named())
    else:
        raise BadBody
    if fields.rest:
        raise BadBody
    return request


def rises(indexes: Sequence[int]) -> bool:
    """Whether the indexes are of columns, and rise strictly."""
    return all(a < b for a, b in zip(indexes, indexes[1:])) and all(i < COLUMNS for i in indexes)


def shown(row: list[bytes], indexes: bytes) -> bytes:
    """The asked columns of a row as they are told, or all of them where none are named."""
    values = [row[i] if i < len(row) else b"" for i in indexes] if indexes else row
    return bytes([len(values)]) + b"".join(len(value).to_bytes(2, "big") + value for value in values)


class Stamps:
    """The stamps of writes, as far as they were shown. Writes are counted from 1 on, in their order."""

    def __init__(self) -> None:
        self.writes = 0
        self._writes = [0]
        self._stamps = [0]

    def new_write(self) -> int:
        self.writes += 1
        return self.writes

    def stamp(self, write: int) -> int | None:
        """A write's stamp, if it is known."""
        at = bisect.bisect_left(self._writes, write)
        return self._stamps[at] if at < len(self._writes) and self._writes[at] == write else None

    def least(self, write: int) -> int:
        """The least stamp that an unknown one may be."""
        return self._stamps[bisect.bisect_left(self._writes, write) - 1] + 1

    def may_be(self, write: int, stamp: int) -> bool:
        """Whether an unknown stamp may be this: over those of earlier writes, and below those of later ones."""
        at = bisect.bisect_left(self._writes, write)
        most = self._stamps[at] - 1 if at < len(self._stamps) else LAST_STEP
        return self.least(write) <= stamp <= most

    def learn(self, write: int, stamp: int) -> None:
        at = bisect.bisect_left(self._writes, write)
        self._writes.insert(at, write)
        self._stamps.insert(at, stamp)


def no_reply() -> bytes:
    return b""


@dataclass
class Tenant:
    quota: int
    rows: dict[bytes, list[bytes]] = field(default_factory=dict)
    writes: dict[bytes, int] = field(default_factory=dict)


@dataclass
class Model:
    """All tenants, the number of answers, and how often each kind of reply was given.

    `reply` gives the body that the server replies to the request which is asked. A stamp is learned from it.
    """

    tenants: dict[int, Tenant]
    answers: int = 0
    replies: Counter[str] = field(default_factory=Counter)
    stamps: Stamps = field(default_factory=Stamps)
    reply: Callable[[], bytes] = no_reply

    def get(self, tenant: Tenant, key: bytes, indexes: bytes, stamped: bool = False) -> bytes:
        if len(key) > KEY_BYTES:
            return refused(KEY_LONG)
        if not rises(indexes):
            return refused(COLUMN)
        self.answers += 1
        row = tenant.rows.get(key)
        if row is None:
            return ABSENT
        if not stamped:
            return FOUND + shown(row, indexes)
        return FOUND_STAMPED + self._stamp(tenant.writes[key]).to_bytes(8, "big") + shown(row, indexes)

    def known_stamp(self, tenant: Tenant, key: bytes) -> int | None:
        """The stamp of a key's row, if it is known; 0 if the key is missing."""
        return self.stamps.stamp(tenant.writes[key]) if key in tenant.writes else 0

    def _stamp(self, write: int) -> int:
        """The stamp of a write that a reply shows; if it can't be that, the least that it may be."""
        known = self.stamps.stamp(write)
        if known is not None:
            return known
        body = self.reply()
        shown_stamp = int.from_bytes(body[1:9], "big")
        if body[:1] == FOUND_STAMPED and self.stamps.may_be(write, shown_stamp):
            self.stamps.learn(write, shown_stamp)
            return shown_stamp
        return self.stamps.least(write)

    def _stamp_met(self, write: int, asked: int) -> int:
        """The stamp of a write by what a put is replied that asks for this one."""
        known = self.stamps.stamp(write)
        if known is not None:
            return known
        body = self.reply()
        told = int.from_bytes(body[1:9], "big") if body[:1] == STALE else asked
        if body[:1] in (STALE, REPLACED) and (told != asked) == (body[:1] == STALE) and self.stamps.may_be(write, told):
            self.stamps.learn(write, told)
            return told
        return self.stamps.least(write) + (self.stamps.least(write) == asked)

    def remove(self, tenant: Tenant, key: bytes) -> bytes:
        if len(key) > KEY_BYTES:
            return refused(KEY_LONG)
        self.answers += 1
        tenant.writes.pop(key, None)
        return ABSENT if tenant.rows.pop(key, None) is None else REMOVED

    def scan(self, tenant: Tenant, behind: bool, start: bytes, count: int, indexes: bytes) -> bytes:
        if len(start) > KEY_BYTES:
            return refused(KEY_LONG)
        if not rises(indexes):
            return refused(COLUMN)
        if not 1 <= count <= SCAN_PAIRS:
            return refused(SCAN_COUNT)
        self.answers += 1
        keys = sorted(key for key in tenant.rows if key > start or (key == start and not behind))[:count]
        pairs = b"".join(len(key).to_bytes(2, "big") + key + shown(tenant.rows[key], indexes) for key in keys)
        return PAIRS + bytes([len(keys)]) + pairs

    def put(self, tenant: Tenant, key: bytes, named: list[tuple[int, bytes]], stamp: int | None = None) -> bytes:
        """A put, or one on condition of a stamp."""
        if len(key) > KEY_BYTES:
            return refused(KEY_LONG)
        if not named or not rises([index for index, _ in named]):
            return refused(COLUMN)
        if any(len(value) > COLUMN_BYTES for _, value in named):
            return refused(COLUMN_LONG)
        self.answers += 1
        before = tenant.rows.get(key)
        if stamp is not None:
            standing = 0 if before is None else self._stamp_met(tenant.writes[key], stamp)
            if standing != stamp:
                return STALE + standing.to_bytes(8, "big")
        if before is None and len(tenant.rows) == tenant.quota:
            return FULL
        row = list(before or [])
        for index, value in named:
            row += [b""] * (index + 1 - len(row))
            row[index] = value
        tenant.rows[key] = row
        tenant.writes[key] = self.stamps.new_write()
        return NEW if before is None else REPLACED


class Session:
    """One session over the model. `reply` gives the body of the server's reply of a number, from 0 on."""

    def __init__(self, model: Model, reply: Callable[[int], bytes]) -> None:
        self._model = model
        self._reply = reply
        self._opened: Tenant | None = None
        self._unread = b""
        self._replies = 0
        self.has_ended = False

    @property
    def is_closed_rightly(self) -> bool:
        """Whether it ends as it should where the client closes now."""
        return not self.has_ended and not self._unread

    def feed(self, data: bytes) -> Iterator[bytes]:
        """The frames of the replies to all that is whole now, one by one."""
        self._unread += data
        while not self.has_ended and (body := self._next_body()) is not None:
            try:
                request = request_of(body)
            except BadBody:
                yield self._refuse_frame()
                return
            self._model.reply = lambda: self._reply(self._replies)
            reply = self._counted(self._reply_to(request))
            self._replies += 1
            yield framed(reply)
        if not self.has_ended and self._has_bad_length():
            yield self._refuse_frame()

    def _has_bad_length(self) -> bool:
        length = int.from_bytes(self._unread[:4], "big")
        return len(self._unread) >= 4 and not 1 <= length <= REQUEST_BYTES

    def _next_body(self) -> bytes | None:
        end = 4 + int.from_bytes(self._unread[:4], "big")
        if len(self._unread) < 4 or self._has_bad_length() or len(self._unread) < end:
            return None
        body, self._unread = self._unread[4:end], self._unread[end:]
        return body

    def _refuse_frame(self) -> bytes:
        self.has_ended = True
        return framed(self._counted(refused(BAD_FRAME)))

    def _counted(self, reply: bytes) -> bytes:
        names = {0: "ok", 1: "absent", 2: "found", 3: "new", 4: "replaced", 5: "removed", 6: "pairs", 8: "full",
                 10: "found with its stamp", 11: "stale"}
        self._model.replies[names.get(reply[0], f"E{reply[0] - 128}")] += 1
        return reply

    def _reply_to(self, request: tuple) -> bytes:
        if request[0] == "open":
            return self._open(request[1])
        if self._opened is None:
            return refused(NOT_OPEN)
        match request:
            case "get", key, indexes:
                return self._model.get(self._opened, key, indexes)
            case "get stamped", key, indexes:
                return self._model.get(self._opened, key, indexes, stamped=True)
            case "put", key, named:
                return self._model.put(self._opened, key, named)
            case "put if", key, stamp, named:
                return self._model.put(self._opened, key, named, stamp)
            case "remove", key:
                return self._model.remove(self._opened, key)
            case "scan", behind, start, count, indexes:
                return self._model.scan(self._opened, behind, start, count, indexes)
        return refused(NO_STORE)

    def _open(self, number: int) -> bytes:
        if self._opened is not None:
            return refused(OPEN_TWICE)
        self._opened = self._model.tenants.get(number)
        return refused(NO_TENANT) if self._opened is None else OK
