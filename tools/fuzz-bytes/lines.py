"""A plain reading of scripts: which lines are bad, and what may be answered to the others."""

from __future__ import annotations

import re
from dataclasses import dataclass, field

from model import Stamps

LINE_BYTES = 65_536
PHASES = set(
    b"enter pick child verify forward search load confirm lock judge store publish splitstart splitmove splitprev lockparent "
    b"insertchild interiorsplit reparent rootgrow makelayer markunstable link marklayer dropkey lockprev lockabove unlink fixnext "
    b"collapse cleanlayer unlock snap check hop fill".split())
REPLY = rb"absent|new|replaced|removed|full|memory|stale [0-9]+|found(@[0-9]+)? .*|pairs [0-9]+( .*)?"
STEPPED = re.compile(rb"moved|again [1-9][0-9]*|memory|spent|none|done (" + REPLY + rb")")
AT = re.compile(rb"at [a-z]+")
TOP_TREE = b"tree - layer 0"  # the first line of each shape, and of no other tree
SHAPE = re.compile(rb"tree [0-9a-f-]+ layer [0-9]+|( {2})+(border [0-9]+.*|interior.*)")


class Bad(Exception):
    """A line that is bad."""


class Unlike(Exception):
    """An answer that is none of those that a line may have."""


def number(word: bytes, least: int, most: int) -> int:
    if not re.fullmatch(rb"[0-9]+", word) or not least <= int(word) <= most:
        raise Bad
    return int(word)


def digits(word: bytes) -> bytes:
    if len(word) % 2 or not re.fullmatch(rb"[0-9a-fA-F]*", word):
        raise Bad
    return bytes.fromhex(word.decode())


def key_of(word: bytes) -> bytes:
    return b"" if word == b"-" else digits(word)


@dataclass
class Begun:
    tenant: int
    kind: bytes
    key: bytes
    asked: list[int]
    named: list[tuple[int, bytes]]
    stamp: int = 0
    count: int = 0
    after: bool = False
    causes: set[int] = field(default_factory=set)


def begun_of(words: list[bytes]) -> Begun:
    """What a begin asks for, from its tenant on, and for which causes it may be refused."""
    tenant, kind, key = number(words[0], 0, 0xFFFF_FFFF), words[1], key_of(words[2])
    rest = words[3:]
    begun = Begun(tenant, kind, key, [], [])
    if kind == b"putif":
        begun.stamp, rest = number(b"".join(rest[:1]), 0, (1 << 64) - 1), rest[1:]
    if kind in (b"get", b"gets"):
        begun.asked = [number(word, 0, 255) for word in rest]
    elif kind in (b"put", b"putif"):
        if not rest:
            raise Bad
        for word in rest:
            index, equals, value = word.partition(b"=")
            if not equals:
                raise Bad
            begun.named.append((number(index, 0, 255), digits(value)))
    elif kind == b"remove":
        if rest:
            raise Bad
    elif kind == b"scan":
        if len(rest) not in (1, 2) or rest[1:] not in ([], [b"after"]):
            raise Bad
        begun.count, begun.after = number(rest[0], 0, 255), len(rest) == 2
    else:
        raise Bad
    indexes = begun.asked + [index for index, _ in begun.named]
    begun.causes = {cause for cause, holds in [
        (1, len(key) > 251),
        (5, any(index > 15 for index in indexes) or any(a >= b for a, b in zip(indexes, indexes[1:]))),
        (6, any(len(value) > 1_024 for _, value in begun.named)),
        (8, kind == b"scan" and not 1 <= begun.count <= 64),
    ] if holds}
    return begun


def shown(row: dict[int, bytes], asked: list[int]) -> bytes:
    last = max(row)
    return b",".join(b"%d=%s" % (index, row.get(index, b"").hex().encode()) for index in asked or range(last + 1))


class Script:
    """What is known of a script so far: its tenants, the operations that are open, and all rows while they are known."""

    def __init__(self) -> None:
        self.quotas: dict[int, int] = {}
        self.open: dict[int, Begun] = {}
        self.has_begun = False
        self.rows: dict[tuple[int, bytes], dict[int, bytes]] | None = {}
        self.writes: dict[tuple[int, bytes], int] = {}
        self.stamps = Stamps()

    def is_silent(self, line: bytes) -> bool:
        return line == b"" or line.startswith(b"#")

    def check(self, line: bytes, answers: list[bytes]) -> int:
        """How many of the answers are this line's; `Unlike` if it can't have the first."""
        if not answers:
            raise Unlike("it is not answered")
        try:
            if len(line) > LINE_BYTES:
                raise Bad
            return self._check_words([word for word in line.split(b" ") if word], answers)
        except Bad:
            self._want(answers[0] == b"bad line", b"bad line")
            return 1

    def _want(self, holds: bool, due: bytes) -> None:
        if not holds:
            raise Unlike(f"due was {due!r}")

    def _check_words(self, words: list[bytes], answers: list[bytes]) -> int:
        match words:
            case [b"tenant", tenant, quota]:
                self._tenant(number(tenant, 0, 0xFFFF_FFFF), number(quota, 0, 0xFFFF_FFFF), answers[0])
            case [b"begin", name, _, _, _, *_]:
                self._begin(number(name, 1, 999_999), begun_of(words[2:]), answers[0])
            case [b"step" | b"run", name]:
                self._stepped(number(name, 1, 999_999), answers[0])
            case [b"until", name, phase]:
                if phase not in PHASES:
                    raise Bad
                at = number(name, 1, 999_999)
                if not (at in self.open and AT.fullmatch(answers[0])):
                    self._stepped(at, answers[0])
            case [b"shape"]:
                count = next((at for at, answer in enumerate(answers)
                              if at and answer == TOP_TREE or not SHAPE.fullmatch(answer)), len(answers))
                self._want(count > 0 or not self.has_begun, b"a tree")
                return count
            case _:
                raise Bad
        return 1

    def _tenant(self, tenant: int, quota: int, answer: bytes) -> None:
        if self.has_begun:
            raise Bad
        if tenant in self.quotas:
            self._want(answer == b"refused E3", b"refused E3")
        elif not 1 <= quota <= 1_048_576:
            self._want(answer == b"refused E7", b"refused E7")
        else:
            self._want(answer == b"ok", b"ok")
            self.quotas[tenant] = quota

    def _begin(self, name: int, begun: Begun, answer: bytes) -> None:
        if name in self.open:
            raise Bad
        self.has_begun = True
        if begun.tenant not in self.quotas:
            begun.causes.add(4)
        if begun.causes:
            due = sorted(b"refused E%d" % cause for cause in begun.causes)
            self._want(answer in due, b" or ".join(due))
            return
        self._want(answer == b"begun %d" % name, b"begun %d" % name)
        self.open[name] = begun
        if len(self.open) > 1:
            self.rows = None

    def _stepped(self, name: int, answer: bytes) -> None:
        if name not in self.open:
            self._want(answer == b"none", b"none")
            return
        self._want(answer != b"none" and STEPPED.fullmatch(answer) is not None, b"what a step is answered")
        if answer.startswith(b"done "):
            begun = self.open.pop(name)
            if answer.startswith(b"done found"):
                self._want(answer.startswith(b"done found@") == (begun.kind == b"gets"), b"a stamp after gets alone")
            if answer.startswith(b"done stale"):
                self._want(begun.kind == b"putif", b"no stale but after putif")
            if self.rows is not None:
                due = self._reply(begun, answer)
                self._want(answer == b"done " + due, b"done " + due)

    def _reply(self, begun: Begun, answer: bytes) -> bytes:
        """The reply that is due. A stamp that isn't known is learned from the answer."""
        assert self.rows is not None
        owner = (begun.tenant, begun.key)
        row = self.rows.get(owner)
        match begun.kind:
            case b"get":
                return b"absent" if row is None else b"found " + shown(row, begun.asked)
            case b"gets":
                return b"absent" if row is None else b"found@%d " % self._stamp(owner, answer, None) + shown(row, begun.asked)
            case b"remove":
                return b"absent" if self.rows.pop(owner, None) is None else b"removed"
            case b"put" | b"putif":
                if begun.kind == b"putif":
                    standing = 0 if row is None else self._stamp(owner, answer, begun.stamp)
                    if standing != begun.stamp:
                        return b"stale %d" % standing
                count = sum(tenant == begun.tenant for tenant, _ in self.rows)
                if row is None and count == self.quotas[begun.tenant]:
                    return b"full"
                self.rows[owner] = (row or {}) | dict(begun.named)
                self.writes[owner] = self.stamps.new_write()
                return b"new" if row is None else b"replaced"
        keys = sorted(key for tenant, key in self.rows if tenant == begun.tenant and (
            key > begun.key or key == begun.key and not begun.after))[:begun.count]
        return b" ".join([b"pairs %d" % len(keys)] + [
            (key.hex().encode() or b"-") + b":" + shown(self.rows[(begun.tenant, key)], []) for key in keys])


    def _stamp(self, owner: tuple[int, bytes], answer: bytes, asked: int | None) -> int:
        """The stamp of a row, as it is known or as the answer tells it; if it can't be that, the least that it may be."""
        write = self.writes[owner]
        known = self.stamps.stamp(write)
        if known is not None:
            return known
        told = re.match(rb"done (?:found@|stale )([0-9]+)", answer)
        stamp = int(told[1]) if told else asked
        if stamp is not None and (told is None or stamp != asked) and self.stamps.may_be(write, stamp):
            self.stamps.learn(write, stamp)
            return stamp
        return self.stamps.least(write) + (self.stamps.least(write) == asked)


def lines_of(script: bytes) -> list[bytes]:
    """The lines; a CR before an LF is dropped, and an end alone makes no line more."""
    lines = [line[:-1] if line.endswith(b"\r") else line for line in script.split(b"\n")[:-1]]
    last = script.split(b"\n")[-1]
    return lines + ([last] if last else [])


def check_script(script: bytes, out: bytes) -> None:
    """Raises `Unlike` where the answers are none of this script."""
    state, answers = Script(), out.split(b"\n")
    if answers.pop() != b"":
        raise Unlike("the last answer has no end")
    for place, line in enumerate(lines_of(script), 1):
        if state.is_silent(line):
            continue
        try:
            answers = answers[state.check(line, answers):]
        except Unlike as unlike:
            raise Unlike(f"line {place}, {line[:200]!r}: {answers[:1]!r}, {unlike}") from None
    if answers:
        raise Unlike(f"after the last line {answers[0]!r} is answered")
